#!/usr/bin/env python3
"""A record of a real driver's register accesses and commands, as lines of iommu-hw: replay.py IOMMU_HW LOG [SCRIPT]

LOG is what QEMU 11.1.3 or 10.0.2 writes with `-trace memory_region_ops_\\* -trace riscv_iommu_\\*`, or that packed with xz. Each access
to the IOMMU's registers becomes one of iommu-hw, each command a store into the queue before the doorbell behind it, and a
`fetch` where the emulator tells it. A fault becomes a request of a raw device. What is read, and which command is taken, is
compared with the record. With SCRIPT the lines are written there.

The record doesn't tell the driver's stores. So the directory is empty here, and each fault is 258: what is compared of faults
are the registers.

The emulator's memory is larger than 4,096 frames. So each base that ddtp, cqb or fqb is told gets frames of its own here,
from 1 on in the order of the record, as many as the queue fills; what is read of these registers is told back."""
import collections
import lzma
import re
import struct
import subprocess
import sys
import tempfile

ACCESS = re.compile(r"memory_region_ops_(read|write) cpu -?\d+ mr \S+ addr (0x[0-9a-f]+) value (0x[0-9a-f]+) size (\d+) name 'riscv-iommu-regs'")
COMMAND = re.compile(r"riscv_iommu_cmd .*command (0x[0-9a-f]+) (0x[0-9a-f]+)")
FAULT = re.compile(r"riscv_iommu_flt .*fault [0-9a-f]{4}:([0-9a-f]+)\.(\d+) reason: (0x[0-9a-f]+) iova: (0x[0-9a-f]+)")
NAMES = {0: "capabilities", 8: "fctl", 16: "ddtp", 24: "cqb", 32: "cqh", 36: "cqt", 40: "fqb", 48: "fqh", 52: "fqt", 72: "cqcsr", 76: "fqcsr",
         80: "pqcsr", 84: "ipsr", 760: "icvec"}
DDTP, CQB, CQT, FQB = 16, 24, 36, 40
COMMANDS = {(1, 0): "iotinval.vma", (1, 1): "iotinval.gvma", (2, 0): "iofence.c", (3, 0): "iodir.inval_ddt", (4, 0): "ats.inval"}
# what the model has otherwise, since the profile has no more: capabilities, interrupts by wire alone, no interrupt vectors
OTHERWISE = {0, 8, 760}
READS = {13, 21}
FRAMES = 4096


def events(path):
    """The accesses and the commands of the record, in its order."""
    with lzma.open(path, "rt", errors="replace") if path.endswith(".xz") else open(path, errors="replace") as log:
        for line in log:
            if found := ACCESS.match(line):
                way, address, value, size = found.groups()
                yield way, int(address, 16) % 4096, int(value, 16), int(size)
            elif found := COMMAND.match(line):
                yield "command", int(found[1], 16), int(found[2], 16)
            elif found := FAULT.match(line):
                yield "fault", 8 * int(found[1], 16) + int(found[2]), int(found[3], 16) % 4096, int(found[4], 16)


class Replay:
    def __init__(self, path):
        self.events = list(events(path))
        self.commands = [event[1:3] for event in self.events if event[0] == "command"]
        self.places = {}  # the first frame here, by the page there
        self.next_frame = 1
        self.base = self.entries = self.tail = self.stored = 0
        self.lines, self.wanted, self.about = [], [], []
        self.devices = set()
        self.say(f"hardware {FRAMES}", "ok", "hardware")
        for way, *said in self.events:
            getattr(self, way)(*said)

    def say(self, line, wanted, about):
        self.lines.append(line)
        self.wanted.append(wanted)
        self.about.append(about)

    def here(self, offset, value):
        """The value of ddtp, cqb or fqb here: its page is another one."""
        page = value >> 10 & (1 << 44) - 1
        if offset not in (DDTP, CQB, FQB) or not page:
            return value
        if page not in self.places:
            size = {DDTP: 1, CQB: (32 << value % 32) // 4096, FQB: (64 << value % 32) // 4096}[offset]
            self.places[page] = self.next_frame
            self.next_frame += max(size, 1)
        return value - (page << 10) + (self.places[page] << 10)

    def write(self, offset, value, size):
        if offset == CQB:
            self.base, self.entries = self.here(offset, value) >> 10 << 12, 2 << value % 32
        if offset == CQT and self.entries:
            self.store((value - self.tail) % self.entries)
            self.tail = value % self.entries
        self.say(f"mmio-write {offset} {size} 0x{self.here(offset, value):x}", "ok", f"write {NAMES.get(offset, offset)}")

    def store(self, count):
        """The next commands of the record, at the tail's places."""
        for place in range(self.tail, self.tail + count):
            data = struct.pack("<2Q", *self.commands[self.stored])
            self.say(f"poke 0x{self.base + 16 * (place % self.entries):x} {data.hex()}", "ok", "store a command")
            self.stored += 1

    def read(self, offset, value, size):
        self.say(f"mmio-read {offset} {size}", f"value 0x{self.here(offset, value):x}", f"read {NAMES.get(offset, offset)}")

    def fault(self, device, cause, address):
        if device not in self.devices:
            self.devices.add(device)
            self.say(f"device {device:06x} raw", "ok", "plug a device in")
        asked = f"read {device:06x} 0x{address:x} 1" if cause in READS else f"write {device:06x} 0x{address:x} 00"
        self.say(asked, "fault 258", "fault")

    def command(self, first, second):
        name = COMMANDS.get((first & 127, first >> 7 & 7), "unknown")
        self.say("fetch", f"did {name}", f"command {name}")


def answers_of(program, lines):
    with tempfile.NamedTemporaryFile("w", suffix=".hw") as file:
        file.write("\n".join(lines) + "\n")
        file.flush()
        done = subprocess.run([program, "--live", file.name], capture_output=True, text=True)
    return done.stdout.splitlines(), done.returncode


def main():
    if len(sys.argv) not in (3, 4):
        sys.exit(__doc__)
    replay = Replay(sys.argv[2])
    if sys.argv[3:]:
        with open(sys.argv[3], "w") as file:
            file.write("\n".join(replay.lines) + "\n")
    answers, status = answers_of(sys.argv[1], replay.lines)
    if len(answers) != len(replay.lines) or status:
        sys.exit(f"{len(replay.lines)} lines have {len(answers)} answers, status {status}")
    same, other, lacking = collections.Counter(), collections.Counter(), collections.Counter()
    for line, about, wanted, answer in zip(replay.lines, replay.about, replay.wanted, answers):
        if answer == wanted:
            same[about] += 1
        elif line.startswith("mmio-") and int(line.split()[1]) in OTHERWISE:
            lacking[f"{about}: {wanted} in the record, {answer} here"] += 1
        else:
            other[f"{about}: {line}: {wanted} in the record, {answer} here"] += 1
    for title, counted in (("the same", same), ("by the profile", lacking), ("otherwise", other)):
        print(f"-- {title}: {counted.total()}")
        for what, count in counted.most_common(30):
            print(f"{count:7} {what}")
    sys.exit(1 if other else 0)


main()
