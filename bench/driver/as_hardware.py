#!/usr/bin/env python3
"""Scripts of a world as scripts of hardware: our driver's calls become its stores, its register accesses and its claims.

    as_hardware.py --write IOMMU_RUN SCRIPT NAME
        writes NAME.hw, and NAME.out with the answers that are wanted of iommu-hw: those of iommu-run, translated
    as_hardware.py --check IOMMU_RUN IOMMU_HW [--seeds N] [--traffic] [--stepped | --nonleaf | --napot] [--mistake NAME] SCRIPT..
        for each script: are hardware's answers those of the world, is each claim good, is all of memory as in the world;
        and with hardware acting by itself before each line of software, from N seeds (20): is each claim good. With
        --traffic the devices make requests then, too. With --stepped a walk takes several events, and with
        --nonleaf hardware caches pointers to tables, or with --napot knows leaves of 64 KiB; answers aren't compared with the
        world's then. With --mistake our driver has one. --mistakes names them.

A script with walks in several events isn't taken, nor one in which a block device gets a disk behind its detach, since hardware
keeps its first one; nor is one that isn't in the grammar."""
import concurrent.futures
import os
import pathlib
import re
import struct
import subprocess
import sys
import tempfile

from our_driver import CQB, CQCSR, CQH, CQT, FQB, FQCSR, FQH, FQT, CMD_TO, MISTAKES, QUEUE, RECORDS, STOPS, WIDTHS, Driver

DRIVERS = {"attach", "detach", "grant", "release", "quarantine", "revive", "restart", "poll", "faults", "free"}
WRONG = re.compile("violated|again: |wrong: ")
# causes with which an answer to a question has a fault record
RECORDED = ("answer fault 258", "answer fault 260")


class Differs(Exception):
    """The translator, the driver in our_driver.py or one of the programs is wrong."""


# The world.


def says(text):
    """The lines that say something, without comments and empty ones."""
    return [line for line in text.split("\n") if line and not line.startswith("#")]


def answers_of(program, lines):
    """What iommu-run answers, line by line; None where the script isn't in the grammar."""
    with tempfile.NamedTemporaryFile("w", suffix=".iommu") as file:
        file.write("\n".join(lines) + "\n")
        file.flush()
        ran = subprocess.run([program, file.name], capture_output=True, text=True)
    return ran.stdout.splitlines() if ran.returncode == 0 else None


def before(answers, stop):
    """How many answers stand before the first that is the one named."""
    return answers.index(stop) if stop in answers else len(answers)


class World:
    """A script, each event spelled out, with the answers to it."""

    def __init__(self, program, text):
        self.program, self.lines = program, []
        for line in says(text):
            if line != "settle":
                self.lines.append(line)
        if not self.lines or answers_of(program, self.lines) is None:
            raise ValueError("isn't in the grammar, or says nothing")
        told = answers_of(program, says(text))
        self.lines = []
        for line, answer in zip(says(text), told):
            if line == "settle":
                self.settle(answer)
            else:
                self.lines.append(line)
        self.answers = answers_of(program, self.lines)

    def then(self, lines):
        """The answers to these lines behind those that there are."""
        return answers_of(self.program, self.lines + lines)[len(self.lines) :]

    def add_while(self, line, stop, most):
        """Adds the line as often as it isn't answered so. How often."""
        count = before(self.then([line] * most), stop)
        self.lines += [line] * count
        return count

    def settle(self, told):
        """The events of settling, in its order."""
        start = len(self.lines)
        answers = answers_of(self.program, self.lines)
        devices = [line.split()[1] for line, answer in zip(self.lines, answers) if line.startswith("device") and answer == "ok"]
        for device in devices:
            self.add_while(f"commit {device}", "none", 9)
        self.add_while("deliver 0", "none", 200)
        tickets = [int(answer.split()[1]) for answer in answers if answer.startswith("ticket")]
        confirmed = [int(found.group(1)) for answer in answers if (found := re.match(r"confirmed \d+-(\d+)", answer))]
        if max(tickets, default=0) > max(confirmed, default=0):
            self.lines.append("restart")
            self.work_off()
            self.lines.append("poll")
        if told != f"settled {len(self.lines) - start}":
            raise Differs(f"settling took {len(self.lines) - start} events here, and is told as {told}")

    def work_off(self):
        """Fetches until the queue is empty, with deliveries where the fence waits."""
        while True:
            answers = self.then(["fetch"] * 60)
            count = min(before(answers, "waiting"), before(answers, "empty"))
            self.lines += ["fetch"] * (count + 1)
            if answers[count] == "empty":
                return
            self.add_while("deliver 0", "none", 200)

    def looked_at(self, frames, all_frames):
        """The same with a look at these frames behind each of the driver's lines, and at all of them at the end."""
        lines = []
        for line in self.lines:
            lines.append(line)
            if line.split()[0] in DRIVERS - {"free"}:
                lines += [f"peek 0x{4096 * frame:x} 4096" for frame in frames]
        lines += [f"peek 0x{4096 * frame:x} 4096" for frame in all_frames]
        looked = World.__new__(World)
        looked.program, looked.lines = self.program, lines
        looked.answers = answers_of(self.program, lines)
        return looked


# The two ports of the driver.


class Foretold:
    """Writes the lines, each with the answer that the world foretells: it follows the registers by what the world tells."""

    def __init__(self, frames):
        self.frames, self.lines, self.wanted, self.origin = frames, [], [], []
        self.line, self.answer, self.number = "", "", 0
        self.commands = {}  # the queue's words in memory
        self.registers = {CQB: (frames - 1) << 10 | 7, FQB: (frames - 2) << 10 | 6, CQH: 0, CQT: 0, FQH: 0, FQT: 0, CQCSR: 0, FQCSR: 0}
        self.word = 0
        self.note(f"hardware {frames}", "ok")

    def note(self, line, wanted):
        self.lines.append(line)
        self.wanted.append(wanted)
        self.origin.append((self.number, self.line))

    say = note

    def claim(self, words, wanted="good"):
        self.note(f"claim {words}", wanted)

    def poke(self, address, data):
        self.note(f"poke 0x{address:x} {data.hex()}", "ok")
        if address >> 12 == self.frames - 1:
            self.commands[address] = data

    def peek(self, address, length):
        data = struct.pack("<I", self.word)
        if address >> 12 == self.frames - 2:
            data = struct.pack("<4Q", *(int(word, 16) for word in self.answer.split()[1:]))
        self.note(f"peek 0x{address:x} {length}", f"bytes {data.hex()}")
        return data

    def read(self, offset):
        value = self.registers[offset]
        self.note(f"mmio-read {offset} {WIDTHS[offset]}", f"value 0x{value:x}")
        return value

    def write(self, offset, value):
        self.note(f"mmio-write {offset} {WIDTHS[offset]} 0x{value:x}", "ok")
        if offset in (CQCSR, FQCSR):
            if value & 1 and not self.registers[offset]:
                self.registers[CQH if offset == CQCSR else FQT] = 0
            value = (value & 1) * (1 | 1 << 16)
        if offset in self.registers:
            self.registers[offset] = value

    def hardware(self, line, answer):
        """A line of hardware or devices."""
        self.note(line, answer)
        if line == "fetch" and answer.startswith("did "):
            self.fetched(answer)
        elif answer == "timed-out":
            self.registers[CQCSR] |= CMD_TO
        elif answer.startswith("fault ") or answer in RECORDED:
            self.record()

    def fetched(self, answer):
        head = self.registers[CQH]
        if answer == "did iofence.c":
            self.word = struct.unpack("<Q", self.commands[4096 * (self.frames - 1) + 16 * head])[0] >> 32
        self.registers[CQH] = (head + 1) % QUEUE

    def record(self):
        """A fault record is written, unless one was lost since the queue was last found empty."""
        if not self.registers[FQCSR] & 0x200 and self.registers[FQCSR] & 1:
            after = (self.registers[FQT] + 1) % RECORDS
            if after == self.registers[FQH]:
                self.registers[FQCSR] |= 0x200
            else:
                self.registers[FQT] = after


class Live:
    """Asks hardware, which acts by itself before each line of software. Lines are said together up to the next one whose
    answer the driver needs."""

    def __init__(self, program, frames, seed, pace):
        self.hw = subprocess.Popen([program, "--live"], stdin=subprocess.PIPE, stdout=subprocess.PIPE)
        self.waiting, self.size, self.wrong, self.said, self.steps = [], 0, [], 0, 0
        self.last = ""
        self.say(f"hardware {frames}{pace}", "ok")
        self.say(f"auto {seed}", "ok")

    def say(self, line, wanted=None):
        self.waiting.append((line, wanted))
        self.size += len(line)
        if self.size > 20000 or len(self.waiting) > 200:
            self.flush()

    def flush(self):
        """Says what waits. The last answer."""
        if not self.waiting:
            return self.last
        self.hw.stdin.write("".join(f"{line}\n" for line, _ in self.waiting).encode())
        self.hw.stdin.flush()
        for line, wanted in self.waiting:
            answer = self.hear(line)
            if wanted and answer != wanted and not WRONG.search(answer):
                self.wrong.append(f"{line} => {answer}")
        self.said += len(self.waiting)
        self.waiting, self.size = [], 0
        self.last = answer
        return answer

    def hear(self, line):
        while True:
            answer = self.hw.stdout.readline().decode().rstrip("\n")
            if not answer:
                raise Differs(f"iommu-hw ended at {line}")
            if WRONG.search(answer):
                self.wrong.append(answer if answer.startswith("#") else f"{line} => {answer}")
            if not answer.startswith("#"):
                return answer
            self.steps += 1

    def claim(self, words, wanted="good"):
        self.say(f"claim {words}", wanted)

    def poke(self, address, data):
        self.say(f"poke 0x{address:x} {data.hex()}", "ok")

    def peek(self, address, length):
        self.say(f"peek 0x{address:x} {length}")
        return bytes.fromhex(self.flush().split()[1])

    def write(self, offset, value):
        self.say(f"mmio-write {offset} {WIDTHS[offset]} 0x{value:x}", "ok")

    def read(self, offset):
        self.say(f"mmio-read {offset} {WIDTHS[offset]}")
        value = int(self.flush().split()[1], 16)
        if offset == CQCSR and value & STOPS:
            self.wrong.append(f"cqcsr is 0x{value:x}")
        return value

    def hardware(self, line, _answer):
        self.say(line)

    def end(self):
        """Ends the session. What was wrong."""
        self.read(CQCSR)
        self.hw.stdin.close()
        status = self.hw.wait()
        if bool(status) != any(WRONG.search(told) for told in self.wrong):
            self.wrong.append(f"status {status}")
        return self.wrong


# From the one to the other.


def is_span(words):
    """Whether the bytes of a poke are 1 to 4,096, within one frame."""
    return int(words[1], 16) % 4096 + len(words[2]) // 2 <= 4096


def drive(world, port, mistake=None, traffic=()):
    """All lines of the world, the driver's by our driver, the others as they are. The driver, and where it answers otherwise
    than the world does."""
    others, driver, blocks = [], None, set()
    for number, (line, answer) in enumerate(zip(world.lines, world.answers)):
        words = line.split()
        port.number, port.line, port.answer = number, line, answer
        if words[0] == "world":
            driver = Driver(int(words[1]), int(words[2]), port, mistake)
        elif words[0] in DRIVERS:
            told = driver.call(words)
            if told != answer:
                others.append(f"{line}: our driver answers {told}, the world {answer}")
            if words[0] == "detach" and answer.startswith("ticket") and words[1] in blocks:
                port.say(f"reset {words[1]}", "ok")
        elif words[0] != "poke" or not is_span(words) or driver.takes_poke(int(words[1], 16)):
            port.hardware(line, answer)
        if words[0] == "device" and answer == "ok":
            driver.plug(words[1], words[2])
            blocks.update(words[1:2] if words[2] in ("blk", "ablk") else ())
            for request in (request for request in traffic if request.split()[1] == words[1] and words[1] not in blocks):
                port.say(request, "ok")
    return driver, others


def frames_of(world):
    return int(world.lines[0].split()[1])


def traffic_of(world):
    """Requests of each device at up to four pages from the lowest on that is granted to it."""
    pages = {}
    for line in world.lines:
        words = line.split()
        if words[0] == "grant":
            pages.setdefault(words[1], []).append(int(words[2]))
    lowest = {device: min(found) for device, found in pages.items()}
    return [f"traffic {device} {page} {min(max(pages[device]), page + 3)}" for device, page in lowest.items() if page < 1 << 51]


def translated(world):
    port = Foretold(frames_of(world))
    driver, others = drive(world, port)
    return driver, port, others


def with_comments(port):
    """The script, with the world's lines as comments above what they became; hardware's own lines have none."""
    lines, last = [], None
    for line, origin in zip(port.lines, port.origin):
        if origin != last and origin[1] not in ("", line):
            lines.append(f"# {origin[1]}")
        last = origin
        lines.append(line)
    return lines


def ran(program, lines):
    """What iommu-hw answers, and its exit status."""
    with tempfile.NamedTemporaryFile("w", suffix=".hw") as file:
        file.write("\n".join(lines) + "\n")
        file.flush()
        done = subprocess.run([program, "--live", file.name], capture_output=True, text=True)
    return done.stdout.splitlines(), done.returncode


def plain(hw, world):
    """What is wrong with the script as hardware's, line by line; and how many lines and claims it has."""
    touched = translated(world)[0].touched
    world = world.looked_at(sorted(touched), range(min(frames_of(world), 256)))
    _, port, wrong = translated(world)
    answers, status = ran(hw, port.lines)
    for line, wanted, answer, origin in zip(port.lines, port.wanted, answers, port.origin):
        if answer != wanted:
            wrong.append(f"{origin[1]}: {line[:200]} => {answer[:200]}, where the world has {wanted[:200]}")
    if len(answers) != len(port.lines) or status:
        wrong.append(f"{len(port.lines)} lines have {len(answers)} answers, status {status}")
    return wrong, len(port.lines), sum(line.startswith("claim ") for line in port.lines)


def by_itself(hw, world, seed, mistake=None, traffic=False, pace=""):
    """What is wrong where hardware acts by itself, from the seed; with 0 it doesn't."""
    port = Live(hw, frames_of(world), seed, pace)
    _, others = drive(world, port, mistake, traffic_of(world) if traffic else ())
    wrong = port.end()
    return wrong + (others if not seed and not mistake and not pace else []), port.said, port.steps


class Found:
    """What was found of a script."""

    def __init__(self, path):
        self.path, self.left_out, self.wrong, self.seeds = path, "", [], {}
        self.lines = self.claims = self.said = self.steps = 0


def left_out(text):
    lines = says(text)
    if lines and lines[0].endswith(" stepped"):
        return "walks in several events"
    detached = set()
    for words in (line.split() for line in lines):
        if words[0] == "medium" and words[1] in detached:
            return "with a disk behind a detach"
        detached.update(words[1:2] if words[0] == "detach" else ())
    return ""


def check(path, run, hw, seeds, traffic, mistake, pace):
    found = Found(path)
    text = pathlib.Path(path).read_text()
    found.left_out = left_out(text)
    if found.left_out:
        return found
    try:
        world = World(run, text)
    except ValueError as why:
        found.left_out = str(why)
        return found
    try:
        if mistake or pace:
            found.wrong = by_itself(hw, world, 0, mistake, False, pace)[0]
        else:
            found.wrong, found.lines, found.claims = plain(hw, world)
            found.wrong += by_itself(hw, world, 0)[0]
        for seed in range(1, seeds + 1):
            wrong, said, steps = by_itself(hw, world, seed, mistake, traffic, pace)
            found.said, found.steps = found.said + said, found.steps + steps
            if wrong:
                found.seeds[seed] = wrong
    except Differs as why:
        found.wrong.append(str(why))
    return found


def tell(found, mistake):
    """The first that is wrong of a script; with a mistake in the driver that is what is wanted, and told shortly."""
    if found.wrong and not mistake:
        print(f"{found.path}: {len(found.wrong)} wrong: {found.wrong[0]}")
    for seed, wrong in list(found.seeds.items())[: 0 if mistake else 1]:
        print(f"{found.path}: {len(found.seeds)} seeds, the first {seed}: {wrong[0]}")


def check_all(run, hw, paths, seeds, traffic, mistake, pace):
    texts = {}
    for path in paths:
        texts.setdefault(pathlib.Path(path).read_bytes(), path)
    jobs = int(os.environ.get("J", "2"))
    with concurrent.futures.ProcessPoolExecutor(jobs) as pool:
        all_found = list(pool.map(check, texts.values(), *([value] * len(texts) for value in (run, hw, seeds, traffic, mistake, pace))))
    taken = [found for found in all_found if not found.left_out]
    for found in taken:
        tell(found, mistake)
    print(f"{len(paths)} scripts: {len(paths) - len(texts)} are the same as another", end="")
    for why in sorted({found.left_out for found in all_found if found.left_out}):
        print(f", {sum(found.left_out == why for found in all_found)} {why}", end="")
    print(f", {len(taken)} taken")
    lines = "" if mistake or pace else f" {sum(f.lines for f in taken)} lines, {sum(f.claims for f in taken)} claims;"
    print(f"as written:{lines} wrong in {sum(bool(f.wrong) for f in taken)} scripts")
    print(f"by itself: {seeds} seeds each, {sum(f.said for f in taken)} lines, {sum(f.steps for f in taken)} steps of hardware; wrong in "
          f"{sum(bool(f.seeds) for f in taken)} scripts, {sum(len(f.seeds) for f in taken)} of {seeds * len(taken)} sessions")
    return any(found.wrong or found.seeds for found in taken)


def write(run, script, name):
    world = World(run, pathlib.Path(script).read_text())
    _, port, others = translated(world)
    if others:
        sys.exit("\n".join(others))
    pathlib.Path(name + ".hw").write_text("\n".join(with_comments(port)) + "\n")
    pathlib.Path(name + ".out").write_text("\n".join(port.wanted) + "\n")


def option(words, name, default):
    if name not in words:
        return default
    place = words.index(name)
    value = words[place + 1]
    del words[place : place + 2]
    return value


def main():
    words = sys.argv[1:]
    if words == ["--mistakes"]:
        print("\n".join(f"{name}: {what}" for name, what in MISTAKES.items()))
    elif words[:1] == ["--write"] and len(words) == 4:
        write(*words[1:])
    elif words[:1] == ["--check"] and len(words) > 3:
        seeds, mistake = int(option(words, "--seeds", "20")), option(words, "--mistake", None)
        traffic = "--traffic" in words
        pace = next((f" {word[2:]}" for word in ("--stepped", "--nonleaf", "--napot") if word in words), "")
        words = [word for word in words if word not in ("--traffic", "--stepped", "--nonleaf", "--napot")]
        if mistake and mistake not in MISTAKES:
            sys.exit(__doc__)
        sys.exit(1 if check_all(words[1], words[2], words[3:], seeds, traffic, mistake, pace) else 0)
    else:
        sys.exit(__doc__)


main()
