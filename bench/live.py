#!/usr/bin/env python3
"""How long a live session of iommu-hw takes, each line said when the one before is answered: live.py PROGRAM

One session has 10,000 lines that map a page, use it, unmap it and claim each of these; another has as many that ask little.
For each it prints the lines and the seconds, the least of three."""
import os
import struct
import subprocess
import sys
import time

FRAMES, LINES = 4096, 10000
COMMANDS, FAULTS, DIRECTORY, ROOT, MIDDLE, LAST = range(FRAMES - 1, FRAMES - 7, -1)


def store(address, *words):
    return f"poke 0x{address:x} {struct.pack('<%dQ' % len(words), *words).hex()}"


def queued(number, first, second=0):
    """A command, with its doorbell."""
    place = number % 256
    return [store(COMMANDS * 4096 + 16 * place, first, second), f"mmio-write 36 4 0x{(place + 1) % 256:x}"]


def mapping():
    lines = [f"hardware {FRAMES}", "device 000001 raw"]
    lines += [f"claim take {frame}" for frame in range(FRAMES - 6, FRAMES)]
    lines += [f"mmio-write 24 8 0x{COMMANDS << 10 | 7:x}", "mmio-write 72 4 0x1", f"mmio-write 40 8 0x{FAULTS << 10 | 6:x}"]
    lines += ["mmio-write 76 4 0x1", f"mmio-write 16 8 0x{DIRECTORY << 10 | 2:x}"]
    lines += [store(DIRECTORY * 4096 + 40, 0, 5 << 12, 8 << 60 | ROOT), store(DIRECTORY * 4096 + 32, 1)]
    lines += [store(ROOT * 4096, MIDDLE << 10 | 1), store(MIDDLE * 4096, LAST << 10 | 1)]
    number = 0
    while len(lines) < LINES:
        page, frame = number % 512, 16 + number % 3000
        leaf = LAST * 4096 + 8 * page
        lines += [f"claim grant 000001 {page} {frame} rw", store(leaf, frame << 10 | 0xD7), f"claim ready 000001 {page}"]
        lines += [f"write 000001 0x{page << 12:x} a5", "commit 000001"]
        lines += [f"claim release 000001 {page}", store(leaf, 0)]
        lines += queued(2 * number, 1 | 1 << 10 | 5 << 12 | 1 << 32, page << 10) + queued(2 * number + 1, 0x3002)
        number += 1
        lines += ["fetch", "fetch", "mmio-read 32 4", f"claim done {number}", f"claim handoff {frame}"]
    return lines


def little():
    return ["hardware 64", "device 000001 raw"] + ["read 000001 0x3000 8", "fetch", "mmio-read 72 4", "peek 0x3000 8"] * (LINES // 4)


def seconds(program, lines):
    hw = subprocess.Popen([program, "--live"], stdin=subprocess.PIPE, stdout=subprocess.PIPE, bufsize=0)
    start = time.monotonic()
    for line in lines:
        os.write(hw.stdin.fileno(), f"{line}\n".encode())
        answer = os.read(hw.stdout.fileno(), 16384)
        if not answer.endswith(b"\n") or b"wrong" in answer or b"again" in answer:
            sys.exit(f"{line}: {answer}")
    hw.stdin.close()
    if hw.wait():
        sys.exit(f"status {hw.returncode}")
    return time.monotonic() - start


for name, lines in (("mapping", mapping()), ("little", little())):
    print(f"{name}  {len(lines)}  {min(seconds(sys.argv[1], lines) for _ in range(3)):.3f}")
