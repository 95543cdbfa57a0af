#!/usr/bin/env python3
"""Runs the built program on a script of the limit for each kind of line, again and again that one line: limits.py PROGRAM

What each line must print follows from docs/LANGUAGE.md. For each kind it prints how many lines there were and how long the whole process took. Then the
same with one byte more than the limit, which is a bad script; and scripts with sixteen devices of each kind.
"""
import os
import subprocess
import sys
import time

LIMIT = 1048576
RAW = ["device 000001 raw", "attach 000001 first", "grant 000001 3 5 rw"]
ATS = ["device 000001 ats", "attach 000001 first ats", "grant 000001 3 5 rw"]
BLOCK = ["device 000001 blk 0", "attach 000001 first", "grant 000001 0 4 rw"]

# What stands before, all of which prints ok; the line; what it prints at first, and from then on.
KINDS = [
    ([], "", None, None),
    ([], "# a comment", None, None),
    (RAW, "device 000001 raw", [], "refused 20 AlreadyPlugged"),
    ([], "device 000001 blk 9", [], "refused 22 BadMedium"),
    (RAW, "attach 000001 both48 ats", [], "refused 2 AlreadyAttached"),
    (RAW, "grant 000001 3 5 rw", [], "refused 8 IovaBusy"),
    (RAW, "grant 000001 67108864 5 rw", [], "refused 7 IovaOutOfRange"),
    (RAW, "release 000001 4", [], "refused 9 NotGranted"),
    (RAW, "detach 000001", [], "refused 16 StillGranted"),
    (RAW, "quarantine 000001", ["ticket 1"], "refused 13 Quarantined"),
    (RAW, "revive 000001", [], "refused 2 AlreadyAttached"),
    (RAW, "restart", [], "ok"),
    (RAW, "poll", [], "confirmed -"),
    (RAW, "faults", [], "no record"),
    (RAW, "free 5", [], "free no"),
    (RAW, "free 6", [], "free yes"),
    (RAW, "fetch", [], "empty"),
    (RAW, "timeout", [], "no effect"),
    (RAW, "settle", [], "settled 0"),
    (RAW, "read 000001 0x3000 4", [f"accepted {n}" for n in range(1, 9)], "busy"),
    (RAW, "read 000001 0x4000 4", [], "fault 13"),
    (RAW, "read 000001 0x3fff 2", [], "badspan"),
    (RAW, "write 000001 0x3000 00", [f"accepted {n}" for n in range(1, 9)], "busy"),
    (RAW, "write 000001 0x4000 00", [], "fault 15"),
    (RAW, "commit 000001", [], "none"),
    (RAW, "commit 000002", [], "refused 1 NoSuchDevice"),
    (RAW, "tread 000001 0x5000 4", [], "fault 260"),
    (RAW, "twrite 000001 0x5000 00", [], "fault 260"),
    (RAW, "aread 000001 0x3000 4", [], "refused 21 WrongKind"),
    (ATS, "aread 000001 0x3000 4", [], "miss"),
    (ATS, "awrite 000001 0x3000 00", [], "miss"),
    (ATS, "ask 000001 3", ["sent"] * 64, "lost"),
    (RAW, "forge 000001 1", ["sent"] * 64, "lost"),
    (ATS, "deliver 0", [], "none"),
    (ATS, "drop 0", [], "none"),
    (ATS, "repeat 0", [], "none"),
    (ATS, "reset 000001", [], "ok"),
    (RAW, "poke 0x5000 00", [], "ok"),
    (RAW, "poke 0x3f000 00", [], "refused 6 FrameReserved"),
    (RAW, "peek 0x5000 1", [], "bytes 00"),
    (BLOCK, "medium 000001 1", [], "refused 22 BadMedium"),
    (BLOCK, "queue 000001 4 0x0 0x100 0x200", [], "ok"),
    (BLOCK, "queue 000001 3 0x0 0x100 0x200", [], "refused 23 BadQueue"),
    (BLOCK, "step 000001", [], "idle"),
    (BLOCK, "status 000001", [], "status 0"),
]


def run(program, script):
    begun = time.monotonic()
    ran = subprocess.run([program], input=script, capture_output=True)
    return ran.returncode, ran.stdout.decode().splitlines(), ran.stderr.decode(), time.monotonic() - begun


def sixteen(kind, disk=""):
    """Sixteen devices of a kind, attached in each mode in turn, and one more."""
    modes = ["first", "second", "both", "first48", "second48", "both48"]
    script, lines = ["world 4096 3"], ["ok"]
    for n in range(16):
        script += [f"device {n:06x} {kind}", f"attach {n:06x} {modes[n % 6]}"]
        lines += ["ok", "ok"]
    script.append(f"device 000010 {kind}")
    lines.append("refused 18 TooManyDevices")
    return script, lines


def judge(name, wanted, found):
    if wanted == found:
        return 0
    place = next((k for k, pair in enumerate(zip(wanted, found)) if pair[0] != pair[1]), min(len(wanted), len(found)))
    print(f"{name}: line {place + 1} is {found[place:place + 1]}, and not {wanted[place:place + 1]}")
    return 1


def main():
    if len(sys.argv) != 2:
        sys.exit(__doc__)
    program, wrong = os.path.realpath(sys.argv[1]), 0
    for before, line, first, later in KINDS:
        head = "".join(f"{it}\n" for it in ["world 64 1", *before])
        count = (LIMIT - len(head)) // (len(line) + 1)
        spare = LIMIT - len(head) - count * (len(line) + 1)
        script = head + f"{line}\n" * count + ("" if spare == 0 else "#" * (spare - 1) + "\n")
        wanted = ["ok"] * (1 + len(before))
        if first is not None:
            wanted += first + [later] * (count - len(first))
        status, lines, told, took = run(program, script.encode())
        wrong += judge(line, wanted, lines) or status
        print(f"{line or 'an empty line'}: {count} lines, {1000 * took:.0f} ms")
        status, lines, told, _ = run(program, script.encode() + b"\n")
        if status != 2 or lines or "bad script" not in told:
            wrong += 1
            print(f"{line}: one byte more than the limit: status {status}, {told!r}")
    for kind in ["raw", "ats"]:
        script, wanted = sixteen(kind)
        status, lines, told, took = run(program, "".join(f"{it}\n" for it in script).encode())
        wrong += judge(f"sixteen {kind}", wanted, lines) or status
    sys.exit(wrong != 0)


main()
