"""The model's own driver, call by call, as what it does to hardware: its stores, its register accesses, its claims.

It is written from crates/iom_driver and the crates below it, in the order in which they store and write. A call answers with
the words that iommu-run has for it. What it does goes to a port, which has `poke`, `peek`, `write`, `read` (of registers),
`claim` and `say`: one that foretells what hardware answers, or one that asks hardware (see as_hardware.py).

Loads of tables aren't told: nobody but the driver writes them, so it knows what stands there."""
import struct

REFUSALS = {1: "NoSuchDevice", 2: "AlreadyAttached", 3: "NotAttached", 4: "NotTrusted", 5: "FrameOutOfRange", 6: "FrameReserved",
            7: "IovaOutOfRange", 8: "IovaBusy", 9: "NotGranted", 10: "NoFrames", 11: "QueueFull", 12: "TooManyPending",
            13: "Quarantined", 16: "StillGranted", 17: "IdTooWide"}
DDTP, CQB, CQH, CQT, FQB, FQH, FQT, CQCSR, FQCSR = 16, 24, 32, 36, 40, 48, 52, 72, 76
WIDTHS = {DDTP: 8, CQB: 8, FQB: 8, CQH: 4, CQT: 4, FQH: 4, FQT: 4, CQCSR: 4, FQCSR: 4}
CMD_TO = 1 << 9
STOPS = 1 << 8 | 1 << 10  # cqmf and cmd_ill: the driver itself has done something wrong
QUEUE, RECORDS, PENDING = 256, 128, 256
MISTAKES = {
    "doorbell-first": "cqt is written before the command is stored",
    "leaf-late": "a leaf is cleared behind the commands of its release",
    "no-iodir": "a detach and a quarantine queue no IODIR.INVAL_DDT",
    "no-drain": "fences have neither PR nor PW",
    "no-ats-inval": "a release queues no ATS.INVAL",
    "fence-first": "a release's fence stands before its invalidations",
    "wrong-page": "a release's IOTINVAL names the page behind it",
    "valid-first": "of a context the word that makes it valid is stored first",
    "poll-early": "a poll confirms what was queued, whatever the completion word says",
    "no-reset": "a revived device isn't reset",
}


class Refused(Exception):
    def __init__(self, number):
        super().__init__(f"refused {number} {REFUSALS[number]}")


class Stages:
    """How a device is attached: its mode, the root of its tables, its address-space number, with ATS or without."""

    def __init__(self, mode, root, number, ats):
        self.mode, self.root, self.number, self.ats = mode, root, number, ats
        self.levels = 4 if mode.endswith("48") else 3
        self.kind = mode.removesuffix("48")

    def words(self):
        """The four words of the device's context."""
        size = (5 + self.levels) << 60
        first = {"first": size | self.root, "second": 0, "both": size}[self.kind]
        second = 0 if self.kind == "first" else size | self.number << 44 | self.root
        pscid = 0 if self.kind == "second" else self.number << 12
        return [1 | self.ats << 1, second, pscid, first]


class Device:
    def __init__(self, name, trusted):
        self.name, self.id, self.trusted = name, int(name, 16), trusted
        # state: detached, attached, quarantined or leaving, the last two under a ticket
        self.state, self.stages, self.ticket = "detached", None, 0
        # what it holds or lingers on: [page, frame, ticket], the ticket 0 where it holds; in the order of the ledger
        self.rows = []

    def row(self, page):
        return next((row for row in self.rows if row[0] == page), None)


class Driver:
    def __init__(self, frames, levels, port, mistake=None):
        self.frames, self.levels, self.port, self.mistake = frames, levels, port, mistake
        self.devices = []
        self.owner = {frame: "system" for frame in range(frames - 4, frames)}
        self.words = {}  # what the driver stored in tables and directory, by address, where it isn't zero
        self.unknown = set()  # frames that others may have written
        self.given = self.confirmed = self.restarts = self.restarted = 0
        self.claims = 0
        self.claims_of = {}  # the claims that wait for each ticket
        self.touched = set(self.owner)  # frames that were ever the driver's
        self.start()

    # Memory.

    def store(self, address, *words):
        for place, word in enumerate(words):
            self.words.pop(address + 8 * place, None)
            if word:
                self.words[address + 8 * place] = word
        self.port.poke(address, struct.pack("<%dQ" % len(words), *words))

    def clear(self, frame):
        """The frame's bytes become zero: a store for each run of bytes that may be something else."""
        base = 4096 * frame
        if frame in self.unknown:
            self.unknown.discard(frame)
            self.store(base, *[0] * 512)
        places = sorted(address for address in self.words if base <= address < base + 4096)
        while places:
            length = 1
            while length < len(places) and places[length] == places[0] + 8 * length:
                length += 1
            self.store(places[0], *[0] * length)
            del places[:length]

    def is_free(self, frame):
        return frame not in self.owner and all(row[1] != frame for device in self.devices for row in device.rows)

    def highest_free(self, limit, named=None):
        return next((f for f in range(limit - 1, -1, -1) if f != named and self.is_free(f)), None)

    def highest_four(self, limit):
        return next((f for f in range(limit // 4 * 4 - 4, -1, -4) if all(self.is_free(f + k) for k in range(4))), None)

    def choose(self, count, named=None):
        """So many of the highest free frames, the highest first."""
        chosen = []
        for _ in range(count):
            frame = self.highest_free(chosen[-1] if chosen else self.frames, named)
            if frame is None:
                raise Refused(10)
            chosen.append(frame)
        return chosen

    def reserve(self, frames, owner):
        for frame in frames:
            self.owner[frame] = owner
            self.touched.add(frame)
            self.port.claim(f"take {frame}")
            self.clear(frame)

    # The start.

    def start(self):
        for frame in range(self.frames - 1, self.frames - 5, -1):
            self.port.claim(f"take {frame}")
        self.port.poke(4096 * (self.frames - 3), bytes(4))
        self.port.write(DDTP, (self.frames - 4) << 10 | self.levels + 1)
        self.port.write(CQB, (self.frames - 1) << 10 | 7)
        self.port.write(CQCSR, 1)
        self.port.write(FQB, (self.frames - 2) << 10 | 6)
        self.port.write(FQCSR, 1)

    # Commands.

    def lacks_places(self, places):
        head, tail = self.port.read(CQH), self.port.read(CQT)
        return (tail - head) % QUEUE + places >= QUEUE

    def append(self, first, second=0):
        self.port.read(CQB)
        tail = self.port.read(CQT)
        address = 4096 * (self.frames - 1) + 16 * tail
        ring = lambda: self.port.write(CQT, (tail + 1) % QUEUE)
        if self.mistake == "doorbell-first":
            ring()
        self.port.poke(address, struct.pack("<Q", first))
        self.port.poke(address + 8, struct.pack("<Q", second))
        if self.mistake != "doorbell-first":
            ring()

    def append_invalidation(self, stages, page=None):
        named = 0 if page is None else 1 << 10
        second = (page or 0) << 10
        if stages.kind == "first":
            self.append(1 | named | stages.number << 12 | 1 << 32, second)
        else:
            self.append(1 | 1 << 7 | named | 1 << 33 | stages.number << 44, second)

    def append_context_invalidation(self, device):
        self.append(3 | 1 << 33 | device.id << 40)

    def append_ats_invalidation(self, device, page=None):
        self.append(4 | 1 << 33 | (device.id & 0xFFFF) << 40 | device.id >> 16 << 56, 1 << 11 if page is None else page << 12)

    def append_fence(self, number):
        drain = 0 if self.mistake == "no-drain" else 3 << 12
        self.append(2 | 1 << 10 | drain | number << 32, 4096 * (self.frames - 3) >> 2)

    def append_release(self, device, page, number):
        stages = device.stages
        if self.mistake == "fence-first":
            self.append_fence(number)
        self.append_invalidation(stages, page + (self.mistake == "wrong-page"))
        if stages.ats and self.mistake != "no-ats-inval":
            self.append_ats_invalidation(device, None if stages.kind == "both" else page)
        if self.mistake != "fence-first":
            self.append_fence(number)

    def append_detach(self, device, number):
        if self.mistake != "no-iodir":
            self.append_context_invalidation(device)
        self.append_invalidation(device.stages)
        self.append_fence(number)

    # The device directory.

    def index(self, level, id):
        return (id % 128, (id >> 7) % 512, (id >> 16) % 256)[level]

    def page_of_contexts(self, id):
        """The page of level 0 on the id's path, or how many pages are missing."""
        page = self.frames - 4
        for level in range(self.levels - 1, 0, -1):
            entry = self.words.get(4096 * page + 8 * self.index(level, id))
            if entry is None:
                return None, level
            page = entry >> 10
        return page, 0

    def put_context(self, device, pages=()):
        page, pages = self.frames - 4, list(pages)
        for level in range(self.levels - 1, 0, -1):
            address = 4096 * page + 8 * self.index(level, device.id)
            if address not in self.words:
                self.store(address, pages[0] << 10 | 1)
                pages.pop(0)
            page = self.words[address] >> 10
        place = 4096 * page + 32 * self.index(0, device.id)
        for word in (0, 3, 2, 1) if self.mistake == "valid-first" else (3, 2, 1, 0):
            self.store(place + 8 * word, device.stages.words()[word])

    def clear_context(self, device):
        place = 4096 * self.page_of_contexts(device.id)[0] + 32 * self.index(0, device.id)
        for word in range(4):
            self.store(place + 8 * word, 0)

    # Page tables.

    def last_table(self, stages, page):
        """The table of the page's leaf, or how many tables are missing."""
        table = stages.root
        for level in range(stages.levels - 1, 0, -1):
            entry = self.words.get(4096 * table + 8 * (page >> 9 * level & 511))
            if entry is None:
                return None, level
            table = entry >> 10
        return table, 0

    def map(self, device, page, frame, right, tables):
        table, tables = device.stages.root, list(tables)
        for level in range(device.stages.levels - 1, 0, -1):
            address = 4096 * table + 8 * (page >> 9 * level & 511)
            if address not in self.words:
                self.store(address, tables[0] << 10 | 1)
                tables.pop(0)
            table = self.words[address] >> 10
        self.port.claim(f"grant {device.name} {page} {frame} {right}")
        self.store(4096 * table + 8 * (page % 512), frame << 10 | (0xD7 if right == "rw" else 0x53))

    def unmap(self, device, page):
        self.store(4096 * self.last_table(device.stages, page)[0] + 8 * (page % 512), 0)

    # Calls.

    def device_of(self, name):
        return next((device for device in self.devices if device.name == name), None)

    def attached(self, name):
        device = self.device_of(name)
        if device is None:
            raise Refused(1)
        if device.state in ("detached", "leaving"):
            raise Refused(3)
        if device.state == "quarantined":
            raise Refused(13)
        return device

    def admit_commands(self, places):
        if self.given - self.confirmed >= PENDING:
            raise Refused(12)
        if self.lacks_places(places):
            raise Refused(11)

    def next_ticket(self):
        self.given += 1
        self.claims_of[self.given] = []
        return self.given

    def claim_release(self, device, row, ticket):
        self.claims += 1
        self.port.claim(f"release {device.name} {row[0]}", f"claim {self.claims}")
        self.claims_of[ticket].append(self.claims)
        row[2] = ticket

    def plug(self, name, kind):
        self.devices.append(Device(name, kind in ("ats", "ablk")))

    def attach(self, name, mode, ats=""):
        device = self.device_of(name)
        if device is None:
            raise Refused(1)
        if device.state != "detached":
            raise Refused(2)
        if device.id >> {1: 7, 2: 16, 3: 24}[self.levels]:
            raise Refused(17)
        if ats and not device.trusted:
            raise Refused(4)
        pages = self.choose(self.page_of_contexts(device.id)[1])
        limit = pages[-1] if pages else self.frames
        single = mode.startswith("first")
        root = self.highest_free(limit) if single else self.highest_four(limit)
        if root is None:
            raise Refused(10)
        used = [other.stages.number for other in self.devices if other.stages]
        number = next(n for n in range(1, 18) if n not in used)
        self.reserve(pages, "system")
        self.reserve(range(root, root + (1 if single else 4)), name)
        device.state, device.stages = "attached", Stages(mode, root, number, bool(ats))
        self.put_context(device, pages)
        return "ok"

    def grant(self, name, page, frame, right):
        device, page, frame = self.attached(name), int(page), int(frame)
        if frame >= self.frames:
            raise Refused(5)
        if frame in self.owner:
            raise Refused(6)
        if page >> 9 * device.stages.levels - 1:
            raise Refused(7)
        if device.row(page):
            raise Refused(8)
        tables = self.choose(self.last_table(device.stages, page)[1], frame)
        device.rows.append([page, frame, 0])
        if right == "rw":
            self.unknown.add(frame)
        self.reserve(tables, name)
        self.map(device, page, frame, right, tables)
        if device.stages.kind != "both":
            self.port.claim(f"ready {name} {page}")
        return "ok"

    def release(self, name, page):
        device, page = self.attached(name), int(page)
        row = device.row(page)
        if row is None or row[2]:
            raise Refused(9)
        self.admit_commands(3 if device.stages.ats else 2)
        ticket = self.next_ticket()
        number = self.given + self.restarts
        self.claim_release(device, row, ticket)
        if self.mistake != "leaf-late":
            self.unmap(device, page)
        self.append_release(device, page, number)
        if self.mistake == "leaf-late":
            self.unmap(device, page)
        return f"ticket {ticket}"

    def detach(self, name):
        device = self.attached(name)
        if device.rows:
            raise Refused(16)
        self.admit_commands(3)
        device.state, device.ticket = "leaving", self.next_ticket()
        self.clear_context(device)
        self.append_detach(device, self.given + self.restarts)
        return f"ticket {device.ticket}"

    def quarantine(self, name):
        device = self.attached(name)
        self.admit_commands(3)
        device.state, device.ticket = "quarantined", self.next_ticket()
        self.clear_context(device)
        for row in device.rows:
            if not row[2]:
                self.claim_release(device, row, device.ticket)
                self.unmap(device, row[0])
        self.append_detach(device, self.given + self.restarts)
        return f"ticket {device.ticket}"

    def revive(self, name):
        device = self.device_of(name)
        if device is None:
            raise Refused(1)
        if device.state in ("detached", "leaving"):
            raise Refused(3)
        if device.state == "attached":
            raise Refused(2)
        if device.ticket > self.confirmed:
            raise Refused(16)
        if self.mistake != "no-reset":
            self.port.say(f"reset {name}", "ok")
        self.put_context(device)
        device.state = "attached"
        return "ok"

    def restart(self):
        self.restarts += 1
        self.restarted = self.given
        self.port.write(CQCSR, 0)
        self.port.write(CQT, 0)
        self.port.write(CQCSR, 1)
        for device in self.devices:
            if device.stages:
                self.append_context_invalidation(device)
                self.append_invalidation(device.stages)
                if device.state == "attached" and device.stages.ats:
                    self.append_ats_invalidation(device)
        self.append_fence(self.given + self.restarts)
        return "ok"

    def last_done(self, word):
        if self.mistake == "poll-early":
            return self.given
        if word < self.restarted + self.restarts:
            return self.confirmed
        return min(max(word - self.restarts, self.confirmed), self.given)

    def confirm(self, ticket):
        """What waits for the ticket lingers no more; of a row that goes the last takes the place."""
        for device in self.devices:
            for place in range(len(device.rows) - 1, -1, -1):
                if device.rows[place][2] == ticket:
                    device.rows[place] = device.rows[-1]
                    device.rows.pop()
        for claim in self.claims_of.pop(ticket):
            self.port.claim(f"done {claim}")

    def let_go(self, device):
        """A device that has left is attached to nothing, and its frames are given back."""
        for frame in sorted(frame for frame, owner in self.owner.items() if owner == device.name):
            del self.owner[frame]
            self.clear(frame)
            self.port.claim(f"handoff {frame}")
        device.state, device.stages = "detached", None

    def poll(self):
        status = self.port.read(CQCSR)
        behind = " timeout" if status & CMD_TO else ""
        done = self.last_done(struct.unpack("<I", self.port.peek(4096 * (self.frames - 3), 4))[0])
        if done == self.confirmed:
            return "confirmed -" + behind
        first, self.confirmed = self.confirmed + 1, done
        for ticket in range(first, done + 1):
            self.confirm(ticket)
        for device in self.devices:
            if device.state == "leaving" and device.ticket <= done:
                self.let_go(device)
        return f"confirmed {first}-{done}" + behind

    def faults(self):
        head = self.port.read(FQH)
        if head == self.port.read(FQT):
            self.port.write(FQCSR, 0x301)
            return "no record"
        self.port.read(FQB)
        record = self.port.peek(4096 * (self.frames - 2) + 32 * head, 32)
        self.port.write(FQH, (head + 1) % RECORDS)
        return "record " + " ".join(f"0x{word:016x}" for word in struct.unpack("<4Q", record))

    def free(self, frame):
        frame = int(frame)
        if frame >= self.frames:
            raise Refused(5)
        if not self.is_free(frame):
            return "free no"
        self.port.claim(f"handoff {frame}")
        return "free yes"

    def call(self, words):
        """One of the driver's lines of a world, with the world's answer."""
        try:
            return getattr(self, words[0])(*words[1:])
        except Refused as why:
            return str(why)

    def takes_poke(self, address):
        """Whether the processor may store there, in a frame that isn't reserved."""
        frame = address // 4096
        if frame < self.frames and frame not in self.owner:
            self.unknown.add(frame)
            return True
        return frame >= self.frames
