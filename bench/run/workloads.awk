# Writes a script just below the limit of 1,048,576 bytes to NAME.script, and to NAME.lines what it must
# print, which follows from the pattern. Called as: awk -v name=hot -f workloads.awk
# (`driver` is a script of iommu-hw.)
function say(line, told) {
    size += length(line) + 1
    if (size > 1048576) exit
    print line > (name ".script")
    print told > (name ".lines")
}

function granted(pages, frames, p) {
    for (p = 0; p < pages; p++) say("grant 000001 " p " " 4 + p % frames " rw", "ok")
}

# A number in hexadecimal, also one of more than 32 bits, which not every awk prints so.
function hexadecimal(number) {
    if (number < 16777216) return sprintf("%x", number)
    return sprintf("%x%06x", int(number / 16777216), number % 16777216)
}

# One read and its commit, of eight bytes at a place of the page that changes from read to read.
function read_page(page, i) {
    say("read 000001 0x" hexadecimal(4096 * page + 8 * (i * 181 % 512)) " 8", "accepted " i)
    say("commit 000001", "read 0000000000000000")
}

function started(frames, mode) {
    say("world " frames " 1", "ok")
    say("device 000001 raw", "ok")
    say("attach 000001 " (mode == "" ? "first" : mode), "ok")
}

# So many bytes in hexadecimal that are this number, the lowest first.
function little(number, count, k, text) {
    text = ""
    for (k = 0; k < count; k++) { text = text sprintf("%02x", number % 256); number = int(number / 256) }
    return text
}

# The driver's next command stands in its ring of 256, and its doorbell is rung.
function queued(command) {
    say("poke 0x3f" sprintf("%03x", 16 * tail) " " command, "ok")
    tail = (tail + 1) % 256
    say("mmio-write 36 4 0x" hexadecimal(tail), "ok")
}

# Queues, a directory of one page, and the tables of the device's pages 0 to 511 in frames 60, 59 and 58.
function driver_started(k) {
    say("hardware 64", "ok")
    say("device 000001 raw", "ok")
    for (k = 63; k >= 58; k--) say("claim take " k, "good")
    say("mmio-write 24 8 0xfc07", "ok")
    say("mmio-write 72 4 0x1", "ok")
    say("mmio-write 40 8 0xf806", "ok")
    say("mmio-write 76 4 0x1", "ok")
    say("mmio-write 16 8 0xf402", "ok")
    say("poke 0x3d030 0050000000000000", "ok")
    say("poke 0x3d038 3c00000000000080", "ok")
    say("poke 0x3d020 0100000000000000", "ok")
    say("poke 0x3c000 01ec000000000000", "ok")
    say("poke 0x3b000 01e8000000000000", "ok")
}

# The page of this number of 2,048, which lie behind four entries of the root of tables of four levels.
function deep_page(i) { return 134217728 * int(i / 512) + i % 512 }

# The next access of the block device, and what its commit tells.
function made(told) {
    say("step 000001", "accepted " ++accesses)
    say("commit 000001", told)
}

# So many bytes in hexadecimal, others for each seed.
function bytes(count, seed, k, text) {
    text = ""
    for (k = 0; k < count; k++) text = text sprintf("%02x", (seed * 7 + k * 13) % 256)
    return text
}

# Eight bytes of an entry of a guest's tables: page number and flags, the lowest byte first (privileged specification,
# "Sv39: Page-Based 39-bit Virtual-Memory System").
function entry(page, flags, word, k, text) {
    word = page * 1024 + flags
    text = ""
    for (k = 0; k < 8; k++) { text = text sprintf("%02x", word % 256); word = int(word / 256) }
    return text
}

# A guest's tables in its pages 0 to 3, which are frames 4 to 7: its pages 0 to 1,023 lead to its physical pages 4 to 259.
function guest_tables(table, k, leaves) {
    say("poke 0x4000 " entry(1, 1), "ok")
    say("poke 0x5000 " entry(2, 1) entry(3, 1), "ok")
    for (table = 0; table < 2; table++) {
        leaves = ""
        for (k = 0; k < 512; k++) leaves = leaves entry(4 + k % 256, 215)
        say("poke " (table == 0 ? "0x6000 " : "0x7000 ") leaves, "ok")
    }
}

BEGIN {
    # 64 pages of one device, read again and again.
    if (name == "hot") { started(128); granted(64, 64); for (i = 1; ; i++) read_page(i * 29 % 64, i) }

    # 2,048 pages, no two reads of one page close together.
    if (name == "miss") { started(512); granted(2048, 500); for (i = 1; ; i++) read_page(i * 577 % 2048, i) }

    # As `miss`, with tables of four levels.
    if (name == "deep") {
        started(512, "first48")
        for (p = 0; p < 2048; p++) say("grant 000001 " deep_page(p) " " 4 + p % 490 " rw", "ok")
        for (i = 1; ; i++) read_page(deep_page(i * 577 % 2048), i)
    }

    # A page granted, released and waited for, each time another.
    if (name == "churn") {
        started(64)
        say("grant 000001 0 4 rw", "ok")
        for (i = 1; ; i++) {
            page = 1 + 37 * i % 500
            say("grant 000001 " page " " 4 + i % 40 " rw", "ok")
            say("release 000001 " page, "ticket " i)
            say("fetch", "did iotinval.vma")
            say("fetch", "did iofence.c")
            say("poll", "confirmed " i "-" i)
        }
    }

    # Nothing to do.
    if (name == "polls") {
        say("world 64 1", "ok")
        for (;;) { say("poll", "confirmed -"); say("fetch", "empty") }
    }

    # The shortest lines.
    if (name == "tiny") {
        say("world 64 1", "ok")
        for (;;) { say("poll", "confirmed -"); say("fetch", "empty"); say("faults", "no record") }
    }

    # Behind a guest's own tables: 1,024 pages, read in turn.
    if (name == "both") {
        say("world 512 1", "ok")
        say("device 000001 raw", "ok")
        say("attach 000001 both", "ok")
        granted(260, 260)
        guest_tables()
        for (i = 1; ; i++) read_page(i * 577 % 1024, i)
    }

    # Long lines: bytes that the processor writes and reads, a write and a read of a device, and a fault and its record.
    if (name == "text") {
        started(64)
        granted(2, 2)
        for (i = 1; ; i++) {
            poked = bytes(256, i)
            written = bytes(64, i + 100)
            say(sprintf("poke 0x%x %s", 16384 + 256 * (i % 16), poked), "ok")
            say(sprintf("peek 0x%x 256", 16384 + 256 * (i % 16)), "bytes " poked)
            say(sprintf("write 000001 0x%x %s", 4096 + 64 * (i % 64), written), "accepted " 2 * i - 1)
            say(sprintf("read 000001 0x%x 64", 4096 + 64 * (i % 64)), "accepted " 2 * i)
            say("read 000001 0x9000 1", "fault 13")
            say("commit 000001", "wrote 64")
            say("commit 000001", "read " written)
            say("faults", "record 0x000001080000000d 0x0000000000000000 0x0000000000009000 0x0000000000000000")
        }
    }

    # A device with a cache of its own asks for a page, and reads there.
    if (name == "ats") {
        say("world 128 1", "ok")
        say("device 000001 ats", "ok")
        say("attach 000001 first ats", "ok")
        granted(64, 64)
        for (i = 1; ; i++) {
            page = i * 29 % 64
            say("ask 000001 " page, "sent")
            say("deliver 0", "answer " 4 + page " rw")
            say("deliver 0", "kept")
            say(sprintf("aread 000001 0x%x 8", 4096 * page + 8 * (i * 181 % 512)), "accepted " i)
            say("commit 000001", "read 0000000000000000")
        }
    }

    # A block device reads sector 0 again and again: its header, data and status are in page 1.
    if (name == "disk") {
        header = "00100000000000001000000001000100"
        data = "00120000000000000002000003000200"
        status = "10100000000000000100000002000000"
        say("world 64 1", "ok")
        say("device 000001 blk 0", "ok")
        say("attach 000001 first", "ok")
        say("grant 000001 0 4 rw", "ok")
        say("grant 000001 1 5 rw", "ok")
        say("poke 0x4000 " header data status, "ok")
        say("queue 000001 4 0x0 0x100 0x200", "ok")
        for (i = 1; ; i++) {
            index_bytes = sprintf("%02x%02x", i % 256, int(i / 256) % 256)
            say("poke 0x4102 " index_bytes, "ok")
            made("read " index_bytes)
            made("read 0000")
            made("read " header)
            made("read " data)
            made("read " status)
            made("read 00000000000000000000000000000000")
            made("wrote 512")
            made("wrote 1")
            made("wrote 8")
            made("wrote 2")
            say("step 000001", "finished 0 513")
        }
    }

    # A driver under test maps a page, its device uses it, and it is unmapped and handed on, with a claim of each.
    if (name == "driver") {
        driver_started()
        for (i = 1; ; i++) {
            page = i * 29 % 512
            say("claim grant 000001 " page " 7 rw", "good")
            say("poke 0x3a" sprintf("%03x", 8 * page) " d71c000000000000", "ok")
            say("claim ready 000001 " page, "good")
            say("write 000001 0x" hexadecimal(4096 * page) " a5", "accepted " i)
            say("commit 000001", "wrote 1")
            say("claim release 000001 " page, "claim " i)
            say("poke 0x3a" sprintf("%03x", 8 * page) " 0000000000000000", "ok")
            queued("0154000001000000" little(1024 * page, 8))
            queued("02300000000000000000000000000000")
            say("fetch", "did iotinval.vma")
            say("fetch", "did iofence.c")
            say("claim done " i, "good")
            say("claim handoff 7", "good")
            say("claim take 7", "good")
        }
    }
}
