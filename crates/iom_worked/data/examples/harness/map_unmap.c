/*
 * A small driver, tried on `iommu-hw`: it sets the IOMMU up, gives a device tables of its own, maps a page and unmaps it, and
 * claims what it believes. `map_unmap PROGRAM [--early] [LOG]`; with `--early` its fence stands before the invalidation.
 *
 * Each claim is printed with its answer. The exit status is that of the program: 0 where all is well, 1 where something is
 * wrong.
 */
#include "vizkrun_hw.h"

/* Registers: offsets in bytes (RISC-V IOMMU, chapter 5). */
enum { DDTP = 16, CQB = 24, CQH = 32, CQT = 36, FQB = 40, FQH = 48, CQCSR = 72, FQCSR = 76 };

enum { FRAMES = 64, QUEUE_ENTRIES = 256, DEVICE = 1, PSCID = 5 };

/* Frames. Tables are taken from COMMAND_QUEUE downwards; DATA is what the device may reach. */
enum { COMMAND_QUEUE = 63, FAULT_QUEUE = 62, DIRECTORY = 61, ROOT = 60, DATA = 7 };

/* Entries of tables of the first stage (Sv39): a pointer, and a leaf to read and write. */
#define POINTER(frame) ((uint64_t)(frame) << 10 | 0x01)
#define LEAF(frame) ((uint64_t)(frame) << 10 | 0xd7)

/* Commands (chapter 3), each of two words; the second is 0 but for an invalidation's address. */
#define IODIR_INVAL_DDT(device) (0x3 | 1ull << 33 | (uint64_t)(device) << 40)
#define IOTINVAL_VMA(pscid) (0x1 | 1 << 10 | (uint64_t)(pscid) << 12 | 1ull << 32)
#define IOFENCE_C (0x2 | 1 << 12 | 1 << 13)

static struct hw hw;
static unsigned tail;	   /* the next place of the command queue */
static unsigned next_free; /* the next frame for a table */

static uint64_t address_of(unsigned frame)
{
	return (uint64_t)frame << 12;
}

#define CLAIM(...)                                                   \
	do {                                                         \
		printf("claim " __VA_ARGS__);                        \
		printf(": %s\n", hw_say(&hw, "claim " __VA_ARGS__)); \
	} while (0)

/* Queues a command. Where the head of the queue stands once it is taken. */
static unsigned queue_command(uint64_t first, uint64_t second)
{
	hw_store64(&hw, address_of(COMMAND_QUEUE) + 16 * tail, first);
	hw_store64(&hw, address_of(COMMAND_QUEUE) + 16 * tail + 8, second);
	tail = (tail + 1) % QUEUE_ENTRIES;
	hw_write(&hw, CQT, 4, tail);
	return tail;
}

/* Waits until the head of the queue stands there. Hardware takes a command whenever it is told to. */
static void wait_until(unsigned head)
{
	while (hw_read(&hw, CQH, 4) != head)
		hw_say(&hw, "fetch");
}

static void set_up(void)
{
	CLAIM("take %d", COMMAND_QUEUE);
	CLAIM("take %d", FAULT_QUEUE);
	CLAIM("take %d", DIRECTORY);
	hw_write(&hw, CQB, 8, (uint64_t)COMMAND_QUEUE << 10 | 7); /* 2^8 commands */
	hw_write(&hw, CQT, 4, 0);
	hw_write(&hw, CQCSR, 4, 0x1);
	hw_write(&hw, FQB, 8, (uint64_t)FAULT_QUEUE << 10 | 6); /* 2^7 records */
	hw_write(&hw, FQH, 4, 0);
	hw_write(&hw, FQCSR, 4, 0x1);
	hw_write(&hw, DDTP, 8, (uint64_t)DIRECTORY << 10 | 2); /* one level */
	queue_command(0x3, 0); /* IODIR.INVAL_DDT of all devices */
	queue_command(0x1, 0); /* IOTINVAL.VMA of all spaces */
	wait_until(queue_command(IOFENCE_C, 0));
}

/* The device's context: the first stage alone, from ROOT. Its first word makes it valid, and so comes last. */
static void attach(void)
{
	uint64_t context = address_of(DIRECTORY) + 32 * DEVICE;
	CLAIM("take %d", ROOT);
	next_free = ROOT - 1;
	hw_store64(&hw, context + 8, 0);
	hw_store64(&hw, context + 16, (uint64_t)PSCID << 12);
	hw_store64(&hw, context + 24, 8ull << 60 | ROOT);
	hw_store64(&hw, context, 1);
	queue_command(IODIR_INVAL_DDT(DEVICE), 0);
	wait_until(queue_command(IOFENCE_C, 0));
}

/* The address of the entry of the page in a table of the last level. Tables that are missing are added. */
static uint64_t leaf_of(uint64_t page)
{
	uint64_t table = address_of(ROOT);
	for (int level = 2; level > 0; level--) {
		uint64_t at = table + 8 * (page >> 9 * level & 511), entry = hw_load64(&hw, at);
		if (!entry) {
			CLAIM("take %u", next_free);
			entry = POINTER(next_free--);
			hw_store64(&hw, at, entry);
		}
		table = address_of(entry >> 10);
	}
	return table + 8 * (page & 511);
}

static void map(uint64_t page, unsigned frame)
{
	uint64_t leaf = leaf_of(page);
	CLAIM("grant %06x %llu %u rw", DEVICE, (unsigned long long)page, frame);
	hw_store64(&hw, leaf, LEAF(frame));
	CLAIM("ready %06x %llu", DEVICE, (unsigned long long)page);
}

static void unmap(uint64_t page, unsigned frame, int early)
{
	CLAIM("release %06x %llu", DEVICE, (unsigned long long)page);
	hw_store64(&hw, leaf_of(page), 0);
	unsigned fence = early ? queue_command(IOFENCE_C, 0) : 0;
	queue_command(IOTINVAL_VMA(PSCID), page << 10);
	if (!early)
		fence = queue_command(IOFENCE_C, 0);
	wait_until(fence);
	CLAIM("done 1");
	CLAIM("handoff %u", frame);
}

int main(int count, char **words)
{
	int early = count > 2 && !strcmp(words[2], "--early");
	if (count < 2 || count > 3 + early)
		hw_fail("map_unmap PROGRAM [--early] [LOG]", "bad command line");
	hw_start(&hw, words[1], count > 2 + early ? words[2 + early] : NULL, FRAMES);
	hw_say(&hw, "device %06x raw", DEVICE);
	set_up();
	attach();
	map(3, DATA);
	printf("the device writes: %s\n", hw_say(&hw, "write %06x 0x3000 a5", DEVICE));
	printf("it is made: %s\n", hw_say(&hw, "commit %06x", DEVICE));
	unmap(3, DATA, early);
	printf("the device writes: %s\n", hw_say(&hw, "write %06x 0x3000 a5", DEVICE));
	printf("it is made: %s\n", hw_say(&hw, "commit %06x", DEVICE));
	return hw_end(&hw);
}
