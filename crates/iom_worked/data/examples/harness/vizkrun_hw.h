/*
 * From a driver in C to `iommu-hw`: starts the program over two pipes, and speaks with it line by line. docs/DRIVER.md says
 * what the lines are, and what their answers mean.
 *
 * Where the program is gone, or an answer isn't what a call needs, a call tells so on standard error and ends the process
 * with status 4. All memory that hardware reads is behind the program: store entries by hw_store64, one call for each.
 */
#ifndef VIZKRUN_HW_H
#define VIZKRUN_HW_H

#include <signal.h>
#include <stdarg.h>
#include <stdint.h>
#include <stdio.h>
#include <stdlib.h>
#include <string.h>
#include <sys/wait.h>
#include <unistd.h>

struct hw {
	FILE *to, *from;
	FILE *steps; /* where it is told what hardware did by itself; NULL: nowhere */
	pid_t pid;
	char answer[16384]; /* of the last line, without its line feed */
};

_Noreturn static inline void hw_fail(const char *why, const char *what)
{
	fprintf(stderr, "vizkrun_hw: %s: %s\n", why, what);
	exit(4);
}

/* Says one line, as printf would print it, and gives its answer. */
__attribute__((format(printf, 2, 3))) static inline const char *hw_say(struct hw *hw, const char *format, ...)
{
	char line[16384];
	va_list arguments;
	va_start(arguments, format);
	vsnprintf(line, sizeof line, format, arguments);
	va_end(arguments);
	if (fprintf(hw->to, "%s\n", line) < 0 || fflush(hw->to) == EOF)
		hw_fail("the program takes no line", line);
	while (fgets(hw->answer, sizeof hw->answer, hw->from)) {
		if (hw->answer[0] != '#') {
			hw->answer[strcspn(hw->answer, "\n")] = 0;
			return hw->answer;
		}
		if (hw->steps)
			fputs(hw->answer, hw->steps);
	}
	hw_fail("the program gives no answer", line);
}

/* Starts the program, with the hardware that these words ask for: "64", "64 stepped", "64 nonleaf",
   "64 napot" or "64 nonleaf napot". The session goes to the file `log`, where that isn't NULL. */
static inline void hw_start_with(struct hw *hw, const char *program, const char *log, const char *hardware)
{
	int to[2], from[2];
	if (pipe(to) || pipe(from) || (hw->pid = fork()) < 0)
		hw_fail("no process", program);
	if (hw->pid == 0) {
		dup2(to[0], 0);
		dup2(from[1], 1);
		close(to[0]), close(to[1]), close(from[0]), close(from[1]);
		execlp(program, program, "--live", log ? "--log" : NULL, log, NULL);
		perror(program);
		_exit(127);
	}
	close(to[0]), close(from[1]);
	signal(SIGPIPE, SIG_IGN);
	hw->steps = stderr;
	hw->to = fdopen(to[1], "w");
	hw->from = fdopen(from[0], "r");
	if (!hw->to || !hw->from || strcmp(hw_say(hw, "hardware %s", hardware), "ok"))
		hw_fail("no hardware", program);
}

/* Hardware with so many frames of memory, whose walks are one event each. */
static inline void hw_start(struct hw *hw, const char *program, const char *log, unsigned frames)
{
	char hardware[16];
	snprintf(hardware, sizeof hardware, "%u", frames);
	hw_start_with(hw, program, log, hardware);
}

/* The value of the register at the offset, of 4 or 8 bytes. */
static inline uint64_t hw_read(struct hw *hw, unsigned offset, unsigned width)
{
	unsigned long long value;
	if (sscanf(hw_say(hw, "mmio-read %u %u", offset, width), "value %llx", &value) != 1)
		hw_fail("no such register", hw->answer);
	return value;
}

/* Whether the last line was done. Claims that were good and aren't any more are told on standard error. */
static inline int hw_is_done(struct hw *hw)
{
	if (strncmp(hw->answer, "ok", 2))
		return 0;
	if (hw->answer[2])
		fprintf(stderr, "vizkrun_hw: %s\n", hw->answer + 4);
	return 1;
}

/* Writes the register at the offset. */
static inline void hw_write(struct hw *hw, unsigned offset, unsigned width, uint64_t value)
{
	hw_say(hw, "mmio-write %u %u 0x%llx", offset, width, (unsigned long long)value);
	if (!hw_is_done(hw))
		hw_fail("no such register", hw->answer);
}

/* Loads the 8 bytes at the physical address, lowest first, at once. */
static inline uint64_t hw_load64(struct hw *hw, uint64_t address)
{
	unsigned long long swapped;
	if (sscanf(hw_say(hw, "peek 0x%llx 8", (unsigned long long)address), "bytes %llx", &swapped) != 1)
		hw_fail("no such memory", hw->answer);
	return __builtin_bswap64(swapped);
}

/* Stores 8 bytes at the physical address, lowest first, at once. */
static inline void hw_store64(struct hw *hw, uint64_t address, uint64_t value)
{
	unsigned long long at = address, swapped = __builtin_bswap64(value);
	hw_say(hw, "poke 0x%llx %016llx", at, swapped);
	if (!hw_is_done(hw))
		hw_fail("no such memory", hw->answer);
}

/* Ends the session. The program's exit status: 0 where no claim was wrong and nothing was violated, 1 where something was. */
static inline int hw_end(struct hw *hw)
{
	int status;
	fclose(hw->to);
	fclose(hw->from);
	if (waitpid(hw->pid, &status, 0) != hw->pid || !WIFEXITED(status))
		hw_fail("the program didn't end by itself", "hw_end");
	return WEXITSTATUS(status);
}

#endif
