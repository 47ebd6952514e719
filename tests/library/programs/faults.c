// A program that does what its pages don't allow. Its argument says what; it prints the address first, and must be stopped there.
#include "calls.h"
#include "print.h"

enum { RET = 0xd65f03c0 };

const unsigned table[2] = {RET, RET};
static volatile unsigned code[2] = {RET, RET};
static volatile unsigned room[2];
static const char *volatile nowhere;

int main(int argc, char **argv);

static int same(const char *a, const char *b)
{
	while (*a && *a == *b)
		a++, b++;
	return *a == *b;
}

static void say(unsigned long address)
{
	put_number(address);
	put_line();
}

static void read_at(unsigned long address)
{
	say(address);
	(void)*(volatile unsigned char *)address;
}

static void write_at(unsigned long address)
{
	say(address);
	*(volatile unsigned char *)address = 1;
}

static void run_at(unsigned long address)
{
	say(address);
	((void (*)(void))address)();
}

// Calls itself until the stack ends.
static unsigned deeper(unsigned n)
{
	volatile unsigned char frame[1000];
	frame[0] = n;
	return n ? deeper(n + 1) + frame[0] : 0;
}

int main(int argc, char **argv)
{
	const char *what = argc > 1 ? argv[1] : "";
	volatile unsigned frame[2] = {RET, RET};
	if (same(what, "write-text"))
		write_at((unsigned long)main);
	if (same(what, "write-rodata"))
		write_at((unsigned long)table);
	if (same(what, "write-nowhere"))
		write_at((unsigned long)nowhere);
	if (same(what, "read-nowhere"))
		read_at((unsigned long)nowhere);
	if (same(what, "run-nowhere"))
		run_at((unsigned long)nowhere);
	if (same(what, "run-rodata"))
		run_at((unsigned long)table);
	if (same(what, "run-data"))
		run_at((unsigned long)code);
	if (same(what, "run-bss")) {
		room[0] = RET;
		run_at((unsigned long)room);
	}
	if (same(what, "run-stack"))
		run_at((unsigned long)frame);
	if (same(what, "stack"))
		say(deeper(1));
	put("not stopped");
	put_line();
	return 1;
}
