#include "print.h"
#include "calls.h"

static char line[1000];
static unsigned long used;

static void write_out(void)
{
	call(WRITE, 1, (long)line, used, 0);
	used = 0;
}

static void put_char(char c)
{
	if (used == sizeof line)
		write_out();
	line[used++] = c;
}

void put(const char *text)
{
	while (*text)
		put_char(*text++);
}

void put_number(unsigned long n)
{
	if (n > 9)
		put_number(n / 10);
	put_char('0' + n % 10);
}

void put_line(void)
{
	put_char('\n');
	write_out();
}
