// Text, read-only data, data and bss.
#include "stop.h"

#ifndef TABLE
#define TABLE 40
#define COUNTS 25
#endif

static const unsigned char table[TABLE] = {3, 1, 4, 1, 5, 9, 2, 6, [TABLE - 1] = 5};
volatile unsigned counts[COUNTS] = {1, 2, 3, [COUNTS - 1] = 4};
volatile unsigned char room[10000];

void _start(void)
{
	for (volatile int i = 0; i < 10000; i++)
		room[i] = table[i % TABLE] + counts[i % COUNTS];
	stop(room[9999]);
}
