// Text and read-only data.
#include "stop.h"

static const unsigned char table[300] = {3, 1, 4, 1, 5, 9, 2, 6, [299] = 5};

void _start(void)
{
	long sum = 0;
	for (volatile int i = 0; i < 300; i++)
		sum += table[i];
	stop(sum);
}
