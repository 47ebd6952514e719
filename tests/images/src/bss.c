// Text and bss: the data segment has no file bytes.
#include "stop.h"

volatile unsigned char room[SIZE] __attribute__((aligned(ALIGN)));

void _start(void)
{
	room[SIZE - 1] = 1;
	stop(room[0]);
}
