// A thread's data beside the rest: one more program header, of another type.
#include "stop.h"

static _Thread_local volatile int mine = 7;
static _Thread_local volatile int zero[100];
volatile int shared = 8;

void _start(void)
{
	zero[1] = mine;
	stop(zero[1] + shared);
}
