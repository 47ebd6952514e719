// A bss, and no initialised data.
#ifndef SIZE
#define SIZE 1
#endif
#ifndef ALIGN
#define ALIGN 1
#endif
char room[SIZE] __attribute__((aligned(ALIGN)));

void _start(void)
{
	room[0]++;
}
