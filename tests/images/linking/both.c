// Initialised data and a bss.
#ifndef ALIGN
#define ALIGN 1
#endif
char word = 1;
char room __attribute__((aligned(ALIGN)));

void _start(void)
{
	room += word;
}
