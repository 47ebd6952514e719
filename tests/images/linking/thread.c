// A thread's data, which is RELRO, and a bss.
_Thread_local int mine = 1;
int room;

void _start(void)
{
	room += mine;
}
