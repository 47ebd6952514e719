// A constructor, whose address in .init_array is RELRO, and a bss.
int room;

__attribute__((constructor)) static void first(void)
{
	room++;
}

void _start(void)
{
	room++;
}
