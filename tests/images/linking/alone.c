// A constructor, whose address in .init_array is RELRO, and no other writable data.
__attribute__((constructor)) static void first(void)
{
}

void _start(void)
{
}
