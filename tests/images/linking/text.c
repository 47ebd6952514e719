// Text alone.
void _start(void)
{
	for (;;)
		;
}
