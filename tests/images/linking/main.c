// No symbol _start.
void begin(void)
{
	for (;;)
		;
}
