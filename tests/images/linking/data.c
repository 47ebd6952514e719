// Text and initialised data.
int word = 1;

void _start(void)
{
	word++;
}
