// Text and read-only data.
const int table[] = {3, 1, 4};

int _start(int n)
{
	return table[n];
}
