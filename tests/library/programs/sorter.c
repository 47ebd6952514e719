// A program of the C library: it sorts its arguments, in memory behind the break, and prints them.
#include <stdio.h>
#include <stdlib.h>
#include <string.h>

static int by_text(const void *a, const void *b)
{
	return strcmp(*(char *const *)a, *(char *const *)b);
}

int main(int argc, char **argv)
{
	char **words = malloc(argc * sizeof *words);
	if (!words)
		return 1;
	memcpy(words, argv, argc * sizeof *words);
	qsort(words + 1, argc - 1, sizeof *words, by_text);
	for (int i = 1; i < argc; i++)
		printf("%3d %-12s %zu bytes, %.4f\n", i, words[i], strlen(words[i]), 1.0 / i);
	free(words);
	return argc;
}
