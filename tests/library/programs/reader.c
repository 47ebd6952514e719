// The reading program: it prints the glosses of the words that are its arguments, and sums of its own memory, so that a byte of text,
// read-only data, data or arguments that is not as it should be, or in another place, shows in what it prints. At the word '/' it forks:
// the child reads the words that follow, then the parent does.
#include "calls.h"
#include "print.h"
#include "words.h"

struct entry {
	char word[16];
	char gloss[80];
};

// A card of the box: it lies in data, and points into read-only data.
struct card {
	const struct entry *entry;
	unsigned long asked;
	char note[48];
};

#define ENTRY(word, gloss) static const struct entry entry_##word = {#word, gloss};
WORDS(ENTRY)

#define CARD(word, gloss) {&entry_##word, 0, "no pupil has asked for " #word},
struct card cards[] = {WORDS(CARD)};
enum { CARDS = sizeof cards / sizeof *cards };

// Zeros at the start: how often each byte was met in the words, and the cards in the order in which they were asked for.
enum { ASKED = 2000 };
unsigned long met[256];
struct card *asked[ASKED];

static unsigned long lookups = 41; // data; it counts on from here
static const unsigned long first_lookup = 41;

extern const char _start[], etext[];

static unsigned long sum_on(unsigned long sum, const void *from, unsigned long length)
{
	const unsigned char *bytes = from;
	for (unsigned long i = 0; i < length; i++)
		sum = (sum ^ bytes[i]) * 1099511628211;
	return sum;
}

static unsigned long sum(const void *from, unsigned long length)
{
	return sum_on(14695981039346656037ul, from, length);
}

static unsigned long length(const char *text)
{
	unsigned long n = 0;
	while (text[n])
		n++;
	return n;
}

static int same(const char *a, const char *b)
{
	while (*a && *a == *b)
		a++, b++;
	return *a == *b;
}

static void say(const char *what, unsigned long number)
{
	put(what);
	put_number(number);
	put_line();
}

static struct card *find(const char *word)
{
	for (int i = 0; i < CARDS; i++)
		if (same(cards[i].entry->word, word))
			return &cards[i];
	return 0;
}

static void note(struct card *card)
{
	const char *text = "asked for";
	unsigned long n = 0;
	for (; text[n]; n++)
		card->note[n] = text[n];
	card->note[n] = 0;
	card->asked++;
	asked[lookups % ASKED] = card;
}

static void look_up(const char *word)
{
	for (const char *c = word; *c; c++)
		met[(unsigned char)*c]++;
	put(word);
	struct card *card = find(word);
	if (card) {
		put(": ");
		put(card->entry->gloss);
		put("; ");
		put(card->note);
		put(", before this ");
		put_number(card->asked);
		note(card);
	} else {
		put(": not in the dictionary");
	}
	put_line();
	lookups++;
}

// The sums of all memory that has a meaning, each by itself. Those of the cards are of what they point to, since addresses differ with
// the linker.
static void say_sums(void)
{
	unsigned long entries = sum("", 0), notes = entries;
	for (int i = 0; i < CARDS; i++) {
		entries = sum_on(entries, cards[i].entry, sizeof(struct entry));
		notes = sum_on(notes, cards[i].note, sizeof cards[i].note);
		notes = sum_on(notes, &cards[i].asked, sizeof cards[i].asked);
	}
	say("text ", sum(_start, etext - _start));
	say("dictionary ", entries);
	say("notes ", notes);
	say("letters ", sum(met, sizeof met));
}

// The bss must be zero before anything is written to it.
static unsigned long not_zero(void)
{
	unsigned long n = 0;
	for (int i = 0; i < 256; i++)
		n += met[i] != 0;
	for (int i = 0; i < ASKED; i++)
		n += asked[i] != 0;
	return n;
}

// Two pages of stack, written and read again.
static unsigned long on_the_stack(void)
{
	volatile unsigned char room[8000];
	unsigned long all = 0;
	for (int i = 0; i < 8000; i++)
		room[i] = i % 251;
	for (int i = 0; i < 8000; i++)
		all += room[i];
	return all;
}

// The words asked for, last to first, kept behind the break: it has 3 pages more, which are zero.
static void say_backwards(void)
{
	long from = call(BREAK, 0, 0, 0, 0);
	if (call(BREAK, from + 3 * 4096, 0, 0, 0) != from + 3 * 4096) {
		put("no memory");
		put_line();
		return;
	}
	char *room = (char *)from;
	unsigned long used = 0, zeros = 0;
	for (int i = 0; i < 3 * 4096; i++)
		zeros += room[i] == 0;
	for (unsigned long i = lookups; i > first_lookup; i--) {
		const struct card *card = asked[(i - 1) % ASKED];
		for (const char *c = card ? card->entry->word : "-"; *c && used < 3 * 4096 - 2; c++)
			room[used++] = *c;
		if (used < 3 * 4096 - 2)
			room[used++] = ' ';
	}
	put(room);
	say("and zeros ", zeros);
}

static void read_on(char **words)
{
	while (*words) {
		const char *word = *words++;
		if (same(word, "/")) {
			long child = call(CLONE, 17, 0, 0, 0); // 17: as fork does
			if (child < 0)
				put("no fork");
			else if (child > 0)
				call(WAIT, child, 0, 0, 0);
			put(child ? "parent" : "child");
			put_line();
		} else {
			look_up(word);
		}
	}
}

int main(int argc, char **argv)
{
	unsigned long zero = not_zero();
	say("words that are not zero in bss ", zero);
	say_sums();
	say("stack ", on_the_stack());
	if (argc > 0) {
		put("read by ");
		put(argv[0]);
		put_line();
		read_on(argv + 1);
	}
	unsigned long bytes = 0;
	for (int i = 1; i < argc; i++)
		bytes += length(argv[i]) + 1;
	say("bytes of words ", bytes);
	say_sums();
	say_backwards();
	say("lookups ", lookups - first_lookup);
	return lookups - first_lookup;
}
