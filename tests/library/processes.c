/*
 * Starts a file as process 1, and then does what lines on standard input ask for:
 *
 *     pages N               the pages of process N, as a kernel would map them: of each its address, permission and bytes
 *     write N ADDR COUNT    copies COUNT bytes, which follow the line, to process N
 *     fill N BYTE           copies BYTE into every data page of process N
 *     fork N CHILD, break N ADDR, end N
 *
 *     processes UTZERO USTKTOP USTKSIZE UADDRTOP MAGIC FILE ARG..
 *
 * Numbers are decimal. MAGIC is that of a Plan 9 a.out, or 0, and the file is an ELF. The start and each line are answered by a struct
 * holthrimi_answer on standard output; for pages value is their count, and they follow, and for break it is the end of the bss. What a
 * process reads and writes goes through the calls that copy; of the book addresses and permissions are read, and of the frames nothing.
 */
#include <holthrimi.h>
#include <inttypes.h>
#include <stdio.h>
#include <stdlib.h>
#include <string.h>

enum { FRAMES = HOLTHRIMI_MAX_FRAMES, WORDS = FRAMES * HOLTHRIMI_FRAME_WORDS, BYTES = 1 << 20, ARGS = 4096 };
static uint8_t frames[FRAMES * HOLTHRIMI_PAGE];
static uint64_t book[WORDS];
static struct holthrimi_procs procs;
static struct holthrimi_setup setup = {.flags = HOLTHRIMI_BUILT_IN};
static uint8_t buffer[BYTES];

#define LENT setup, frames, sizeof frames, book, WORDS, &procs

static _Noreturn void fail(const char *why, const char *what) {
    fprintf(stderr, "processes: %s %s\n", why, what);
    exit(1);
}

static void tell(struct holthrimi_answer a) {
    fwrite(&a, sizeof a, 1, stdout);
}

static int ascending(const void *a, const void *b) {
    uint64_t x = *(const uint64_t *)a, y = *(const uint64_t *)b;
    return (x > y) - (x < y);
}

/* The mappings of a process, page address + 16 * owner + permission, by their addresses. */
static size_t mappings(uint64_t number, uint64_t found[FRAMES]) {
    size_t count = 0;
    for (int k = 0; number >= 1 && number <= HOLTHRIMI_PROCESSES && k < FRAMES; k++) {
        uint64_t mapping = book[HOLTHRIMI_FRAME_WORDS * k + number - 1];
        if (mapping != 0) {
            found[count++] = mapping;
        }
    }
    qsort(found, count, sizeof *found, ascending);
    return count;
}

static void pages(uint64_t number) {
    uint64_t found[FRAMES];
    size_t count = mappings(number, found);
    tell((struct holthrimi_answer){.value = count});
    for (size_t i = 0; i < count; i++) {
        uint64_t page[2] = {found[i] / HOLTHRIMI_PAGE * HOLTHRIMI_PAGE, found[i] % 16};
        if (holthrimi_copy_from_user(LENT, number, buffer, HOLTHRIMI_PAGE, page[0]).kind != HOLTHRIMI_ACCEPTED) {
            fail("can't read", "a page of the book");
        }
        fwrite(page, sizeof page, 1, stdout);
        fwrite(buffer, HOLTHRIMI_PAGE, 1, stdout);
    }
}

static void fill(uint64_t number, uint64_t byte) {
    uint64_t found[FRAMES];
    size_t count = mappings(number, found);
    struct holthrimi_answer a = {0};
    memset(buffer, (int)byte, HOLTHRIMI_PAGE);
    for (size_t i = 0; i < count && a.kind == HOLTHRIMI_ACCEPTED; i++) {
        if (found[i] % 16 == HOLTHRIMI_DATA) {
            a = holthrimi_copy_to_user(LENT, number, found[i] / HOLTHRIMI_PAGE * HOLTHRIMI_PAGE, buffer, HOLTHRIMI_PAGE);
        }
    }
    tell(a);
}

static void write_bytes(uint64_t number, uint64_t address, size_t count) {
    if (count > sizeof buffer || fread(buffer, 1, count, stdin) != count) {
        fail("bytes are missing behind", "write");
    }
    tell(holthrimi_copy_to_user(LENT, number, address, buffer, count));
}

static void move_break(uint64_t number, uint64_t address) {
    struct holthrimi_answer a = holthrimi_break(LENT, number, address);
    if (a.kind == HOLTHRIMI_ACCEPTED) {
        a.value = procs.all[number - 1].bss.end;
    }
    tell(a);
}

static void obey(const char *line) {
    char word[8];
    uint64_t n = 0, a = 0, b = 0;
    if (sscanf(line, "%7s %" SCNu64 " %" SCNu64 " %" SCNu64, word, &n, &a, &b) < 2) {
        fail("no such line:", line);
    } else if (strcmp(word, "pages") == 0) {
        pages(n);
    } else if (strcmp(word, "write") == 0) {
        write_bytes(n, a, b);
    } else if (strcmp(word, "fill") == 0) {
        fill(n, a);
    } else if (strcmp(word, "fork") == 0) {
        tell(holthrimi_fork(LENT, n, a));
    } else if (strcmp(word, "break") == 0) {
        move_break(n, a);
    } else if (strcmp(word, "end") == 0) {
        tell(holthrimi_end(LENT, n));
    } else {
        fail("no such line:", line);
    }
    fflush(stdout);
}

/* The file's bytes, in the buffer. */
static size_t read_file(const char *path) {
    FILE *file = fopen(path, "rb");
    size_t count = file ? fread(buffer, 1, sizeof buffer, file) : sizeof buffer;
    if (count == sizeof buffer || fclose(file) != 0) {
        fail("can't read", path);
    }
    return count;
}

static void start(uint32_t magic, const char *path, char **args, size_t nargs) {
    static uint8_t bytes[BYTES];
    static uint64_t lengths[ARGS];
    size_t count = 0, size = read_file(path);
    for (size_t i = 0; i < nargs; i++) {
        if (nargs > ARGS || strlen(args[i]) > sizeof bytes - count) {
            fail("too many arguments for", path);
        }
        lengths[i] = strlen(args[i]);
        memcpy(bytes + count, args[i], lengths[i]);
        count += lengths[i];
    }
    tell(holthrimi_start(LENT, 1, magic != 0, magic, buffer, size, (const uint8_t *)path, strlen(path), bytes, count, lengths, nargs));
    fflush(stdout);
}

int main(int argc, char **argv) {
    char line[100];
    uint32_t magic = 0;
    if (argc < 7 || sscanf(argv[1], "%" SCNu64, &setup.utzero) != 1 || sscanf(argv[2], "%" SCNu64, &setup.ustktop) != 1 ||
        sscanf(argv[3], "%" SCNu64, &setup.ustksize) != 1 || sscanf(argv[4], "%" SCNu64, &setup.uaddrtop) != 1 ||
        sscanf(argv[5], "%" SCNu32, &magic) != 1) {
        fail("use:", "processes UTZERO USTKTOP USTKSIZE UADDRTOP MAGIC FILE ARG..");
    }
    memset(frames, 0xa5, sizeof frames);
    start(magic, argv[6], argv + 7, (size_t)argc - 7);
    while (fgets(line, sizeof line, stdin)) {
        obey(line);
    }
    return 0;
}
