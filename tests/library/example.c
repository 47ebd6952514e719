/*
 * An example of the library, and its test: a program of 184 bytes is started with two arguments, its break moves, it forks, parent and
 * children share its text and write to their own memory, and all end; alignments are judged, a Plan 9 a.out is started too, and bad
 * addresses are named. Every answer is checked; the last line says 'N checks, 0 failed'.
 *
 *     cc example.c -I../../include ../../target/staticlib/libholthrimi.a -o example && ./example
 */
#include <holthrimi.h>
#include <stdio.h>
#include <string.h>

/* The memory that is lent to every call. */
enum { FRAMES = 32, WORDS = FRAMES * HOLTHRIMI_FRAME_WORDS };
static uint8_t frames[FRAMES * HOLTHRIMI_PAGE];
static uint64_t book[WORDS];
static struct holthrimi_procs procs;

static struct holthrimi_setup setup = {65536, (uint64_t)1 << 47, 16384, (uint64_t)1 << 47, HOLTHRIMI_BUILT_IN};

#define LENT setup, frames, sizeof frames, book, WORDS, &procs

/* The two forms of an image, as the arguments before it name them: ELF, and Plan 9's a.out with the magic of arm64. */
#define ELF false, 0
#define AOUT true, 4 * 28 * 28 + 7

static int checks, failed;

static void check(bool ok, const char *what, int line) {
    checks++;
    if (!ok) {
        failed++;
        printf("line %d: %s\n", line, what);
    }
}

#define CHECK(c) check((c), #c, __LINE__)

static bool accepted(struct holthrimi_answer a) {
    return a.kind == HOLTHRIMI_ACCEPTED && a.number == 0;
}

static bool is(struct holthrimi_answer a, uint64_t kind, uint64_t number, uint64_t value) {
    return a.kind == kind && a.number == number && a.value == value && a.regs.pc == 0 && a.regs.sp == 0 && a.regs.argc == 0 &&
           a.regs.argv == 0;
}

/* Refusals by numbers that name no address. */
static bool refused(struct holthrimi_answer a, uint64_t number) {
    return number != HOLTHRIMI_EFAULT && is(a, HOLTHRIMI_REFUSED, number, 0);
}

static bool ended(struct holthrimi_answer a, uint64_t number) {
    return number != HOLTHRIMI_EFAULT && is(a, HOLTHRIMI_ENDED, number, 0);
}

/* 35, at an address. */
static bool refused_at(struct holthrimi_answer a, uint64_t address) {
    return is(a, HOLTHRIMI_REFUSED, HOLTHRIMI_EFAULT, address);
}

static bool ended_at(struct holthrimi_answer a, uint64_t address) {
    return is(a, HOLTHRIMI_ENDED, HOLTHRIMI_EFAULT, address);
}

/* A range's yes, and its no, at an address. */
static bool fine(struct holthrimi_answer a) {
    return is(a, HOLTHRIMI_ACCEPTED, 0, 1);
}

static bool bad(struct holthrimi_answer a, uint64_t address) {
    return is(a, HOLTHRIMI_NO, 0, address);
}

static void put(uint8_t *at, uint64_t value, int bytes) {
    for (int i = 0; i < bytes; i++) {
        at[i] = (uint8_t)(value >> (8 * i));
    }
}

static void header(uint8_t *at, uint32_t flags, uint64_t offset, uint64_t address, uint64_t file, uint64_t memory) {
    put(at, 1, 4);
    put(at + 4, flags, 4);
    put(at + 8, offset, 8);
    put(at + 16, address, 8);
    put(at + 24, address, 8);
    put(at + 32, file, 8);
    put(at + 40, memory, 8);
    put(at + 48, HOLTHRIMI_PAGE, 8);
}

/* A static aarch64 executable: a page of text at 65,536, whose last four bytes of 180 are code, and four bytes of data. */
enum { IMAGE = 184 };
static uint8_t image[IMAGE];

static void write_image(void) {
    memcpy(image, "\177ELF\2\1\1", 7);
    put(image + 16, 2, 2);   /* executable */
    put(image + 18, 183, 2); /* aarch64 */
    put(image + 20, 1, 4);
    put(image + 24, 65712, 8); /* entry */
    put(image + 32, 64, 8);    /* program headers */
    put(image + 54, 56, 2);
    put(image + 56, 2, 2);
    header(image + 64, 5, 0, 65536, 180, 180);
    header(image + 120, 6, 180, 69812, 4, 8000);
    put(image + 176, 0xd4000001, 4); /* svc #0 */
    memcpy(image + 180, "data", 4);
}

/* Plan 9's form: eight big-endian words, then text and data. Here eight bytes of text, of which the first four are code, and four of
 * data. syms, spsz and pcsz are not read. */
enum { PLAN9 = 44 };
static uint8_t plan9[PLAN9];

static void put_be(uint8_t *at, uint32_t value) {
    for (int i = 0; i < 4; i++) {
        at[i] = (uint8_t)(value >> (24 - 8 * i));
    }
}

static void write_plan9(uint32_t magic, uint32_t text, uint32_t data, uint32_t bss, uint32_t entry) {
    const uint32_t words[8] = {magic, text, data, bss, 0xffffffff, entry, 0x80000000, 7};
    for (int i = 0; i < 8; i++) {
        put_be(plan9 + 4 * i, words[i]);
    }
    put(plan9 + 32, 0xd4000001, 4); /* svc #0 */
    memcpy(plan9 + 36, "textdata", 8);
}

/* One byte of a process's memory, or -1. */
static int peek(uint64_t number, uint64_t address) {
    uint8_t byte = 0;
    if (!fine(holthrimi_user_range_ok(LENT, number, address, 1, false))) {
        return -1;
    }
    return accepted(holthrimi_copy_from_user(LENT, number, &byte, 1, address)) ? byte : -1;
}

/* Records are compared by their fields, since C leaves open what stands between them. */
static bool same(const struct holthrimi_proc *a, const struct holthrimi_proc *b) {
    return memcmp(a->segments, b->segments, sizeof a->segments) == 0 && memcmp(a->text, b->text, sizeof a->text) == 0 &&
           memcmp(&a->bss, &b->bss, sizeof a->bss) == 0;
}

/* Process n's place in a frame, and how many hold the frame. */
static uint64_t *place(int frame, int n) {
    return &book[HOLTHRIMI_FRAME_WORDS * frame + n - 1];
}

static uint64_t *holders(int frame) {
    return &book[HOLTHRIMI_FRAME_WORDS * frame + HOLTHRIMI_PROCESSES];
}

static uint64_t free_frames(void) {
    uint64_t n = 0;
    for (int k = 0; k < FRAMES; k++) {
        n += *holders(k) == 0;
    }
    return n;
}

/* Everything lent is as it was noted last. */
static uint8_t frames_noted[sizeof frames];
static uint64_t book_noted[WORDS];
static struct holthrimi_procs procs_noted;

static void note(void) {
    memcpy(frames_noted, frames, sizeof frames);
    memcpy(book_noted, book, sizeof book);
    procs_noted = procs;
}

static bool unchanged(void) {
    bool ok = memcmp(frames_noted, frames, sizeof frames) == 0 && memcmp(book_noted, book, sizeof book) == 0;
    for (int i = 0; i < HOLTHRIMI_PROCESSES; i++) {
        ok = ok && same(&procs_noted.all[i], &procs.all[i]);
    }
    return ok;
}

/* Fork with the list of a process's segments lent: process 1 has eight pages and three segments, and the book 32 - 8 - 3 * 7 = 3 free
 * frames once it has three children. */
static void fork_lists(void) {
    struct holthrimi_segment list[HOLTHRIMI_SEGMENTS + 1] = {0};
    memcpy(list, procs.all[0].segments, sizeof procs.all[0].segments);
    CHECK(list[2].perm == HOLTHRIMI_DATA && list[3].perm == 0);
    note();

    /* A list with one record more, be it an unused place, one less, none, or one field changed is 2. */
    CHECK(refused(holthrimi_fork_list(LENT, 1, 2, list, 4), HOLTHRIMI_TORN));
    CHECK(refused(holthrimi_fork_list(LENT, 1, 2, list, HOLTHRIMI_SEGMENTS + 1), HOLTHRIMI_TORN));
    CHECK(refused(holthrimi_fork_list(LENT, 1, 2, list, 2), HOLTHRIMI_TORN));
    CHECK(refused(holthrimi_fork_list(LENT, 1, 2, list, 0), HOLTHRIMI_TORN));
    list[3] = list[2];
    CHECK(refused(holthrimi_fork_list(LENT, 1, 2, list, 4), HOLTHRIMI_TORN));
    CHECK(refused(holthrimi_fork_list(LENT, 1, 2, list + 1, 3), HOLTHRIMI_TORN));
    for (int i = 0; i < 3; i++) {
        uint64_t *fields[3] = {&list[i].range.start, &list[i].range.end, &list[i].perm};
        for (int k = 0; k < 3; k++) {
            *fields[k] ^= 1;
            CHECK(refused(holthrimi_fork_list(LENT, 1, 2, list, 3), HOLTHRIMI_TORN));
            *fields[k] ^= 1;
        }
    }
    CHECK(unchanged());

    /* 1, 38, 39, the book's 2, then the list's 2, which only a number from 1 to 16 has, 3 and 4. */
    setup.uaddrtop += 4096;
    setup.flags[7] = HOLTHRIMI_DATA;
    *holders(0) = 1;
    CHECK(refused(holthrimi_fork_list(setup, frames, sizeof frames - 1, book, WORDS, &procs, 1, 2, list, 2), HOLTHRIMI_SIZES));
    CHECK(refused(holthrimi_fork_list(LENT, 1, 2, list, 2), HOLTHRIMI_SETUP));
    setup.uaddrtop -= 4096;
    CHECK(refused(holthrimi_fork_list(LENT, 1, 2, list, 2), HOLTHRIMI_FLAGS));
    setup.flags[7] = 0;
    CHECK(refused(holthrimi_fork_list(LENT, 17, 17, list, 3), HOLTHRIMI_TORN));
    *holders(0) = 0;
    CHECK(refused(holthrimi_fork_list(LENT, 1, 17, list, 2), HOLTHRIMI_TORN));
    CHECK(refused(holthrimi_fork_list(LENT, 17, 2, list, 2), HOLTHRIMI_NUMBER));
    CHECK(refused(holthrimi_fork_list(LENT, 0, 2, list, 3), HOLTHRIMI_NUMBER));
    CHECK(refused(holthrimi_fork_list(LENT, 1, 17, list, 3), HOLTHRIMI_NUMBER));
    CHECK(refused(holthrimi_fork_list(LENT, 3, 2, list, 3), HOLTHRIMI_TORN));
    CHECK(refused(holthrimi_fork_list(LENT, 3, 1, list, 0), HOLTHRIMI_DEAD));
    CHECK(refused(holthrimi_fork_list(LENT, 1, 1, list, 2), HOLTHRIMI_TORN));
    CHECK(refused(holthrimi_fork_list(LENT, 1, 1, list, 3), HOLTHRIMI_TAKEN));
    CHECK(unchanged());

    /* The record's own list: the child is as a child of holthrimi_fork. 5 comes before 33, and 33 changes nothing either. */
    CHECK(accepted(holthrimi_fork_list(LENT, 1, 2, list, 3)) && accepted(holthrimi_end(LENT, 2)));
    memcpy(frames, frames_noted, sizeof frames);
    CHECK(unchanged() && accepted(holthrimi_fork_list(LENT, 1, 2, list, 3)));
    note();
    CHECK(accepted(holthrimi_end(LENT, 2)) && accepted(holthrimi_fork(LENT, 1, 2)) && unchanged());
    CHECK(accepted(holthrimi_fork_list(LENT, 1, 3, list, 3)) && accepted(holthrimi_fork_list(LENT, 3, 4, list, 3)));
    note();
    CHECK(refused(holthrimi_fork_list(LENT, 1, 4, list, 3), HOLTHRIMI_TAKEN));
    CHECK(refused(holthrimi_fork_list(LENT, 1, 5, list, 3), HOLTHRIMI_ENOVMEM));
    CHECK(refused(holthrimi_fork_list(LENT, 1, 5, list, 2), HOLTHRIMI_TORN) && unchanged());
    CHECK(same(&procs.all[0], &procs.all[3]) && *holders(FRAMES - 1) == 4 && free_frames() == FRAMES - 8 - 3 * 7);
    CHECK(accepted(holthrimi_end(LENT, 2)) && accepted(holthrimi_end(LENT, 3)) && accepted(holthrimi_end(LENT, 4)));
}

/* The flag table in eight lines, written and read. */
static void flag_lines(void) {
    const uint8_t built_in[8] = HOLTHRIMI_BUILT_IN;
    const char *lines = "flags0=refused\nflags1=refused\nflags2=refused\nflags3=refused\n"
                        "flags4=rodata\nflags5=text\nflags6=data\nflags7=refused\n";
    uint8_t written[HOLTHRIMI_FLAGS_TEXT + 1] = {0};
    CHECK(memcmp(setup.flags, built_in, 8) == 0 && memcmp(HOLTHRIMI_DEPOSIT.flags, built_in, 8) == 0);
    size_t n = holthrimi_write_flags(built_in, written, HOLTHRIMI_FLAGS_TEXT);
    CHECK(n == strlen(lines) && memcmp(written, lines, n) == 0);
    struct holthrimi_flags_read read = holthrimi_read_flags(written, n);
    CHECK(read.number == 0 && memcmp(read.flags, built_in, 8) == 0);

    /* Without the last line feed, with a byte behind it, and with another first row. A refusal gives zeros. */
    CHECK(holthrimi_read_flags(written, n - 1).number == HOLTHRIMI_FLAGS);
    CHECK(holthrimi_read_flags(written, n + 1).number == HOLTHRIMI_FLAGS);
    written[5] = '1';
    read = holthrimi_read_flags(written, n);
    CHECK(read.number == HOLTHRIMI_FLAGS && read.flags[4] == 0 && read.flags[5] == 0 && read.flags[6] == 0);

    /* Nothing is written of a table against the rules, or into a buffer that is too short for the longest. */
    const uint8_t text_in_4[8] = {0, 0, 0, 0, HOLTHRIMI_TEXT, HOLTHRIMI_TEXT, HOLTHRIMI_DATA, 0};
    const uint8_t none[8] = {0};
    memset(written, '.', sizeof written);
    CHECK(holthrimi_write_flags(text_in_4, written, sizeof written) == 0 && written[0] == '.');
    CHECK(holthrimi_write_flags(built_in, written, HOLTHRIMI_FLAGS_TEXT - 1) == 0 && written[0] == '.');
    CHECK(holthrimi_write_flags(none, written, sizeof written) == HOLTHRIMI_FLAGS_TEXT && written[HOLTHRIMI_FLAGS_TEXT] == '.');
    CHECK(holthrimi_read_flags(written, HOLTHRIMI_FLAGS_TEXT).number == 0);
}

/* A table against the rules is 39 from every call, after 1 and 38 and before 2, whatever rows an image uses. */
static void flag_table(uint8_t row, uint8_t code) {
    uint8_t was = setup.flags[row], byte = 7;
    uint64_t count = *holders(0);
    setup.flags[row] = code;
    *holders(0) = 17;
    note();
    setup.uaddrtop += 4096;
    CHECK(holthrimi_check(LENT) == HOLTHRIMI_SETUP && refused(holthrimi_end(LENT, 17), HOLTHRIMI_SETUP));
    CHECK(holthrimi_plan(setup, ELF, image, IMAGE).number == HOLTHRIMI_SETUP);
    CHECK(holthrimi_ibrk(setup, false, 0, 0, 0, 0).error == HOLTHRIMI_SETUP);
    CHECK(holthrimi_args_error(setup, &byte, 1, (const uint64_t[]){1}, 1) == HOLTHRIMI_SETUP);
    setup.uaddrtop -= 4096;
    CHECK(refused(holthrimi_end(setup, frames, sizeof frames - 1, book, WORDS, &procs, 17), HOLTHRIMI_SIZES));
    CHECK(refused(holthrimi_start(LENT, 17, ELF, image, 63, &byte, 1, &byte, 1, (const uint64_t[]){2}, 1), HOLTHRIMI_SIZES));
    CHECK(refused(holthrimi_start(LENT, 17, ELF, image, 63, &byte, 1, &byte, 0, (const uint64_t[]){0}, 0), HOLTHRIMI_FLAGS));
    CHECK(refused(holthrimi_replace(LENT, 17, ELF, image, 63, &byte, 1, 0), HOLTHRIMI_FLAGS));
    CHECK(refused(holthrimi_push(LENT, 17, 0, 8, &byte, 1, (const uint64_t[]){1}, 1), HOLTHRIMI_FLAGS));
    CHECK(refused(holthrimi_break(LENT, 17, 0), HOLTHRIMI_FLAGS) && refused(holthrimi_fork(LENT, 17, 17), HOLTHRIMI_FLAGS));
    CHECK(refused(holthrimi_end(LENT, 17), HOLTHRIMI_FLAGS));
    CHECK(refused(holthrimi_user_range_ok(LENT, 17, 0, 0, false), HOLTHRIMI_FLAGS));
    CHECK(refused(holthrimi_copy_from_user(LENT, 17, &byte, 1, 0), HOLTHRIMI_FLAGS));
    CHECK(refused(holthrimi_copy_to_user(LENT, 17, 0, &byte, 1), HOLTHRIMI_FLAGS));
    CHECK(refused(holthrimi_try_copy_str_from_user(LENT, 17, &byte, 1, 0), HOLTHRIMI_FLAGS) && byte == 7);
    CHECK(holthrimi_check(LENT) == HOLTHRIMI_FLAGS && holthrimi_plan(setup, ELF, image, IMAGE).number == HOLTHRIMI_FLAGS);
    CHECK(holthrimi_plan(setup, ELF, image, 63).number == HOLTHRIMI_FLAGS && holthrimi_plan(setup, ELF, image, 63).own == 0);
    CHECK(holthrimi_ibrk(setup, false, 0, 0, 0, 0).error == HOLTHRIMI_FLAGS);
    CHECK(holthrimi_args_error(setup, &byte, 1, (const uint64_t[]){2}, 1) == HOLTHRIMI_SIZES);
    CHECK(holthrimi_args_error(setup, (const uint8_t *)"", 1, (const uint64_t[]){1}, 1) == HOLTHRIMI_FLAGS);
    CHECK(holthrimi_parse(setup, ELF, image, 63) == HOLTHRIMI_FLAGS);
    CHECK(holthrimi_parse(HOLTHRIMI_DEPOSIT, ELF, image, 63) == HOLTHRIMI_TRUNCATED);
    CHECK(unchanged());
    setup.flags[row] = was;
    CHECK(holthrimi_check(LENT) == HOLTHRIMI_TORN);
    *holders(0) = count;
    CHECK(holthrimi_check(LENT) == 0);
}

/* Under a table whose row 6 is rodata the image's data can be read and not written, a fork shares it, and the bss behind it is empty.
 * No process lives before and afterwards. */
static void rodata_in_row_6(void) {
    const uint8_t *name = (const uint8_t *)"lex";
    const uint64_t lengths[1] = {3};
    setup.flags[6] = HOLTHRIMI_RODATA;
    struct holthrimi_planned plan = holthrimi_plan(setup, ELF, image, IMAGE);
    CHECK(plan.number == 0 && plan.segments[1].perm == HOLTHRIMI_RODATA && plan.pages == 7);
    CHECK(plan.bss.start == 77824 && plan.bss.end == 77824);
    CHECK(accepted(holthrimi_start(LENT, 1, ELF, image, IMAGE, name, 3, name, 3, lengths, 1)) && free_frames() == FRAMES - 7);
    CHECK(peek(1, 69812) == 'd' && peek(1, 77823) == 0 && peek(1, 77824) == -1);
    CHECK(fine(holthrimi_user_range_ok(LENT, 1, 69812, 4, false)) && bad(holthrimi_user_range_ok(LENT, 1, 69812, 4, true), 69812));
    CHECK(accepted(holthrimi_fork(LENT, 1, 2)) && free_frames() == FRAMES - 7 - 4 && *holders(FRAMES - 2) == 2);
    CHECK(ended_at(holthrimi_copy_to_user(LENT, 2, 69812, name, 1), 69812) && peek(1, 69812) == 'd');
    CHECK(accepted(holthrimi_end(LENT, 1)) && free_frames() == FRAMES);

    /* Row 6 refused: 25, which a start answers with 30. Row 5 rodata: the entry is in no text. Row 4 the image does not use. */
    setup.flags[6] = 0;
    CHECK(holthrimi_parse(setup, ELF, image, IMAGE) == HOLTHRIMI_BAD_FLAGS);
    CHECK(holthrimi_parse(HOLTHRIMI_DEPOSIT, ELF, image, IMAGE) == 0);
    CHECK(refused(holthrimi_start(LENT, 1, ELF, image, IMAGE, name, 3, name, 3, lengths, 1), HOLTHRIMI_EBADEXEC));
    setup.flags[6] = HOLTHRIMI_DATA;
    setup.flags[5] = HOLTHRIMI_RODATA;
    CHECK(holthrimi_parse(setup, ELF, image, IMAGE) == HOLTHRIMI_ENTRY_NOT_IN_TEXT);
    setup.flags[5] = HOLTHRIMI_TEXT;
    setup.flags[4] = 0;
    CHECK(holthrimi_parse(setup, ELF, image, IMAGE) == 0 && holthrimi_plan(setup, ELF, image, IMAGE).number == 0);
    setup.flags[4] = HOLTHRIMI_RODATA;
    CHECK(memcmp(&setup, &HOLTHRIMI_DEPOSIT, sizeof setup) == 0);
}

/* What the reader of its form says of an image; a start and a replace answer 30 for each of its numbers, and a plan tells it. */
static uint64_t judged(bool aout, uint32_t magic, const uint8_t *bytes, size_t count) {
    const uint8_t *name = (const uint8_t *)"lex";
    uint64_t own = holthrimi_parse(setup, aout, magic, bytes, count);
    struct holthrimi_planned plan = holthrimi_plan(setup, aout, magic, bytes, count);
    CHECK(plan.own == own && plan.number == (own == 0 ? 0 : HOLTHRIMI_EBADEXEC));
    if (own != 0) {
        note();
        CHECK(refused(holthrimi_start(LENT, 2, aout, magic, bytes, count, name, 3, name, 3, (const uint64_t[]){3}, 1), HOLTHRIMI_EBADEXEC));
        CHECK(refused(holthrimi_replace(LENT, 1, aout, magic, bytes, count, name, 3, 8), HOLTHRIMI_EBADEXEC) && unchanged());
    }
    return own;
}

/* The image with another alignment in the header at a place, which is put back. */
static uint64_t aligned(int at, uint64_t align) {
    put(image + at + 48, align, 8);
    uint64_t own = judged(ELF, image, IMAGE);
    put(image + at + 48, HOLTHRIMI_PAGE, 8);
    return own;
}

/* The alignment field: 0 and 1 ask for nothing, any other is a power of two that address and offset agree modulo. The text header at 64
 * has address 65,536 and offset 0, the data header at 120 address 69,812 and offset 180. No process lives before and afterwards. */
static void alignments(void) {
    const uint8_t *name = (const uint8_t *)"lex";
    const uint64_t lengths[1] = {3};
    CHECK(accepted(holthrimi_start(LENT, 1, ELF, image, IMAGE, name, 3, name, 3, lengths, 1)));
    for (int at = 64; at <= 120; at += 56) {
        CHECK(aligned(at, 0) == 0 && aligned(at, 1) == 0 && aligned(at, 2) == 0 && aligned(at, 2048) == 0 && aligned(at, 4096) == 0);
        CHECK(aligned(at, 3) == 28 && aligned(at, 6) == 28 && aligned(at, 4095) == 28 && aligned(at, 4097) == 28);
        CHECK(aligned(at, (uint64_t)1 << 63) == 28 && aligned(at, ((uint64_t)1 << 63) + 1) == 28 && aligned(at, UINT64_MAX) == 28);
        put(image + at, 2, 4); /* a header that is skipped is not judged */
        CHECK(aligned(at, 3) == (at == 64 ? 27 : 0));
        put(image + at, 1, 4);
    }
    CHECK(aligned(64, 65536) == 0 && aligned(64, 131072) == 28 && aligned(120, 8192) == 28 && aligned(120, 65536) == 28);
    put(image + 136, 181, 1); /* 23 comes first */
    CHECK(aligned(120, 4096) == 23 && aligned(120, 3) == 23 && aligned(120, 65536) == 23);
    put(image + 136, 180, 1);
    CHECK(accepted(holthrimi_end(LENT, 1)));

    /* A start with 65,536 on the text header reads back. */
    put(image + 64 + 48, 65536, 8);
    CHECK(accepted(holthrimi_start(LENT, 1, ELF, image, IMAGE, name, 3, name, 3, lengths, 1)) && free_frames() == FRAMES - 7);
    uint8_t text[180];
    CHECK(accepted(holthrimi_copy_from_user(LENT, 1, text, sizeof text, 65536)) && memcmp(text, image, sizeof text) == 0);
    CHECK(peek(1, 65536 + 180) == 0 && peek(1, 69812) == 'd' && peek(1, 69815) == 'a' && peek(1, 69816) == 0);
    put(image + 64 + 48, HOLTHRIMI_PAGE, 8);
    CHECK(accepted(holthrimi_end(LENT, 1)) && free_frames() == FRAMES);
}

/* An a.out of these words. */
static uint64_t reads(uint32_t magic, uint32_t text, uint32_t data, uint32_t entry) {
    write_plan9(magic, text, data, 8000, entry);
    return judged(AOUT, plan9, PLAN9);
}

/* Plan 9's a.outs: the numbers at their boundaries, a start that reads back, and a process that goes from one form to the other. No
 * process lives before and afterwards. */
static void aouts(void) {
    const uint8_t *name = (const uint8_t *)"/arm64/bin/lex";
    const uint64_t lengths[2] = {3, 3};
    const uint32_t magic = 4 * 28 * 28 + 7, entry = 65536 + 32;
    CHECK(accepted(holthrimi_start(LENT, 1, ELF, image, IMAGE, name, 14, name, 6, lengths, 2)));

    /* 42, 43, 19 and 27, in this order; sums are exact. */
    CHECK(reads(magic, 8, 4, entry) == 0 && reads(magic, 8, 4, entry + 4) == 0 && reads(magic, 12, 0, entry + 8) == 0);
    CHECK(reads(magic - 1, 9, 4, 1) == HOLTHRIMI_NOT_AOUT && reads(magic | 0x8000, 8, 4, entry) == HOLTHRIMI_NOT_AOUT);
    CHECK(holthrimi_parse(setup, true, magic | 0x8000, plan9, PLAN9) == 0);
    CHECK(holthrimi_parse(setup, ELF, plan9, PLAN9) == HOLTHRIMI_TRUNCATED);
    CHECK(reads(magic, 9, 4, 1) == HOLTHRIMI_AOUT_OUT_OF_RANGE && reads(magic, 8, 5, entry) == HOLTHRIMI_AOUT_OUT_OF_RANGE);
    CHECK(reads(magic, 0xffffffff, 13, entry) == HOLTHRIMI_AOUT_OUT_OF_RANGE);
    CHECK(reads(magic, 8, 0xfffffffc, entry) == HOLTHRIMI_AOUT_OUT_OF_RANGE);
    CHECK(reads(magic, 8, 4, 1) == 19 && reads(magic, 8, 4, entry + 2) == 19);
    CHECK(reads(magic, 8, 4, entry - 4) == 27 && reads(magic, 8, 4, entry + 8) == 27 && reads(magic, 0, 12, entry) == 27);
    write_plan9(magic, 8, 4, 8000, entry);
    CHECK(holthrimi_parse(setup, AOUT, plan9, 31) == HOLTHRIMI_NOT_AOUT && holthrimi_parse(setup, AOUT, image, 0) == HOLTHRIMI_NOT_AOUT);
    CHECK(holthrimi_parse(setup, AOUT, plan9, 32) == HOLTHRIMI_AOUT_OUT_OF_RANGE);
    CHECK(holthrimi_parse(setup, AOUT, plan9, PLAN9 - 1) == HOLTHRIMI_AOUT_OUT_OF_RANGE);
    CHECK(holthrimi_parse(setup, AOUT, image, IMAGE) == HOLTHRIMI_NOT_AOUT);

    /* The setup comes first; the magic counts for an a.out alone; and the flag table for an ELF alone. */
    setup.flags[7] = HOLTHRIMI_DATA;
    CHECK(holthrimi_parse(setup, AOUT, plan9, 31) == HOLTHRIMI_FLAGS && holthrimi_plan(setup, AOUT, plan9, 31).number == HOLTHRIMI_FLAGS);
    setup.uaddrtop += 4096;
    CHECK(holthrimi_parse(setup, AOUT, plan9, 31) == HOLTHRIMI_SETUP && holthrimi_plan(setup, AOUT, plan9, 31).number == HOLTHRIMI_SETUP);
    setup.uaddrtop -= 4096;
    setup.flags[7] = 0;
    CHECK(holthrimi_parse(setup, false, magic, image, IMAGE) == 0 && holthrimi_plan(setup, false, magic, image, IMAGE).number == 0);
    setup.flags[5] = 0;
    CHECK(holthrimi_parse(setup, AOUT, plan9, PLAN9) == 0 && holthrimi_parse(setup, ELF, image, IMAGE) == HOLTHRIMI_BAD_FLAGS);
    setup.flags[5] = HOLTHRIMI_TEXT;

    /* Header and text at UTZERO, data on the next page, and bss behind it. */
    struct holthrimi_planned plan = holthrimi_plan(setup, AOUT, plan9, PLAN9);
    CHECK(plan.entry == entry && plan.count == 2 && plan.pages == 7 && plan.bss.start == 69636 && plan.bss.end == 77824);
    CHECK(plan.segments[0].range.start == 65536 && plan.segments[0].range.end == 69632 && plan.segments[0].perm == HOLTHRIMI_TEXT);
    CHECK(plan.segments[1].range.start == 69632 && plan.segments[1].range.end == 73728 && plan.segments[1].perm == HOLTHRIMI_DATA);
    struct holthrimi_answer a = holthrimi_start(LENT, 2, AOUT, plan9, PLAN9, name, 14, name, 6, lengths, 2);
    CHECK(accepted(a) && a.regs.pc == entry && a.regs.argc == 2 && memcmp(procs.all[1].text, "lex", 4) == 0);
    for (int i = 0; i < 8192; i++) {
        uint8_t text = i < 40 ? plan9[i] : 0, data = i < 4 ? plan9[40 + i] : 0;
        if ((i < 4096 && peek(2, 65536 + i) != text) || peek(2, 69632 + i) != data) {
            CHECK(!"what was loaded reads back");
        }
    }
    CHECK(peek(2, 65535) == -1 && peek(2, 77824) == -1 && free_frames() == FRAMES - 7 - 7);
    CHECK(bad(holthrimi_user_range_ok(LENT, 2, 65536, 1, true), 65536) && fine(holthrimi_user_range_ok(LENT, 2, 69632, 8192, true)));

    /* The ELF becomes an a.out, and the a.out an ELF. */
    a = holthrimi_replace(LENT, 1, AOUT, plan9, PLAN9, name, 14, a.regs.argv);
    CHECK(accepted(a) && a.regs.pc == entry && a.regs.argc == 2 && peek(1, 65536 + 36) == 't' && peek(1, 69632) == 'd');
    a = holthrimi_replace(LENT, 2, ELF, image, IMAGE, name, 14, a.regs.argv);
    CHECK(accepted(a) && a.regs.pc == 65712 && a.regs.argc == 2 && peek(2, 65536) == 127 && peek(2, 69812) == 'd');
    CHECK(accepted(holthrimi_end(LENT, 2)) && accepted(holthrimi_end(LENT, 1)));

    /* Without data and bss there is no data segment. */
    write_plan9(magic, 12, 0, 0, entry);
    plan = holthrimi_plan(setup, AOUT, plan9, PLAN9);
    CHECK(plan.number == 0 && plan.count == 1 && plan.pages == 5 && plan.bss.start == 69632 && plan.bss.end == 69632);
    CHECK(accepted(holthrimi_start(LENT, 1, AOUT, plan9, PLAN9, name, 14, name, 6, lengths, 2)) && peek(1, 69632) == -1);
    CHECK(accepted(holthrimi_end(LENT, 1)) && free_frames() == FRAMES && holthrimi_check(LENT) == 0);
}

/* ---- bad addresses. Process 1 has text at 65,536, data and bss from 69,632 up to 77,824, and the stack up to the top; all else is
 * unmapped. */
static const uint64_t top = (uint64_t)1 << 47, last = UINT64_MAX;

static struct holthrimi_answer range(uint64_t address, uint64_t length, bool write) {
    return holthrimi_user_range_ok(LENT, 1, address, length, write);
}

/* Writes to process 1. */
static void store(uint64_t address, const void *bytes, size_t count) {
    CHECK(accepted(holthrimi_copy_to_user(LENT, 1, address, bytes, count)));
}

static void store_word(uint64_t address, uint64_t word) {
    uint8_t bytes[8];
    put(bytes, word, 8);
    store(address, bytes, 8);
}

static void bad_ranges(void) {
    note();
    /* One that ends at the top, and past it; none and one byte at the top, and above it; sums that leave 64 bits. */
    CHECK(fine(range(top - 16384, 16384, true)) && fine(range(top - 1, 1, true)) && bad(range(top - 1, 2, false), top));
    CHECK(bad(range(top - 16384, 16385, true), top) && bad(range(top - 16385, 16386, true), top - 16385));
    CHECK(fine(range(top, 0, true)) && bad(range(top, 1, false), top));
    CHECK(bad(range(top + 1, 0, false), top + 1) && bad(range(top + 1, 1, true), top + 1));
    CHECK(bad(range(last, 2, false), last) && bad(range(last, 1, true), last) && bad(range(last, 0, false), last));
    CHECK(bad(range(top - 1, last, true), top) && bad(range(top, last, false), top) && bad(range(69632, last, true), 77824));

    /* 0 and 1 are bad addresses, too: the kind tells 1 from a yes. */
    CHECK(bad(range(0, 1, false), 0) && bad(range(0, last, true), 0) && bad(range(1, 1, false), 1) && fine(range(1, 0, false)));

    /* The first byte of an unmapped page, reached from the one before. */
    CHECK(fine(range(77823, 1, true)) && bad(range(77823, 2, true), 77824) && bad(range(65536, 65536, false), 77824));
    CHECK(bad(range(65535, 2, false), 65535) && fine(range(77824, 0, true)) && bad(range(80000, 1, false), 80000));

    /* Text in a range to be written, from its middle on. */
    CHECK(fine(range(67584, 4096, false)) && bad(range(67584, 4096, true), 67584) && bad(range(69631, 2, true), 69631));
    CHECK(unchanged());
}

/* The string copy names the first byte that can't be read, and process 1 lives. */
static void bad_strings(void) {
    uint8_t text[8];
#define STRING(count, address) (memset(text, '.', 8), holthrimi_try_copy_str_from_user(LENT, 1, text, count, address))
    store(77820, "mot", 4);
    CHECK(is(STRING(8, 77820), HOLTHRIMI_ACCEPTED, 0, 3) && memcmp(text, "mot.....", 8) == 0);
    store(77823, "s", 1);
    store(top - 1, "s", 1);
    note();
    CHECK(refused_at(STRING(8, 77820), 77824) && memcmp(text, "mots....", 8) == 0);
    CHECK(is(STRING(4, 77820), HOLTHRIMI_ACCEPTED, 0, 4) && memcmp(text, "mots....", 8) == 0);
    CHECK(refused_at(STRING(8, top - 4), top) && memcmp(text, "lexs....", 8) == 0);
    CHECK(refused_at(STRING(8, top), top) && refused_at(STRING(8, top + 1), top + 1) && refused_at(STRING(1, last), last));
    CHECK(refused_at(STRING(8, 0), 0) && refused_at(STRING(8, 1), 1) && memcmp(text, "........", 8) == 0);
    CHECK(is(STRING(0, last), HOLTHRIMI_ACCEPTED, 0, 0) && is(STRING(0, 1), HOLTHRIMI_ACCEPTED, 0, 0) && unchanged());
#undef STRING
}

/* A call that ends process 2, a child of process 1, and names an address. */
#define ENDS(call, address)                                                                                                        \
    do {                                                                                                                           \
        CHECK(accepted(holthrimi_fork(LENT, 1, 2)));                                                                               \
        CHECK(ended_at((call), (address)));                                                                                        \
        CHECK(refused(holthrimi_end(LENT, 2), HOLTHRIMI_DEAD) && holthrimi_check(LENT) == 0);                                      \
    } while (0)

static void bad_copies(void) {
    uint8_t text[8] = "........";
    ENDS(holthrimi_copy_from_user(LENT, 2, text, 8, 77820), 77824);
    ENDS(holthrimi_copy_from_user(LENT, 2, text, 8, top - 4), top);
    ENDS(holthrimi_copy_from_user(LENT, 2, text, 1, 0), 0);
    ENDS(holthrimi_copy_from_user(LENT, 2, text, 0, top + 1), top + 1);
    ENDS(holthrimi_copy_to_user(LENT, 2, 77820, text, 8), 77824);
    ENDS(holthrimi_copy_to_user(LENT, 2, 67584, text, 8), 67584);
    ENDS(holthrimi_copy_to_user(LENT, 2, last, text, 8), last);
    CHECK(memcmp(text, "........", 8) == 0);
    CHECK(accepted(holthrimi_copy_from_user(LENT, 1, text, 0, top)) && accepted(holthrimi_copy_to_user(LENT, 1, top, text, 0)));
}

/* A push names its first part that can't be written: of each argument its bytes, its NUL and its pointer; at the end the null. */
static void bad_pushes(void) {
    const uint8_t *bytes = (const uint8_t *)"a second argument of 31 letters.";
    const uint64_t two[2] = {1, 31}, none[1] = {0}, stack = top - 16384;
#define PUSH(at, lengths, count, nargs) holthrimi_push(LENT, 2, 0, at, bytes, count, lengths, nargs)
    /* Below address 0, and from it on. */
    ENDS(PUSH(0, none, 0, 0), 0);
    ENDS(PUSH(16, none, 0, 1), 0);
    ENDS(PUSH(32, two, 32, 2), 0);
    ENDS(PUSH(16, none, 0, 0), 8);
    ENDS(PUSH(64, two, 32, 2), 30);
    /* The second argument's bytes; the NUL of an empty one; the null alone. */
    ENDS(PUSH(77840, two, 32, 2), 77824);
    ENDS(PUSH(77840, none, 0, 1), 77839);
    ENDS(PUSH(77840, none, 0, 0), 77832);
    /* The pointer to the first argument, below the stack; the bytes of the first, past the top. */
    ENDS(PUSH(stack + 48, two, 32, 2), stack - 16);
    ENDS(PUSH(top + 16, two, 1, 1), top + 14);
    ENDS(PUSH(top + 16, two, 32, 2), top);
#undef PUSH
}

/* Where the pointer to the first argument and the bytes of the second both fail, it is the pointer. A stack of 16 pages lets arguments be
 * longer than the two pages of data; below them is text. */
static void pointer_before_bytes(void) {
    static uint8_t bytes[8198];
    memset(bytes, 'a', sizeof bytes);
    setup.ustksize = 65536;
    for (uint64_t at = 69640; at <= 69656; at += 8) {
        const uint64_t lengths[2] = {1, 77840 - at - 3};
        CHECK(accepted(holthrimi_start(LENT, 1, ELF, image, IMAGE, bytes, 1, bytes, 1, lengths, 1)));
        CHECK(ended_at(holthrimi_push(LENT, 1, 0, 77840, bytes, 1 + lengths[1], lengths, 2), at == 69656 ? 77824 : at - 24));
    }
    setup.ustksize = 16384;
}

/* A replace names its first pointer or string, in reading order, that can't be read. */
static void bad_arguments(void) {
    const uint8_t *name = (const uint8_t *)"mot";
#define REPLACE(argv) holthrimi_replace(LENT, 2, ELF, image, IMAGE, name, 3, argv)
    /* A string that reaches an unmapped page, and one that isn't mapped. */
    store_word(73728, 77823);
    store_word(73736, 4096);
    store(77823, "s", 1);
    ENDS(REPLACE(73728), 77824);
    ENDS(REPLACE(73736), 4096);
    /* A string before the next pointer; the third pointer. */
    store_word(77816, 4096);
    ENDS(REPLACE(77816), 4096);
    store_word(77808, 69632);
    store_word(77816, 69632);
    ENDS(REPLACE(77808), 77824);
    /* A pointer that lies across the end of a page, and of the address space. */
    ENDS(REPLACE(77820), 77824);
    ENDS(REPLACE(top - 4), top);
    ENDS(REPLACE(0), 0);
    ENDS(REPLACE(last), last);
#undef REPLACE
}

/* A process that ends for want of frames has no bad address: in 13 frames a child holds six alone, and none is free. */
static void no_address(void) {
    const uint8_t *name = (const uint8_t *)"lex";
    CHECK(accepted(holthrimi_start(setup, frames, 13 * HOLTHRIMI_PAGE, book, 13 * HOLTHRIMI_FRAME_WORDS, &procs, 1, ELF, image, IMAGE,
                                   name, 3, name, 3, (const uint64_t[]){3}, 1)));
    CHECK(accepted(holthrimi_fork(setup, frames, 13 * HOLTHRIMI_PAGE, book, 13 * HOLTHRIMI_FRAME_WORDS, &procs, 1, 2)));
    CHECK(ended(holthrimi_replace(setup, frames, 13 * HOLTHRIMI_PAGE, book, 13 * HOLTHRIMI_FRAME_WORDS, &procs, 2, ELF, image, IMAGE,
                                  name, 3, top - 24),
                HOLTHRIMI_ENOVMEM));
    CHECK(accepted(holthrimi_end(LENT, 1)) && free_frames() == FRAMES);
}

/* No process lives before and afterwards. */
static void addresses(void) {
    const uint8_t *name = (const uint8_t *)"lex";
    CHECK(accepted(holthrimi_start(LENT, 1, ELF, image, IMAGE, name, 3, name, 3, (const uint64_t[]){3}, 1)));
    bad_ranges();
    bad_strings();
    bad_copies();
    bad_pushes();
    bad_arguments();
    CHECK(accepted(holthrimi_end(LENT, 1)) && free_frames() == FRAMES);
    pointer_before_bytes();
    no_address();
}

int main(void) {
    struct holthrimi_answer a;

    /* The library and this header agree about the layout of what is lent. */
    CHECK(sizeof(struct holthrimi_proc) == 432 && sizeof procs == 6912 && sizeof a == 56);
    CHECK(holthrimi_book_words(FRAMES) == WORDS && holthrimi_book_words(1) == HOLTHRIMI_FRAME_WORDS);
    CHECK(holthrimi_book_words(HOLTHRIMI_MAX_FRAMES) == HOLTHRIMI_MAX_FRAMES * HOLTHRIMI_FRAME_WORDS);
    CHECK(holthrimi_book_words(0) == 0 && holthrimi_book_words(HOLTHRIMI_MAX_FRAMES + 1) == 0);

    write_image();
    struct holthrimi_planned plan = holthrimi_plan(setup, ELF, image, IMAGE);
    CHECK(plan.number == 0 && plan.entry == 65712 && plan.count == 2 && plan.pages == 7);
    CHECK(plan.bss.start == 69816 && plan.bss.end == 77824);
    CHECK(plan.segments[0].perm == HOLTHRIMI_TEXT && plan.segments[1].perm == HOLTHRIMI_DATA);
    CHECK(plan.segments[2].range.end == top && plan.segments[3].perm == 0);
    CHECK(holthrimi_parse(setup, ELF, image, IMAGE) == 0 && holthrimi_parse(setup, ELF, image, 63) == HOLTHRIMI_TRUNCATED);
    CHECK(holthrimi_plan(setup, ELF, image, 63).number == 30 && holthrimi_plan(setup, ELF, image, 63).own == 11);

    /* The machine's numbers in four lines, written and read. */
    const char *lines = "UTZERO=65536\nUSTKTOP=140737488355328\nUSTKSIZE=16384\nUADDRTOP=140737488355328\n";
    uint8_t written[HOLTHRIMI_SETUP_TEXT];
    size_t n = holthrimi_write_setup(setup, written, sizeof written);
    CHECK(n == strlen(lines) && memcmp(written, lines, n) == 0 && holthrimi_write_setup(setup, written, sizeof written - 1) == 0);
    struct holthrimi_setup_read read = holthrimi_read_setup(written, n);
    CHECK(read.number == 0 && memcmp(&read.setup, &setup, sizeof setup) == 0);
    CHECK(holthrimi_read_setup(written, n - 1).number == HOLTHRIMI_SETUP_LINES);
    written[7] = '5';
    CHECK(holthrimi_read_setup(written, n).number == HOLTHRIMI_SETUP);

    /* The flag table: its lines, and a start under another one. */
    flag_lines();
    rodata_in_row_6();

    /* Alignments, and an image of Plan 9's form. */
    alignments();
    aouts();

    /* Which address was bad. */
    addresses();

    /* Start: two arguments, which end at the top of the stack. */
    const uint8_t *name = (const uint8_t *)"/bin/lex";
    const uint8_t *bytes = (const uint8_t *)"lexmot";
    const uint64_t lengths[2] = {3, 3};
    CHECK(holthrimi_args_error(setup, bytes, 6, lengths, 2) == 0 && holthrimi_stack_size(8, 2) == 40);
    a = holthrimi_start(LENT, 1, ELF, image, IMAGE, name, 8, bytes, 6, lengths, 2);
    struct holthrimi_regs regs = a.regs;
    CHECK(accepted(a) && regs.pc == 65712 && regs.argc == 2 && regs.argv == top - 32 && regs.sp == top - 32);
    CHECK(memcmp(procs.all[0].text, "lex", 4) == 0);
    CHECK(free_frames() == FRAMES - 7 && *place(FRAMES - 1, 1) == 65536 + 16 * 1 + HOLTHRIMI_TEXT && *holders(FRAMES - 1) == 1);
    CHECK(holthrimi_check(LENT) == 0);
    CHECK(peek(1, 65536) == 127 && peek(1, 69812) == 'd' && peek(1, 69816) == 0 && peek(1, 77824) == -1);
    uint8_t text[8] = "........";
    a = holthrimi_try_copy_str_from_user(LENT, 1, text, 8, top - 4);
    CHECK(accepted(a) && a.value == 3 && memcmp(text, "mot.....", 8) == 0);
    printf("started: pc %llu, sp %llu\n", (unsigned long long)regs.pc, (unsigned long long)regs.sp);

    /* Refusals change nothing. */
    CHECK(refused(holthrimi_start(LENT, 1, ELF, image, IMAGE, name, 8, bytes, 6, lengths, 2), HOLTHRIMI_TAKEN));
    CHECK(refused(holthrimi_start(LENT, 2, ELF, image, IMAGE, name, 8, bytes, 5, lengths, 2), HOLTHRIMI_SIZES));
    CHECK(refused(holthrimi_start(LENT, 2, ELF, image, 63, name, 8, bytes, 6, lengths, 2), HOLTHRIMI_EBADEXEC));
    CHECK(refused(holthrimi_end(LENT, 17), HOLTHRIMI_NUMBER) && refused(holthrimi_end(LENT, 2), HOLTHRIMI_DEAD));
    CHECK(refused(holthrimi_end(setup, frames, sizeof frames - 1, book, WORDS, &procs, 1), HOLTHRIMI_SIZES));
    CHECK(refused(holthrimi_end(setup, frames, sizeof frames, book, WORDS - 1, &procs, 1), HOLTHRIMI_SIZES));
    CHECK(refused(holthrimi_end(setup, frames, sizeof frames, book, FRAMES, &procs, 1), HOLTHRIMI_SIZES));
    setup.uaddrtop += 4096;
    CHECK(refused(holthrimi_end(LENT, 1), HOLTHRIMI_SETUP) && holthrimi_check(LENT) == HOLTHRIMI_SETUP);
    CHECK(holthrimi_plan(setup, ELF, image, IMAGE).number == HOLTHRIMI_SETUP);
    CHECK(holthrimi_parse(setup, ELF, image, 63) == HOLTHRIMI_SETUP);
    CHECK(holthrimi_ibrk(setup, false, 0, 0, 0, 0).error == HOLTHRIMI_SETUP);
    CHECK(holthrimi_args_error(setup, bytes, 6, lengths, 1) == HOLTHRIMI_SIZES);
    CHECK(holthrimi_args_error(setup, bytes, 6, lengths, 2) == HOLTHRIMI_SETUP);
    setup.uaddrtop -= 4096;
    flag_table(7, HOLTHRIMI_TEXT);
    flag_table(4, HOLTHRIMI_TEXT);
    flag_table(5, HOLTHRIMI_DATA);
    flag_table(6, HOLTHRIMI_TEXT);
    flag_table(6, 4);
    flag_table(0, 255);
    CHECK(holthrimi_check(LENT) == 0);
    CHECK(refused(holthrimi_push(LENT, 1, 65712, top - 8, bytes, 6, lengths, 2), HOLTHRIMI_TOP));
    CHECK(free_frames() == FRAMES - 7 && peek(1, 69812) == 'd');

    /* Break: address 0 tells the bss's start; it grows by a page, and shrinks inside it. */
    a = holthrimi_break(LENT, 1, 0);
    CHECK(accepted(a) && a.value == 69816);
    CHECK(accepted(holthrimi_break(LENT, 1, 77825)) && peek(1, 77824) == 0 && free_frames() == FRAMES - 8);
    CHECK(accepted(holthrimi_copy_to_user(LENT, 1, 77830, (const uint8_t *)"kept", 4)));
    CHECK(accepted(holthrimi_break(LENT, 1, 77826)) && peek(1, 77830) == 'k' && procs.all[0].bss.end == 81920);
    CHECK(refused(holthrimi_break(LENT, 1, 69815), HOLTHRIMI_ENOVMEM));
    CHECK(refused(holthrimi_break(LENT, 1, 140737488334849), HOLTHRIMI_ESOVERLAP));
    CHECK(holthrimi_ibrk(setup, true, 69816, 81920, 81921, 0).error == HOLTHRIMI_ENOVMEM);
    CHECK(holthrimi_ibrk(setup, true, 69816, 81920, 81921, 1).bss.end == 86016);
    CHECK(holthrimi_ibrk(setup, false, 0, 0, 0, 0).error == HOLTHRIMI_EBADARG);
    printf("break: the bss ends at %llu\n", (unsigned long long)procs.all[0].bss.end);

    fork_lists();
    CHECK(free_frames() == FRAMES - 8);

    /* Fork: the child shares its parent's page of text; it has the bytes of the seven others, and its own from then on. */
    CHECK(accepted(holthrimi_fork(LENT, 1, 2)) && free_frames() == FRAMES - 8 - 7);
    CHECK(same(&procs.all[0], &procs.all[1]));
    CHECK(*place(FRAMES - 1, 2) == 65536 + 16 * 2 + HOLTHRIMI_TEXT && *holders(FRAMES - 1) == 2 && *holders(FRAMES - 2) == 1);
    CHECK(accepted(holthrimi_copy_to_user(LENT, 2, 77830, (const uint8_t *)"K", 1)));
    CHECK(peek(1, 77830) == 'k' && peek(2, 77830) == 'K' && peek(2, 77831) == 'e');
    CHECK(refused(holthrimi_fork(LENT, 1, 2), HOLTHRIMI_TAKEN) && accepted(holthrimi_fork(LENT, 1, 3)));
    CHECK(accepted(holthrimi_fork(LENT, 1, 4)) && refused(holthrimi_fork(LENT, 1, 5), HOLTHRIMI_ENOVMEM));
    CHECK(*holders(FRAMES - 1) == 4 && free_frames() == FRAMES - 8 - 3 * 7);
    printf("forked: four share the text, and %llu frames are free\n", (unsigned long long)free_frames());

    /* A count that isn't the number of mappings is refused by every call. */
    *holders(FRAMES - 1) = 3;
    CHECK(holthrimi_check(LENT) == HOLTHRIMI_TORN && refused(holthrimi_end(LENT, 1), HOLTHRIMI_TORN));
    *holders(FRAMES - 1) = 4;
    CHECK(holthrimi_check(LENT) == 0);

    /* Push and replace: the arguments are read from the old memory, and the others keep the text. */
    a = holthrimi_push(LENT, 2, 65712, top, bytes, 6, lengths, 2);
    CHECK(accepted(a) && a.regs.argv == top - 32);
    a = holthrimi_replace(LENT, 2, ELF, image, IMAGE, (const uint8_t *)"mot", 3, a.regs.argv);
    CHECK(accepted(a) && a.regs.argc == 2 && peek(2, 77830) == -1 && memcmp(procs.all[1].text, "mot", 4) == 0);
    CHECK(*place(FRAMES - 1, 2) == 0 && *holders(FRAMES - 1) == 3 && peek(1, 65536) == 127 && peek(2, 65536) == 127);

    /* A bad address ends the process, with no byte copied; the string copy's doesn't. */
    CHECK(refused_at(holthrimi_try_copy_str_from_user(LENT, 3, text, 8, 4096), 4096));
    CHECK(ended_at(holthrimi_copy_to_user(LENT, 3, 65536, bytes, 1), 65536));
    CHECK(refused(holthrimi_end(LENT, 3), HOLTHRIMI_DEAD));

    /* End: the text stays with the last that holds it. */
    CHECK(accepted(holthrimi_end(LENT, 1)) && *holders(FRAMES - 1) == 1 && peek(4, 65536) == 127 && peek(4, 69812) == 'd');
    CHECK(accepted(holthrimi_end(LENT, 2)) && accepted(holthrimi_end(LENT, 4)));
    CHECK(free_frames() == FRAMES && holthrimi_check(LENT) == 0);
    static const struct holthrimi_proc none;
    CHECK(same(&procs.all[0], &none) && same(&procs.all[1], &none) && same(&procs.all[2], &none));
    book[0] = 1;
    CHECK(holthrimi_check(LENT) == HOLTHRIMI_TORN && refused(holthrimi_end(LENT, 1), HOLTHRIMI_TORN));
    uint8_t short_name[HOLTHRIMI_NAME];
    holthrimi_kstrcpy(short_name, (const uint8_t *)"a name of more than 27 bytes", 28);
    CHECK(memcmp(short_name, "a name of more than 27 b...\0", 28) == 0);
    printf("ended: all %d frames are free\n", FRAMES);

    printf("%d checks, %d failed\n", checks, failed);
    return failed != 0;
}
