/*
 * Holthrimi, the exec layer of the r9 kernel, as a C library: it checks an executable, a static aarch64 ELF or a Plan 9 a.out, loads it
 * into lent frames with a page book, starts, replaces, forks and ends processes, moves their break, and copies to and from their memory.
 *
 *     tools/build holthrimi         proves and writes target/staticlib/libholthrimi.a (x86-64)
 *     cc program.c -Iinclude target/staticlib/libholthrimi.a
 *
 * Every function here is proved: what it leaves and tells is what the definitions in crates/spec/specs say, refusals too, whatever
 * numbers it is given. No check is left to the caller but what C itself asks of one who lends memory:
 *   - a pointer is not null and is aligned, also with length 0, and what it points to is there, as long as the length says;
 *   - what is not const overlaps nothing else that the call is given, and nothing else touches it until the call returns;
 *   - a bool is 0 or 1.
 * The library keeps nothing between calls, allocates nothing, and needs memcpy, memmove and memset. It follows the System V calling
 * convention of x86-64, with its red zone and SSE registers. Of stack, push was measured to use 49 KiB, start 45, replace 44,
 * fork 29, break, end and the copies from and to a process 26, fork with a list 22, and the other calls 19
 * (bench/run "" stack).
 *
 * Numbers. A page is 4,096 bytes. The machine's four numbers and the flag table are handed to every call, by value
 * (struct holthrimi_setup); limit is one guard page below the stack.
 */
#ifndef HOLTHRIMI_H
#define HOLTHRIMI_H

#include <stdbool.h>
#include <stddef.h>
#include <stdint.h>

#ifdef __cplusplus
extern "C" {
#endif

/* ---- memory that is lent to every call
 *
 * Frames: 4,096 bytes a frame, 1 to 1,024 frames, any contents.
 * Book: seventeen words for each frame, frame after frame (holthrimi_book_words). The first sixteen are the places of processes 1 to 16:
 * a place is 0, or a mapping, page address + 16 * owner + permission, the owner the place's number and the permission as below. The last
 * is how many mappings the frame has; at 0 the frame is free. A text or rodata frame may have several, which agree on page and
 * permission: processes that a fork made share it. A data frame has one. Process n's place in frame k is book[17 * k + n - 1], the count
 * book[17 * k + 16]. All zero at first.
 * Records: of processes 1 to 16. A process lives unless its record is all zero. All zero at first.
 * Callers may read all three between calls. Every call checks book and records first and refuses those that don't agree (2), so a stray
 * write to them is found, not followed.
 */
enum {
    HOLTHRIMI_PAGE = 4096,
    HOLTHRIMI_MAX_FRAMES = 1024,
    HOLTHRIMI_FRAME_WORDS = 17,
    HOLTHRIMI_PROCESSES = 16,
    HOLTHRIMI_SEGMENTS = 16,
    HOLTHRIMI_NAME = 28,
    HOLTHRIMI_TEXT = 1,
    HOLTHRIMI_RODATA = 2,
    HOLTHRIMI_DATA = 3
};

/*
 * The machine's numbers: where user text may begin; the top of the user stack, and its size; and the end of the user address space.
 * All are multiples of 4,096; utzero and ustksize at least 4,096; ustksize at most 65,536 and below ustktop; utzero + 8,192 at most
 * ustktop - ustksize; ustktop at most uaddrtop, and that at most 2^47. Every call refuses others with 38, directly after 1.
 * And the flag table: flags[r] is what a segment of an ELF is loaded as whose flags have the low three bits r (execute 1, write 2, read
 * 4), text, rodata or data as above, or 0 for refused. Rows 0, 1, 2, 3 and 7 are refused; row 4 is rodata or refused; row 5 text, rodata
 * or refused; row 6 data, rodata or refused. Every call refuses another table with 39, directly after 38, whatever rows an image uses.
 * A table of zeros, which C puts where an initialiser leaves it out, is accepted, and no ELF is under it.
 * The same numbers and table go to every call over the same frames, book and records.
 */
struct holthrimi_setup {
    uint64_t utzero;
    uint64_t ustktop;
    uint64_t ustksize;
    uint64_t uaddrtop;
    uint8_t flags[8];
};

/* The built-in flag table: flags 4 are rodata, 5 text, 6 data. */
#define HOLTHRIMI_BUILT_IN {0, 0, 0, 0, HOLTHRIMI_RODATA, HOLTHRIMI_TEXT, HOLTHRIMI_DATA, 0}

/* The deposit machine's numbers, with it. */
#define HOLTHRIMI_DEPOSIT ((struct holthrimi_setup){65536, (uint64_t)1 << 47, 16384, (uint64_t)1 << 47, HOLTHRIMI_BUILT_IN})

/* User addresses from start up to, but not including, end. */
struct holthrimi_range {
    uint64_t start;
    uint64_t end;
};

/* Whole pages, all mapped with one permission; all zero in an unused place. */
struct holthrimi_segment {
    struct holthrimi_range range;
    uint64_t perm;
};

/* A process: its segments, the stack last, then unused places; its name; and its bss, which the break moves. Between the last two C
 * leaves four bytes that mean nothing. */
struct holthrimi_proc {
    struct holthrimi_segment segments[HOLTHRIMI_SEGMENTS];
    uint8_t text[HOLTHRIMI_NAME];
    struct holthrimi_range bss;
};

/* Process n is all[n - 1]. */
struct holthrimi_procs {
    struct holthrimi_proc all[HOLTHRIMI_PROCESSES];
};

/* ---- answers */

/* What a program is entered with. */
struct holthrimi_regs {
    uint64_t pc;
    uint64_t sp;
    uint64_t argc;
    uint64_t argv;
};

enum {
    HOLTHRIMI_ACCEPTED = 0,
    HOLTHRIMI_REFUSED = 1, /* nothing changed (but see the string copy's buffer) */
    HOLTHRIMI_ENDED = 2,   /* refused, and the process has ended: its pages are released, its record zero, frame bytes as before */
    HOLTHRIMI_NO = 3       /* accepted: a range that holthrimi_user_range_ok finds can't be accessed; nothing changed */
};

/* kind is one of the four; number is the refusal's, and 0 with HOLTHRIMI_ACCEPTED and HOLTHRIMI_NO; value and regs are zeros where the
 * call has none. With number 35 and with HOLTHRIMI_NO, value is the bad address, which may be any 64-bit number, 0 and 1 too: whether
 * there is one is seen by number and kind. */
struct holthrimi_answer {
    uint64_t kind;
    uint64_t number;
    uint64_t value;
    struct holthrimi_regs regs;
};

/* The numbers of refusals; docs/NUMBERS.md has all of them in one table. 1, 38, 39 and 2 to 5 come first in every call, in this order;
 * then each call's own, in the order named with it. */
enum {
    HOLTHRIMI_SIZES = 1,     /* not 4,096 bytes and 17 words a frame, frames outside 1 to 1,024, or argument lengths don't sum to their bytes */
    HOLTHRIMI_TORN = 2,      /* the book is not sound: its mappings, counts and the records don't agree */
    HOLTHRIMI_NUMBER = 3,    /* a process's number outside 1 to 16 */
    HOLTHRIMI_DEAD = 4,      /* the process isn't living */
    HOLTHRIMI_TAKEN = 5,     /* the new process's number lives */
    /* 11 to 28, 42 and 43 are the image's own, by holthrimi_parse; start and replace answer 30 for them */
    HOLTHRIMI_TRUNCATED = 11,  /* under 64 bytes */
    HOLTHRIMI_BAD_MAGIC = 12,  /* the first four bytes are not 127 "ELF" */
    HOLTHRIMI_NOT_ELF64 = 13,  /* byte 4 is not 2 */
    HOLTHRIMI_NOT_LITTLE_ENDIAN = 14, /* byte 5 is not 1 */
    HOLTHRIMI_BAD_VERSION = 15, /* byte 6 or the word at 20 is not 1 */
    HOLTHRIMI_NOT_EXECUTABLE = 16, /* the type at 16 is not 2 */
    HOLTHRIMI_NOT_AARCH64 = 17, /* the machine at 18 is not 183 */
    HOLTHRIMI_BAD_PHENTSIZE = 18, /* the half-word at 54 is not 56 */
    HOLTHRIMI_MISALIGNED_ENTRY = 19, /* the entry is not a multiple of 4 */
    HOLTHRIMI_PHDRS_OUT_OF_RANGE = 20, /* the table of program headers leaves the image */
    HOLTHRIMI_FILESZ_OVER_MEMSZ = 21, /* a program header's file size is above its memory size */
    HOLTHRIMI_SEGMENT_OUT_OF_RANGE = 22, /* its file bytes leave the image */
    HOLTHRIMI_MISALIGNED = 23, /* its address and offset differ modulo 4,096 */
    HOLTHRIMI_OVERFLOW = 24,   /* it ends above 2^64 - 4,096 */
    HOLTHRIMI_BAD_FLAGS = 25,  /* the flag table refuses its flags */
    HOLTHRIMI_UNORDERED = 26,  /* its first page is below an earlier segment's page end */
    HOLTHRIMI_ENTRY_NOT_IN_TEXT = 27, /* the entry is not in the file bytes of a text segment; of an a.out, in the text after the header */
    HOLTHRIMI_BAD_ALIGN = 28,  /* its alignment is not 0, 1 or a power of two, or address and offset differ modulo it; directly after 23 */
    HOLTHRIMI_EBADEXEC = 30, /* the image's layout, or any of 11 to 28, 42 and 43 */
    HOLTHRIMI_TOO_MANY = 31, /* over 15 segments recorded */
    HOLTHRIMI_EBADARG = 32,  /* a NUL in an argument; a break without bss */
    HOLTHRIMI_ENOVMEM = 33,  /* arguments over the limit; break; too few frames */
    HOLTHRIMI_ESOVERLAP = 34, /* a break above limit */
    HOLTHRIMI_EFAULT = 35,   /* bad address, which value is: a range, a string, or a push below address 0 */
    HOLTHRIMI_TOP = 36,      /* top is not a multiple of 16 */
    HOLTHRIMI_SETUP_LINES = 37, /* holthrimi_read_setup: bytes that are not as described */
    HOLTHRIMI_SETUP = 38,    /* the machine's numbers break a condition */
    HOLTHRIMI_FLAGS = 39,    /* the flag table is against its rules; holthrimi_read_flags: bytes that are not as described, too */
    HOLTHRIMI_NOT_AOUT = 42, /* an a.out under 32 bytes, or with another magic */
    HOLTHRIMI_AOUT_OUT_OF_RANGE = 43 /* an a.out whose text and data leave the file */
};

/* ---- images
 *
 * An image is read in the form that its caller names, by the two arguments before it. Without `aout` it is an ELF, and `magic` isn't
 * read: holthrimi_parse has the checks.
 * With `aout` it is a Plan 9 executable, by a.out(6): a header of eight 32-bit big-endian words, which are magic, text, data, bss, syms,
 * entry, spsz and pcsz, then the bytes of text and of data. Only these 32 bytes are read as the header, and of them not syms, spsz and
 * pcsz; nor what stands behind data. `magic` is the first word that is expected, and any 32-bit number is taken: Plan 9's for arm64 is
 * 4 * 28 * 28 + 7, or the same with the header bit, 0x8000.
 * An a.out is refused, in this order, with 42 under 32 bytes or for another magic; 43 if 32 + text + data, as an exact sum, is above the
 * image's length; 19 if the entry is not a multiple of 4; 27 if it is not in the text after the header, from utzero + 32 on and below
 * utzero + 32 + text. Start and replace answer 30 for each of them.
 * Header and text are loaded as text at utzero. Data is loaded as data at their end rounded up to a page, and bss, zeros, follows it; if
 * both are 0, there is no data segment, and the process's bss is empty there. The flag table has no say in this. From then on it is as
 * any other program: its layout is judged, with 30 or 31, and calls treat it as one.
 */

/* ---- the ten calls
 *
 * The first arguments are the same in each: the machine's numbers with the flag table, frames and their bytes, book and its words,
 * records, and the process's number.
 */

/*
 * Starts a process under `number`, which must not live, from an image. Its name is what follows the last '/' of name, copied as
 * holthrimi_kstrcpy copies. Its arguments are `bytes` cut by `lengths`: the first lengths[0] bytes, and so on. Pages are placed
 * ascending, each in the highest-numbered free frame: the image's, the bss, the stack; then the arguments are pushed.
 * Refused, after 1, 38, 39, 2, 3 and 5: 32, 33 (arguments), 30, 31, 33 (frames). Accepted: regs, to enter the program with.
 */
struct holthrimi_answer holthrimi_start(struct holthrimi_setup setup,
                                        uint8_t *frames, size_t frame_bytes, uint64_t *book, size_t words,
                                        struct holthrimi_procs *procs, uint64_t number, bool aout, uint32_t magic,
                                        const uint8_t *image, size_t image_bytes, const uint8_t *name, size_t name_bytes,
                                        const uint8_t *bytes, size_t count, const uint64_t *lengths, size_t nargs);

/*
 * Replaces a process's program, by an image of either form, whatever form it had. `argv` is the user address of an array of pointers to
 * its arguments, which a null ends; they are read from its old memory. Its old pages are released first: a frame that others hold too
 * stays theirs.
 * Refused, after 1, 38, 39 and 2 to 4: 30, 31, then 35, which ends the process, or 33 (arguments) in reading order, then 33, which ends
 * the process, if the frames that it holds alone and the free ones don't suffice. Accepted: regs. With 35, value is the bad address of
 * the pointer that can't be read, by the rule of holthrimi_user_range_ok for its eight bytes, or the address of the first byte of a
 * string that can't.
 */
struct holthrimi_answer holthrimi_replace(struct holthrimi_setup setup,
                                          uint8_t *frames, size_t frame_bytes, uint64_t *book, size_t words,
                                          struct holthrimi_procs *procs, uint64_t number, bool aout, uint32_t magic,
                                          const uint8_t *image, size_t image_bytes, const uint8_t *name, size_t name_bytes,
                                          uint64_t argv);

/*
 * Pushes arguments onto a process's stack: their strings end at `top`, and below them lie pointers to them and a null, from a multiple
 * of 8 on, which is regs.argv; regs.sp is that rounded down to 16, and regs.pc as given.
 * Refused, after 1, 38, 39 and 2 to 4: 36, 32, 33, and 35, which ends the process, with no byte written. With 35, value is 0 if it goes
 * below address 0; otherwise it is the bad address, by the rule of holthrimi_user_range_ok, of the first part that can't be written, in
 * this order: of each argument its bytes, its NUL and its pointer; at the end the null.
 */
struct holthrimi_answer holthrimi_push(struct holthrimi_setup setup,
                                       uint8_t *frames, size_t frame_bytes, uint64_t *book, size_t words,
                                       struct holthrimi_procs *procs, uint64_t number, uint64_t pc, uint64_t top,
                                       const uint8_t *bytes, size_t count, const uint64_t *lengths, size_t nargs);

/*
 * Moves the end of a process's bss to `addr` rounded up to a page: new pages are zeroed, pages past it released, and the bytes between
 * addr and its page's end kept. Address 0 changes nothing, and value is the bss's start; otherwise value is 0.
 * Refused, after 1, 38, 39 and 2 to 4: 33 below the bss's start, 33 past 64 bits, 34, 33 if there are too few frames.
 */
struct holthrimi_answer holthrimi_break(struct holthrimi_setup setup,
                                        uint8_t *frames, size_t frame_bytes, uint64_t *book, size_t words,
                                        struct holthrimi_procs *procs, uint64_t number, uint64_t addr);

/*
 * Forks a process as `child`, which must not live: it shares the parent's text and rodata frames, takes a copy of every data page, bss
 * and stack among them, now, and the record with its name. What one of them writes, the other does not see.
 * Refused, after 1, 38, 39 and 2 to 5 (3 judges both numbers, 4 the parent, 5 the child): 33 if the free frames don't hold the copy.
 */
struct holthrimi_answer holthrimi_fork(struct holthrimi_setup setup,
                                       uint8_t *frames, size_t frame_bytes, uint64_t *book, size_t words,
                                       struct holthrimi_procs *procs, uint64_t number, uint64_t child);

/*
 * The same with a list lent, of `count` segments: those of the parent's record, in its order, the stack last, without unused places. The
 * list is held to the record, so that a caller whose own notes of a process differ from its record learns of it. It must not lie in
 * procs, which the call writes: of the record itself a copy is lent.
 * Refused: 1; 38; 39; 2 for the book, or, if `number` is 1 to 16, for a list unlike its record's, one longer, shorter or with another
 * start, end or permission (of a process that doesn't live, whose record has none, for every list but an empty one); then 3,
 * 4, 5 and 33 as above.
 */
struct holthrimi_answer holthrimi_fork_list(struct holthrimi_setup setup,
                                            uint8_t *frames, size_t frame_bytes, uint64_t *book, size_t words,
                                            struct holthrimi_procs *procs, uint64_t number, uint64_t child,
                                            const struct holthrimi_segment *segments, size_t count);

/* Ends a process: its pages are released, a frame without a holder is free and keeps its bytes, and its record is zero. Refused: 1, 38,
 * 39 and 2 to 4. */
struct holthrimi_answer holthrimi_end(struct holthrimi_setup setup,
                                      uint8_t *frames, size_t frame_bytes, uint64_t *book, size_t words,
                                      struct holthrimi_procs *procs, uint64_t number);

/*
 * Whether a process may read, or with `write` write, `length` bytes from `addr` on. If it may, kind is HOLTHRIMI_ACCEPTED and value 1; if
 * not, kind is HOLTHRIMI_NO and value the bad address. The rule, in its order:
 *   - a range that starts above uaddrtop is bad at addr, also with length 0;
 *   - a range with a byte below uaddrtop whose page isn't mapped, or with `write` isn't data, is bad at the lowest such byte;
 *   - a range that reaches past uaddrtop, which one does whose addr + length leaves 64 bits, is bad at uaddrtop;
 *   - every other range is fine: length 0 at or below uaddrtop too, mapped or not.
 * It changes nothing and ends nothing. Refused: 1, 38, 39 and 2 to 4.
 */
struct holthrimi_answer holthrimi_user_range_ok(struct holthrimi_setup setup,
                                                const uint8_t *frames, size_t frame_bytes, const uint64_t *book, size_t words,
                                                const struct holthrimi_procs *procs, uint64_t number, uint64_t addr,
                                                uint64_t length, bool write);

/* Copies `count` bytes of a process from `src` on to dst. Refused, after 1, 38, 39 and 2 to 4: 35, which ends the process, with no byte
 * copied; value is the bad address, as of holthrimi_user_range_ok for reading them. */
struct holthrimi_answer holthrimi_copy_from_user(struct holthrimi_setup setup,
                                                 uint8_t *frames, size_t frame_bytes, uint64_t *book, size_t words,
                                                 struct holthrimi_procs *procs, uint64_t number, uint8_t *dst, size_t count,
                                                 uint64_t src);

/* Copies `count` bytes to a process from `dst` on. Refused, after 1, 38, 39 and 2 to 4: 35, which ends the process, with no byte
 * copied; value is the bad address, as of holthrimi_user_range_ok for writing them. */
struct holthrimi_answer holthrimi_copy_to_user(struct holthrimi_setup setup,
                                               uint8_t *frames, size_t frame_bytes, uint64_t *book, size_t words,
                                               struct holthrimi_procs *procs, uint64_t number, uint64_t dst, const uint8_t *bytes,
                                               size_t count);

/*
 * Copies a string of a process at `src` to dst up to a NUL, which isn't stored; the rest of dst stays. Value is its length, or `count`
 * where there is no NUL within that many bytes. Pages are checked one by one, as they are reached; with count 0, none is.
 * Refused, after 1, 38, 39 and 2 to 4: 35 at a bad page; value is the address of the first byte that can't be read; the bytes before it
 * stay copied, and the process lives.
 */
struct holthrimi_answer holthrimi_try_copy_str_from_user(struct holthrimi_setup setup,
                                                         const uint8_t *frames, size_t frame_bytes, const uint64_t *book,
                                                         size_t words, const struct holthrimi_procs *procs, uint64_t number,
                                                         uint8_t *dst, size_t count, uint64_t src);

/* ---- functions that are no calls */

/* The words of the book of so many frames: 17 a frame; 0 for a number outside 1 to 1,024, which no call takes. */
uint64_t holthrimi_book_words(uint64_t frames);

/* 1, 38, 39 or 2, as every call gives them for frames, book and records, or 0. */
uint64_t holthrimi_check(struct holthrimi_setup setup,
                         const uint8_t *frames, size_t frame_bytes, const uint64_t *book, size_t words,
                         const struct holthrimi_procs *procs);

/*
 * 38 or 39 for the setup; then the number that the reader of its form refuses an image with; or 0. An a.out's are 42, 43, 19 and 27, as
 * above. An ELF's are 11 to 20; then, for each program header in table order, but those whose type is not 1 or whose memory size is 0,
 * 21, 22, 23, 28, 24, 25, 26; then 27.
 */
uint64_t holthrimi_parse(struct holthrimi_setup setup, bool aout, uint32_t magic, const uint8_t *image, size_t image_bytes);

/*
 * What a start needs of an image: number is 38, 39, 30, 31 or 0; with 30, own is the number of its form's reader, 11 to 28 of an ELF and
 * 42, 43, 19 or 27 of an a.out, or 0 if it is the layout's. Then the entry point; the record's segments, `count` of the image, then the
 * stack; the bss; and the pages that a start takes, with the stack. All but number and own are zeros if it is refused.
 */
struct holthrimi_planned {
    uint64_t number;
    uint64_t own;
    uint64_t entry;
    struct holthrimi_segment segments[HOLTHRIMI_SEGMENTS];
    size_t count;
    struct holthrimi_range bss;
    uint64_t pages;
};

struct holthrimi_planned holthrimi_plan(struct holthrimi_setup setup, bool aout, uint32_t magic, const uint8_t *image,
                                        size_t image_bytes);

/*
 * The break's rule by itself, over a bss with any numbers in it, or with `set` false none, and a count of free frames. error is 0, or in
 * this order: 38, 39 the setup; 32 no bss; 33 below start; 33 past 64 bits; 34 above limit; 33 too few frames. value is the start for
 * address 0. The bss handed back is as it was, or ends at addr rounded up; zeros for none.
 */
struct holthrimi_rule {
    uint64_t error;
    uint64_t value;
    struct holthrimi_range bss;
};

struct holthrimi_rule holthrimi_ibrk(struct holthrimi_setup setup, bool set, uint64_t start, uint64_t end, uint64_t addr,
                                     uint64_t free);

/*
 * The stack that `nargs` arguments take whose strings, each with its NUL, have `strings` bytes: those rounded up to 8, + 8 * (nargs + 1)
 * + 8; or 2^64 - 1 if 64 bits don't hold it. Up to a quarter of the stack may be pushed.
 */
uint64_t holthrimi_stack_size(uint64_t strings, uint64_t nargs);

/*
 * 1 if lengths don't sum to `count`, 38 or 39 for the setup, 32 for a NUL in an argument, 33 if the stack that they take is above a
 * quarter of ustksize; or 0.
 */
uint64_t holthrimi_args_error(struct holthrimi_setup setup, const uint8_t *bytes, size_t count, const uint64_t *lengths,
                              size_t nargs);

/*
 * The machine's numbers in a file: four lines, UTZERO=65536 and so for USTKTOP, USTKSIZE and UADDRTOP, in this order, decimal, one to 15
 * digits, the first not 0, each closed by one line feed, with no byte after the fourth. number is 37 for other bytes; then 38 for numbers
 * that break a condition; or 0. The setup's flag table is the built-in one. The setup is zeros if they are refused.
 */
struct holthrimi_setup_read {
    uint64_t number;
    struct holthrimi_setup setup;
};

struct holthrimi_setup_read holthrimi_read_setup(const uint8_t *bytes, size_t count);

/*
 * Puts the four lines of a setup into a buffer, and gives their length. A buffer under HOLTHRIMI_SETUP_TEXT bytes, which the longest
 * take, is left as it is, and the answer is 0. The lines of accepted numbers with the built-in flag table read back as that setup.
 */
enum { HOLTHRIMI_SETUP_TEXT = 117 };

size_t holthrimi_write_setup(struct holthrimi_setup setup, uint8_t *out, size_t room);

/*
 * The flag table in a file: eight lines, flags0=refused and so up to flags7=, in this order, each text, rodata, data or refused, closed
 * by one line feed, with no byte after the last. number is 39 for other bytes and for a table against the rules; or 0. The table is
 * zeros if they are refused.
 */
struct holthrimi_flags_read {
    uint64_t number;
    uint8_t flags[8];
};

struct holthrimi_flags_read holthrimi_read_flags(const uint8_t *bytes, size_t count);

/*
 * Puts the eight lines of a flag table into a buffer, and gives their length. For a table against the rules, and a buffer under
 * HOLTHRIMI_FLAGS_TEXT bytes, which the longest take, the buffer is left as it is, and the answer is 0. The lines read back as the table.
 */
enum { HOLTHRIMI_FLAGS_TEXT = 120 };

size_t holthrimi_write_flags(const uint8_t flags[8], uint8_t *out, size_t room);

/*
 * Copies a name: up to 27 bytes as they are, the rest of the 28 zeroed; a longer one is cut at the largest place up to 24 where no byte
 * 128 to 191 starts, and "..." and zeros follow.
 */
void holthrimi_kstrcpy(uint8_t dst[HOLTHRIMI_NAME], const uint8_t *src, size_t count);

#ifdef __cplusplus
}
#endif

#endif
