/* Plain loops that only read: each word of a book, and each frame's count. */
#include <stddef.h>
#include <stdint.h>

uint64_t read_words(const uint64_t *book, size_t words) {
    uint64_t all = 0;
    for (size_t i = 0; i < words; i++) {
        all |= book[i];
    }
    return all;
}

uint64_t read_counts(const uint64_t *book, size_t words) {
    uint64_t all = 0;
    for (size_t i = 16; i < words; i += 17) {
        all |= book[i];
    }
    return all;
}
