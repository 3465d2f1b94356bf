// memcmp by words of 8 bytes. Where the two sides don't agree in the lowest bits of their addresses,
// a word of the second is made of two that are read aligned.
#include <stdint.h>
#include <string.h>

typedef uint64_t __attribute__((__may_alias__)) word;

// How many of the whole words are the same from the beginning.
static size_t same_words(const unsigned char *left, const unsigned char *right, size_t count) {
    const word *l = (const word *)left;
    unsigned down = (uintptr_t)right % 8 * 8;
    const word *r = (const word *)((uintptr_t)right & -8);
    size_t i = 0;
    if (!down) {
        while (i < count && l[i] == r[i]) i++;
        return i;
    }
    for (word last = r[0]; i < count; i++) {
        word next = r[i + 1];
        if (l[i] != (last >> down | next << (64 - down))) break;
        last = next;
    }
    return i;
}

int memcmp(const void *left, const void *right, size_t length) {
    const unsigned char *l = left, *r = right;
    if (length >= 16) {
        for (; (uintptr_t)l % 8; l++, r++, length--)
            if (*l != *r) return *l - *r;
        size_t bytes = 8 * same_words(l, r, length / 8);
        l += bytes;
        r += bytes;
        length -= bytes;
    }
    for (; length && *l == *r; l++, r++) length--;
    return length ? *l - *r : 0;
}
