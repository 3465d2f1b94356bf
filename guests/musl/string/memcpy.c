// memcpy by words of 8 bytes. Where the two sides don't agree in the lowest bits of their addresses,
// a word is made of two that are read aligned.
#include <stdint.h>
#include <string.h>

typedef uint64_t __attribute__((__may_alias__)) word;

// Whole words, of which `from` has as many whole ones.
static unsigned char *copy_words(unsigned char *to, const unsigned char *from, size_t count) {
    word *d = (word *)to;
    const word *s = (const word *)from;
    for (; count >= 8; count -= 8, d += 8, s += 8) {
        word a = s[0], b = s[1], c = s[2], e = s[3], f = s[4], g = s[5], h = s[6], i = s[7];
        d[0] = a, d[1] = b, d[2] = c, d[3] = e, d[4] = f, d[5] = g, d[6] = h, d[7] = i;
    }
    while (count--) *d++ = *s++;
    return (unsigned char *)d;
}

// The same, where `from` begins within a word.
static unsigned char *copy_shifted(unsigned char *to, const unsigned char *from, size_t count) {
    unsigned down = (uintptr_t)from % 8 * 8, up = 64 - down;
    const word *s = (const word *)((uintptr_t)from & -8);
    word *d = (word *)to, last = *s++;
    for (; count >= 4; count -= 4, d += 4, s += 4) {
        word a = s[0], b = s[1], c = s[2], e = s[3];
        d[0] = last >> down | a << up;
        d[1] = a >> down | b << up;
        d[2] = b >> down | c << up;
        d[3] = c >> down | e << up;
        last = e;
    }
    while (count--) {
        word next = *s++;
        *d++ = last >> down | next << up;
        last = next;
    }
    return (unsigned char *)d;
}

void *memcpy(void *restrict to, const void *restrict from, size_t length) {
    unsigned char *d = to;
    const unsigned char *s = from;
    if (length >= 16) {
        for (; (uintptr_t)d % 8; length--) *d++ = *s++;
        size_t count = length / 8;
        d = (uintptr_t)s % 8 ? copy_shifted(d, s, count) : copy_words(d, s, count);
        s += 8 * count;
        length %= 8;
    }
    while (length--) *d++ = *s++;
    return to;
}
