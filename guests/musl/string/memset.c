// memset by words of 8 bytes.
#include <stdint.h>
#include <string.h>

typedef uint64_t __attribute__((__may_alias__)) word;

void *memset(void *to, int value, size_t length) {
    unsigned char *d = to;
    if (length >= 16) {
        word all = (unsigned char)value * 0x0101010101010101u;
        for (; (uintptr_t)d % 8; length--) *d++ = value;
        word *w = (word *)d;
        for (; length >= 64; length -= 64, w += 8)
            w[0] = w[1] = w[2] = w[3] = w[4] = w[5] = w[6] = w[7] = all;
        for (; length >= 8; length -= 8) *w++ = all;
        d = (unsigned char *)w;
    }
    while (length--) *d++ = value;
    return to;
}
