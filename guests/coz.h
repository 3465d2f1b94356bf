// The macros of Coz, for programs that coz runs: COZ_PROGRESS, COZ_PROGRESS_NAMED, COZ_BEGIN and
// COZ_END, in C and C++. A name is a string literal without quotes and backslashes.
//
// Each use is one instruction, `nop`, which gives the point an address and a line of its own, and a
// note in the section .note.coz with this address and the name. Nothing is called, and the section
// is no part of the program's memory. coz-study reads it; to coz a point is the line of the address.
#ifndef COZ_H
#define COZ_H

#define COZ_COUNTER_THROUGHPUT 1
#define COZ_COUNTER_BEGIN 2
#define COZ_COUNTER_END 3

// An ELF note: the lengths of its owner and of its data, its type, its owner, and as data the address
// and the name. The flag `?` puts it into the group of its function, so that it goes where the
// function goes, as when several files have one inline function of C++.
#define COZ_INCREMENT_COUNTER(type, name)                     \
    do {                                                      \
        __asm__ __volatile__("" : : : "memory");              \
        __asm__ __volatile__("990: nop\n"                     \
                             ".pushsection .note.coz, \"?\", \"note\"\n" \
                             ".balign 4\n"                    \
                             ".4byte 4, 992f - 991f, " COZ_TEXT(type) "\n" \
                             ".asciz \"coz\"\n"               \
                             "991: .8byte 990b\n"             \
                             ".asciz \"" name "\"\n"          \
                             "992: .balign 4\n"               \
                             ".popsection");                  \
    } while (0)

#define COZ_TEXT(it) COZ_TEXT_OF(it)
#define COZ_TEXT_OF(it) #it

#define COZ_PROGRESS_NAMED(name) COZ_INCREMENT_COUNTER(COZ_COUNTER_THROUGHPUT, name)
#define COZ_PROGRESS COZ_PROGRESS_NAMED(__FILE__ ":" COZ_TEXT(__LINE__))
#define COZ_BEGIN(name) COZ_INCREMENT_COUNTER(COZ_COUNTER_BEGIN, name)
#define COZ_END(name) COZ_INCREMENT_COUNTER(COZ_COUNTER_END, name)

#endif
