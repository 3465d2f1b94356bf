# Edits jemalloc's src/extent_dss.c and src/pages.c, which are under the 2-clause BSD licence: the heap below the break is moved by the call itself, since musl's sbrk refuses to, and memory that is mapped is there.
/^#include "jemalloc\/internal\/extent_dss.h"/a #include <sys/syscall.h>
s/^\treturn sbrk(increment);/\tchar *end = (char *)syscall(SYS_brk, 0);\n\treturn !increment || (char *)syscall(SYS_brk, end + increment) == end + increment ? end : (void *)-1;/
s/^\tos_overcommits = false;/\tos_overcommits = true;/
