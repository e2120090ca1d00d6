// Linked with --wrap=memcpy: what is copied by calls of memcpy.
#include "words.h"

u64 copies, copied;

void *__real_memcpy(void *to, const void *from, u64 bytes);

void *__wrap_memcpy(void *to, const void *from, u64 bytes)
{
    copies++;
    copied += bytes;
    return __real_memcpy(to, from, bytes);
}
