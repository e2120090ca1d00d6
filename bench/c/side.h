// One side of the bench: a controller with its rows, and the memory that its hardware reads and writes.
#ifndef SIDE_H
#define SIDE_H
#include "words.h"

enum { D = 256, E_MAX = 32, LIMIT = 16384 };

struct side {
    struct core core;
    struct qtd pool[D + 1];
    u64 slots[6 * E_MAX];
    u32 heads[17 * (E_MAX + 1)];
    u32 frames[1024];
    u8 setups[8 * E_MAX];
    struct rows rows;
    struct qtd memory[D + 1];
    u32 memory_heads[17 * (E_MAX + 1)];
    u8 memory_setups[8 * E_MAX];
};

typedef void call_on(struct side *x, const struct asked *a, struct answered *out);

#endif
