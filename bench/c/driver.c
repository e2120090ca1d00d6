#include "driver.h"

#define BARRIER __asm__ volatile("" ::: "memory")

void m_mirror(struct side *x, const u64 *places, u8 slot)
{
    for (int i = 0; i < 4; i++)
        for (u64 word = places[i]; word; word &= word - 1) {
            u64 place = 64 * i + __builtin_ctzl(word);
            x->memory[place] = x->pool[place];
        }
    for (int i = 0; i < 8; i++)
        x->memory_setups[8 * slot + i] = x->setups[8 * slot + i];
    for (int i = 17 * (slot + 1); i < 17 * (slot + 2); i++)
        x->memory_heads[i] = x->heads[i];
    BARRIER;
    x->memory_heads[0] = x->heads[0];
    BARRIER;
}

void m_mirror_link(struct side *x)
{
    x->memory_heads[0] = x->heads[0];
    BARRIER;
}

u32 m_overlay(struct side *x, u8 slot)
{
    return ((volatile u32 *)x->memory_heads)[17 * (slot + 1) + 6];
}

u64 m_bring_in(struct side *x, const u64 *places, call_on *writeback)
{
    u64 changed = 0;
    for (int i = 0; i < 4; i++)
        for (u64 word = places[i]; word; word &= word - 1) {
            u64 place = 64 * i + __builtin_ctzl(word);
            u32 token = ((volatile struct qtd *)x->memory)[place].token;
            if (token == x->pool[place].token)
                continue;
            struct asked a = {.id = place, .command = token};
            struct answered out;
            writeback(x, &a, &out);
            changed++;
        }
    return changed;
}
