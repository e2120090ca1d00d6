#ifndef DRIVER_H
#define DRIVER_H
#include "side.h"

// What a driver does around the calls, as docs/INTEGRATION.md prescribes. `places` are those of the slot's request.

// After a submit: its records, the setup packet, the head, then the link that leads to it.
void m_mirror(struct side *x, const u64 *places, u8 slot);

// After an unlink of the ring's first head.
void m_mirror_link(struct side *x);

// Before a collect, after FRINDEX: the token in the overlay of the slot's head.
u32 m_overlay(struct side *x, u8 slot);

// Before a collect: each token that differs from the row's is written back. How many they were.
u64 m_bring_in(struct side *x, const u64 *places, call_on *writeback);

#endif
