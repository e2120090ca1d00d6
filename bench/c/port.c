// The archive's functions, and a C caller of each.
#include "port.h"

struct replied {
    struct rest rest;
    struct answered answered;
};

// The root hub's record is not used here.
struct opened {
    struct core core;
    u8 hub[18], number;
};

#define POOL struct qtd *pool, u64 pool_length
#define SLOTS u64 *slots, u64 slots_length
#define HEADS u32 *heads, u64 heads_length
#define FRAMES u32 *frames, u64 frames_length
#define SETUPS u8 *setups, u64 setups_length

struct opened port_open(struct settings settings, POOL, SLOTS, HEADS, FRAMES, SETUPS);
struct replied port_submit(struct core core, POOL, SLOTS, HEADS, FRAMES, SETUPS, u8 slot, u8 kind, u8 direction, u64 setup,
    u64 address, u64 length, u32 command, u32 frame);
struct replied port_writeback(struct core core, POOL, SLOTS, HEADS, FRAMES, SETUPS, u64 place, u32 token);
struct replied port_collect(struct core core, POOL, SLOTS, HEADS, FRAMES, SETUPS, u8 slot, u64 id, u32 command, u32 frame,
    u32 overlay);
struct replied port_cancel(struct core core, SLOTS, HEADS, FRAMES, u8 slot, u64 id, u32 command, u32 frame);
struct replied port_acknowledge(struct core core, u32 status, u32 interrupts, u8 flag, u8 again);
struct replied port_drain(struct core core, SLOTS, u32 command);
struct replied port_rearm(struct core core);
struct replied port_enable(struct core core);
struct replied port_disable(struct core core);
struct replied port_start_bring_up(struct core core, SLOTS);
struct replied port_bring_up_step(struct core core, u32 reading);
struct replied port_allocate_address(struct core core);
struct replied port_open_endpoint(struct core core, SLOTS, HEADS, u8 kind, u8 address, u8 number, u16 packet);
struct replied port_close(struct core core, SLOTS, HEADS, u8 slot);
struct replied port_set_address(struct core core, SLOTS, HEADS, u8 slot, u8 address);
struct replied port_set_packet_size(struct core core, SLOTS, HEADS, u8 slot, u8 size);
struct replied port_clear_halt(struct core core, SLOTS, u8 slot);

#define L_POOL r->pool, r->pool_length
#define L_SLOTS r->slots, r->slots_length
#define L_HEADS r->heads, r->heads_length
#define L_FRAMES r->frames, r->frames_length
#define L_SETUPS r->setups, r->setups_length
#define L_ALL L_POOL, L_SLOTS, L_HEADS, L_FRAMES, L_SETUPS

#define CALLER(name, call)                                                                           \
    void name(struct core *s, const struct rows *r, const struct asked *a, struct answered *out)   \
    {                                                                                                \
        struct replied x = call;                                                                     \
        s->rest = x.rest;                                                                            \
        *out = x.answered;                                                                           \
    }

CALLER(c_submit, port_submit(*s, L_ALL, a->slot, a->kind, a->direction, a->setup, a->address, a->length, a->command, a->frame))
CALLER(c_writeback, port_writeback(*s, L_ALL, a->id, a->command))
CALLER(c_collect, port_collect(*s, L_ALL, a->slot, a->id, a->command, a->frame, a->overlay))
CALLER(c_cancel, port_cancel(*s, L_SLOTS, L_HEADS, L_FRAMES, a->slot, a->id, a->command, a->frame))
CALLER(c_acknowledge, port_acknowledge(*s, a->command, a->frame, a->flag, a->again))
CALLER(c_drain, port_drain(*s, L_SLOTS, a->command))
CALLER(c_rearm, port_rearm(*s))
CALLER(c_enable, port_enable(*s))
CALLER(c_disable, port_disable(*s))
CALLER(c_start_bring_up, port_start_bring_up(*s, L_SLOTS))
CALLER(c_bring_up_step, port_bring_up_step(*s, a->command))
CALLER(c_allocate_address, port_allocate_address(*s))
CALLER(c_open_endpoint, port_open_endpoint(*s, L_SLOTS, L_HEADS, a->kind, a->device, a->number, a->packet))
CALLER(c_close, port_close(*s, L_SLOTS, L_HEADS, a->slot))
CALLER(c_set_address, port_set_address(*s, L_SLOTS, L_HEADS, a->slot, a->device))
CALLER(c_set_packet_size, port_set_packet_size(*s, L_SLOTS, L_HEADS, a->slot, a->device))
CALLER(c_clear_halt, port_clear_halt(*s, L_SLOTS, a->slot))

// With the settings that the core has.
void c_open(struct core *s, const struct rows *r, const struct asked *a, struct answered *out)
{
    struct opened x = port_open(s->settings, L_ALL);
    *s = x.core;
    out->number = x.number;
    out->count = 0;
    out->value = out->other = 0;
}
