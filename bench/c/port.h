#ifndef PORT_H
#define PORT_H
#include "words.h"

// Opening and the seventeen calls as a C caller makes them: it keeps the core where `s` points, the core goes in by value and
// what comes back of it is put there.
call c_open, c_start_bring_up, c_bring_up_step, c_allocate_address, c_open_endpoint, c_close, c_set_address, c_set_packet_size,
    c_submit, c_writeback, c_collect, c_cancel, c_acknowledge, c_drain, c_rearm, c_enable, c_disable, c_clear_halt;

struct places {
    u64 words[4];
};

// The descriptors of a slot's request.
struct places port_places(const u64 *slots, u64 slots_length, u8 slot);

#endif
