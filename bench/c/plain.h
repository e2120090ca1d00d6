#ifndef PLAIN_H
#define PLAIN_H
#include "words.h"

// The calls of a request's life, and clear-halt, in place.
call plain_submit, plain_writeback, plain_collect, plain_acknowledge, plain_drain, plain_rearm, plain_clear_halt;

const u64 *plain_places(const u64 *slots, u8 slot);

#endif
