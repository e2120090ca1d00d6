// The calls of a request's life, and clear-halt, in plain C: core and rows in place, the port's checks in its order, its loops.
#include "plain.h"

enum { DONE = 0, INVALID = 1, NO_ENDPOINT = 3, FULL = 4, UNSUPPORTED = 5, NO_MEMORY = 6, NOT_READY = 8, PENDING = 9, CANCELLED = 10, FAILED = 11 };

enum { CLOSED, IDLE, LINKED, UNLINKING };

// The events of a drain.
enum { NOTHING, PORT_CHANGE, TRANSFER_ACTIVITY, STOPPED };

enum { USBCMD = 0x00, USBSTS = 0x04, USBINTR = 0x08 };

enum { RECORD = 6, HEAD = 17, FRAMES = 1024 };

enum { PACKET_MAX = 1024 };

#define MEMORY_END 0x100000000ul

// The fields of a slot's word 0 after phase and kind, each by its lowest bit: packet size, toggle, direction, length, cancelled,
// boundary.
#define PACKET (1ul << 4)
#define TOGGLE (1ul << 15)
#define DIRECTION (1ul << 16)
#define LENGTH (1ul << 17)
#define CANCEL (1ul << 49)
#define BOUNDARY (1ul << 50)

static void answer(struct answered *out, u8 number, u64 value)
{
    out->number = number;
    out->value = value;
    out->other = 0;
    out->count = 0;
}

static void write_to(struct answered *out, u32 offset, u32 value)
{
    out->offsets[out->count] = offset;
    out->values[out->count] = value;
    out->count++;
}

// The ranges of core and slots.

static int area_good(u64 address, u64 alignment, u64 size)
{
    return (address % alignment == 0) & (address <= MEMORY_END - size);
}

static int apart(u64 a, u64 m, u64 b, u64 n)
{
    return a <= b ? m <= b - a : n <= a - b;
}

static int settings_good(const struct settings *s)
{
    int numbers = (1 <= s->descriptors) & (s->descriptors <= 256) & (1 <= s->endpoints) & (s->endpoints <= 32)
        & (1 <= s->ports) & (s->ports <= 15) & (1 <= s->limit) & (s->limit <= 16384) & (1 <= s->wait) & (s->wait <= 65536);
    if (!numbers)
        return 0;
    u64 pool = 64 * (s->descriptors + 1), heads = 128 * (s->endpoints + 1ul), setups = 8ul * s->endpoints;
    return area_good(s->pool, 64, pool) & area_good(s->heads, 128, heads) & area_good(s->frames, 4096, 4096)
        & area_good(s->setups, 8, setups) & apart(s->pool, pool, s->heads, heads) & apart(s->pool, pool, s->frames, 4096)
        & apart(s->pool, pool, s->setups, setups) & apart(s->heads, heads, s->frames, 4096)
        & apart(s->heads, heads, s->setups, setups) & apart(s->frames, 4096, s->setups, setups);
}

static int core_good(const struct core *s)
{
    const struct rest *r = &s->rest;
    if (!settings_good(&s->settings))
        return 0;
    int machine = (r->running <= 1) & (r->step <= 6) & (r->waited < s->settings.wait) & (1 <= r->address) & (r->address <= 128);
    int interrupt = (r->enabled <= 1) & ((r->pending & ~0x37u) == 0) & ((r->masked & ~0x27u) == 0);
    int doorbell = (r->doorbell <= 1) & (r->noted <= r->doorbell) & (r->doorbell <= r->unanswered) & (r->unanswered <= 32);
    return machine & interrupt & doorbell;
}

static u64 packet_of(u64 word)
{
    return word / PACKET % 2048;
}

static u64 ones_from(u64 n, u64 from)
{
    return n <= from ? 0 : n - from >= 64 ? ~0ul : (1ul << (n - from)) - 1;
}

// By kind, 0 to 3: the most of each phase. Those of unlinking control and bulk are put in.
static const u64 BOUNDS[16] = {0, DIRECTION - 1, CANCEL - 1, 0, 0, 0, 0, 0, 0, DIRECTION - 1, CANCEL - 1, 0, 0, DIRECTION - 1,
    CANCEL - 1, ~0ul};

static int slots_good(const struct core *s, const u64 *slots)
{
    u64 bounds[16];
    for (int i = 0; i < 16; i++)
        bounds[i] = BOUNDS[i];
    bounds[3] = bounds[11] = BOUNDARY * (s->rest.unanswered + 1ul) - 1;
    // By kind: the largest packet size. A chunk has room for one packet at least.
    u64 chunked = s->settings.limit < PACKET_MAX ? s->settings.limit : PACKET_MAX, packets[4] = {PACKET_MAX, 0, chunked, chunked};
    int good = 1;
    u64 n = s->settings.descriptors, end = RECORD * s->settings.endpoints;
    u64 twice = 0, a = s->rest.free[0], b = s->rest.free[1], c = s->rest.free[2], d = s->rest.free[3];
    for (u64 at = 0; at < end; at += RECORD) {
        u64 word = slots[at], last = slots[at + 1], w = slots[at + 2], x = slots[at + 3], y = slots[at + 4], z = slots[at + 5];
        u64 phase = word % 4;
        // A closed slot's size is 0 by its bound, an open one's from 1 on.
        good &= (word <= bounds[word % 16]) & (packet_of(word) - (phase != CLOSED) < packets[word / 4 % 4]);
        if (phase < LINKED) {
            good &= ((w | x | y | z) == 0) & (last <= phase * (~0ul - 1));
        } else {
            good &= last != 0;
            twice |= (a & w) | (b & x) | (c & y) | (d & z);
            a |= w, b |= x, c |= y, d |= z;
        }
    }
    return good & (twice == 0) & (a == ones_from(n, 0)) & (b == ones_from(n, 64)) & (c == ones_from(n, 128)) & (d == ones_from(n, 192));
}

// What a call that is lent core and slots asks.
static int words_good(const struct core *s, const struct rows *r)
{
    return core_good(s) && r->slots_length == RECORD * (u64)s->settings.endpoints && slots_good(s, r->slots);
}

// What a call that is lent all five rows asks.
static int accepts(const struct core *s, const struct rows *r)
{
    u64 e = s->settings.endpoints;
    int fit = (r->pool_length == s->settings.descriptors + 1) & (r->heads_length == HEAD * (e + 1)) & (r->frames_length == FRAMES)
        & (r->setups_length == 8 * e);
    return fit & words_good(s, r);
}

// Sets of places.

static u64 count(const u64 *w)
{
    return __builtin_popcountl(w[0]) + __builtin_popcountl(w[1]) + __builtin_popcountl(w[2]) + __builtin_popcountl(w[3]);
}

static void take_lowest(const u64 *w, u64 n, u64 *taken)
{
    for (int i = 0; i < 4; i++) {
        u64 have = __builtin_popcountl(w[i]), rest = w[i];
        if (have <= n) {
            taken[i] = w[i];
            n -= have;
            continue;
        }
        for (; n; n--)
            rest &= rest - 1;
        taken[i] = w[i] - rest;
    }
}

// A set that is gone through from its lowest place on.
struct cursor {
    u64 word, second, third, fourth, base;
};

static struct cursor settled(struct cursor c)
{
    while (c.word == 0 && c.base < 192) {
        struct cursor next = {c.second, c.third, c.fourth, 0, c.base + 64};
        c = next;
    }
    return c;
}

static struct cursor first(const u64 *w)
{
    struct cursor c = {w[0], w[1], w[2], w[3], 0};
    return settled(c);
}

static struct cursor after(struct cursor c)
{
    c.word &= c.word - 1;
    return settled(c);
}

static u64 place(struct cursor c)
{
    return c.base + __builtin_ctzl(c.word);
}

// Descriptors.

static u32 token_of(u32 pid, u64 bytes, int interrupt, int toggle)
{
    u32 total = bytes < 0x7fff ? (u32)bytes : 0x7fff;
    return pid << 8 | total << 16 | 3 << 10 | 1 << 7 | (interrupt ? 1u << 15 : 0) | (toggle ? 1u << 31 : 0);
}

static void put_qtd(struct qtd *q, u32 next, u32 alternate, u32 token, u64 address, u64 length)
{
    q->next = next;
    q->alternate = alternate;
    q->token = token;
    if (length == 0) {
        for (int i = 0; i < 5; i++)
            q->pages[i] = 0;
    } else {
        u64 page = address & ~4095ul, end = address + length;
        q->pages[0] = (u32)address;
        for (u64 i = 1; i < 5; i++)
            q->pages[i] = page + 4096 * i < end ? (u32)(page + 4096 * i) : 0;
    }
    for (int i = 0; i < 5; i++)
        q->upper[i] = 0;
}

static void put_stage(struct qtd *q, u32 next, const struct asked *a, u64 k, u64 setup)
{
    if (k == 0)
        put_qtd(q, next, 1, token_of(2, 8, 0, 0), setup, 8);
    else if (k == 1 && a->length)
        put_qtd(q, next, 1, token_of(a->direction, a->length, 0, 1), a->address, a->length);
    else
        put_qtd(q, next, 1, token_of(a->length && a->direction ? 0 : 1, 0, 1, 1), 0, 0);
}

// `shared` is where a short packet leads, from all but the last.
static void put_chunk(struct qtd *q, u32 next, u32 shared, const struct asked *a, u64 k, u64 limit, int last)
{
    u64 start = k * limit, left = a->length - start, bytes = left < limit ? left : limit;
    put_qtd(q, next, last ? 1 : shared, token_of(a->direction, bytes, last, 0), a->address + start, bytes);
}

static u32 next_at(u32 base, struct cursor c)
{
    return c.word ? base + 64 * (u32)place(c) : 1;
}

static void lay_stages(struct qtd *pool, u32 base, const u64 *places, const struct asked *a, u64 setup)
{
    u64 k = 0;
    for (struct cursor c = first(places); c.word; k++) {
        struct qtd *q = &pool[place(c)];
        c = after(c);
        put_stage(q, next_at(base, c), a, k, setup);
    }
}

static void lay_chunks(struct qtd *pool, u32 base, u32 shared, const u64 *places, const struct asked *a, u64 limit)
{
    u64 k = 0;
    for (struct cursor c = first(places); c.word; k++) {
        struct qtd *q = &pool[place(c)];
        c = after(c);
        put_chunk(q, next_at(base, c), shared, a, k, limit, !c.word);
    }
}

// The most bytes of a chunk: whole packets of an open slot's size. Both numbers are small.
static u64 working_limit(const struct core *s, u64 word)
{
    u32 limit = (u32)s->settings.limit;
    return limit - limit % (u32)packet_of(word);
}

// Submit.

// `limit` is the working limit; a control request has none.
static u64 need(const struct asked *a, u64 limit)
{
    if (a->kind == CONTROL)
        return a->length ? 3 : 2;
    return a->length ? (a->length - 1) / limit + 1 : 1;
}

static int buffer_good(u64 address, u64 length)
{
    return length == 0 || (length <= MEMORY_END && address <= MEMORY_END - length);
}

// All but the room.
static u8 judge(const struct core *s, u64 word, const struct asked *a)
{
    u64 phase = word % 4;
    if (phase == CLOSED)
        return NO_ENDPOINT;
    if (!s->rest.running)
        return NOT_READY;
    if (phase >= LINKED)
        return FULL;
    if (a->kind == ISOCHRONOUS)
        return UNSUPPORTED;
    if (a->kind != word / 4 % 4)
        return NO_ENDPOINT;
    int good = buffer_good(a->address, a->length);
    if (a->kind == CONTROL)
        good &= (a->length <= 16384) & ((a->setup >> 7 & 1) == a->direction) & (a->setup < 1ul << 48);
    return good ? DONE : INVALID;
}

// `word` is the slot's, whose toggle goes into the overlay; a control request has its own in each descriptor.
static void link_head(const struct core *s, const struct rows *r, const struct asked *a, u64 word, u32 start)
{
    u32 *head = r->heads + HEAD * (a->slot + 1), link = (u32)(s->settings.heads + 128 * (a->slot + 1ul)) + 2;
    head[4] = start;
    head[5] = 1;
    head[6] = a->kind == CONTROL ? 0 : (u32)(word / TOGGLE % 2) << 31;
    if (a->kind == INTERRUPT) {
        head[0] = r->frames[0];
        for (int i = 0; i < FRAMES; i++)
            r->frames[i] = link;
    } else {
        head[0] = r->heads[0];
        r->heads[0] = link;
    }
}

static void put_setup(u8 *setup, const struct asked *a)
{
    for (int i = 0; i < 6; i++)
        setup[i] = (u8)(a->setup >> 8 * i);
    setup[6] = (u8)a->length;
    setup[7] = (u8)(a->length >> 8);
}

void plain_submit(struct core *s, const struct rows *r, const struct asked *a, struct answered *out)
{
    if (!accepts(s, r)) {
        answer(out, INVALID, 0);
        return;
    }
    u64 k = a->slot, *record = r->slots + RECORD * k, *places = record + 2;
    u64 word = k < s->settings.endpoints ? record[0] : 0;
    u8 refusal = judge(s, word, a);
    if (refusal) {
        answer(out, refusal, 0);
        return;
    }
    u64 limit = a->kind == CONTROL ? 0 : working_limit(s, word), wanted = need(a, limit);
    if (count(s->rest.free) < wanted) {
        answer(out, NO_MEMORY, 0);
        return;
    }
    u32 base = (u32)s->settings.pool;
    take_lowest(s->rest.free, wanted, places);
    for (int i = 0; i < 4; i++)
        s->rest.free[i] -= places[i];
    link_head(s, r, a, word, base + 64 * (u32)place(first(places)));
    record[0] = word + (LINKED - IDLE) + DIRECTION * a->direction + LENGTH * (u64)(u32)a->length;
    record[1] = record[1] == ~0ul ? 1 : record[1] + 1;
    if (a->kind == CONTROL) {
        put_setup(r->setups + 8 * k, a);
        lay_stages(r->pool, base, places, a, s->settings.setups + 8 * k);
    } else {
        u32 shared = a->direction ? base + 64 * (u32)s->settings.descriptors : 1;
        lay_chunks(r->pool, base, shared, places, a, limit);
    }
    answer(out, DONE, record[1]);
    write_to(out, USBCMD, (a->command | 0x31) & ~0x40u);
}

// Writeback.

void plain_writeback(struct core *s, const struct rows *r, const struct asked *a, struct answered *out)
{
    if (!accepts(s, r) || s->settings.descriptors <= a->id || s->rest.free[a->id / 64] >> a->id % 64 & 1) {
        answer(out, INVALID, 0);
        return;
    }
    r->pool[a->id].token = a->command;
    answer(out, DONE, 0);
}

const u64 *plain_places(const u64 *slots, u8 slot)
{
    return slots + RECORD * slot + 2;
}

// Collect.

struct view {
    u8 stage;
    u16 retried;
    u32 failed;
    u64 moved;
};

static u64 requested(u8 kind, u64 length, u64 limit, u64 k)
{
    if (kind == CONTROL)
        return k == 1 ? length : 0;
    u64 start = k * limit;
    if (length < start)
        return 0;
    return length - start < limit ? length - start : limit;
}

// What the tokens of a slot's request say: of an In request in chunks, those up to the first short one.
static struct view fold(const struct core *s, const struct qtd *pool, const u64 *record)
{
    struct view v = {0, 0, 0, 0};
    u64 k = 0, length = (u32)(record[0] / LENGTH);
    u8 kind = record[0] / 4 % 4;
    u64 limit = kind == CONTROL ? 0 : working_limit(s, record[0]);
    int stops = kind != CONTROL && record[0] / DIRECTION % 2;
    for (u64 i = 0; i < 4; i++)
        for (u64 word = record[2 + i]; word; word &= word - 1) {
            u32 token = pool[64 * i + __builtin_ctzl(word)].token;
            if (v.stage == 0)
                v.stage = token & 0x80 ? 2 : token & 0x40 ? 1 : 0;
            if (v.failed == 0 && token & 0x40)
                v.failed = token;
            v.retried += token >> 3 & 1;
            u64 asked = requested(kind, length, limit, k), left = token >> 16 & 0x7fff;
            v.moved += asked < left ? 0 : asked - left;
            k++;
            if (stops && (token & 0xc0) == 0 && left)
                return v;
        }
    return v;
}

static int detach(const struct core *s, const struct rows *r, u64 k)
{
    u32 *heads = r->heads, address = (u32)(s->settings.heads + 128 * (k + 1)), word = heads[HEAD * (k + 1)];
    int framed = r->slots[RECORD * k] / 4 % 4 == INTERRUPT;
    if ((framed ? r->frames[0] : heads[0]) / 32 == address / 32) {
        if (framed)
            for (int i = 0; i < FRAMES; i++)
                r->frames[i] = word;
        else
            heads[0] = word;
        return 1;
    }
    for (u64 j = 0; j < s->settings.endpoints; j++) {
        u64 mark = r->slots[RECORD * j];
        int together = (mark / 4 % 4 == INTERRUPT) == framed;
        if ((j != k) & (mark % 4 == LINKED) & together & (heads[HEAD * (j + 1)] / 32 == address / 32)) {
            heads[HEAD * (j + 1)] = word;
            return 1;
        }
    }
    return 0;
}

static void ring(struct rest *t, u32 command, struct answered *out)
{
    if (t->doorbell == 0 && t->unanswered) {
        t->doorbell = 1;
        write_to(out, USBCMD, command | 0x40);
    }
}

static void unlink(struct core *s, const struct rows *r, const struct asked *a, u64 *record, struct answered *out)
{
    if (!detach(s, r, a->slot)) {
        answer(out, NO_ENDPOINT, 0);
        return;
    }
    answer(out, PENDING, 0);
    if (record[0] / 4 % 4 == INTERRUPT) {
        record[0] += 1 + BOUNDARY * (a->frame % 16384);
        return;
    }
    s->rest.unanswered++;
    record[0] += 1 + BOUNDARY * s->rest.unanswered;
    ring(&s->rest, a->command, out);
}

// `overlay` is the token that the controller left in the head's overlay: its toggle stays with the slot.
static void finish(struct core *s, u32 *head, u64 *record, u32 overlay, struct view v, struct answered *out)
{
    head[3] = 0;
    head[4] = 1;
    head[5] = 1;
    for (int i = 6; i < HEAD; i++)
        head[i] = 0;
    for (int i = 0; i < 4; i++) {
        s->rest.free[i] |= record[2 + i];
        record[2 + i] = 0;
    }
    int cancelled = record[0] / CANCEL % 2;
    record[0] = record[0] % TOGGLE + TOGGLE * (overlay >> 31) - (UNLINKING - IDLE);
    record[1] = record[1] == ~0ul ? 0 : record[1];
    if (cancelled)
        answer(out, CANCELLED, 0);
    else if (v.failed)
        answer(out, FAILED, v.failed);
    else {
        answer(out, DONE, v.moved);
        out->other = v.retried;
    }
}

static int passed(u64 word, u32 frame)
{
    u64 boundary = word / BOUNDARY;
    return word / 4 % 4 == INTERRUPT ? (frame % 16384 + 16384 - boundary) % 16384 >= 9 : boundary == 0;
}

void plain_collect(struct core *s, const struct rows *r, const struct asked *a, struct answered *out)
{
    if (!accepts(s, r)) {
        answer(out, INVALID, 0);
        return;
    }
    u64 *record = r->slots + RECORD * a->slot, phase = a->slot < s->settings.endpoints ? record[0] % 4 : CLOSED;
    if (phase < LINKED) {
        answer(out, phase == CLOSED ? NO_ENDPOINT : PENDING, 0);
        return;
    }
    struct view v = fold(s, r->pool, record);
    if (phase == LINKED && s->rest.unanswered >= 32)
        answer(out, INVALID, 0);
    else if (record[1] != a->id)
        answer(out, NO_ENDPOINT, 0);
    else if (phase == LINKED && v.stage != 2)
        unlink(s, r, a, record, out);
    else if (phase == UNLINKING && passed(record[0], a->frame))
        finish(s, r->heads + HEAD * (a->slot + 1), record, a->overlay, v, out);
    else
        answer(out, PENDING, 0);
}

// Clear-halt.

void plain_clear_halt(struct core *s, const struct rows *r, const struct asked *a, struct answered *out)
{
    if (!words_good(s, r)) {
        answer(out, INVALID, 0);
        return;
    }
    u64 *record = r->slots + RECORD * a->slot, phase = a->slot < s->settings.endpoints ? record[0] % 4 : CLOSED;
    if (phase != IDLE) {
        answer(out, phase == CLOSED ? NO_ENDPOINT : FULL, 0);
        return;
    }
    record[0] &= ~TOGGLE;
    answer(out, DONE, 0);
}

// Interrupts. All but a drain ask of the core alone.

void plain_acknowledge(struct core *s, const struct rows *r, const struct asked *a, struct answered *out)
{
    if (!core_good(s)) {
        answer(out, INVALID, 0);
        return;
    }
    u32 p = a->command & 0x37;
    answer(out, DONE, p != 0);
    if (p == 0)
        return;
    s->rest.pending |= p;
    s->rest.masked |= p & 0x27;
    if (p & 0x20 && s->rest.doorbell)
        s->rest.noted = 1;
    write_to(out, USBSTS, p);
    write_to(out, USBINTR, a->flag ? a->frame & ~(p & 0x27) : 0);
    if (a->flag != a->again)
        write_to(out, USBINTR, a->again ? a->frame & ~(p & 0x27) : 0);
}

// A noted advance counts once.
static void count_noted(struct core *s, u64 *slots, u32 command, struct answered *out)
{
    if (!s->rest.noted)
        return;
    s->rest.noted = 0;
    s->rest.doorbell = 0;
    s->rest.unanswered--;
    for (u64 k = 0; k < s->settings.endpoints; k++) {
        u64 word = slots[RECORD * k];
        if (word % 4 == UNLINKING && word / 4 % 4 != INTERRUPT && BOUNDARY <= word)
            slots[RECORD * k] = word - BOUNDARY;
    }
    ring(&s->rest, command, out);
}

void plain_drain(struct core *s, const struct rows *r, const struct asked *a, struct answered *out)
{
    if (!words_good(s, r)) {
        answer(out, INVALID, 0);
        return;
    }
    u32 pending = s->rest.pending;
    if (pending == 0) {
        answer(out, DONE, NOTHING);
        return;
    }
    answer(out, DONE, pending & 0x04 ? PORT_CHANGE : pending & 0x23 ? TRANSFER_ACTIVITY : STOPPED);
    count_noted(s, r->slots, a->command, out);
    s->rest.pending = pending & 0x04 ? pending & ~0x04u : pending & 0x23 ? pending & ~0x23u : 0;
}

void plain_rearm(struct core *s, const struct rows *r, const struct asked *a, struct answered *out)
{
    if (!core_good(s)) {
        answer(out, INVALID, 0);
        return;
    }
    answer(out, DONE, 0);
    if (s->rest.masked == 0)
        return;
    s->rest.masked = 0;
    write_to(out, USBINTR, s->rest.enabled ? 0x27 : 0);
}
