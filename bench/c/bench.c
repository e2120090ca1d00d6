// The port and plain C, on controllers that the port's own calls open, bring up and give endpoints.
//   bench same                   both sides at once, every word of core and rows and every answer compared after each call
//   bench count SIDE E N K       K lives of a request with N descriptors (0: control) beside E slots, to be counted: the m_* functions
//   bench round port E N K       K rounds of opening and all seventeen calls, to be counted
//   bench whole SIDE E N K HOW   K lives as docs/INTEGRATION.md prescribes, to be counted; HOW is `all` where every token has
//                                changed when the tokens are brought in, `last` where only the last has
//   bench time SIDE E N K        lives, timed call by call
//   bench stack SIDE E N         bytes of stack below the caller, the deepest byte written
//   copies copies SIDE E N       calls of memcpy in a call, and their bytes (the same program linked with copies.c)
#include "driver.h"
#include "libc.h"
#include "plain.h"
#include "port.h"

static struct side port, plain;

#define MEASURED(by, what, call) \
    __attribute__((noinline)) static void m_##by##_##what(struct side *x, const struct asked *a, struct answered *out) { call(&x->core, &x->rows, a, out); }

MEASURED(plain, submit, plain_submit)
MEASURED(plain, writeback, plain_writeback)
MEASURED(plain, unlink, plain_collect)
MEASURED(plain, acknowledge, plain_acknowledge)
MEASURED(plain, drain, plain_drain)
MEASURED(plain, finish, plain_collect)
MEASURED(plain, rearm, plain_rearm)
MEASURED(plain, clear_halt, plain_clear_halt)
MEASURED(port, submit, c_submit)
MEASURED(port, writeback, c_writeback)
MEASURED(port, unlink, c_collect)
MEASURED(port, acknowledge, c_acknowledge)
MEASURED(port, drain, c_drain)
MEASURED(port, finish, c_collect)
MEASURED(port, rearm, c_rearm)
MEASURED(port, clear_halt, c_clear_halt)
MEASURED(port, cancel, c_cancel)
MEASURED(port, start_bring_up, c_start_bring_up)
MEASURED(port, bring_up_step, c_bring_up_step)
MEASURED(port, allocate_address, c_allocate_address)
MEASURED(port, open_endpoint, c_open_endpoint)
MEASURED(port, close, c_close)
MEASURED(port, set_address, c_set_address)
MEASURED(port, set_packet_size, c_set_packet_size)
MEASURED(port, enable, c_enable)
MEASURED(port, disable, c_disable)
MEASURED(port, open, c_open)

__attribute__((noinline)) static void m_plain_places(const struct side *x, u8 slot, u64 *out)
{
    memcpy(out, plain_places(x->slots, slot), 32);
}

__attribute__((noinline)) static void m_port_places(const struct side *x, u8 slot, u64 *out)
{
    struct places places = port_places(x->rows.slots, x->rows.slots_length, slot);
    memcpy(out, places.words, 32);
}

// The calls of a life and clear-halt, which plain C has too, the others, and what is the hardware's.
enum { SUBMIT, WRITEBACK, UNLINK, ACKNOWLEDGE, DRAIN, FINISH, REARM, CLEAR_HALT, CANCEL, START_BRING_UP, BRING_UP_STEP,
    ALLOCATE_ADDRESS, OPEN_ENDPOINT, CLOSE, SET_ADDRESS, SET_PACKET_SIZE, ENABLE, DISABLE, OPEN, STEPS, CONTROLLER };

static const char *const names[STEPS] = {"submit", "writeback", "unlink", "acknowledge", "drain", "finish", "rearm", "clear_halt",
    "cancel", "start_bring_up", "bring_up_step", "allocate_address", "open_endpoint", "close", "set_address", "set_packet_size", "enable",
    "disable", "open"};

struct way {
    call_on *on[STEPS];
    void (*places)(const struct side *, u8, u64 *);
};

static const struct way on_plain = {{m_plain_submit, m_plain_writeback, m_plain_unlink, m_plain_acknowledge, m_plain_drain,
    m_plain_finish, m_plain_rearm, m_plain_clear_halt}, m_plain_places};

static const struct way on_port = {{m_port_submit, m_port_writeback, m_port_unlink, m_port_acknowledge, m_port_drain,
    m_port_finish, m_port_rearm, m_port_clear_halt, m_port_cancel, m_port_start_bring_up, m_port_bring_up_step, m_port_allocate_address,
    m_port_open_endpoint, m_port_close, m_port_set_address, m_port_set_packet_size, m_port_enable, m_port_disable, m_port_open},
    m_port_places};

// A call, and the number that it is to answer.
struct turn {
    int step;
    u8 number;
    struct asked asked;
};

struct script {
    int count;
    struct turn turns[40];
};

static void then(struct script *s, int step, u8 number, struct asked asked)
{
    s->turns[s->count++] = (struct turn){step, number, asked};
}

// A running controller with a control endpoint in slot 0, bulk endpoints in slots 1 and 2, an interrupt endpoint in slot 3, these
// three with this packet size.
static void opening(struct script *s, u16 packet)
{
    static const u32 readings[6] = {0, 0x1000, 0, 0, 0, 0};
    then(s, OPEN, 0, (struct asked){0});
    then(s, START_BRING_UP, 0, (struct asked){0});
    for (int i = 0; i < 6; i++)
        then(s, BRING_UP_STEP, 0, (struct asked){.command = readings[i]});
    then(s, ENABLE, 0, (struct asked){0});
    then(s, ALLOCATE_ADDRESS, 0, (struct asked){0});
    for (u8 k = 0; k < 4; k++)
        then(s, OPEN_ENDPOINT, 0, (struct asked){.kind = k == 0 ? CONTROL : k == 3 ? INTERRUPT : BULK, .device = 1, .number = k,
            .packet = k == 0 ? 64 : packet});
}

// n is the number of descriptors, 0 for a control request of 18 bytes. An interrupt request passes 9 micro-frames on. Every other
// life leaves the toggle 1.
static void life(struct script *s, u64 n, u64 id, int interrupt)
{
    u8 slot = n ? interrupt ? 3 : 1 : 0, kind = n ? interrupt ? INTERRUPT : BULK : CONTROL;
    then(s, SUBMIT, 0, (struct asked){.slot = slot, .kind = kind, .direction = 1, .command = 0x31, .setup = n ? 0 : 0x01000680,
        .address = 0x10000200, .length = n ? n * LIMIT - 100 : 18});
    then(s, WRITEBACK, 0, (struct asked){.id = (n ? n : 3) - 1, .command = 0x00008d00});
    then(s, CONTROLLER, 0, (struct asked){.id = (n ? n : 3) - 1});
    then(s, UNLINK, 9, (struct asked){.slot = slot, .id = id, .command = 0x31});
    then(s, ACKNOWLEDGE, 0, (struct asked){.command = 0x21, .frame = 0x27, .flag = 1, .again = 1});
    then(s, DRAIN, 0, (struct asked){.command = 0x31});
    then(s, FINISH, 0, (struct asked){.slot = slot, .id = id, .command = 0x31, .frame = interrupt ? 9 : 0,
        .overlay = id % 2 ? 0x80008d00 : 0x00008d00});
}

// Every call at least once.
static void every_call(struct script *s, u64 n)
{
    opening(s, 512);
    then(s, SET_ADDRESS, 0, (struct asked){.slot = 1, .device = 5});
    then(s, SET_PACKET_SIZE, 0, (struct asked){.slot = 1, .device = 64});
    then(s, CLEAR_HALT, 0, (struct asked){.slot = 1});
    then(s, SUBMIT, 0, (struct asked){.slot = 1, .kind = BULK, .direction = 1, .command = 0x31, .address = 0x10000200, .length = n * LIMIT});
    then(s, WRITEBACK, 0, (struct asked){.id = n - 1, .command = 0x00008d00});
    then(s, CANCEL, 0, (struct asked){.slot = 1, .id = 1, .command = 0x31});
    then(s, ACKNOWLEDGE, 0, (struct asked){.command = 0x20, .frame = 0x27, .flag = 1, .again = 1});
    then(s, DRAIN, 0, (struct asked){.command = 0x31});
    then(s, REARM, 0, (struct asked){0});
    then(s, FINISH, 10, (struct asked){.slot = 1, .id = 1, .command = 0x31});
    then(s, CLOSE, 0, (struct asked){.slot = 1});
    then(s, DISABLE, 0, (struct asked){0});
}

// How a call is made, and what is noted of it.
typedef void around(struct side *x, call_on *call, const struct turn *t, struct answered *out);

// No tail call: a measured function returns to where it was called.
__attribute__((disable_tail_calls)) static void just(struct side *x, call_on *call, const struct turn *t, struct answered *out)
{
    call(x, &t->asked, out);
}

static void expect(const struct turn *t, const struct answered *out)
{
    if (out->number == t->number)
        return;
    printf("%s answered %u\n", names[t->step], out->number);
    exit(1);
}

// The hardware's work on all descriptors but the last: done, no byte left.
static void controller(struct side *x, u64 last)
{
    for (u64 k = 0; k < last; k++)
        x->pool[k].token = 0x00000d00;
}

static void play(struct side *x, const struct way *way, const struct script *s, around *make)
{
    for (const struct turn *t = s->turns; t < s->turns + s->count; t++) {
        struct answered out;
        if (t->step == CONTROLLER) {
            controller(x, t->asked.id);
            continue;
        }
        make(x, way->on[t->step], t, &out);
        expect(t, &out);
    }
}

static void lend(struct side *x)
{
    u64 e = x->core.settings.endpoints;
    x->rows = (struct rows){x->pool, D + 1, x->slots, 6 * e, x->heads, 17 * (e + 1), x->frames, 1024, x->setups, 8 * e};
}

static void with_settings(struct side *x, u8 e, u64 limit)
{
    memset(x, 0, sizeof *x);
    x->core.settings = (struct settings){D, e, 4, limit, 1000, 0x100000, 0x200000, 0x300000, 0x400000};
    lend(x);
}

static void open_side(struct side *x, u16 packet)
{
    struct script s = {0};
    opening(&s, packet);
    play(x, &on_port, &s, just);
}

// The same words.

static u64 calls, answers[12];

static int same_answer(const struct answered *a, const struct answered *b)
{
    return a->number == b->number && a->value == b->value && a->other == b->other && a->count == b->count
        && !memcmp(a->offsets, b->offsets, 4 * a->count) && !memcmp(a->values, b->values, 4 * a->count);
}

static int same_core(const struct rest *a, const struct rest *b)
{
    return a->running == b->running && a->step == b->step && a->address == b->address && a->enabled == b->enabled
        && a->noted == b->noted && a->doorbell == b->doorbell && a->unanswered == b->unanswered && a->pending == b->pending
        && a->masked == b->masked && a->waited == b->waited && !memcmp(a->free, b->free, sizeof a->free);
}

static int same_rows(const struct side *a, const struct side *b)
{
    return !memcmp(a->pool, b->pool, sizeof a->pool) && !memcmp(a->slots, b->slots, sizeof a->slots)
        && !memcmp(a->heads, b->heads, sizeof a->heads) && !memcmp(a->frames, b->frames, sizeof a->frames)
        && !memcmp(a->setups, b->setups, sizeof a->setups);
}

static void both(int step, struct asked asked)
{
    struct answered p, c;
    on_port.on[step](&port, &asked, &p);
    on_plain.on[step](&plain, &asked, &c);
    calls++;
    answers[p.number]++;
    int answer = same_answer(&p, &c), core = same_core(&port.core.rest, &plain.core.rest), rows = same_rows(&port, &plain);
    if (answer & core & rows)
        return;
    printf("differ at call %lu, %s: port %u %lu %u, plain %u %lu %u; the same answer %d, core %d, rows %d\n", calls, names[step],
        p.number, p.value, p.count, c.number, c.value, c.count, answer, core, rows);
    exit(1);
}

// Plain C goes on from what the port has opened.
static void open_both(u8 e, u64 limit, u16 packet)
{
    with_settings(&port, e, limit);
    open_side(&port, packet);
    plain = port;
    lend(&plain);
}

// The port sets a packet size, which plain C has no call for, and plain C goes on from there.
static void set_both(u8 slot, u8 packet)
{
    struct answered out;
    on_port.on[SET_PACKET_SIZE](&port, &(struct asked){.slot = slot, .device = packet}, &out);
    memcpy(plain.slots, port.slots, sizeof plain.slots);
    memcpy(plain.heads, port.heads, sizeof plain.heads);
}

static void same_lives(u8 e, u64 n, int interrupt)
{
    open_both(e, LIMIT, 512);
    for (u64 id = 1; id <= 2; id++) {
        struct script s = {0};
        life(&s, n, id, interrupt);
        for (const struct turn *t = s.turns; t < s.turns + s.count; t++) {
            if (t->step == CONTROLLER) {
                controller(&port, t->asked.id);
                controller(&plain, t->asked.id);
            } else {
                both(t->step, t->asked);
            }
        }
        // What is refused: a wrong kind, a length beyond the pool, a closed slot, a free place, a wrong id.
        struct asked submit = s.turns[0].asked, collect = s.turns[3].asked;
        submit.kind ^= 2;
        both(SUBMIT, submit);
        submit.kind ^= 2;
        submit.length = 257ul * LIMIT;
        both(SUBMIT, submit);
        submit.slot = 7;
        both(SUBMIT, submit);
        both(WRITEBACK, s.turns[1].asked);
        collect.id = 77;
        both(UNLINK, collect);
    }
}

static u64 seed = 88172645463325252;

static u64 random_below(u64 n)
{
    seed ^= seed << 13;
    seed ^= seed >> 7;
    seed ^= seed << 17;
    return seed % n;
}

static void random_submit(u8 slot, u32 command)
{
    struct asked a = {.slot = slot, .command = command, .direction = (u8)random_below(2)};
    a.kind = random_below(10) ? (slot == 0 ? CONTROL : slot == 3 ? INTERRUPT : BULK) : (u8)random_below(4);
    a.setup = random_below(10) ? 0x01000600 + 128 * a.direction : random_below(1ul << 50);
    a.address = random_below(10) ? random_below(1ul << 31) : random_below(1ul << 33);
    a.length = random_below(3) ? random_below(100000) : random_below(2) ? random_below(3 << 20) : random_below(2) ? random_below(17000) : 0;
    both(SUBMIT, a);
}

// Done, with bytes left or none; now and then active or halted, and with any of the other error bits.
static u32 random_token(void)
{
    u32 left = random_below(2) ? (u32)random_below(0x7fff) << 16 : 0;
    return 0x00000d00 + left + (random_below(8) ? 0 : random_below(2) ? 0x80 : 0x40) + (random_below(4) ? 0 : 8 * random_below(8));
}

// Some tokens are the hardware's, then a collect.
static void random_collect(u8 slot, u32 command)
{
    u64 last = slot < port.core.settings.endpoints ? port.slots[6 * slot + 1] : 0;
    if (random_below(2))
        for (int i = 0; i < D; i++)
            if (random_below(4))
                port.pool[i].token = plain.pool[i].token = random_token();
    both(UNLINK, (struct asked){.slot = slot, .command = command, .id = random_below(10) ? last : random_below(4), .frame = (u32)random_below(1 << 20),
        .overlay = (u32)random_below(1ul << 32)});
}

// Several requests at once, wrong ids, kinds and tokens.
static void random_call(void)
{
    u8 slot = random_below(20) ? (u8)random_below(4) : (u8)random_below(40), odd = random_below(3) == 0;
    u32 command = odd ? (u32)random_below(1ul << 32) : 0x31;
    if (random_below(50) == 0)
        set_both(slot, (u8)random_below(256));
    if (random_below(20) == 0)
        both(CLEAR_HALT, (struct asked){.slot = slot});
    switch (random_below(8)) {
    case 0:
    case 1:
        random_submit(slot, command);
        break;
    case 2:
        both(WRITEBACK, (struct asked){.id = random_below(270), .command = odd ? (u32)random_below(1ul << 32) : 0x00000d00 + ((u32)random_below(0x7fff) << 16)});
        break;
    case 3:
    case 4:
        random_collect(slot, command);
        break;
    case 5:
        both(ACKNOWLEDGE, (struct asked){.command = odd ? (u32)random_below(64) : 0x21, .frame = odd ? (u32)random_below(1ul << 32) : 0x27,
            .flag = (u8)random_below(2), .again = (u8)random_below(2)});
        break;
    case 6:
        both(DRAIN, (struct asked){.command = command});
        break;
    default:
        both(REARM, (struct asked){0});
    }
}

// Each bit of core and slots flipped on both sides: what the one refuses the other does.
static void bent(void)
{
    static struct side kept_port, kept_plain;
    kept_port = port;
    kept_plain = plain;
    u64 of_core = sizeof port.core, all = of_core + 8 * port.rows.slots_length;
    for (u64 bit = 0; bit < 8 * all; bit++) {
        u64 at = bit / 8;
        *(at < of_core ? (u8 *)&port.core + at : (u8 *)port.slots + at - of_core) ^= 1 << bit % 8;
        *(at < of_core ? (u8 *)&plain.core + at : (u8 *)plain.slots + at - of_core) ^= 1 << bit % 8;
        both(REARM, (struct asked){0});
        both(DRAIN, (struct asked){.command = 0x31});
        both(CLEAR_HALT, (struct asked){.slot = (u8)(bit % 4)});
        port.core = kept_port.core;
        plain.core = kept_plain.core;
        memcpy(port.slots, kept_port.slots, sizeof port.slots);
        memcpy(plain.slots, kept_plain.slots, sizeof plain.slots);
    }
}

// Limits, and packet sizes that divide them or do not. The bits are flipped in the last.
static const struct {
    u64 limit;
    u16 packet;
} opened[10] = {{LIMIT, 512}, {LIMIT, 1}, {LIMIT, 1024}, {LIMIT, 1000}, {LIMIT, 7}, {4097, 1023}, {1000, 500}, {1000, 501}, {64, 64}, {1000, 512}};

static void same_words(u8 e)
{
    calls = 0;
    memset(answers, 0, sizeof answers);
    for (int interrupt = 0; interrupt < 2; interrupt++)
        for (u64 n = 0; n <= D; n++)
            same_lives(e, n, interrupt);
    u64 in_lives = calls;
    for (int i = 0; i < 50000; i++) {
        if (i % 5000 == 0)
            open_both(e, opened[i / 5000].limit, opened[i / 5000].packet);
        random_call();
    }
    u64 at_random = calls - in_lives;
    bent();
    printf("E %u: %lu calls in lives, %lu random ones, %lu with a bit flipped: the same answers, writes and words. Answers:", e,
        in_lives, at_random, calls - in_lives - at_random);
    for (int i = 0; i < 12; i++)
        printf(" %d: %lu%s", i, answers[i], i < 11 ? "," : "\n");
}

// Lives, rounds, whole lives, to be counted.

static void lives(struct side *x, const struct way *way, u64 n, u64 count, around *make)
{
    for (u64 id = 1; id <= count; id++) {
        struct script s = {0};
        life(&s, n, id, 0);
        play(x, way, &s, make);
    }
}

static void rounds(struct side *x, u64 n, u64 count, around *make)
{
    struct script s = {0};
    every_call(&s, n);
    for (u64 i = 0; i < count; i++)
        play(x, &on_port, &s, make);
}

static void call_now(struct side *x, const struct way *way, int step, u8 number, struct asked asked)
{
    struct turn t = {step, number, asked};
    struct answered out;
    way->on[step](x, &asked, &out);
    expect(&t, &out);
}

static void bring_in(struct side *x, const struct way *way, u8 slot, u64 changed)
{
    u64 places[4];
    way->places(x, slot, places);
    if (m_bring_in(x, places, way->on[WRITEBACK]) == changed)
        return;
    printf("other tokens had changed\n");
    exit(1);
}

// The hardware has done every descriptor, and left the last token in the head. Unless all are to be brought in, all but the last
// were before.
static void hardware(struct side *x, u8 slot, u64 n, int all)
{
    for (u64 k = 0; k < n; k++) {
        x->memory[k].token = k + 1 < n ? 0x00000d00 : 0x00008d00;
        if (!all && k + 1 < n)
            x->pool[k].token = x->memory[k].token;
    }
    x->memory_heads[17 * (slot + 1) + 6] ^= 0x80008d00;
}

static void whole(struct side *x, const struct way *way, u64 n, u64 id, int all)
{
    struct script s = {0};
    u64 places[4];
    life(&s, n, id, 0);
    struct asked collect = s.turns[3].asked, acknowledge = s.turns[4].asked, drain = s.turns[5].asked;
    call_now(x, way, SUBMIT, 0, s.turns[0].asked);
    way->places(x, collect.slot, places);
    m_mirror(x, places, collect.slot);
    hardware(x, collect.slot, n, all);
    acknowledge.command = 0x01;
    call_now(x, way, ACKNOWLEDGE, 0, acknowledge);
    call_now(x, way, DRAIN, 0, drain);
    bring_in(x, way, collect.slot, all ? n : 1);
    call_now(x, way, UNLINK, 9, collect);
    m_mirror_link(x);
    acknowledge.command = 0x20;
    call_now(x, way, ACKNOWLEDGE, 0, acknowledge);
    call_now(x, way, DRAIN, 0, drain);
    call_now(x, way, REARM, 0, (struct asked){0});
    bring_in(x, way, collect.slot, 0);
    collect.overlay = m_overlay(x, collect.slot);
    call_now(x, way, FINISH, 0, collect);
}

// Cycles of the time stamp counter, with the cost of reading it taken off.

enum { TIMES_MAX = 4096 };

static u64 took[STEPS][TIMES_MAX], turns[STEPS], empty = ~0ul;

static u64 now(void)
{
    unsigned aux;
    return __builtin_ia32_rdtscp(&aux);
}

static void timed(struct side *x, call_on *call, const struct turn *t, struct answered *out)
{
    u64 began = now();
    call(x, &t->asked, out);
    u64 ended = now();
    if (turns[t->step] < TIMES_MAX)
        took[t->step][turns[t->step]++] = ended - began - empty;
}

static int by_number(const void *a, const void *b)
{
    u64 x = *(const u64 *)a, y = *(const u64 *)b;
    return (x > y) - (x < y);
}

static void times(struct side *x, const struct way *way, u64 n, u64 count)
{
    for (int i = 0; i < 1000; i++) {
        u64 t = now(), u = now() - t;
        empty = u < empty ? u : empty;
    }
    lives(x, way, n, count, timed);
    for (int step = 0; step < STEPS; step++) {
        u64 k = turns[step], *t = took[step];
        if (k == 0)
            continue;
        qsort(t, k, sizeof(u64), by_number);
        printf("%s %lu %lu %lu %lu\n", names[step], t[0], t[k / 4], t[k / 2], t[3 * k / 4]);
    }
}

// The stack below the caller is painted, and then searched for the deepest byte that is no longer paint.

enum { ROOM = 256 * 1024, NEAR = 192 };

static int deepest[STEPS];

__attribute__((noinline)) static void paint(void)
{
    volatile u8 *at = __builtin_frame_address(0);
    for (int i = NEAR; i < ROOM; i++)
        at[-i] = 0xa5;
}

__attribute__((noinline)) static int painted(void)
{
    volatile u8 *at = __builtin_frame_address(0);
    int i = ROOM - 1;
    while (i >= NEAR && at[-i] == 0xa5)
        i--;
    return i;
}

static void stacked(struct side *x, call_on *call, const struct turn *t, struct answered *out)
{
    paint();
    call(x, &t->asked, out);
    int deep = painted();
    if (deepest[t->step] < deep)
        deepest[t->step] = deep;
}

// Calls of memcpy, by the linker's wrapping of it.

extern u64 copies __attribute__((weak)), copied __attribute__((weak));

static u64 most_copies[STEPS], most_copied[STEPS];

static void copying(struct side *x, call_on *call, const struct turn *t, struct answered *out)
{
    copies = copied = 0;
    call(x, &t->asked, out);
    if (most_copies[t->step] < copies)
        most_copies[t->step] = copies;
    if (most_copied[t->step] < copied)
        most_copied[t->step] = copied;
}

// Of lives with n descriptors and with a control request, and of a round where the side has all calls.
static void most(struct side *x, const struct way *way, u64 n, around *make)
{
    lives(x, way, n, 1, make);
    lives(x, way, 0, 1, make);
    if (way == &on_port)
        rounds(x, n, 1, make);
    for (int step = 0; step < STEPS; step++)
        if (way->on[step])
            printf("%s %lu %lu\n", names[step], make == stacked ? (u64)deepest[step] : most_copies[step], most_copied[step]);
}

int main(int count, char **words)
{
    if (count == 2 && !strcmp(words[1], "same")) {
        same_words(8);
        same_words(32);
        return 0;
    }
    if (count < 5)
        return 2;
    const char *verb = words[1];
    const struct way *way = strcmp(words[2], "plain") ? &on_port : &on_plain;
    struct side *x = way == &on_plain ? &plain : &port;
    u64 n = strtoul(words[4], 0, 10), k = count > 5 ? strtoul(words[5], 0, 10) : 1;
    with_settings(x, (u8)strtoul(words[3], 0, 10), LIMIT);
    if (!strcmp(verb, "round")) {
        rounds(x, n, k, just);
        return 0;
    }
    open_side(x, 512);
    if (!strcmp(verb, "count"))
        lives(x, way, n, k, just);
    else if (!strcmp(verb, "whole") && count == 7)
        for (u64 id = 1; id <= k; id++)
            whole(x, way, n, id, !strcmp(words[6], "all"));
    else if (!strcmp(verb, "time"))
        times(x, way, n, k);
    else if (!strcmp(verb, "stack"))
        most(x, way, n, stacked);
    else if (!strcmp(verb, "copies") && &copies)
        most(x, way, n, copying);
    else
        return 2;
    return 0;
}
