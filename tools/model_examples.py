"""01, "Examples": each example as 01 has it, and what the model says of it (`tools/cases` compares the two). The job sheet's
is crates/sheet. Then those of the state in words, worked out by hand from its table (docs/DECISIONS.md, 127 and 129), and those of
02's orders 1, 4, 6 and 7, worked out by hand from their rules."""

from model.answers import CANCELLED, DONE, ENDPOINT, FAILED, FULL, INVALID, LIMIT, MEMORY, PENDING, UNSUPPORTED
from model.blocks import replay
from model.calls import World
from model.collection import see
from model.descriptors import characteristics, page_slots
from model.interrupts import PORT_CHANGE, TRANSFER_ACTIVITY, acknowledge, drain
from model.ranges import in_ranges, settings_good
from model.records import (
    ACKNOWLEDGE, ADDRESS, CANCEL, CLEAR_HALT, CLOSE, COLLECT, DRAIN, ENABLE, OPEN, OPEN_ENDPOINT, REARM, SET_ADDRESS, SET_PACKET, START, STEP, SUBMIT,
    WRITEBACK, read, record,
)  # fmt: skip
from model.registers import DOORBELL, USBCMD
from model.requests import buffer_good
from model.schedule import boundary_passed
from model.state import IDLE, LINKED, UNLINKING, Settings, Slot, State, largest_rows
from model.tokens import (
    BULK, CONTROL, IN, INTERRUPT, ISOCHRONOUS, OUT, SETUP, bytes_left, control_plan, has_error, overlay_token, retried, toggle_of, token,
    working_limit,
)  # fmt: skip
from model.words import encode, first_bound, good, slot_words, view


def passed(start, now):
    """An interrupt request that was unlinked at `start`."""
    slot = Slot(UNLINKING, INTERRUPT)
    slot.boundary = start
    return boundary_passed(State(), slot, now)


def drains():
    """Two unlinks, doorbell up, acknowledged 0x24, drained twice: the event, the answered unlinks and the writes of each."""
    state, shown = State(), []
    state.unlinks, state.doorbell = 2, 1
    acknowledge(state, 1, 1, 0x24, 0)
    for _ in range(2):
        answer = drain(state, 0)
        shown.append((answer.values, state.answered, answer.writes))
    return shown


def in_words():
    """A controller of 66 descriptors and two slots: slot 0, of 64-byte packets, has request 1, control, In, 18 bytes, at places 0, 1 and 65;
    slot 1 is an idle bulk endpoint of 512-byte packets that has had four requests. The free words and the row of slots; whether they are in their ranges, and with place 65 free
    as well; the owners that they stand for."""
    state = State(Settings(66, 2, 1, 16384, 1, 0x100000, 0x200000, 0x300000, 0x400000))
    state.slots[0], state.slots[1] = Slot(LINKED, CONTROL, 64), Slot(IDLE, BULK, 512)
    state.slots[0].id, state.slots[0].request, state.slots[0].direction, state.slots[0].length = 2, 1, 1, 18
    state.slots[1].id = 5
    for place in (0, 1, 65):
        state.owner[place] = 1
    core, row = encode(state)
    free, right, owner = list(core.free), good(core, row), view(core, row).owner
    core.free[1] |= 2
    return free, row, right, good(core, row), owner == state.owner


# ---- 02, order 1


def running(D=66, C=16384):
    """A running controller of two slots."""
    world, settings = World(largest_rows()), Settings(D, 2, 1, C, 1, 0x100000, 0x200000, 0x300000, 0x400000)
    world.lent = settings.lengths()
    world.open(settings)
    world.state.running = 1
    return world


def ask(world, kind, direction, length):
    """The answer to a submit on slot 0."""
    return world.call(SUBMIT, 0, kind, direction, direction << 7, 0x10000000, length, 0).number


def submitted(kind, direction, length, D=66, C=16384, packet=512):
    """With a request in slot 0; its descriptors are at the lowest places."""
    world = running(D, C)
    world.call(OPEN_ENDPOINT, kind, 5, 1, packet)
    ask(world, kind, direction, length)
    return world


def full_pool(D):
    """Whether a request of D descriptors has all of the pool; place D then, and what a writeback of it answers."""
    world = submitted(BULK, IN, D * 16384, D)
    return world.state.places_of(0) == [*range(D)], world.rows.pool[D].words(), world.call(WRITEBACK, D, 0).number


def alternates(kind, direction, length, **given):
    """The alternates of a request's descriptors, then that of its head's overlay."""
    world = submitted(kind, direction, length, **given)
    return [world.rows.pool[place].alternate for place in world.state.places_of(0)] + [world.rows.head_word(0, 5)]


def written(kind, direction, length, *tokens, **given):
    """With a request in slot 0 that has these tokens at its first descriptors."""
    world = submitted(kind, direction, length, **given)
    for place, word in enumerate(tokens):
        assert world.call(WRITEBACK, place, word).number == DONE
    return world


def shown(*request, **given):
    """Whether a request is finished, its first erring token and its length."""
    world = written(*request, **given)
    return tuple(see(world.state, world.rows, 0))[:3]


def area_good(D, pool_at=0x100000, heads_at=0x200000):
    return settings_good(Settings(D, 2, 1, 16384, 1, pool_at, heads_at, 0x300000, 0x400000))


MEGABYTE = 64 * 16384
# tokens as a controller leaves them: 3,000 bytes of 16,384 came (13,384 is 0x3448); all came; nothing was moved yet; halted
SHORT_IN, DONE_IN, ACTIVE_IN, HALTED_IN = 0x34480D00, 0x00000D00, 0x40000D80, 0x40000D40


def short_examples():
    """02, order 1."""
    for D in (1, 64, 256):
        yield f"place {D} beside a full pool", full_pool(D), (True, [1, 1] + [0] * 11, INVALID)
    yield "alternates, bulk In, 40000", alternates(BULK, IN, 40000), [0x101080, 0x101080, 1, 1]
    yield "alternates, interrupt In, 16385", alternates(INTERRUPT, IN, 16385), [0x101080, 1, 1]
    yield "alternates, bulk In, 16384", alternates(BULK, IN, 16384), [1, 1]
    yield "alternates, bulk Out, 40000", alternates(BULK, OUT, 40000), [1, 1, 1, 1]
    yield "alternates, control In, 18", alternates(CONTROL, IN, 18), [1, 1, 1, 1]
    yield "a megabyte, 3,000 come", shown(BULK, IN, MEGABYTE, SHORT_IN), (True, 0, 3000)
    yield "a megabyte, nothing yet", shown(BULK, IN, MEGABYTE), (False, 0, 0)
    yield "a megabyte, one full and waiting", shown(BULK, IN, MEGABYTE, DONE_IN), (False, 0, 16384)
    yield "a megabyte, an empty packet", shown(BULK, IN, MEGABYTE, 0x40000D00), (True, 0, 0)
    yield "short in the third", shown(INTERRUPT, IN, MEGABYTE, DONE_IN, DONE_IN, SHORT_IN), (True, 0, 2 * 16384 + 3000)
    yield "short after 384 left of an active one", shown(BULK, IN, MEGABYTE, 0x01800D80, SHORT_IN, HALTED_IN), (False, 0, 19000)
    yield "an error after the short one", shown(BULK, IN, MEGABYTE, SHORT_IN, HALTED_IN), (True, 0, 3000)
    yield "an error before the short one", shown(BULK, IN, MEGABYTE, HALTED_IN, SHORT_IN), (True, HALTED_IN, 3000)
    yield "a second short one", shown(BULK, IN, MEGABYTE, SHORT_IN, SHORT_IN), (True, 0, 3000)
    yield "more left than asked for", shown(BULK, IN, MEGABYTE, DONE_IN, 0x40010D00, DONE_IN), (True, 0, 16384)
    yield "short in the last, 50 of 100", shown(BULK, IN, 16484, DONE_IN, 0x00328D00), (True, 0, 16434)
    yield "one descriptor, 50 of 100", shown(BULK, IN, 100, 0x00328D00), (True, 0, 50)
    yield "Out waits for the rest", shown(BULK, OUT, 32768, 0x34480C00), (False, 0, 3000)
    yield "Out, all inactive", shown(BULK, OUT, 32768, 0x34480C00, 0x00008C00), (True, 0, 19384)
    yield "Out, an error after bytes left", shown(INTERRUPT, OUT, 32768, 0x34480C00, 0x40008C40), (True, 0x40008C40, 3000)
    yield "control waits for its status", shown(CONTROL, IN, 18, 0x00000E00, 0x800A0D00), (False, 0, 8)
    yield "control, 8 of 18", shown(CONTROL, IN, 18, 0x00000E00, 0x800A0D00, 0x80008C00), (True, 0, 8)
    yield "control, an error in its status", shown(CONTROL, IN, 18, 0x00000E00, 0x800A0D00, 0x80008C40), (True, 0x80008C40, 8)
    # 257 records are 0x4040 bytes, 64 are 4096
    ends = [area_good(256, 0xFFFFBFC0), area_good(256, 0xFFFFC000), area_good(1, 0xFFFFFF80), area_good(1, 0xFFFFFFC0)]
    yield "the area's end at 2^32, and a record beyond it", ends, [True, False, True, False]
    beside = [area_good(63, heads_at=0x101000), area_good(64, heads_at=0x101000), area_good(64, heads_at=0x101080)]
    yield "heads behind 64 records, and over the 65th", beside, [True, False, True]


# ---- 02, order 4


def cut(world):
    """The bytes that the descriptors of slot 0's request are asked to move."""
    return [bytes_left(world.rows.pool[place].token) for place in world.state.places_of(0)]


def pieces(kind, length, C, packet):
    return cut(submitted(kind, OUT, length, C=C, packet=packet))


def laid(C, packet, length):
    """Of each descriptor of a bulk In request its token and its first page slot."""
    world = submitted(BULK, IN, length, C=C, packet=packet)
    return [(world.rows.pool[place].token, world.rows.pool[place].pages[0]) for place in world.state.places_of(0)]


def room(D, length):
    """The answer to a bulk request of 512-byte packets under a limit of 1,000, with D descriptors."""
    world = running(D, 1000)
    world.call(OPEN_ENDPOINT, BULK, 5, 1, 512)
    return ask(world, BULK, IN, length)


def opens(C, *endpoints, full=False):
    """The answers to openings of endpoints (kind, packet size), each on a controller of its own, all slots of which may be open."""
    answers = []
    for kind, packet in endpoints:
        world = running(C=C)
        for _ in range(2 * full):
            world.call(OPEN_ENDPOINT, CONTROL, 5, 1, 8)
        answers.append(world.call(OPEN_ENDPOINT, kind, 5, 1, packet).number)
    return answers


def sets(C, kind, packet, *sizes):
    """Of each size that is set in turn: the answer, then the slot's size and the head's."""
    world, said = running(C=C), []
    world.call(OPEN_ENDPOINT, kind, 5, 1, packet)
    for size in sizes:
        answer = world.call(SET_PACKET, 0, size).number
        said.append((answer, world.state.slots[0].packet, world.rows.head_word(0, 1) >> 16 & 0x7FF))
    return said


def set_elsewhere():
    """Set packet size above C on a slot that is not open, and on one with a request."""
    world = submitted(BULK, IN, 8, C=8, packet=8)
    return [world.call(SET_PACKET, k, 9).number for k in (1, 2, 255, 0)]


def between():
    """1,000 bytes under a limit of 1,000, with packets of 512; then of 255, of 250, and of 250 beside a head that says 300."""
    world, said = running(C=1000), []
    world.call(OPEN_ENDPOINT, BULK, 5, 1, 512)
    for size in (None, 255, 250, None):
        if size:
            world.call(SET_PACKET, 0, size)
        if len(said) == 3:
            world.rows.set_head(0, [characteristics(BULK, 5, 1, 300)], 1)
        ask(world, BULK, IN, 1000)
        said.append(cut(world))
        # as collecting leaves it
        world.state.owner, world.state.slots[0].phase = [0] * 256, IDLE
        world.state.slots[0].forget()
    return said


def closed():
    """The size of a slot that is open, closed, and opened again; its first word when it is closed."""
    world = running(C=1000)
    world.call(OPEN_ENDPOINT, BULK, 5, 1, 512)
    sizes = [world.state.slots[0].packet]
    world.call(CLOSE, 0)
    sizes += [world.state.slots[0].packet, slot_words(world.state, 0)[0]]
    world.call(OPEN_ENDPOINT, INTERRUPT, 5, 1, 3)
    return sizes + [world.state.slots[0].packet]


def full_word():
    """The first word of a cancelled interrupt request with every field that it can have."""
    state = State(Settings(66, 2, 1, 16384, 1, 0x100000, 0x200000, 0x300000, 0x400000))
    slot = state.slots[0] = Slot(UNLINKING, INTERRUPT, 1024, 1)
    slot.direction, slot.length, slot.cancel, slot.boundary = 1, 3000, 1, 16383
    return slot_words(state, 0)[0]


def word_good(C, first):
    """Whether a slot may have this first word, where it has no request."""
    core, row = encode(State(Settings(66, 1, 1, C, 1, 0x100000, 0x200000, 0x300000, 0x400000)))
    return good(core, [first] + row[1:])


def packet_examples():
    """02, order 4."""
    # 512 is in 1,000 once, 7 in 16,384 2,340 times
    limits = [(BULK, 1000, 512, 512), (INTERRUPT, 1000, 512, 512), (BULK, 16384, 7, 16380), (BULK, 16384, 512, 16384), (BULK, 1000, 1000, 1000)]
    limits += [(BULK, 1023, 512, 512), (BULK, 1024, 512, 1024), (INTERRUPT, 5, 3, 3), (BULK, 1, 1, 1), (BULK, 2047, 1024, 1024), (CONTROL, 1000, 512, 1000)]
    for kind, C, packet, limit in limits:
        yield f"working limit, kind {kind}, {C} on {packet}", working_limit(kind, C, packet), limit
    yield "3,000 bytes, 1,000 on 512", pieces(BULK, 3000, 1000, 512), [512, 512, 512, 512, 512, 440]
    yield "3,000 bytes, 1,000 on 512, interrupt", pieces(INTERRUPT, 3000, 1000, 512), [512, 512, 512, 512, 512, 440]
    yield "3,000 bytes, 1,000 on 500", pieces(BULK, 3000, 1000, 500), [1000, 1000, 1000]
    yield "3,000 bytes, 1,000 on 512, control", pieces(CONTROL, 3000, 1000, 512), [8, 3000, 0]
    yield "16,384 bytes, 16,384 on 7", pieces(BULK, 16384, 16384, 7), [16380, 4]
    yield "32,760 bytes, 16,384 on 7", pieces(BULK, 32760, 16384, 7), [16380, 16380]
    yield "32,761 bytes, 16,384 on 7", pieces(INTERRUPT, 32761, 16384, 7), [16380, 16380, 1]
    yield "no bytes, 1,000 on 512", pieces(BULK, 0, 1000, 512), [0]
    yield "512 bytes, 1,000 on 512", pieces(BULK, 512, 1000, 512), [512]
    yield "1,000 bytes, 1,000 on 512", pieces(BULK, 1000, 1000, 512), [512, 488]
    yield "2,000 bytes, 1,000 on 1,000", pieces(BULK, 2000, 1000, 1000), [1000, 1000]
    # 512 is 0x200, 440 is 0x1B8; the buffer is at 0x10000000
    parts = [(0x02000D80, 0x10000000), (0x02000D80, 0x10000200), (0x02000D80, 0x10000400), (0x02000D80, 0x10000600), (0x02000D80, 0x10000800), (0x01B88D80, 0x10000A00)]
    yield "tokens and addresses, 1,000 on 512", laid(1000, 512, 3000), parts
    # six chunks of 512 are 3,072 bytes
    yield "room for 3,000, 3,072 and 3,073", [room(6, 3000), room(5, 3000), room(6, 3072), room(6, 3073), room(7, 3073)], [DONE, MEMORY, DONE, MEMORY, DONE]
    # place 66 is at 0x101080
    small = dict(C=1000, packet=512)
    yield "alternates, 513 bytes, 1,000 on 512", alternates(BULK, IN, 513, **small), [0x101080, 1, 1]
    yield "alternates, 512 bytes, 1,000 on 512", alternates(BULK, IN, 512, **small), [1, 1]
    yield "all of 3,000", shown(BULK, IN, 3000, *[0xD00] * 6, **small), (True, 0, 3000)
    # 200 left is 0xC8, 600 is 0x258: of 512, 312 came and none
    yield "short in the second", shown(BULK, IN, 3000, 0xD00, 0xC80D00, **small), (True, 0, 824)
    yield "short in the last", shown(INTERRUPT, IN, 3000, *[0xD00] * 5, 0xC80D00, **small), (True, 0, 2800)
    yield "more left than a chunk has", shown(BULK, OUT, 3000, 0x2580C00, *[0xC00] * 5, **small), (True, 0, 2488)
    yield "nothing came of 513", shown(BULK, IN, 513, 0x2000D00, **small), (True, 0, 0)
    yield "control, 8 of 1,500", shown(CONTROL, IN, 1500, 0xE00, 0x85D40D00, 0x80008C00, **small), (True, 0, 8)
    both = lambda packet: ((BULK, packet), (INTERRUPT, packet), (CONTROL, packet))
    yield "opened with C and C + 1, C 1,000", opens(1000, *both(1000), *both(1001)), [DONE, DONE, DONE, INVALID, INVALID, DONE]
    yield "opened with C and C + 1, C 1", opens(1, *both(1), *both(2), *both(1024)), [DONE] * 3 + [INVALID, INVALID, DONE] * 2
    yield "opened with C and C + 1, C 1,023 and 1,024", opens(1023, *both(1024)) + opens(1024, *both(1024), *both(1025)), [INVALID, INVALID, DONE] + [DONE] * 3 + [INVALID] * 3
    yield "isochronous above C", opens(8, (ISOCHRONOUS, 9)), [UNSUPPORTED]
    yield "above C and at C with no slot left", opens(8, *both(9), *both(8), full=True), [INVALID, INVALID, LIMIT, LIMIT, LIMIT, LIMIT]
    # refused, it stays what it was
    yield "set packet size, C 8", sets(8, BULK, 5, 9, 8, 3, 255, 0), [(INVALID, 5, 5), (DONE, 8, 8), (DONE, 8, 8), (INVALID, 8, 8), (DONE, 8, 8)]
    yield "set packet size, C 7", sets(7, INTERRUPT, 7, 0, 7, 8), [(INVALID, 7, 7)] * 3
    yield "set packet size, C 7, control", sets(7, CONTROL, 1024, 0, 7, 255), [(DONE, 8, 8), (DONE, 8, 8), (DONE, 255, 255)]
    yield "set packet size, C 254", sets(254, BULK, 254, 255, 254, 12), [(INVALID, 254, 254), (DONE, 254, 254), (DONE, 12, 12)]
    yield "set packet size 9, C 8, not open and busy", set_elsewhere(), [ENDPOINT, ENDPOINT, ENDPOINT, FULL]
    # three packets of 255 are 765; the head's word is not asked
    yield "a size set between requests", between(), [[512, 488], [765, 235], [1000], [1000]]
    yield "a closed slot's size", closed(), [512, 0, 0, 3]
    # 3 + 3 * 4, 1,024 * 16, 2^15, 2^16, 3,000 * 2^17 (0x17700000); 2^49, 16,383 * 2^50 (0xFFFC << 48)
    yield "every field of a first word", full_word(), 0xFFFE00001771C00F
    # an idle bulk slot is 9, interrupt 13, control 1; a size stands 16-fold
    yield "words of idle slots", [word_good(1000, 9 + 16 * size) for size in (0, 1, 512, 1000, 1001, 1024, 1025, 2047)], [False, True, True, True, False, False, False, False]
    yield "words of idle interrupt slots", [word_good(1000, 13 + 16 * size) for size in (0, 1, 1000, 1001)], [False, True, True, False]
    yield "words of idle control slots", [word_good(1000, 1 + 16 * size) for size in (0, 1, 1001, 1024, 1025, 2047)], [False, True, True, True, False, False]
    yield "words of bulk slots, C 16,384", [word_good(16384, 9 + 16 * size) for size in (1024, 1025)], [True, False]
    yield "words of closed slots", [word_good(1000, first) for first in (0, 16, 16 * 512, 8, 2**15, 2**16)], [True] + [False] * 5
    yield "words of idle slots with more", [word_good(1000, 9 + 16 * 512 + more) for more in (0, 2**15, 2**16, 2**17, 2**48, 2**49, 2**50, 2**63)], [True] * 2 + [False] * 6


# ---- 02, order 6. Of packets sent one after the other each has the other toggle: after an odd number the next one has 1


def endpoint(kind, D=66):
    """A running controller with one endpoint, in slot 0."""
    world = running(D)
    world.call(OPEN_ENDPOINT, kind, 5, 1, 512)
    return world


def collected(world, overlay, left=0xD00, cancelled=False, k=0, length=512, direction=IN):
    """A request, from its submit to its collection with this overlay token: what the submit wrote into the overlay's token, what the
    collection answered, and the toggle then. Its tokens are `left` when it is collected."""
    slot = world.state.slots[k]
    world.call(SUBMIT, k, slot.kind, direction, direction << 7, 0x10000000, length, 0)
    wrote, id = world.rows.head_word(k, 6), slot.request
    for place in world.state.places_of(k):
        world.call(WRITEBACK, place, left)
    world.call(CANCEL, k, id, 0, 0) if cancelled else world.call(COLLECT, k, id, 0, 0, 0)
    world.call(ACKNOWLEDGE, 1, 1, 0x20, 0)
    world.call(DRAIN, 0)
    return wrote, world.call(COLLECT, k, id, 0, 9, overlay).number, slot.toggle


def reads(kind, *overlays, **given):
    """One request after the other on one endpoint."""
    world = endpoint(kind)
    return [collected(world, overlay, **given) for overlay in overlays]


def toggled(kind=BULK):
    """An endpoint whose toggle is 1."""
    world = endpoint(kind)
    collected(world, 0x80008D00)
    return world


def not_passing(world, overlay):
    """Collects that do not pass, all with this overlay token, each with the toggle after it: of slots that are not open, of one that has no
    request; of one that has, by another id, unfinished, finished (it unlinks), waiting; cancelled and waiting."""
    said, slot = [], world.state.slots[0]

    def tried(k, id):
        said.append((world.call(COLLECT, k, id, 0, 0, overlay).number, slot.toggle))

    for k in (1, 2, 255, 0):
        tried(k, 1)
    ask(world, BULK, IN, 512)
    tried(0, slot.request + 1)
    tried(0, slot.request)
    world.call(WRITEBACK, 0, 0x8D00)
    tried(0, slot.request)
    tried(0, slot.request)
    tried(0, slot.request + 1)
    world.call(CANCEL, 0, slot.request, 0, 0)
    tried(0, slot.request)
    return said


def halts(kind):
    """Clear-halt on an endpoint whose toggle is 1, each with the toggle after it: on slots that are not open, with a linked request, with one
    that is unlinked, once it is collected (with 1 again), once more."""
    world = toggled(kind)
    slot, said = world.state.slots[0], []

    def cleared(k):
        said.append((world.call(CLEAR_HALT, k).number, slot.toggle))

    for k in (1, 2, 31, 32, 255):
        cleared(k)
    ask(world, kind, IN, 512)
    cleared(0)
    world.call(CANCEL, 0, 2, 0, 0)
    cleared(0)
    world.call(ACKNOWLEDGE, 1, 1, 0x20, 0)
    world.call(DRAIN, 0)
    world.call(COLLECT, 0, 2, 0, 9, 0x80000000)
    cleared(0)
    cleared(0)
    return said


def cleared_alone():
    """Clear-halt while the controller does not run: its answer, whether all but the slots stays; the overlay's token of the next request."""
    world = toggled()
    world.state.running, before = 0, world.rows.copy()
    answer = world.call(CLEAR_HALT, 0)
    same = all(getattr(world.rows, name) == getattr(before, name) for name in ("pool", "heads", "frames", "setups"))
    world.state.running = 1
    return tuple(answer), same, collected(world, 0)[0]


def opened_anew():
    """The toggle of an endpoint with 1, of its slot when it is closed, and of the endpoint that is opened there."""
    world = toggled()
    said = [world.state.slots[0].toggle]
    for number, *given in ((CLOSE, 0), (OPEN_ENDPOINT, BULK, 5, 1, 512)):
        world.call(number, *given)
        said.append(world.state.slots[0].toggle)
    return said + [collected(world, 0)[0]]


def left_alone():
    """The toggle of an endpoint with 1 after each call that is neither a collect, clear-halt nor close."""
    world, said = toggled(), []
    calls = [(ADDRESS,), (SET_ADDRESS, 0, 9), (SET_PACKET, 0, 64), (REARM,), (ENABLE,), (START,)] + [(STEP, v) for v in (0, 0x1000, 0, 0, 0, 0)]
    calls += [(OPEN_ENDPOINT, BULK, 6, 1, 8), (SUBMIT, 0, BULK, IN, 0, 0x10000000, 64, 0), (WRITEBACK, 0, 0x8D00), (CANCEL, 0, 2, 0, 0)]
    for number, *given in calls + [(ACKNOWLEDGE, 1, 1, 0x20, 0), (DRAIN, 0), (CLEAR_HALT, 1), (CLOSE, 1)]:
        said.append((world.call(number, *given).number, world.state.slots[0].toggle))
    return said


def two_slots():
    """Of two bulk endpoints in turn what the submit wrote, and then the toggles of both."""
    world, said = endpoint(BULK), []
    world.call(OPEN_ENDPOINT, BULK, 5, 2, 512)
    for k, overlay in ((1, 0x80000000), (0, 0), (1, 0x80000000), (0, 0x80000000), (1, 0), (0, 0x80000000)):
        said.append((collected(world, overlay, k=k)[0], [slot.toggle for slot in world.state.slots[:2]]))
    world.call(CLEAR_HALT, 1)
    return said + [slot.toggle for slot in world.state.slots[:2]]


def state_good(phase, toggle):
    """Whether a slot may have this toggle; an open one is for bulk."""
    world = endpoint(BULK)
    world.state.slots[0] = Slot(phase, BULK, 512, toggle) if phase else Slot(toggle=toggle)
    if phase > IDLE:
        world.state.slots[0].request = 1
    return in_ranges(world.state)


def through_words():
    """The first word of an idle bulk slot of 512-byte packets with toggle 1, and the toggle that it stands for; the same with toggle 0."""
    said = []
    for toggle in (1, 0):
        world = toggled()
        world.state.slots[0].toggle = toggle
        core, row = encode(world.state)
        said += [row[0], good(core, row), view(core, row).slots[0].toggle]
    return said


def is_read(number, small, *numbers):
    return read(record(number, small, numbers)) is not None


def toggle_examples():
    """02, order 6."""
    yield "overlay tokens", [overlay_token(kind, bit) for kind in (BULK, INTERRUPT, CONTROL) for bit in (0, 1)], [0, 0x80000000, 0, 0x80000000, 0, 0]
    yield "toggles of tokens", [toggle_of(word) for word in (0, 0x7FFFFFFF, 0x80000000, 0xFFFFFFFF, 0x40000000, 1)], [0, 0, 1, 1, 0, 0]
    # 1,536 bytes are three packets of 512: 0, 1, 0, and the next is 1. The second read takes 1, 0, 1, so the third is 0 again
    once = (0, DONE, 1), (0x80000000, DONE, 0), (0, DONE, 1)
    for kind in (BULK, INTERRUPT):
        yield f"three reads of three packets, kind {kind}", reads(kind, 0x80008D00, 0x00008D00, 0x80008D00, length=1536), [*once]
        yield f"three writes of three packets, kind {kind}", reads(kind, 0x80008C00, 0x00008C00, 0x80008C00, length=1536, direction=OUT), [*once]
    # two packets: 0, 1
    yield "reads of two packets", reads(BULK, 0x00008D00, 0x00008D00, length=1024), [(0, DONE, 0), (0, DONE, 0)]
    yield "bit 31 alone", reads(BULK, 0x7FFFFFFF, 0xFFFFFFFF, 0x80000000, 0), [(0, DONE, 0), (0, DONE, 1), (0x80000000, DONE, 1), (0x80000000, DONE, 0)]
    yield "kept at 10", reads(BULK, 0x80000D80, 0x80000D80, 0xD80, 0, cancelled=True), [(0, CANCELLED, 1), (0x80000000, CANCELLED, 1), (0x80000000, CANCELLED, 0), (0, CANCELLED, 0)]
    yield "kept at 11", reads(INTERRUPT, 0x82000D40, 0x02000D40, 0, left=0x02000D40), [(0, FAILED, 1), (0x80000000, FAILED, 0), (0, FAILED, 0)]
    yield "control", reads(CONTROL, 0x80008C00, 0x80008C00, 0x00008C00), [(0, DONE, 1), (0, DONE, 1), (0, DONE, 0)]
    yield "control, cancelled", reads(CONTROL, 0x80008C00, 0, cancelled=True), [(0, CANCELLED, 1), (0, CANCELLED, 0)]
    answers = [ENDPOINT, ENDPOINT, ENDPOINT, PENDING, ENDPOINT, PENDING, PENDING, PENDING, ENDPOINT, PENDING]
    yield "not kept at 9 or 3, of 0", not_passing(endpoint(BULK), 0xFFFFFFFF), [(answer, 0) for answer in answers]
    yield "not kept at 9 or 3, of 1", not_passing(toggled(), 0), [(answer, 1) for answer in answers]
    for kind in (BULK, INTERRUPT, CONTROL):
        yield f"clear-halt, kind {kind}", halts(kind), [(ENDPOINT, 1)] * 5 + [(FULL, 1), (FULL, 1), (DONE, 0), (DONE, 0)]
    yield "clear-halt of a controller that does not run", cleared_alone(), ((DONE, (), (), ()), True, 0)
    yield "opened anew", opened_anew(), [1, 0, 0, 0]
    yield "left alone", left_alone(), [(DONE, 1)] * 20
    # 1 to slot 1; 0 to slot 0; and so on: each submit writes what its own slot was given before
    pairs = [(0, [0, 1]), (0, [0, 1]), (0x80000000, [0, 1]), (0, [1, 1]), (0x80000000, [1, 0]), (0x80000000, [1, 0])]
    yield "two slots", two_slots(), pairs + [1, 0]
    yield "toggles in the ranges", [state_good(phase, bit) for phase in (0, IDLE, LINKED, UNLINKING) for bit in (0, 1, 2)], [True, False, False] + [True, True, False] * 3
    # 1 + 2 * 4, 512 * 16, 2^15
    yield "a toggle in words", through_words(), [0xA009, True, 1, 0x2009, True, 0]
    # linked from 2^49 on cancelled, from 2^50 on a boundary; a closed slot with a toggle
    bounds = [first_bound(IDLE, BULK, 0), first_bound(LINKED, CONTROL, 0), first_bound(UNLINKING, CONTROL, 0), first_bound(UNLINKING, INTERRUPT, 0), first_bound(0, 0, 0)]
    yield "bounds of first words", bounds, [2**16, 2**49, 2**50, 2**64, 1]
    yield "words of idle slots with a toggle", [word_good(1000, 2**15 + first + 16 * 64) for first in (1, 9, 13, 5, 0)], [True, True, True, False, False]
    yield "a collect's token of 32 bits", [is_read(COLLECT, (0,), 1, 0, 0, word) for word in (0, 2**31, 2**32 - 1, 2**32, 2**63)], [True, True, True, False, False]
    yield "records of clear-halt", [is_read(21, (255,)), is_read(21, (0, 1)), is_read(21, (0,), 1), is_read(21, (0,), 0, 0, 0, 0, 0, 0, 1), is_read(22, ()), is_read(11, (0,), 1, 0, 0, 1)], [True] + [False] * 5
    log = record(OPEN, (2, 1), (4, 512, 1, 0x100000, 0x200000, 0x300000, 0x400000)) + record(OPEN_ENDPOINT, (0, 5, 0), (8,)) + record(21, (0,)) + record(21, (1,))
    yield "what is printed of clear-halt", [line for line in replay(log).splitlines() if " 21 " in line], ["C 2 21 0", "C 3 21 3"]


# ---- 02, order 7. Bit 3, 8, is a transaction error, 0x10 babble, 0x20 a buffer error, 0x40 Halted. A frame is four descriptors of 16,384 bytes
FRAME = 65536
RETRIED_IN, LAST_IN = 0x00000D08, 0x00008D00


def counted(*request, **given):
    """Whether a request is finished, its first erring token, its length and how many of its descriptors were retried."""
    world = written(*request, **given)
    return tuple(see(world.state, world.rows, 0))


def gathered(kind, direction, length, before, after=(), cancelled=False, **given):
    """What the collection answers and carries of a request that is unlinked with the tokens `before` (by a cancel, or by a collect), and has
    those of `after` once its boundary has passed; None where it was not unlinked."""
    world = written(kind, direction, length, *before, **given)
    world.call(CANCEL, 0, 1, 0, 0) if cancelled else world.call(COLLECT, 0, 1, 0, 0, 0)
    if world.state.slots[0].phase != UNLINKING:
        return None
    for place, word in enumerate(after):
        world.call(WRITEBACK, place, word)
    world.call(ACKNOWLEDGE, 1, 1, 0x20, 0)
    world.call(DRAIN, 0)
    answer = world.call(COLLECT, 0, 1, 0, 9, 0)
    return answer.number, answer.values


def beside_another():
    """What is collected of slot 0, whose request has places 0 and 2; 1 and 3 are slot 1's, and were retried."""
    world = running()
    for k in (0, 1):
        world.call(OPEN_ENDPOINT, BULK, 5, k + 1, 512)
    submit = lambda k, length: world.call(SUBMIT, k, BULK, IN, 0, 0x10000000, length, 0)
    submit(0, 512)
    submit(1, 512)
    world.state.owner = [1, 2, 1, 2] + [0] * 252
    world.state.slots[0].length = world.state.slots[1].length = 32768
    for place, word in enumerate((0xD00, 0xD08, 0x8D08, 0x8D08)):
        world.call(WRITEBACK, place, word)
    return see(world.state, world.rows, 0).retried, see(world.state, world.rows, 1).retried


def printed(length, *tokens):
    """The last line of a log's collects: a bulk In request of these tokens, up to its collection."""
    calls = [record(OPEN, (1, 1), (8, 16384, 1, 0x100000, 0x200000, 0x300000, 0x400000)), record(START)]
    calls += [record(STEP, (), (v,)) for v in (0x80001, 0x1000, 0x80000, 0x80000, 0x80000, 0)] + [record(OPEN_ENDPOINT, (BULK, 5, 1), (512,))]
    calls += [record(SUBMIT, (0, BULK, IN), (0, 0x10000000, length, 0))] + [record(WRITEBACK, (), (place, word)) for place, word in enumerate(tokens)]
    calls += [record(COLLECT, (0,), (1, 0, 0)), record(ACKNOWLEDGE, (1, 1), (0x20, 0)), record(DRAIN), record(COLLECT, (0,), (1, 0, 0))]
    return [line.split(" ", 2)[2] for line in replay(b"".join(calls)).splitlines() if line.startswith("C ") and line.split()[2] == "12"][-1]


def retried_examples():
    """02, order 7."""
    yield "what errs", [has_error(word) for word in (0, 8, 0x10, 0x20, 0x38, 0x40, 0x48, 0x78, 0x80, 0xC0, 0xFFFFFFBF)], [False] * 5 + [True] * 3 + [False, True, False]
    yield "what was retried", [retried(word) for word in (0, 8, 0x10, 0x20, 0x40, 0x48, 0x88, 4, 0xFFFFFFF7)], [False, True, False, False, False, True, True, False, False]
    # all bytes came; one descriptor was retried, then all
    yield "a frame, none retried", counted(BULK, IN, FRAME, DONE_IN, DONE_IN, DONE_IN, LAST_IN), (True, 0, FRAME, 0)
    for kind in (BULK, INTERRUPT):
        yield f"a frame, one retried in the middle, kind {kind}", counted(kind, IN, FRAME, DONE_IN, RETRIED_IN, DONE_IN, LAST_IN), (True, 0, FRAME, 1)
    yield "a frame, all retried", counted(BULK, IN, FRAME, RETRIED_IN, RETRIED_IN, RETRIED_IN, 0x8D08), (True, 0, FRAME, 4)
    yield "a frame that goes out, the last retried", counted(BULK, OUT, FRAME, 0xC00, 0xC00, 0xC00, 0x8C08), (True, 0, FRAME, 1)
    yield "a retried one is not the end", counted(BULK, IN, FRAME, DONE_IN, RETRIED_IN), (False, 0, 32768, 1)
    yield "nor are bits 4 and 5", [counted(BULK, IN, FRAME, DONE_IN, DONE_IN + bits)[0] for bits in (0x10, 0x20, 0x30, 0x38, 0x40)], [False] * 4 + [True]
    # a descriptor counts once, and bits 4 and 5 do not
    yield "bits 4 and 5", counted(BULK, IN, FRAME, 0xD10, 0xD20, 0xD30, 0x8D38), (True, 0, FRAME, 1)
    yield "bits 4 and 5, one descriptor", [gathered(BULK, IN, 512, [0x8D00 + bits]) for bits in (0x10, 0x20, 0x30, 8)], [(DONE, (512, 0))] * 3 + [(DONE, (512, 1))]
    # the retries are used up: Halted as well, the token as it is
    yield "halted and retried", gathered(BULK, IN, FRAME, [DONE_IN, RETRIED_IN, 0x20000148]), (FAILED, (0x20000148,))
    yield "halted with bits 3 to 5", gathered(INTERRUPT, OUT, FRAME, [0x40000C78]), (FAILED, (0x40000C78,))
    yield "the first that is halted", gathered(BULK, OUT, FRAME, [0xC08, 0xC30, 0x40000C40, 0x40008C48]), (FAILED, (0x40000C40,))
    yield "halted while active", gathered(BULK, IN, FRAME, [HALTED_IN], [0x400000C8]), (FAILED, (0x400000C8,))
    # 13,384 left: 3,000 came, and the rest is left out, whatever it says
    yield "a retried short one ends it", counted(BULK, IN, MEGABYTE, SHORT_IN + 8), (True, 0, 3000, 1)
    yield "a short one with bits 4 and 5 ends it", counted(BULK, IN, MEGABYTE, SHORT_IN + 0x30), (True, 0, 3000, 0)
    yield "a halted one is not short", counted(BULK, IN, MEGABYTE, SHORT_IN + 0x48, SHORT_IN), (True, SHORT_IN + 0x48, 6000, 1)
    yield "before, with and after the short one", counted(BULK, IN, MEGABYTE, RETRIED_IN, DONE_IN, SHORT_IN + 8, RETRIED_IN, 0xD48), (True, 0, 35768, 2)
    yield "after the short one alone", counted(INTERRUPT, IN, MEGABYTE, DONE_IN, SHORT_IN, RETRIED_IN, RETRIED_IN), (True, 0, 19384, 0)
    yield "Out is read to its end", counted(BULK, OUT, FRAME, 0x34480C08, 0xC08, 0xC00, 0x8C08), (True, 0, 52152, 3)
    # setup, data, status; no bytes of setup and status count
    yield "control, none retried", gathered(CONTROL, IN, 18, [0xE00, 0x80000D00, 0x80008C00]), (DONE, (18, 0))
    yield "control, setup retried", gathered(CONTROL, IN, 18, [0xE08, 0x80000D00, 0x80008C00]), (DONE, (18, 1))
    yield "control, data retried", gathered(CONTROL, IN, 18, [0xE00, 0x800A0D08, 0x80008C00]), (DONE, (8, 1))
    yield "control, status retried", gathered(CONTROL, IN, 18, [0xE00, 0x80000D00, 0x80008C08]), (DONE, (18, 1))
    yield "control, all retried", gathered(CONTROL, OUT, 18, [0xE08, 0x80000C08, 0x80008D08]), (DONE, (18, 3))
    yield "control without data, both retried", gathered(CONTROL, OUT, 0, [0xE08, 0x80008D08]), (DONE, (0, 2))
    yield "control, a retried setup is waited on", gathered(CONTROL, IN, 18, [0xE08]), None
    # once it is unlinked the controller may have written on: what is there at the collection counts
    done, none = [DONE_IN, DONE_IN, DONE_IN, LAST_IN], (0x40000D80,) * 4
    yield "retried after the unlink", gathered(BULK, IN, FRAME, done, [RETRIED_IN, RETRIED_IN]), (DONE, (FRAME, 2))
    yield "no longer retried after the unlink", gathered(BULK, IN, FRAME, [RETRIED_IN] * 4, done), (DONE, (FRAME, 0))
    yield "active and retried at the collection", gathered(BULK, IN, FRAME, done, [word + 8 for word in none]), (DONE, (0, 4))
    yield "active and retried before a short one", gathered(BULK, IN, FRAME, [SHORT_IN], [0x01800D88, SHORT_IN + 8, RETRIED_IN]), (DONE, (19000, 2))
    yield "active and retried, control", gathered(CONTROL, IN, 18, [0xE00, 0x80000D00, 0x80008C00], [0xE88, 0x80120D80, 0x80008C88]), (DONE, (0, 2))
    yield "cancelled, retried", gathered(BULK, IN, FRAME, [RETRIED_IN] * 4, cancelled=True), (CANCELLED, ())
    yield "cancelled, halted and retried", gathered(BULK, IN, FRAME, [HALTED_IN + 8], cancelled=True), (CANCELLED, ())
    # 64 of 64 and 256 of 256
    yield "a megabyte, all retried", counted(BULK, IN, MEGABYTE, *[RETRIED_IN] * 64), (True, 0, MEGABYTE, 64)
    yield "256 descriptors, all retried", counted(BULK, OUT, 256 * 16384, *[0xC08] * 256, D=256), (True, 0, 4194304, 256)
    yield "beside another slot's", beside_another(), (1, 2)
    yield "what is printed", [printed(FRAME, *done), printed(FRAME, DONE_IN, RETRIED_IN, DONE_IN, LAST_IN), printed(FRAME, RETRIED_IN, 0x20000148)], ["12 0 65536 0", "12 0 65536 1", "12 11 20000148"]


def examples():
    """Of each example its name, what the model says and what 01 says."""
    yield "token, setup", token(SETUP, 8), 0x00080E80
    yield "token, In data 18", token(IN, 18, toggle=True), 0x80120D80
    yield "token, bulk In 16384", token(IN, 16384), 0x40000D80
    yield "token, bulk In 16384, last", token(IN, 16384, interrupt=True), 0x40008D80
    yield "token, bulk Out 0", token(OUT, 0, interrupt=True), 0x00008C80
    yield "tokens of the sheet", [part.token for part in control_plan(IN, 0, 0, 18)], [0x00080E80, 0x80120D80, 0x80008C80]
    yield "slots, 16384", page_slots(0x10000FFF, 16384), (0x10000FFF, 0x10001000, 0x10002000, 0x10003000, 0x10004000)
    yield "slots of the sheet", page_slots(0x10000FFF, 18), (0x10000FFF, 0x10001000, 0, 0, 0)
    yield "slots, the last byte", page_slots(0xFFFFFFFF, 1), (0xFFFFFFFF, 0, 0, 0, 0)
    yield "FFFFFFFF, 1 accepted", buffer_good(BULK, IN, 0, 0xFFFFFFFF, 1), True
    yield "FFFFFFFF, 2 refused", buffer_good(BULK, IN, 0, 0xFFFFFFFF, 2), False
    yield "head", characteristics(BULK, 5, 1, 512), 0xF2002105
    yield "unlink, distance 8", passed(16380, 4), False
    yield "unlink, distance 9", passed(16380, 5), True
    yield "drain", drains(), [(PORT_CHANGE, 1, ((USBCMD, DOORBELL),)), (TRANSFER_ACTIVITY, 1, ())]
    # 2, 64 * 2^4, 2^16, 18 * 2^17; 1 + 2 * 4, 512 * 2^4
    words = [0x250402, 1, 3, 2, 0, 0, 0x2009, 4, 0, 0, 0, 0]
    yield "words of two slots", in_words(), ([2**64 - 4, 1, 0, 0], words, True, False, True)
    yield "bound of an unlinking bulk slot, 3 unanswered", first_bound(UNLINKING, BULK, 3), 4 * 2**50
    yield from short_examples()
    yield from packet_examples()
    yield from toggle_examples()
    yield from retried_examples()


def wrong():
    """The examples of which the model says something else."""
    return [f"01's example ({name}): the model says {said}, 01 {right}" for name, said, right in examples() if said != right]
