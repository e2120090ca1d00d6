"""The records that the program `state_checks` reads: calls, as in a log, and changes that no call makes, each a number, a field
and a place, and a value. A trial is a change with a value of which each bit is flipped in turn: the call after it is tried so
many times, and nothing of it stays."""

from model.descriptors import HEAD_WORDS
from model.records import (
    ACKNOWLEDGE, ADDRESS, CANCEL, CLEAR_HALT, CLOSE, COLLECT, DISABLE, DRAIN, ENABLE, OPEN, OPEN_ENDPOINT, REARM, SET_ADDRESS, SET_PACKET,
    START, STEP, SUBMIT, WRITEBACK, record,
)  # fmt: skip
from model.state import FRAMES, IDLE, LINKED, UNLINKING, Settings
from model.tokens import BULK, CONTROL, INTERRUPT
from model.words import FIELDS, PLACE_WORDS, SLOT_WORDS, place_words

# changes that no call makes, by the number of their record
(SET_SETTING, SET_NUMBER, SET_WORD, SET_RECORD, SET_HEADS, SET_FRAMES, SET_SETUPS, LEND) = range(64, 72)
SET_HUB, TRIAL = 73, 74

# the core's numbers besides the settings, and the bits of those that have fewer than 64
FREE = [f"free {j}" for j in range(PLACE_WORDS)]
NUMBERS = ["running", "step", "waited", "address", "enabled", "pending", "masked", "noted", "doorbell", "unanswered", *FREE]
BITS = dict.fromkeys(("E", "ports", "running", "step", "address", "enabled", "noted", "doorbell", "unanswered"), 8) | {"pending": 32, "masked": 32}
TOKEN = 2  # a token's place among a record's words
PACKET = 64  # the packet size where none is given

# how long the rows are: each is one longer than any opening lends it
POOL, SLOTS, HEADS, ENTRIES, SETUPS = 258, 193, 562, 1025, 257
TOP = 2**64 - 1

# ---- changes


def setting(name, value):
    return record(SET_SETTING, (0, Settings._fields.index(name)), (0, value))


def number(name, value):
    return record(SET_NUMBER, (0, NUMBERS.index(name)), (0, value))


def numbers(**values):
    return [number(name, value) for name, value in values.items()]


def free(*places):
    """These places are free, all of them below 64."""
    return number("free 0", place_words(places)[0])


def word(k, j, value, *more):
    """Word j of slot k, and those after it."""
    return record(SET_WORD, (0, len(more)), (SLOT_WORDS * k + j, value, *more))


def packed(**fields):
    """A first word; an open slot's has a packet size."""
    fields = {"packet": PACKET if fields.get("phase") else 0} | fields
    return sum(value << FIELDS[name][0] for name, value in fields.items())


def slot(k, last=0, places=None, **fields):
    """The first two words of slot k, and its places where they are given."""
    return word(k, 0, packed(**fields), last, *(place_words(places) if places is not None else ()))


def holds(k, *places):
    """Slot k's places."""
    return word(k, 2, *place_words(places))


def token(place, value):
    return record(SET_RECORD, (0, TOKEN), (place, value))


def pool_word(place, j, value):
    return record(SET_RECORD, (0, j), (place, value))


def head(k, j, value):
    """Word j of slot k's head (slot -1: the ring head)."""
    return record(SET_HEADS, (), (HEAD_WORDS * (k + 1) + j, value))


def frame(at, value):
    return record(SET_FRAMES, (), (at, value))


def setup_byte(at, value):
    return record(SET_SETUPS, (), (at, value))


def lend(pool, slots, heads, frames, setups):
    return record(LEND, (), (pool, slots, heads, frames, setups))


def hub(ports, port, step, at=0, state=0):
    return record(SET_HUB, (ports, port, step), (at, state))


def trial(change, call, bits=64):
    """The call on a state with each bit of the change's value flipped in turn."""
    number, small, rest = change[0], change[2], change[8:]
    return [bytes([TRIAL, number, small, bits, 0, 0, 0, 0]) + rest, call]


# ---- calls

AREAS = (0x100000, 0x200000, 0x300000, 0x400000)


def rows(D, E):
    """The lengths of the rows, so far as there is room."""
    return [min(D + 1, POOL), min(SLOT_WORDS * E, SLOTS), min(HEAD_WORDS * (E + 1), HEADS), FRAMES, min(8 * E, SETUPS)]


def opening(D=4, E=4, ports=2, C=512, W=3, areas=AREAS):
    return [lend(*rows(D, E)), record(OPEN, (E, ports), (D, C, W, *areas))]


def open_endpoint(kind, address=5, number=0, packet=PACKET):
    return record(OPEN_ENDPOINT, (kind, address, number), (packet,))


def submit(k, kind, direction=1, setup=0x80, address=0x10000FFF, length=100, command=0x80B41):
    return record(SUBMIT, (k, kind, direction), (setup, address, length, command))


def cancel(k, id=1, frame=0, command=0x80B31):
    return record(CANCEL, (k,), (id, command, frame))


def collect(k, id=1, frame=0, overlay=0):
    return record(COLLECT, (k,), (id, 0x80B31, frame, overlay))


def clear_halt(k):
    return record(CLEAR_HALT, (k,))


def writeback(place, value=0x80):
    return record(WRITEBACK, (), (place, value))


def acknowledge(status, interrupts, first=1, second=1):
    return record(ACKNOWLEDGE, (first, second), (status, interrupts))


def drain(command=0):
    return record(DRAIN, (), (command,))


# ---- a controller of four slots, of which three are open

KINDS = [BULK, CONTROL, INTERRUPT]


def three():
    """A running controller: bulk, control, interrupt, closed."""
    return opening() + [number("running", 1)] + [open_endpoint(kind, 5, k) for k, kind in enumerate(KINDS)]


def idle(k, last=0, **more):
    return slot(k, last, phase=IDLE, kind=KINDS[k], **more)


def linked(k, last=1, length=100, places=None, **more):
    """With the request of `submit`."""
    return slot(k, last, places, phase=LINKED, kind=KINDS[k], direction=1, length=length, **more)


def unlinking(k, last=1, length=100, places=None, **more):
    return slot(k, last, places, phase=UNLINKING, kind=KINDS[k], direction=1, length=length, **more)


def busy():
    """Slot 0 idle; slot 1 linked with places 0 and 1; slot 2 unlinking from frame 0 with place 2; place 3 free; an unlink unanswered."""
    calls = three() + [submit(1, CONTROL, length=0), submit(2, INTERRUPT), cancel(2)]
    return calls + numbers(unanswered=1, doorbell=1, pending=5, masked=1)


# every call, each of them accepted where `busy` is (but for starting bring-up, which answers 4)
EVERY = [record(START), record(STEP, (), (0,)), record(ADDRESS), open_endpoint(BULK, 1, 1, 8), record(CLOSE, (0,)), record(SET_ADDRESS, (0, 9)), record(SET_PACKET, (0, 9))]
EVERY += [submit(0, BULK), writeback(0), cancel(1), collect(1), collect(2, frame=9), acknowledge(0x37, 0x3F, 1, 0)]
EVERY += [drain(), record(REARM), record(ENABLE), record(DISABLE), clear_halt(0)]
