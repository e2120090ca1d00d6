"""The cases of the program `state_checks`: families of scripts, each a list of records (state_records.py). No script looks at what
a call did: what the words are then is the model's to say."""

import random
from itertools import product

from model.records import ACKNOWLEDGE, ADDRESS, CLOSE, DISABLE, ENABLE, POWER, REARM, SCAN, SCAN_STEP, SET_ADDRESS, SET_PACKET, START, STEP, record
from model.state import CLOSED, IDLE, LINKED, UNLINKING, Settings
from model.tokens import BULK, CONTROL, INTERRUPT, ISOCHRONOUS
from model.words import PLACE_WORDS, SLOT_WORDS, place_words
from state_records import (
    AREAS, BITS, EVERY, FREE, KINDS, NUMBERS, TOP, acknowledge, busy, cancel, clear_halt, collect, drain, frame, free, head, holds, hub, idle, lend, linked,
    number, numbers, open_endpoint, opening, packed, pool_word, rows, setting, setup_byte, slot, submit, three, token, trial, unlinking, word,
    writeback,
)  # fmt: skip

TRIED = record(ADDRESS)  # a call that any state in its ranges accepts


# ---- openings, and the first checks


def openings():
    good = dict(D=16, E=8, ports=4, C=16384, W=100)
    for name, most in (("D", 256), ("E", 32), ("ports", 15), ("C", 16384), ("W", 65536)):
        for value in (0, 1, most, most + 1):
            yield opening(**(good | {name: value})) + [TRIED]
    sizes, by = (1088, 1152, 4096, 64), (64, 128, 4096, 8)
    place = lambda i, at: opening(**good, areas=[at if j == i else AREAS[j] for j in range(4)])
    for i in range(4):
        last = 2**32 - sizes[i]
        for at in (last, last + by[i], AREAS[i] + by[i] // 2, AREAS[i] + 1, 2**64 - 4096):
            yield place(i, at)
        for j in range(4):
            after, before = -(-(AREAS[j] + sizes[j]) // by[i]) * by[i], AREAS[j] - sizes[i]
            for at in (after, after - by[i], before, before + by[i]):
                yield place(i, at)
    lengths = rows(16, 8)
    for i, more in product(range(5), (-1, 1)):
        yield [lend(*(length + more * (i == j) for j, length in enumerate(lengths))), opening(**good)[1], TRIED]
    yield [lend(lengths[0], 6, *lengths[2:]), opening(**good)[1], lend(lengths[0], 0, *lengths[2:]), opening(**good)[1]]


def lengths():
    """Each row one short and one long, and rows of no slot or of one too few or too many: every call answers 1."""
    yield busy()
    for i, more in [*product(range(5), (-1, 1)), (1, -SLOT_WORDS), (1, SLOT_WORDS), (1, -4 * SLOT_WORDS)]:
        yield [lend(*(length + more * (i == j) for j, length in enumerate(rows(4, 4))))] + EVERY
    yield [lend(*rows(4, 4))]


def pool_lengths():
    """Rows of D records, of D + 1 and of D + 2, and shorter ones: one length is right, at opening and for every call."""
    for D in (1, 4, 256):
        others, opened = rows(D, 4)[1:], opening(D=D)[1]
        for length in (0, 1, D - 1, D, D + 2, D + 1):
            yield [lend(length, *others), opened, TRIED]
        yield [number("running", 1), open_endpoint(BULK)]
        for length in (D, D + 2, 0, D + 1):
            yield [lend(length, *others), TRIED, submit(0, BULK), writeback(0), writeback(D), collect(0)]
        # one more or less by the settings alone, with a row of that length
        for other in (D - 1, D + 1):
            yield [lend(other + 1, *others), setting("D", other), TRIED, setting("D", D)]
    # one more than D does not fit in 64 bits, or its bytes do not
    for D in (TOP, 2**58 - 1):
        yield [lend(0, *rows(4, 4)[1:]), opening(D=D)[1], lend(*rows(4, 4)), opening(D=D)[1]]
        yield opening() + [setting("D", D), TRIED, lend(0, *rows(4, 4)[1:]), TRIED]
    # the record at place D is read and written by no call; opening writes it
    yield busy() + [pool_word(4, j, 0xC8 + j) for j in range(13)] + EVERY + opening()


def broken_numbers():
    """What is put wrong, and what puts it right again."""
    for name, out, back in (
        ("running", 2, 1), ("step", 7, 0), ("waited", 3, 0), ("address", 0, 1), ("address", 129, 1), ("enabled", 2, 0), ("pending", 8, 5),
        ("pending", 0x40, 5), ("pending", 2**31, 5), ("masked", 8, 1), ("masked", 0x10, 1), ("masked", 2**31, 1), ("doorbell", 2, 1), ("unanswered", 0, 1),
        ("unanswered", 33, 1), ("noted", 2, 0), ("free 0", 0, 8), ("free 0", 12, 8), ("free 0", 24, 8), ("free 1", 1, 0), ("free 3", 2**63, 0),
    ):  # fmt: skip
        yield [number(name, out)], [number(name, back)]
    yield numbers(doorbell=0, noted=1), numbers(doorbell=1, noted=0)
    for name, out, back in (
        ("D", 257, 4), ("D", 5, 4), ("E", 33, 4), ("E", 3, 4), ("ports", 0, 2), ("C", 0, 512), ("C", 16385, 512), ("W", 0, 3), ("pool_at", 1, AREAS[0]), ("frames_at", AREAS[1], AREAS[2]),
    ):  # fmt: skip
        yield [setting(name, out)], [setting(name, back)]


def broken_words():
    """Of `busy`. A closed slot's words are 0, an idle slot has no place and no last id, a request has an id; each place is somewhere, once."""
    for j in range(SLOT_WORDS):
        yield [word(3, j, 4 if j == 0 else 1)], [word(3, j, 0)]
    for wrong in (slot(0, 4), slot(0, kind=3), slot(0, phase=IDLE, kind=ISOCHRONOUS), slot(0, phase=IDLE, kind=BULK, direction=1), slot(0, phase=IDLE, kind=BULK, length=1), idle(0, TOP)):
        yield [wrong], [idle(0)]
    yield [holds(0, 3), free()], [holds(0), free(3)]
    for wrong in (linked(1, 0, 0), linked(1, 1, 0, cancel=1), linked(1, 1, 0, boundary=1), slot(1, 1, phase=LINKED, kind=ISOCHRONOUS), unlinking(1, 1, 0, boundary=2)):
        yield [wrong], [linked(1, 1, 0)]
    yield [word(2, 0, packed(phase=UNLINKING, kind=INTERRUPT), 0)], [unlinking(2, cancel=1)]
    # 02, order 4: C is 512
    for packet in (0, 513, 1024, 1025):
        yield [idle(0, packet=packet)], [idle(0)]
        yield [unlinking(2, cancel=1, packet=packet)], [unlinking(2, cancel=1)]
    for packet in (0, 1025, 2047):
        yield [slot(1, 1, phase=LINKED, kind=CONTROL, direction=1, packet=packet)], [slot(1, 1, phase=LINKED, kind=CONTROL, direction=1)]
    yield [slot(3, packet=64)], [slot(3)]
    # 02, order 6: a closed slot has no toggle
    yield [slot(3, toggle=1)], [slot(3)]
    yield [slot(1, 1, phase=LINKED, kind=CONTROL, direction=1, toggle=1, cancel=1)], [slot(1, 1, phase=LINKED, kind=CONTROL, direction=1)]
    # in two slots; neither free nor held; free and held; at D
    for places in ((0, 1, 2), (0,), (0, 1, 3), (0, 1, 4), (0, 1, 64), (0, 1, 255)):
        yield [holds(1, *places)], [holds(1, 0, 1)]
    yield [word(2, 5, 2**63)], [word(2, 5, 0)]


def first_checks():
    """Every call answers 1 and changes nothing: of each broken state some of the calls are tried."""
    yield busy()
    for i, (out, back) in enumerate([*broken_numbers(), *broken_words()]):
        yield out + EVERY[i % 3 :: 3] + back
    yield EVERY


# ---- ranges


def bounds():
    """Each bound met, and broken: one call tells."""
    yield opening(D=16, E=8, W=100)
    for name, values in (("running", (1, 2, 0)), ("step", (6, 7, 0)), ("waited", (99, 100, 0)), ("address", (127, 128, 129, 0, 1)), ("enabled", (1, 2, 0))):
        for value in values:
            yield [number(name, value), TRIED, number("address", 1)]
    for name, value in product(("pending", "masked"), (1, 2, 4, 8, 16, 32, 64, 2**31, 0x37, 0x27, 0)):
        yield [number(name, value), TRIED]
    for unanswered, noted, doorbell in product((0, 1, 2, 32, 33), range(3), range(3)):
        yield numbers(unanswered=unanswered, noted=noted, doorbell=doorbell) + [TRIED]
    # the boundary of a bulk slot is at most the unanswered
    yield numbers(noted=0, doorbell=0)
    for unanswered in (0, 1, 31, 32):
        for boundary in (0, 1, unanswered, unanswered + 1):
            yield [number("unanswered", unanswered), slot(7, 5, phase=UNLINKING, kind=BULK, boundary=boundary), TRIED]
    yield [number("unanswered", 1)]
    for boundary in (0, 16383):
        yield [slot(7, 5, phase=UNLINKING, kind=INTERRUPT, boundary=boundary), TRIED]


def first_words():
    """Every phase and kind, with each bit of the first word flipped, with and without a last id; each bit of a last id."""
    yield opening(D=16, E=8) + [number("unanswered", 2)]
    for nibble, last in product(range(16), (0, 1, TOP)):
        yield [word(7, 1, last)] + trial(word(7, 0, nibble), TRIED) + trial(word(7, 0, nibble + packed(packet=64)), TRIED)
    for phase, boundary in ((LINKED, 0), (UNLINKING, 1), (UNLINKING, 2), (UNLINKING, 3)):
        yield [word(7, 1, 5)] + trial(word(7, 0, packed(phase=phase, kind=2, direction=1, length=2**32 - 1, boundary=boundary)), TRIED)
    for phase in range(4):
        yield [word(7, 0, packed(phase=phase, kind=2 if phase else 0))]
        for last in (0, 1, TOP):
            yield trial(word(7, 1, last), TRIED)


def place_bits():
    """Each bit of the free words and of a slot's places, for sets that end in, at the end of and at the beginning of a word."""
    for D in (1, 63, 64, 65, 200, 256):
        yield opening(D=D, E=2) + [open_endpoint(BULK), open_endpoint(CONTROL), number("running", 1), submit(1, CONTROL, length=18)]
        need = 3 if D > 3 else 0
        everything = [min(64, max(0, D - 64 * j)) for j in range(PLACE_WORDS)]
        for j, name in enumerate(FREE):
            yield trial(number(name, 2 ** everything[j] - 1 - (2**need - 1 if j == 0 else 0)), TRIED)
            yield trial(word(1, 2 + j, 2**need - 1 if j == 0 else 0), TRIED)
            yield trial(word(0, 2 + j, 0), TRIED)


def places_of_none():
    """A place that is not free and that a closed slot has, or an idle one: as a linked slot's it is right."""
    yield opening(D=256, E=3) + [open_endpoint(BULK)]
    for place in (0, 63, 64, 127, 128, 191, 192, 255):
        j = place // 64
        yield [number(FREE[j], TOP ^ 2 ** (place % 64))]
        for k in range(3):
            yield [slot(k, 0, [place], phase=IDLE if k == 0 else CLOSED, kind=BULK if k == 0 else 0), TRIED]
            yield [slot(k, 1, phase=LINKED, kind=BULK), TRIED, slot(k, 0, (), phase=IDLE if k == 0 else CLOSED, kind=BULK if k == 0 else 0)]
        yield [number(FREE[j], TOP), TRIED]


# ---- one bit wrong


def core_trials(values, call):
    """Each bit of each number of the core, from what the numbers are."""
    for name, value in values.items():
        change = setting if name in Settings._fields else number
        yield trial(change(name, value), call, BITS.get(name, 64))


BUSY_CORE = dict(zip(Settings._fields, (4, 4, 2, 512, 3, *AREAS))) | dict(zip(NUMBERS, (1, 0, 0, 1, 0, 5, 1, 0, 1, 1, 8, 0, 0, 0)))
BUSY_WORDS = [packed(phase=IDLE, kind=BULK), 0, 0, 0, 0, 0, packed(phase=LINKED, kind=CONTROL, direction=1), 1, 3, 0, 0, 0]
BUSY_WORDS += [packed(phase=UNLINKING, kind=INTERRUPT, direction=1, length=100, cancel=1), 1, 4, 0, 0, 0] + [0] * SLOT_WORDS
SOME = [submit(0, BULK), cancel(1), collect(2, frame=9, overlay=2**31), drain(0x80B31)]


def one_bit():
    """Of `busy`: every bit of the core and of the slots' row flipped, and a call on each of these."""
    yield busy()
    for call in SOME:
        yield from core_trials(BUSY_CORE, call)
        for at, value in enumerate(BUSY_WORDS):
            yield trial(word(0, at, value), call)
    # the words past what is lent are no one's
    yield trial(word(4, 0, 7), TRIED)
    # a noted advance; tokens that are inactive, so that a collect unlinks
    yield [number("noted", 1), token(0, 0x80), token(1, 0)]
    for at in (0, 6, 7, 8, 12):
        yield trial(word(0, at, BUSY_WORDS[at]), drain(0x80B31)) + trial(word(0, at, BUSY_WORDS[at]), collect(1))
    for place, at in product(range(4), range(3)):
        yield trial(pool_word(place, at, 0), collect(1), 32)
    yield [token(0, 0)]
    for at in range(6, 12):
        yield trial(word(0, at, BUSY_WORDS[at]), collect(1)) + trial(word(0, at, BUSY_WORDS[at]), cancel(1))
    yield trial(token(1, 0), collect(1), 32) + trial(token(2, 0), collect(2, frame=9), 32)


def one_bit_large():
    """A controller of 32 slots and 256 descriptors: the odd slots are idle, of the even ones one in three unlinks and the others are linked."""
    kinds = [(BULK, CONTROL, INTERRUPT)[k % 3] for k in range(32)]
    yield opening(D=256, E=32, C=16) + [number("running", 1)]
    yield [open_endpoint(kinds[k], k, k % 16, 16) for k in range(32)]
    yield [submit(k, kinds[k], length=16 * k) for k in range(0, 32, 2)]
    yield [cancel(k) for k in range(0, 32, 6)]
    held, end = [()] * 32, 0
    for k in range(0, 32, 2):
        held[k] = range(end, end + (3 if kinds[k] == CONTROL else max(1, k)))
        end = held[k].stop
    first = [packed(phase=LINKED if k % 2 == 0 else IDLE, kind=kinds[k], packet=16, direction=k % 2 == 0, length=16 * k if k % 2 == 0 else 0) for k in range(32)]
    for k in range(0, 32, 6):
        first[k] += packed(phase=1, packet=0, cancel=1, boundary=k // 6 + 1)
    for k in (0, 1, 2, 15, 16, 30, 31):
        for j, value in enumerate((first[k], int(k % 2 == 0), *place_words(held[k]))):
            yield trial(word(k, j, value), TRIED)
    for name, value in zip(FREE + ["unanswered", "doorbell"], place_words(range(end, 256)) + [6, 1]):
        yield trial(number(name, value), submit(1, CONTROL, length=18), BITS.get(name, 64)) + trial(number(name, value), drain(), BITS.get(name, 64))
    # the last slot's request, and one that holds places of three words
    yield [token(p, 0) for p in held[30]] + trial(word(30, 0, first[30]), collect(30)) + trial(word(30, 4, place_words(held[30])[2]), collect(30))
    yield trial(word(26, 0, first[26]), collect(26)) + trial(word(26, 0, first[26]), cancel(26))


# ---- submit


def reasons():
    """Reasons to refuse a submit, alone and in every set, also those that no calls bring about together."""
    yield three()
    for full, running, busy_slot in product((0, 1), (1, 0), (0, 1)):
        yield [slot(2, 1, range(4 * full), phase=LINKED, kind=INTERRUPT, length=2048), free(*range(4 * full, 4)), number("running", running)]
        yield [linked(0) if busy_slot else idle(0)]
        for k, kind, address in product((0, 3), (BULK, ISOCHRONOUS, INTERRUPT), (0x10000FFF, 0xFFFFFFFF)):
            if full or not running or busy_slot or k or kind != BULK or address == 0xFFFFFFFF:
                yield [submit(k, kind, address=address, length=700)]


def writebacks():
    """Of the places of a linked request, of an unlinking one, of free ones, and beyond."""
    places = [writeback(p) for p in (0, 1, 2, 3, 4, 5, 255, 256, 257, 2**32, 2**32 + 1, TOP)]
    yield three() + [linked(0, places=[0]), linked(2, places=[3]), free(1, 2)] + places + [unlinking(0)] + places
    yield [idle(0)] + places + [holds(0), free(0, 1, 2)] + places


def setups():
    """A setup number of more than six bytes: refused of a control request, not looked at of another."""
    for setup in (2**48 - 1, 2**48, 2**48 + 0x80, 2**63 + 0x80, TOP):
        for k, direction in product(range(3), (0, 1)):
            yield three() + [submit(k, KINDS[k], direction, setup, length=18)]


def ranges():
    """Buffers about the ends of their ranges; a setup's direction bit."""
    buffers = [(0, 0), (TOP, 0), (2**32 - 1, 1), (2**32 - 1, 2), (2**32 - 512, 512), (2**32 - 511, 512), (2**32, 1), (TOP, 1)]
    buffers += [(0, 2**32), (1, 2**32), (0, TOP), (0, 16384), (0, 16385), (0, 2048), (0, 2049)]
    for k, (address, length) in product(range(3), buffers):
        yield three() + [submit(k, KINDS[k], address=address, length=length)]
    for direction, setup in product((0, 1), (0, 0x7F, 0x80, 0xFF, 2**48 - 1, 2**48 - 129)):
        yield three() + [submit(1, CONTROL, direction, setup, length=18)]


def taken():
    """The lowest free places are taken, whoever has the others; what was free and is not asked for stays."""
    for have in ((0, 2), (1,), (3,), (0, 1), (1, 2), (0, 3)):
        left = [p for p in range(4) if p not in have]
        for length in (0, 512, 513, 1024, 1025, 1536):
            yield three() + [linked(2, places=have), free(*left), submit(0, BULK, length=length), submit(1, CONTROL, length=18)]
    # across words
    for have in ([p for p in range(200) if p % 3], list(range(62)), list(range(64, 200)), list(range(1, 199))):
        left = [p for p in range(200) if p not in have]
        yield opening(D=200, E=2) + [number("running", 1), open_endpoint(BULK), open_endpoint(CONTROL), slot(1, 9, have, phase=LINKED, kind=CONTROL, length=18)]
        yield [number(name, bits) for name, bits in zip(FREE, place_words(left))]
        yield [submit(0, BULK, length=512 * len(left) + 1), submit(0, BULK, length=512 * min(len(left), 40)), submit(1, CONTROL, length=18), collect(1, 9), collect(0)]


# ---- ids, rows, links


def passed(k, **more):
    """Slot k's request has come past its boundary, and no unlink is unanswered."""
    return [unlinking(k, **more)] + numbers(unanswered=0, doorbell=0)


def ids():
    """Ids about their end, and ids of which the lower halves are equal."""
    for k in range(3):
        yield three() + [idle(k, TOP - 2)]
        for id in (TOP - 1, TOP, 1):
            yield [submit(k, KINDS[k], length=8), cancel(k, 0), cancel(k, id % 2**32), collect(k, id % 2**32), cancel(k, id)]
            yield passed(k, last=id, length=8, cancel=1) + [collect(k, id ^ 2**32, 9), collect(k, id, 9)]
        yield [idle(k, 4 + 2**32), submit(k, KINDS[k], length=8), cancel(k, 5), collect(k, 5), cancel(k, 5 + 2**33), cancel(k, 5 + 2**32), collect(k, 5)]
    # an idle slot after its last id, which no calls come to
    yield three() + [submit(0, BULK, length=8), idle(0, TOP), holds(0), free(0, 1, 2, 3), submit(0, BULK, length=8)]


def row_words():
    """Every word of the rows set to a number of its own: what a call does not own stays."""
    altered = [head(k, j, 0x1000 * (k + 2) + j + 1) for k in range(-1, 4) for j in range(3, 17)]
    altered += [frame(1024, 9), setup_byte(32, 9), head(4, 0, 9), word(4, 0, 9), word(32, 0, 9)] + [setup_byte(at, at + 1) for at in range(32)]
    records = [pool_word(p, j, 0x100 * (p + 1) + j) for p in range(6) for j in range(13)] + [token(256, 9), token(257, 9)]
    for k in range(3):
        yield three() + altered + records + [submit(k, KINDS[k], length=18), cancel(k)] + altered
        yield passed(k, length=18, cancel=1) + [collect(k, 1, 9)]
        yield [record(SET_ADDRESS, (k, 0x55)), record(SET_PACKET, (k, 255)), record(CLOSE, (k,)), open_endpoint(KINDS[k], 1, 1, 8)]
        yield [head(3, 1, 2**32 - 1), open_endpoint(BULK, 2, 2, 8), head(3, 1, 2**32 - 1), record(SET_ADDRESS, (3, 0)), record(SET_PACKET, (3, 0)), record(CLOSE, (3,))]
    # of a head's characteristics a call replaces its own bits
    yield three()
    for value, call in product((0xF0402005, 0x0FBFDFFA), (record(SET_ADDRESS, (0, 0x2A)), record(SET_PACKET, (0, 0xAA)))):
        yield trial(head(0, 1, value), call, 32)
    # entry 0 is the link, whatever the others are
    yield three() + [frame(0, 0x31), frame(5, 0x51), submit(2, INTERRUPT), frame(5, 0x51), cancel(2)]


def links():
    """A link that leads nowhere, or that only a head leads to which is not linked or is of the other schedule: no unlink."""
    for k in range(3):
        first = frame(0, 1) if k == 2 else head(-1, 0, 1)
        address = AREAS[1] + 128 * (k + 1) + 2
        other = 1 if k == 2 else 2
        for broken in ([first], [first, head(k, 0, address)], [first, head(3, 0, address)], [first, head(other, 0, address)]):
            # the tokens of all places: active, inactive, with an error
            yield three() + [submit(other, KINDS[other], length=0), submit(k, KINDS[k], length=0)] + broken
            for seen in (0x80, 0, 0x48):
                yield [token(p, seen) for p in range(4)] + [collect(k)]
            yield [cancel(k)]
    # two heads that lead to slot 0's: the lower slot's gets its link
    yield three() + [open_endpoint(BULK, 5, 3), submit(0, BULK), submit(1, CONTROL, length=0), submit(3, BULK)]
    yield [head(-1, 0, 1), head(1, 0, AREAS[1] + 128 + 2), head(3, 0, AREAS[1] + 128 + 2), cancel(0)]
    # each bit of the link that leads to a head, and of the head's own
    for k in range(3):
        yield three() + [submit(k, KINDS[k])]
        yield trial(frame(0, AREAS[1] + 128 * (k + 1) + 2) if k == 2 else head(-1, 0, AREAS[1] + 128 * (k + 1) + 2), cancel(k), 32)
        yield trial(head(k, 0, 1 if k == 2 else AREAS[1] + 2), cancel(k), 32)
    for kind in (BULK, INTERRUPT):
        yield three() + [record(CLOSE, (0,)), open_endpoint(kind), open_endpoint(kind, 5, 3), submit(0, kind), submit(3, kind)]
        yield [head(3, 0, 1), cancel(0), collect(0), head(3, 0, AREAS[1] + 128 + 2)]
        # slot 3 leads to slot 0's head: as an idle slot, as a waiting one, as a linked one
        yield [slot(3, 0, (), phase=IDLE, kind=kind), free(1, 2, 3), cancel(0), slot(3, 1, phase=UNLINKING, kind=kind), cancel(0)]
        yield [slot(3, 1, phase=LINKED, kind=kind), cancel(0), cancel(3)]


# ---- collecting


def unanswered():
    """32 unlinks unanswered: a linked slot cannot be; one that waits can."""
    for k in range(3):
        yield three() + [submit(k, KINDS[k]), number("unanswered", 32), cancel(k), cancel(k, 2), collect(k), collect(k, 2), cancel(3), collect(3)]
        yield [number("unanswered", 31), cancel(k), cancel(k), collect(k, frame=8), collect(k, frame=9), number("unanswered", 32), acknowledge(0x20, 0), drain()]


def cancels():
    """A request that waits is marked, once and again; what it waits for stays."""
    for k, boundary in product(range(3), (0, 1, 2)):
        yield three() + numbers(unanswered=2, doorbell=1) + [unlinking(k, places=[0], boundary=boundary), free(1, 2, 3)]
        yield [cancel(k, frame=77), cancel(k, frame=78, command=0x40), collect(k, frame=boundary + 9)]


# tokens of four places: all inactive; an error, before and after an active one; bytes left, more than were asked for; only the last one tells
TOKENS = [(0, 0, 0, 0), (0x80, 0, 0, 0), (0, 0, 0x80, 0), (0x48, 0x80, 0, 0), (0x80, 0x48, 0, 0), (0, 0x80000040, 0x10, 0), (0, 0x8, 0xC8, 0x80)]
TOKENS += [(0x10000, 0x50000, 0x20000, 0x70000), (0, 0x7FFF0000, 0, 0), (0x40000000, 0x20000000, 0x40000000, 0), (0x80000000, 0xFFFF0000, 0x640000, 0)]
TOKENS += [(0x77, 0, 0, 0), (0xFFFFFF07, 0xFFFFFF07, 0xFFFFFF07, 0xFFFFFF07), (0, 0, 0, 0x80), (0, 0, 0, 0x20), (0, 0, 0, 0x1000000)]


def views():
    """What a collect sees in the tokens, of a linked and of a waiting request, which is cancelled or not. A request may hold fewer or more
    places than it needs."""
    some = [*product(((), (1,), (0, 2), (0, 1, 3), (0, 1, 2, 3)), (0, 100, 1300, 2000))]
    for k in range(3):
        yield three()
        for i, (places, length) in enumerate(some):
            left = free(*(p for p in range(4) if p not in places))
            yield [unlinking(k, length=length, places=places, cancel=1), left, collect(k, frame=9)]
            for tokens in TOKENS[i % 4 :: 4]:
                yield [token(p, value) for p, value in zip(places, tokens)] + [unlinking(k, length=length, places=places), left, collect(k, frame=9)]
        for tokens in TOKENS:
            yield [idle(k), submit(k, KINDS[k], length=1300)] + [token(p, value) for p, value in enumerate(tokens)]
            yield [collect(k)] + passed(k, length=1300) + [collect(k, frame=9)]


# 02, order 1. Tokens of four places, of which 0x80 is active, 0x40 errs and 0x10000 has a byte left: one short, in each place; an error after it
# and before it; an active one before it, and more; more left than is asked for; nothing left
SHORT = [(0x10000, 0x80, 0x80, 0x80), (0, 0x10000, 0x80, 0x80), (0, 0, 0x10000, 0x80), (0, 0, 0, 0x10000), (0x10000, 0x20000, 0x40000, 0x80000), (0x10000, 0, 0, 0)]
SHORT += [(0x10000, 0x40, 0x80, 0), (0x10000, 0x80, 0, 0x8), (0, 0x20000, 0, 0x10), (0x40, 0x10000, 0x80, 0x80), (0x10020, 0x10000, 0x80, 0x80), (0, 0x10008, 0x20000, 0x40)]
SHORT += [(0x80, 0x10000, 0, 0), (0x50080, 0x10000, 0x40, 0x80), (0x80, 0x50080, 0x10000, 0x48), (0x80, 0x48, 0x10000, 0), (0xC0, 0x10000, 0, 0), (0x100C0, 0x10000, 0x48, 0)]
SHORT += [(0x2000000, 0x80, 0x80, 0x80), (0x2010000, 0, 0, 0), (0, 0x7FFF0000, 0x80, 0x40), (0, 0, 0, 0x7FFF0000), (0x8000FF07, 0x80, 0x80, 0x80), (0xFFFFFF07, 0x80, 0x80, 0x80)]


def kept(k, phase, direction, length, places=None, **more):
    return slot(k, 1, places, phase=phase, kind=KINDS[k], direction=direction, length=length, **more)


def shorts():
    """A request of each kind and direction: what a collect sees of it while it is linked, and once its boundary has passed."""
    for k, direction in product(range(3), (1, 0)):
        length = 18 if KINDS[k] == CONTROL else 2000
        yield three()
        for tokens in SHORT:
            yield [idle(k), submit(k, KINDS[k], direction, direction << 7, length=length)] + [token(p, value) for p, value in enumerate(tokens)]
            yield [collect(k), kept(k, UNLINKING, direction, length)] + numbers(unanswered=0, doorbell=0) + [collect(k, frame=9)]


def short_bits():
    """Each bit of each token, about one that is short: of a linked request, and of one that is collected. Then each bit of a slot's first word."""
    for k, direction in ((0, 1), (2, 1), (0, 0), (1, 1)):
        length = 18 if KINDS[k] == CONTROL else 2000
        yield three() + [submit(k, KINDS[k], direction, direction << 7, length=length)]
        yield [token(p, 0x80) for p in range(4)]
        for place in range(4):
            yield trial(token(place, 0), collect(k), 32) + [token(place, 0)]
        yield [kept(k, UNLINKING, direction, length)] + numbers(unanswered=0, doorbell=0)
        tokens = (0x50080, 0x30000, 0x40, 0x10000)
        yield [token(p, value) for p, value in enumerate(tokens)]
        for place, value in enumerate(tokens):
            yield trial(token(place, value), collect(k, frame=9), 32)
        yield trial(word(k, 0, packed(phase=UNLINKING, kind=KINDS[k], direction=direction, length=length)), collect(k, frame=9))


def short_places():
    """Requests that hold fewer or more places than they need: more than one descriptor is more than one place."""
    some = [*product(((), (1,), (0, 2), (0, 1, 3), (0, 1, 2, 3)), (0, 100, 512, 513, 2000))]
    for k, direction in product((0, 2), (1, 0)):
        yield three()
        for (places, length), first in product(some, (0x10000, 0x10080)):
            tokens = (first, 0x20000, 0x40, 0x80)
            yield [kept(k, UNLINKING, direction, length, places), free(*(p for p in range(4) if p not in places))]
            yield [token(p, value) for p, value in zip(places, tokens)] + [collect(k, frame=9)]
        # linked, with two places where one is needed
        yield [idle(k), submit(k, KINDS[k], direction, length=1000), token(0, 0x10000), token(1, 0x80), kept(k, LINKED, direction, 100), collect(k)]


def short_of_many():
    """A request of 256 descriptors, one of them short; those after it err, those before it are done."""
    yield opening(D=256, E=1, C=16) + [number("running", 1), open_endpoint(BULK, packet=16), submit(0, BULK, length=4096)]
    yield [token(p, 0x40) for p in range(256)]
    before = 0
    for short in (0, 1, 62, 63, 64, 127, 128, 191, 192, 254, 255):
        yield [token(p, 0) for p in range(before, short)] + [token(short, 0x50000)]
        yield [kept(0, UNLINKING, 1, 4096, range(256), packet=16)] + [number(name, 0) for name in FREE] + [collect(0)]
        before = short


def alternates():
    """Requests of each kind and direction about the lengths at which they have one descriptor more, at places that are not neighbours."""
    for k, direction, have in product((0, 2), (1, 0), ((), (1,))):
        yield three() + ([linked(1, places=have)] if have else [])
        for length in (0, 1, 511, 512, 513, 1024, 1025, 1536):
            yield [idle(k), holds(k), free(*(p for p in range(4) if p not in have)), submit(k, KINDS[k], direction, 0, length=length)]
    for D, C in ((1, 64), (64, 1), (256, 1)):
        for pool_at in (AREAS[0], 2**32 - 64 * (D + 1)):
            yield opening(D=D, C=C, areas=(pool_at, *AREAS[1:])) + [number("running", 1), open_endpoint(INTERRUPT, packet=C), submit(0, INTERRUPT, length=C * D)]


# 02, order 4. Packet sizes; where C is 512, of 3, 200, 300 and 512 bytes the limits are 510, 400, 300 and 512


def packet_words():
    """Every phase and kind with a size of 0, about C and about the largest."""
    for C in (1, 8, 512, 1000, 1024, 16384):
        yield opening(D=16, E=8, C=C) + [number("unanswered", 1)]
        for phase, kind in product(range(4), (CONTROL, BULK, INTERRUPT)):
            for packet in sorted({0, 1, C - 1, C, C + 1, 1023, 1024, 1025, 2047} - {16383, 16384, 16385}):
                yield [slot(7, 5 if phase in (LINKED, UNLINKING) else 0, phase=phase, kind=kind, packet=packet), TRIED]
    # C below a size that slots have: of bulk and interrupt slots, then of a control slot alone
    for closed in ((), (0,), (2,), (0, 2)):
        yield three() + [record(CLOSE, (k,)) for k in closed]
        for C in (65, 64, 63, 1):
            yield [setting("C", C), TRIED, record(SET_PACKET, (1, 64)), submit(1, CONTROL, length=18), cancel(1), setting("C", 512)]


def packet_heads():
    """A limit is by the slot's size, whatever its head says, when a request is submitted and when it is collected."""
    for k, packet in product(range(3), (3, 200, 300, 512)):
        for said in (0, 1, 24, packet, 500, 2047):
            yield three() + [idle(k, packet=packet), head(k, 1, said << 16), submit(k, KINDS[k], length=1000)] + [token(p, 0) for p in range(4)]
            yield [collect(k), head(k, 1, said << 16), kept(k, UNLINKING, 1, 1000, packet=packet)] + numbers(unanswered=0, doorbell=0) + [collect(k, frame=9)]
    for k in (0, 2):
        yield three() + [idle(k, packet=300)]
        yield trial(head(k, 1, 0xF12C2005), submit(k, KINDS[k], length=1000), 32)
        yield trial(word(k, 0, packed(phase=IDLE, kind=KINDS[k], packet=300)), submit(k, KINDS[k], length=1000))


def packet_collects():
    """What is collected by the size in a slot's words, also of requests that hold fewer or more places than they need."""
    for k, direction in product(range(3), (1, 0)):
        yield three()
        for packet, length, places in product((3, 200, 300, 512), (0, 400, 900, 2000), ((2,), (0, 1, 3), (0, 1, 2, 3))):
            # 600 bytes left are more than any chunk has
            tokens = (0, 350 << 16, 600 << 16, 10 << 16) if packet % 200 else (5 << 16, 0, 600 << 16, 0)
            yield [token(p, value) for p, value in zip(places, tokens)] + [kept(k, UNLINKING, direction, length, places, packet=packet)]
            yield [free(*(p for p in range(4) if p not in places)), collect(k, frame=9)]
        # each bit of the first word: what the size is, and what is then moved
        yield [kept(k, UNLINKING, direction, 1500, range(4), packet=300), free()] + [token(p, 250 << 16) for p in range(4)]
        yield trial(word(k, 0, packed(phase=UNLINKING, kind=KINDS[k], packet=300, direction=direction, length=1500)), collect(k, frame=9))


def packet_rooms():
    """Requests about one chunk more, and about all the places that are free."""
    for packet, limit in ((512, 512), (300, 300), (200, 400), (7, 511), (3, 510)):
        for k, length, have in product((0, 2), (limit, limit + 1, 2 * limit, 4 * limit, 4 * limit + 1), ((), (1,))):
            left = free(*(p for p in range(4) if p not in have))
            yield three() + [linked(1, places=have) if have else idle(1), left, idle(k, packet=packet), submit(k, KINDS[k], length % 2, 0, length=length)]


def packet_sets():
    """Openings and set packet size about C: what they keep in a slot's words, and what they leave there."""
    sizes = (0, 1, 7, 8, 9, 100, 101, 254, 255)
    for C in (1, 7, 8, 100, 254, 16384):
        yield opening(C=C) + [number("running", 1)] + [open_endpoint(kind, 5, k, 1) for k, kind in enumerate(KINDS)]
        for k, size in product(range(4), sizes):
            yield [slot(k, 9, phase=IDLE, kind=KINDS[k], packet=1)] if k < 3 else []
            yield [record(SET_PACKET, (k, size))]
        # a request of each slot: busy comes before a size above C
        for k, phase in product(range(3), (LINKED, UNLINKING)):
            yield [slot(k, 9, phase=phase, kind=KINDS[k], packet=1), record(SET_PACKET, (k, 8)), record(SET_PACKET, (k, 255)), record(CLOSE, (k,))]
            yield [slot(k, 9, phase=IDLE, kind=KINDS[k], packet=1)]
        # the last slot, and none; a control endpoint of any size
        for kind, packet in product((CONTROL, ISOCHRONOUS, BULK, INTERRUPT), sorted({0, 1, C, C + 1, 1024, 1025})):
            yield [open_endpoint(kind, 5, 3, packet), open_endpoint(kind, 5, 3, packet), record(CLOSE, (3,))]
        yield [open_endpoint(CONTROL, 5, 3, 8)] + [open_endpoint(kind, 5, 3, C + more) for more in (0, 1) for kind in (CONTROL, ISOCHRONOUS, BULK, INTERRUPT)]
    # each bit of the first word before the call
    yield three()
    for k, call in product(range(3), (record(SET_PACKET, (k, 255)) for k in range(3))):
        yield trial(word(k, 0, packed(phase=IDLE, kind=KINDS[k], packet=300)), call)
    for k in range(3):
        yield trial(word(k, 0, packed(phase=IDLE, kind=KINDS[k], packet=300)), record(CLOSE, (k,)))
    # of a size that is set, and of one that is refused, the next request's chunks
    for k in (0, 2):
        yield opening(C=100) + [number("running", 1), open_endpoint(KINDS[k], packet=64)]
        for size in (33, 101, 8, 100):
            yield [record(SET_PACKET, (0, size)), submit(0, KINDS[k], length=250), slot(0, 1, (), phase=IDLE, kind=KINDS[k], packet=64), free(0, 1, 2, 3)]


# 02, order 6. A collect that passes is given tokens of which bit 31 alone counts; what a slot then has is seen in its words and in the next submit
BIT = 2**31
OVERLAYS = (0, BIT, BIT - 1, 2**32 - 1)


def toggle_words():
    """Every phase and kind with a toggle; each bit of words that have every field."""
    yield opening(D=16, E=8) + [number("unanswered", 2)]
    for phase, kind, toggle, last in product(range(4), range(4), (0, 1), (0, 1)):
        yield [slot(7, last, phase=phase, kind=kind, toggle=toggle), TRIED]
    yield [word(7, 1, 5)]
    for phase, kind, cancel, boundary in ((IDLE, BULK, 0, 0), (LINKED, BULK, 0, 0), (UNLINKING, BULK, 1, 2), (UNLINKING, CONTROL, 0, 1), (UNLINKING, INTERRUPT, 1, 16383)):
        busy = phase != IDLE
        full = packed(phase=phase, kind=kind, toggle=1, direction=busy, length=(2**32 - 1) * busy, cancel=cancel, boundary=boundary)
        yield trial(word(7, 0, full), TRIED) + trial(word(7, 0, full), clear_halt(7))


def toggle_collects():
    """Collects that pass, complete, cancelled and failed, of each kind and direction, from each toggle; then a submit."""
    for k, direction in product(range(3), (1, 0)):
        yield three()
        for toggle, overlay, (cancelled, left) in product((0, 1), OVERLAYS, ((0, 0), (1, 0), (0, 0x640040), (1, 0x640080))):
            yield [kept(k, UNLINKING, direction, 100, [0], toggle=toggle, cancel=cancelled), token(0, left), free(1, 2, 3)]
            yield [collect(k, frame=9, overlay=overlay), submit(k, KINDS[k], direction, direction << 7, length=64), slot(k, 0, (), phase=IDLE, kind=KINDS[k]), free(0, 1, 2, 3)]
    # each bit of the token; of a request whose descriptors and head say otherwise
    for k, toggle, flip in product((0, 2), (0, 1), (0, 2**32 - 1)):
        yield three() + [token(p, ~flip & BIT) for p in range(4)] + [head(k, 6, ~flip & 2**32 - 1)]
        for bit in range(32):
            yield [unlinking(k, places=[0], toggle=toggle), free(1, 2, 3), collect(k, frame=9, overlay=flip ^ 1 << bit)]
    # requests that moved nothing, one packet, two and three of 64 bytes
    for k, length, overlay in product((0, 2), (0, 64, 65, 129), (0, BIT)):
        yield three() + [unlinking(k, length=length, places=[0], toggle=1), free(1, 2, 3), token(0, 0), collect(k, frame=9, overlay=overlay), submit(k, KINDS[k])]
    # each bit of the first word of one that is collected
    for k, overlay in product(range(3), (0, BIT)):
        yield three() + [unlinking(k, places=[0], toggle=1), free(1, 2, 3), token(0, 0)]
        yield trial(word(k, 0, packed(phase=UNLINKING, kind=KINDS[k], direction=1, length=100, toggle=1)), collect(k, frame=9, overlay=overlay))


def toggle_waits():
    """Collects that do not pass: with a token that says otherwise than the slot nothing of it is kept."""
    for k, toggle in product(range(3), (0, 1)):
        said, first = (1 - toggle) * BIT, frame(0, 1) if k == 2 else head(-1, 0, 1)
        ends = [collect(j, id, frame=9, overlay=said) for j in (k, 3, 4, 32, 255) for id in (1, 2)]
        yield three() + [idle(k, toggle=toggle)] + ends
        # linked: active, then finished; once more with no link that leads to its head
        asked = [idle(k, toggle=toggle), submit(k, KINDS[k], length=64 if k != 1 else 0)]
        for finished, broken in (([], []), ([token(p, 0) for p in range(4)], []), ([token(p, 0x48) for p in range(4)], [first])):
            yield three() + asked + finished + broken + [collect(k, 2, 9, said), collect(k, 1, 9, said)]
        # waiting, cancelled or not: a boundary that is not passed; other ids; 32 unanswered, and a row of another length
        for cancelled in (0, 1):
            yield three() + numbers(unanswered=2, doorbell=1) + [unlinking(k, places=[0], toggle=toggle, cancel=cancelled, boundary=1), free(1, 2, 3)]
            yield [collect(k, 1, 9, said), collect(k, 2, 10, said), collect(k, 0, 10, said), collect(3, 1, 10, said)]
        yield three() + [linked(k, places=[0], toggle=toggle), free(1, 2, 3), number("unanswered", 32), collect(k, 1, 9, said), number("unanswered", 0)]
        yield [unlinking(k, places=[0], toggle=toggle), lend(*rows(4, 3)), collect(k, 1, 9, said), lend(*rows(4, 4)), collect(k, 1, 9, said)]


def toggle_submits():
    """What a submit writes into the overlay's token, whatever stands there; what refused ones leave."""
    for k, toggle, stands, direction in product(range(3), (0, 1), (0, BIT, 0x7FFF8D40, 2**32 - 1), (1, 0)):
        others = [idle(j, toggle=1 - toggle) for j in range(3) if j != k]
        yield three() + others + [idle(k, toggle=toggle), head(k, 6, stands), submit(k, KINDS[k], direction, direction << 7, length=1000)]
    for k in range(3):
        asked = submit(k, KINDS[k], length=64)
        yield three() + [idle(k, toggle=1), number("running", 0), asked, number("running", 1), submit(k, ISOCHRONOUS), submit(k, KINDS[(k + 1) % 3])]
        yield [submit(k, KINDS[k], address=0xFFFFFFFF, length=2), submit(k, KINDS[k], length=16384 if k != 1 else 16385), linked((k + 1) % 3, places=[0, 1, 2, 3]), free(), asked]
        yield three() + [idle(k, toggle=1)] + trial(head(k, 6, 0x55555555), asked, 32)
        yield trial(word(k, 0, packed(phase=IDLE, kind=KINDS[k], toggle=1)), asked) + [asked, asked]


def toggle_clears():
    """Clear-halt in each phase, on each kind, running or not; beside other slots with toggles, and with everything else altered."""
    for k, toggle, running in product(range(3), (0, 1), (1, 0)):
        yield three() + [idle(j, 3, toggle=1) for j in range(3)] + [number("running", running)]
        for changed in (idle(k, 3, toggle=toggle), linked(k, 3, toggle=toggle), unlinking(k, 3, toggle=toggle), unlinking(k, 3, toggle=toggle, cancel=1)):
            yield [changed, clear_halt(k), clear_halt(k)]
        yield [clear_halt(j) for j in (3, 4, 31, 32, 33, 255)] + [slot(k), clear_halt(k)]
    altered = [head(k, j, 0x1000 * (k + 2) + j + 1) for k in range(-1, 4) for j in range(17)] + [pool_word(p, j, 0x100 * (p + 1) + j) for p in range(6) for j in range(13)]
    altered += [frame(at, at + 7) for at in (0, 1, 1023, 1024)] + [setup_byte(at, at + 1) for at in (0, 7, 8, 31, 32)]
    yield three() + altered
    for k in range(4):
        yield [idle(j, 2**40 + j, toggle=1) for j in range(3)] + [clear_halt(k)] + trial(word(k, 0, packed(phase=IDLE, kind=KINDS[k % 3], toggle=1)), clear_halt(k))
    # each bit of the core and of the words
    yield busy() + [idle(0, toggle=1)]
    yield from core_trials(BUSY_CORE, clear_halt(0))
    for at, value in enumerate(BUSY_WORDS):
        yield trial(word(0, at, value), clear_halt(0))
    # 32 slots
    yield opening(E=32) + [open_endpoint((BULK, CONTROL, INTERRUPT)[k % 3]) for k in range(32)]
    for k in (0, 1, 2, 15, 16, 30, 31, 32):
        yield [slot(j, j, phase=IDLE, kind=(BULK, CONTROL, INTERRUPT)[j % 3], toggle=1) for j in range(32)] + [clear_halt(k)]


def toggle_stays():
    """Every call beside slots that have toggles: but for a collect that passes, clear-halt and close each leaves them as they are."""
    marked = [idle(0, toggle=1), linked(1, 1, 0, toggle=1), unlinking(2, cancel=1, toggle=1)]
    for call in EVERY:
        yield busy() + marked + [call]
    for phase, toggle in product((IDLE, LINKED, UNLINKING), (1, 0)):
        yield three() + [slot(k, 7 if phase != IDLE else 0, phase=phase, kind=KINDS[k], toggle=toggle) for k in range(3)]
        yield [call for k in range(3) for call in (record(SET_ADDRESS, (k, 9)), record(SET_ADDRESS, (k, 128)), record(SET_PACKET, (k, 8)), record(SET_PACKET, (k, 255)), cancel(k, 7), cancel(k, 6))]
    # bring-up, with and without requests
    for requests in ([], [linked(0, toggle=1)]):
        yield three() + [idle(k, toggle=1) for k in range(3)] + requests + [record(START)] + [record(STEP, (), (v,)) for v in (0x80B71, 0x1000, 0, 0, 0, 0)]
    # closed, and opened again in the same slot and in another
    for k in range(3):
        yield three() + [idle(j, 5, toggle=1) for j in range(3)] + [record(CLOSE, (k,)), open_endpoint(KINDS[k]), submit(k, KINDS[k], length=18), open_endpoint(BULK), submit(3, BULK)]
        other = (k + 1) % 3
        yield three() + [idle(k, 5, toggle=1), idle(other, 5, toggle=1), record(CLOSE, (k,)), open_endpoint(BULK, packet=513), submit(other, KINDS[other], length=18)] + opening()
    # linked, unlinked by a cancel and marked again; a writeback between them
    for k, toggle in product(range(3), (0, 1)):
        yield three() + [idle(k, toggle=toggle), submit(k, KINDS[k], length=18), writeback(0, (1 - toggle) * BIT), cancel(k), writeback(0, 0x80), cancel(k), clear_halt(k)]
    # advances that are counted
    yield opening(D=8, E=32)
    for k in range(32):
        yield [slot(k, 3, phase=UNLINKING, kind=(0, 2, 3)[k % 3], toggle=k >> 2 & 1, cancel=k >> 1 & 1, boundary=k)]
    yield numbers(unanswered=32, doorbell=1, noted=1, pending=0x20)
    for _ in range(6):
        yield [drain(0x80B31), acknowledge(0x20, 0)]


# 02, order 7. Tokens of four places: bit 3, 8, is a packet that was retried; 0x10 and 0x20 are no error either; 0x40 is Halted. Each place alone; all
# but one; before an active one; with 0x40, before it and after it; one short, that was retried or not, with retried ones before and after it;
# active ones that were retried, about a short one
RETRIED = [tuple(8 if p == place else 0 for p in range(4)) for place in range(4)] + [tuple(0 if p == place else 8 for p in range(4)) for place in range(4)]
RETRIED += [(8, 8, 8, 8), (0x10, 0x20, 0x30, 0), (0x38, 0x18, 0x28, 8), (8, 0x80, 8, 8), (0x10, 0x80, 0, 0), (0x20, 0x80, 0, 0), (0x38, 0, 0, 0x80)]
RETRIED += [(0x48, 8, 0, 0), (8, 0x40, 8, 8), (8, 8, 8, 0x78), (0x18, 0x28, 0x50, 0x60), (0x88, 0x48, 0x40, 0), (0, 0xC8, 0, 8), (0x30, 0x40000148, 0, 0)]
RETRIED += [(0x10008, 0x80, 0x80, 0x80), (0x10000, 8, 8, 8), (8, 0x10000, 8, 8), (8, 0x10008, 0x48, 8), (0, 8, 0x10010, 0x88), (8, 8, 8, 0x20008), (0x10030, 8, 0x40, 8)]
RETRIED += [(0x50088, 0x10008, 8, 8), (0x88, 0x88, 0x88, 0x88), (0x80, 0x10020, 8, 0x40), (0x7FFF0008, 8, 0, 0), (0x10048, 0x10008, 8, 8), (0xFFFFFFBF, 8, 8, 8), (0xFFFFFF3F, 0xFFFFFF37, 0, 0)]


def retried_views():
    """A request of each kind and direction: what a collect sees of it while it is linked, once its boundary has passed, and cancelled."""
    for k, direction in product(range(3), (1, 0)):
        length = 18 if KINDS[k] == CONTROL else 2000
        yield three()
        for tokens in RETRIED:
            yield [idle(k), submit(k, KINDS[k], direction, direction << 7, length=length)] + [token(p, value) for p, value in enumerate(tokens)]
            yield [collect(k), kept(k, UNLINKING, direction, length)] + numbers(unanswered=0, doorbell=0) + [collect(k, frame=9)]
        for tokens in RETRIED[8::4]:
            yield [kept(k, UNLINKING, direction, length, range(4), cancel=1), free()] + [token(p, value) for p, value in enumerate(tokens)] + [collect(k, frame=9)]


def retried_bits():
    """Each bit of each token: of a linked request whose others are active, and of one that is collected whose others were retried."""
    for k, direction in ((0, 1), (2, 1), (0, 0), (1, 1)):
        length = 18 if KINDS[k] == CONTROL else 2000
        yield three() + [submit(k, KINDS[k], direction, direction << 7, length=length)]
        yield [token(p, 0x80) for p in range(4)]
        for place in range(4):
            yield trial(token(place, 8), collect(k), 32) + [token(place, 8)]
        yield [kept(k, UNLINKING, direction, length)] + numbers(unanswered=0, doorbell=0)
        for tokens in ((8, 8, 8, 8), (0x50088, 0x38, 0x30008, 8)):
            yield [token(p, value) for p, value in enumerate(tokens)]
            for place, value in enumerate(tokens):
                yield trial(token(place, value), collect(k, frame=9), 32)
        yield trial(word(k, 0, packed(phase=UNLINKING, kind=KINDS[k], direction=direction, length=length)), collect(k, frame=9))


def retried_places():
    """Requests that hold fewer or more places than they need, all of them retried, and so are the others' places, the free ones and place D."""
    for k, direction, length in product(range(3), (1, 0), (0, 100, 2000)):
        yield three() + [token(p, 8) for p in range(5)]
        for places in ((), (1,), (0, 2), (0, 1, 3), (0, 1, 2, 3)):
            left = [p for p in range(4) if p not in places]
            yield [kept(k, UNLINKING, direction, length, places), free(*left), collect(k, frame=9)]
            # another slot has what is left
            other = (k + 1) % 3
            yield [kept(k, UNLINKING, direction, length, places), kept(other, UNLINKING, 1, 100, left), free(), collect(k, frame=9), idle(other), holds(other)]


def retried_of_many():
    """A request of 256 descriptors, of which the first so many were retried; and one of them short, of an In request."""
    yield opening(D=256, E=1, C=16) + [number("running", 1), open_endpoint(BULK, packet=16), submit(0, BULK, length=4096)]
    yield [token(p, 0) for p in range(256)]
    before = 0
    for count, direction in product((0, 1, 62, 63, 64, 65, 127, 128, 129, 191, 192, 193, 254, 255, 256), (0, 1)):
        yield [token(p, 8) for p in range(before, count)]
        yield [kept(0, UNLINKING, direction, 4096, range(256), packet=16)] + [number(name, 0) for name in FREE] + [collect(0)]
        before = count
    for short, direction in product((0, 1, 63, 64, 65, 128, 192, 254, 255), (1, 0)):
        yield [token(short, 0x50008), kept(0, UNLINKING, direction, 4096, range(256), packet=16)] + [number(name, 0) for name in FREE] + [collect(0), token(short, 8)]


def retried_waits():
    """Collects that are not complete carry no count: without a request, by another id, unfinished, waiting, crowded, of a row of another length."""
    for k in range(3):
        yield three() + [token(p, 8) for p in range(5)] + [collect(j, id, frame=9) for j in (k, 3, 4, 255) for id in (0, 1)]
        yield [linked(k, places=[0]), free(1, 2, 3), collect(k, 2, 9), number("unanswered", 32), collect(k, 1, 9), number("unanswered", 0), token(0, 0x88), collect(k, 1, 9)]
        for cancelled in (0, 1):
            yield numbers(unanswered=2, doorbell=1) + [unlinking(k, places=[0], cancel=cancelled, boundary=1), token(0, 8), collect(k, 1, 9), collect(k, 2, 10)]
        yield numbers(unanswered=0, doorbell=0) + [unlinking(k, places=[0]), lend(*rows(4, 3)), collect(k, 1, 9), lend(*rows(4, 4)), collect(k, 1, 9)]


def boundaries():
    """FRINDEX at distances from its start; the doorbell before an unlink, with each reading of USBCMD."""
    yield three() + [submit(2, INTERRUPT), cancel(2)]
    for start, distance in product((0, 7, 16375, 16380, 16383), (0, 1, 8, 9, 10, 8192, 16383, 16384 + 8, 16384 + 9)):
        yield [unlinking(2, places=[0], boundary=start), free(1, 2, 3), collect(2, 1, start + distance + 0xFFF00000)]
    yield three() + [submit(0, BULK)]
    bells = [(0, 0, 0)] + [(u, d, n) for u in (1, 2, 31) for d, n in ((0, 0), (1, 0), (1, 1))]
    for (unanswered, doorbell, noted), command in product(bells, (0, 0x80B31, 0x40, 0xFFFFFFFF)):
        yield [linked(0), head(-1, 0, AREAS[1] + 128 + 2)] + numbers(unanswered=unanswered, doorbell=doorbell, noted=noted) + [cancel(0, command=command)]


# ---- interrupts, bring-up, ports


def interrupts():
    yield three() + [submit(0, BULK), submit(1, CONTROL, length=0), submit(2, INTERRUPT), cancel(2, frame=16383)]
    for up, others in ((1, 0), (0, 0xFFFFFFC0)):
        yield numbers(unanswered=up, doorbell=up)
        flags = [(s, *pair) for s in range(64) for pair in ((s & 1, s >> 1 & 1), (s >> 2 & 1, s >> 3 & 1))]
        for status, first, second in flags[:: 2 - up]:
            yield numbers(pending=0x12 * (1 - up), masked=2 * (1 - up), noted=0) + [record(ACKNOWLEDGE, (first, second), (status | others, 0x13F))]
    for noted, doorbell, unanswered in ((0, 0, 0), (0, 1, 2), (1, 1, 1), (1, 1, 2)):
        for pending in [low + high for high in (0, 0x10, 0x20, 0x30) for low in range(8)]:
            yield numbers(pending=pending, unanswered=unanswered, doorbell=doorbell, noted=noted)
            yield [unlinking(0, boundary=unanswered), unlinking(1, boundary=min(1, unanswered))] + [drain(0x80B31)] * 3
    for call, enabled, masked in product((REARM, ENABLE, DISABLE), (0, 1), (0, 1, 0x27)):
        yield numbers(enabled=enabled, masked=masked) + [record(call)]


def falls():
    """An advance counted: what waits for one has one less to wait for, in every slot."""
    yield opening(D=8, E=32)
    for k in range(32):
        yield [slot(k, 3, phase=UNLINKING, kind=(0, 2, 3)[k % 3], direction=k & 1, length=k, cancel=k >> 1 & 1, boundary=k)]
    yield [slot(7, phase=IDLE, kind=3), slot(8, 2, phase=LINKED, kind=0, length=5), slot(9)]
    yield numbers(unanswered=32, doorbell=1, noted=1, pending=0x20)
    for _ in range(34):
        yield [drain(0x80B31), acknowledge(0x20, 0)]


READINGS = (0, 2, 0x1000, 0x1002, 0x80B71, 0x80B04, 0xFFFFEFFF, 0xFFFFFFFF)


def bring_ups():
    yield three()
    for W, step in product((1, 3), range(7)):
        yield [setting("W", W)]
        for waited, reading in product(range(W), READINGS):
            for running in (0, 1) if waited == 0 else (0,):
                yield numbers(step=step, waited=waited, running=running) + [record(STEP, (), (reading,))]
    yield [setting("W", 65536)] + numbers(step=2, waited=65535, running=0) + [record(STEP, (), (0,))]
    for step, waited, running in ((0, 0, 0), (4, 2, 0), (0, 0, 1)):
        yield numbers(running=running, step=step, waited=waited, enabled=1) + [record(START)]
    phases = [dict(phase=CLOSED), dict(phase=IDLE, kind=2), dict(last=5, phase=LINKED, kind=2), dict(last=5, phase=UNLINKING, kind=2)]
    for first, last in product(phases, phases):
        yield [slot(0, **first), slot(3, **last), record(START)]


def hubs():
    yield opening()
    for port in (1, 2):
        yield [hub(2, 0, 0, 0), hub(2, 0, 0, 1)]
        for step, state, other, enabled, connected in product(range(1, 7), range(3), (0x1000, 0xFFFFFFFA), (0, 4), (0, 1)):
            yield [hub(2, port, step, port - 1, state), record(SCAN_STEP, (), (other | enabled | connected,))]
        for step, state in product(range(1, 7), range(3)):
            yield [hub(2, port, step, port - 1, state), record(SCAN)]
    yield [hub(5, 0, 0, 0, 0), hub(5, 0, 0, 1, 0)]
    for port, reading in product(range(7), (0x1000, 0xFFFFFFFF)):
        yield [record(POWER, (port,), (reading,))]
    for bad in (hub(0, 1, 1), hub(16, 1, 1), hub(255, 1, 1), hub(2, 1, 1, 0, 3), hub(2, 1, 1, 2, 1), hub(2, 3, 1), hub(2, 0, 1), hub(2, 1, 0), hub(2, 1, 7)):
        yield [bad, record(SCAN), record(SCAN_STEP, (), (0x1005,)), record(POWER, (1,), (0,)), hub(2, 1, 1), hub(2, 1, 1, 2, 0)]
    # drawn readings over fifteen ports, scanned again and again
    draw = random.Random(15)
    yield [hub(15, 0, 0)]
    for _ in range(6):
        yield [record(SCAN)] + [record(SCAN_STEP, (), (draw.choice((0x1000, 0x1001, 0x1005, 0x1004, 0x1803, 0xFFFFFFFE, 0xFFFFFFFB, TOP % 2**32)),)) for _ in range(35)]


FAMILIES = (
    openings, lengths, pool_lengths, first_checks, bounds, first_words, place_bits, places_of_none, one_bit, one_bit_large, reasons, writebacks, setups, ranges, taken, ids, row_words, links,
    unanswered, cancels, views, shorts, short_bits, short_places, short_of_many, alternates, packet_words, packet_heads, packet_collects, packet_rooms, packet_sets, toggle_words, toggle_collects, toggle_waits, toggle_submits, toggle_clears, toggle_stays, retried_views, retried_bits, retried_places, retried_of_many, retried_waits, boundaries, interrupts, falls, bring_ups, hubs,
)  # fmt: skip


def records():
    for family in FAMILIES:
        for script in family():
            yield from script
