"""The logs that the programs `replay` and `replay_cases` are run on, and what they must print (`tools/cases` writes both).

For `replay` scripts of calls, each from an opening of its own, written for 01's rules one by one, some drawn by chance, then for
02's orders 1, 4, 6 and 7.
For `replay_cases` many logs: a record bad in each way for each call, cut anywhere, calls before any opening, openings refused
and accepted in turn, empty logs. What is printed is the model's (model/blocks.py)."""

import random

from model.blocks import Replay, replay
from model.records import (
    ACKNOWLEDGE, ADDRESS, BITS, CANCEL, CLEAR_HALT, CLOSE, COLLECT, DISABLE, DRAIN, ENABLE, MOST, OPEN, OPEN_ENDPOINT, POWER, REARM, SCAN,
    SCAN_STEP, SET_ADDRESS, SET_PACKET, START, STEP, SUBMIT, USED, WRITEBACK, record,
)  # fmt: skip
from model.tokens import BULK, CONTROL, INTERRUPT, ISOCHRONOUS

AREAS = (0x100000, 0x200000, 0x300000, 0x400000)


def opening(D=4, E=4, ports=2, C=16384, W=2, areas=AREAS):
    return record(OPEN, (E, ports), (D, C, W, *areas))


def brought_up():
    return [record(START)] + [record(STEP, (), (v,)) for v in (0x80001, 0x1000, 0x80000, 0x80000, 0x80000, 0)]


def started(**settings):
    return [opening(**settings)] + brought_up()


def endpoint(kind, address=5, number=1, packet=512):
    return record(OPEN_ENDPOINT, (kind, address, number), (packet,))


def submit(slot, kind, direction=1, setup=None, address=0x10000FFF, length=100, command=0x80000):
    if setup is None:
        setup = 0x0100_0680 & ~0x80 | direction << 7 if kind == CONTROL else 0
    return record(SUBMIT, (slot, kind, direction), (setup, address, length, command))


def writeback(place, word):
    return record(WRITEBACK, (), (place, word))


def cancel(slot, id=1, command=0, frame=0):
    return record(CANCEL, (slot,), (id, command, frame))


def collect(slot, id=1, command=0, frame=0, overlay=0):
    return record(COLLECT, (slot,), (id, command, frame, overlay))


def clear_halt(slot):
    return record(CLEAR_HALT, (slot,))


def acknowledge(status, interrupts=0x27, first=1, second=1):
    return record(ACKNOWLEDGE, (first, second), (status, interrupts))


def drain(command=0):
    return record(DRAIN, (), (command,))


def answered():
    return [acknowledge(0x20), drain()]


def openings():
    yield [record(START), endpoint(BULK), record(SCAN), record(POWER, (1,), (0,)), collect(0)]
    for wrong in (dict(D=0), dict(D=257), dict(E=0), dict(E=33), dict(ports=0), dict(ports=16), dict(C=0), dict(C=16385), dict(W=0), dict(W=65537)):
        yield [opening(), record(ADDRESS), opening(**wrong), record(ADDRESS)]
    yield [opening(areas=(0x100040, 0x200000, 0x300000, 0x400000)), opening(areas=(0x100001, 0x200000, 0x300000, 0x400000))]
    yield [opening(areas=(2**32 - 320, 0x200000, 0x300000, 0x400000)), opening(areas=(2**32 - 256, 0x200000, 0x300000, 0x400000))]
    yield [opening(D=256, E=32, ports=15), opening(D=1, E=1, ports=1, C=1), opening(D=256, E=32, ports=15)]


def bring_ups():
    yield [opening(), record(STEP, (), (0,)), record(START), record(STEP, (), (0xFFFFFFFF,)), record(STEP, (), (0,)), record(STEP, (), (0,)), record(STEP, (), (0x1000,))]
    yield [opening(), record(START)] + [record(STEP, (), (v,)) for v in (0x71, 0, 0x1000, 0x40, 2, 0, 0x40, 0x1000, 0)] + [record(START), endpoint(BULK), submit(0, BULK)]
    yield started() + [endpoint(BULK), submit(0, BULK), record(START), cancel(0), record(START)] + answered() + [collect(0), record(START)]


def endpoints():
    calls = started(E=3)
    for kind, address, number, packet in ((ISOCHRONOUS, 128, 16, 0), (BULK, 128, 1, 8), (BULK, 1, 16, 8), (BULK, 1, 1, 0), (BULK, 1, 1, 1025)):
        calls.append(endpoint(kind, address, number, packet))
    calls += [endpoint(CONTROL, 0, 0, 8), endpoint(BULK, 127, 15, 1024), endpoint(INTERRUPT, 1, 2, 1)]
    calls += [endpoint(BULK, 1, 1, 8), endpoint(BULK, 128, 1, 8), endpoint(ISOCHRONOUS, 1, 1, 8)]
    for k in (0, 1, 2, 3, 31, 32, 255):
        calls += [record(SET_ADDRESS, (k, 0x55)), record(SET_ADDRESS, (k, 128)), record(SET_PACKET, (k, 3)), record(SET_PACKET, (k, 255))]
    calls += [record(CLOSE, (1,)), record(CLOSE, (1,)), endpoint(BULK, 3, 3, 3), submit(1, BULK), record(CLOSE, (1,)), record(SET_ADDRESS, (1, 128)), record(SET_PACKET, (1, 0))]
    calls += [cancel(1), record(CLOSE, (1,)), record(SET_ADDRESS, (1, 1)), submit(1, BULK)] + answered() + [collect(1), record(CLOSE, (1,)), record(CLOSE, (0,)), record(CLOSE, (2,))]
    yield calls
    yield [opening()] + [record(ADDRESS)] * 129


def submits():
    yield [opening(), endpoint(BULK), submit(0, BULK), submit(1, BULK)]
    calls = started(D=5, E=3) + [endpoint(CONTROL), endpoint(BULK), endpoint(INTERRUPT)]
    for k in (3, 31, 32, 255):
        calls.append(submit(k, BULK))
    calls += [submit(0, ISOCHRONOUS), submit(0, BULK), submit(1, CONTROL), submit(1, INTERRUPT), submit(2, BULK), submit(2, ISOCHRONOUS)]
    calls += [submit(0, CONTROL, length=16385), submit(0, CONTROL, 0, setup=0x80), submit(0, CONTROL, 1, setup=0), submit(1, BULK, address=0xFFFFFFFF, length=2)]
    calls += [submit(1, BULK, address=2**32, length=1), submit(1, BULK, address=2**64 - 1, length=2**64 - 1), submit(1, BULK, length=6 * 16384), submit(1, BULK, address=2**40, length=0)]
    calls += [submit(1, BULK), submit(0, CONTROL, 1, length=18), submit(2, INTERRUPT, length=1), submit(0, BULK), submit(2, INTERRUPT, length=16385)]
    yield calls
    # packet sizes that divide C
    for C, packet, lengths in ((1, 1, (0, 1, 5)), (512, 512, (511, 512, 513, 1024)), (4097, 241, (4096, 4097, 4098, 12292)), (16384, 512, (16383, 16384, 16385, 40000))):
        calls = started(C=C, D=8) + [endpoint(BULK, packet=packet), endpoint(INTERRUPT, packet=packet)]
        for length in lengths:
            calls += [submit(0, BULK, 0, length=length, command=0xFFFFFFFF), submit(1, INTERRUPT, length=length), cancel(0), cancel(1)] + answered()
            calls += [collect(0, 1 + lengths.index(length)), collect(1, 1 + lengths.index(length), frame=9)]
        yield calls
    yield started(D=256, E=1, C=64) + [endpoint(BULK, packet=64), submit(0, BULK, address=0xFFFFC000, length=16384), submit(0, BULK), cancel(0)] + answered() + [collect(0), submit(0, BULK, length=64 * 256 + 1)]
    calls = started(D=7, E=3) + [endpoint(BULK), endpoint(BULK), endpoint(CONTROL)]
    calls += [submit(0, BULK), submit(1, BULK, length=16385), submit(2, CONTROL, 0, length=0), cancel(0), cancel(2)] + answered() + answered() + [collect(0), collect(2)]
    yield calls + [submit(0, BULK, length=16384 * 3), submit(2, CONTROL, 0, length=5)]


def slot_in(state, E=2, D=2):
    """A controller whose slot 0 is closed, idle, linked or unlinking, for bulk."""
    calls = [] if state == "closed" else [endpoint(BULK)]
    if state in ("linked", "unlinking"):
        calls.append(submit(0, BULK, length=1))
    if state == "unlinking":
        calls.append(cancel(0))
    return calls


STATES = ("closed", "idle", "linked", "unlinking")


def reasons():
    """Every set of reasons for a refusal that calls can bring about: the number shows which comes first."""
    for full in (False, True):
        for kind in (BULK, ISOCHRONOUS):
            for address in (127, 128):
                for number in (15, 16):
                    for packet in (1024, 0, 1025):
                        yield [opening(E=1)] + ([endpoint(BULK)] if full else []) + [endpoint(kind, address, number, packet)]
    for state in STATES:
        for call in (record(CLOSE, (0,)), record(SET_ADDRESS, (0, 1)), record(SET_ADDRESS, (0, 128)), record(SET_PACKET, (0, 9))):
            yield started() + slot_in(state) + [call]
        for id in (1, 2):
            for make in (cancel, collect):
                yield started() + slot_in(state) + [make(0, id), make(0, id)]
        for kind in (BULK, CONTROL, ISOCHRONOUS):
            for length in (1, 2):
                asked = submit(0, kind, address=0xFFFFFFFF, length=length)
                if state in ("closed", "idle"):
                    yield [opening()] + slot_in(state) + [asked]
                for taken in (False, True):
                    # slot 1 leaves no room
                    other = [endpoint(BULK, 6)] * (2 if state == "closed" else 1) + ([submit(1, BULK, length=1 + 16384 * (state in ("closed", "idle")))] if taken else [])
                    closing = [record(CLOSE, (0,))] if state == "closed" else []
                    yield started(D=2, E=2) + slot_in(state) + other + closing + [asked]


def tokens():
    """Each bit of a token, alone, on each kind; two that err, or had to be tried again; an active one before and after."""
    for kind, places in ((CONTROL, 3), (BULK, 2), (INTERRUPT, 2)):
        calls, id = started(C=64) + [endpoint(kind, packet=64)], 0
        words = [[1 << bit] * places for bit in range(32)]
        words += [[0x00400008, 0x00200040], [0x00000080, 0x00000008], [0x00000008, 0x00000080], [0x00100010, 0x00080000], [0, 0x00050000]]
        words += [[0x00400048, 0x00200040], [0x00000080, 0x00000040], [0x00000040, 0x00000080]]
        for line in words:
            id += 1
            calls.append(submit(0, kind, length=64 if kind == CONTROL else 100))
            for place, word in enumerate((line + [0])[:places]):
                calls.append(writeback(place, word))
            calls += [collect(0, id, command=0x31), collect(0, id)]
            for place in range(places):
                calls.append(writeback(place, (line + [0])[place] & ~0x80))
            calls += [collect(0, id)] + answered() + [collect(0, id, frame=8), collect(0, id, frame=9)]
        yield calls
    yield started() + [endpoint(BULK), writeback(0, 1), submit(0, BULK), writeback(0, 1), writeback(1, 1), writeback(4, 1), writeback(2**64 - 1, 1), cancel(0), writeback(0, 2)] + answered() + [collect(0), writeback(0, 3)]


# ---- 02, order 1: short replies. Requests of four descriptors, of 64, 64, 64 and 54 bytes, at places 0 to 3


def left(count):
    """An In token that the controller has done with, with so many bytes left."""
    return count * 0x10000 + 0xD00


IN_ALL, IN_ACTIVE, IN_HALTED = left(0), left(64) + 0x80, left(64) + 0x40


def told(kind, id, tokens, direction=1, length=246):
    """A request; what is written back of it, as (place, word), before a collect that unlinks it if it is finished, and, where there is more,
    before another; then it is collected if it was unlinked."""
    calls = [submit(0, kind, direction, length=length)]
    for words in tokens:
        calls += [writeback(place, word) for place, word in words] + [collect(0, id)]
    return calls + answered() + [collect(0, id, frame=frame) for frame in ((8, 9) if kind == INTERRUPT else (0,))]


def lives(kind, cases, C=64, packet=64, **asked):
    """One request after the other. One that waits on is cancelled and collected."""
    calls, keeper = started(C=C, E=1) + [endpoint(kind, packet=packet)], Replay()
    for id, tokens in enumerate(cases, 1):
        calls += told(kind, id, tokens, **asked)
        for call in calls[keeper.count :]:
            keeper.block(call)
        if keeper.world.state.slots[0].uncollected():
            calls += [cancel(0, id)] + answered() + [collect(0, id, frame=9)]
    return calls


def at(*words):
    return list(enumerate(words))


REST = [(1, IN_ALL), (2, IN_ALL), (3, left(0) + 0x8000)]
SHORT = [
    # in the first, the second, the second to last, the last
    *[(at(*[IN_ALL] * place, left(10)),) for place in range(4)],
    # an empty packet in each; with all others done
    *[(at(*[IN_ALL] * place, left(64 if place < 3 else 54)),) for place in range(4)],
    ([(0, left(10)), *REST],), ([(2, left(10)), (0, IN_ALL), (1, IN_ALL), (3, IN_ALL)],), (at(*[left(n) for n in (1, 2, 3, 4)]),),
    # an error after it, before it, and one with bytes left
    (at(left(10), IN_HALTED),), (at(left(10), IN_ALL, IN_ALL, 8),), (at(IN_HALTED, left(10)),), (at(IN_ALL, left(20) + 8, left(10)),), (at(left(20) + 0x40),),
    # none left: it waits, whatever the other bits are
    (at(IN_ALL),), (at(IN_ALL, IN_ALL, IN_ALL),), (at(0),), (at(0x80008F07),),
    # more left than was asked for
    (at(left(65)),), (at(IN_ALL, left(32767)),), (at(IN_ALL, IN_ALL, IN_ALL, left(55)),), (at(left(64) + 0x8000, left(1)),),
    # an active one before it: it waits; then that one is done, ends short, errs
    *[([(1, left(10))], [(0, word)]) for word in (IN_ACTIVE, IN_ALL, left(5), IN_HALTED, left(5) + 0xC0)],
    # after the unlink: an active one before it, with bytes left or none; two; nothing short any more; an error before and after it
    *[([(0, left(10))], at(left(n) + 0x80, left(5))) for n in (30, 0, 64, 65)], ([(0, left(10))], at(left(30) + 0x80, left(20) + 0x80, left(5), IN_HALTED)),
    ([(0, left(10))], at(IN_ALL)), ([(0, left(10))], at(IN_ALL, left(7), left(9))), ([(0, left(10))], at(IN_ACTIVE)),
    ([(0, left(10))], at(IN_ALL, IN_HALTED, left(3))), ([(0, left(10))], at(left(9), IN_HALTED)), ([(0, left(10))], at(left(30) + 0x80, IN_HALTED, left(5))),
    ([(0, left(10))], at(left(30) + 0x80, left(5), IN_HALTED)), ([(0, IN_HALTED)], at(left(10))), ([(0, IN_HALTED)], at(IN_ALL, IN_ALL, left(10), IN_HALTED)),
]  # fmt: skip


def short_replies():
    for kind in (BULK, INTERRUPT):
        yield lives(kind, SHORT)
        # one descriptor, two, none of the bytes; a request of no bytes
        yield lives(kind, [(at(left(n)),) for n in (0, 1, 64, 65)] + [(at(IN_ACTIVE),), (at(left(10)), at(left(5) + 0x80))], length=64)
        yield lives(kind, [(at(left(n)),) for n in (0, 1, 64, 65)] + [(at(IN_ALL, left(1)),), (at(left(2), left(1)),), (at(left(2), 8),)], length=65)
        yield lives(kind, [(at(word),) for word in (0, left(5), IN_ACTIVE)], length=0)
        # Out: all that is left counts, and what is active is waited for
        yield lives(kind, [(first, [(0, left(10)), (3, left(4)), *REST[:2]]) for first in ([(0, left(10))], at(0, left(10)), at(0, 0, left(10)), at(0, 0, 0, left(10)))], direction=0)
        yield lives(kind, [(at(left(10), 0x40),), (at(left(10), left(10), 0, 8),), (at(0x40, left(10)),), ([(0, 0x40)], at(left(10), 0, 0x80, 0x20))], direction=0)
    # each bit of the first token, the others active
    yield lives(BULK, [([(0, 1 << bit)],) for bit in range(32)])
    # control: setup, data, status, and no data
    for direction in (1, 0):
        setup, data, status = 0x00000E00, 0x800A0D00, 0x80008C00
        cases = [([(1, data)], [(0, setup), (2, status)]), (at(setup, data), [(2, status)]), (at(0x00080E00, data), [(2, status)]), (at(setup, data, status + 0x40),)]
        cases += [(at(setup, 0x00120D00), [(2, 0x00018C00)]), (at(0x00080E00), [(1, 0), (2, 0)]), (at(setup, data, status), at(0x00080E00, data, 8))]
        yield lives(CONTROL, cases, direction=direction, length=18)
    yield lives(CONTROL, [(at(0x00080E00), at(0x00080E00, 0)), (at(0x00080E00, 8),)], length=0)
    # cancelled: before it ends short, after it, and between its unlink and its collection
    asked, short = submit(0, BULK, length=246), writeback(0, left(10))
    calls = started(C=64) + [endpoint(BULK, packet=64), asked, cancel(0), short, collect(0)] + answered() + [collect(0), asked, short, cancel(0, 2)] + answered()
    yield calls + [collect(0, 2), asked, short, collect(0, 3), cancel(0, 3)] + answered() + [collect(0, 3)]


def extra_records():
    """The record at place D: nobody's, whoever has the others. As many places as ever are free."""
    for D in (1, 2, 63, 64, 65, 256):
        calls = started(D=D, E=2, C=64) + [endpoint(BULK, packet=64), endpoint(INTERRUPT, packet=64), writeback(D, 1), submit(0, BULK, length=64 * (D + 1)), submit(0, BULK, length=64 * D)]
        calls += [writeback(place, 0x80000000) for place in (D - 1, D, D + 1, 255, 256, 257)] + [submit(1, INTERRUPT, length=1), writeback(0, left(4)), collect(0)]
        yield calls + answered() + [collect(0), submit(1, INTERRUPT, length=64 * D), writeback(D, left(4)), cancel(1), collect(1, frame=9)]
    # the last record of memory
    yield started(C=64, areas=(2**32 - 320, *AREAS[1:])) + [endpoint(BULK, packet=64), submit(0, BULK, length=246), writeback(4, 1), writeback(0, left(64)), collect(0)] + answered() + [collect(0)]
    # places that are not neighbours, across an earlier request; then openings of fewer and of more descriptors
    calls = started(D=8, E=3, C=64) + [endpoint(BULK, packet=64)] * 3 + [submit(0, BULK, length=1), submit(1, BULK, length=65), submit(2, BULK, 0, length=65), cancel(0)]
    yield calls + answered() + [collect(0), submit(0, BULK, length=300), submit(0, BULK, length=129), opening(D=3), opening(D=8), opening(D=9), opening(D=7)]


def area_ends():
    """Areas that end with the record at place D, and that one record is too much for; each after a controller that goes on if it is refused."""
    for D, heads in ((1, 128), (3, 256), (4, 384), (63, 4096), (64, 4224), (256, 16512)):
        size, setups = 64 * (D + 1), AREAS[0] + 64 * (D + 1)
        frames = -(-setups // 4096) * 4096
        places = [(2**32 - size, *AREAS[1:]), (2**32 - size + 64, *AREAS[1:])]
        places += [(AREAS[i] - more, *AREAS[1:]) for i in (1, 2, 3) for more in (size, size - 64)]
        places += [(AREAS[0], AREAS[0] + heads, *AREAS[2:]), (AREAS[0], AREAS[0] + heads - 128, *AREAS[2:])]
        places += [(*AREAS[:2], frames, AREAS[3]), (*AREAS[:2], frames - 4096, AREAS[3]), (*AREAS[:3], setups), (*AREAS[:3], setups - 8), (*AREAS[:3], setups - 64)]
        yield [opening(D=2)] + [call for areas in places for call in (opening(D=D, areas=areas), record(ADDRESS))]
    # numbers of records whose bytes, or of which one more, do not fit in 64 bits
    yield [opening(D=2)] + [call for D in (2**58 - 2, 2**58 - 1, 2**58, 2**64 - 2, 2**64 - 1) for call in (opening(D=D), record(ADDRESS))]


# ---- 02, order 4: packet sizes that do not divide C, that are C, and above it


def done_with(slot, id, count, kind):
    """The request's descriptors at the first places are done; it is collected."""
    calls = [writeback(place, 0) for place in range(count)] + [collect(slot, id)]
    return calls + (answered() + [collect(slot, id)] if kind != INTERRUPT else [collect(slot, id, frame=9)])


def about(limit, C):
    """Lengths about the chunks' ends by the limit, and about those by C."""
    return sorted({0, 1, *(n * at + more for at in (limit, C) for n in (1, 2) for more in (-1, 0, 1))})


def packet_ends():
    """Requests of each kind and direction, about the ends of their chunks, each of at most four."""
    sizes = ((1000, 512), (1000, 500), (1000, 501), (1000, 1000), (513, 512), (7, 3), (5, 3), (1, 1), (15, 8), (4097, 512), (16384, 7), (16383, 1024))
    for i, (C, packet) in enumerate(sizes):
        kinds = (BULK, INTERRUPT, CONTROL) if i == 0 else (BULK, INTERRUPT)[i % 2 :][:1]
        for kind in kinds:
            calls, id = started(C=C, D=4) + [endpoint(kind, packet=packet)], 0
            for length in about(C - C % packet, C):
                id += 1
                calls += [submit(0, kind, (id + i) % 2, length=length)] + done_with(0, id, max(1, -(-length // (C - C % packet))) if kind != CONTROL else 3, kind)
            yield calls
    # the last bytes of memory
    yield started(C=1000, D=5) + [endpoint(BULK), submit(0, BULK, address=2**32 - 2100, length=2100)] + done_with(0, 1, 5, BULK)


def packet_rooms():
    """Requests of as many chunks as there are descriptors, of one more, and of as many by C."""
    for D, C, packet, limit in ((1, 1000, 512, 512), (6, 1000, 512, 512), (3, 16384, 7, 16380), (256, 16384, 7, 16380), (256, 1000, 512, 512), (256, 5, 3, 3)):
        calls = started(D=D, E=2, C=C) + [endpoint(BULK, packet=packet), endpoint(INTERRUPT, packet=packet)]
        for length in (D * limit + 1, D * C, (D + 1) * limit, D * limit):
            calls.append(submit(0, BULK, address=0, length=length))
        yield calls + [submit(1, INTERRUPT, length=0), cancel(0)] + answered() + [collect(0), submit(1, INTERRUPT, address=0, length=(D - 1) * limit + 1)]
    # what others have, of other sizes
    calls = started(D=8, E=4, C=1000) + [endpoint(BULK, packet=512), endpoint(BULK, packet=1000), endpoint(INTERRUPT, packet=300), endpoint(CONTROL, packet=1024)]
    calls += [submit(0, BULK, length=1000), submit(1, BULK, length=1000), submit(3, CONTROL, length=3000), submit(2, INTERRUPT, length=1801), submit(2, INTERRUPT, length=1800)]
    yield calls + [cancel(0)] + answered() + [collect(0), submit(0, BULK, length=1025), submit(0, BULK, length=1024)]


def packet_openings():
    """Sizes about C, for each kind; every set of reasons to refuse one."""
    for C in (1, 2, 7, 8, 9, 64, 1000, 1023, 1024, 1025, 16384):
        sizes = sorted({0, 1, C - 1, C, C + 1, 1023, 1024, 1025, 65535} & {*range(65536)})
        calls = started(C=C, E=2)
        for kind in (BULK, INTERRUPT, CONTROL, ISOCHRONOUS):
            for packet in sizes:
                calls += [endpoint(kind, packet=packet), record(CLOSE, (0,))]
        yield calls
    for full in (False, True):
        for kind in (CONTROL, ISOCHRONOUS, BULK, INTERRUPT):
            calls = [opening(E=1, C=8)] + ([endpoint(CONTROL, packet=8)] if full else [])
            for address, number, packet in ((127, 15, 9), (128, 15, 9), (127, 16, 9), (127, 15, 8), (128, 15, 8)):
                calls.append(endpoint(kind, address, number, packet))
            yield calls


def packet_sets():
    """Set packet size about C, in each state of a slot; sizes below 8 are raised before they are judged."""
    for C in (1, 7, 8, 9, 100, 254, 255, 256):
        for kind in (BULK, INTERRUPT, CONTROL):
            calls = started(C=C, E=2) + [endpoint(kind, packet=1)]
            for size in sorted({0, 1, 7, 8, 9, C - 1, C, C + 1, 254, 255} & {*range(256)}):
                calls.append(record(SET_PACKET, (0, size)))
            # one that is not open; a busy one, whatever the size
            calls += [record(SET_PACKET, (k, size)) for k in (1, 2, 255) for size in (8, 255)] + [submit(0, kind, length=C + 1)]
            calls += [record(SET_PACKET, (0, size)) for size in (8, 255)] + [cancel(0)] + [record(SET_PACKET, (0, size)) for size in (8, 255)]
            yield calls + answered() + [collect(0, frame=9), record(SET_PACKET, (0, 255)), record(CLOSE, (0,)), record(SET_PACKET, (0, 8))]


def packet_changes():
    """Sizes that are set between requests, some of them refused, and slots that are closed and opened again: each request is cut by its own."""
    for kind in (BULK, INTERRUPT):
        calls, id = started(C=100, D=16, E=2) + [endpoint(kind, packet=64)], 0
        for size in (None, 33, 101, 7, 8, 255, 50, 51, 100, 99, 3):
            id += 1
            calls += [] if size is None else [record(SET_PACKET, (0, size)), record(SET_ADDRESS, (0, id))]
            calls += [submit(0, kind, id % 2, length=250)] + done_with(0, id, 5, kind)
        for packet in (3, 100, 101, 1):
            calls += [record(CLOSE, (0,)), endpoint(kind, packet=packet), submit(0, kind, length=250)] + done_with(0, 1, 3, kind)
        yield calls
    # two slots of two sizes; the lower one is closed, opened with another kind and size, and the higher one keeps its own
    calls = started(C=100, D=16, E=2) + [endpoint(BULK, packet=60), endpoint(BULK, packet=40), submit(0, BULK, length=130), submit(1, BULK, length=130)]
    calls += [cancel(0), cancel(1)] + answered() * 2 + [collect(0), collect(1), record(CLOSE, (0,)), submit(1, BULK, length=130), endpoint(CONTROL, packet=1000)]
    calls += [submit(0, CONTROL, length=130), record(CLOSE, (1,)), cancel(1, 2)] + answered() + [collect(1, 2), record(CLOSE, (1,)), endpoint(INTERRUPT, packet=70)]
    yield calls + [submit(1, INTERRUPT, length=130), opening(C=50), opening(C=100)]


def packet_shorts():
    """Short replies under a limit that the size does not divide: chunks of 64, of 48 and of 99."""
    yield lives(BULK, SHORT, C=100)
    yield lives(INTERRUPT, SHORT[::3], C=127)
    yield lives(BULK, [(at(*[IN_ALL] * place, left(n)),) for place in range(4) for n in (1, 38, 48, 49)] + [(at(*[IN_ALL] * 4),)], C=64, packet=24, length=182)
    yield lives(INTERRUPT, [(at(left(n)),) for n in (0, 1, 99, 100)] + [(at(IN_ALL, left(1)),), (at(left(2), left(1)),)], C=100, packet=33, length=100)
    yield lives(BULK, [(at(left(10), 0, 0, 0),), (at(0, left(64), left(65), left(54)),), (at(left(5), 0x40),)], C=100, direction=0)
    yield lives(CONTROL, [(at(0x00000E00, 0x800A0D00, 0x80008C00),)], C=8, packet=512, length=18)


# ---- 02, order 6: the toggle. What a submit writes shows what was kept: 80000000 or 0 in word 6 of its head

BIT = 2**31
# what is written back of a request, by how it ends: 50 and 100 bytes are left of some
ENDS = {"done": 0xD00, "short": 0x320D00, "failed": 0x640D40, "cancelled": 0x640D80}


def through(slot, id, kind, overlay, how="done", direction=1, length=100):
    """A request at the first places, up to its collection with this overlay token; collects that do not pass are given one that
    says otherwise."""
    other = overlay ^ BIT
    calls = [submit(slot, kind, direction, length=length), collect(slot, id, overlay=other)]
    calls += [writeback(place, ENDS[how]) for place in range(3 if kind == CONTROL else 1)]
    calls += [cancel(slot, id) if how == "cancelled" else collect(slot, id, overlay=other), collect(slot, id, frame=8, overlay=other)]
    calls += [collect(slot, id + 1, frame=9, overlay=other)] + (answered() if kind != INTERRUPT else [])
    return calls + [collect(slot, id, frame=9, overlay=overlay), collect(slot, id, overlay=other)]


def toggle_reads():
    """One request after the other, of each kind and direction: from 0 to 1, 1, 0 and 0, whatever way they end; packets in odd and even numbers."""
    for kind in (BULK, INTERRUPT, CONTROL):
        for direction in (1, 0):
            calls, id = started(E=1) + [endpoint(kind)], 0
            for how in ENDS:
                for overlay in (0x80008D00, 0xFFFFFFFF, 0x7FFF8D40, 0):
                    id += 1
                    calls += through(0, id, kind, overlay, how, direction)
            yield calls
    # 1,536 bytes are three packets, 1,024 are two, none is one of no bytes
    for kind in (BULK, INTERRUPT):
        calls = started(E=1) + [endpoint(kind)]
        for id, (length, overlay) in enumerate(((1536, BIT), (1536, 0), (512, BIT), (1024, BIT), (0, 0), (1024, 0), (1537, 0), (1025, BIT)), 1):
            calls += through(0, id, kind, overlay, length=length)
        yield calls


def toggle_bits():
    """Each bit of the token set alone, and each alone not."""
    calls, words = started(D=1, E=1) + [endpoint(BULK)], [word ^ 1 << bit for bit in range(32) for word in (0, 2**32 - 1)]
    for id, word in enumerate(words, 1):
        calls += [submit(0, BULK, length=1), cancel(0, id)] + answered() + [collect(0, id, overlay=word)]
    yield calls


def toggle_halts():
    """Clear-halt in each phase of a slot, on each kind, and of slots that are not there; then before and during bring-up."""
    for kind in (BULK, INTERRUPT, CONTROL):
        calls = started(E=2) + [clear_halt(k) for k in (0, 1, 2, 31, 32, 255)] + [endpoint(kind), clear_halt(0)] + through(0, 1, kind, BIT) + [clear_halt(1), clear_halt(2)]
        # linked, unlinking, answered: 4, and the bit stays; collected, it goes
        for id in (2, 3):
            calls += [submit(0, kind), clear_halt(0), cancel(0, id), clear_halt(0)] + answered() + [clear_halt(0), collect(0, id, frame=9, overlay=BIT)]
        calls += [clear_halt(0)] + through(0, 4, kind, BIT, "failed") + [clear_halt(0), clear_halt(0)] + through(0, 5, kind, BIT)
        yield calls + [record(CLOSE, (0,)), clear_halt(0), endpoint(kind), submit(0, kind), clear_halt(0)]
    yield [opening(), clear_halt(0), endpoint(BULK), endpoint(CONTROL), clear_halt(0), clear_halt(1), clear_halt(2)] + brought_up() + [submit(0, BULK)]
    calls = started() + [endpoint(BULK), endpoint(INTERRUPT)] + through(0, 1, BULK, BIT) + through(1, 1, INTERRUPT, BIT) + [record(START), clear_halt(0), record(STEP, (), (0,)), clear_halt(3)]
    yield calls + [submit(0, BULK)] + brought_up() + [submit(0, BULK), submit(1, INTERRUPT)]
    # between openings: whoever has a controller keeps it
    yield [clear_halt(0), opening(D=0), clear_halt(0)] + started() + [endpoint(BULK)] + through(0, 1, BULK, BIT) + [opening(E=0), submit(0, BULK), opening(), clear_halt(0)]


def toggle_changes():
    """What leaves the bit: every other call on the slot, on another, on none; and what does not: close, and a controller that is opened anew."""
    between = [[record(SET_ADDRESS, (0, 9)), record(SET_ADDRESS, (0, 128))], [record(SET_PACKET, (0, 64)), record(SET_PACKET, (0, 255))], brought_up()]
    between += [[record(call) for call in (ADDRESS, ENABLE, DISABLE, REARM, SCAN)], [endpoint(BULK, 6), clear_halt(1), record(CLOSE, (1,))], [record(START), record(START)] + brought_up()]
    between += [[submit(0, ISOCHRONOUS), submit(0, BULK, address=2**32, length=1), submit(0, INTERRUPT, address=2**32, length=1), submit(0, BULK, length=5 * 16384)]]
    between += [[acknowledge(0x37), drain(), drain(), drain()], [cancel(0), collect(0), collect(0, 99, frame=9), collect(1, overlay=0), record(SET_PACKET, (0, 0))]]
    for kind in (BULK, INTERRUPT):
        calls = started() + [endpoint(kind)] + through(0, 1, kind, BIT)
        for id, others in enumerate(between, 2):
            calls += others + through(0, id, kind, BIT)
        # closed and opened: as an endpoint of its kind, of another, and with another one before it
        for other in (kind, BULK + INTERRUPT - kind, CONTROL):
            calls += [record(CLOSE, (0,)), endpoint(other)] + through(0, 1, other, BIT) + [record(CLOSE, (0,)), endpoint(kind)] + through(0, 1, kind, BIT)
        yield calls + [opening(), *brought_up(), endpoint(kind), submit(0, kind)]


def toggle_slots():
    """Four slots, each with its own bit: collected in turn, one cleared, one closed."""
    kinds = (BULK, CONTROL, BULK, INTERRUPT)
    calls = started(E=4) + [endpoint(kind, k + 1) for k, kind in enumerate(kinds)]
    for id, bits in enumerate(((0, 0, 1, 0), (1, 1, 0, 0), (0, 1, 1, 1), (1, 1, 1, 1)), 1):
        for k, kind in enumerate(kinds):
            calls += through(k, id, kind, bits[k] * BIT)
    # all are linked at once, and each is collected after the others are cancelled
    for id, cleared in enumerate((2, 1, 3, 0), 5):
        calls += [clear_halt(cleared)] + [submit(k, kinds[k], length=1) for k in (0, 2, 3)] + [cancel(k, id) for k in (0, 2, 3)]
        calls += answered() * 2 + [collect(k, id, frame=9, overlay=BIT) for k in (0, 2, 3)]
    yield calls + [record(CLOSE, (2,)), submit(0, BULK), submit(3, INTERRUPT), endpoint(BULK), submit(2, BULK)]
    # the last of 32
    calls = started(D=32, E=32) + [endpoint(BULK, k) for k in range(32)] + [submit(k, BULK, length=1) for k in range(32)] + [cancel(k) for k in range(32)]
    calls += answered() * 32 + [collect(k, overlay=BIT * (k >> 1 & 1 ^ k & 1)) for k in range(32)] + [clear_halt(k) for k in (1, 30, 31, 32)]
    yield calls + [submit(k, BULK, length=1) for k in range(32)]


# ---- 02, order 7: retried packets. Requests of four descriptors, as in order 1's; bit 3 is 8, and Halted 0x40

RETRY = 8
DONE = [IN_ALL, IN_ALL, IN_ALL, IN_ALL + 0x8000]


def retried_at(places, words=DONE):
    """These words, with bit 3 at some places."""
    return at(*[word | RETRY * (place in places) for place, word in enumerate(words)])


def subsets(count):
    return [[place for place in range(count) if chosen >> place & 1] for chosen in range(2**count)]


RETRIED = [
    # every set of places
    *[(retried_at(places),) for places in subsets(4)],
    # bits 3 to 6 in the middle, each set of them, before two that are active: it waits, and is complete when these are done; or it fails
    *[(at(IN_ALL, IN_ALL + 8 * bits), [(2, IN_ALL), (3, IN_ALL)]) for bits in range(16)],
    # some of them in the first, in the last, and in one with bytes left, which ends the request or errs
    *[([(place, word + 8 * bits)], [(j, DONE[j]) for j in range(4) if j != place]) for place, word in ((0, IN_ALL), (3, IN_ALL), (0, left(10))) for bits in (1, 2, 4, 6, 8, 9, 15)],
    # a short one in each place: retried ones before it, itself, after it; errors after it
    *[(at(*[IN_ALL + RETRY] * place, left(10) + bits, *[IN_ALL + 8] * (3 - place)),) for place in range(4) for bits in (0, 8, 0x10, 0x20, 0x38)],
    *[(at(*[IN_ALL] * place, left(10) + 8, *[left(3) + 0x48] * (3 - place)),) for place in range(4)],
    # more left than was asked for; an empty packet; two short ones
    (at(left(65) + 8, 8),), (at(IN_ALL + 8, left(32767) + 8),), (at(left(64) + 8),), (at(left(5) + 8, left(6) + 8, 8, 8),),
    # halted before and after retried ones; its token is as it is, also where it is active
    (at(IN_HALTED + 8, IN_ALL + 8),), (at(IN_ALL + 8, IN_ALL + 8, IN_HALTED),), (at(IN_ALL + 0x30, left(64) + 0x78),), ([(0, IN_HALTED)], [(0, left(64) + 0xC8)]), (retried_at([0, 1]), [(3, 0x40000148)]),
    # between the unlink and the collection: retried by then, no longer retried; active and retried, before a short one and with none
    (at(*DONE), retried_at([1, 2])), (retried_at([0, 1, 2, 3]), at(*DONE)), (at(*DONE), [(place, IN_ACTIVE + RETRY) for place in range(4)]), (at(*DONE), [(2, IN_ACTIVE + RETRY)]),
    ([(0, left(10))], at(left(30) + 0x88, left(5) + 8, 8, 8)), ([(0, left(10))], at(left(30) + 0x88, left(20) + 0x80, left(5), 8)), ([(0, left(10) + 8)], at(left(30) + 0x80, 8, IN_ACTIVE + 8)),
]  # fmt: skip


def retried_reads():
    """Bulk and interrupt, In and Out; one descriptor, two, no bytes; each bit of a token that is collected."""
    yield lives(BULK, RETRIED)
    yield lives(BULK, RETRIED[::2], direction=0)
    yield lives(INTERRUPT, RETRIED[::2])
    yield lives(INTERRUPT, RETRIED[1::2], direction=0)
    yield lives(BULK, RETRIED[::5], C=100)
    for kind in (BULK, INTERRUPT):
        for length in (0, 64):
            yield lives(kind, [(at(word + 8 * bits),) for word in (0, left(1)) for bits in (0, 1, 2, 4, 7, 8, 9)], length=length)
        yield lives(kind, [(at(*words),) for words in ((8, 0), (8, 8), (0, 8), (left(1), 8), (left(1) + 8, 8), (8, 0x48))], length=65)
    yield lives(BULK, [(at(*[1 << bit] * 2), at(*[1 << bit & ~0x80] * 2)) for bit in range(32)], direction=0, length=128)


def retried_controls():
    """Setup, data and status, each set of them; and no data. Bits 3 to 6 of each; active ones at the collection."""
    for direction in (1, 0):
        stages = [0x00000E00, 0x80000D00 - 0x100 * (1 - direction), 0x80008C00 + 0x100 * (1 - direction)]
        cases = [(retried_at(places, stages),) for places in subsets(3)]
        cases += [(at(*[word + 8 * bits * (j == place) for j, word in enumerate(stages)]),) for place in range(3) for bits in (2, 4, 6, 7, 8, 9, 15)]
        # one that is retried is no end; bytes left of the data and of the setup
        cases += [([(0, stages[0] + bits)], at(*stages)) for bits in (8, 0x10, 0x20, 0x38, 0x40)] + [(at(stages[0] + 8, stages[1] + 0xA0008, stages[2] + 8),), (at(0x00080E08, *stages[1:]),)]
        cases += [(at(*stages), [(place, word + 0x88) for place, word in enumerate(stages) if place in places]) for places in subsets(3)]
        yield lives(CONTROL, cases, direction=direction, length=18)
        yield lives(CONTROL, [(retried_at(places, [0x00000E00, 0x80008D00]),) for places in subsets(2)] + [(at(0x00000E08, 0x80008D48),), (at(0x8, 0), at(0x88, 0x88))], direction=direction, length=0)


def retried_cancels():
    """Cancelled ones, before they are finished, after it, and after their unlink; what waits or is not there: none carries a count."""
    for kind, places in ((BULK, 4), (INTERRUPT, 4), (CONTROL, 3)):
        asked, calls = submit(0, kind, length=246), started(C=64) + [endpoint(kind, packet=64)]
        words = [writeback(place, RETRY) for place in range(places)]
        for id, between in enumerate(([cancel], [*words, cancel], [*words, collect, cancel], [*words, writeback(1, 0x48), cancel], [*words, writeback(1, 0x48), collect, cancel]), 1):
            calls += [asked] + [call(0, id) if callable(call) else call for call in between] + [collect(0, id), collect(0, id + 1)] + answered() + [collect(0, id, frame=9), collect(0, id, frame=9), collect(1)]
        yield calls


def retried_slots():
    """Two requests whose places alternate, one of them retried; then a request of all 256 descriptors, and one that ends with the last."""
    calls = started(D=8, E=4, C=64) + [endpoint(BULK, packet=64)] * 4 + [submit(0, BULK, length=1), submit(1, BULK, length=1), submit(2, BULK, length=1), cancel(0), cancel(2)]
    calls += answered() * 2 + [collect(0), collect(2), submit(3, BULK, length=200)] + [writeback(place, IN_ALL + RETRY * (place != 1)) for place in (0, 2, 3, 4)]
    yield calls + [writeback(1, left(63)), collect(1), collect(3)] + answered() * 2 + [collect(1), collect(3)]
    for direction in (0, 1):
        calls = started(D=256, E=1, C=8) + [endpoint(BULK, packet=8), submit(0, BULK, direction, length=2048)] + [writeback(place, RETRY) for place in range(255)] + [collect(0), writeback(255, 0x10008)]
        yield calls + [collect(0)] + answered() + [collect(0)]


def unlinks():
    calls = started(D=8, E=4, C=512) + [endpoint(BULK), endpoint(CONTROL), endpoint(BULK), endpoint(INTERRUPT)]
    calls += [submit(0, BULK), submit(1, CONTROL), submit(2, BULK), submit(3, INTERRUPT)]
    calls += [cancel(0, 2), cancel(4), cancel(255), collect(0, 2), collect(4), collect(255)]
    calls += [cancel(1, command=0), cancel(0, command=0x10031), cancel(2, command=0), cancel(1, command=5)]
    for status in (0x24, 0, 0x20, 0x24):
        calls += [acknowledge(status), drain(0x20031), drain(), drain(), collect(0), collect(1), collect(2)]
    yield calls + [cancel(3, frame=16380), collect(3, frame=4), collect(3, frame=16384 * 4 + 4), collect(3, frame=5), cancel(3), collect(3)]
    calls = started(D=32, E=32) + [endpoint(BULK, k, 1, 64) for k in range(32)] + [submit(k, BULK, length=k) for k in range(32)]
    calls += [cancel((7 * k) % 32) for k in range(32)] + [acknowledge(0x20)]
    for k in range(33):
        calls += [drain(0x31), acknowledge(0x20), collect((7 * k) % 32)]
    yield calls
    calls = started(D=4, E=4) + [endpoint(INTERRUPT, k, 1, 8) for k in range(4)] + [submit(k, INTERRUPT, length=8) for k in range(4)]
    yield calls + [cancel(k, frame=f) for k, f in ((1, 16383), (3, 0), (0, 8191), (2, 0xFFFFFFFF))] + [collect(k, frame=f) for k in range(4) for f in (7, 8, 9, 8199, 8200)]


def interrupts():
    for doorbell in (False, True):
        calls = started() + [endpoint(BULK), endpoint(BULK), submit(0, BULK), submit(1, BULK)]
        if doorbell:
            calls += [cancel(0, command=0x31), cancel(1, command=0x71)]
        for status in list(1 << k for k in range(32)) + [0x37, 0x24, 0x21, 0x10, 0xFFFFFFFF]:
            for first, second in ((1, 1), (0, 0), (1, 0), (0, 1)):
                calls.append(acknowledge(status, 0x3F, first, second))
            calls += [drain(0x31), drain(0x31), drain(0), record(REARM), record(REARM), collect(0), collect(1)]
        yield calls + [record(ENABLE), acknowledge(7), record(REARM), record(DISABLE), acknowledge(7), record(REARM)]
    # 000's faults: an advance drained with a port change, and one acknowledged before its ring
    yield started() + [endpoint(BULK), endpoint(BULK), submit(0, BULK), submit(1, BULK), cancel(0), cancel(1), acknowledge(0x24), drain(), drain(), collect(0), collect(1)]
    yield started() + [endpoint(BULK), submit(0, BULK), acknowledge(0x20), cancel(0), drain(), collect(0)] + answered() + [collect(0)]


def scans():
    readings = (0, 1, 5, 0x1005, 0x1401, 0x2B, 0xFFFFFFFF, 4)
    for ports in (1, 3):
        calls = [opening(ports=ports), record(SCAN_STEP, (), (1,))] + [record(POWER, (p,), (0x2B,)) for p in (0, 1, ports, ports + 1, 255)]
        draw = random.Random(ports)
        for _ in range(6):
            calls += [record(SCAN)] + [record(SCAN_STEP, (), (draw.choice(readings),)) for _ in range(5 * ports + 1)]
        yield calls + [record(SCAN), record(SCAN_STEP, (), (1,)), record(SCAN), record(SCAN_STEP, (), (0,))]


# of each limit the packet sizes that calls by chance open endpoints with: those that divide it, and others, up to one above it
EVEN = {1: (1, 1, 2), 64: (8, 64, 64), 4096: (8, 64, 1024), 16384: (8, 64, 1024)}
UNEVEN = {3: (1, 2, 3, 4), 9: (8, 9, 10), 100: (7, 64, 99, 101), 1000: (8, 512, 1000, 1001), 16384: (7, 48, 1023)}


WORDS = (0, 0x80, 8, 0x40, 0x10000)
RETRIED_WORDS = (0, 8, 8, 0x10, 0x20, 0x38, 0x48, 0x10008, 0x20000, 0x88)


def drawn(seed, count, sizes=EVEN, toggles=False, words=WORDS):
    """Calls by chance, with the model at hand so that many are accepted; where they are asked for, with overlay tokens and clear-halts.
    The tokens that are written back are of the words, or any."""
    draw, keeper, calls = random.Random(seed), Replay(), []
    E, D = draw.choice([1, 2, 4, 8]), draw.choice([1, 3, 8, 20])

    def make(call):
        calls.append(call)
        keeper.block(call)

    C = draw.choice([*sizes])
    for call in started(D=D, E=E, C=C):
        make(call)
    for _ in range(count):
        k, state = draw.randrange(E + 1), keeper.world.state
        slot = state.slots[k] if state.is_open(k) else None
        kind = slot.kind if slot and draw.random() < 0.9 else draw.randrange(4)
        held = slot is not None and slot.uncollected()
        id = slot.request if held and draw.random() < 0.95 else draw.choice([0, 1, 2**64 - 1])
        frame, command = draw.randrange(2**32), draw.choice([0, 0x31, 0x71, 0xFFFFFFFF])
        size = draw.choice([0, 1, state.settings.C, 2 * state.settings.C + 1, draw.randrange(200)])
        overlay = draw.choice([0x8D00, BIT + 0x8D00, draw.randrange(2**32)]) if toggles else 0
        make(
            draw.choice(
                [endpoint(draw.choice([0, 2, 2, 3]), draw.randrange(130), draw.randrange(17), draw.choice(sizes[C]))]
                + [submit(k, kind, draw.randrange(2), None if draw.random() < 0.9 else draw.randrange(2**48) if kind == CONTROL else 0, draw.choice([0x1000, 0xFFFFF000, 0x2000FFF]), size, command)] * 4
                + [writeback(p, draw.choice([*words, draw.randrange(2**32)])) for p in (state.places_of(k) if held else [draw.randrange(D + 1)])[:3]] * 2
                + [cancel(k, id, command, frame)] + [collect(k, id, command, frame, overlay)] * 3
                + [acknowledge(draw.choice([0x20, 0x24, 1, 0x37, 0]), 0x27, draw.randrange(2), draw.randrange(2)), acknowledge(0x20), drain(command), drain(command)]
                + [record(draw.choice([REARM, ENABLE, DISABLE, ADDRESS]))]
                + ([record(CLOSE, (k,)), record(SET_ADDRESS, (k, draw.randrange(130))), record(SET_PACKET, (k, draw.randrange(256)))] if draw.random() < 0.3 else [])
                + ([record(START)] if draw.random() < 0.05 else [])
                + ([clear_halt(k)] if toggles and draw.random() < 0.3 else [])
                + ([record(STEP, (), (draw.choice([0, 0x1000, 2]),))] if draw.random() < 0.3 else [])
            )
        )
    return calls


def scripts():
    for family in (openings, bring_ups, endpoints, reasons, submits, tokens, unlinks, interrupts, scans):
        yield from family()
    for seed in range(20):
        yield drawn(seed, 60)
    for family in (short_replies, extra_records, area_ends, packet_ends, packet_rooms, packet_openings, packet_sets, packet_changes, packet_shorts):
        yield from family()
    for seed in range(200, 210):
        yield drawn(seed, 60, UNEVEN)
    for family in (toggle_reads, toggle_bits, toggle_halts, toggle_changes, toggle_slots):
        yield from family()
    for seed in range(300, 310):
        yield drawn(seed, 80, UNEVEN if seed % 2 else EVEN, toggles=True)
    for family in (retried_reads, retried_controls, retried_cancels, retried_slots):
        yield from family()
    for seed in range(400, 412):
        yield drawn(seed, 80, EVEN, toggles=True, words=RETRIED_WORDS)


def changed(record, at, value):
    return record[:at] + bytes([value]) + record[at + 1 :]


def call_of(number, halves):
    """A good record: each parameter is that many halves of the largest that is read, be it one that the call refuses."""
    small, large = USED[number]
    most, bits = MOST.get(number, {}), BITS.get(number, {})
    b = [most.get(i, 255) * halves // 2 for i in range(small)]
    return record(number, b, [(2 ** bits.get(i, 64) - 1) * halves // 2 for i in range(large)])


def bad_records(number):
    """Each parameter that has a limit above it, and each byte that is not used set."""
    small, large = USED[number]
    for data, bit in ((call_of(number, 0), 1), (call_of(number, 2), 128)):
        for i, most in MOST.get(number, {}).items():
            for value in (most + 1, 128, 255):
                yield changed(data, 1 + i, value)
        for i, bits in BITS.get(number, {}).items():
            for at in range(8 + 8 * i + bits // 8, 16 + 8 * i):
                yield changed(data, at, bit)
        for at in (*range(1 + small, 8), *range(8 + 8 * large, 64)):
            yield changed(data, at, bit)


def every_call():
    return [call_of(number, halves) for number in USED if number != OPEN for halves in range(3)]


def limits():
    """Openings at each limit, accepted; and each area off its alignment, at the end of memory and beside each other one."""
    for right in (dict(D=1), dict(D=256), dict(E=1), dict(E=32), dict(ports=1), dict(ports=15), dict(C=1), dict(W=1), dict(W=65536)):
        yield [opening(**right)]
    parts = list(zip((64, 128, 4096, 8), (64 * 5, 128 * 5, 4096, 8 * 4)))
    for i, (by, size) in enumerate(parts):
        places = [AREAS[i] + 1, AREAS[i] + by // 2, AREAS[i] + by, 2**32 - size, 2**32 - size + by, 2**32, 2**64 - size, 2**64 - by, 0]
        for j, (_, other) in enumerate(parts):
            if j != i:
                after, before = -(-(AREAS[j] + other) // by) * by, (AREAS[j] - size) // by * by
                places += [after, after - by, before, before + by]
        yield [opening(areas=(*AREAS[:i], at, *AREAS[i + 1 :])) for at in places]


def logs():
    """Lists of records, each read from a fresh start; a record shorter than 64 bytes is a last one cut short."""
    yield []
    yield []
    after = record(ADDRESS)
    for number in range(256):
        if number not in USED:
            yield [record(number), after]
            yield [after, record(number)]
    for number in USED:
        yield [call_of(number, halves) for halves in range(3)]
        for bad in bad_records(number):
            yield [bad, after]
        for n in range(1, 64) if number in (OPEN, SUBMIT, DRAIN) else (1, 8, 63):
            yield [after, call_of(number, 2)[:n]]
    # what 01 says of calls before a first accepted opening, after a refused one, and after an accepted one
    calls = every_call()
    yield calls + [opening(D=0)] + calls + [opening()] + calls + [opening(E=0)] + calls
    for script in list(openings()) + list(limits()) + list(bring_ups()) + list(submits())[:2] + list(scans()):
        yield script
        yield script[:-1] + [changed(script[-1], 7, 1), script[-1]]
    draw = random.Random(2)
    for seed in range(100, 112):
        calls = drawn(seed, 40)
        yield calls
        # a byte of each call by chance
        for call in calls:
            yield [after, changed(call, draw.randrange(64), draw.choice([0, 1, 2, 3, 128, 255]))]
    yield from [*short_replies()][:1] + [*extra_records()][:2] + [*area_ends()]
    yield from [*packet_ends()][:1] + [*packet_openings()][:2] + [*packet_sets()][3:6] + [*packet_changes()]
    yield from [*toggle_reads()][:1] + [*toggle_halts()] + [*toggle_changes()][:1]
    yield from [*retried_reads()][:1] + [*retried_controls()][:1] + [*retried_cancels()][:1] + [*retried_slots()][:1]
    # call 12 was read without the token, and 21 was no call
    for word in (0, 1, BIT, 2**32 - 1, 2**32, 2**32 + BIT, 2**63, 2**64 - 1):
        yield started() + [endpoint(BULK), submit(0, BULK), cancel(0)] + answered() + [collect(0, overlay=word), submit(0, BULK)]
    for number in (21, 22):
        yield started() + [endpoint(BULK), record(number, (0,)), record(number, (1,)), record(number, (0, 1)), after]
    yield []


def make_log():
    """The one log of `replay`, last a record that is bad: its last byte is missing."""
    log = b"".join(call for script in scripts() for call in script) + record(DRAIN)[:63]
    return log, replay(log).encode()


def make_logs():
    """The logs of `replay_cases`: a byte above 64 begins each, and each record stands after its length."""
    many = list(logs())
    data = b"".join(b"\xff" + b"".join(bytes([len(call)]) + call for call in log) for log in many)
    return data, "".join("=\n" + replay(b"".join(log)) for log in many).encode()


def files():
    """The stored cases, by their names in the repository."""
    made = {"replay": make_log(), "replay_cases": make_logs()}
    return {f"crates/{program}/{name}": data for program, pair in made.items() for name, data in zip(("stdin", "stdout"), pair)}
