"""01, "Order of checks", and 02, orders 4 and 6: addresses; open endpoint, close, set address, set packet size, clear-halt."""

from model.answers import ENDPOINT, FULL, INVALID, LIMIT, UNSUPPORTED, Answer, need
from model.descriptors import CHARACTERISTICS, HEAD_WORDS, head, raised, with_address, with_packet_size
from model.ranges import packet_good
from model.state import CLOSED, IDLE, Slot
from model.tokens import ISOCHRONOUS


def allocate_address(state):
    """Addresses are allotted 1 to 127 in turn."""
    need(state.address <= 127, LIMIT)
    state.address += 1
    return Answer(values=(state.address - 1,))


def open_endpoint(state, rows, kind, address, number, packet):
    """5, then the ranges (1), then 2; the lowest closed slot is used. The packet size is kept and written as it is given."""
    need(kind != ISOCHRONOUS, UNSUPPORTED)
    need(address <= 127 and number <= 15 and packet_good(state.settings, kind, packet), INVALID)
    closed = [k for k in range(state.settings.E) if state.slots[k].phase == CLOSED]
    need(closed, LIMIT)
    k = closed[0]
    state.slots[k] = Slot(IDLE, kind, packet)
    rows.set_head(k, head(kind, address, number, packet))
    return Answer(values=(k,))


def check_idle(state, k, good=True):
    """Close, set address, set packet size, clear-halt: 3, 4, 1."""
    need(state.is_open(k), ENDPOINT)
    need(not state.slots[k].uncollected(), FULL)
    need(good, INVALID)


def close(state, rows, k):
    """A closed slot keeps nothing; its head is zeroed."""
    check_idle(state, k)
    state.slots[k] = Slot()
    rows.set_head(k, [0] * HEAD_WORDS)
    return Answer()


def set_address(state, rows, k, address):
    check_idle(state, k, address <= 127)
    rows.set_head(k, [with_address(rows.head_word(k, CHARACTERISTICS), address)], CHARACTERISTICS)
    return Answer()


def set_packet_size(state, rows, k, size):
    """It is judged after the raise to 8, and by the slot's kind, which only an open slot has."""
    check_idle(state, k)
    slot, packet = state.slots[k], raised(size)
    need(packet_good(state.settings, slot.kind, packet), INVALID)
    slot.packet = packet
    rows.set_head(k, [with_packet_size(rows.head_word(k, CHARACTERISTICS), size)], CHARACTERISTICS)
    return Answer()


def clear_halt(state, k):
    """02, order 6: on every kind, running or not. The device's toggle is 0 after it too."""
    check_idle(state, k)
    state.slots[k].toggle = 0
    return Answer()
