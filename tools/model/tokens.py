"""01, "Tokens and plans" (EHCI 3.5.3): tokens, what a request is cut into, how many descriptors it needs."""

from typing import NamedTuple

from model.registers import field

CONTROL, ISOCHRONOUS, BULK, INTERRUPT = range(4)
OUT, IN, SETUP = range(3)


def token(pid, size, interrupt=False, toggle=False):
    """A fresh token: error counter 3, active."""
    word = pid * 256 + min(size, 32767) * 65536 + 3 * 1024 + 128
    return word + 32768 * bool(interrupt) + 2**31 * bool(toggle)


def active(word):
    return field(word, 7, 1) == 1


def has_error(word):
    """02, order 7: bit 6, Halted, alone: with it clear, bits 3 to 5 are no error."""
    return field(word, 6, 1) == 1


def retried(word):
    """02, order 7: bit 3, a transaction error; without bit 6 a retry of that packet went through."""
    return field(word, 3, 1) == 1


def bytes_left(word):
    return field(word, 16, 15)


def toggle_of(word):
    return field(word, 31, 1)


def overlay_token(kind, toggle):
    """02, order 6: the overlay's token at submit, the slot's toggle alone. A control head takes its toggles from the descriptors: 0."""
    return 0 if kind == CONTROL else 2**31 * toggle


class Part(NamedTuple):
    """What one descriptor of a request is for: its token, and where it moves how many bytes."""

    token: int
    address: int
    length: int


def working_limit(kind, limit, packet):
    """02, order 4: for bulk and interrupt the largest multiple of the packet size that is not above the limit. A packet shorter than the
    others ends a transfer (USB 5.8.3), so no chunk but the last may end in one. Control data is one descriptor: no limit cuts it."""
    return limit if kind == CONTROL else limit // packet * packet


def chunks(length, limit):
    """Chunks of the limit, then the rest; length 0 is one chunk of 0."""
    return [min(limit, length - at) for at in range(0, length, limit)] or [0]


def chunk_length(k, length, limit):
    """02, order 3: chunk k's length, k from 0, by arithmetic alone."""
    return max(0, min(limit, length - k * limit))


def control_plan(direction, setup_at, address, length):
    """Setup, data if there is any, status: Out after In data, otherwise In."""
    setup = Part(token(SETUP, 8), setup_at, 8)
    data = [Part(token(direction, length, toggle=True), address, length)] if length > 0 else []
    status = OUT if direction == IN and length > 0 else IN
    return [setup, *data, Part(token(status, 0, interrupt=True, toggle=True), 0, 0)]


def chunk_plan(direction, address, length, limit):
    """Bulk and interrupt: toggle 0, only the last interrupts."""
    sizes = chunks(length, limit)
    last = len(sizes) - 1
    return [Part(token(direction, size, interrupt=i == last), address + limit * i, size) for i, size in enumerate(sizes)]


def data_bytes(kind, length, limit):
    """How many bytes of the buffer each descriptor of a request is asked to move, in order."""
    if kind == CONTROL:
        return iter([0, length, 0] if length > 0 else [0, 0])
    return (min(limit, length - at) for at in range(0, max(1, length), limit))


def may_end_short(kind, direction):
    """02, order 1: bulk and interrupt In requests; one of a single descriptor has none after it that could be left out."""
    return kind != CONTROL and direction == IN


def descriptors_needed(kind, length, limit):
    """Control 2, or 3 with data; else 1 at length 0, otherwise length / limit rounded up; the limit is the working one."""
    if kind == CONTROL:
        return 3 if length > 0 else 2
    return -(-length // limit) if length > 0 else 1
