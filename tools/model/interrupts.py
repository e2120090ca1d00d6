"""01, "Interrupts" (EHCI 2.3): acknowledge, drain, rearm, enable, disable."""

from model.answers import Answer
from model.registers import USBINTR, USBSTS, without
from model.schedule import count_advance

NOTHING, PORT_CHANGE, TRANSFER_ACTIVITY, STOPPED = (0, 0), (1, 0), (2, 1), (3, 0)
PORT_BIT, ADVANCE, TRANSFER_BITS = 4, 0x20, 0x23
TAKEN, MASKABLE = 0x37, 0x27


def acknowledge(state, first, second, status, interrupts):
    """It answers yes or no; `first` and `second` are the two readings of the flag."""
    p = status & TAKEN
    if p == 0:
        return Answer(values=(0,))
    by = lambda flag: (USBINTR, without(interrupts, p & MASKABLE) if flag else 0)
    writes = [(USBSTS, p), by(first)]
    if first != second:
        writes.append(by(second))
    state.pending |= p
    state.masked |= p & MASKABLE
    if p & ADVANCE and state.doorbell:
        state.noted = 1
    return Answer(values=(1,), writes=tuple(writes))


def take_event(state):
    """Port change first, then bits 0, 1, 5, then what is left."""
    if state.pending & PORT_BIT:
        state.pending &= ~PORT_BIT
        return PORT_CHANGE
    if state.pending & TRANSFER_BITS:
        state.pending &= ~TRANSFER_BITS
        return TRANSFER_ACTIVITY
    state.pending = 0
    return STOPPED


def drain(state, command):
    if state.pending == 0:
        return Answer(values=NOTHING)
    writes = count_advance(state, command) if state.noted else ()
    return Answer(values=take_event(state), writes=writes)


def flag_write(state):
    return USBINTR, MASKABLE if state.enabled else 0


def rearm(state):
    if state.masked == 0:
        return Answer()
    state.masked = 0
    return Answer(writes=(flag_write(state),))


def set_enabled(state, flag):
    """Enable and disable."""
    state.enabled = flag
    return Answer(writes=(flag_write(state),))
