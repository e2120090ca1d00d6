"""01, "Ports and bring-up": bring-up, one step for each read. An answer has the register to read next (None at the end)
and the milliseconds to wait before it; the two zeros after them are a scan's event and its port."""

from model.answers import FULL, INVALID, TIMEOUT, Answer, need
from model.registers import (
    ASYNCLISTADDR, CONFIGFLAG, CTRLDSSEGMENT, HALTED, PERIODICLISTBASE, RESET_BIT, RUN_BITS, USBCMD, USBINTR, USBSTS, command, without,
)  # fmt: skip

# the stages, and the register that each of them reads
STOP, HALTING, RESET, RESETTING, RUN, STARTING = range(1, 7)
READS = {STOP: USBCMD, HALTING: USBSTS, RESET: USBCMD, RESETTING: USBCMD, RUN: USBCMD, STARTING: USBSTS}


def next_read(register, wait=0):
    return register, wait, 0, 0


def start(state):
    """4 while any slot has an uncollected request. It starts one already begun over, and first disables."""
    need(not any(slot.uncollected() for slot in state.slots), FULL)
    state.running, state.step, state.waited, state.enabled = 0, STOP, 0, 0
    return Answer(values=next_read(USBCMD), writes=((USBINTR, 0),))


def ready(stage, v):
    """Whether the read ends a wait; the stages that do not wait take any."""
    if stage == HALTING:
        return v & HALTED != 0
    if stage == RESETTING:
        return v & RESET_BIT == 0
    if stage == STARTING:
        return v & HALTED == 0
    return True


def stage_writes(settings, stage, v):
    if stage == STOP:
        return (command(without(v, RUN_BITS)),)
    if stage == RESET:
        return (command(v | RESET_BIT),)
    if stage == RESETTING:
        bases = ((PERIODICLISTBASE, settings.frames_at), (ASYNCLISTADDR, settings.heads_at))
        return ((CTRLDSSEGMENT, 0), *bases, (CONFIGFLAG, 1), (USBSTS, 0x3F))
    if stage == RUN:
        return (command(v | RUN_BITS),)
    return ()


def read_again(state):
    """One more read of a wait that is not ready; the W-th answers 7."""
    state.waited += 1
    if state.waited < state.settings.W:
        return Answer(values=next_read(READS[state.step]))
    state.step = state.waited = 0
    return Answer(TIMEOUT)


def step(state, v):
    """Not running till the end, nor after 7."""
    need(state.step, INVALID)
    state.running = 0
    if not ready(state.step, v):
        return read_again(state)
    writes = stage_writes(state.settings, state.step, v)
    state.waited = 0
    if state.step == STARTING:
        state.running, state.step = 1, 0
        return Answer(values=next_read(None, 100), writes=writes)
    state.step += 1
    return Answer(values=next_read(READS[state.step]), writes=writes)
