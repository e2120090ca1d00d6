"""01, "Order of checks. First: a lent row of a length other than opening fixed, or a state outside its ranges, 1."

The ranges of what is opened are 01's ("Opening a controller"), with the descriptors' area of 02, order 1; a packet size's are 01's with
02, order 4; a toggle is 02's order 6; those of the rest of a state are docs/DECISIONS.md's."""

from functools import cache

from model.state import CLOSED, IDLE, LINKED, MOST_SLOTS, UNLINKING
from model.tokens import BULK, CONTROL, INTERRUPT


def areas(settings):
    """Of each of the four areas: where it begins, its size, and what its address is a multiple of."""
    return [
        (settings.pool_at, 64 * settings.pool_length(), 64),
        (settings.heads_at, 128 * (settings.E + 1), 128),
        (settings.frames_at, 4096, 4096),
        (settings.setups_at, 8 * settings.E, 8),
    ]


def areas_apart(settings):
    """No two overlap; two may touch."""
    spans = sorted((start, size) for start, size, _ in areas(settings))
    return all(start + size <= after for (start, size), (after, _) in zip(spans, spans[1:]))


@cache
def settings_good(settings):
    most = {"D": 256, "E": 32, "ports": 15, "C": 16384, "W": 65536}
    if not all(1 <= getattr(settings, name) <= bound for name, bound in most.items()):
        return False
    aligned = all(start % multiple == 0 for start, _, multiple in areas(settings))
    below = all(start + size <= 2**32 for start, size, _ in areas(settings))
    return aligned and below and areas_apart(settings)


def packet_good(settings, kind, packet):
    """02, order 4: of a bulk or interrupt endpoint at most C, so that one packet at least is in the limit."""
    return 1 <= packet <= 1024 and (kind == CONTROL or packet <= settings.C)


def request_empty(state, slot):
    return slot.request == slot.direction == slot.length == slot.cancel == state.still_to_come(slot) == 0


def request_good(state, slot):
    """An uncollected request: it has an id; while it is linked it is not cancelled and has no boundary."""
    if slot.request < 1 or slot.direction > 1:
        return False
    boundary = state.still_to_come(slot)
    if slot.phase == LINKED:
        return slot.cancel == boundary == 0
    return slot.cancel <= 1 and boundary <= (16383 if slot.periodic() else state.unanswered())


def slot_good(state, slot):
    if slot.phase == CLOSED:
        return slot.kind == slot.packet == slot.toggle == 0 and slot.id == 1 and request_empty(state, slot)
    if slot.kind not in (CONTROL, BULK, INTERRUPT) or slot.toggle > 1 or slot.id < 1:
        return False
    if not packet_good(state.settings, slot.kind, slot.packet):
        return False
    if slot.phase == IDLE:
        return request_empty(state, slot)
    return slot.phase in (LINKED, UNLINKING) and request_good(state, slot)


def slots_good(state):
    """Slots from E on are closed."""
    beyond = state.slots[state.settings.E :]
    return all(slot.phase == CLOSED for slot in beyond) and all(slot_good(state, slot) for slot in state.slots)


def owners_good(state):
    """An owner is at most E; from D on there is none."""
    D, E = state.settings.D, state.settings.E
    return max(state.owner[:D]) <= E and not any(state.owner[D:])


def bring_up_good(state):
    return state.running <= 1 and state.step <= 6 and state.waited < state.settings.W


def interrupts_good(state):
    return state.enabled <= 1 and state.pending & ~0x37 == 0 and state.masked & ~0x27 == 0


def doorbell_good(state):
    """A note only with the doorbell up, which is up only while an unlink is unanswered; at most 32 are."""
    unanswered = state.unanswered()
    return state.noted <= state.doorbell <= min(1, unanswered) and unanswered <= MOST_SLOTS


def in_ranges(state):
    return (
        settings_good(state.settings)
        and bring_up_good(state)
        and 1 <= state.address <= 128
        and interrupts_good(state)
        and doorbell_good(state)
        and owners_good(state)
        and slots_good(state)
    )
