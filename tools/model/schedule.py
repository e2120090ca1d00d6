"""01, "Descriptors, heads, links" and "Unlinking and collecting" (EHCI 4.8.2): heads that are linked and unlinked, the
doorbell, the boundary."""

from model.answers import ENDPOINT, need
from model.descriptors import LINK, leads_to, link_value
from model.registers import ring
from model.state import LINKED, UNLINKING

RING = -1  # the ring head, in place of a slot


def attach(state, rows, k):
    """A control or bulk head goes in just after the ring head, an interrupt head before what the frame entries lead to."""
    own = link_value(state.settings.head_address(k))
    if state.slots[k].periodic():
        rows.set_head(k, [rows.frames[0]], LINK)
        rows.set_frames(own)
    else:
        rows.set_head(k, [rows.head_word(RING, LINK)], LINK)
        rows.set_head(RING, [own], LINK)


def predecessors(state, rows, k):
    """The linked heads of the same schedule that lead to slot k's, lowest slot first."""
    address = state.settings.head_address(k)
    for j, other in enumerate(state.slots):
        same = other.phase == LINKED and other.periodic() == state.slots[k].periodic()
        if same and j != k and leads_to(rows.head_word(j, LINK), address):
            yield j


def detach(state, rows, k):
    """The predecessor (or the frame entries) gets the head's link; the head's own stays. No predecessor: 3."""
    periodic, address = state.slots[k].periodic(), state.settings.head_address(k)
    link = rows.head_word(k, LINK)
    if periodic and leads_to(rows.frames[0], address):
        rows.set_frames(link)
    elif not periodic and leads_to(rows.head_word(RING, LINK), address):
        rows.set_head(RING, [link], LINK)
    else:
        before = list(predecessors(state, rows, k))
        need(before, ENDPOINT)
        rows.set_head(before[0], [link], LINK)


def ring_if_due(state, command):
    """If the doorbell is down and an unlink is unanswered, it is rung."""
    if state.doorbell or state.unanswered() == 0:
        return ()
    state.doorbell = 1
    return (ring(command),)


def unlink(state, rows, k, command, frame):
    """The writes of an unlink. Its boundary is its number, or FRINDEX for an interrupt head."""
    slot = state.slots[k]
    detach(state, rows, k)
    slot.phase = UNLINKING
    if slot.periodic():
        slot.boundary = frame % 16384
        return ()
    state.unlinks += 1
    slot.boundary = state.unlinks
    return ring_if_due(state, command)


def count_advance(state, command):
    """A noted advance counts once: doorbell down, answered + 1, note cleared, rung again if unlinks remain."""
    state.noted = state.doorbell = 0
    state.answered += 1
    return ring_if_due(state, command)


def boundary_passed(state, slot, frame):
    """Answered unlinks reach its number, or FRINDEX is 9 or more on."""
    if slot.periodic():
        return (frame - slot.boundary) % 16384 >= 9
    return state.answered >= slot.boundary
