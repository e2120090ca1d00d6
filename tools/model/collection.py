"""01, "Unlinking and collecting", and 02, orders 1 (EHCI 4.10), 4, 6 (EHCI 4.10.2) and 7 (EHCI 3.5.3): cancel and collect."""

from typing import NamedTuple

from model.answers import CANCELLED, DONE, ENDPOINT, FAILED, INVALID, PENDING, Answer, need
from model.descriptors import CURRENT, RESTING
from model.schedule import boundary_passed, unlink
from model.state import IDLE, LINKED, MOST_SLOTS
from model.tokens import active, bytes_left, data_bytes, has_error, may_end_short, retried, toggle_of


class Seen(NamedTuple):
    """What a request's descriptors show: whether it is finished; of those that are read the first erring token (0 if none errs), the length,
    and how many were retried."""

    finished: bool
    failed: int
    length: int
    retried: int


def ended_short(token):
    """Inactive, without error, with bytes left, whatever was requested."""
    return not active(token) and not has_error(token) and bytes_left(token) > 0


def finished(tokens, may_be_short):
    """In order, every descriptor is inactive, or before any active one comes an error or, where that may be, one that ended short."""
    for token in tokens:
        if active(token):
            return False
        if has_error(token):
            return True
        if may_be_short and ended_short(token):
            return True
    return True


def up_to_short(tokens):
    """Up to and with the first that ended short, whether or not an active one stands before it; all where none did."""
    for count, token in enumerate(tokens, 1):
        if ended_short(token):
            return tokens[:count]
    return tokens


def first_erring(tokens):
    for token in tokens:
        if has_error(token):
            return token
    return 0


def moved(slot, limit, tokens):
    """The sum over data descriptors of max(0, requested - bytes left). The limit is still the submit's: a busy slot's size cannot be set."""
    requested = data_bytes(slot.kind, slot.length, limit)
    return sum(max(0, size - bytes_left(token)) for size, token in zip(requested, tokens))


def how_many_retried(tokens):
    """02, order 7: setup and status included, active or not."""
    return sum(retried(token) for token in tokens)


def see(state, rows, k):
    slot, tokens = state.slots[k], [rows.pool[place].token for place in state.places_of(k)]
    may_be_short = may_end_short(slot.kind, slot.direction)
    read = up_to_short(tokens) if may_be_short else tokens
    return Seen(finished(tokens, may_be_short), first_erring(read), moved(slot, state.limit_of(slot), read), how_many_retried(read))


def check_uncrowded(state, k):
    """A linked slot while 32 unlinks are unanswered is outside the ranges: they are those of 32 other slots."""
    linked = k < MOST_SLOTS and state.slots[k].phase == LINKED
    need(not linked or state.unanswered() < MOST_SLOTS, INVALID)


def cancel(state, rows, k, id, command, frame):
    """It marks the request, and unlinks unless it is already unlinking."""
    check_uncrowded(state, k)
    need(state.is_open(k), ENDPOINT)
    slot = state.slots[k]
    need(slot.uncollected(), ENDPOINT)
    need(slot.request == id, ENDPOINT)
    linked = slot.phase == LINKED
    writes = unlink(state, rows, k, command, frame) if linked else ()
    slot.cancel = 1
    return Answer(writes=writes)


def collect(state, rows, k, id, command, frame, overlay):
    """`overlay` is the token of the head's overlay as the controller left it; only a collect that passes looks at it."""
    check_uncrowded(state, k)
    need(state.is_open(k), ENDPOINT)
    slot = state.slots[k]
    if not slot.uncollected():
        return Answer(PENDING)
    need(slot.request == id, ENDPOINT)
    seen = see(state, rows, k)
    if slot.phase == LINKED:
        return Answer(PENDING, writes=unlink(state, rows, k, command, frame) if seen.finished else ())
    if not boundary_passed(state, slot, frame):
        return Answer(PENDING)
    return gather(state, rows, k, seen, overlay)


def gather(state, rows, k, seen, overlay):
    """Passed: the toggle kept, descriptors freed, current 0, overlay terminated; Cancelled, else Failed, else complete: the length,
    and always how many were retried."""
    slot = state.slots[k]
    cancelled = slot.cancel
    slot.toggle = toggle_of(overlay)
    state.owner = [0 if owner == k + 1 else owner for owner in state.owner]
    rows.set_head(k, RESTING, CURRENT)
    slot.phase = IDLE
    slot.forget()
    if cancelled:
        return Answer(CANCELLED)
    if seen.failed:
        return Answer(FAILED, (seen.failed,))
    return Answer(DONE, (seen.length, seen.retried))
