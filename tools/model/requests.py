"""01, "Order of checks" and "Descriptors, heads, links", and 02, orders 1, 4 and 6: submit and writeback."""

from model.answers import ENDPOINT, FULL, INVALID, MEMORY, NOT_READY, UNSUPPORTED, Answer, need
from model.descriptors import END, OVERLAY, descriptor, setup_packet
from model.registers import RUN_BITS, command as command_write
from model.schedule import attach
from model.state import LINKED
from model.tokens import CONTROL, ISOCHRONOUS, chunk_plan, control_plan, descriptors_needed, may_end_short, overlay_token


def buffer_good(kind, direction, setup, address, length):
    """The ranges: any address at length 0; of control also the length, six setup bytes, and their direction bit."""
    if length > 0 and address + length > 2**32:
        return False
    return kind != CONTROL or length <= 16384 and setup < 2**48 and setup >> 7 & 1 == direction


def plan(settings, k, kind, direction, address, length, limit):
    if kind == CONTROL:
        return control_plan(direction, settings.setup_address(k), address, length)
    return chunk_plan(direction, address, length, limit)


def alternate_for(settings, kind, direction):
    """02, order 1: where every descriptor of a request but the last leads when it is short."""
    return settings.shared_address() if may_end_short(kind, direction) else END


def write_chain(settings, rows, parts, places, alternate):
    """The request's descriptors, each leading to the one that follows; the last has END for both."""
    following = [settings.descriptor_address(place) for place in places[1:]] + [END]
    alternates = [alternate] * len(places[1:]) + [END]
    for place, part, after, short in zip(places, parts, following, alternates):
        rows.pool[place] = descriptor(part, after, short)


def take_places(state, k, count):
    """The lowest-numbered free descriptors, ascending."""
    places = state.free_places()[:count]
    for place in places:
        state.owner[place] = k + 1
    return places


def hold_request(slot, direction, length):
    """The slot's next request; its id. Ids start at 1; after 2^64 - 1 comes 1."""
    slot.phase, slot.request, slot.direction, slot.length = LINKED, slot.id, direction, length
    slot.id = 1 if slot.id == 2**64 - 1 else slot.id + 1
    return slot.request


def submit(state, rows, k, kind, direction, setup, address, length, command):
    need(state.is_open(k), ENDPOINT)
    slot, settings = state.slots[k], state.settings
    need(state.running, NOT_READY)
    need(not slot.uncollected(), FULL)
    need(kind != ISOCHRONOUS, UNSUPPORTED)
    need(kind == slot.kind, ENDPOINT)
    need(buffer_good(kind, direction, setup, address, length), INVALID)
    limit = state.limit_of(slot)
    count = descriptors_needed(kind, length, limit)
    need(len(state.free_places()) >= count, MEMORY)
    places = take_places(state, k, count)
    parts = plan(settings, k, kind, direction, address, length, limit)
    write_chain(settings, rows, parts, places, alternate_for(settings, kind, direction))
    if kind == CONTROL:
        rows.set_setup(k, setup_packet(setup, length))
    rows.set_head(k, [settings.descriptor_address(places[0]), END, overlay_token(kind, slot.toggle)], OVERLAY)
    attach(state, rows, k)
    request = hold_request(slot, direction, length)
    return Answer(values=(request,), writes=(command_write(command | RUN_BITS),), places=tuple(places))


def writeback(state, rows, place, token):
    """1 unless an uncollected request has that descriptor; only its token changes."""
    owner = state.owner[place] if place < state.settings.D else 0
    need(owner and state.slots[owner - 1].uncollected(), INVALID)
    rows.pool[place] = rows.pool[place]._replace(token=token)
    return Answer(places=(place,))
