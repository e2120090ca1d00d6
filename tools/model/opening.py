"""01, "Opening a controller"."""

from model.answers import INVALID, need
from model.descriptors import END, HEAD_WORDS, SHARED, Descriptor, ring_head
from model.ranges import settings_good
from model.state import Hub, State


def open_controller(settings, rows, lent):
    """The state and the ports' record of a controller that is opened; `lent` are the lengths of the rows.

    Every row is zeroed but ring head, frame entries and (02, order 1) the shared descriptor; interrupts are off, ports Uninit."""
    need(settings_good(settings) and lent == settings.lengths(), INVALID)
    rows.pool[: settings.pool_length()] = [Descriptor()] * settings.D + [SHARED]
    rows.heads[: HEAD_WORDS * (settings.E + 1)] = ring_head(settings.heads_at) + [0] * (HEAD_WORDS * settings.E)
    rows.set_frames(END)
    for k in range(settings.E):
        rows.set_setup(k, bytes(8))
    return State(settings), Hub(settings.ports)
