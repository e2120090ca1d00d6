"""What a controller keeps and the rows that it is lent (docs/DECISIONS.md: the state has numbers only, one form for a
closed slot, an owner for each descriptor). Unlinks are counted as 01 counts them, from 1 and without end."""

from typing import NamedTuple

from model.descriptors import HEAD_WORDS, Descriptor
from model.tokens import CONTROL, INTERRUPT, working_limit

CLOSED, IDLE, LINKED, UNLINKING = range(4)
MOST_SLOTS, MOST_DESCRIPTORS, MOST_PORTS, FRAMES = 32, 256, 15, 1024


class Settings(NamedTuple):
    """What a controller is opened with: the counts and limits, then the four areas' addresses."""

    D: int = 0
    E: int = 0
    ports: int = 0
    C: int = 0
    W: int = 0
    pool_at: int = 0
    heads_at: int = 0
    frames_at: int = 0
    setups_at: int = 0

    def pool_length(self):
        """02, order 1: D descriptors, and at place D the shared one, which is never lent out."""
        return self.D + 1

    def descriptor_address(self, place):
        return self.pool_at + 64 * place

    def shared_address(self):
        return self.descriptor_address(self.D)

    def head_address(self, slot):
        """Place 0 is the ring head, slot k at place k + 1."""
        return self.heads_at + 128 * (slot + 1)

    def setup_address(self, slot):
        return self.setups_at + 8 * slot

    def lengths(self):
        """The lengths of the four rows: descriptors, heads' words, frame entries, setup bytes."""
        return [self.pool_length(), HEAD_WORDS * (self.E + 1), FRAMES, 8 * self.E]


class Slot:
    """An endpoint slot. `packet` is the packet size (02, order 4): the slot's own, since a lent head's may be altered, and 0 in a closed one.
    `toggle` is that of the endpoint's next packet (02, order 6): 0 from its opening on, till a collect that passes is given another.
    `id` is the next request's; the last five are the uncollected request's, 0 where there is none."""

    def __init__(self, phase=CLOSED, kind=CONTROL, packet=0, toggle=0):
        self.phase, self.kind, self.packet, self.toggle, self.id = phase, kind, packet, toggle, 1
        self.forget()

    def forget(self):
        """No request; the toggle stays. The boundary is an unlink's number, or the FRINDEX at which an interrupt request was unlinked."""
        self.request = self.direction = self.length = self.cancel = self.boundary = 0

    def uncollected(self):
        return self.phase in (LINKED, UNLINKING)

    def periodic(self):
        """Its head goes into the frame list, and not into the ring."""
        return self.kind == INTERRUPT


class State:
    """A controller as opening leaves it; the constant of a refused opening without settings."""

    def __init__(self, settings=Settings()):
        self.settings = settings
        self.running = self.step = self.waited = 0  # bring-up: its step, and the reads of that step's wait
        self.address = 1  # the address that is allotted next
        self.enabled = self.pending = self.masked = 0
        self.noted = self.doorbell = 0  # an advance is noted; the doorbell is up
        self.unlinks = self.answered = 0
        self.slots = [Slot() for _ in range(MOST_SLOTS)]
        self.owner = [0] * MOST_DESCRIPTORS  # of each descriptor: 0 free, k + 1 of slot k

    def is_open(self, k):
        return k < self.settings.E and self.slots[k].phase != CLOSED

    def limit_of(self, slot):
        """What a slot's requests are cut by."""
        return working_limit(slot.kind, self.settings.C, slot.packet)

    def unanswered(self):
        return self.unlinks - self.answered

    def still_to_come(self, slot):
        """The boundary as the state's numbers have it: advances still waited for, or the FRINDEX."""
        return slot.boundary if slot.periodic() else max(0, slot.boundary - self.answered)

    def free_places(self):
        return [place for place in range(self.settings.D) if self.owner[place] == 0]

    def places_of(self, k):
        """The descriptors of slot k's request, in order: a submit takes them ascending."""
        return [place for place in range(self.settings.D) if self.owner[place] == k + 1]


class Hub:
    """The root ports' record: a state for each port, the port that a scan is at, and what it awaits there (0, 0: none)."""

    def __init__(self, ports=0):
        self.ports, self.states, self.port, self.step = ports, [0] * MOST_PORTS, 0, 0


class Rows:
    """The four rows: descriptors, heads, frame entries, setup packets."""

    def __init__(self, pool, heads, frames, setups):
        self.pool, self.heads, self.frames, self.setups = pool, heads, frames, setups

    def copy(self):
        """The rows as they are: a record of the pool is never changed, but replaced."""
        return Rows(list(self.pool), list(self.heads), list(self.frames), bytes(self.setups))

    def set_head(self, k, words, at=0):
        """Words of slot k's head, from word `at` on (slot -1: the ring head)."""
        start = HEAD_WORDS * (k + 1) + at
        self.heads[start : start + len(words)] = words

    def head_word(self, k, at):
        return self.heads[HEAD_WORDS * (k + 1) + at]

    def set_frames(self, word):
        """All 1,024 entries."""
        self.frames[:FRAMES] = [word] * FRAMES

    def set_setup(self, k, packet):
        self.setups[8 * k : 8 * k + 8] = packet


def largest_rows():
    """Rows for any controller, of zeros."""
    pool, heads, frames, setups = Settings(MOST_DESCRIPTORS, MOST_SLOTS).lengths()
    return Rows([Descriptor()] * pool, [0] * heads, [0] * frames, bytearray(setups))
