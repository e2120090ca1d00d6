"""A controller's state in words: the core, and the lent row of slots, six words of 64 bits a slot.

    word 0       from its lowest bit on: phase (2 bits), kind (2), packet size (11), toggle (1), direction (1), length (32), cancelled (1), boundary (14)
    word 1       the id of the slot's last request, 0 where there was none; an uncollected request has this id
    words 2 to 5 the places of the slot's request: bit i of the first is place i, of the second place 64 + i, and so on

The core has the settings, the state's other numbers, and the free places as four such words. What a call does is said of the
plain state that the words stand for: in ranges, the words after a call stand for the plain state after it; else 1."""

from copy import copy

from model.answers import DONE, INVALID, Answer
from model.calls import ON_HUB, World
from model.ranges import bring_up_good, doorbell_good, interrupts_good, packet_good, settings_good
from model.state import CLOSED, IDLE, LINKED, Slot, State
from model.tokens import INTERRUPT, ISOCHRONOUS

SLOT_WORDS, PLACE_WORDS = 6, 4
LAST_ID = 2**64 - 1
# of word 0: each field's lowest bit and how many it has
FIELDS = {"phase": (0, 2), "kind": (2, 2), "packet": (4, 11), "toggle": (15, 1), "direction": (16, 1), "length": (17, 32), "cancel": (49, 1), "boundary": (50, 14)}
# the core's numbers that the plain state has as they are
NUMBERS = ("running", "step", "waited", "address", "enabled", "pending", "masked", "noted", "doorbell")


# ---- places


def place_words(places):
    return [sum(2 ** (place % 64) for place in places if place // 64 == j) for j in range(PLACE_WORDS)]


def places_in(words):
    """Ascending."""
    return [64 * j + i for j, word in enumerate(words) if word for i in range(64) if word >> i & 1]


class Core:
    """What a call is given by value. Without a state, what a refused opening gives."""

    def __init__(self, state=State()):
        self.settings, self.unanswered, self.free = state.settings, state.unanswered(), place_words(state.free_places())
        self.__dict__.update({name: getattr(state, name) for name in NUMBERS})

    def plain(self):
        """The plain state but for its slots and owners. No unlink is answered yet: there are the unanswered."""
        state = State(self.settings)
        state.__dict__.update({name: getattr(self, name) for name in NUMBERS})
        state.unlinks = self.unanswered
        return state


# ---- from the plain state to words


def slot_words(state, k):
    """The last id of an idle slot is the one before its next; after 2^64 - 1 comes 1, which is also the first."""
    slot = state.slots[k]
    numbers = vars(slot) | {"boundary": state.still_to_come(slot)}
    first = sum(numbers[name] << low for name, (low, _) in FIELDS.items())
    last = slot.request if slot.uncollected() else slot.id - 1
    return [first, last, *place_words(state.places_of(k))]


def encode(state):
    """The core, and the row of slots."""
    return Core(state), [word for k in range(state.settings.E) for word in slot_words(state, k)]


# ---- and back


def of_slot(row, k):
    """The words of slot k."""
    return row[SLOT_WORDS * k : SLOT_WORDS * (k + 1)]


def slot_of(first, last):
    slot = Slot()
    slot.__dict__.update({name: first >> low & 2**width - 1 for name, (low, width) in FIELDS.items()})
    slot.id = 1 if last == LAST_ID else last + 1
    slot.request = last if slot.uncollected() else 0
    return slot


def view(core, row):
    """The plain state that words in their ranges stand for."""
    state = core.plain()
    for k in range(core.settings.E):
        first, last, *words = of_slot(row, k)
        state.slots[k] = slot_of(first, last)
        for place in places_in(words):
            state.owner[place] = k + 1
    return state


# ---- ranges


def first_bound(phase, kind, unanswered):
    """What word 0 is below. Its fields stand in the order in which a slot comes to have them."""
    if phase == CLOSED:
        return 1 if kind == 0 else 0
    if kind == ISOCHRONOUS:
        return 0
    if phase == IDLE:
        return 2**16
    if phase == LINKED:
        return 2**49
    return 2**64 if kind == INTERRUPT else (unanswered + 1) * 2**50


def slot_good(core, first, last, *places):
    phase, kind = first % 4, first // 4 % 4
    if first >= first_bound(phase, kind, core.unanswered):
        return False
    if phase == CLOSED:
        return last == 0 and not any(places)
    if not packet_good(core.settings, kind, first // 2**4 % 2**11):
        return False
    if phase == IDLE:
        return last != LAST_ID and not any(places)
    return last != 0


def places_good(core, row):
    """Each place below D is free or in one slot, and no other place is."""
    held = places_in(core.free)
    for k in range(core.settings.E):
        held += places_in(of_slot(row, k)[2:])
    return sorted(held) == list(range(core.settings.D))


def numbers_good(core):
    state = core.plain()
    return bring_up_good(state) and 1 <= state.address <= 128 and interrupts_good(state) and doorbell_good(state)


def good(core, row):
    """A core and the lent row of slots are in their ranges."""
    if not settings_good(core.settings) or len(row) != SLOT_WORDS * core.settings.E:
        return False
    slots = all(slot_good(core, *of_slot(row, k)) for k in range(core.settings.E))
    return slots and numbers_good(core) and places_good(core, row)


# ---- any call


class WordsWorld(World):
    """A world whose controller is a core and a row of slots, of which the first so many words are lent."""

    def __init__(self, rows, slots):
        self.slots, self.slots_lent = slots, 0
        super().__init__(rows)

    def lose(self):
        super().lose()
        self.core = Core()

    def copy(self):
        """Another world that is as this one."""
        other = copy(self)
        other.rows, other.slots, other.core, other.hub = self.rows.copy(), list(self.slots), copy(self.core), copy(self.hub)
        other.rows.setups, other.core.free, other.hub.states = bytearray(self.rows.setups), list(self.core.free), list(self.hub.states)
        return other

    def keep(self):
        """The words of the plain state that a call leaves."""
        self.core, row = encode(self.state)
        self.slots[: len(row)] = row

    def open(self, settings):
        if self.slots_lent != SLOT_WORDS * settings.E:
            return Answer(INVALID)
        answer = super().open(settings)
        if answer.number == DONE:
            self.keep()
        return answer

    def call(self, number, *given):
        if number in ON_HUB:
            return super().call(number, *given)
        row = self.slots[: self.slots_lent]
        if not good(self.core, row):
            return Answer(INVALID)
        self.state = view(self.core, row)
        answer = super().call(number, *given)
        self.keep()
        return answer
