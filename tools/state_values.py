"""The records that the program `state_checks` is run on, and what it must print (`tools/cases` writes both).

Calls on words and rows that no run of calls from an opening comes to (state_cases.py). What is printed is the model's
(tools/model): of a call its line and its writes, then a sum of the core and of each row. A sum is over all words in order, a
number of 64 bits as two, the lower first: the sum so far times 16777619, plus the next word, modulo 2^32. Of a trial there is
one line: how many calls were tried, and a sum over the bytes that would be printed of them."""

from operator import mul

import state_cases
from model.answers import DONE
from model.blocks import call_line, write_lines
from model.calls import settings_of
from model.descriptors import Descriptor
from model.records import OPEN, SUBMIT, USED, taken_apart
from model.state import Rows, Settings
from model.words import WordsWorld
from state_records import (
    BITS, ENTRIES, FREE, HEADS, LEND, NUMBERS, POOL, SET_FRAMES, SET_HEADS, SET_HUB, SET_NUMBER, SET_RECORD, SET_SETTING, SET_SETUPS, SET_WORD,
    SETUPS, SLOTS, TRIAL,
)  # fmt: skip


# ---- sums


# more than any row or text is long
POWERS = [pow(16777619, k, 2**32) for k in range(2**15)]


def summed(words):
    """The last word is taken once, the one before it times the prime, and so on."""
    return sum(map(mul, reversed(words), POWERS)) % 2**32


def halves(numbers):
    return [half for number in numbers for half in (number % 2**32, number >> 32)]


def of_records(records):
    return [word for descriptor in records for word in descriptor.words()]


class Sum:
    """The sum of a row, which is not made again while the row is the same."""

    def __init__(self, words):
        self.words, self.row, self.total = words, None, 0

    def of(self, row):
        if row != self.row:
            self.row, self.total = row[:], summed(self.words(row))
        return f"{self.total:08x}"


# ---- changes


def with_word(descriptor, j, value):
    words = descriptor.words()
    words[j] = value
    return Descriptor(*words[:3], tuple(words[3:8]), tuple(words[8:]))


def set_core(core, name, value):
    """A number of the core; of a wider value its lowest bits."""
    value %= 2 ** BITS.get(name, 64)
    if name in Settings._fields:
        core.settings = core.settings._replace(**{name: value})
    elif name in FREE:
        core.free[FREE.index(name)] = value
    else:
        setattr(core, name, value)


class Checks:
    """What `state_checks` keeps: a world whose rows are one longer than any opening lends them, of sevens."""

    def __init__(self):
        sevens = Descriptor(7, 7, 7, (7,) * 5, (7,) * 5)
        rows = Rows([sevens] * POOL, [7] * HEADS, [7] * ENTRIES, bytearray([7] * SETUPS))
        self.world, self.trial = WordsWorld(rows, [7] * SLOTS), None
        self.totals = [Sum(words) for words in (halves, halves, of_records, list, list, list, list)]
        self.count, self.lines = 0, []

    # ---- a call

    def open(self, settings):
        """A refused opening gives a core and a ports' record that no call accepts."""
        answer = self.world.open(settings)
        if answer.number != DONE:
            self.world.lose()
        return answer

    def call(self, number, small, numbers):
        few, some = USED[number]
        small, numbers = small[:few], numbers[:some]
        if number == OPEN:
            return self.open(settings_of(small, numbers))
        if number == SUBMIT and numbers[0] >> 48:
            # such a setup does not fit a log's record: the program gives USBCMD as 0 then
            numbers = (*numbers[:3], 0)
        return self.world.call(number, *small, *numbers)

    def sums(self):
        core, rows, hub = self.world.core, self.world.rows, self.world.hub
        numbers = [*core.settings, *(getattr(core, name) for name in NUMBERS if name not in FREE), *core.free]
        ports = [hub.ports, *hub.states, hub.port, hub.step]
        summed_rows = (numbers, self.world.slots, rows.pool, rows.heads, rows.frames, rows.setups, ports)
        return " ".join(total.of(row) for total, row in zip(self.totals, summed_rows))

    def said(self, number, small, numbers):
        """The lines of a call."""
        answer = self.call(number, small, numbers)
        return [call_line(self.count, number, answer), *write_lines(answer), f"S {self.sums()}"]

    # ---- a change

    def change(self, number, field, numbers):
        world, (at, value, *_) = self.world, numbers
        if number == SET_SETTING:
            set_core(world.core, Settings._fields[field], value)
        elif number == SET_NUMBER:
            set_core(world.core, NUMBERS[field], value)
        elif number == SET_WORD:
            world.slots[at : at + field + 1] = numbers[1 : field + 2]
        elif number == SET_RECORD:
            world.rows.pool[at] = with_word(world.rows.pool[at], field, value)
        elif number in (SET_HEADS, SET_FRAMES, SET_SETUPS):
            [world.rows.heads, world.rows.frames, world.rows.setups][number - SET_HEADS][at] = value
        elif number == LEND:
            world.lent, world.slots_lent = [numbers[0], *numbers[2:5]], numbers[1]

    def change_hub(self, small, numbers):
        hub = self.world.hub
        hub.ports, hub.port, hub.step = small[:3]
        hub.states[numbers[0]] = numbers[1]

    # ---- a trial

    def tried(self, call):
        """A trial's line. Each state is tried on a world of its own."""
        _, (number, field, bits, *_), (at, value, *_) = self.trial
        kept, text = self.world, ""
        for bit in range(bits):
            self.world = kept.copy()
            self.change(number, field, (at, value ^ 1 << bit))
            text += "".join(line + "\n" for line in self.said(*call))
        self.world, self.trial = kept, None
        return f"S {bits} {summed(text.encode()):08x}"

    def record(self, record):
        number, small, numbers = parts = taken_apart(record)
        if number == TRIAL:
            self.trial = parts
        elif number == SET_HUB:
            self.change_hub(small, numbers)
        elif number >= SET_SETTING:
            self.change(number, small[1], numbers)
        elif self.trial:
            self.lines.append(self.tried(parts))
        else:
            self.lines += self.said(*parts)
        self.count += 1


def printed(log):
    """What is printed of such records."""
    checks = Checks()
    for at in range(0, len(log), 64):
        checks.record(log[at : at + 64])
    return "".join(line + "\n" for line in checks.lines)


def files():
    """The stored cases, by their names in the repository."""
    log = b"".join(state_cases.records())
    return {"crates/state_checks/stdin": log, "crates/state_checks/stdout": printed(log).encode()}
