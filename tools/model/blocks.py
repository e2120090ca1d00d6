"""What the program `replay` prints of a log: of each call a block of lines, each with a letter.

C: the count, the call, the answer, its values. P, H, F, S: every changed descriptor, word of a head, frame entry (equal ones
that stand together as one line) and setup packet. U: every changed port. Q: the controller's state. W: the register writes.
Then a dot. A bad record is said in a line, and ends the log."""

from model.answers import DONE, FAILED
from model.calls import World, settings_of
from model.descriptors import HEAD_WORDS
from model.records import OPEN, POWER, SCAN, SCAN_STEP, START, STEP, read
from model.state import largest_rows

READS_NEXT = (START, STEP, SCAN, SCAN_STEP, POWER)


def values_shown(number, answer):
    """The register to read next in two hexadecimal digits, `-` for none; a token in eight; the rest decimal."""
    if answer.number == FAILED:
        token, *rest = answer.values
        return [f"{token:08x}", *map(str, rest)]
    if number in READS_NEXT and answer.values:
        register, *rest = answer.values
        return ["-" if register is None else f"{register:02x}", *map(str, rest)]
    return [str(value) for value in answer.values]


def call_line(count, number, answer):
    return " ".join(["C", str(count), str(number), str(answer.number), *values_shown(number, answer)])


def write_lines(answer):
    return [f"W {offset:02x} {value:08x}" for offset, value in answer.writes]


def changed(old, new):
    """The places at which two rows differ."""
    return [] if old == new else [at for at, (before, after) in enumerate(zip(old, new)) if before != after]


def frame_lines(old, new):
    """A line for each run of changed entries that have one value."""
    runs = []
    for at in changed(old, new):
        if runs and runs[-1][1] == at - 1 and new[at - 1] == new[at]:
            runs[-1][1] = at
        else:
            runs.append([at, at])
    return [f"F {first} {last} {new[first]:08x}" for first, last in runs]


def row_lines(old, new):
    for place in changed(old.pool, new.pool):
        yield " ".join(["P", str(place), *[f"{word:08x}" for word in new.pool[place].words()]])
    for at in changed(old.heads, new.heads):
        yield f"H {at // HEAD_WORDS} {at % HEAD_WORDS} {new.heads[at]:08x}"
    yield from frame_lines(old.frames, new.frames)
    for k in sorted({at // 8 for at in changed(old.setups, new.setups)}):
        yield f"S {k} {new.setups[8 * k : 8 * k + 8].hex()}"


def state_line(state):
    numbers = [state.running, state.enabled, state.doorbell, state.noted, state.unanswered()]
    registers = [f"{state.pending:08x}", f"{state.masked:08x}"]
    return " ".join(map(str, ["Q", *numbers, *registers, len(state.free_places()), state.address]))


class Replay:
    """A controller as `replay` keeps it: the first places of the largest rows are lent, as many as the settings say."""

    def __init__(self):
        self.world, self.count, self.opened = World(largest_rows()), 0, False

    def open(self, settings):
        """A refused opening changes nothing: whoever has a controller keeps it."""
        kept, self.world.lent = self.world.lent, settings.lengths()
        answer = self.world.open(settings)
        if answer.number == DONE:
            self.opened = True
        else:
            self.world.lent = kept
        return answer

    def port_lines(self, before, fresh):
        """The ports that changed; all of them after an accepted opening."""
        hub = self.world.hub
        ports = range(hub.ports) if fresh else changed(before, hub.states)
        return [f"U {i + 1} {hub.states[i]}" for i in ports]

    def block(self, record):
        """The lines of one record, or None for a bad one."""
        entry = read(record)
        if entry is None:
            return None
        number, small, numbers = entry
        rows, ports = self.world.rows.copy(), list(self.world.hub.states)
        if number == OPEN:
            answer = self.open(settings_of(small, numbers))
        else:
            answer = self.world.call(number, *small, *numbers)
        lines = [call_line(self.count, number, answer), *row_lines(rows, self.world.rows)]
        lines += self.port_lines(ports, number == OPEN and answer.number == DONE)
        if self.opened:
            lines.append(state_line(self.world.state))
        self.count += 1
        return lines + write_lines(answer) + ["."]


def replay(log):
    """What is printed of a log."""
    out, keeper = [], Replay()
    for at in range(0, len(log), 64):
        lines = keeper.block(log[at : at + 64])
        if lines is None:
            out.append(f"bad record {keeper.count}")
            break
        out += lines
    return "".join(line + "\n" for line in out)
