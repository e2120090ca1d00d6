"""01, "Examples": the job sheet, and what the program `sheet` prints of one."""

import struct

from model.answers import DONE, ENDPOINT
from model.calls import World
from model.records import OPEN_ENDPOINT, START, STEP, SUBMIT
from model.state import Settings, largest_rows
from model.tokens import CONTROL

SETTINGS = Settings(D=16, E=8, ports=1, C=16384, W=1, pool_at=0x100000, heads_at=0x200000, frames_at=0x300000, setups_at=0x400000)
ENDPOINT_RECORD, REQUEST_RECORD = struct.Struct("<BBBBH"), struct.Struct("<BB6sQI")
# halted, not in reset, not halted: readings with which no wait of bring-up waits
READINGS = (0, 0x1000, 0, 0, 0, 0)


def section(sheet, at, layout, most):
    """The records of a section that begins at a byte, and where it ends; None if it is not there."""
    count = int.from_bytes(sheet[at : at + 2], "little")
    end = at + 2 + count * layout.size
    if len(sheet) < at + 2 or count > most or len(sheet) < end:
        return None
    return [layout.unpack_from(sheet, at + 2 + layout.size * i) for i in range(count)], end


def request_good(endpoints, record, direction, setup):
    """Setup bytes are 0 unless the request's record is control."""
    control = record < len(endpoints) and endpoints[record][0] == CONTROL
    return direction <= 1 and (control or setup == bytes(6))


def read(sheet):
    """The two lists of records, or None."""
    first = section(sheet, 0, ENDPOINT_RECORD, 8)
    second = first and section(sheet, first[1], REQUEST_RECORD, 64)
    if not second or second[1] != len(sheet):
        return None
    endpoints, requests = first[0], second[0]
    if any(kind > 3 or zero != 0 for kind, _, _, zero, _ in endpoints):
        return None
    if not all(request_good(endpoints, record, direction, setup) for record, direction, setup, _, _ in requests):
        return None
    return endpoints, requests


def running_controller():
    world = World(largest_rows())
    world.lent = SETTINGS.lengths()
    answers = [world.open(SETTINGS), world.call(START)] + [world.call(STEP, v) for v in READINGS]
    assert all(answer.number == DONE for answer in answers) and world.state.running
    return world


def descriptor_line(world, place):
    d = world.rows.pool[place]
    return " ".join([f"D {place}"] + [f"{word:08x}" for word in (d.token, d.next, *d.pages)])


def request_lines(world, k, opened, kinds, request):
    """A record that is not there or not opened answers 3. The listing shows nothing of USBCMD: it is read as 0."""
    record, direction, setup, address, length = request
    if record not in opened:
        return [f"R {k} {ENDPOINT} 0"]
    given = opened[record], kinds[record], direction, int.from_bytes(setup, "little"), address, length, 0
    answer = world.call(SUBMIT, *given)
    id = answer.values[0] if answer.number == DONE else 0
    return [f"R {k} {answer.number} {id}"] + [descriptor_line(world, place) for place in answer.places]


def listing(sheet):
    job = read(sheet)
    if job is None:
        return "bad sheet\n"
    endpoints, requests = job
    world, opened, lines = running_controller(), {}, []
    for k, (kind, address, number, _, packet) in enumerate(endpoints):
        answer = world.call(OPEN_ENDPOINT, kind, address, number, packet)
        if answer.number == DONE:
            opened[k] = answer.values[0]
        lines.append(f"E {k} {answer.number}")
    kinds = [kind for kind, *_ in endpoints]
    for k, request in enumerate(requests):
        lines += request_lines(world, k, opened, kinds, request)
    return "".join(line + "\n" for line in lines)
