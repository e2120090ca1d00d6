"""The sheets of examples/ and those that the program `sheet_cases` is run on, and their listings (`tools/cases` writes them):
many sheets, good, refused, full, empty and malformed in each way. What is printed is the model's (model/sheets.py)."""

import random, struct

from model.sheets import ENDPOINT_RECORD, REQUEST_RECORD, SETTINGS, listing, read
from model.tokens import BULK, CONTROL, IN, INTERRUPT, OUT

C = SETTINGS.C
# 01's example as 01 has it: nobody writes these two
FROM_01 = ("crates/sheet/stdin", "crates/sheet/stdout")


def endpoint(kind, address, number, packet):
    return ENDPOINT_RECORD.pack(kind, address, number, 0, packet)


def request(record, direction, setup, address, length):
    return REQUEST_RECORD.pack(record, direction, setup, address, length)


def sheet(endpoints, requests):
    return b"".join([struct.pack("<H", len(endpoints))] + endpoints + [struct.pack("<H", len(requests))] + requests)


def shown():
    """The sheets of examples/: a few that show each part of the listing."""
    get = bytes([0x80, 6, 0, 1, 0, 0])
    none = bytes(6)
    return {
        "control-in": sheet([endpoint(0, 0, 0, 64)], [request(0, 1, get, 0x10000FFF, 18)]),
        "empty": sheet([], []),
        "camera": sheet(
            [endpoint(0, 5, 0, 64), endpoint(2, 5, 1, 512), endpoint(3, 5, 2, 8)],
            [request(1, 1, none, 0x10000FFF, 40000), request(2, 1, none, 0x20000000, 8), request(0, 0, none, 0, 0)],
        ),
        "refused": sheet(
            [endpoint(1, 1, 1, 64), endpoint(2, 128, 1, 64), endpoint(2, 1, 16, 64), endpoint(2, 1, 1, 0), endpoint(2, 1, 1, 512)],
            [
                request(0, 1, none, 0, 0),
                request(9, 1, none, 0, 0),
                request(4, 1, none, 0xFFFFFFFF, 2),
                request(4, 0, none, 0xFFFFFFFF, 1),
                request(4, 0, none, 0, 1),
            ],
        ),
        "full-pool": sheet(
            [endpoint(2, k, 1, 512) for k in range(1, 4)],
            [request(0, 1, none, 0x1000000, 14 * C), request(1, 1, none, 0x2000000, 3 * C), request(2, 1, none, 0x3000000, 2 * C), request(1, 0, none, 0, 0)],
        ),
        "bad-long": sheet([], []) + b"\0",
        "bad-kind": sheet([endpoint(4, 0, 0, 64)], []),
    }


def changed(data, at, value):
    return data[:at] + bytes([value]) + data[at + 1 :]


def spoiled(data):
    """A sheet malformed in each way: cut anywhere, longer, and each byte with each of its bits turned."""
    for n in range(len(data)):
        yield data[:n]
    yield data + bytes(1)
    yield data + bytes(600)
    for k in range(len(data)):
        for bit in range(8):
            yield changed(data, k, data[k] ^ 1 << bit)


def out_of_range(data):
    """A good sheet cut anywhere, with other counts, and with each byte of its records that has a limit at it and above it."""
    for n in range(len(data)):
        yield data[:n]
    yield data + bytes(1)
    yield data + data
    endpoints, requests = (len(part) for part in read(data))
    second = 2 + 6 * endpoints
    for at, right in ((0, endpoints), (second, requests)):
        for count in sorted({0, right - 1, right + 1, 8, 9, 64, 65, 255} - {right}):
            yield changed(data, at, count)
        for count in (1, 255):
            yield changed(data, at + 1, count)
    for k in range(endpoints):
        for value in (3, 4, 255):
            yield changed(data, 2 + 6 * k, value)
        for value in (1, 128, 255):
            yield changed(data, 5 + 6 * k, value)
    for k in range(requests):
        at = second + 2 + 20 * k
        for value in (endpoints - 1, endpoints, 8, 255):
            yield changed(data, at, value)
        for value in (0, 1, 2, 255):
            yield changed(data, at + 1, value)
        for i in range(2, 8):
            for value in (1, 128):
                yield changed(data, at + i, value)


# sizes that divide C, and those that do not
EVEN, UNEVEN = (0, 1, 64, 512, 1024, 1025), (3, 7, 48, 500, 1000, 1023)


def drawn(draw, sizes=EVEN):
    """A sheet by chance, mostly good."""
    records = [
        endpoint(draw.choice([0, 0, 1, 2, 2, 2, 3]), draw.choice([0, 5, 127, 127, 128]), draw.choice([0, 1, 15, 15, 16]), draw.choice(sizes))
        for _ in range(draw.randint(0, 8))
    ]
    requests = []
    for _ in range(draw.randint(0, 12)):
        record, direction = draw.randint(0, max(1, len(records))), draw.randint(0, 1)
        control = record < len(records) and records[record][0] == CONTROL
        bit = direction if draw.random() < 0.9 else 1 - direction
        setup = bytes([bit << 7 | draw.randint(0, 127)] + [draw.randint(0, 255) for _ in range(5)]) if control else bytes(6)
        length = draw.choice([0, 1, 18, 4096, C - 1, C, C + 1, 2 * C, 50000, draw.randint(0, 300000)])
        address = draw.choice([0, 0x10000FFF, 2**32 - length, 2**32 - length + 1, 2**32, 2**40, draw.randint(0, 2**32)])
        requests.append(request(record, direction, setup, address, length))
    return sheet(records, requests)


def full():
    """The most records of each kind, and one more; a byte more than the longest sheet."""
    none = bytes(6)
    eight = [endpoint(BULK, k, 1, 512) for k in range(8)]
    many = [request(k % 8, 1, none, 0x1000000 * k, C) for k in range(64)]
    longest = sheet(eight, many)
    return [longest, longest + bytes(1), longest[:-1], sheet(eight + eight[:1], []), sheet(eight, many + many[:1]), sheet(eight[:1], many), sheet([], many)]


def lengths():
    """A request of each kind, direction and length that its descriptors can depend on."""
    for kind in (CONTROL, BULK, INTERRUPT):
        for direction in (OUT, IN):
            setup = bytes([direction << 7, 9, 1, 0, 0, 255]) if kind == CONTROL else bytes(6)
            for length in (0, 1, 4097, C - 1, C, C + 1, 16 * C, 16 * C + 1):
                yield sheet([endpoint(kind, 127, 15, 1024)], [request(0, direction, setup, 0x10000FFF, length)])


def packets():
    """02, order 4: a request of each kind on packet sizes that do not divide C, about the ends of its chunks by their limit and by C; records of
    several sizes; as many chunks as there are places, and one more."""
    none = bytes(6)
    for packet, limit in ((7, 16380), (48, 16368), (1000, 16000), (1023, 16368), (513, 15903)):
        for kind, direction in ((BULK, IN), (INTERRUPT, OUT)):
            for length in (0, 1, limit, limit + 1, C, 2 * limit, 2 * C, 16 * limit, 16 * limit + 1):
                yield sheet([endpoint(kind, 127, 15, packet)], [request(0, direction, none, 0x10000FFF, length)])
        yield sheet([endpoint(CONTROL, 127, 15, packet)], [request(0, OUT, none, 0x10000FFF, C), request(0, OUT, none, 0x10000FFF, C)])
    several = [endpoint(BULK, 1, 1, 7), endpoint(INTERRUPT, 1, 2, 1000), endpoint(BULK, 1, 3, 512), endpoint(CONTROL, 1, 0, 1023), endpoint(BULK, 1, 4, 1023)]
    yield sheet(several, [request(k, OUT, none, 0x2000000 * k, 2 * C) for k in (0, 1, 2, 3, 4)] + [request(3, OUT, none, 0, C)])


def cases():
    draw = random.Random(1)
    yield from shown().values()
    yield from spoiled(shown()["control-in"])
    yield from out_of_range(shown()["camera"])
    yield from full()
    yield from lengths()
    for _ in range(100):
        yield drawn(draw)
    yield from packets()
    for _ in range(50):
        yield drawn(draw, UNEVEN)


def files():
    """The stored cases, by their names in the repository."""
    made, many, example = {}, list(cases()), shown()["control-in"]
    for name, data in shown().items():
        made[f"examples/{name}.sheet"], made[f"examples/{name}.listing"] = data, listing(data).encode()
    made["crates/sheet_cases/stdin"] = b"".join(struct.pack("<H", len(data)) + data for data in many)
    made["crates/sheet_cases/stdout"] = "".join(listing(data) + ".\n" for data in many).encode()
    made.update(zip(FROM_01, (example, listing(example).encode())))
    return made
