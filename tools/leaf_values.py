"""The records that the program `leaf_checks` is run on, and what it must print (`tools/cases` writes both).

A record is five numbers of 64 bits: a function of register, token or descriptor, and what it is given. What is printed is
the model's (tools/model), written from 01, and EHCI's tables. A result is hexadecimal, of 8 digits or more."""

import random, struct
from itertools import product

from model import descriptors, registers, tokens
from model.registers import field, port_register, with_field
from model.tokens import BULK, CONTROL, IN, OUT, Part, token

FLAGS, BACKGROUNDS, TOP = (0, 1), (0, 2**32 - 1), 2**32


# Register bits, tokens, plans and chunks.


def bits(value, chosen):
    """With the chosen bits, without them, only them, and whether any is there."""
    held = [(field(value, k, 1), field(chosen, k, 1)) for k in range(32)]
    word = lambda rule: sum(2**k for k, pair in enumerate(held) if rule(*pair))
    both = word(lambda a, b: a and b)
    return [word(lambda a, b: a or b), word(lambda a, b: a and not b), both, int(both > 0)]


def made(pid, size, interrupt, toggle):
    """A token of pid and bytes alone; a fresh one, which has the error counter and active as well."""
    return [token(pid, size) - 3 * 1024 - 128, token(pid, size, interrupt, toggle)]


def changed(raw, count, flag):
    """The error counter is bits 10 and 11 (a count above 3 is written as 3: 000), active 7, interrupt 15, toggle 31."""
    return [with_field(raw, 10, 2, min(count, 3))] + [with_field(raw, bit, 1, flag) for bit in (7, 15, 31)]


def read(raw):
    """The bytes left; whether it is active, errs (02, order 7: bit 6 alone), was retried (bit 3)."""
    return [tokens.bytes_left(raw), int(tokens.active(raw)), int(tokens.has_error(raw)), int(tokens.retried(raw))]


def control(direction, length):
    return [part.token for part in tokens.control_plan(direction, 0, 0, length)]


def chunk(direction, size, last):
    return [token(direction, size, last)]


def chunked(kind, length, limit, shown):
    """The need, the chunks' number, and the lengths of those below the last number: 01's list, then 0."""
    needed = [tokens.descriptors_needed(each, length, limit) for each in (kind, BULK)]
    return needed + (tokens.chunks(length, limit) + [0] * shown)[:shown]


def one_chunk(k, length, limit):
    return [tokens.chunk_length(k, length, limit)]


def working_limit(kind, limit, size):
    """02, order 4. The only multiple of size 0 is 0; no endpoint has that size."""
    return [tokens.working_limit(kind, limit, size) if size or kind == CONTROL else 0]


def port(raw):
    connected, enabled = field(raw, 0, 1), field(raw, 2, 1)
    return [connected, enabled, connected * enabled]


# Descriptors, heads, links.


def slots(address, length):
    return list(descriptors.page_slots(address, length))


def descriptor(raw, address, length, following):
    """The lower five bits of an address are not part of a next (EHCI 3.5.1). Nothing where the buffer leaves memory."""
    if length and address + length > TOP:
        return []
    after = following - following % 32 if length else descriptors.END
    return descriptors.descriptor(Part(raw, address, length), after).words()


def setup(number, length):
    return list(descriptors.setup_packet(number, length))


def head(kind, address, number, packet):
    return descriptors.head(kind, address, number, packet)


def ring(address):
    """The lower five bits of an address are not part of a link (EHCI 3.6). Then a head's link, a next, and their end."""
    place = address - address % 32
    return descriptors.ring_head(place) + [descriptors.link_value(place), place, descriptors.END]


def set_address(raw, address):
    return [descriptors.with_address(raw, address % 128)]


def set_packet_size(raw, size):
    return [descriptors.with_packet_size(raw, size)]


# Registers (EHCI 2.3).


def port_offset(number):
    return [port_register(number)]


def writes(value):
    """As they grow: none, three, six. The places after the last are 0."""
    six = [0x10, value, 0x14, 0x300000, 0x18, 0x200000, 0x40, 1, 0x04, 0x3F, 0x00, TOP - 1]
    return [word for count in (0, 3, 6) for word in [count] + six[: 2 * count] + [0] * (12 - 2 * count)]


def tables():
    """The registers' offsets, PORTSC's last; then the bits of USBCMD, USBSTS, USBINTR and PORTSC, in EHCI's order."""
    named = [0, 1, 4, 5, 6], [0, 1, 2, 3, 4, 5, 12], [0, 1, 2, 5], [0, 1, 2, 3, 5, 8, 12, 13]
    return [*registers.OFFSETS, port_register(1)] + [2**bit for bits in named for bit in bits]


def order():
    """Link, characteristics, capabilities, current, then the words of the overlay in a descriptor's order."""
    return list(range(17))


# ---- the records: of each function its number and what it is given


def drawn(*bounds):
    draw = random.Random(len(bounds))
    return [tuple(low + draw.randrange(high - low) for low, high in bounds) for _ in range(48)]


def beyond(length, limit):
    """Up to a few after the last chunk."""
    return tokens.descriptors_needed(BULK, length, limit) + 3


def near(pairs):
    """Chunks that start at the length's end or close to it."""
    return [(k, k * limit + more, limit) for k, limit in pairs for more in (0, 1, limit - 1, limit)]


WORD, PAIRS = (0, TOP), list(product(BACKGROUNDS, (0, 1, 7, 8, 9, 64, 127, 128, 255)))
BUFFERS = product((0, 1, 0xFFF, 0x1000, 0x10000FFF, 0xFFFFF000, 0xFFFFFFFF, 2**64 - 1), (0, 1, 4096, 4097, 16384))
CHUNKS = [(0, 1), (1, 1), (256, 1), (257, 1), (16384, 16384), (16385, 16384), (4194304, 16384), (4194305, 16384), (1000, 512)]
CHUNKS += [(1024, 512), (1025, 512), (999, 1000), (1000, 1000), (1001, 1000), (256000, 1000), (256001, 1000)]

# At 000's own limit: the edges, and lengths by chance. Then others by chance.
CHUNKS += [(length, 20480) for length in (0, 1, 20480, 20481, 40960, 61441, 5242880, 5242881)]
CHUNKS += [(length, 20480) for length, _ in drawn((0, 200000), WORD)] + drawn((0, 100000), (1000, 16385))

# Single chunks: among them no limit, the largest k and limit (32 bits) and length (64), and products close to 64 bits.
EDGES = (2**16, 2**31, 2**32 - 2, 2**32 - 1)
LENGTHS = (0, 1, 1000, 61441, 2**32 - 1, 2**32, 2**63, 2**64 - 2**33, 2**64 - 2**33 + 1, 2**64 - 1)
SINGLE = list(product((0, 1, 2, 256, *EDGES), LENGTHS, (0, 1, 512, 20480, *EDGES)))

# Limits and packet sizes: 01's own and beside them, sizes that divide and those that do not, above the limit, none, the largest.
LIMITS = (0, 1, 7, 8, 511, 512, 513, 1000, 1023, 1024, 1025, 16383, 16384, 20480, 2**32 - 1, 2**32, 2**63, 2**64 - 1)
SIZES = (0, 1, 2, 3, 7, 8, 64, 500, 511, 512, 513, 1000, 1023, 1024, 1025, 2**32, 2**64 - 1)

TABLE = [
    (1, bits, [(v, c & d) for v, c, d in drawn(WORD, WORD, WORD)] + [(1 << k, 1 << j) for k, j in product((0, 31), (0, 31))]),
    (2, made, list(product(range(3), (0, 1, 512, 32766, 32767, 32768, 2**64 - 1), FLAGS, FLAGS))),
    (3, changed, list(product(BACKGROUNDS, (0, 1, 2, 3, 4, 255), FLAGS))),
    (4, read, [(2**bit,) for bit in range(32)] + [(0,), (TOP - 1,)]),
    (4, read, [(TOP - 1 - 2**bit,) for bit in range(32)] + [(others + 8 * bits,) for others, bits in product((0x00000D00, 0xFFFFFF07), range(32))]),
    (5, control, list(product((OUT, IN), (0, 1, 8, 18, 16384)))),
    (6, chunk, list(product((OUT, IN), (0, 1, 512, 16384), FLAGS))),
    (7, chunked, [(BULK, length, limit, beyond(length, limit)) for length, limit in CHUNKS]),
    (7, chunked, [(kind, length, 512, beyond(length, 512)) for kind in range(4) for length in (0, 1, 512, 513, 16384)]),
    (8, port, [(others + both,) for others, both in product((0, 0xFFFFFFFA), (0, 1, 4, 5))]),
    (9, one_chunk, SINGLE + near(drawn((1, 2**31), (1, 2**32)))),
    (9, one_chunk, near(drawn((2**31, 2**32), (1, 2**31)) + drawn((1, 2**13), (2**31, 2**32)))),
    (10, descriptor, [(token(IN, n, 1), a, n, 0x00100040) for a, n in BUFFERS] + [(0, 0x10000FFF, n, TOP - 1) for n in (16385, 16386)]),
    (10, descriptor, drawn(WORD, (0, TOP - 16384), (1, 16385), WORD)),
    (11, setup, list(product((0x01000680, 2**48 - 1), (0, 18, 255, 256, 16384))) + drawn((0, 2**48), (0, 16385))),
    (12, head, [(kind, *fields) for kind in range(4) for fields in ((0, 0, 1), (127, 15, 1024))] + drawn((0, 4), (0, 128), (0, 16), (1, 1025))),
    (13, ring, [(address,) for address in (0, 0x00100040, 0xFFFFFFE0, 0xFFFFFFFF)]),
    (14, set_address, PAIRS + drawn(WORD, (0, 256))),
    (15, set_packet_size, PAIRS + drawn(WORD, (0, 256))),
    (16, port_offset, [(number,) for number in range(1, 16)]),
    (17, writes, [(0,), (TOP - 1,)]),
    (18, tables, [()]),
    (19, order, [()]),
    (20, working_limit, list(product(range(4), LIMITS, SIZES)) + drawn((0, 4), (1, 16385), (1, 1025))),
]  # fmt: skip


def files():
    """The stored cases, by their names in the repository."""
    given, out = [], []
    for number, function, cases in TABLE:
        for case in cases:
            given.append(struct.pack("<5Q", number, *case, *[0] * (4 - len(case))))
            out.append("".join(f"{value:08x} " for value in [number] + function(*case)) + "\n")
    return {"crates/leaf_checks/stdin": b"".join(given), "crates/leaf_checks/stdout": "".join(out).encode()}
