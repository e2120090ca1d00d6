"""01, "Descriptors, heads, links" (EHCI 3.5, 3.6; USB 9.3): their words.

Heads stand in one row of words, 17 for each: link, characteristics, capabilities, current, then the overlay's 13."""

from typing import NamedTuple

from model.registers import with_field
from model.tokens import CONTROL, INTERRUPT

HEAD_WORDS = 17
LINK, CHARACTERISTICS, CAPABILITIES, CURRENT, OVERLAY = range(5)
END = 1  # a link or a next that leads nowhere: terminated


class Descriptor(NamedTuple):
    next: int = 0
    alternate: int = 0
    token: int = 0
    pages: tuple = (0,) * 5
    upper: tuple = (0,) * 5

    def words(self):
        return [self.next, self.alternate, self.token, *self.pages, *self.upper]


# 02, order 1: the shared inactive descriptor, to which a short one leads (EHCI 4.10)
SHARED = Descriptor(END, END)


def page_slots(address, length):
    """Slot 0 is the address, the others the pages after it that begin below the end; all 0 where there is nothing."""
    if length == 0:
        return (0,) * 5
    pages = [address - address % 4096 + 4096 * i for i in range(1, 5)]
    return (address, *[page if page < address + length else 0 for page in pages])


def descriptor(part, after, alternate=END):
    """The descriptor of a part; `after` is the following one's address, or the end, and so is `alternate`."""
    return Descriptor(after, alternate, part.token, page_slots(part.address, part.length))


def setup_packet(setup, length):
    """Bytes 0 to 5 as they are given, as one number, byte 0 lowest; then the buffer's length."""
    return setup.to_bytes(6, "little") + length.to_bytes(2, "little")


def link_value(address):
    """What leads to the head at an address."""
    return address + 2


def leads_to(word, address):
    """The address of a link is its bits 5 to 31."""
    return word // 32 == address // 32


# current 0, overlay terminated
RESTING = [0, END, END] + [0] * 11


def characteristics(kind, address, number, packet):
    word = address + number * 256 + 8192 + packet * 65536 + 15 * 2**28
    return word + (16384 if kind == CONTROL else 0)


def capabilities(kind):
    return 2**30 + (1 if kind == INTERRUPT else 0)


def head(kind, address, number, packet):
    """An endpoint's head when it is opened: its link is 1."""
    return [END, characteristics(kind, address, number, packet), capabilities(kind), *RESTING]


def ring_head(address):
    """It links to itself."""
    return [link_value(address), 0x00408000, 2**30, *RESTING]


def with_address(word, address):
    """Characteristics with another device address."""
    return with_field(word, 0, 7, address)


def raised(size):
    """A packet size as it is set."""
    return max(size, 8)


def with_packet_size(word, size):
    """Characteristics with another packet size, raised to 8."""
    return with_field(word, 16, 11, raised(size))
