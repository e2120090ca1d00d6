"""The records of a log: the call's number, seven small parameters of a byte, seven numbers of 64 bits, little-endian.

What a call does not use is 0. A record that is not 64 bytes long, of no call, or with a parameter above its limit is bad."""

import struct

OPEN, START, STEP, ADDRESS, OPEN_ENDPOINT, CLOSE, SET_ADDRESS, SET_PACKET, SUBMIT, WRITEBACK, CANCEL, COLLECT = range(1, 13)
ACKNOWLEDGE, DRAIN, REARM, ENABLE, DISABLE, SCAN, SCAN_STEP, POWER, CLEAR_HALT = range(13, 22)

# how many small parameters and how many numbers each call uses
USED = {
    OPEN: (2, 7), START: (0, 0), STEP: (0, 1), ADDRESS: (0, 0), OPEN_ENDPOINT: (3, 1), CLOSE: (1, 0), SET_ADDRESS: (2, 0),
    SET_PACKET: (2, 0), SUBMIT: (3, 4), WRITEBACK: (0, 2), CANCEL: (1, 3), COLLECT: (1, 4), ACKNOWLEDGE: (2, 2), DRAIN: (0, 1),
    REARM: (0, 0), ENABLE: (0, 0), DISABLE: (0, 0), SCAN: (0, 0), SCAN_STEP: (0, 1), POWER: (1, 1), CLEAR_HALT: (1, 0),
}  # fmt: skip
# the most that a small parameter is: kind, direction, flag readings
MOST = {OPEN_ENDPOINT: {0: 3}, SUBMIT: {1: 3, 2: 1}, ACKNOWLEDGE: {0: 1, 1: 1}}
# the bits of the numbers that have fewer than 64: a packet size, six setup bytes, tokens and readings
BITS = {
    STEP: {0: 32}, OPEN_ENDPOINT: {0: 16}, SUBMIT: {0: 48, 3: 32}, WRITEBACK: {1: 32}, CANCEL: {1: 32, 2: 32}, COLLECT: {1: 32, 2: 32, 3: 32},
    ACKNOWLEDGE: {0: 32, 1: 32}, DRAIN: {0: 32}, SCAN_STEP: {0: 32}, POWER: {0: 32},
}  # fmt: skip


def record(number, small=(), numbers=()):
    return bytes([number, *small]).ljust(8, b"\0") + struct.pack("<7Q", *numbers, *[0] * (7 - len(numbers)))


def taken_apart(record):
    """The call's number, its small parameters and its numbers, all seven of each."""
    return record[0], record[1:8], struct.unpack_from("<7Q", record, 8)


def read(record):
    """The call's number, the small parameters and the numbers that it uses; None if the record is bad."""
    if len(record) != 64 or record[0] not in USED:
        return None
    number, small, numbers = taken_apart(record)
    few, some = USED[number]
    if any(small[few:]) or any(numbers[some:]):
        return None
    if any(small[i] > most for i, most in MOST.get(number, {}).items()):
        return None
    if any(numbers[i] >> bits for i, bits in BITS.get(number, {}).items()):
        return None
    return number, small[:few], numbers[:some]
