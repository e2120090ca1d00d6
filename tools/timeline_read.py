"""What tools/timeline reads: the records of a log, and the blocks that `replay` (or the oracle) printed of it."""
import os, re
from collections import namedtuple

from model import records as model_records
from model.records import ACKNOWLEDGE, CANCEL, CLEAR_HALT, CLOSE, COLLECT, DRAIN, OPEN, SUBMIT, WRITEBACK
from model.records import OPEN_ENDPOINT as ENDPOINT, SET_ADDRESS as ADDRESS, SET_PACKET as PACKET

CALLS = [
    "", "open", "start bring-up", "bring-up step", "allocate address", "open endpoint", "close", "set address", "set packet size", "submit",
    "writeback", "cancel", "collect", "acknowledge", "drain", "rearm", "enable", "disable", "start scan", "scan step", "port power",
    "clear-halt",
]  # fmt: skip
ON_SLOT = (CLOSE, ADDRESS, PACKET, SUBMIT, CANCEL, COLLECT, CLEAR_HALT)
SIZE = 64
WORD = "[0-9a-f]{8}"
LINES = re.compile(
    rf"C \d+ \d+ \d+( [0-9a-f-]+)*|P \d+( {WORD}){{13}}|[HF] \d+ \d+ {WORD}|S \d+ [0-9a-f]{{16}}|U \d+ \d"
    rf"|Q( -?\d+){{5}}( {WORD}){{2}}( \d+){{2}}|[WR] [0-9a-f]{{2}} {WORD}"
)
STATE = ["running", "interrupts on", "doorbell up", "advance noted", "advances waited for", "pending", "masked", "free", "next address"]

Record = namedtuple("Record", "call small numbers")
Block = namedtuple("Block", "lines call answer values state writes")


class Trouble(Exception):
    """What is wrong with an input, in one line."""


def content(path):
    try:
        with open(path, "rb") as file:
            return file.read()
    except OSError as error:
        raise Trouble(f"{path}: {error.strerror}")


def read_records(path):
    """The records of a log up to the first that is bad."""
    data, records = content(path), []
    for at in range(0, len(data), SIZE):
        part = data[at : at + SIZE]
        if model_records.read(part) is None:
            break
        number, small, numbers = model_records.taken_apart(part)
        records.append(Record(number, tuple(small), numbers))
    if not records:
        raise Trouble(f"{path}: not a log of calls, its first {SIZE} bytes are no record")
    return records, len(data) == SIZE * len(records)


def block_of(lines, where):
    """A block from its lines; the first is the call's."""
    words = [line.split() for line in lines]
    if words[0][0] != "C" or any(w[0] == "C" for w in words[1:]):
        raise Trouble(f"{where}: a block has one C line, and it comes first")
    state = next((dict(zip(STATE, w[1:])) for w in words if w[0] == "Q"), None)
    writes = [(int(w[1], 16), int(w[2], 16)) for w in words if w[0] == "W"]
    return Block(lines, int(words[0][2]), int(words[0][3]), words[0][4:], state, writes)


def read_blocks(path):
    """The blocks of an output, and whether it ends with a bad record."""
    try:
        text = content(path).decode("ascii")
    except UnicodeDecodeError:
        raise Trouble(f"{path}: not the output of `replay`: it is not plain text")
    blocks, lines, ended = [], [], False
    for number, line in enumerate(text.splitlines(), 1):
        where = f"{path}, line {number}"
        if ended or not (line == "." or LINES.fullmatch(line) or line == f"bad record {len(blocks)}"):
            raise Trouble(f"{where}: not a line of `replay`'s output here: {line[:60]!r}")
        ended = line.startswith("bad record")
        if line == "." and not lines or ended and lines:
            raise Trouble(f"{where}: a block has a C line and ends with a dot")
        if line == ".":
            blocks.append(block_of(lines, where))
        lines = [] if line == "." or ended else lines + [line]
    if lines:
        raise Trouble(f"{path}: the last block does not end with a dot")
    return blocks, ended


def read_output(path, log, records, whole):
    """The blocks of an output that must be of this log."""
    blocks, ended = read_blocks(path)
    for number, (block, record) in enumerate(zip(blocks, records)):
        if block.lines[0].split()[1] != str(number) or block.call != record.call:
            named = f"{record.call} ({CALLS[record.call]})"
            raise Trouble(f"{path} is not of {log}: its block {number} begins {block.lines[0]!r}, the log's record {number} is {named}")
        if block.call in (ENDPOINT, SUBMIT) and block.answer == 0 and not (block.values and block.values[0].isdigit()):
            raise Trouble(f"{path}: block {number} names no slot or id: {block.lines[0]!r}")
    if len(blocks) > len(records) or len(blocks) < len(records) and not ended or not whole and not ended:
        told = f"{len(blocks)} blocks" + (" and a bad record" if ended else "")
        raise Trouble(f"{path} is not of {log}: {told}, and the log has {len(records)} records" + ("" if whole else " and a bad one"))
    return blocks


def short(path):
    """A file's name with its folder's."""
    return os.sep.join(os.path.normpath(path).split(os.sep)[-2:])
