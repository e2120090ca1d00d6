#!/usr/bin/env python3
"""The double count: tools/compare_incident.py writes examples/double-count.log, what each side printed of it (the .blocks and
the .txt) and the picture; and examples/double-count-published.log with its .txt. It needs what tools/compare needs; with
--picture it draws the stored blocks and needs nothing."""
import os, subprocess, sys

from compare_run import ORACLE, TOP, build, program, stop, written
from log_examples import beside

EXAMPLE = os.path.join(TOP, "examples", "double-count")
UNLINKED = {12: "cancel slot 0", 13: "cancel slot 1", 14: "acknowledge, USBSTS 0x24: an advance and a port change", 15: "drain"}
CALLS = {
    8: "open endpoint: bulk, address 5, number 1", 9: "open endpoint: bulk, address 5, number 2", 10: "submit on slot 0", 11: "submit on slot 1",
    **UNLINKED, 16: "drain", 17: "collect slot 0", 18: "collect slot 1",
}  # fmt: skip
PUBLISHED_CALLS = UNLINKED | {
    16: "acknowledge, USBSTS 0x04: a port change alone", 17: "drain", 18: "acknowledge, USBSTS 0x04: a port change alone", 19: "drain",
    20: "drain", 21: "collect slot 0", 22: "collect slot 1",
}  # fmt: skip
HEAD = """\
The double count: two unlinks, one ring, and an answer that shares its drain with a port change.

double-count.log opens a controller, brings it up (calls 0 to 7), and goes on as below. Each block is what was printed:
  port    this build: replay < double-count.log
  000     the Rust as it is: NOREPAIR=K2,N1,N13 oracle < double-count.log
  000/N1  the Rust with one advance for an unlink, as the port has it: NOREPAIR=K2 oracle < double-count.log
The fifth number of a Q line is how many advances are still waited for (the Rust's own counts in its lines; the first and the
fourth number, running and note, are 01's and not the Rust's); W 00 with 0x40 in it is a ring; R 00 is the Rust's read after a
ring. "all" stands where the three are the same. The three outputs are whole in double-count.port.blocks, .000.blocks and
.000-n1.blocks; double-count.svg is the first and the last as a picture. Written by tools/compare_incident.py.

One answer came (call 14). The port counts it once (call 15) and rings for slot 1; call 16 counts nothing and writes nothing;
slot 0 is collected and slot 1 waits. The Rust counts the same answer in call 15 and in call 16 and rings in both, three
rings in all. It wants two advances for each unlink, four here; after one answer it has counted two, and slot 0's memory is
given back (call 17, answer 10) on the first of the two answers that the Rust itself wants. With one advance for an unlink
the same fault gives back slot 1 (call 18, answer 10), whose ring nobody has answered: the controller may still read its head.
"""
PUBLISHED_HEAD = """\
The double count of the Rust as published: two unlinks, one answer, and two more port changes.

double-count-published.log is calls 0 to 15 of double-count.log, and goes on as below. Each block is what was printed:
  port    this build: replay < double-count-published.log
  000     the Rust as it is: NOREPAIR=K2,N1,N13 oracle < double-count-published.log
double-count.txt says how the lines are read. Written by tools/compare_incident.py.

One answer came (call 14); no acknowledgment after it reads the advance bit. The port counts it once (call 15) and slot 1 waits
(call 22, answer 9). The Rust counts it in four drains (calls 15, 17, 19 and 20), and four advances are what it wants for two
unlinks. So it gives back slot 1 (call 22, answer 10), whose ring (call 15) nobody has answered: the controller may still read
its head.
"""
NOREPAIR = {"000": "K2,N1,N13", "000/N1": "K2"}
FILES = {"port": ".port.blocks", "000": ".000.blocks", "000/N1": ".000-n1.blocks"}
NAMES = ["this build", "the Rust (000) with its double count (K2) and, as in this build, one advance for an unlink (N1)"]
NOTE = (
    "The ring of call 12 is answered once (14). A counts the answer once (15), B in both drains (15 and 16). So B gives back "
    "slot 1's descriptor (18), although no acknowledgment has come since the ring for slot 1 (15)."
)


def picture():
    """The port beside the Rust with one advance for an unlink, from the first endpoint on."""
    words = [sys.executable, os.path.join(TOP, "tools", "timeline"), "-o", EXAMPLE + ".svg", "--from", str(min(CALLS)), "--note", NOTE]
    words += ["--name", NAMES[0], "--name", NAMES[1], EXAMPLE + ".log", EXAMPLE + FILES["port"], EXAMPLE + FILES["000/N1"]]
    return subprocess.run(words).returncode


def printed(name, log):
    """What a side prints of a log."""
    return written([ORACLE] if name in NOREPAIR else program("replay", "REPLAY"), log, NOREPAIR=NOREPAIR.get(name, "")).decode()


def write(path, script, names, head, calls):
    """The log of a script, and call by call what each side prints of it; the sides' whole texts."""
    log = written([ORACLE, *script])
    texts = {name: printed(name, log) for name in names}
    with open(path + ".log", "wb") as out:
        out.write(log)
    with open(path + ".txt", "w") as out:
        out.write(beside(head, calls, texts))
    return texts


def write_both():
    build()
    for name, text in write(EXAMPLE, ["incident"], FILES, HEAD, CALLS).items():
        with open(EXAMPLE + FILES[name], "w") as out:
            out.write(text)
    write(EXAMPLE + "-published", ["incident", "published"], ["port", "000"], PUBLISHED_HEAD, PUBLISHED_CALLS)


if sys.argv[1:] not in ([], ["--picture"]):
    stop(__doc__)
if sys.argv[1:] == []:
    write_both()
sys.exit(picture())
