"""The logs of examples/ that the model writes, and call by call what is printed of them beside another build (`tools/cases` writes
them): the short reply of 02's order 1, the packet's end of its order 4, the toggle of its order 6 and the retried packet of its order 7. The
blocks of the build without that order, `.base.blocks`, are that build's model's, and nobody writes them."""

import os

from log_cases import acknowledge, clear_halt, collect, drain, endpoint, started, submit, writeback
from model.blocks import replay
from model.tokens import BULK

TOP = os.path.dirname(os.path.dirname(os.path.abspath(__file__)))
SHORT_CALLS = {
    0: "opening: D 64",
    8: "open endpoint: bulk, address 5, number 1, packet size 512",
    9: "submit on slot 0: In, 1,048,576 bytes",
    10: "writeback of place 0: inactive, 13,384 bytes left",
    11: "collect slot 0",
    12: "acknowledge, USBSTS 0x20: an advance",
    13: "drain",
    14: "collect slot 0",
}
SHORT_HEAD = """\
The short reply: a megabyte is asked for, and the camera answers 3,000 bytes.

short-reply.log opens a controller (call 0), brings it up (calls 1 to 7), and goes on as below. Each block is what replay prints of
its call, as the model of 01 (tools/model) has it:
  port    this build
  base    the build without 02's order 1
A P line is a descriptor: place, next, alternate, token, page slots, upper slots; ".." stands for P lines that are left out. "all"
stands where the two are the same. The two outputs are whole in short-reply.port.blocks and .base.blocks. Written by tools/cases.

The request has 64 descriptors of 16,384 bytes (call 9). Five packets of 512 bytes and one of 440 come: the first descriptor is
inactive, and 13,384 (0x3448) of its bytes are left (call 10). A packet that is shorter than 512 ends the reply.

In this build the alternate of every descriptor but the last is the address of place 64, 00101000. The descriptor there is
inactive (call 0: next and alternate 1, token 0), so the controller stops after the short packet. The request is finished: call 11
unlinks it and rings, and once the ring is answered (calls 12 and 13) call 14 gives the length, 3,000, and frees all 64 places.

In the base the alternate is 1, so the controller goes on with place 1. Nothing comes for it, and it stays active; the request waits
for it, and collect answers 9 for ever (calls 11 and 14). Nobody has rung, so the advance of call 12 is not noted. A cancel would end
the request, with 10 and no length.

The 0 after the length is how many descriptors had a packet that was retried (02's order 7).
"""


PACKET_CALLS = {
    0: "opening: D 8, C 1000",
    8: "open endpoint: bulk, address 5, number 1, packet size 512",
    9: "submit on slot 0: Out, 3,000 bytes",
    10: "writeback of place 0: inactive, no bytes left",
    13: "writeback of place 3: inactive, no bytes left",
    16: "collect slot 0",
    17: "acknowledge, USBSTS 0x20: an advance",
    18: "drain",
    19: "collect slot 0",
    20: "open endpoint: bulk, address 5, number 2, packet size 1001",
}
PACKET_HEAD = """\
The packet's end: 3,000 bytes go to a camera in packets of 512 bytes, with a limit of 1,000 bytes for a descriptor.

packet-end.log opens a controller (call 0), brings it up (calls 1 to 7), and goes on as below. Each block is what replay prints of
its call, as the model of 01 (tools/model) has it:
  port    this build
  base    the build without 02's order 4
A P line is a descriptor: place, next, alternate, token, page slots, upper slots. Bits 16 to 30 of the token are its bytes: 1,000 are
3e8, 512 are 200, 440 are 1b8. "all" stands where the two are the same. The two outputs are whole in packet-end.port.blocks and
.base.blocks. Written by tools/cases.

In the base the request has three descriptors of 1,000 bytes (call 9). A packet does not go on from one descriptor to the next, so each
of them is sent as a packet of 512 bytes and one of 488. A packet that is shorter than 512 ends a transfer (USB 5.8.3): the camera takes
the first 1,000 bytes for all of it.

In this build a descriptor has the largest multiple of 512 that is not above 1,000, which is 512: the request has five descriptors of
512 bytes and one of 440. The only short packet is the last one, and it ends the 3,000 bytes.

Calls 10 to 15 write back places 0 to 5; in the base the request has no places 3 to 5, so calls 13 to 15 answer 1 there. What is collected
is 3,000 in both (call 19): the base does not know what the camera made of it. The 0 after it is how many descriptors had a packet that was
retried (02's order 7), which the base does not say yet.

A packet of 1,001 bytes is above the limit: this build refuses an endpoint of such packets (call 20, answer 1), and the base opens it.
"""


TOGGLE_CALLS = {
    8: "open endpoint: bulk, address 5, number 1, packet size 512",
    9: "submit on slot 0: In, 1,536 bytes",
    10: "writeback of place 0: inactive, no bytes left, toggle 1",
    11: "collect slot 0",
    12: "acknowledge, USBSTS 0x20: an advance",
    13: "drain",
    14: "collect slot 0, overlay token 80008d00",
    15: "submit on slot 0: In, 1,024 bytes",
    16: "writeback of place 0: inactive, no bytes left, toggle 1",
    17: "collect slot 0",
    18: "acknowledge, USBSTS 0x20: an advance",
    19: "drain",
    20: "collect slot 0, overlay token 80008d00",
    21: "clear-halt on slot 0",
    22: "submit on slot 0: In, 1,536 bytes",
}
TOGGLE_HEAD = """\
The toggle: a first read has an odd number of packets, and the second loses one.

toggle.log opens a controller (call 0), brings it up (calls 1 to 7), and goes on as below. Each block is what replay prints of its
call, as the model of 01 (tools/model) has it:
  port    this build
  base    the build without 02's order 6. It takes a collect with an overlay token for a bad record, so it was given the log with n4 of
          calls 14 and 20 put to 0; and it knows no call 21, so it ends there
A P line is a descriptor: place, next, alternate, token, page slots, upper slots. An H line is a word of a head: word 6 of head 1 is the
token of slot 0's overlay, and its bit 31 the toggle of the next packet. "all" stands where the two are the same. The two outputs are
whole in toggle.port.blocks and .base.blocks. Written by tools/cases.

The packets of an endpoint have toggle 0 and 1 in turn (USB 8.6). 1,536 bytes come in three packets of 512 (calls 9 to 14): 0, 1, 0. The
controller counts in the overlay (EHCI 4.10.2), so its token has bit 31 set when the request is done: 80008d00. The host reads it once
the boundary is set, and gives it to the collect that passes (call 14).

In this build that bit is kept, and the next submit writes it into the overlay's token (call 15: H 1 6 80000000). The controller awaits a
packet with toggle 1, and the camera sends one: 1, 0 for 1,024 bytes. The next one is 1 again (calls 16 to 20).

In the base the overlay's token is 0 again after each submit (call 15 has no line for it, since it was 0 before). The controller awaits 0,
and takes the camera's packet with toggle 1 for one that it has already had: it answers it and throws it away. The read loses its first
512 bytes. What is collected in call 20 is what the writeback of call 16 says, in both. The 0 after a length is how many descriptors had a
packet that was retried (02's order 7), which the base does not say yet.

Then the camera halts its endpoint. The host sends it CLEAR_FEATURE(ENDPOINT_HALT), after which its next packet has toggle 0, and says so here
by clear-halt (call 21). No line shows it: the bit is the slot's own. The next submit writes 0 (call 22), which is what call 20 left there;
without the clear-halt it would be 80000000.
"""


RETRIED_CALLS = {
    8: "open endpoint: bulk, address 5, number 1, packet size 512",
    9: "submit on slot 0: In, 65,536 bytes",
    10: "writeback of place 0: inactive, no bytes left",
    11: "writeback of place 1: inactive, no bytes left, bit 3 set",
    12: "collect slot 0",
    13: "writeback of place 2: inactive, no bytes left",
    14: "writeback of place 3: inactive, no bytes left",
    15: "collect slot 0",
    16: "acknowledge, USBSTS 0x20: an advance",
    17: "drain",
    18: "collect slot 0",
    19: "submit on slot 0: In, 512 bytes",
    20: "writeback of place 0: inactive, 512 bytes left, bits 3 and 6 set, no retry left",
    21: "collect slot 0",
    22: "acknowledge, USBSTS 0x20: an advance",
    23: "drain",
    24: "collect slot 0",
}
RETRIED_HEAD = """\
The retried packet: in the middle of a frame a packet is lost, the retry brings it, and the frame is thrown away.

retried.log opens a controller (call 0), brings it up (calls 1 to 7), and goes on as below. Each block is what replay prints of its
call, as the model of 01 (tools/model) has it:
  port    this build
  base    the build without 02's order 7
A P line is a descriptor: place, next, alternate, token, page slots, upper slots. "all" stands where the two are the same. The two
outputs are whole in retried.port.blocks and .base.blocks. Written by tools/cases.

A frame of 65,536 bytes has four descriptors of 16,384 bytes (call 9). All of its bytes come. One packet of the second descriptor had to be
asked for twice: the controller did not understand the first answer, tried again, and the retry went through. It leaves bit 3 of that
token set (EHCI 3.5.3), 00000d08 in call 11; the descriptor is inactive, and no bytes are left.

In this build that is no error. The request goes on (call 12 answers 9 and changes nothing), call 15 unlinks it when all four are done,
and call 18 collects it: 65,536 bytes, and 1 of its descriptors was retried.

In the base bit 3 is an error. Call 12 takes the request for finished and unlinks it with half of the frame still to come. The controller
is already at the rest and brings it (calls 13 and 14), but call 18 answers Failed, 11, with the token 00000d08. The frame is thrown away,
and all of it is in memory.

Where no retry helps, the controller gives up and sets bit 6, Halted, as well (call 20). That is an error in both: call 24 answers 11 with
the token as it is, 02008148.
"""


def short_reply():
    ask = submit(0, BULK, address=0x10000000, length=64 * 16384, command=0x80031)
    calls = started(D=64, E=2) + [endpoint(BULK), ask, writeback(0, 0x34480D00), collect(0, command=0x80031)]
    return b"".join(calls + [acknowledge(0x20), drain(0x80031), collect(0, command=0x80031)])


def packet_end():
    ask = submit(0, BULK, 0, address=0x10000000, length=3000, command=0x80031)
    calls = started(D=8, E=2, C=1000) + [endpoint(BULK), ask] + [writeback(place, 0x8C00 if place == 5 else 0xC00) for place in range(6)]
    calls += [collect(0, command=0x80031), acknowledge(0x20), drain(0x80031), collect(0, command=0x80031)]
    return b"".join(calls + [endpoint(BULK, number=2, packet=1001)])


def read_of(id, length, token):
    """A read that is done, up to its collection with the overlay's token; the last descriptor's is the same."""
    calls = [submit(0, BULK, address=0x10000000, length=length, command=0x80031), writeback(0, token), collect(0, id, command=0x80031)]
    return calls + [acknowledge(0x20), drain(0x80031), collect(0, id, command=0x80031, overlay=token)]


def toggle():
    calls = started(D=8, E=2) + [endpoint(BULK)] + read_of(1, 1536, 0x80008D00) + read_of(2, 1024, 0x80008D00)
    return b"".join(calls + [clear_halt(0), submit(0, BULK, address=0x10000000, length=1536, command=0x80031)])


def passed(id):
    """A collect that unlinks, or waits; the ring's answer; the collection."""
    return [collect(0, id, command=0x80031), acknowledge(0x20), drain(0x80031), collect(0, id, command=0x80031)]


def retried():
    ask = lambda length: submit(0, BULK, address=0x10000000, length=length, command=0x80031)
    calls = started(D=8, E=2) + [endpoint(BULK), ask(65536), writeback(0, 0xD00), writeback(1, 0xD08), collect(0, command=0x80031)]
    calls += [writeback(2, 0xD00), writeback(3, 0x8D00)] + passed(1)
    return b"".join(calls + [ask(512), writeback(0, 0x02008148)] + passed(2))


# of each example its log, and what its text says
EXAMPLES = {
    "short-reply": (short_reply, SHORT_HEAD, SHORT_CALLS),
    "packet-end": (packet_end, PACKET_HEAD, PACKET_CALLS),
    "toggle": (toggle, TOGGLE_HEAD, TOGGLE_CALLS),
    "retried": (retried, RETRIED_HEAD, RETRIED_CALLS),
}


def shortened(lines):
    """Of more than eight P lines the first two and the last two."""
    places = [at for at, line in enumerate(lines) if line.startswith("P ")]
    if len(places) <= 8:
        return lines
    return lines[: places[2]] + [".."] + lines[places[-2] :]


def beside(head, calls, texts):
    """A head; then of each call what the sides printed, `all` where that is the same. A side that has ended prints nothing."""
    out = [head]
    sides = [(name, text.split(".\n")) for name, text in texts.items()]
    for call, words in calls.items():
        out.append(f"\ncall {call}: {words}\n")
        said = [(name, side[call] if call < len(side) else "") for name, side in sides]
        for name, block in [("all", said[0][1])] if len({block for _, block in said}) == 1 else said:
            out += [f"  {name:<7} {line}\n" for line in shortened(block.splitlines())]
    return "".join(out)


def files():
    """The stored examples, by their names in the repository."""
    made = {}
    for name, (make, head, calls) in EXAMPLES.items():
        log, path = make(), f"examples/{name}"
        with open(os.path.join(TOP, path + ".base.blocks")) as file:
            texts = {"port": replay(log), "base": file.read()}
        made |= {path + ".log": log, path + ".port.blocks": texts["port"].encode(), path + ".txt": beside(head, calls, texts).encode()}
    return made
