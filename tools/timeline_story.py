"""What happened in a run, for tools/timeline: the requests of each slot, the rings, the acknowledgments, the drains."""
from timeline_read import ACKNOWLEDGE, CANCEL, CLOSE, COLLECT, DRAIN, ENDPOINT, ON_SLOT, OPEN, SUBMIT

USBCMD, BELL, ADVANCE, INTERRUPT = 0, 0x40, 0x20, 3
DONE, PENDING, CANCELLED, FAILED = 0, 9, 10, 11


class Request:
    """From a submit to its collection, by the numbers of the calls; None is not yet."""

    def __init__(self, slot, begun, id, kind):
        self.slot, self.begun, self.id, self.kind = slot, begun, id, kind
        self.unlinked = self.ended = self.answer = self.frame = None
        self.rung = self.answered = self.early = False


class Story:
    """One side's run."""

    def __init__(self, records, blocks):
        self.blocks = blocks
        self.requests, self.opened = [], []  # opened: [slot, first call, last call or None, what it is]
        self.marks = [[] for _ in blocks]  # of the doorbell: "ring", "advance", "acknowledge", "counts", "drain"
        self.touched = [None] * len(blocks)  # (slot, "pending", "refused" or "done") of a call on a slot
        self.free = [int(b.state["free"]) if b.state else None for b in blocks]
        self.waits = [int(b.state["advances waited for"]) if b.state else None for b in blocks]
        self.held, self.kinds = {}, {}
        for at, (record, block) in enumerate(zip(records, blocks)):
            self.take(at, record, block)

    def take(self, at, record, block):
        self.endpoints(at, record, block)
        self.on_slot(at, record, block)
        self.doorbell(at, record, block)

    def endpoints(self, at, record, block):
        """Slots that open and close; a new opening ends everything."""
        if block.answer != DONE or record.call not in (OPEN, ENDPOINT, CLOSE):
            return
        if record.call == ENDPOINT:
            slot = int(block.values[0])
            self.kinds[slot] = record.small[0]
            self.opened.append([slot, at, None, record.small[:3]])
            return
        for span in self.opened:
            if span[2] is None and (record.call == OPEN or span[0] == record.small[0]):
                span[2] = at
        for request in list(self.held.values()) if record.call == OPEN else []:
            self.end(request, at, None)

    def end(self, request, at, answer):
        request.ended, request.answer = at, answer
        del self.held[request.slot]

    def on_slot(self, at, record, block):
        """What a call on a slot did to the slot's request."""
        if record.call not in ON_SLOT:
            return
        slot, request = record.small[0], self.held.get(record.small[0])
        how = {DONE: "done", CANCELLED: "done", FAILED: "done", PENDING: "pending"}.get(block.answer, "refused")
        self.touched[at] = (slot, how)
        if record.call == SUBMIT and how == "done":
            if request:
                self.end(request, at, None)
            self.held[slot] = Request(slot, at, block.values[0], self.kinds.get(slot))
            self.requests.append(self.held[slot])
        elif record.call in (CANCEL, COLLECT) and request:
            if request.unlinked is None and links_changed(block):
                request.unlinked, request.frame = at, record.numbers[2]
            if record.call == COLLECT and how == "done":
                request.early = not boundary_passed(request, record)
                self.end(request, at, block.answer)

    def doorbell(self, at, record, block):
        """Rings, acknowledgments and drains, and which requests they answer for."""
        if record.call == ACKNOWLEDGE:
            advance = record.numbers[0] & ADVANCE
            self.marks[at].append("advance" if advance else "acknowledge")
            for request in self.held.values():
                request.answered |= bool(advance) and request.rung
        if record.call == DRAIN:
            self.marks[at].append("counts" if at and (self.waits[at] or 0) < (self.waits[at - 1] or 0) else "drain")
        if any(offset == USBCMD and value & BELL for offset, value in block.writes):
            self.marks[at].append("ring")
            for request in self.held.values():
                request.rung |= request.unlinked is not None


def links_changed(block):
    """Whether a head's link or a frame entry changed: the slot's head left its schedule."""
    return any(line.startswith("F ") or line.split()[0] == "H" and line.split()[2] == "0" for line in block.lines)


def boundary_passed(request, record):
    """Whether the controller can read the request's descriptors no more: a ring at or after its unlink was answered by an
    acknowledgment that read the advance bit; or, of an interrupt request, FRINDEX is 9 or more on."""
    if request.unlinked is None:
        return False
    if request.kind == INTERRUPT:
        return (record.numbers[2] - request.frame) % 16384 >= 9
    return request.answered


def differences(left, right):
    """The calls whose blocks differ."""
    return [at for at, (a, b) in enumerate(zip(left.blocks, right.blocks)) if a.lines != b.lines]
