#!/usr/bin/env python3
"""Whether each wrong model would change what is stored: tools/wrong_models.py [--from N] [--to N]

A wrong model is the model of 01 (model/) with one fault planted: those of compare_faults.py, numbered from 1, then those below. It
reads the stored inputs of replay, replay_cases and state_checks, and of each is said the first line of the stored output that it
prints otherwise.

Exit status: 0 each prints something else; 1 one does not."""
import argparse, os, subprocess, sys

sys.dont_write_bytecode = True
sys.path.insert(0, os.path.dirname(os.path.abspath(__file__)))
from compare_faults import FAULTS, plant

TOP = os.path.dirname(os.path.dirname(os.path.abspath(__file__)))
# faults in the lengths of lent rows, and of requests that hold other places than they need: a log shows neither (but for a row of 256)
IN_WORDS = [
    ("rows of D records", "state", "return [self.pool_length(), HEAD_WORDS", "return [self.D, HEAD_WORDS"),
    ("a row of D records is taken", "calls", "self.lent == self.state.settings.lengths()", "self.lent[1:] == self.state.settings.lengths()[1:] and self.lent[0] in (self.state.settings.D, self.state.settings.D + 1)"),
    ("a longer row of records is taken", "calls", "self.lent == self.state.settings.lengths()", "self.lent[1:] == self.state.settings.lengths()[1:] and self.lent[0] > self.state.settings.D"),
    ("opening takes a row of D records", "opening", "lent == settings.lengths()", "lent[1:] == settings.lengths()[1:] and lent[0] in (settings.D, settings.D + 1)"),
    ("opening takes a longer row of records", "opening", "lent == settings.lengths()", "lent[1:] == settings.lengths()[1:] and lent[0] > settings.D"),
    ("more than one descriptor is told by the length", "collection", "may_end_short(slot.kind, slot.direction)", "may_end_short(slot.kind, slot.direction) and slot.length > state.limit_of(slot)"),
]  # fmt: skip
# 02, order 4
RULE = "limit // packet * packet"
JUDGED, SET, SUM = "packet_good(state.settings, kind, packet), INVALID)", "packet_good(state.settings, slot.kind, packet), INVALID)", "moved(slot, state.limit_of(slot), read)"
BY_HEAD = "(lambda size: state.settings.C // size * size)(rows.head_word(k, 1) >> 16 & 2047 or 1)"
PACKETS = [
    ("the limit is C", "tokens", RULE, "limit"),
    ("the limit is C for interrupt", "tokens", "limit if kind == CONTROL else", "limit if kind != BULK else"),
    ("the limit is C for bulk", "tokens", "limit if kind == CONTROL else", "limit if kind != INTERRUPT else"),
    ("the limit is rounded up", "tokens", RULE, "-(-limit // packet) * packet"),
    ("the limit is the nearest multiple", "tokens", RULE, "max(1, (limit + packet // 2) // packet) * packet"),
    ("the limit is below C", "tokens", RULE, "max(1, (limit - 1) // packet) * packet"),
    ("a chunk is a packet", "tokens", RULE, "packet"),
    ("the limit is by a size of at least 8", "tokens", RULE, "max(1, limit // max(packet, 8)) * max(packet, 8)"),
    ("the need is by C", "requests", "descriptors_needed(kind, length, limit)", "descriptors_needed(kind, length, settings.C)"),
    ("the chunks are by C", "requests", "address, length, limit)\n    write_chain", "address, length, settings.C)\n    write_chain"),
    ("the sum is by C", "collection", SUM, "moved(slot, state.settings.C, read)"),
    ("the limit is by the head's size at submit", "requests", "    limit = state.limit_of(slot)\n", f"    limit = {BY_HEAD}\n"),
    ("the limit is by the head's size at collection", "collection", SUM, f"moved(slot, {BY_HEAD}, read)"),
    ("opening takes a size above C", "endpoints", JUDGED, "1 <= packet <= 1024, INVALID)"),
    ("opening refuses C", "endpoints", JUDGED, "packet_good(state.settings, kind, packet + (kind != 0)), INVALID)"),
    ("opening takes C + 1", "endpoints", JUDGED, "packet_good(state.settings, kind, packet - (packet == state.settings.C + 1)), INVALID)"),
    ("opening judges control by C", "endpoints", JUDGED, "packet_good(state.settings, 2, packet), INVALID)"),
    ("opening judges isochronous by C first", "endpoints", "    need(kind != ISOCHRONOUS, UNSUPPORTED)\n", "    need(kind != ISOCHRONOUS or packet <= state.settings.C, INVALID)\n    need(kind != ISOCHRONOUS, UNSUPPORTED)\n"),
    ("no slot left comes before a size above C", "endpoints", JUDGED, "1 <= packet <= 1024, INVALID)\n    need(any(slot.phase == CLOSED for slot in state.slots[: state.settings.E]), LIMIT)\n    need(packet_good(state.settings, kind, packet), INVALID)"),
    ("a size above C answers 2", "endpoints", JUDGED, "1 <= packet <= 1024, INVALID)\n    need(packet_good(state.settings, kind, packet), LIMIT)"),
    ("opening keeps a raised size", "endpoints", "Slot(IDLE, kind, packet)", "Slot(IDLE, kind, raised(packet))"),
    ("set packet size takes a size above C", "endpoints", SET, "True, INVALID)"),
    ("set packet size judges control by C", "endpoints", SET, "packet_good(state.settings, 2, packet), INVALID)"),
    ("set packet size judges bulk alone by C", "endpoints", SET, "slot.kind != 2 or packet_good(state.settings, slot.kind, packet), INVALID)"),
    ("set packet size judges before the raise", "endpoints", SET, "packet_good(state.settings, slot.kind, max(size, 1)), INVALID)"),
    ("set packet size refuses 0", "endpoints", SET, "packet_good(state.settings, slot.kind, size), INVALID)"),
    ("set packet size refuses C", "endpoints", SET, "packet_good(state.settings, slot.kind, packet + (slot.kind != 0)), INVALID)"),
    ("set packet size refuses what is below 8", "endpoints", SET, "packet_good(state.settings, slot.kind, packet) and size >= 8, INVALID)"),
    ("set packet size lowers to C", "endpoints", "raised(size)\n    need(", "raised(size) if state.slots[k].kind == 0 else min(raised(size), state.settings.C)\n    need("),
    ("set packet size keeps the size before the raise", "endpoints", "    slot.packet = packet\n", "    slot.packet = size or 1\n"),
    ("set packet size leaves the slot's size", "endpoints", "    slot.packet = packet\n", ""),
    ("a size above C comes before busy", "endpoints", "    check_idle(state, k)\n    slot, packet", "    need(not state.is_open(k) or packet_good(state.settings, state.slots[k].kind, raised(size)), INVALID)\n    check_idle(state, k)\n    slot, packet"),
    ("a size above C comes before not open", "endpoints", "    check_idle(state, k)\n    slot, packet", "    need(state.is_open(k) or raised(size) <= state.settings.C, INVALID)\n    check_idle(state, k)\n    slot, packet"),
    ("a busy slot's size is set", "endpoints", "    check_idle(state, k)\n    slot, packet", "    need(state.is_open(k), ENDPOINT)\n    slot, packet"),
    ("a refused size is kept", "endpoints", "raised(size)\n    need(", "raised(size)\n    slot.packet = min(packet, state.settings.C)\n    need("),
    ("close keeps the size", "endpoints", "    state.slots[k] = Slot()\n", "    state.slots[k] = Slot(packet=state.slots[k].packet)\n"),
    ("a collected request's slot has no size", "state", "        self.request = self.direction", "        self.packet = min(vars(self).get('packet', 0), 1)\n        self.request = self.direction"),
    ("an open slot of size 0 is in the ranges", "ranges", "1 <= packet <= 1024", "packet <= 1024"),
    ("a size of 1,025 is in the ranges", "ranges", "1 <= packet <= 1024", "1 <= packet <= 1025"),
    ("any size of 11 bits is in the ranges", "ranges", "1 <= packet <= 1024", "1 <= packet <= 2047"),
    ("1,024 is out of the ranges", "ranges", "1 <= packet <= 1024", "1 <= packet <= 1023"),
    ("C is out of the ranges", "ranges", "packet <= settings.C", "packet < settings.C"),
    ("C + 1 is in the ranges", "ranges", "packet <= settings.C", "packet <= settings.C + 1"),
    ("an interrupt slot's size is not judged by C", "ranges", "(kind == CONTROL or", "(kind != BULK or"),
    ("a bulk slot's size is not judged by C", "ranges", "(kind == CONTROL or", "(kind != INTERRUPT or"),
    ("a control slot's size is judged by C", "ranges", "(kind == CONTROL or packet", "(packet"),
    ("a control slot's size is judged by C in a state", "ranges", "packet_good(state.settings, slot.kind, slot.packet)", "packet_good(state.settings, BULK, slot.packet)"),
    ("a control slot's size is judged by C in words", "words", "packet_good(core.settings, kind, first", "packet_good(core.settings, 2, first"),
    ("an idle slot's word has no size", "words", "return 2**16", "return 2**4"),
    ("the size stands after the toggle", "words", '"packet": (4, 11), "toggle": (15, 1)', '"packet": (5, 11), "toggle": (4, 1)'),
    ("a size has ten bits", "words", '"packet": (4, 11)', '"packet": (4, 10)'),
]  # fmt: skip
# 02, order 6
KEPT, WRITTEN = "    slot.toggle = toggle_of(overlay)\n", "overlay_token(kind, slot.toggle)"
WAITS, LINKED, BY_ID = "    if not boundary_passed(state, slot, frame):\n", "    if slot.phase == LINKED:\n", "    need(slot.request == id, ENDPOINT)\n    seen = "
UNLINKS = "        return Answer(PENDING, writes=unlink(state, rows, k, command, frame) if seen.finished else ())\n"
CLEARS, CLOSES = "    check_idle(state, k)\n    state.slots[k].toggle = 0\n", "    state.slots[k] = Slot()\n"
FIELDS = '"toggle": (15, 1), "direction": (16, 1)'
UNUSED = "any(small[few:]) or any(numbers[some:])"
OF_SLOT = "return row[SLOT_WORDS * k : SLOT_WORDS * (k + 1)]"
# a slot that is closed hands its bit to the endpoint that is opened there next
HANDED = """opened = open_endpoint


def open_endpoint(state, rows, *given):
    answer = opened(state, rows, *given)
    if answer.values:
        state.slots[answer.values[0]].toggle = vars(state).setdefault("handed", {}).get(answer.values[0], 0)
    return answer


def close(state, rows, k):
    check_idle(state, k)
    vars(state).setdefault("handed", {})[k] = state.slots[k].toggle
"""
CLOSE = 'def close(state, rows, k):\n    """A closed slot keeps nothing; its head is zeroed."""\n    check_idle(state, k)\n'


def kept_if(holds):
    """The bit is kept where this holds, and else stays."""
    return f"    slot.toggle = toggle_of(overlay) if {holds} else slot.toggle\n"


def zero_unless(holds):
    return f"    slot.toggle = toggle_of(overlay) if {holds} else 0\n"


def unseen(phase, bit):
    """Of a slot in this phase a bit of its first word is not looked at. The words' ranges alone do not show it: the plain state's refuse it too."""
    return f"return [word & ~(2**{bit}) if j == 0 and word % 4 == {phase} else word for j, word in enumerate(row[SLOT_WORDS * k : SLOT_WORDS * (k + 1)])]"


def cleared_if(holds, number):
    """Clear-halt asks this too, after its own checks."""
    return f"    check_idle(state, k)\n    need({holds}, {number})\n    state.slots[k].toggle = 0\n"


CLEAR_ALL = "    for each in state.slots:\n        each.toggle = 0\n"
TOGGLES = [
    ("no toggle, as before the order", "requests", WRITTEN, "0"),
    ("the bit is used for control too", "requests", WRITTEN, "2**31 * slot.toggle"),
    ("the bit is not used for bulk", "requests", WRITTEN, "2**31 * slot.toggle * (kind == 3)"),
    ("the bit is not used for interrupt", "requests", WRITTEN, "2**31 * slot.toggle * (kind == 2)"),
    ("the bit is not used for Out", "requests", WRITTEN, "overlay_token(kind, slot.toggle * direction)"),
    ("the bit is not used where nothing is moved", "requests", WRITTEN, "overlay_token(kind, slot.toggle * (length > 0))"),
    ("slot 0's bit is used for all", "requests", WRITTEN, "overlay_token(kind, state.slots[0].toggle)"),
    ("the other bit is used", "requests", WRITTEN, "overlay_token(kind, 1 - slot.toggle)"),
    ("the bit goes to bit 30", "tokens", "2**31 * toggle\n", "2**30 * toggle\n"),
    ("the bit goes to bit 0", "tokens", "2**31 * toggle\n", "toggle\n"),
    ("a token with the bit is active", "tokens", "2**31 * toggle\n", "(2**31 + 0x80) * toggle\n"),
    ("the head's other bits stay at submit", "requests", WRITTEN, "rows.head_word(k, 6) % 2**31 + overlay_token(kind, slot.toggle)"),
    ("the head's own bit stays at submit", "requests", WRITTEN, "rows.head_word(k, 6) >> 31 << 31"),
    ("a head's token with the bit stays one", "requests", WRITTEN, "rows.head_word(k, 6) >> 31 << 31 | overlay_token(kind, slot.toggle)"),
    ("the descriptors have the bit too", "requests", "    write_chain(settings, rows, parts,", "    parts = [part._replace(token=part.token | overlay_token(kind, slot.toggle)) for part in parts]\n    write_chain(settings, rows, parts,"),
    ("submit uses the bit up", "requests", "    request = hold_request(", "    slot.toggle = 0\n    request = hold_request("),
    ("submit turns the bit", "requests", "    request = hold_request(", "    slot.toggle = 1 - slot.toggle\n    request = hold_request("),
    ("a submit that is not running clears", "requests", "    need(state.running, NOT_READY)\n", "    slot.toggle *= state.running\n    need(state.running, NOT_READY)\n"),
    ("a submit without room clears", "requests", "    need(len(state.free_places()) >= count, MEMORY)\n", "    slot.toggle *= len(state.free_places()) >= count\n    need(len(state.free_places()) >= count, MEMORY)\n"),
    ("nothing is kept", "collection", KEPT, ""),
    ("bit 30 is kept", "tokens", "field(word, 31, 1)", "field(word, 30, 1)"),
    ("bit 0 is kept", "tokens", "field(word, 31, 1)", "field(word, 0, 1)"),
    ("bit 15 is kept", "tokens", "field(word, 31, 1)", "field(word, 15, 1)"),
    ("any bit is kept", "tokens", "return field(word, 31, 1)", "return int(word != 0)"),
    ("the whole token is kept", "collection", KEPT, "    slot.toggle = overlay\n"),
    ("not kept at 10", "collection", KEPT, kept_if("not cancelled")),
    ("0 at 10", "collection", KEPT, zero_unless("not cancelled")),
    ("not kept at 11", "collection", KEPT, kept_if("cancelled or not seen.failed")),
    ("0 at 11", "collection", KEPT, zero_unless("cancelled or not seen.failed")),
    ("kept at 10 and 11 alone", "collection", KEPT, kept_if("cancelled or seen.failed")),
    ("not kept where nothing came", "collection", KEPT, kept_if("seen.length")),
    ("kept for In alone", "collection", KEPT, kept_if("slot.direction")),
    ("kept for Out alone", "collection", KEPT, kept_if("not slot.direction")),
    ("not kept for control", "collection", KEPT, kept_if("slot.kind != 0")),
    ("not kept for bulk", "collection", KEPT, kept_if("slot.kind != 2")),
    ("not kept for interrupt", "collection", KEPT, kept_if("slot.kind != 3")),
    ("1 stays 1", "collection", KEPT, "    slot.toggle |= toggle_of(overlay)\n"),
    ("0 stays 0", "collection", KEPT, "    slot.toggle &= toggle_of(overlay)\n"),
    ("the bit turns what was kept", "collection", KEPT, "    slot.toggle ^= toggle_of(overlay)\n"),
    ("the last descriptor's bit is kept", "collection", KEPT, "    slot.toggle = toggle_of(rows.pool[state.places_of(k)[-1]].token)\n"),
    ("the bit of the head's word is kept", "collection", KEPT, "    slot.toggle = toggle_of(rows.head_word(k, 6))\n"),
    ("the packets are counted", "collection", KEPT, "    slot.toggle = (slot.toggle + max(1, -(-seen.length // slot.packet))) % 2\n"),
    ("kept in slot 0", "collection", KEPT, "    state.slots[0].toggle = toggle_of(overlay)\n"),
    ("kept in all slots", "collection", KEPT, "    for each in state.slots:\n        each.toggle = toggle_of(overlay) if each.phase else 0\n"),
    ("the resting head has the bit", "collection", "    rows.set_head(k, RESTING, CURRENT)\n", "    rows.set_head(k, RESTING, CURRENT)\n    rows.set_head(k, [2**31 * slot.toggle], 6)\n"),
    ("kept at 9, no request", "collection", "    if not slot.uncollected():\n        return", "    if not slot.uncollected():\n        slot.toggle = toggle_of(overlay)\n        return"),
    ("kept at 9, linked", "collection", LINKED, LINKED + "        slot.toggle = slot.toggle if seen.finished else toggle_of(overlay)\n"),
    ("kept at 9, unlinked by it", "collection", LINKED, LINKED + "        slot.toggle = toggle_of(overlay) if seen.finished else slot.toggle\n"),
    ("kept at 9, waiting", "collection", WAITS, WAITS + "        slot.toggle = toggle_of(overlay)\n"),
    ("kept at 9, cancelled and waiting", "collection", WAITS, WAITS + "        slot.toggle = toggle_of(overlay) if slot.cancel else slot.toggle\n"),
    ("kept at 3, another id", "collection", BY_ID, "    slot.toggle = slot.toggle if slot.request == id else toggle_of(overlay)\n" + BY_ID),
    ("kept at 3, no link leads to it", "collection", UNLINKS, "        had, slot.toggle = slot.toggle, toggle_of(overlay)\n        writes = unlink(state, rows, k, command, frame) if seen.finished else ()\n        slot.toggle = had\n        return Answer(PENDING, writes=writes)\n"),
    ("turned at 1, crowded", "collection", "need(not linked or state.unanswered() < MOST_SLOTS, INVALID)", "if linked and state.unanswered() >= MOST_SLOTS:\n        state.slots[k].toggle ^= 1\n    need(not linked or state.unanswered() < MOST_SLOTS, INVALID)"),
    ("cancel clears", "collection", "    slot.cancel = 1\n", "    slot.cancel, slot.toggle = 1, 0\n"),
    ("an unlink clears", "schedule", "    slot.phase = UNLINKING\n", "    slot.phase, slot.toggle = UNLINKING, 0\n"),
    ("an advance that is counted clears", "schedule", "    state.answered += 1\n", "    state.answered += 1\n" + CLEAR_ALL),
    ("a writeback clears", "requests", "    rows.pool[place] = rows.pool[place]._replace(", "    state.slots[owner - 1].toggle = 0\n    rows.pool[place] = rows.pool[place]._replace("),
    ("a writeback keeps the token's bit", "requests", "    rows.pool[place] = rows.pool[place]._replace(", "    state.slots[owner - 1].toggle = token >> 31\n    rows.pool[place] = rows.pool[place]._replace("),
    ("set address clears", "endpoints", "    check_idle(state, k, address <= 127)\n", "    check_idle(state, k, address <= 127)\n    state.slots[k].toggle = 0\n"),
    ("a refused set address clears", "endpoints", "    need(good, INVALID)\n", "    state.slots[k].toggle *= good\n    need(good, INVALID)\n"),
    ("set packet size clears", "endpoints", "    slot.packet = packet\n", "    slot.packet, slot.toggle = packet, 0\n"),
    ("starting bring-up clears", "bring_up", "STOP, 0, 0\n", "STOP, 0, 0\n" + CLEAR_ALL),
    ("the end of bring-up clears", "bring_up", "state.running, state.step = 1, 0\n", "state.running, state.step = 1, 0\n    " + CLEAR_ALL.replace("\n    ", "\n        ")),
    ("enable clears", "interrupts", "    state.enabled = flag\n", "    state.enabled = flag\n" + CLEAR_ALL),
    ("acknowledge clears", "interrupts", "    state.pending |= p\n", "    state.pending |= p\n" + CLEAR_ALL),
    ("an endpoint opens with 1", "endpoints", "Slot(IDLE, kind, packet)", "Slot(IDLE, kind, packet, 1)"),
    ("an endpoint opens with the bit of the slot before it", "endpoints", "Slot(IDLE, kind, packet)", "Slot(IDLE, kind, packet, state.slots[k - 1].toggle)"),
    ("an endpoint opens with the bit that was there", "endpoints", CLOSE, HANDED),
    ("opening an endpoint clears all", "endpoints", "    state.slots[k] = Slot(IDLE, kind, packet)\n", "    state.slots[k] = Slot(IDLE, kind, packet)\n" + CLEAR_ALL),
    ("close keeps the bit", "endpoints", CLOSES, "    state.slots[k] = Slot(toggle=state.slots[k].toggle)\n"),
    ("close clears all", "endpoints", CLOSES, CLOSES + CLEAR_ALL),
    ("clear-halt does nothing", "endpoints", CLEARS, "    check_idle(state, k)\n"),
    ("clear-halt sets 1", "endpoints", CLEARS, "    check_idle(state, k)\n    state.slots[k].toggle = 1\n"),
    ("clear-halt turns the bit", "endpoints", CLEARS, "    check_idle(state, k)\n    state.slots[k].toggle ^= 1\n"),
    ("clear-halt clears slot 0", "endpoints", CLEARS, "    check_idle(state, k)\n    state.slots[0].toggle = 0\n"),
    ("clear-halt clears all", "endpoints", CLEARS, "    check_idle(state, k)\n" + CLEAR_ALL),
    ("clear-halt of a busy slot", "endpoints", CLEARS, "    need(state.is_open(k), ENDPOINT)\n    state.slots[k].toggle = 0\n"),
    ("clear-halt of a linked slot", "endpoints", CLEARS, "    if not (state.is_open(k) and state.slots[k].phase == 2):\n        check_idle(state, k)\n    state.slots[k].toggle = 0\n"),
    ("clear-halt of an unlinking slot", "endpoints", CLEARS, "    if not (state.is_open(k) and state.slots[k].phase == 3):\n        check_idle(state, k)\n    state.slots[k].toggle = 0\n"),
    ("clear-halt that is refused with 4 clears", "endpoints", CLEARS, "    need(state.is_open(k), ENDPOINT)\n    state.slots[k].toggle = 0\n    check_idle(state, k)\n"),
    ("clear-halt answers 4 of a slot that is not open", "endpoints", CLEARS, "    need(state.is_open(k), FULL)\n" + CLEARS),
    ("clear-halt answers 3 of a busy slot", "endpoints", CLEARS, "    need(state.is_open(k) and not state.slots[k].uncollected(), ENDPOINT)\n" + CLEARS),
    ("clear-halt answers 1 of no such slot", "endpoints", CLEARS, "    need(k < state.settings.E, INVALID)\n" + CLEARS),
    ("clear-halt answers 0 of a slot that is not open", "endpoints", CLEARS, "    if not state.is_open(k):\n        return Answer()\n" + CLEARS),
    ("clear-halt refuses control", "endpoints", CLEARS, cleared_if("state.slots[k].kind != 0", "UNSUPPORTED")),
    ("clear-halt refuses control with 3", "endpoints", CLEARS, cleared_if("state.slots[k].kind != 0", "ENDPOINT")),
    ("clear-halt leaves control", "endpoints", CLEARS, "    check_idle(state, k)\n    state.slots[k].toggle *= state.slots[k].kind == 0\n"),
    ("clear-halt refuses interrupt", "endpoints", CLEARS, cleared_if("state.slots[k].kind != 3", "UNSUPPORTED")),
    ("clear-halt refuses while it is not running", "endpoints", CLEARS, cleared_if("state.running", "8")),
    ("clear-halt asks running first", "endpoints", CLEARS, "    need(state.running, 8)\n" + CLEARS),
    ("clear-halt refuses a bit of 0", "endpoints", CLEARS, cleared_if("state.slots[k].toggle", "INVALID")),
    ("clear-halt starts the ids again", "endpoints", CLEARS, CLEARS + "    state.slots[k].id = 1\n"),
    ("clear-halt writes", "endpoints", CLEARS + "    return Answer()\n", CLEARS + "    return Answer(writes=((0, 0),))\n"),
    ("clear-halt answers the bit", "endpoints", CLEARS + "    return Answer()\n", "    check_idle(state, k)\n    had, state.slots[k].toggle = state.slots[k].toggle, 0\n    return Answer(values=(had,))\n"),
    ("clear-halt asks no row's length", "calls", "need(self.lent == self.state.settings.lengths() and", "need((number == CLEAR_HALT or self.lent == self.state.settings.lengths()) and"),
    ("clear-halt asks no ranges of the words", "words", "if not good(self.core, row):", "if number != 21 and not good(self.core, row):"),
    ("a collect with a token is bad, as before the order", "records", UNUSED, "any(small[few:]) or any(numbers[some - (number == COLLECT) :])"),
    ("a collect's token may have 33 bits", "records", "COLLECT: {1: 32, 2: 32, 3: 32}", "COLLECT: {1: 32, 2: 32, 3: 33}"),
    ("a collect's token may have 64 bits", "records", "COLLECT: {1: 32, 2: 32, 3: 32}", "COLLECT: {1: 32, 2: 32}"),
    ("a collect's token has 31 bits", "records", "COLLECT: {1: 32, 2: 32, 3: 32}", "COLLECT: {1: 32, 2: 32, 3: 31}"),
    ("a cancel may have a token", "records", UNUSED, "any(small[few:]) or any(numbers[some + (number == CANCEL) :])"),
    ("call 21 is no call", "records", "    if len(record) != 64 or record[0] not in USED:\n", "    if len(record) != 64 or record[0] not in USED or record[0] == 21:\n"),
    ("clear-halt may have a number", "records", UNUSED, "any(small[few:]) or any(numbers[some + (number == CLEAR_HALT) :])"),
    ("clear-halt may have a second byte", "records", UNUSED, "any(small[few + (number == CLEAR_HALT) :]) or any(numbers[some:])"),
    ("a closed slot may have a toggle", "words", OF_SLOT, unseen(0, 15)),
    ("an idle slot's word has no toggle", "words", "return 2**16", "return 2**15"),
    ("an idle slot may have a direction", "words", OF_SLOT, unseen(1, 16)),
    ("a linked slot's word is below 2^48", "words", "return 2**49", "return 2**48"),
    ("a linked slot may be cancelled", "words", OF_SLOT, unseen(2, 49)),
    ("an interrupt slot's word is below 2^63", "words", "return 2**64 if", "return 2**63 if"),
    ("a boundary is bounded as before the order", "words", "(unanswered + 1) * 2**50", "(unanswered + 1) * 2**49"),
    ("the toggle stands after the direction", "words", FIELDS, '"toggle": (16, 1), "direction": (15, 1)'),
    ("the words have no toggle", "words", "    slot.id = 1 if last == LAST_ID", "    slot.toggle = 0\n    slot.id = 1 if last == LAST_ID"),
]  # fmt: skip
# 02, order 7
ERRS, ENDS, ENDED_SHORT, GIVES = "return field(word, 6, 1) == 1", "        if has_error(token):\n            return True\n", "and not has_error(token) and", "        if has_error(token):\n            return token\n"
COUNTS, COUNTED, COMPLETE = "retried(token) for token in tokens", "how_many_retried(read)", "Answer(DONE, (seen.length, seen.retried))"
IN_FINISHED, AT_COLLECTION = "        if may_be_short and ended_short(token):\n", "        if ended_short(token):\n"
SEES = "    seen = see(state, rows, k)\n"


def ends_with(bits):
    """One of these bits ends the wait."""
    return ENDS.replace("has_error(token)", f"token & {bits}")


def short_without(bits):
    """One that has none of these bits is short."""
    return f"and not token & {bits} and"


def gives_with(bits):
    """The first that has one of these bits is given."""
    return GIVES.replace("has_error(token)", f"token & {bits}")


def counted_if(holds):
    """A request's retried descriptors are counted where this holds."""
    return f"how_many_retried(read) * bool({holds})"


RETRIES = [
    ("bits 3 to 6 err, as before the order", "tokens", ERRS, "return field(word, 3, 4) != 0"),
    ("bits 3 to 6 end the wait", "collection", ENDS, ends_with(0x78)),
    ("bits 3 to 6 are not short", "collection", ENDED_SHORT, short_without(0x78)),
    ("bits 3 to 6 do not end the wait short", "collection", IN_FINISHED, "        if may_be_short and ended_short(token) and not token & 0x78:\n"),
    ("bits 3 to 6 are not short at collection", "collection", AT_COLLECTION, "        if ended_short(token) and not token & 0x78:\n"),
    ("bits 3 to 6 fail", "collection", GIVES, gives_with(0x78)),
    *[(f"bit {bit} ends the wait too", "collection", ENDS, ends_with(0x40 + 2**bit)) for bit in (3, 4, 5)],
    *[(f"bit {bit} is not short either", "collection", ENDED_SHORT, short_without(0x40 + 2**bit)) for bit in (3, 4, 5)],
    *[(f"bit {bit} fails too", "collection", GIVES, gives_with(0x40 + 2**bit)) for bit in (3, 4, 5)],
    *[(f"bit {bit} errs alone", "tokens", ERRS, f"return field(word, {bit}, 1) == 1") for bit in (3, 4, 5)],
    *[(f"bit {bit} errs too", "tokens", ERRS, f"return word & {0x40 + 2**bit} != 0") for bit in (3, 4, 5)],
    ("nothing errs", "tokens", ERRS, "return False"),
    ("bit 6 does not end the wait", "collection", ENDS, ""),
    ("bit 6 does not fail", "collection", GIVES, gives_with(0)),
    ("bit 6 with bit 3 is no error", "tokens", ERRS, "return word & 0x48 == 0x40"),
    ("bit 6 with bits 4 or 5 is no error", "tokens", ERRS, "return word & 0x70 == 0x40"),
    ("bit 6 without bit 3 is no error", "tokens", ERRS, "return word & 0x48 == 0x48"),
    ("bit 6 of an active one is no error", "tokens", ERRS, "return word & 0xC0 == 0x40"),
    ("bit 6 of one with bytes left alone is an error", "tokens", ERRS, "return word & 0x40 != 0 and field(word, 16, 15) > 0"),
    ("a retried one is waited for", "collection", "        if active(token):\n            return False\n", "        if active(token) or retried(token):\n            return False\n"),
    ("the token is given without bit 3", "collection", GIVES, GIVES.replace("return token", "return token & ~8")),
    ("the token is given without bits 3 to 5", "collection", GIVES, GIVES.replace("return token", "return token & ~0x38")),
    ("a retried token before the halted one is given", "collection", GIVES, GIVES.replace("return token", "return next(other for other in tokens if other & 0x48)")),
    ("no count, as before the order", "collection", COMPLETE, "Answer(DONE, (seen.length,))"),
    ("a count of 0 is left out", "collection", COMPLETE, "Answer(DONE, (seen.length, seen.retried) if seen.retried else (seen.length,))"),
    ("no count where nothing came", "collection", COMPLETE, "Answer(DONE, (seen.length, seen.retried) if seen.length else (seen.length,))"),
    ("the count comes first", "collection", COMPLETE, "Answer(DONE, (seen.retried, seen.length))"),
    ("10 carries the count", "collection", "Answer(CANCELLED)", "Answer(CANCELLED, (seen.retried,))"),
    ("10 carries a count that is not 0", "collection", "Answer(CANCELLED)", "Answer(CANCELLED, (seen.retried,) if seen.retried else ())"),
    ("10 carries length and count", "collection", "Answer(CANCELLED)", "Answer(CANCELLED, (seen.length, seen.retried))"),
    ("11 carries the count", "collection", "Answer(FAILED, (seen.failed,))", "Answer(FAILED, (seen.failed, seen.retried))"),
    ("11 carries a count that is not 0", "collection", "Answer(FAILED, (seen.failed,))", "Answer(FAILED, (seen.failed, seen.retried) if seen.retried else (seen.failed,))"),
    ("9 carries the count", "collection", WAITS + "        return Answer(PENDING)\n", WAITS + "        return Answer(PENDING, (seen.retried,))\n"),
    *[(f"bit {bit} is counted", "tokens", "return field(word, 3, 1) == 1", f"return field(word, {bit}, 1) == 1") for bit in (0, 1, 2, 4, 5, 6, 7)],
    ("any of bits 3 to 5 is counted", "tokens", "return field(word, 3, 1) == 1", "return word & 0x38 != 0"),
    ("any of bits 3 to 6 is counted", "tokens", "return field(word, 3, 1) == 1", "return word & 0x78 != 0"),
    ("bit 3 is counted alone", "tokens", "return field(word, 3, 1) == 1", "return word & 0x38 == 8"),
    ("the bits 3 to 5 are counted", "collection", COUNTS, "(token & 0x38).bit_count() for token in tokens"),
    ("the error counter is counted", "collection", COUNTS, "token >> 10 & 3 != 3 for token in tokens"),
    ("retries by the error counter", "collection", COUNTS, "3 - (token >> 10 & 3) for token in tokens"),
    ("those that are not retried are counted", "collection", COUNTS, "not retried(token) for token in tokens"),
    ("setup is not counted", "collection", COUNTED, "how_many_retried(read[slot.kind == 0 :])"),
    ("status is not counted", "collection", COUNTED, "how_many_retried(read[: len(read) - (slot.kind == 0)])"),
    ("setup and status are not counted", "collection", COUNTED, "how_many_retried(read[1:-1] if slot.kind == 0 else read)"),
    ("data is not counted", "collection", COUNTED, "how_many_retried(read[:1] + read[-1:] if slot.kind == 0 else read)"),
    ("the first is not counted", "collection", COUNTED, "how_many_retried(read[1:])"),
    ("the last is not counted", "collection", COUNTED, "how_many_retried(read[:-1])"),
    ("active ones are not counted", "collection", COUNTS, "retried(token) and not active(token) for token in tokens"),
    ("active ones of control are not counted", "collection", COUNTED, "how_many_retried([token for token in read if slot.kind or not active(token)])"),
    ("active ones alone are counted", "collection", COUNTS, "retried(token) and active(token) for token in tokens"),
    ("the count ends at an active one", "collection", COUNTED, "how_many_retried(read[: next((i for i, token in enumerate(read) if active(token)), len(read))])"),
    ("those with bytes left are not counted", "collection", COUNTS, "retried(token) and not bytes_left(token) for token in tokens"),
    ("those with bytes left alone are counted", "collection", COUNTS, "retried(token) and bytes_left(token) > 0 for token in tokens"),
    ("the count goes on after the short one", "collection", COUNTED, "how_many_retried(tokens)"),
    ("the count ends before the short one", "collection", COUNTED, "how_many_retried(read if len(read) == len(tokens) and not (may_be_short and read and ended_short(read[-1])) else read[:-1])"),
    ("the count ends at a short one of any request", "collection", COUNTED, "how_many_retried(up_to_short(tokens))"),
    ("the count ends with the bytes that are asked for", "collection", COUNTED, "how_many_retried(read[: len(list(data_bytes(slot.kind, slot.length, state.limit_of(slot))))])"),
    ("the count is of the pool", "collection", COUNTED, "how_many_retried([record.token for record in rows.pool[: state.settings.D]])"),
    ("place D is counted", "collection", COUNTED, "how_many_retried(read + [rows.pool[state.settings.D].token])"),
    ("the count is of the first places", "collection", COUNTED, "how_many_retried([record.token for record in rows.pool[: len(read)]])"),
    ("whether, not how many", "collection", COUNTED, "min(1, how_many_retried(read))"),
    ("neighbours are counted once", "collection", COUNTED, "sum(retried(token) and not (i and retried(read[i - 1])) for i, token in enumerate(read))"),
    ("the count is at most 255", "collection", COUNTED, "min(255, how_many_retried(read))"),
    ("the count has eight bits", "collection", COUNTED, "how_many_retried(read) % 256"),
    ("the count is of the first 64", "collection", COUNTED, "how_many_retried(read[:64])"),
    ("In alone is counted", "collection", COUNTED, counted_if("slot.direction")),
    ("Out alone is counted", "collection", COUNTED, counted_if("slot.direction == 0")),
    ("control is not counted", "collection", COUNTED, counted_if("slot.kind != 0")),
    ("bulk is not counted", "collection", COUNTED, counted_if("slot.kind != 2")),
    ("interrupt is not counted", "collection", COUNTED, counted_if("slot.kind != 3")),
    ("one descriptor is not counted", "collection", COUNTED, counted_if("len(tokens) > 1")),
    ("counted when it is unlinked", "collection", SEES, SEES + "    if slot.phase == LINKED:\n        slot.counted = seen.retried\n    seen = seen._replace(retried=vars(slot).get('counted', seen.retried))\n"),
    ("the counts of a slot add up", "collection", "    if seen.failed:\n", "    slot.total = vars(slot).get('total', 0) + seen.retried\n    seen = seen._replace(retried=slot.total)\n    if seen.failed:\n"),
    ("retried ones move nothing", "collection", "for size, token in zip(requested, tokens))", "for size, token in zip(requested, tokens) if not retried(token))"),
    ("the count is taken off the length", "collection", COMPLETE, "Answer(DONE, (max(0, seen.length - seen.retried), seen.retried))"),
    ("a retried request gives the length asked for", "collection", SUM, f"slot.length if how_many_retried(read) else {SUM}"),
]  # fmt: skip
ALL = FAULTS + IN_WORDS + PACKETS + TOGGLES + RETRIES


def stored(program, name):
    with open(os.path.join(TOP, "crates", program, name), "rb") as file:
        return file.read()


def of_log(log):
    """Each line that `replay` prints of a log."""
    from model.blocks import Replay

    keeper = Replay()
    for record in log:
        lines = keeper.block(record)
        yield from lines or [f"bad record {keeper.count}"]
        if lines is None:
            return


def replay_lines(data):
    yield from of_log(data[at : at + 64] for at in range(0, len(data), 64))


def replay_cases_lines(data):
    at = 0
    while at < len(data):
        log, at = [], at + 1
        while at < len(data) and data[at] <= 64:
            log.append(data[at + 1 : at + 1 + data[at]])
            at += 1 + data[at]
        yield "="
        yield from of_log(log)


def state_checks_lines(data):
    from state_values import Checks

    checks = Checks()
    for at in range(0, len(data), 64):
        checks.lines = []
        checks.record(data[at : at + 64])
        yield from checks.lines


PROGRAMS = {"replay": replay_lines, "replay_cases": replay_cases_lines, "state_checks": state_checks_lines}


def first_other(program):
    """The number of the first line that is printed otherwise, 0 for none; one that it breaks at counts."""
    right, count = stored(program, "stdout").decode().splitlines(), 0
    try:
        for count, line in enumerate(PROGRAMS[program](stored(program, "stdin")), 1):
            if count > len(right) or line != right[count - 1]:
                return count
    except (IndexError, ValueError, ZeroDivisionError):
        return count + 1
    return 0 if count == len(right) else count + 1


def tell(n):
    """In a process of its own: the n-th fault, 0 for none."""
    if n:
        plant(*ALL[n - 1])
    said = {program: first_other(program) for program in PROGRAMS}
    name = ALL[n - 1][0] if n else "no fault"
    good = any(said.values()) == (n > 0)
    print(f"{'ok ' if good else 'BAD'} {n}, {name}: {', '.join(f'{program} {line or None}' for program, line in said.items())}", flush=True)
    return 0 if good else 1


def main():
    parser = argparse.ArgumentParser(description=__doc__, formatter_class=argparse.RawDescriptionHelpFormatter)
    parser.add_argument("--from", dest="first", type=int, default=0, metavar="N")
    parser.add_argument("--to", dest="last", type=int, default=len(ALL), metavar="N")
    parser.add_argument("--one", type=int, help=argparse.SUPPRESS)
    given = parser.parse_args()
    if given.one is not None:
        sys.exit(tell(given.one))
    run = lambda n: subprocess.run([sys.executable, os.path.abspath(__file__), "--one", str(n)]).returncode
    wrong = sum(run(n) != 0 for n in range(given.first, given.last + 1))
    print(f"{given.last - given.first + 1} models, {wrong} not as they should be")
    sys.exit(1 if wrong else 0)


if __name__ == "__main__":
    main()
