#!/usr/bin/env python3
"""A port with one fault planted: tools/compare_faults.py N reads a log and writes blocks as `replay` does, each before the
next record is read. It is the model of 01 (model/) with the N-th change below made to the text of one module, in memory; 0
for none. `tools/compare --fault N` must find each."""
import importlib.util, os, sys

sys.path.insert(0, os.path.dirname(os.path.abspath(__file__)))
import model

# the fault in words, the module, its text, the text in its place
FAULTS = [
    ("an unlink distance of 8 passes", "schedule", "% 16384 >= 9", "% 16384 >= 8"),
    ("an error counts after an active token", "collection", "        if active(token):\n            return False\n", "        if active(token):\n            return first_erring(tokens) != 0\n"),
    ("an error does not end the wait", "collection", "        if has_error(token):\n            return True\n", ""),
    ("error means any of bits 3 to 6 at collection", "collection", "        if has_error(token):\n            return token\n", "        if token & 0x78:\n            return token\n"),
    ("the last erring token is given", "collection", "    for token in tokens:\n        if has_error(token):\n            return token\n", "    for token in reversed(tokens):\n        if has_error(token):\n            return token\n"),
    ("more bytes left than asked for are taken off", "collection", "sum(max(0, size - bytes_left(token))", "sum(size - bytes_left(token)"),
    ("the length comes from the request", "collection", "sum(max(0, size - bytes_left(token))", "sum(size"),
    ("a later chunk starts with toggle 1", "tokens", "interrupt=i == last)", "interrupt=i == last, toggle=i > 0)"),
    ("every chunk interrupts", "tokens", "interrupt=i == last)", "interrupt=True)"),
    ("the second chunk starts at the buffer's start", "tokens", "address + limit * i, size)", "address, size)"),
    ("one frame entry is written at submit", "schedule", "        rows.set_frames(own)\n", "        rows.frames[0] = own\n"),
    ("one frame entry is left at an unlink", "schedule", "        rows.set_frames(link)\n", "        rows.frames[:1023] = [link] * 1023\n"),
    ("the status stage has the data's direction", "tokens", "OUT if direction == IN and length > 0 else IN", "direction if length > 0 else IN"),
    ("the setup packet says length 0", "descriptors", 'length.to_bytes(2, "little")', "bytes(2)"),
    ("five full pages from any address", "descriptors", "page if page < address + length else 0", "page & 0xFFFFFFFF"),
    ("a port change clears the advance", "interrupts", "        state.pending &= ~PORT_BIT\n", "        state.pending &= ~(PORT_BIT | ADVANCE)\n"),
    ("one advance is counted twice", "schedule", "    state.noted = state.doorbell = 0\n", "    state.noted, state.doorbell = int(state.pending & 4 != 0), 0\n"),
    ("an advance counts that nobody rang for", "interrupts", "if p & ADVANCE and state.doorbell:", "if p & ADVANCE:"),
    ("a ring while the doorbell is up", "schedule", "if state.doorbell or state.unanswered() == 0:", "if state.unanswered() <= 0:"),
    ("no ring after a drain", "schedule", "    state.answered += 1\n    return ring_if_due(state, command)\n", "    state.answered += 1\n    return ()\n"),
    ("bit 3 of USBSTS is acknowledged", "interrupts", "p = status & TAKEN", "p = status & 0x3F"),
    ("the second flag reading is not looked at", "interrupts", "if first != second:", "if False:"),
    ("rearm writes with nothing masked", "interrupts", "    if state.masked == 0:\n        return Answer()\n", ""),
    ("Stopped stays pending", "interrupts", "    state.pending = 0\n    return STOPPED\n", "    return STOPPED\n"),
    ("cancel does not mark once the unlink has begun", "collection", "    slot.cancel = 1\n    return Answer(writes=writes)\n", "    slot.cancel |= linked\n    return Answer(writes=writes)\n"),
    ("a request is collected one answer early", "schedule", "state.answered >= slot.boundary", "state.answered + 1 >= slot.boundary"),
    ("an unlinked head points nowhere", "schedule", "    state.unlinks += 1\n", "    state.unlinks += 1\n    rows.set_head(k, [1], LINK)\n"),
    ("a head goes in last", "schedule", "rows.set_head(k, [rows.head_word(RING, LINK)], LINK)", "rows.set_head(k, [link_value(state.settings.head_address(RING))], LINK)"),
    ("a small packet size is raised at opening", "descriptors", "packet * 65536", "max(packet, 8) * 65536"),
    ("set packet size does not raise", "descriptors", "with_field(word, 16, 11, raised(size))", "with_field(word, 16, 11, size)"),
    ("an interrupt head has no mask", "descriptors", "2**30 + (1 if kind == INTERRUPT else 0)", "2**30"),
    ("close leaves the head", "endpoints", "    rows.set_head(k, [0] * HEAD_WORDS)\n", ""),
    ("freed descriptors are zeroed", "collection", "    cancelled = slot.cancel\n", "    cancelled = slot.cancel\n    for place in state.places_of(k):\n        rows.pool[place] = type(rows.pool[place])()\n"),
    ("the highest free descriptors are taken", "requests", "state.free_places()[:count]", "state.free_places()[-count:]"),
    ("opening keeps the setup packets", "opening", "        rows.set_setup(k, bytes(8))\n", "        pass\n"),
    ("a wrong id is asked before nothing uncollected", "collection", "        return Answer(PENDING)\n    need(slot.request == id, ENDPOINT)\n", "        need(id == slot.id - 1, ENDPOINT)\n        return Answer(PENDING)\n    need(slot.request == id, ENDPOINT)\n"),
    ("room is asked before the ranges", "requests", "    need(buffer_good(", "    need(len(state.free_places()) >= descriptors_needed(kind, length, state.limit_of(slot)), MEMORY)\n    need(buffer_good("),
    ("the kind is asked before busy", "requests", "    need(not slot.uncollected(), FULL)\n", "    need(kind == slot.kind, ENDPOINT)\n    need(not slot.uncollected(), FULL)\n"),
    ("an id is used up by a refusal for room", "requests", "    need(len(state.free_places()) >= count, MEMORY)\n", "    slot.id += len(state.free_places()) < count\n    need(len(state.free_places()) >= count, MEMORY)\n"),
    ("the reads of all waits are counted together", "bring_up", "    state.waited = 0\n    if state.step == STARTING:", "    if state.step == STARTING:"),
    ("bring-up's last write rings", "bring_up", "(command(v | RUN_BITS),)", "((USBCMD, v | RUN_BITS),)"),
    ("running from the write on", "bring_up", "    state.step += 1\n", "    state.step += 1\n    state.running = int(state.step == STARTING)\n"),
    ("bring-up leaves the flag", "bring_up", "state.running, state.step, state.waited, state.enabled = 0, STOP, 0, 0", "state.running, state.step, state.waited = 0, STOP, 0"),
    ("a lost port is reset again", "root_hub", "    if state == RESETED and connected:\n", "    if state == RESETED and connected and v & 2:\n        return await_at(hub, RESET)\n    if state == RESETED and connected:\n"),
    ("an unplugged port changes with its first reading", "root_hub", "        return await_at(hub, GONE)\n", "        set_state(hub, UNINIT)\n        return await_at(hub, GONE)\n"),
    ("the reset keeps the change bits", "root_hub", "without(v | POWER | IN_RESET, CHANGES)", "v | POWER | IN_RESET"),
    ("address 128 is given", "endpoints", "need(state.address <= 127, LIMIT)", "need(state.address <= 128, LIMIT)"),
    ("a refused opening closes the controller", "blocks", "            self.world.lent = kept\n", "            self.world.lose()\n            self.opened = False\n"),
    ("a number too large is taken", "records", "numbers[i] >> bits for", "numbers[i] >> bits + 1 for"),
    # 02, order 1
    ("a short reply does not end the wait", "collection", "        if may_be_short and ended_short(token):\n            return True\n", ""),
    ("the length goes on after the short one", "collection", "first_erring(read), moved(slot, state.limit_of(slot), read)", "first_erring(read), moved(slot, state.limit_of(slot), tokens)"),
    ("an error after the short one is read", "collection", "first_erring(read)", "first_erring(tokens)"),
    ("an Out request ends short", "collection", "may_end_short(slot.kind, slot.direction)", "may_end_short(slot.kind, 1)"),
    ("a control request ends short", "collection", "may_end_short(slot.kind, slot.direction)", "slot.direction == 1"),
    ("an interrupt request does not end short", "collection", "may_end_short(slot.kind, slot.direction)", "slot.kind == 2 and slot.direction == 1"),
    ("a bulk request does not end short", "collection", "may_end_short(slot.kind, slot.direction)", "slot.kind == 3 and slot.direction == 1"),
    ("an active one before it hides a short one at collection", "collection", "        if ended_short(token):\n", "        if active(token):\n            return tokens\n        if ended_short(token):\n"),
    ("a short one after an active one ends the wait", "collection", "        if active(token):\n            return False\n", "        if active(token):\n            return may_be_short and any(map(ended_short, tokens))\n"),
    ("more than 64 bytes left are not short", "collection", "bytes_left(token) > 0", "0 < bytes_left(token) <= 64"),
    ("an active one with bytes left is short", "collection", "not active(token) and not has_error(token)", "not has_error(token)"),
    ("the last descriptor leads to place D", "requests", "[alternate] * len(places[1:]) + [END]", "[alternate] * len(places)"),
    ("the first descriptor leads to place D alone", "requests", "[alternate] * len(places[1:]) + [END]", "([alternate] + [END] * len(places))[len(places) < 2 :]"),
    ("the overlay leads to place D", "requests", "[settings.descriptor_address(places[0]), END, ", "[settings.descriptor_address(places[0]), alternate_for(settings, kind, direction), "),
    ("an Out request leads to place D", "requests", "if may_end_short(kind, direction) else END", "if kind != CONTROL else END"),
    ("a control request leads to place D", "requests", "if may_end_short(kind, direction) else END", "if direction == 1 else END"),
    ("a short one leads to place D - 1", "state", "self.descriptor_address(self.D)", "self.descriptor_address(self.D - 1)"),
    ("place D is zeroed", "opening", "[Descriptor()] * settings.D + [SHARED]", "[Descriptor()] * settings.pool_length()"),
    ("place D is active", "descriptors", "SHARED = Descriptor(END, END)", "SHARED = Descriptor(END, END, 0x80)"),
    ("opening leaves place D as it was", "opening", "rows.pool[: settings.pool_length()] = [Descriptor()] * settings.D + [SHARED]", "rows.pool[: settings.D] = [Descriptor()] * settings.D"),
    ("place D is lent out", "state", "range(self.settings.D) if self.owner[place] == 0", "range(min(self.settings.D + 1, 256)) if self.owner[place] == 0"),
    ("a writeback of place D is taken", "requests", "if place < state.settings.D else 0", "if place < state.settings.D else state.owner[0] * (place == state.settings.D)"),
    ("the area of the descriptors has D records", "ranges", "64 * settings.pool_length()", "64 * settings.D"),
    # 02, order 4
    ("a chunk ends inside a packet", "tokens", "limit // packet * packet", "limit"),
    ("the working limit is rounded up", "tokens", "limit // packet * packet", "-(-limit // packet) * packet"),
    ("the working limit is one packet", "tokens", "limit // packet * packet", "packet"),
    ("a size that divides the limit loses a packet", "tokens", "limit // packet * packet", "max(packet, (limit - 1) // packet * packet)"),
    ("an interrupt request is cut by the limit", "tokens", "limit if kind == CONTROL else", "limit if kind != BULK else"),
    ("a bulk request is cut by the limit", "tokens", "limit if kind == CONTROL else", "limit if kind != INTERRUPT else"),
    ("the need reads the limit", "requests", "count = descriptors_needed(kind, length, limit)", "count = descriptors_needed(kind, length, settings.C)"),
    ("the collected length reads the limit", "collection", "moved(slot, state.limit_of(slot), read)", "moved(slot, state.settings.C, read)"),
    ("one chunk by the limit does not end short", "collection", "may_end_short(slot.kind, slot.direction)", "may_end_short(slot.kind, slot.direction) and slot.length > state.settings.C"),
    ("one chunk by the limit does not lead to place D", "requests", "places, alternate_for(settings, kind, direction))", "places, alternate_for(settings, kind, direction) if length > settings.C else END)"),
    ("a size that is set does not count", "endpoints", "    slot.packet = packet\n", ""),
    ("a size that is set counts before the raise", "endpoints", "    slot.packet = packet\n", "    slot.packet = max(1, size)\n"),
    ("a small size counts as raised from the opening on", "endpoints", "Slot(IDLE, kind, packet)", "Slot(IDLE, kind, max(packet, min(8, state.settings.C)))"),
    ("an endpoint opens with a size above the limit", "endpoints", "number <= 15 and packet_good(state.settings, kind, packet)", "number <= 15 and packet_good(state.settings, 0, packet)"),
    ("a size above the limit is set", "endpoints", "packet_good(state.settings, slot.kind, packet)", "packet_good(state.settings, 0, packet)"),
    ("a size equal to the limit is refused", "ranges", "packet <= settings.C", "packet < settings.C"),
    ("a control endpoint's size is judged by the limit", "ranges", "(kind == CONTROL or packet <= settings.C)", "packet <= settings.C"),
    ("a bulk endpoint's size is not judged by the limit", "ranges", "kind == CONTROL or packet", "kind in (0, 2) or packet"),
    ("an interrupt endpoint's size is not judged by the limit", "ranges", "kind == CONTROL or packet", "kind in (0, 3) or packet"),
    ("a size that is set is judged before the raise", "endpoints", "packet_good(state.settings, slot.kind, packet)", "packet_good(state.settings, slot.kind, max(1, size))"),
    ("a busy slot's size is judged", "endpoints", "    check_idle(state, k)\n    slot, packet = ", "    need(not state.is_open(k) or packet_good(state.settings, state.slots[k].kind, raised(size)), INVALID)\n    check_idle(state, k)\n    slot, packet = "),
    ("an isochronous endpoint's size is judged", "endpoints", "    need(kind != ISOCHRONOUS, UNSUPPORTED)\n", "    need(packet_good(state.settings, kind, packet), INVALID)\n    need(kind != ISOCHRONOUS, UNSUPPORTED)\n"),
    ("no slot is asked before a size above the limit", "endpoints", "    need(address <= 127", "    need(any(slot.phase == CLOSED for slot in state.slots[: state.settings.E]) or packet_good(state.settings, kind, packet), LIMIT)\n    need(address <= 127"),
    # 02, order 6
    ("the toggle restarts with each request", "requests", "END, overlay_token(kind, slot.toggle)]", "END, 0]"),
    ("bit 30 is kept", "tokens", "field(word, 31, 1)", "field(word, 30, 1)"),
    ("the toggle is written to bit 30", "tokens", "2**31 * toggle", "2**30 * toggle"),
    ("a control request goes on with the toggle", "tokens", "0 if kind == CONTROL else 2**31", "2**31"),
    ("an interrupt request restarts the toggle", "tokens", "0 if kind == CONTROL else 2**31", "0 if kind != BULK else 2**31"),
    ("a bulk request restarts the toggle", "tokens", "0 if kind == CONTROL else 2**31", "0 if kind != INTERRUPT else 2**31"),
    ("an Out request restarts the toggle", "requests", "END, overlay_token(kind, slot.toggle)]", "END, overlay_token(kind, slot.toggle * direction)]"),
    ("a collect without a request keeps a toggle", "collection", "    if not slot.uncollected():\n", "    if not slot.uncollected():\n        slot.toggle = toggle_of(overlay)\n"),
    ("a complete request's toggle is not kept", "collection", "slot.toggle = toggle_of(overlay)", "slot.toggle = toggle_of(overlay) if cancelled or seen.failed else slot.toggle"),
    ("a cancelled request's toggle is not kept", "collection", "slot.toggle = toggle_of(overlay)", "slot.toggle = slot.toggle if cancelled else toggle_of(overlay)"),
    ("a failed request's toggle is not kept", "collection", "slot.toggle = toggle_of(overlay)", "slot.toggle = toggle_of(overlay) if cancelled or not seen.failed else slot.toggle"),
    ("a failed request's toggle is 0", "collection", "slot.toggle = toggle_of(overlay)", "slot.toggle = toggle_of(overlay) if cancelled or not seen.failed else 0"),
    ("a toggle of 1 stays", "collection", "slot.toggle = toggle_of(overlay)", "slot.toggle |= toggle_of(overlay)"),
    ("the last descriptor's toggle is kept", "collection", "slot.toggle = toggle_of(overlay)", "slot.toggle = toggle_of(rows.pool[state.places_of(k)[-1]].token)"),
    ("a toggle is kept in all slots", "collection", "slot.toggle = toggle_of(overlay)", "[setattr(other, 'toggle', toggle_of(overlay)) for other in state.slots if other.phase]"),
    ("slot 0's toggle serves all", "requests", "END, overlay_token(kind, slot.toggle)]", "END, overlay_token(kind, state.slots[0].toggle)]"),
    ("an endpoint opens with slot 0's toggle", "endpoints", "Slot(IDLE, kind, packet)", "Slot(IDLE, kind, packet, state.slots[0].toggle)"),
    ("close keeps the toggle", "endpoints", "    state.slots[k] = Slot()\n", "    state.slots[k] = Slot(toggle=state.slots[k].toggle)\n"),
    ("no room restarts the toggle", "requests", "    need(len(state.free_places()) >= count, MEMORY)\n", "    slot.toggle &= len(state.free_places()) >= count\n    need(len(state.free_places()) >= count, MEMORY)\n"),
    ("set address restarts the toggle", "endpoints", "    check_idle(state, k, address <= 127)\n", "    check_idle(state, k, address <= 127)\n    state.slots[k].toggle = 0\n"),
    ("set packet size restarts the toggle", "endpoints", "    slot.packet = packet\n", "    slot.packet, slot.toggle = packet, 0\n"),
    ("a bring-up that is begun restarts the toggles", "bring_up", "    state.running, state.step, state.waited, state.enabled = 0, STOP, 0, 0\n", "    state.running, state.step, state.waited, state.enabled = 0, STOP, 0, 0\n    for slot in state.slots:\n        slot.toggle = 0\n"),
    ("clear-halt leaves the toggle", "endpoints", "    state.slots[k].toggle = 0\n", ""),
    ("clear-halt turns the toggle", "endpoints", "    state.slots[k].toggle = 0\n", "    state.slots[k].toggle ^= 1\n"),
    ("clear-halt clears every slot", "endpoints", "    state.slots[k].toggle = 0\n", "    for slot in state.slots:\n        slot.toggle = 0\n"),
    ("clear-halt is accepted in flight", "endpoints", "    check_idle(state, k)\n    state.slots[k].toggle", "    need(state.is_open(k), ENDPOINT)\n    state.slots[k].toggle"),
    ("clear-halt of a slot that is not open answers 4", "endpoints", "    check_idle(state, k)\n    state.slots[k].toggle", "    need(state.is_open(k), FULL)\n    check_idle(state, k)\n    state.slots[k].toggle"),
    ("clear-halt refuses a control endpoint", "endpoints", "    check_idle(state, k)\n    state.slots[k].toggle", "    check_idle(state, k, state.slots[k % 32].kind)\n    state.slots[k].toggle"),
    ("clear-halt asks for running", "endpoints", "    check_idle(state, k)\n    state.slots[k].toggle", "    check_idle(state, k, state.running)\n    state.slots[k].toggle"),
    ("an overlay token of 33 bits is taken", "records", "COLLECT: {1: 32, 2: 32, 3: 32}", "COLLECT: {1: 32, 2: 32, 3: 33}"),
    # 02, order 7
    ("error means any of bits 3 to 6", "tokens", "field(word, 6, 1) == 1", "field(word, 3, 4) != 0"),
    ("error means any of bits 3 to 6 at finishing", "collection", "        if has_error(token):\n            return True\n", "        if token & 0x78:\n            return True\n"),
    ("error means any of bits 3 to 6 where a reply ends short", "collection", "not has_error(token) and bytes_left", "not token & 0x78 and bytes_left"),
    ("bit 3 is an error too", "tokens", "field(word, 6, 1) == 1", "field(word, 6, 1) + field(word, 3, 1) > 0"),
    ("bit 4 is an error too", "tokens", "field(word, 6, 1) == 1", "field(word, 6, 1) + field(word, 4, 1) > 0"),
    ("bit 5 is an error too", "tokens", "field(word, 6, 1) == 1", "field(word, 6, 1) + field(word, 5, 1) > 0"),
    ("bit 6 beside bit 3 is no error", "tokens", "field(word, 6, 1) == 1", "field(word, 6, 1) > field(word, 3, 1)"),
    ("bit 4 is counted", "tokens", "field(word, 3, 1) == 1", "field(word, 4, 1) == 1"),
    ("any of bits 3 to 5 is counted", "tokens", "field(word, 3, 1) == 1", "field(word, 3, 3) != 0"),
    ("the count goes on after the short one", "collection", "how_many_retried(read))", "how_many_retried(tokens))"),
    ("the short one is not counted", "collection", "sum(retried(token) for token in tokens)", "sum(retried(token) and not ended_short(token) for token in tokens)"),
    ("the setup stage is not counted", "collection", "how_many_retried(read))", "how_many_retried(read[slot.kind == 0 :]))"),
    ("the status stage is not counted", "collection", "how_many_retried(read))", "how_many_retried(read[: len(read) - (slot.kind == 0)]))"),
    ("an active one is not counted", "collection", "sum(retried(token) for token in tokens)", "sum(retried(token) and not active(token) for token in tokens)"),
    ("the count says whether and not how many", "collection", "sum(retried(token) for token in tokens)", "int(any(map(retried, tokens)))"),
    ("the count ends at 3", "collection", "sum(retried(token) for token in tokens)", "min(3, sum(map(retried, tokens)))"),
    ("the count is the first one's place", "collection", "sum(retried(token) for token in tokens)", "next((i for i, token in enumerate(tokens, 1) if retried(token)), 0)"),
    ("an interrupt request's are not counted", "collection", "how_many_retried(read))", "how_many_retried(read if slot.kind != 3 else []))"),
    ("an Out request's are not counted", "collection", "how_many_retried(read))", "how_many_retried(read if slot.direction == 1 else []))"),
    ("a count of 0 is left out", "collection", "(seen.length, seen.retried)", "(seen.length, seen.retried)[: 1 + (seen.retried > 0)]"),
    ("a cancelled request gives a count", "collection", "Answer(CANCELLED)", "Answer(CANCELLED, (seen.retried,))"),
    ("a failed request gives a count", "collection", "(seen.failed,)", "(seen.failed, seen.retried)"),
    ("a failed request's token is given without bits 3 to 5", "collection", "(seen.failed,)", "(seen.failed & ~0x38,)"),
    ("a retried descriptor's bytes are left out", "collection", "for size, token in zip(requested, tokens))", "for size, token in zip(requested, tokens) if not retried(token))"),
    ("the reading goes on after a short one that was retried", "collection", "        if ended_short(token):\n", "        if ended_short(token) and not retried(token):\n"),
    ("a retried short reply does not end the wait", "collection", "if may_be_short and ended_short(token):", "if may_be_short and ended_short(token) and not retried(token):"),
    ("an active one that was retried does not wait", "collection", "        if active(token):\n            return False\n", "        if active(token) and not retried(token):\n            return False\n"),
]  # fmt: skip


def plant(name, module, old, new):
    """A fault in its module, before any other module has it."""
    spec = importlib.util.find_spec(f"model.{module}")
    text = spec.loader.get_source(spec.name)
    if text.count(old) != 1:
        sys.exit(f"{name}: its place is in model/{module}.py {text.count(old)} times")
    planted = importlib.util.module_from_spec(spec)
    sys.modules[spec.name] = planted
    setattr(model, module, planted)
    exec(compile(text.replace(old, new), spec.origin, "exec"), planted.__dict__)


def main():
    if len(sys.argv) != 2 or not sys.argv[1].isdigit() or int(sys.argv[1]) > len(FAULTS):
        sys.exit(__doc__)
    if n := int(sys.argv[1]):
        plant(*FAULTS[n - 1])
    from model.blocks import Replay

    keeper = Replay()
    while record := sys.stdin.buffer.read(64):
        lines = keeper.block(record)
        sys.stdout.write("".join(line + "\n" for line in lines or [f"bad record {keeper.count}"]))
        sys.stdout.flush()
        if lines is None:
            break


if __name__ == "__main__":
    main()
