"""01, "Ports and bring-up": the root ports' record and its scan, a step for each read; port power (docs/DECISIONS.md).

An answer has the register to read next (None at the end), the milliseconds to wait before it, an event and its port."""

from model.answers import INVALID, Answer, need
from model.registers import port_register, without
from model.state import MOST_PORTS

UNINIT, RESETED, PROBED = range(3)
NO_EVENT, CONNECTED, DISCONNECTED = range(3)
# what a scan awaits of its port
STATUS, GONE, RESET, RELEASE, AGAIN, OWNER = range(1, 7)
# the states of a port of which that can be awaited
FITTING = {
    STATUS: (UNINIT, RESETED, PROBED), GONE: (PROBED,), RESET: (UNINIT,), RELEASE: (UNINIT,), AGAIN: (RESETED,), OWNER: (RESETED,),
}  # fmt: skip

# bits of a port's register
IS_CONNECTED, CONNECT_CHANGE, IS_ENABLED = 1, 2, 4
IN_RESET, POWER, OWNED = 0x100, 0x1000, 0x2000
OTHER_CHANGES, CHANGES = 0x28, 0x2A


def hub_good(hub):
    """The ranges of the record: a scan's step fits the state of its port."""
    if not 1 <= hub.ports <= MOST_PORTS or any(hub.states[hub.ports :]) or max(hub.states) > PROBED:
        return False
    if hub.port == 0:
        return hub.step == 0
    return hub.port <= hub.ports and hub.states[hub.port - 1] in FITTING.get(hub.step, ())


def await_at(hub, step, wait=0, writes=()):
    """The scan stays at its port and awaits this."""
    hub.step = step
    return Answer(values=(port_register(hub.port), wait, NO_EVENT, 0), writes=writes)


def go_on(hub, event=NO_EVENT, writes=()):
    """Ports ascend; after the last the scan has ended."""
    happened = (event, hub.port if event else 0)
    if hub.port == hub.ports:
        hub.port = hub.step = 0
        return Answer(values=(None, 0, *happened), writes=writes)
    hub.port, hub.step = hub.port + 1, STATUS
    return Answer(values=(port_register(hub.port), 0, *happened), writes=writes)


def port_write(port, value):
    return ((port_register(port), value),)


def set_state(hub, state):
    hub.states[hub.port - 1] = state


def scan_start(hub):
    """It starts over one that is begun."""
    hub.port = 1
    return await_at(hub, STATUS)


def status(hub, v):
    """Uninit and connected: reset. Reseted and connected: read again. Probed and not connected: gone. Else nothing."""
    state, connected = hub.states[hub.port - 1], v & IS_CONNECTED
    if state == PROBED and not connected:
        return await_at(hub, GONE)
    if state == UNINIT and connected:
        return await_at(hub, RESET)
    if state == RESETED and connected:
        return await_at(hub, AGAIN)
    return go_on(hub)


def again(hub, v):
    """Connected and enabled: Probed. Connected and not enabled: the port is given away."""
    if v & IS_CONNECTED and v & IS_ENABLED:
        set_state(hub, PROBED)
        return go_on(hub, CONNECTED)
    if v & IS_CONNECTED:
        return await_at(hub, OWNER)
    return go_on(hub)


def gone(hub, v):
    set_state(hub, UNINIT)
    return go_on(hub, DISCONNECTED, port_write(hub.port, without(v | CONNECT_CHANGE, OTHER_CHANGES)))


def reset(hub, v):
    return await_at(hub, RELEASE, 50, port_write(hub.port, without(v | POWER | IN_RESET, CHANGES)))


def release(hub, v):
    set_state(hub, RESETED)
    return await_at(hub, AGAIN, 20, port_write(hub.port, without(v, IN_RESET)))


def owner(hub, v):
    return go_on(hub, writes=port_write(hub.port, v | OWNED))


TURNS = {STATUS: status, GONE: gone, RESET: reset, RELEASE: release, AGAIN: again, OWNER: owner}


def scan_step(hub, v):
    need(hub.step, INVALID)
    return TURNS[hub.step](hub, v)


def port_power(hub, port, v):
    need(1 <= port <= hub.ports, INVALID)
    return Answer(values=(None, 20, NO_EVENT, 0), writes=port_write(port, without(v | POWER, CHANGES)))
