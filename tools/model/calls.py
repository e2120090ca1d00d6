"""Any call by its number, on a world: a state, a ports' record, rows and how much of them is lent."""

from model import bring_up, collection, endpoints, interrupts, opening, requests, root_hub
from model.answers import INVALID, Answer, Refused, need
from model.ranges import in_ranges
from model.records import (
    ACKNOWLEDGE, ADDRESS, CANCEL, CLEAR_HALT, CLOSE, COLLECT, DISABLE, DRAIN, ENABLE, OPEN_ENDPOINT, POWER, REARM, SCAN, SCAN_STEP,
    SET_ADDRESS, SET_PACKET, START, STEP, SUBMIT, WRITEBACK,
)  # fmt: skip
from model.state import Hub, Settings, State

ON_HUB = {
    SCAN: root_hub.scan_start,
    SCAN_STEP: root_hub.scan_step,
    POWER: root_hub.port_power,
}
ON_STATE = {
    START: bring_up.start,
    STEP: bring_up.step,
    ADDRESS: endpoints.allocate_address,
    CLEAR_HALT: endpoints.clear_halt,
    ACKNOWLEDGE: interrupts.acknowledge,
    DRAIN: interrupts.drain,
    REARM: interrupts.rearm,
    ENABLE: lambda state: interrupts.set_enabled(state, 1),
    DISABLE: lambda state: interrupts.set_enabled(state, 0),
}
ON_ROWS = {
    OPEN_ENDPOINT: endpoints.open_endpoint,
    CLOSE: endpoints.close,
    SET_ADDRESS: endpoints.set_address,
    SET_PACKET: endpoints.set_packet_size,
    SUBMIT: requests.submit,
    WRITEBACK: requests.writeback,
    CANCEL: collection.cancel,
    COLLECT: collection.collect,
}


class World:
    """Rows and, once an opening is accepted, a controller."""

    def __init__(self, rows):
        self.rows, self.lent = rows, [0] * 4
        self.lose()

    def lose(self):
        """The constants of a refused opening, which no call accepts."""
        self.state, self.hub = State(), Hub()

    def open(self, settings):
        """Opening. A refusal leaves the world as it was."""
        try:
            self.state, self.hub = opening.open_controller(settings, self.rows, self.lent)
            return Answer()
        except Refused as refused:
            return Answer(refused.number)

    def call(self, number, *given):
        """Any other call. First: a row of another length than opening fixed, or a state outside its ranges, 1."""
        try:
            if number in ON_HUB:
                need(root_hub.hub_good(self.hub), INVALID)
                return ON_HUB[number](self.hub, *given)
            need(self.lent == self.state.settings.lengths() and in_ranges(self.state), INVALID)
            if number in ON_STATE:
                return ON_STATE[number](self.state, *given)
            return ON_ROWS[number](self.state, self.rows, *given)
        except Refused as refused:
            return Answer(refused.number)


def settings_of(small, numbers):
    """The settings of an opening's record: E and the ports, then D, C, W and the four areas."""
    (E, ports), (D, C, W, *areas) = small, numbers
    return Settings(D, E, ports, C, W, *areas)
