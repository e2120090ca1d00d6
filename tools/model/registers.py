"""The registers of EHCI 2.3 by their offsets, the bits that 01 names, and fields of 32-bit words."""

OFFSETS = 0x00, 0x04, 0x08, 0x0C, 0x10, 0x14, 0x18, 0x40
USBCMD, USBSTS, USBINTR, FRINDEX, CTRLDSSEGMENT, PERIODICLISTBASE, ASYNCLISTADDR, CONFIGFLAG = OFFSETS

# USBCMD: run and both schedules; the reset; the doorbell
RUN_BITS, RESET_BIT, DOORBELL = 0x31, 2, 0x40
# USBSTS: halted
HALTED = 0x1000


def port_register(port):
    """PORTSC of a port, 1 the first."""
    return 0x44 + 4 * (port - 1)


def field(word, low, width):
    """The bits of a word from low on, so many."""
    return word // 2**low % 2**width


def with_field(word, low, width, content):
    """The word with other contents in these bits."""
    return word + (content - field(word, low, width)) * 2**low


def without(word, bits):
    """The word without these bits."""
    return word & ~bits


def command(value):
    """A USBCMD write that is no ring: it drops the doorbell's bit."""
    return USBCMD, without(value, DOORBELL)


def ring(value):
    """The one write that has the doorbell's bit."""
    return USBCMD, value | DOORBELL
