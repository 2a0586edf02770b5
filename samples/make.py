#!/usr/bin/env python3
"""Writes the sample pictures and patches beside it. They are stored; this says what is in each."""
import os
import struct

HERE = os.path.dirname(os.path.abspath(__file__))
ROOT, UPSTREAM, DOWNSTREAM = 0, 1, 2
MEMORY_SPACE, ARI = 2, 1 << 5
VGA, VGA_16_BIT = 1 << 3, 1 << 4
REDIRECT = 1 << 2
RECORD_LENGTH = {1: 56, 2: 60}
RID, LOW, HIGH = 0, 1, 2
SIZE_SHIFT = {RID: 8, LOW: 16, HIGH: 24}


class Port:
    """A port's record and vectors; what is not said is off: no buses, empty memory windows, no vectors."""

    def __init__(self, kind, parent, own, buses=(0, 0), command=MEMORY_SPACE, memory=(0xFFF0, 0), prefetchable=(0xFFF1, 1),
                 upper=(0, 0), device_control_2=0, bridge_control=0, acs_control=0):
        self.kind, self.parent, self.own, self.buses, self.command = kind, parent, own, buses, command
        self.memory, self.prefetchable, self.upper = memory, prefetchable, upper
        self.device_control_2, self.bridge_control, self.acs_control = device_control_2, bridge_control, acs_control
        self.capabilities, self.controls, self.vectors = 0, [0, 0, 0, 0, 0], {}

    def vector(self, which, size_code, granularity, start, entries, enabled=True):
        """`start` is in the mechanism's own unit: 8 IDs, 1 MiB or 256 MiB."""
        self.capabilities |= 1 << which | size_code << SIZE_SHIFT[which]
        bits = bytearray((256 << size_code) // 8)
        for i in entries:
            bits[i // 8] |= 1 << i % 8
        self.vectors[which] = bytes(bits)
        control = int(enabled) | granularity << 4
        if which == RID:
            self.controls[0] = control | start << 19
        elif which == LOW:
            self.controls[2] = control | start << 20
        else:
            self.controls[3] = control | (start & 15) << 28
            self.controls[4] = start >> 4
        return self

    def secondary(self, unit, num_sec_dev=0):
        self.controls[1] = unit << 3
        self.capabilities |= num_sec_dev << 3
        return self

    def record(self, vectors_at, edition):
        """ACS Control, and the two zeros behind it, are in edition 2 alone."""
        both = struct.pack('<BBHHBBHHHHIIHHIIIIIIIHH', self.kind, self.parent, self.own, self.command, *self.buses, *self.memory,
                           *self.prefetchable, *self.upper, self.device_control_2, self.bridge_control, self.capabilities,
                           *self.controls, vectors_at, self.acs_control, 0)
        return both[:RECORD_LENGTH[edition]]

    def vector_bytes(self):
        return b''.join(self.vectors[w] for w in sorted(self.vectors))


def picture(ports, edition=1):
    at = 16 + RECORD_LENGTH[edition] * len(ports)
    records, vectors = b'', b''
    for port in ports:
        records += port.record(at + len(vectors), edition)
        vectors += port.vector_bytes()
    total = at + len(vectors)
    return struct.pack('<HHIII', edition, len(ports), total, 16, at) + records + vectors


def patch(*ports):
    """New vectors for some ports: pairs of a number and a Port of the same vector sizes, whose vectors alone count."""
    at = 8 + 8 * len(ports)
    rows, vectors = b'', b''
    for number, port in ports:
        rows += struct.pack('<II', number, at + len(vectors))
        vectors += port.vector_bytes()
    return struct.pack('<II', len(ports), at + len(vectors)) + rows + vectors


def card(low=(), high=()):
    """The port of a card that waits in its slot: vectors of all three kinds, those for memory from E0000000h and from 4 GiB on."""
    return Port(DOWNSTREAM, 1, 0x0208, buses=(4, 4)).vector(RID, 0, 0, 0x80, []).vector(LOW, 0, 0, 0xE00, low).vector(HIGH, 0, 0, 16, high)


def level_card(low):
    """A port with a MEM Low vector from E0000000h on."""
    return Port(DOWNSTREAM, 1, 0x0200, buses=(3, 3)).vector(LOW, 0, 0, 0xE00, low)


def above(last_bus, **registers):
    """A root port and the upstream port of a switch below it, with the same registers for memory and Bridge Control."""
    return [Port(ROOT, 255, 0x0008, buses=(1, last_bus), **registers), Port(UPSTREAM, 0, 0x0100, buses=(2, last_bus), **registers)]


def beside_display(low):
    """A port without VGA Enable; its MEM Low vector is over all of the first 4 GiB, by 16 MiB."""
    return Port(DOWNSTREAM, 1, 0x0208, buses=(4, 4), bridge_control=VGA_16_BIT).vector(LOW, 0, 4, 0, low)


def flat(kind, parent, own, start, units, secondary, num_sec_dev=0, **registers):
    """A port without buses: it has units by a RID vector from `start` on, and a Secondary range."""
    entries = [unit - start for unit in units]
    return Port(kind, parent, own, **registers).vector(RID, 0, 0, start, entries).secondary(secondary, num_sec_dev)


def below_ari(units):
    """The upstream port below one with ARI, which takes configuration requests for all of bus 2."""
    return flat(UPSTREAM, 3, 0x0200, 0x40, units, 0x60)


def two_switches(rid_enabled):
    """A switch below a switch. The Secondary range of port 1 is 32 devices from 02:01.0 on, one device too far: to 03:00.7."""
    return [
        Port(ROOT, 255, 0x0008, buses=(1, 6)),
        Port(UPSTREAM, 0, 0x0100, buses=(2, 6)).vector(RID, 0, 0, 0x40, [], enabled=rid_enabled).secondary(0x41, 31),
        Port(DOWNSTREAM, 1, 0x0208, buses=(3, 5)),
        Port(UPSTREAM, 2, 0x0300, buses=(4, 5)),
        Port(DOWNSTREAM, 3, 0x0400, buses=(5, 5)),
        Port(DOWNSTREAM, 1, 0x0210, buses=(6, 6)),
    ]


def third_root(**registers):
    """Two root ports with a device each, and one with a switch: its Secondary Start is 03:01.0, a port inside that switch."""
    return [
        Port(ROOT, 255, 0x0008, buses=(1, 1)),
        Port(ROOT, 255, 0x0010, buses=(5, 5)),
        Port(ROOT, 255, 0x0018, buses=(2, 4), **registers).vector(RID, 0, 0, 0x40, []).secondary(0x61),
        Port(UPSTREAM, 2, 0x0200, buses=(3, 4)).vector(RID, 0, 0, 0x60, [1]),
        Port(DOWNSTREAM, 3, 0x0308, buses=(4, 4)),
    ]


def scattered(entries):
    """A port with bus 4, and more by a RID vector from 02:00.0 on."""
    return Port(DOWNSTREAM, 1, 0x0208, buses=(4, 4)).vector(RID, 0, 0, 0x40, entries)


def chain(length):
    """A root port and below it upstream and downstream ports in turn."""
    kinds = [ROOT] + [UPSTREAM if i % 2 else DOWNSTREAM for i in range(1, length)]
    return [Port(kind, i - 1 if i else 255, 8 * i) for i, kind in enumerate(kinds)]


def nested(bus, length, root_id, first=0, more=15, **registers):
    """A sound chain whose first port is number `first`: every port has one bus of its own, and all that lie below it, to bus + more."""
    kinds = [ROOT] + [UPSTREAM if i % 2 else DOWNSTREAM for i in range(1, length)]
    return [Port(kind, first + i - 1 if i else 255, (bus + i - 1) << 8 if i else root_id, buses=(bus + i, bus + more), **registers)
            for i, kind in enumerate(kinds)]


def acs_port(own, bus, acs_control, low):
    """A downstream port with an ACS Control, and a MEM Low vector from E0000000h on."""
    return Port(DOWNSTREAM, 1, own, buses=(bus, bus), acs_control=acs_control).vector(LOW, 0, 0, 0xE00, low)


def changed(data, at, new):
    return data[:at] + bytes(new) + data[at + len(new):]


# the paper's own picture: one root port with bus 1, Memory E0000000h to E00FFFFFh and an empty Prefetchable window
ONE_PORT = bytes.fromhex('01000100480000001000000048000000 00FF0800020001 0100E000E0F0FF0000'.replace(' ', '')) + bytes(36) + bytes.fromhex('48000000')

# the same in edition 2, with P2P Request Redirect
ONE_PORT_OF_2 = picture([Port(ROOT, 255, 0x0008, buses=(1, 1), memory=(0xE000, 0xE000), prefetchable=(0xFFF0, 0), acs_control=REDIRECT)],
                        edition=2)

SWITCH = [
    Port(ROOT, 255, 0x0008, buses=(1, 4)),
    Port(UPSTREAM, 0, 0x0100, buses=(2, 4)),
    Port(DOWNSTREAM, 1, 0x0200, buses=(3, 3)),
    Port(DOWNSTREAM, 1, 0x0208, buses=(4, 4)),
]

SAMPLES = {
    'one-port': ONE_PORT,
    'switch': picture(SWITCH),
    # every kind of decoder in use, and a root port between the ports of a switch
    'every-decoder': picture([
        Port(ROOT, 255, 0x0008, buses=(1, 4), memory=(0xE000, 0xEFF0), prefetchable=(0x0001, 0xFFF1), upper=(1, 1), bridge_control=VGA),
        Port(ROOT, 255, 0x0010, command=0, memory=(0xE000, 0xEFF0), bridge_control=VGA),
        Port(UPSTREAM, 0, 0x0100, buses=(2, 4), memory=(0xE000, 0xEFF0), prefetchable=(0x0001, 0xFFF1), upper=(1, 1), bridge_control=VGA),
        Port(DOWNSTREAM, 2, 0x0200, buses=(3, 3), bridge_control=VGA).vector(LOW, 0, 0, 0xE00, [1, 5]),
        Port(ROOT, 255, 0x0018, buses=(16, 16), prefetchable=(0xD000, 0xD000)).vector(LOW, 1, 0, 0xE00, [1], enabled=False),
        Port(DOWNSTREAM, 2, 0x0208, buses=(4, 4), device_control_2=ARI).vector(RID, 0, 0, 0x80, [0, 31]).vector(HIGH, 1, 0, 16, [0, 1, 7]),
    ]),
    'chain-of-16': picture(chain(16)),
    'chain-of-17': picture(chain(17)),
    # the longest way there is: up from the device port 14, and down to the upstream port 30 over 31 ports
    'two-chains': picture(nested(1, 15, 0x0008) + nested(32, 16, 0x0010, first=15)),
    'short': ONE_PORT[:71],
    'edition-3': changed(ONE_PORT, 0, [3, 0]),
    'no-port': changed(ONE_PORT, 2, [0, 0]),
    'total-wrong': changed(ONE_PORT, 4, [0x49]),
    'records-elsewhere': changed(ONE_PORT, 8, [17]),
    'later-child': picture(SWITCH[:2] + [Port(UPSTREAM, 0, 0x0110)]),
    'reserved-size': picture([Port(ROOT, 255, 8), Port(ROOT, 255, 16).vector(RID, 1, 0, 0, [])]),
    'start-misaligned': picture([Port(ROOT, 255, 8).vector(LOW, 0, 4, 8, [0])]),
    'vectors-past-the-end': changed(picture([Port(ROOT, 255, 8).vector(RID, 0, 0, 0, [3])])[:-1], 4, [16 + 56 + 31]),
    # two siblings with one memory granule, as on the bench: ports 2 and 3 below the switch, each with entry 5 of a Low vector set
    'shared-granule': picture([
        Port(ROOT, 255, 0x0008, buses=(1, 4), memory=(0xE000, 0xEFF0)),
        Port(UPSTREAM, 0, 0x0100, buses=(2, 4), memory=(0xE000, 0xEFF0)),
        Port(DOWNSTREAM, 1, 0x0200, buses=(3, 3)).vector(LOW, 0, 0, 0xE00, [1, 5]),
        Port(DOWNSTREAM, 1, 0x0208, buses=(4, 4)).vector(LOW, 0, 0, 0xE00, [5, 9]),
    ]),
    # ports 2 and 9 of one switch share the last granule below 2^64, at different granularities
    'far-apart-at-the-top': picture([
        Port(ROOT, 255, 0x0008, buses=(1, 20), prefetchable=(0xFFF1, 0xFFF1), upper=(0xFFFFFFF0, 0xFFFFFFFF)),
        Port(UPSTREAM, 0, 0x0100, buses=(2, 20), prefetchable=(0xFFF1, 0xFFF1), upper=(0xFFFFFFF0, 0xFFFFFFFF)),
    ] + [Port(DOWNSTREAM, 1, 0x0200 + 8 * i, buses=(3 + i, 3 + i)).vector(HIGH, 0, *high) for i, high in enumerate(
        [(0, 0xFFFFFFFFF, [0]), (0, 0, []), (0, 0, []), (0, 0, []), (0, 0, []), (0, 0, []), (0, 0, []), (7, 0xFFFFFFF80, [0])])]),
    # an overlap at exactly 4 GiB: a Prefetchable window that ends just above it, and a High granule of 32 GiB that begins below it
    'at-four-gib': picture([
        Port(ROOT, 255, 8, prefetchable=(0xFFF1, 0x0001), upper=(0, 1)),
        Port(ROOT, 255, 16).vector(HIGH, 0, 7, 0, [0]),
    ]),
    # a bus pair and a RID vector meet at FFFFh
    'last-id': picture([
        Port(ROOT, 255, 8, buses=(0xFF, 0xFF)),
        Port(ROOT, 255, 16).vector(RID, 0, 0, 0x1FFF, [0]),
    ]),
    # a forgotten bus range of port 2, and port 3, which has the same ID as its own and by an entry of its RID vector
    'own-and-vector': picture(SWITCH[:3] + [Port(DOWNSTREAM, 1, 0x0300).vector(RID, 0, 0, 0x60, [0])]),
    # port 2 has a granule by both windows and by its MEM Low vector, port 3 by its vector alone
    'three-decoders': picture([
        Port(ROOT, 255, 0x0008, buses=(1, 4), memory=(0xE000, 0xEFF0)),
        Port(UPSTREAM, 0, 0x0100, buses=(2, 4), memory=(0xE000, 0xEFF0)),
        Port(DOWNSTREAM, 1, 0x0200, buses=(3, 3), memory=(0xE050, 0xE050), prefetchable=(0xE050, 0xE060)).vector(LOW, 0, 0, 0xE00, [5]),
        Port(DOWNSTREAM, 1, 0x0208, buses=(4, 4)).vector(LOW, 0, 0, 0xE00, [5]),
    ]),
    'own-id-claimed': picture([Port(ROOT, 255, 0x0108, buses=(1, 1))]),
    'stray-id': picture([Port(ROOT, 255, 8, buses=(1, 1)), Port(UPSTREAM, 0, 0x0100, buses=(2, 2))]),
    'stray-address': picture([
        Port(ROOT, 255, 8, buses=(1, 2), memory=(0xE000, 0xE000)),
        Port(UPSTREAM, 0, 0x0100, buses=(2, 2), memory=(0xE000, 0xE010)),
    ]),
    'own-id-lost': picture([
        Port(ROOT, 255, 8, buses=(1, 3)),
        Port(UPSTREAM, 0, 0x0110, buses=(2, 3)),
    ]),
    # a card waits in the slot of port 3: its vectors are there, and nothing is set in them yet
    'waiting-card': picture([
        Port(ROOT, 255, 0x0008, buses=(1, 4), memory=(0xE000, 0xEFF0), prefetchable=(0x0001, 0xFFF1), upper=(1, 1)),
        Port(UPSTREAM, 0, 0x0100, buses=(2, 4), memory=(0xE000, 0xEFF0), prefetchable=(0x0001, 0xFFF1), upper=(1, 1)),
        level_card([1, 5]),
        card(),
    ]),
    # a display card below port 2, and VGA Enable in all ports above it
    'display-card': picture(above(4, memory=(0xE000, 0xEFF0), prefetchable=(0x0001, 0xFFF1), upper=(1, 1), bridge_control=VGA) + [
        Port(DOWNSTREAM, 1, 0x0200, buses=(3, 3), memory=(0xE000, 0xE0F0), prefetchable=(0x0001, 0x0FF1), upper=(1, 1),
             bridge_control=VGA | VGA_16_BIT),
        beside_display([0xE1]),
    ]),
    # ports 2 and 3 of one switch have VGA Enable, port 4 does not
    'two-displays': picture(above(5, bridge_control=VGA) + [
        Port(DOWNSTREAM, 1, 0x0200, buses=(3, 3), bridge_control=VGA),
        Port(DOWNSTREAM, 1, 0x0208, buses=(4, 4), bridge_control=VGA),
        Port(DOWNSTREAM, 1, 0x0210, buses=(5, 5)),
    ]),
    # a display card whose switch has VGA Enable in its downstream port 2 and not in its upstream port
    'stray-display': picture([
        Port(ROOT, 255, 0x0008, buses=(1, 4), bridge_control=VGA),
        Port(UPSTREAM, 0, 0x0100, buses=(2, 4)),
        Port(DOWNSTREAM, 1, 0x0200, buses=(3, 3), bridge_control=VGA),
        Port(DOWNSTREAM, 1, 0x0208, buses=(4, 4)),
    ]),
    # port 2 has memory registers of zeros, which are the first MiB, and port 3 a display card
    'display-over-the-first-mib': picture(above(4, bridge_control=VGA) + [
        Port(DOWNSTREAM, 1, 0x0200, buses=(3, 3), memory=(0, 0), prefetchable=(0, 0)),
        Port(DOWNSTREAM, 1, 0x0208, buses=(4, 4), bridge_control=VGA),
    ]),
    # port 2 has the video range by both windows, by its MEM Low vector and by VGA Enable, port 3 by VGA Enable alone
    'four-decoders': picture(above(4, memory=(0, 0), bridge_control=VGA) + [
        Port(DOWNSTREAM, 1, 0x0200, buses=(3, 3), memory=(0, 0), prefetchable=(0, 0), bridge_control=VGA).vector(LOW, 0, 0, 0, [0]),
        Port(DOWNSTREAM, 1, 0x0208, buses=(4, 4), bridge_control=VGA),
    ]),
    'eight-before-nine': picture([Port(ROOT, 255, 8).vector(LOW, 0, 4, 8, [0]), Port(ROOT, 255, 16, memory=(0xE001, 0xE000))]),
    # switches without buses of their own, sound: each port finds the ports right below it by its Secondary range, of each form
    'flat-switch': picture([
        flat(ROOT, 255, 0x0008, 0x20, [*range(0x20, 0x24), *range(0x40, 0x62)], 0x20),
        flat(UPSTREAM, 0, 0x0100, 0x20, [*range(0x21, 0x24), *range(0x40, 0x62)], 0x21, 1),
        flat(DOWNSTREAM, 1, 0x0108, 0x20, [0x23], 0x23),
        flat(DOWNSTREAM, 1, 0x0110, 0x40, range(0x40, 0x62), 0x40, device_control_2=ARI),
        below_ari([0x60, 0x61]),
        flat(DOWNSTREAM, 4, 0x0300, 0x60, [0x61], 0x61),
    ]),
    # port 1 takes configuration requests for 03:00.0, which is port 3, two steps down
    'taken-id': picture(two_switches(True)),
    # the same with RID decoding off, so that the range does not count: sound
    'range-off': picture(two_switches(False)),
    # an entry of port 3 on the bus of the switch itself, Secondary of port 1
    'taken-bus': picture(SWITCH[:3] + [scattered([8])]),
    # the Secondary range of port 2 is one unit, and with ARI the whole bus
    'taken-unit': picture(third_root()),
    'taken-ari-bus': picture(third_root(device_control_2=ARI)),
    # port 1 takes 03:01.0, and port 2 turns it away; port 0 takes 06:00.0, which is not the least
    'taken-twice': picture([
        Port(ROOT, 255, 0x0008, buses=(1, 6)).vector(RID, 0, 0, 0x20, []).secondary(0xC0),
        Port(UPSTREAM, 0, 0x0100, buses=(2, 6)).vector(RID, 0, 0, 0x20, []).secondary(0x61),
        Port(DOWNSTREAM, 1, 0x0200, buses=(3, 5)),
        Port(UPSTREAM, 2, 0x0300, buses=(4, 5)).vector(RID, 0, 0, 0x60, [1]),
        Port(DOWNSTREAM, 3, 0x0400, buses=(5, 5)),
        Port(DOWNSTREAM, 1, 0x0208, buses=(6, 6)),
    ]),
    # a switch whose downstream ports are on bus 1 as it is, below a root port that turns away all devices there but 0
    'turned-away': picture([
        Port(ROOT, 255, 0x0008, buses=(1, 4)),
        Port(UPSTREAM, 0, 0x0100, buses=(2, 4)).vector(RID, 0, 0, 0x20, [1, 2]).secondary(0x21, 1),
        Port(DOWNSTREAM, 1, 0x0108, buses=(3, 3)),
        Port(DOWNSTREAM, 1, 0x0110, buses=(4, 4)),
    ]),
    # the own ID of port 2 is on no bus that port 1 makes Type 0, and port 1 has an entry that port 0 turns away
    'fifteen-before-eighteen': picture([
        Port(ROOT, 255, 0x0008, buses=(1, 3)),
        Port(UPSTREAM, 0, 0x0100, buses=(2, 3)).vector(RID, 0, 0, 0x20, [1]),
        Port(DOWNSTREAM, 1, 0x0300),
    ]),
    'one-port-edition-2': ONE_PORT_OF_2,
    # redirect at the device ports 2, 3 and 5 of edition 2; ports 0 and 1 have its bit too, but no device, and port 4 the bits beside it
    'redirect': picture([
        Port(ROOT, 255, 0x0008, buses=(1, 5), memory=(0xE000, 0xE0F0), acs_control=REDIRECT),
        Port(UPSTREAM, 0, 0x0100, buses=(2, 5), memory=(0xE000, 0xE0F0), acs_control=REDIRECT),
        acs_port(0x0200, 3, REDIRECT, [1, 5]),
        Port(DOWNSTREAM, 1, 0x0208, buses=(4, 4), memory=(0xE060, 0xE070), device_control_2=ARI, acs_control=0x1D),
        acs_port(0x0210, 5, 1 << 3 | 1 << 1, [9]),
        Port(ROOT, 255, 0x0010, buses=(6, 6), memory=(0xD000, 0xD000), acs_control=REDIRECT),
    ], edition=2),
    # the longest ways of a redirected packet: up from the device port 14 over 15 ports, and down over 16, to port 30 of the other
    # chain, or over the same ports to port 32, beside port 14
    'redirect-two-chains': picture(nested(1, 14, 0x0008, more=17, memory=(0xD000, 0xD000)) + [
        Port(DOWNSTREAM, 13, 0x0E00, buses=(15, 15), acs_control=REDIRECT),
    ] + nested(32, 16, 0x0010, first=15, memory=(0xE000, 0xE000)) + [
        Port(DOWNSTREAM, 13, 0x0E08, buses=(16, 18), memory=(0xD000, 0xD000)),
        Port(UPSTREAM, 31, 0x1000, buses=(17, 18), memory=(0xD000, 0xD000)),
    ], edition=2),
    # ports 2 and 3 share two granules, of which port 6 has the second and the ports above them the first alone; redirect at port 4
    'redirect-past-two-holders': picture([
        Port(ROOT, 255, 0x0008, buses=(1, 6), memory=(0xE000, 0xE0F0)),
        Port(UPSTREAM, 0, 0x0100, buses=(2, 6), memory=(0xE000, 0xE0F0)),
        acs_port(0x0200, 3, 0, [5, 32]),
        acs_port(0x0208, 4, 0, [5, 32]),
        Port(DOWNSTREAM, 1, 0x0210, buses=(5, 5), acs_control=REDIRECT),
        Port(DOWNSTREAM, 1, 0x0218, buses=(6, 6)),
        Port(ROOT, 255, 0x0010, buses=(7, 7), memory=(0xE200, 0xE200)),
    ], edition=2),
    'own-id-claimed-edition-2': picture([Port(ROOT, 255, 0x0008), Port(ROOT, 255, 0x0108, buses=(1, 1))], edition=2),
    'edition-2-short': ONE_PORT_OF_2[:75],
    'edition-2-offsets-of-1': changed(picture(SWITCH, edition=2), 12, struct.pack('<I', 16 + 56 * 4)),
    'acs-not-zero': changed(picture([Port(ROOT, 255, 8), Port(ROOT, 255, 16)], edition=2), 16 + 60 + 59, [0x12]),
    # a port with every cause of 8 but a vector that is not supported
    'settings-all-wrong': changed(picture([Port(ROOT, 255, 8, memory=(0xE001, 0xE000)).vector(RID, 1, 0, 0, [])], edition=2), 16 + 58,
                                  [0x34, 0x12]),
}

# patches by the picture that they are for, and what they do
WAITING = patch((2, level_card([1])), (3, card([9], [0, 1])))
PATCHES = {
    'waiting-card.fits': patch((3, card([9], [0, 1]))),
    # a granule that port 2 has
    'waiting-card.collides': patch((3, card([5, 9]))),
    # port 2 gives the granule up in the same trial
    'waiting-card.moves': patch((2, level_card([1])), (3, card([5]))),
    'waiting-card.strays': patch((3, card([9], [16]))),
    'waiting-card.nothing': patch(),
    # port 3 without the granule that both have
    'shared-granule.mends': patch((3, level_card([9]))),
    # an entry that reaches over the video range, and one that does not
    'display-card.collides': patch((3, beside_display([0, 0xE1]))),
    'display-card.fits': patch((3, beside_display([0xE1, 0xE2]))),
    # an entry on bus 2, which the port above takes
    'flat-switch.taken': patch((4, below_ari([0x42, 0x60, 0x61]))),
    # the entry is on bus 4, which the port has
    'taken-bus.mends': patch((3, scattered([64]))),
    # port 2 gets the granule of port 4, which has another or keeps it: what the device of port 2 sends there is not redirected
    'redirect.moves': patch((2, acs_port(0x0200, 3, REDIRECT, [9])), (4, acs_port(0x0210, 5, 1 << 3 | 1 << 1, [5]))),
    'redirect.collides': patch((2, acs_port(0x0200, 3, REDIRECT, [9]))),
    # a patch over a picture that does not read
    'short.nothing': patch(),
    'waiting-card.no-bytes': b'',
    'waiting-card.cut-short': WAITING[:-1],
    'waiting-card.twice': patch((3, card()), (3, card())),
    'waiting-card.falling': patch((3, card()), (2, level_card([1]))),
    'waiting-card.beyond': patch((4, card())),
    'waiting-card.gap': changed(WAITING, 4, struct.pack('<I', len(WAITING) + 1)) + bytes(1),
    'waiting-card.wrong-offset': changed(WAITING, 20, struct.pack('<I', 24)),
}

if __name__ == '__main__':
    for kind, samples in (('picture', SAMPLES), ('patch', PATCHES)):
        for name, data in samples.items():
            with open(os.path.join(HERE, f'{name}.{kind}'), 'wb') as f:
                f.write(data)
