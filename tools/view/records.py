"""The records of a plan and the events after it, as the bench program reads them; and what a plan's records say."""
from collections import namedtuple
from itertools import accumulate

# By the kind byte: the name, and after the kind byte the fields with how many bytes each has.
Kind = namedtuple('Kind', 'name fields')
FRAME = {'node': 1, 'ID': 2, 'size': 1, 'prescaler': 1, 'reload': 1, 'initial timer': 1}
TX = {**FRAME, 'flags': 1, 'initial payload': 8}
RX = {**FRAME, 'failure enable': 1, 'failure position': 1, 'long count': 1}
RECEPTION = {'node': 1, 'ID': 2, 'length': 1, 'data': 8}
RECORDS = {
    1: Kind('a head', {'order': 1}),
    2: Kind('a node', {'type': 1}),
    3: Kind('a Tx frame', TX),
    4: Kind('an Rx frame', RX),
    5: Kind('a signal', {'position': 1, 'signal size': 1}),
    6: Kind('a destination', {'Tx frame': 2, 'position': 1}),
    7: Kind('a Tx frame with a 29-bit ID', {**TX, 'ID': 4}),
    8: Kind('an Rx frame with a 29-bit ID', {**RX, 'ID': 4}),
}
EVENTS = {
    16: Kind('a reception', RECEPTION),
    17: Kind('a tick', {}),
    18: Kind('a take', {'node': 1}),
    19: Kind('a reception with a 29-bit ID', {**RECEPTION, 'ID': 4}),
    20: Kind('a response', {**RECEPTION, 'checksum': 1}),
    21: Kind('no response', {'node': 1, 'ID': 2}),
}
# Those with a 29-bit ID, each with the kind that has an 11-bit one and is otherwise alike.
EXTENDED = {7: 3, 8: 4, 19: 16}

# A record or an event: where it begins, its kind, the bytes of the kind and of each field, and the fields as numbers.
# One that is cut or of an unknown kind takes the rest, a part for each byte, and has no fields.
Record = namedtuple('Record', 'place kind parts fields')


class Id(namedtuple('Id', 'extended number')):
    """An ID with its format: whether it has 29 bits, and the number. Those of 11 bits come first. Shown as candump does, with 3 or 8 digits."""
    __slots__ = ()

    def __str__(self):
        return f'{self.number:08X}' if self.extended else f'{self.number:03X}'


Tx = namedtuple('Tx', 'node id size prescaler reload initial flags payload')
Rx = namedtuple('Rx', 'node id size prescaler reload initial enable position long_count record')
# Who owns bits of a Tx frame: a destination, or the failure bit of an Rx frame.
Owner = namedtuple('Owner', 'tx rx position size failure record')


def length(kind, kinds):
    """How many bytes a record or event of a kind has."""
    return 1 + sum(kinds[kind].fields.values())


def records(data, kinds):
    place = 0
    while place < len(data):
        kind = data[place]
        sizes = [1, *kinds[kind].fields.values()] if kind in kinds else []
        whole = bool(sizes) and place + sum(sizes) <= len(data)
        ends = list(accumulate(sizes if whole else [1] * (len(data) - place), initial=place))
        parts = [bytes(data[a:b]) for a, b in zip(ends, ends[1:])]
        fields = {name: int.from_bytes(part, 'big') for name, part in zip(kinds[kind].fields, parts[1:])} if whole else None
        yield Record(place, kind, parts, fields)
        place = ends[-1]


def id_of(record):
    """The ID of a whole frame, reception, response or silence."""
    return Id(record.kind in EXTENDED, record.fields['ID'])


def size_of(record):
    return sum(map(len, record.parts))


def digits_of(record):
    return ' '.join(part.hex() for part in record.parts)


class Plan:
    """What the records say that were added so far."""

    def __init__(self):
        self.order, self.types, self.tx, self.rx, self.owners = 'big', [], [], [], []
        self.kind = None          # of the last record; of a frame with a 29-bit ID, that of one with 11 bits
        self.size = 0             # of the last signal
        self.signals = self.destinations = 0
        self.frame_signals = self.signal_destinations = 0  # of the last Rx frame, of the last signal

    @property
    def nodes(self):
        return len(self.types)

    def lin(self, node):
        """Whether there is such a node and it is a LIN node."""
        return node < self.nodes and self.types[node] == 1

    def schedulable(self, node):
        """How many frames and requests can be scheduled on a node: its Tx frames, and on a LIN node its Rx frames."""
        frames = self.tx + self.rx * self.lin(node)
        return sum(frame.node == node for frame in frames)

    def rows(self, event):
        """The number of the Rx frame of an event's node and ID, in a list; an empty one where there is none."""
        return [number for number, frame in enumerate(self.rx) if (frame.node, frame.id) == (event.fields['node'], id_of(event))]

    def add(self, number, record):
        """Adds a whole record, which has this number."""
        self.kind = EXTENDED.get(record.kind, record.kind)
        values = list({**record.fields, 'ID': id_of(record)}.values() if 'ID' in record.fields else record.fields.values())
        if self.kind == 1:
            self.order = 'little' if values[0] else 'big'
        elif self.kind == 2:
            self.types.append(values[0])
        elif self.kind == 3:
            self.tx.append(Tx(*values))
        elif self.kind == 4:
            self.rx.append(Rx(*values, number))
            self.frame_signals = 0
        elif self.kind == 5:
            self.size = values[1]
            self.signals += 1
            self.frame_signals += 1
            self.signal_destinations = 0
        else:
            self.owners += self.claims(number, record)
            self.destinations += 1
            self.signal_destinations += 1

    def claims(self, number, record):
        """What a destination would own: its bits, and with the first one of an Rx frame that frame's failure bit."""
        tx, position = record.fields.values()
        rx = len(self.rx) - 1
        claims = [Owner(tx, rx, position, self.size, False, number)]
        first = not self.owners or self.owners[-1].rx != rx
        if first and self.rx and self.rx[rx].enable:
            claims.append(Owner(tx, rx, self.rx[rx].position, 1, True, self.rx[rx].record))
        return claims
