"""Reads the typed text, or the program's own input, into a plan and events."""
from view.records import EVENTS, EXTENDED, RECORDS, length
from view.words import MOST_ID, clean, cut_short

MOST = 65535  # the most bytes that a plan length can say
HEX = set('0123456789abcdefABCDEF')


class Bad(Exception):
    """Input that cannot be read: where and why."""


class Part:
    """The plan or the events: the bytes, the line of each byte, and by place the comments that have a line to themselves."""

    def __init__(self, kinds, data=b''):
        self.kinds, self.data, self.lines, self.notes = kinds, bytearray(data), [0] * len(data), {}
        self.begun = 0  # where the record or event begins that is not whole yet; behind one of an unknown kind no other begins

    def line(self, place):
        """', line 7' for a byte that was typed there, and nothing for one that was not typed."""
        return f', line {self.lines[place]}' if place < len(self.lines) and self.lines[place] else ''

    def type(self, number, word):
        """Adds a word of a line. A record or an event stands whole on one line: with a byte left out, it would take those of the next line."""
        here, kind = len(self.data) - self.begun, self.unfinished()
        if kind and self.lines[self.begun] != number:
            raise Bad(f'line {self.lines[self.begun]}: {cut_short(kind, self.kinds, here)}, and the line ends; '
                      'a byte is missing, or one too many stands before')
        id_bytes = self.kinds[kind].fields.get('ID') if kind and here == 2 else None
        why = wrong_id(word, kind, id_bytes) if id_bytes else mistake(word)
        if why:
            raise Bad(f"line {number}: '{clean(word, 40)}' {why}")
        self.data += bytes.fromhex('0' * (len(word) % 2) + word)
        self.lines += [number] * ((len(word) + 1) // 2)
        while (kind := self.unfinished()) and self.begun + length(kind, self.kinds) <= len(self.data):
            self.begun += length(kind, self.kinds)

    def unfinished(self):
        """The kind of the record or event that is not whole yet; nothing where none is begun, or its kind is unknown."""
        kind = self.data[self.begun] if self.begun < len(self.data) else None
        return kind if kind in self.kinds else None


def read_text(text):
    plan, events = Part(RECORDS), Part(EVENTS)
    part = plan
    for number, line in enumerate(text.rstrip('\n').split('\n'), 1):
        code, mark, comment = line.partition('#')
        words = code.split()
        if part is plan and words == ['events']:
            part = events
            continue
        if mark and not words:
            part.notes.setdefault(len(part.data), []).append(clean(' '.join(comment.split())))
        for word in words:
            part.type(number, word)
    if part is plan:
        raise Bad(f"line {number}: the text ends, and no line 'events' parts the plan from the events; write one, also where no event follows")
    if len(plan.data) > MOST:
        raise Bad(f'line {plan.lines[MOST]}: the plan passes {MOST:,} bytes, the most that its length can say')
    return plan, events


def mistake(word):
    """Why a word is no bytes in hex, and what to write instead; nothing for one that is."""
    if set(word) <= HEX:
        return 'has an odd number of hex digits: a byte has two, an ID three or four, or eight for one of 29 bits' if len(word) % 2 else ''
    if word.lower().startswith('0x'):
        return 'has 0x before it: all numbers are hex here, so write the digits alone'
    if word.lower().strip('[]:;,.=-') in ('event', 'events'):
        return 'is not hex: one line between plan and events says events, in small letters and nothing else'
    if word.isalpha() or word.startswith(('/', ';', '-', '%', '!', '"', '(')):
        return 'is not hex: a comment begins with #'
    if word.endswith(';'):
        return 'is not hex: write no ; behind a record'
    if set(word) <= HEX | set(',:-_.'):
        return 'is not hex: write bytes with a space between them, or nothing'
    return 'is not hex'


def wrong_id(word, kind, id_bytes):
    """Why a word cannot stand where an ID begins. There one of three digits has 11 bits, as candump writes it, and one of eight 29."""
    if set(word) <= HEX and len(word) == 3:
        return '' if id_bytes == 2 else f'has three hex digits, as an 11-bit ID; kind {kind:02x} has one of 29 bits, which has eight'
    if set(word) <= HEX and len(word) == 8 and id_bytes == 2 and int(word[:4], 16) > MOST_ID[False] and int(word, 16) <= MOST_ID[True]:
        return f'has eight hex digits, as a 29-bit ID; kind {kind:02x} has one of 11 bits' + \
            ''.join(f', and kind {extended:02x} one of 29' for extended, like in EXTENDED.items() if like == kind)
    return mistake(word)


def read_binary(data):
    """The program's own input: the plan length in two bytes, the plan, the events."""
    end = 2 + int.from_bytes(data[:2], 'big')
    return Part(RECORDS, data[2:end]), Part(EVENTS, data[end:])
