"""Records, events and the bench program's lines in words. This is for show and decides nothing."""
import os
import re
from itertools import groupby

from view.lin import checksum, protected
from view.records import EVENTS, EXTENDED, RECORDS, Id, id_of, length

TYPES = {0: 'CAN', 1: 'LIN, we are the master'}
SENDS = {0: '', 1: ', sends on reception', 2: ', sends on change', 3: ', sends on reception and on change'}
# What each kind of event can be answered with, but for the lines below.
ANSWERS = {
    16: {'rx 0': 'accepted', 'rx 2': "not taken: shorter than the row's size"},
    17: {},
    18: {'take none': 'nothing waits on this node'},
    19: {'rx 0': 'accepted', 'rx 2': "not taken: shorter than the row's size"},
    20: {'rx 0': 'accepted', 'rx 2': "not taken: shorter than the row's size", 'rx 3': 'not taken: the checksum is wrong'},
    21: {},
}
TICK = re.compile(r'tick( [0-2])*')
LINES = {
    16: re.compile(r'rx refused 1[1-6]|rx 1 \d{1,3}'),
    17: re.compile(rf'tick refused 1[1-6]|{TICK.pattern}'),
    18: re.compile(r'take refused 1[1-6]|take \d{1,3} (\d{1,4}|e\d{1,9}) [0-8] (-|([0-9a-f]{2})+) \d{1,3}|take request \d{1,3} \d{1,2} [1-8] \d{1,3}'),
    19: re.compile(r'rx refused 1[1-6]|rx 1 \d{1,3}'),
    20: re.compile(r'rx refused 1[1-6]'),
    21: re.compile(r'silent refused 1[1-6]|silent [12]'),
}
NO_LINE = 'no line of the bench program'
MOST_ID = {False: 0x7ff, True: 0x1fffffff}  # by whether an ID has 29 bits


def clean(text, limit=None):
    """The text on one line: what cannot be printed is escaped, and what passes the limit is cut."""
    shown = ''.join(c if c.isprintable() else c.encode('unicode_escape', 'surrogatepass').decode() for c in text)
    return shown if limit is None or len(shown) <= limit else shown[:limit] + '...'


def count(number, what):
    return f'{number} {what}' + 's' * (str(number) != '1')


def one_of(names):
    """'a, b or c'."""
    *most, last = names
    return ', '.join(most) + ' or ' * bool(most) + last


def bits(position, size):
    return f'bit {position}' if size == 1 else f'bits {position} to {position + size - 1}'


def key(plan, frame):
    return f'node {frame.node}, ID {id_words(plan, frame.node, frame.id)}'


def id_words(plan, node, id_):
    """An ID of a node: on CAN as candump shows it, on LIN the plain one."""
    return f'0x{id_.number:03x}' if plan.lin(node) else str(id_)


def numbered(total, what):
    """What there is of a kind whose numbers begin with 0."""
    return f'there is no {what}' if total == 0 else f'there is {what} 0 alone' if total == 1 else f'there are {what}s 0 to {total - 1}'


def cut_short(kind, kinds, there):
    """That only the first bytes of a record or event are there."""
    name, fields = kinds[kind]
    always = {'data': ' whatever the length'}
    layout = ', '.join(['kind', *(field + f' ({size})' * (size > 1) + always.get(field, '') for field, size in fields.items())])
    return f'{name} has {count(length(kind, kinds), "byte")}: {layout}; here {"is" if there == 1 else "are"} {there}'


def unknown_kind(kind, kinds):
    """That no record or no event has this kind."""
    names = one_of([f'{known:02x} ({name})' for known, (name, _) in kinds.items()])
    other = '; ' + ("events stand after a line 'events'" if kinds is RECORDS else "records stand before the line 'events'")
    return f'{kind:02x} is no kind: it is {names}' + other * (kind in {**RECORDS, **EVENTS})


def expiries(frame):
    """When the timer expires if nothing but its own expiry loads it."""
    first = f', first at tick {frame.prescaler * (frame.initial - 1)}' if frame.initial else ' once loaded'
    return (f'every {count(frame.prescaler * frame.reload, "tick")}' if frame.reload else 'once') + first


def reason(number):
    """Why a refusal is given, in the words of docs/REFUSALS.md."""
    page = os.path.join(os.path.dirname(os.path.realpath(__file__)), '../../docs/REFUSALS.md')
    with open(page, encoding='utf-8') as text:
        return re.search(rf'^\| {number} \| (.*?) \|', text.read(), re.M).group(1)


def on_lin(plan, frame):
    """', protected 0xc1' for a frame of a LIN node, and nothing for any other."""
    return f', protected 0x{protected(frame.id.number):02x}' if plan.lin(frame.node) else ''


def ahead(good, node, what):
    """How many can wait before a frame or a request in its node's queue; of a plan that is not good, nothing."""
    if good is None:
        return ''
    others = good.schedulable(node) - 1
    return f'\n    {what}{f"at most {others}" if others else "none"} ahead of it on node {node}'


def record_words(plan, record, good=None):
    """The record that was added to the plan last; good is the whole plan, if it is good."""
    if record.fields is None:
        return 'a cut record' if record.kind in RECORDS else f'unknown kind {record.kind:02x}: what follows cannot be read'
    values = list(record.fields.values())
    kind = EXTENDED.get(record.kind, record.kind)
    if kind == 1:
        return f'head: {plan.order} order' if values[0] < 2 else f'head: order {values[0]}'
    if kind == 2:
        return f'node {plan.nodes - 1}: ' + TYPES.get(values[0], f'type {values[0]}')
    if kind == 3:
        frame = plan.tx[-1]
        period = expiries(frame) if frame.reload or frame.initial else 'no period'
        sends = SENDS.get(frame.flags, f', flags {frame.flags}')
        return f'Tx frame {len(plan.tx) - 1}: {key(plan, frame)}{on_lin(plan, frame)}, {count(frame.size, "byte")}, {period}{sends}' + \
            ahead(good, frame.node, '')
    if kind == 4:
        frame = plan.rx[-1]
        expires, stopped = ('asked for', 'never asked for') if plan.lin(frame.node) else ('timeout', 'no timeout')
        timeout = f'{expires} {expiries(frame)}' if frame.reload or frame.initial else stopped
        long_count = f', long count {frame.long_count}' if frame.long_count else ''
        failure = f', failure bit {frame.position}' if frame.enable else ''
        asked = plan.lin(frame.node) and (frame.reload or frame.initial)
        request = ahead(good, frame.node, 'its request: ') if asked else ''
        return f'Rx frame {len(plan.rx) - 1}: {key(plan, frame)}{on_lin(plan, frame)}, {count(frame.size, "byte")}, {timeout}{long_count}{failure}{request}'
    if kind == 5:
        return f'    signal: {bits(*values)}'
    return f'        to {bits(values[1], plan.size)} of Tx frame {values[0]}'


def event_words(event, tick, times):
    if event.fields is None:
        return 'a cut event' if event.kind in EVENTS else f'unknown kind {event.kind:02x}'
    if event.kind in (16, 19):
        return f'node {event.fields["node"]} receives ID {id_of(event)}'
    if event.kind == 17:
        return f'tick {tick}' if times == 1 else f'ticks {tick} to {tick + times - 1}'
    if event.kind == 18:
        return f'take on node {event.fields["node"]}'
    return f'node {event.fields["node"]} {"responds" if event.kind == 20 else "silent"}, ID 0x{event.fields["ID"]:03x}'


def bad_event(event):
    """Why an event is none."""
    there = len(event.parts)
    return cut_short(event.kind, EVENTS, there) if event.kind in EVENTS else unknown_kind(event.kind, EVENTS)


def accepted(plan, event, line):
    """The number of the Rx frame that the line says was accepted, in a list; an empty one for any other line."""
    return plan.rows(event) if line == 'rx 0' and event.kind in (16, 19, 20) and event.fields else []


def timed_out(plan, event, line):
    """The numbers of the Rx frames of which the line says a timeout, with its byte."""
    if event.kind == 17 and TICK.fullmatch(line):
        return [(number, byte) for number, byte in enumerate(line.split()[1:]) if byte != '0']
    if event.kind == 21 and event.fields and line in ('silent 1', 'silent 2'):
        return [(number, line.split()[1]) for number in plan.rows(event)]
    return []


def count_timeouts(plan, event, line, in_a_row):
    """Counts how many timeouts of each Rx frame came in a row: its acceptance begins anew."""
    for number in accepted(plan, event, line):
        in_a_row[number] = 0
    for number, _ in timed_out(plan, event, line):
        in_a_row[number] = in_a_row.get(number, 0) + 1


def answer_words(plan, event, line, in_a_row, ages):
    """A line of the program that answers an event, as a list of lines."""
    if not event.fields and event.kind != 17:
        return [NO_LINE]
    if line in ANSWERS[event.kind]:
        return [ANSWERS[event.kind][line], *checksum_words(event, line)]
    if not LINES[event.kind].fullmatch(line):
        return [NO_LINE]
    _, *rest = line.split()
    if rest[:1] == ['refused']:
        return [reason(rest[1]) + why_refused(plan, event, rest[1])]
    if event.kind in (16, 19):
        return no_row(plan, event, int(rest[1]))
    if event.kind == 18:
        return request_words(plan, event, *map(int, rest[1:])) if rest[0] == 'request' else frame_words(plan, event, ages, *rest)
    return list(timeouts(plan, timed_out(plan, event, line), in_a_row)) or ['no timeout' if event.kind == 17 else NO_LINE]


def why_refused(plan, event, number):
    """What a refusal is about, where the plan tells."""
    if number == '12':
        return f': {numbered(plan.nodes, "node")}'
    if number != '16' or event.kind not in (16, 19, 20, 21):
        return ''
    node, id_ = event.fields['node'], event.fields['ID']
    if event.kind in (16, 19):
        return f': node {node} is a LIN node'
    return f': node {node} has no Rx frame with ID 0x{id_:03x}' if plan.lin(node) else f': node {node} is a CAN node'


def checksum_words(event, line):
    """Of a response, the protected identifier and the checksum that its data should have."""
    if event.kind != 20 or line == 'rx 2':
        return []
    id_, data = event.fields['ID'], event.parts[4][:event.fields['length']]
    which = 'checksum' if line == 'rx 0' else 'the right one is'
    return [f'    {which} 0x{checksum(id_, data):02x}, protected 0x{protected(id_):02x}']


def after_it(waiting):
    return {0: 'none waits', 1: '1 waits'}.get(waiting, f'{waiting} wait') + ' after it'


def request_words(plan, event, rx, id_, size, waiting):
    """A request: what the driver sends, and what it listens for."""
    if rx >= len(plan.rx) or (plan.rx[rx].node, plan.rx[rx].id, plan.rx[rx].size) != (event.fields['node'], (False, id_), size):
        return [NO_LINE]
    return [f'request for Rx frame {rx} (ID 0x{id_:03x}), {after_it(waiting)}',
            f'  protected 0x{protected(id_):02x}; {count(size, "byte")} and a checksum should come']


def frame_words(plan, event, ages, tx, id_, _, payload, waiting):
    """A taken frame with what its payload holds; on a LIN node with its protected identifier and checksum. e stands before a 29-bit ID."""
    payload, owners = bytes.fromhex(payload.strip('-')), [owner for owner in plan.owners if owner.tx == int(tx)]
    node, id_ = event.fields['node'], Id(id_.startswith('e'), int(id_.lstrip('e')))
    if any(owner.position + owner.size > 8 * len(payload) for owner in owners) or id_.extended and plan.lin(node):
        return [NO_LINE]
    lin = [f'  protected 0x{protected(id_.number):02x}; checksum 0x{checksum(id_.number, payload):02x}'] if plan.lin(node) else []
    return [f'Tx frame {tx} (ID {id_words(plan, node, id_)}), {after_it(int(waiting))}', *lin, *values_in(plan, owners, payload, ages)]


def no_row(plan, event, place):
    """Where in the plan a row would stand for a frame that has none: between which Rx frames."""
    node = event.fields['node']
    own = [number for number, frame in enumerate(plan.rx) if frame.node == node]
    if place > len(own):
        return [NO_LINE]
    at = sum(frame.node < node for frame in plan.rx) + place

    def named(number):
        frame = plan.rx[number]
        return f'Rx frame {number}, ' + (f'ID {frame.id}' if frame.node == node else f'of node {frame.node}')

    id_ = id_of(event)
    most = id_._replace(number=MOST_ID[id_.extended])
    if id_ > most:
        where = f'no row can have it: the greatest ID of {29 if id_.extended else 11} bits is {most}'
    elif not plan.rx:
        where = 'its place: the plan has no rows'
    elif at == 0:
        where = f'its place: before {named(0)}'
    elif at == len(plan.rx):
        where = f'its place: behind {named(at - 1)}'
    else:
        where = f'its place: between {named(at - 1)}, and {named(at)}'
    return ['not taken: this node has no row for the ID', f'    {where}']


def timeouts(plan, told, in_a_row):
    """The timeouts that a line tells."""
    for number, byte in told:
        if number < len(plan.rx):
            yield f'{"long" if byte == "2" else "short"} timeout: Rx frame {number} ({key(plan, plan.rx[number])})'
            if in_a_row[number] > 1:
                yield f'    {in_a_row[number]} in a row'


def values_in(plan, owners, payload, ages):
    """What a payload holds in the bits of its owners, by the Rx frames that it came from, and of a CAN source how old that is."""
    order, whole = plan.order, int.from_bytes(payload, plan.order)
    for rx, own in groupby(owners, lambda owner: owner.rx):
        values, failure = [], None
        for owner in sorted(own, key=lambda owner: owner.failure):  # the failure bit last
            shift = owner.position if order == 'little' else 8 * len(payload) - owner.position - owner.size
            value = whole >> shift & (1 << owner.size) - 1
            values.append(('failure bit ' if owner.failure else '0x') + f'{value:0{(owner.size + 3) // 4}x}')
            failure = value if owner.failure else None
        yield f'from Rx frame {rx}: ' + ', '.join(values)
        if not plan.lin(plan.rx[rx].node):
            yield f'  {ages.words(rx, failure)}'
