"""Why a plan was refused: what a crew needs to mend it. The program has refused; this looks for the cause of its number at its record."""
from collections import namedtuple

from view.records import EXTENDED, RECORDS, Plan, id_of, records, size_of
from view.words import bits, count, cut_short, key, numbered, one_of, unknown_kind

# The kinds that may stand after a kind; None is the plan's start. Those of EXTENDED stand where their like may.
FOLLOWERS = {None: (1,), 1: (2, 3, 4), 2: (2, 3, 4), 3: (3, 4), 4: (4, 5), 5: (4, 5, 6), 6: (4, 5, 6)}
# What a field can be, and the same in words. Two fields depend on others: `node` and `initial payload`.
RANGES = {
    'order': (range(2), '00 (big) or 01 (little)'),
    'type': (range(2), '00 (CAN) or 01 (LIN)'),
    'ID': (range(2048), '0000 to 07ff'),
    'size': (range(9), '00 to 08'),
    'prescaler': ((1, 2, 10, 20), '01, 02, 0a or 14 (1, 2, 10 or 20)'),
    'flags': (range(4), '00 to 03'),
    'failure enable': (range(2), '00 or 01'),
    'failure position': (range(64), '00 to 3f (0 to 63)'),
    'long count': (range(16), '00 to 0f (0 to 15)'),
    'position': (range(64), '00 to 3f (0 to 63)'),
    'signal size': (range(1, 65), '01 to 40 (1 to 64)'),
}
# Those that are others where the ID has 29 bits, and those on a LIN node.
EXTENDED_RANGES = {'ID': (range(1 << 29), '00000000 to 1fffffff')}
LIN_RANGES = {'ID': (range(60), '0000 to 003b (0 to 59) on a LIN node'), 'size': (range(1, 9), '01 to 08 on a LIN node')}
# The refused record: what the records before it say, its number, itself, and the records behind it.
Refused = namedtuple('Refused', 'plan at record rest')


def cause(data, number, at):
    """What gives refusal `number` at record `at` of this plan, in words; nothing where it cannot be seen."""
    if not data and number == 1:
        return 'the plan is empty; the least is a head, 01 00'
    plan, every = Plan(), list(records(data, RECORDS))
    if at >= len(every) or number not in CAUSES:
        return ''
    for place, record in enumerate(every[:at]):
        plan.add(place, record)
    record = every[at]
    if record.fields is None and number > 2:
        return ''
    return CAUSES[number](Refused(plan, at, record, every[at + 1:]))


def alike(record):
    """The kind of a record; of a frame with a 29-bit ID, that of one with 11 bits."""
    return EXTENDED.get(record.kind, record.kind)


def cut(refused):
    kind = refused.record.kind
    return cut_short(kind, RECORDS, size_of(refused.record)) if kind in RECORDS else ''


def unknown(refused):
    return unknown_kind(refused.record.kind, RECORDS)


def misplaced(refused):
    before, kind = refused.plan.kind, refused.record.kind
    if kind == before == 2 and 1 in refused.plan.types:
        return f'here stands a CAN node, and node {refused.plan.types.index(1)} is a LIN node; LIN nodes stand behind all CAN nodes'
    may = one_of([RECORDS[follower].name for follower in FOLLOWERS[before]])
    rule = f'after {RECORDS[before].name} comes {may}' if before else f'a plan begins with {may}'
    return f'here stands {RECORDS[kind].name}; {rule}'


def too_many(refused):
    plan, record = refused.plan, refused.record
    rx = len(plan.rx) - 1
    counts = {
        2: [(plan.nodes, 16, 'nodes')],
        3: [(len(plan.tx), 256, 'Tx frames')],
        4: [(len(plan.rx), 256, 'Rx frames')],
        5: [(plan.signals, 1024, 'signals'), (plan.frame_signals, 64, f'signals of Rx frame {rx}')],
        6: [(plan.destinations, 2048, 'destinations'), (plan.signal_destinations, 15, 'destinations of this signal')],
    }.get(alike(record), [])
    return '; '.join(f'this would make {there + 1:,} {what}, and at most {most:,} are lawful' for there, most, what in counts if there >= most)


def out_of_range(refused):
    plan, record = refused.plan, refused.record
    lin = plan.lin(record.fields.get('node', plan.nodes))
    ranges = {**RANGES, **(LIN_RANGES if lin else {}), **(EXTENDED_RANGES if record.kind in EXTENDED else {})}
    outside = []
    if lin and record.kind in EXTENDED:
        outside.append(f'kind {record.kind:02x} has a 29-bit ID, and node {record.fields["node"]} is a LIN node, where it is kind {alike(record):02x}')
    longer = ''.join(f' (kind {extended:02x} has 29-bit IDs)' for extended, kind in EXTENDED.items() if kind == record.kind and not lin)
    for (name, value), part in zip(record.fields.items(), record.parts[1:]):
        what = f'{name} is hex {part.hex()}' + f' ({value})' * (value > 9)
        if name in ranges and value not in ranges[name][0]:
            outside.append(f'{what}, and its range is hex {ranges[name][1]}' + longer * (name == 'ID'))
        if name == 'node' and value >= plan.nodes:
            outside.append(f'{what}, and {numbered(plan.nodes, "node")}')
        if name == 'initial payload' and any(part[record.fields['size']:]):
            outside.append(f'initial payload is hex {part.hex()}, and past the size, {count(record.fields["size"], "byte")}, it must be zero')
    return '; '.join(outside)


def not_rising(refused):
    plan, record = refused.plan, refused.record
    if not plan.rx or alike(record) != 4:
        return ''
    before, after = plan.rx[-1], plan.rx[-1]._replace(node=record.fields['node'], id=id_of(record))
    how = 'is the row of' if (before.node, before.id) == (after.node, after.id) else f'is not above {key(plan, before)} of'
    return f'{key(plan, after)} {how} Rx frame {len(plan.rx) - 1}, record {before.record}; Rx frames stand in rising order of node, then of ID'


def past_the_data(refused):
    plan, record = refused.plan, refused.record
    if record.kind == 5 and plan.rx:
        return f'{bits(*record.fields.values())} would pass {data_of("Rx", len(plan.rx) - 1, plan.rx[-1])}'
    if record.kind != 6:
        return ''
    tx, position = record.fields.values()
    if tx >= len(plan.tx):
        return f'it names Tx frame {tx}, and {numbered(len(plan.tx), "Tx frame")}'
    return f'{bits(position, plan.size)} would pass {data_of("Tx", tx, plan.tx[tx])}'


def data_of(table, number, frame):
    there = f'bits 0 to {8 * frame.size - 1}' if frame.size else 'no bits'
    return f'the data of {table} frame {number}, {count(frame.size, "byte")}: {there}'


def two_owners(refused):
    plan, at, record, _ = refused
    if record.kind != 6:
        return ''
    owners = list(plan.owners)
    for claim in plan.claims(at, record):
        shared = [f'{bits(common[0], len(common))} of Tx frame {claim.tx}, which {name(owner, at)} has already'
                  for owner in owners if (common := in_common(owner, claim))]
        if shared:
            return f'{name(claim, at)} would have ' + '; and '.join(shared)
        owners.append(claim)
    return ''


def in_common(one, other):
    """The bits that two owners share."""
    first, end = max(one.position, other.position), min(one.position + one.size, other.position + other.size)
    return range(first, end) if one.tx == other.tx else range(0)


def name(owner, at):
    if owner.failure:
        return f'the failure bit of Rx frame {owner.rx} (record {owner.record})'
    return 'this destination' if owner.record == at else f'the destination at record {owner.record} ({bits(owner.position, owner.size)})'


def bad_indicator(refused):
    """At an Rx frame the follower is missing; at a destination the failure bit has no room."""
    plan, at, record, rest = refused
    if alike(record) == 4:
        followers = [RECORDS[next_.kind].name if next_.kind in RECORDS else 'an unknown kind' for next_ in rest[:2]]
        followers += ['the end of the plan'] * (2 - len(followers))
        seen = followers[0] if followers[0] != RECORDS[5].name else f'a signal and {followers[1]}'
        return f'its failure enable is 01, and after it comes {seen}; a signal and a destination must follow at once, or failure enable be 00'
    claims = plan.claims(at, record) if record.kind == 6 else []
    if len(claims) == 2 and claims[1].tx < len(plan.tx):
        failure = claims[1]
        return f'{name(failure, at)} is bit {failure.position}, which passes {data_of("Tx", failure.tx, plan.tx[failure.tx])}'
    return ''


CAUSES = {1: cut, 2: unknown, 3: misplaced, 4: too_many, 5: out_of_range, 6: not_rising, 7: past_the_data, 8: two_owners, 9: bad_indicator}
