"""tools/bench on typed texts, right and wrong, and with other programs: each ends with its status and says what it must. BENCH names the program
that answers. The tool is loaded once and run for each text, which is quicker than to start it.
"""
import contextlib
import importlib.machinery
import importlib.util
import io
import itertools
import os
import re
import sys
import tempfile

sys.dont_write_bytecode = True
sys.path.insert(0, 'tools')
loader = importlib.machinery.SourceFileLoader('bench', 'tools/bench')
bench = importlib.util.module_from_spec(importlib.util.spec_from_loader('bench', loader))
loader.exec_module(bench)
from view.lin import checksum


def run(text, *options, program=os.environ['BENCH']):
    """The status, what is shown with its spaces and line ends made one, and what is told."""
    shown, told = (io.TextIOWrapper(io.BytesIO(), 'utf-8') for _ in range(2))
    os.environ['BENCH'] = program
    with tempfile.NamedTemporaryFile() as file, contextlib.redirect_stdout(shown), contextlib.redirect_stderr(told):
        file.write(text.encode())
        file.flush()
        sys.argv = ['tools/bench', *options, file.name]
        status = bench.told()
    for stream in (shown, told):
        stream.seek(0)
    view = shown.read()
    if '--hex' not in options and max(map(len, view.split('\n'))) > 120:
        sys.exit(f'{text[:60]!r}: the view is wider than 120 columns')
    return status, ' '.join(view.split()), told.read().replace(file.name, 'FILE')


def frame(node, number):
    """A reception without data."""
    return f'10 {node:02x} {number:04x} 00 {16 * "0"}'


def source(timer, *events):
    """A source with one signal that goes to Tx frames 0 and 1, which are sent each tick, and events."""
    sent = 2 * '03 00 0100 02 01 01 01 00 0000000000000000\n'
    return '\n'.join([f'0100\n0200\n{sent}04 00 0020 01 {timer} 00\n05 00 08\n06 0000 00\n06 0001 00\nevents', *events, ''])


def lin(*events):
    """The plan with a LIN node, and events."""
    return PUMP + '\n'.join([*events, ''])


def lines(*answers):
    """A program that answers these lines, whatever it is asked."""
    return "printf '" + '\\n'.join(answers) + "\\n'"


# Three nodes, of which the second has no rows.
ROWS = '0100\n0200\n0200\n0200\n' + ''.join(f'04 {row} 00 01 00 00 00 00 00\n' for row in ('00 0120', '00 0130', '02 0110')) + 'events'
NO_ROW = 'not taken: this node has no row for the ID'
NO_DATA = 16 * '0'
COMMENT = 'is not hex: a comment begins with #'
ODD = 'has an odd number of hex digits: a byte has two, an ID three or four, or eight for one of 29 bits'
EVENTS = 'is not hex: one line between plan and events says events, in small letters and nothing else'
MISSING = "the text ends, and no line 'events' parts the plan from the events; write one, also where no event follows"
EARLY = 'and the line ends; a byte is missing, or one too many stands before'
RECEPTION = 'a reception has 13 bytes: kind, node, ID (2), length, data (8) whatever the length'
TX = 'a Tx frame has 17 bytes: kind, node, ID (2), size, prescaler, reload, initial timer, flags, initial payload (8)'
RX = ('an Rx frame has 11 bytes: kind, node, ID (2), size, prescaler, reload, initial timer, failure enable, failure position, '
      'long count')
ACCEPTED, TICK, TAKE = '10 00 0020 01 5500000000000000', '11', '12 00'
WATCHED = '02 02 02 01 0f'  # prescaler 2, reload 2, initial timer 2, failure bit 15
EVENT_KINDS = 'it is 10 (a reception), 11 (a tick), 12 (a take), 13 (a reception with a 29-bit ID), 14 (a response) or 15 (no response)'
LONG_RECEPTION = 'a reception with a 29-bit ID has 15 bytes: kind, node, ID (4), length, data (8) whatever the length'
RESPONSE = 'a response has 14 bytes: kind, node, ID (2), length, data (8) whatever the length, checksum'
# A CAN node, and a LIN node with a Tx frame and an Rx frame, both of one byte; the Tx frame on CAN has the Rx frame's byte and failure bit.
PUMP = '''0100
0200
0201
03 00 0100 02 01 01 01 00 0000000000000000
03 01 0002 01 01 00 00 01 0000000000000000
04 00 0020 01 01 00 00 00 00 00
05 00 08
06 0001 00
04 01 0001 01 01 02 02 01 0f 02
05 00 08
06 0000 00
events
'''
ANSWERED, SILENT, POLL = '14 01 0001 01 2c00000000000000 12', '15 01 0001', '12 01'
WRONG_CALL = 'a reception on a LIN node; a response or "no response" where the node is not LIN or has no such Rx frame'

# A node with ID 20 hex in both formats, of which the 29-bit one goes to a Tx frame with the greatest ID.
BRIDGE = '''0100
0200
07 00 1FFFFFFF 01 01 00 00 01 0000000000000000
04 00 020 01 01 00 00 00 00 00
08 00 00000020 01 01 02 02 00 00 00
05 00 08
06 0000 00
events
'''

# Texts that cannot be read: what is told, on one line. Nothing is shown, and the end is 1.
for text, words in [
    # hex, and what people write instead
    ('01 00\n02 0\nevents\n', f"line 2: '0' {ODD}"),
    ('01 00\n020\nevents\n', f"line 2: '020' {ODD}"),
    ('01 00\n\n# a node\n0x02 00\nevents\n', "line 4: '0x02' has 0x before it: all numbers are hex here, so write the digits alone"),
    ('01 00 // head\nevents\n', f"line 1: '//' {COMMENT}"),
    ('01 00 ; head\nevents\n', f"line 1: ';' {COMMENT}"),
    ('01 00 head\nevents\n', f"line 1: 'head' {COMMENT}"),
    ('01 00;\nevents\n', "line 1: '00;' is not hex: write no ; behind a record"),
    ('01,00\nevents\n', "line 1: '01,00' is not hex: write bytes with a space between them, or nothing"),
    ('01 00\n0g0\nevents\n', "line 2: '0g0' is not hex"),
    ('01:00\nevents\n', "line 1: '01:00' is not hex: write bytes with a space between them, or nothing"),
    ('01 00\nEvents\n11\n', f"line 2: 'Events' {EVENTS}"),
    ('01 00\nevents:\n11\n', f"line 2: 'events:' {EVENTS}"),
    ('01 00\nevents 11\n', f"line 2: 'events' {EVENTS}"),
    ('01 00\nevents\nevents\n', f"line 3: 'events' {EVENTS}"),
    ('01 00\nevents\n11\n1g # a tick\n', "line 4: '1g' is not hex"),
    ('01 00\n02 00\n', f'line 2: {MISSING}'),
    ('', f'line 1: {MISSING}'),
    ('01 00\n\x1b[2J\nevents\n', "line 2: '\\x1b[2J' is not hex"),
    ('01 00\n' + 3000 * 'x' + '\nevents\n', f"line 2: '{40 * 'x'}...' {COMMENT}"),
    ('0100\n' + 65534 * '00' + '\nevents\n', 'line 2: the plan passes 65,535 bytes, the most that its length can say'),
    # a record or an event that spans lines
    ('0100\n0200\nevents\n11\n10 00 0020 01 2c\n11\n11\n11\n11\n11\n11\n11\n', f'line 5: {RECEPTION}; here are 6, {EARLY}'),
    ('0100\nevents\n10 00 0020 01 2c\n11\n', f'line 3: {RECEPTION}; here are 6, {EARLY}'),
    ('0100\n0200\nevents\n12\n00\n', f'line 4: a take has 2 bytes: kind, node; here is 1, {EARLY}'),
    ('0100\n0200\n03 00 0100 02 01 03 03 02 00000000000000\n04 00 0020 01 01 02 02 00 00 02\nevents\n',
     f'line 3: {TX}; here are 16, {EARLY}'),
    ('0100\n0200 02\n00\nevents\n', f'line 2: a node has 2 bytes: kind, type; here is 1, {EARLY}'),
    ('0100\n04 00\n0020 01\nevents\n', f'line 2: {RX}; here are 2, {EARLY}'),
    ('0100\nevents\n14 01 0001 01 2c00000000000000\n12\n', f'line 3: {RESPONSE}; here are 13, {EARLY}'),
    ('0100\nevents\n13 00 0020 01 2c00000000000000\n11\n', f'line 3: {LONG_RECEPTION}; here are 13, {EARLY}'),
    ('0100\n0200\n04 00 020 01 01 02 02 00 00\n04 00 021 01 01 02 02 00 00 00\nevents\n', f'line 3: {RX}; here are 10, {EARLY}'),
    # an ID with the digits of the other format
    ('0100\n0200\n08 00 1F5 01 01 02 02 00 00 00\nevents\n',
     "line 3: '1F5' has three hex digits, as an 11-bit ID; kind 08 has one of 29 bits, which has eight"),
    ('0100\nevents\n13 00 1F5 00 0000000000000000\n',
     "line 3: '1F5' has three hex digits, as an 11-bit ID; kind 13 has one of 29 bits, which has eight"),
    ('0100\n0200\n04 00 09F80100 08 01 02 02 00 00 00\nevents\n',
     "line 3: '09F80100' has eight hex digits, as a 29-bit ID; kind 04 has one of 11 bits, and kind 08 one of 29"),
    ('0100\nevents\n10 00 15fd0823 00 0000000000000000\n',
     "line 3: '15fd0823' has eight hex digits, as a 29-bit ID; kind 10 has one of 11 bits, and kind 13 one of 29"),
    ('0100\nevents\n15 00 15fd0823\n', "line 3: '15fd0823' has eight hex digits, as a 29-bit ID; kind 15 has one of 11 bits"),
    ('0100\nevents\n10 00 0x1F5 00 0000000000000000\n',
     "line 3: '0x1F5' has 0x before it: all numbers are hex here, so write the digits alone"),
    ('0100\nevents\n10 00 1F5F0 00 0000000000000000\n', f"line 3: '1F5F0' {ODD}"),
    ('0100\nevents\n10 00 0020 123\n', f"line 3: '123' {ODD}"),
    ('0100\nevents\n15 01 00\n01\n', f'line 3: no response has 4 bytes: kind, node, ID (2); here are 3, {EARLY}'),
]:
    if run(text) != (1, '', f'tools/bench: FILE: {words}\n'):
        sys.exit(f'{text[:60]!r}: {run(text)}, and not told {words!r}')

# Texts that are run: the end, and words of the view.
MANY = '0100\n0200\n' + ''.join(f'04 00 {frame:04x} 08 01 02 02 00 00 02\n' + 64 * '05 00 01\n' for frame in range(16)) + '0f\nevents\n'
for text, status, words in [
    ('0100\nevents\n', 0, '=> plan ok 0 0 0 good: 0 nodes, 0 Tx frames, 0 Rx frames'),
    ('# a plan\n01 00\n\n02 02\nevents\n11\n', 1,
     'refused 5 at record 1, line 4: a field is outside its range type is hex 02, and its range is hex 00 (CAN) or 01 (LIN) 1 event not run'),
    ('0100\n0201\n0200\nevents\n', 1, 'refused 3 at record 2, line 3: the kind may not stand here, or a CAN node follows a LIN node'),
    ('0100\n\n02\nevents\n', 1, 'refused 1 at record 1, line 3: the input is empty, or the record runs past its end a node has 2 bytes: kind, type; here is 1'),
    ('events\n', 1, 'refused 1 at record 0: the input is empty, or the record runs past its end the plan is empty; the least is a head, 01 00'),
    ('0100\nevents\n11\n\n1f 00\n', 1, f'input bad the run ends here, line 5: 1f is no kind: {EVENT_KINDS}'),
    ('0100\nevents\n13 00 00000020 01\n', 1, f'input bad the run ends here, line 3: {LONG_RECEPTION}; here are 7'),
    ('0100\nevents\n0200\n', 1, f"the run ends here, line 3: 02 is no kind: {EVENT_KINDS}; records stand before the line 'events'"),
    ('0100\nevents\n10 00 0020 01\n', 1, f'input bad the run ends here, line 3: {RECEPTION}; here are 5'),
    ('0100\n0200\n0200\nevents\n12 02\n', 0, 'take refused 12 no such node: there are nodes 0 to 1'),
    (f'0100\n0200\nevents\n{frame(0, 0x20)}\n', 0, f'rx 1 0 {NO_ROW} its place: the plan has no rows'),
    (f'{ROWS}\n{frame(0, 0)}\n', 0, f'rx 1 0 {NO_ROW} its place: before Rx frame 0, ID 120'),
    (f'{ROWS}\n{frame(0, 0x121)}\n', 0, f'rx 1 1 {NO_ROW} its place: between Rx frame 0, ID 120, and Rx frame 1, ID 130'),
    (f'{ROWS}\n{frame(0, 0x131)}\n', 0, f'rx 1 2 {NO_ROW} its place: between Rx frame 1, ID 130, and Rx frame 2, of node 2'),
    (f'{ROWS}\n{frame(1, 0x121)}\n', 0, f'rx 1 0 {NO_ROW} its place: between Rx frame 1, of node 0, and Rx frame 2, of node 2'),
    (f'{ROWS}\n{frame(2, 0x7ff)}\n', 0, f'rx 1 1 {NO_ROW} its place: behind Rx frame 2, ID 110'),
    (f'{ROWS}\n{frame(2, 0x800)}\n', 0, f'rx 1 1 {NO_ROW} no row can have it: the greatest ID of 11 bits is 7FF'),
    # IDs of 3, 4 and 8 digits; both formats of a number; the place in both
    (BRIDGE, 0, 'Tx frame 0: node 0, ID 1FFFFFFF, 1 byte, no period, sends on reception'),
    (BRIDGE, 0, 'Rx frame 0: node 0, ID 020, 1 byte, no timeout'),
    (BRIDGE, 0, 'Rx frame 1: node 0, ID 00000020, 1 byte, timeout every 2 ticks, first at tick 1'),
    (BRIDGE + '10 00 020 01 4a00000000000000\n12 00\n', 0, 'node 0 receives ID 020 rx 0 accepted'),
    (BRIDGE + '10 00 020 01 4a00000000000000\n12 00\n', 0, 'take none nothing waits on this node'),
    (BRIDGE + '13 00 00000020 01 4a00000000000000\n12 00\n', 0, 'node 0 receives ID 00000020 rx 0 accepted'),
    (BRIDGE + '13 00 0000 0020 01 4a00000000000000\n12 00\n', 0, 'take 0 e536870911 1 4a 0 Tx frame 0 (ID 1FFFFFFF), none waits after it '
     'from Rx frame 1: 0x4a accepted 0 ticks ago; no bound: no failure bit'),
    (BRIDGE + '11\n11\n', 0, 'tick 0 1 short timeout: Rx frame 1 (node 0, ID 00000020)'),
    (BRIDGE + '13 00 00000020 00 0000000000000000\n', 0, "rx 2 not taken: shorter than the row's size"),
    (BRIDGE + '13 00 0000001f 00 ' + NO_DATA, 0, f'rx 1 1 {NO_ROW} {NO_DATA} its place: between Rx frame 0, ID 020, and Rx frame 1, ID 00000020'),
    (BRIDGE + '13 00 1FFFFFFF 00 ' + NO_DATA, 0, f'rx 1 2 {NO_ROW} {NO_DATA} its place: behind Rx frame 1, ID 00000020'),
    (BRIDGE + '13 00 20000000 00 ' + NO_DATA, 0, f'rx 1 2 {NO_ROW} {NO_DATA} no row can have it: the greatest ID of 29 bits is 1FFFFFFF'),
    (BRIDGE + '13 00 80000020 00 ' + NO_DATA, 0, f'rx 1 2 {NO_ROW} {NO_DATA} no row can have it: the greatest ID of 29 bits is 1FFFFFFF'),
    (BRIDGE + '10 00 7FF 00 0000000000000000\n', 0, f'rx 1 1 {NO_ROW} its place: between Rx frame 0, ID 020, and Rx frame 1, ID 00000020'),
    (BRIDGE + '10 00 ffff 00 0000000000000000\n', 0, f'node 0 receives ID FFFF rx 1 1 {NO_ROW} no row can have it: the greatest ID of 11 bits is 7FF'),
    (BRIDGE + '13 01 00000020 00 0000000000000000\n', 0, 'rx refused 12 no such node: there is node 0 alone'),
    (BRIDGE + '13 00 00000020 09 0000000000000000\n', 0, 'rx refused 13 a received payload is longer than 8 bytes'),
    (lin('13 01 00000001 01 2c00000000000000'), 0, 'rx refused 16 a reception on a LIN node; a response or "no 2c00000000000000 response" where '
                                                   'the node is not LIN or has no such Rx frame: node 1 is a LIN node'),
    (lin('14 01 001 01 2c00000000000000 12'), 0, 'node 1 responds, ID 0x001 rx 0 accepted'),
    ('0100\n0200\n04 00 00200101 02 02 00 00 02\nevents\n', 0, 'Rx frame 0: node 0, ID 020, 1 byte'),  # bytes may stand together
    (source(WATCHED, TICK, TAKE), 0, 'from Rx frame 0: 0x00, failure bit 0 no bound: not accepted since the opening'),
    (source(WATCHED, TICK, ACCEPTED, TAKE), 0, 'from Rx frame 0: 0x55, failure bit 0 accepted 0 ticks ago; bound: fewer than 4'),
    (source(WATCHED, TICK, ACCEPTED, TICK, TAKE), 0, 'failure bit 0 accepted 1 tick ago; bound: fewer than 4'),
    (source(WATCHED, TICK, ACCEPTED, TICK, TICK, ACCEPTED, TICK, TAKE), 0, 'failure bit 0 accepted 1 tick ago; bound: fewer than 4'),
    (source(WATCHED, TICK, ACCEPTED, TICK, frame(0, 0x20), frame(0, 0x21), TAKE), 0, 'failure bit 0 accepted 1 tick ago; bound: fewer than 4'),
    (source(WATCHED, TICK, ACCEPTED, *3 * [TICK], TAKE), 0, 'from Rx frame 0: 0x55, failure bit 0 accepted 3 ticks ago; bound: fewer than 4'),
    (source(WATCHED, TICK, ACCEPTED, *4 * [TICK], TAKE), 0, 'failure bit 1 accepted 4 ticks ago; no bound: its failure bit is 1'),
    (source(WATCHED, TICK, ACCEPTED, *3 * [TICK], TAKE, TAKE), 0,
     'from Rx frame 0: 0x55 accepted 3 ticks ago; no bound: failure bit in Tx frame 0'),
    (source('02 00 02 01 0f', ACCEPTED, *9 * [TICK], TAKE), 0, 'failure bit 0 accepted 9 ticks ago; no bound: its reload is 0'),
    (source('02 02 02 00 0f', ACCEPTED, *9 * [TICK], TAKE), 0, 'from Rx frame 0: 0x55 accepted 9 ticks ago; no bound: no failure bit'),
    # LIN: the plan in words, requests, responses, silence, and refusal 16
    (PUMP, 0, 'node 1: LIN, we are the master'),
    (PUMP, 0, 'Tx frame 1: node 1, ID 0x002, protected 0x42, 1 byte, no period, sends on reception'),
    (PUMP, 0, 'Rx frame 1: node 1, ID 0x001, protected 0xc1, 1 byte, asked for every 2 ticks, first at tick 1, long count 2, failure bit 15'),
    (PUMP.replace('01 02 02 01 0f 02', '01 00 00 01 0f 00'), 0, 'protected 0xc1, 1 byte, never asked for, failure bit 15'),
    (lin(TICK, TICK, POLL), 0, 'take request 1 1 1 0 request for Rx frame 1 (ID 0x001), none waits after it '
                               'protected 0xc1; 1 byte and a checksum should come'),
    (lin(TICK, TICK, ACCEPTED, POLL), 0, 'take request 1 1 1 1 request for Rx frame 1 (ID 0x001), 1 waits after it'),
    (lin('10 00 0020 01 4a00000000000000', POLL), 0, 'Tx frame 1 (ID 0x002), none waits after it protected 0x42; checksum 0x73 from Rx frame 0: 0x4a'),
    (lin(ANSWERED), 0, 'node 1 responds, ID 0x001 rx 0 accepted'),
    (lin(ANSWERED), 0, 'checksum 0x12, protected 0xc1'),
    (lin(ANSWERED[:-2] + '13'), 0, 'rx 3 not taken: the checksum is wrong'),
    (lin(ANSWERED[:-2] + '13'), 0, 'the right one is 0x12, protected 0xc1'),
    (lin('14 01 0001 02 2cff000000000000 12'), 0, 'rx 0 accepted'),  # FF changes no sum
    (lin('14 01 0001 00 0000000000000000 3e'), 0, "rx 2 not taken: shorter than the row's size"),
    (lin(SILENT), 0, 'node 1 silent, ID 0x001 silent 1 short timeout: Rx frame 1 (node 1, ID 0x001)'),
    (lin(SILENT, TICK, SILENT), 0, 'silent 2 long timeout: Rx frame 1 (node 1, ID 0x001) 2 in a row'),
    (lin(SILENT, ANSWERED, SILENT), 0, 'silent 1 short timeout: Rx frame 1 (node 1, ID 0x001)'),
    (lin(ANSWERED, TICK, TAKE), 0, 'from Rx frame 1: 0x2c, failure bit 0'),
    (lin('10 01 0001 01 2c00000000000000'), 0, f'rx refused 16 {WRONG_CALL}: node 1 is a LIN node'),
    (lin('14 00 0020 01 2c00000000000000 12'), 0, 'has no such Rx frame: node 0 is a CAN node'),
    (lin('15 00 0020'), 0, f'silent refused 16 {WRONG_CALL}: node 0 is a CAN node'),
    (lin('15 01 00c1'), 0, f'{WRONG_CALL}: node 1 has no Rx frame with ID 0x0c1'),
    (lin('15 02 0001'), 0, 'silent refused 12 no such node: there are nodes 0 to 1'),
    ('0100\nevents\n' + 3 * (30000 * '11' + '\n'), 1, '=> input bad the input passes 65,536 bytes in line 5'),
    (MANY, 1, ' 1041 05 00 01 signal: bit 0 1042 0f unknown kind 0f: what follows cannot be read ^^ refused here => plan refused 2 1042 '),
    ('# one\x1b[2J\r\n0100\r\nevents\r\n', 0, '# one\\x1b[2J no record'),
    ('0f' + 30000 * '00' + '\nevents\n', 1, '00 00... ^^^^'),
]:
    ended, shown, told = run(text)
    if (ended, told) != (status, '') or words not in shown:
        sys.exit(f'{text[:60]!r}: ended with {ended}, and {words!r} is not in {shown[-400:]!r} {told}')

# Options and other programs: the end, all that is shown or its last words, and what is told.
OLD = source(WATCHED, TICK, ACCEPTED, *4 * [TICK], TAKE)
OLD_LINES = ['plan ok 1 2 1', 'tick 0', 'rx 0', *4 * ['tick 0']]
GOOD, REFUSED = '0100\nevents\n12 00\n', '0101 0f\nevents\n'
LINE = "sh -c 'echo plan ok 0 0 0; exit 7'"
for expected, got in [
    ((0, 'plan refused 2 1', ''), run(REFUSED, '--raw')),
    ((0, 'plan ok 0 0 0 input bad', ''), run('0100\nevents\n1f\n', '--raw')),
    ((1, '', f"tools/bench: FILE: line 1: '1' {ODD}\n"), run('1', '--raw')),
    ((7, 'plan ok 0 0 0', ''), run(GOOD, '--raw', program=LINE)),
    ((0, '00 02 01 00 12 00', ''), run(GOOD, '--hex', program='false')),
    ((0, 'input bad', ''), run('\0\5\1\0', '--binary', '--raw')),
    ((1, 'input bad the input is too short for the plan length or its stated plan', ''), run('\0\5\1\0', '--binary')),
    ((1, 'refused 2 at record 1: the kind is not 1 to 8 0f is no kind:', ''), run('\0\3\1\0\x0f', '--binary')),
    ((2, '', 'tools/bench: BENCH: No closing quotation\n'), run(GOOD, program="'")),
    ((2, '', 'tools/bench: BENCH: /no/such/program: No such file or directory\n'), run(GOOD, program='/no/such/program')),
    ((2, '', 'tools/bench: BENCH: ./README.md: Permission denied\n'), run(GOOD, program='./README.md')),
    ((1, '', 'tools/bench: the program answered nothing and ended with 0\n'), run(GOOD, program='true')),
    ((1, '', 'tools/bench: the program answered nothing and ended with 3\n'), run(GOOD, '--raw', program="sh -c 'exit 3'")),
    ((1, '', 'tools/bench: the program answered nothing and ended with 137\n'), run(GOOD, program="sh -c 'kill -9 $$'")),
    ((1, 'answer in words', 'tools/bench: the program gave 0 answers for 1 event\n'), run(GOOD, program='echo plan ok 0 0 0')),
    ((1, 'refused 9 at record 77: an enabled', ''), run(GOOD, program='echo plan refused 9 77')),
    ((1, 'refused 9 at record 0, line 1: an enabled', ''), run(GOOD, program='echo plan refused 9 0')),
    ((1, 'hello no line of the bench program', ''), run(GOOD, program='echo hello')),
    ((1, 'plan refused 0 0 no line of the bench program', ''), run(GOOD, program='echo plan refused 0 0')),
    ((1, '... no line of the bench program', ''), run(GOOD, program=f'echo plan refused 9 {5000 * "1"}')),
    ((0, 'take on node 0 \\x1b[2J take no line of the bench program', ''), run(GOOD, program="printf 'plan ok 0 0 0\\n\\033[2J take\\n'")),
    ((0, 'rx 1 3 no line of the bench program', ''), run(f'{ROWS}\n{frame(0, 0)}\n', program="printf 'plan ok 3 0 3\\nrx 1 3\\n'")),
    ((0, 'rx 1 0 no line of the bench program', ''), run(GOOD, program="printf 'plan ok 0 0 0\\nrx 1 0\\n'")),
    ((0, 'failure bit 0 accepted 4 ticks ago: breaks the bound, fewer than 4; no proved program answers so', ''),
     run(OLD, program=lines(*OLD_LINES, 'take 0 256 2 5500 1'))),
    ((0, 'failure bit 0 accepted 3 ticks ago; bound: fewer than 4', ''),
     run(OLD, program=lines(*OLD_LINES[:-1], 'tick refused 14', 'take 0 256 2 5500 1'))),
    ((0, 'failure bit 0 accepted 3 ticks ago; bound: fewer than 4', ''),
     run(OLD, program=lines(*OLD_LINES[:-1], 'tick 3', 'take 0 256 2 5500 1'))),
    ((0, 'failure bit 0 no bound: not accepted since the opening', ''),
     run(OLD, program=lines(*OLD_LINES[:2], 'rx 2', *OLD_LINES[3:], 'take 0 256 2 5500 1'))),
    *(((0, 'no line of the bench program', ''), run(lin(event), program=lines('plan ok 2 2 2', line))) for event, line in (
        (ANSWERED, 'rx 1 0'), (ACCEPTED, 'rx 3'), (SILENT, 'silent 0'), (SILENT, 'rx 0'), (POLL, 'take request 2 1 1 0'),
        (POLL, 'take request 1 2 1 0'), (POLL, 'take request 1 1 2 0'), (TAKE, 'take request 1 1 1 0'), ('15 01 0009', 'silent 1'))),
    *(((0, 'no line of the bench program', ''), run(text, program=lines(plan, line))) for text, plan, line in (
        (BRIDGE + '12 00\n', 'plan ok 1 1 2', 'take 0 e 1 4a 0'), (BRIDGE + '12 00\n', 'plan ok 1 1 2', 'take 0 e5368709110 1 4a 0'),
        (BRIDGE + '12 00\n', 'plan ok 1 1 2', 'take 0 E536870911 1 4a 0'), (lin(POLL), 'plan ok 2 2 2', 'take 1 e2 1 4a 0'),
        (BRIDGE + '13 00 00000020 01 4a00000000000000\n', 'plan ok 1 1 2', 'rx 3'))),
    *(((0, 'no line of the bench program', ''), run(OLD, program=lines(*OLD_LINES, line)))
      for line in ('take 0 256 1 55 1', 'take 0 256 2 550 1', 'take 0 256 0 - 1', f'take {5000 * "1"} 256 2 5500 1', 'take 0 256 2 5500')),
]:
    (status, words, message), (ended, shown, told) = expected, got
    if ended != status or words not in shown or bool(words) != bool(shown) or message not in told or bool(message) != bool(told):
        sys.exit(f'not {expected}: {got}')

# The checksum that the view works out is the program's, for each ID.
data = [bytes(pow(7, 3 * number + k, 257) % 256 for k in range(3)) for number in range(60)]
rows = ''.join(f'04 00 {number:04x} 01 01 00 00 00 00 00\n' for number in range(60))
responses = [f'14 00 {number:04x} 03 {bytes_.hex()}0000000000 {checksum(number, bytes_):02x}' for number, bytes_ in enumerate(data)]
_, shown, _ = run('\n'.join(['0100\n0201', rows + 'events', *responses, '']), '--raw')
if shown != 'plan ok 1 0 60' + 60 * ' rx 0':
    sys.exit(f'checksums of the view that the program does not take: {shown}')

# Of a LIN source no age is told, however many ticks have passed.
for events in ([ANSWERED, TICK, TAKE], [ANSWERED, *9 * [TICK], TAKE], [TICK, TAKE]):
    _, shown, _ = run(lin(*events))
    if not re.search(r'from Rx frame 1: 0x.., failure bit 0$', shown):
        sys.exit(f'{events}: words stand behind a LIN source: {shown[-200:]!r}')

# A silent source, from each phase of its timer: the oldest value with failure bit 0 is one tick below the bound, and the failure bit is 1 after
# (reload - 1) * prescaler + 1 ticks at the earliest.
for prescaler, reload in itertools.product((1, 2, 10, 20), (1, 2, 3)):
    bound, ages = reload * prescaler, {'0': set(), '1': set()}
    for phase in range(prescaler):
        after = (bound + 1) * [TICK, TAKE, TAKE]
        _, shown, _ = run(source(f'{prescaler:02x} {reload:02x} 00 01 0f', *phase * [TICK], TAKE, TAKE, ACCEPTED, *after))
        for bit, age in re.findall(r'failure bit (.) accepted (\d+) ticks? ago; ', shown):
            ages[bit].add(int(age))
    if (max(ages['0'], default=0), min(ages['1']), max(ages['1'])) != (bound - 1, bound - prescaler + 1, bound + 1):
        sys.exit(f'prescaler {prescaler}, reload {reload}: the ages by failure bit are {ages}')
print('the typed texts: ok')
