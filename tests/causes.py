"""What tools/bench says of a refused plan names what is to be mended. Argument: a bench program.

Each line of CAUSES is a plan, its refusal and the words. Then every byte of four good plans is changed and every end cut off: the program decides
what is refused, and for each refusal words must be there.
"""
import subprocess
import sys

sys.dont_write_bytecode = True
sys.path.insert(0, 'tools')
from view.refused import cause
from view.typed import read_text

HEAD, NODE, LIN = '0100 ', '0200 ', '0201 '
TX = '03 00 0100 02 01 03 03 02 0000000000000000 '       # two bytes
RX = '04 00 0020 01 01 02 02 00 00 02 '                  # one byte, no failure bit
RX_FAILURE = '04 00 0020 01 01 02 02 01 0f 02 '          # failure bit 15
SIGNAL, DESTINATION = '05 02 04 ', '06 0000 06 '         # bits 2 to 5, to bits 6 to 9
GOOD = HEAD + NODE + TX
ON_LIN = HEAD + NODE + LIN
LIN_TX = '03 01 003b 01 01 03 03 02 0000000000000000 '   # the last ID of a LIN node, one byte
LIN_RX = '04 01 003b 01 01 02 02 00 00 02 '
LONG_TX = '07 00 09f80100 02 01 03 03 02 0000000000000000 '
LONG_RX = '08 00 00000020 01 01 02 02 00 00 02 '
KINDS = ('it is 01 (a head), 02 (a node), 03 (a Tx frame), 04 (an Rx frame), 05 (a signal), 06 (a destination), '
         '07 (a Tx frame with a 29-bit ID) or 08 (an Rx frame with a 29-bit ID)')
RISING = 'Rx frames stand in rising order of node, then of ID'


def rx(number):
    return f'04 00 {number:04x} 08 01 02 02 00 00 02 '


def destinations(total):
    """A plan's records with so many destinations of one bit, none of them twice: 15 for a signal, 60 signals in an Rx frame."""
    plan = [HEAD, NODE, *[TX.replace(' 02 01 ', ' 08 01 ')] * (total // 64 + 1)]
    for number in range(total):
        plan += [rx(number // 900)] * (number % 900 == 0) + ['05 00 01 '] * (number % 15 == 0) + [f'06 {number // 64:04x} {number % 64:02x} ']
    return plan


TOO_MANY = destinations(2049)
CAUSES = [
    ('', 1, 0, 'the plan is empty; the least is a head, 01 00'),
    (HEAD + '02', 1, 1, 'a node has 2 bytes: kind, type; here is 1'),
    (HEAD + NODE + TX[:-3], 1, 2,
     'a Tx frame has 17 bytes: kind, node, ID (2), size, prescaler, reload, initial timer, flags, initial payload (8); here are 16'),
    (HEAD + NODE + LONG_TX[:-3], 1, 2,
     'a Tx frame with a 29-bit ID has 19 bytes: kind, node, ID (4), size, prescaler, reload, initial timer, flags, initial payload (8); here are 18'),
    (HEAD + NODE + LONG_RX[:-3], 1, 2, 'an Rx frame with a 29-bit ID has 13 bytes: kind, node, ID (4), size, prescaler, reload, initial timer, '
                                       'failure enable, failure position, long count; here are 12'),
    (HEAD + '09', 2, 1, f'09 is no kind: {KINDS}'),
    (HEAD + '11', 2, 1, f"11 is no kind: {KINDS}; events stand after a line 'events'"),
    (HEAD + '13', 2, 1, f"13 is no kind: {KINDS}; events stand after a line 'events'"),
    (NODE, 3, 0, 'here stands a node; a plan begins with a head'),
    (HEAD + HEAD, 3, 1, 'here stands a head; after a head comes a node, a Tx frame or an Rx frame'),
    (GOOD + NODE, 3, 3, 'here stands a node; after a Tx frame comes a Tx frame or an Rx frame'),
    (GOOD + RX + DESTINATION, 3, 4, 'here stands a destination; after an Rx frame comes an Rx frame or a signal'),
    (GOOD + RX + SIGNAL + TX, 3, 5, 'here stands a Tx frame; after a signal comes an Rx frame, a signal or a destination'),
    (LONG_TX, 3, 0, 'here stands a Tx frame with a 29-bit ID; a plan begins with a head'),
    (GOOD + LONG_RX + TX, 3, 4, 'here stands a Tx frame; after an Rx frame comes an Rx frame or a signal'),
    (GOOD + LONG_RX + LONG_TX, 3, 4, 'here stands a Tx frame with a 29-bit ID; after an Rx frame comes an Rx frame or a signal'),
    (HEAD + NODE + LONG_TX + SIGNAL, 3, 3, 'here stands a signal; after a Tx frame comes a Tx frame or an Rx frame'),
    (HEAD + 17 * NODE, 4, 17, 'this would make 17 nodes, and at most 16 are lawful'),
    (HEAD + NODE + 256 * TX + LONG_TX, 4, 258, 'this would make 257 Tx frames, and at most 256 are lawful'),
    (HEAD + NODE + ''.join(map(rx, range(256))) + LONG_RX, 4, 258, 'this would make 257 Rx frames, and at most 256 are lawful'),
    (HEAD + NODE + 257 * TX, 4, 258, 'this would make 257 Tx frames, and at most 256 are lawful'),
    (HEAD + NODE + ''.join(map(rx, range(257))), 4, 258, 'this would make 257 Rx frames, and at most 256 are lawful'),
    (GOOD + RX + 65 * SIGNAL, 4, 68, 'this would make 65 signals of Rx frame 0, and at most 64 are lawful'),
    (HEAD + NODE + ''.join(rx(n) + 64 * SIGNAL for n in range(16)) + rx(16) + SIGNAL, 4, 1043,
     'this would make 1,025 signals, and at most 1,024 are lawful'),
    (GOOD + '04 00 0020 08 01 02 02 00 00 02 05 00 01 ' + ''.join(f'06 0000 {n:02x} ' for n in range(16)), 4, 20,
     'this would make 16 destinations of this signal, and at most 15 are lawful'),
    (''.join(TOO_MANY), 4, len(TOO_MANY) - 1, 'this would make 2,049 destinations, and at most 2,048 are lawful'),
    ('0102', 5, 0, 'order is hex 02, and its range is hex 00 (big) or 01 (little)'),
    (HEAD + LIN + NODE, 3, 2, 'here stands a CAN node, and node 0 is a LIN node; LIN nodes stand behind all CAN nodes'),
    (ON_LIN + LIN + NODE, 3, 4, 'here stands a CAN node, and node 1 is a LIN node; LIN nodes stand behind all CAN nodes'),
    (ON_LIN + LIN_TX + NODE, 3, 4, 'here stands a node; after a Tx frame comes a Tx frame or an Rx frame'),
    (HEAD + 15 * NODE + LIN + NODE, 3, 17, 'here stands a CAN node, and node 15 is a LIN node; LIN nodes stand behind all CAN nodes'),
    (HEAD + 15 * NODE + 2 * LIN, 4, 17, 'this would make 17 nodes, and at most 16 are lawful'),
    (HEAD + '0202', 5, 1, 'type is hex 02, and its range is hex 00 (CAN) or 01 (LIN)'),
    (HEAD + LIN + '0202', 5, 2, 'type is hex 02, and its range is hex 00 (CAN) or 01 (LIN)'),
    (ON_LIN + LIN_TX.replace('003b', '003c'), 5, 3, 'ID is hex 003c (60), and its range is hex 0000 to 003b (0 to 59) on a LIN node'),
    (ON_LIN + LIN_TX.replace('003b 01', '003b 00'), 5, 3, 'size is hex 00, and its range is hex 01 to 08 on a LIN node'),
    (ON_LIN + LIN_RX.replace('003b', '0800'), 5, 3, 'ID is hex 0800 (2048), and its range is hex 0000 to 003b (0 to 59) on a LIN node'),
    (ON_LIN + LIN_RX.replace('003b 01', '003c 09'), 5, 3, 'ID is hex 003c (60), and its range is hex 0000 to 003b (0 to 59) on a LIN node; '
                                                          'size is hex 09, and its range is hex 01 to 08 on a LIN node'),
    (ON_LIN + '04 02' + LIN_RX[5:], 5, 3, 'node is hex 02, and there are nodes 0 to 1'),
    (ON_LIN + LIN_RX + LIN_RX, 6, 4, f'node 1, ID 0x03b is the row of Rx frame 0, record 3; {RISING}'),
    (ON_LIN + '07 01' + LONG_TX[5:], 5, 3, 'kind 07 has a 29-bit ID, and node 1 is a LIN node, where it is kind 03'),
    (ON_LIN + '08 01' + LONG_RX[5:].replace('00000020 01', '20000000 00'), 5, 3, 'kind 08 has a 29-bit ID, and node 1 is a LIN node, where it is kind 04; '
     'ID is hex 20000000 (536870912), and its range is hex 00000000 to 1fffffff; size is hex 00, and its range is hex 01 to 08 on a LIN node'),
    (HEAD + TX, 5, 1, 'node is hex 00, and there is no node'),
    (HEAD + NODE + '03 01' + TX[5:], 5, 2, 'node is hex 01, and there is node 0 alone'),
    (HEAD + NODE * 3 + '03 03' + TX[5:], 5, 4, 'node is hex 03, and there are nodes 0 to 2'),
    (HEAD + NODE + TX.replace('0100', '0800'), 5, 2, 'ID is hex 0800 (2048), and its range is hex 0000 to 07ff (kind 07 has 29-bit IDs)'),
    (HEAD + NODE + RX.replace('0020', 'ffff'), 5, 2, 'ID is hex ffff (65535), and its range is hex 0000 to 07ff (kind 08 has 29-bit IDs)'),
    (HEAD + NODE + LONG_TX.replace('09f80100', '20000000'), 5, 2, 'ID is hex 20000000 (536870912), and its range is hex 00000000 to 1fffffff'),
    (HEAD + NODE + LONG_RX.replace('00000020 01', '80000020 09'), 5, 2, 'ID is hex 80000020 (2147483680), and its range is hex 00000000 to 1fffffff; '
                                                                        'size is hex 09, and its range is hex 00 to 08'),
    (HEAD + NODE + TX.replace(' 02 01 ', ' 09 01 '), 5, 2, 'size is hex 09, and its range is hex 00 to 08'),
    (HEAD + NODE + TX.replace(' 02 01 ', ' 02 10 '), 5, 2, 'prescaler is hex 10 (16), and its range is hex 01, 02, 0a or 14 (1, 2, 10 or 20)'),
    (HEAD + NODE + TX.replace('03 02', '03 04'), 5, 2, 'flags is hex 04, and its range is hex 00 to 03'),
    (HEAD + NODE + TX.replace('000000 ', '000100 '), 5, 2, 'initial payload is hex 0000000000000100, and past the size, 2 bytes, it must be zero'),
    (HEAD + NODE + RX.replace('00 00 02', '02 40 10'), 5, 2, 'failure enable is hex 02, and its range is hex 00 or 01; '
     'failure position is hex 40 (64), and its range is hex 00 to 3f (0 to 63); long count is hex 10 (16), and its range is hex 00 to 0f (0 to 15)'),
    (GOOD + RX + '05 40 00', 5, 4,
     'position is hex 40 (64), and its range is hex 00 to 3f (0 to 63); signal size is hex 00, and its range is hex 01 to 40 (1 to 64)'),
    (GOOD + RX + SIGNAL + '06 0000 40', 5, 5, 'position is hex 40 (64), and its range is hex 00 to 3f (0 to 63)'),
    (GOOD + RX + RX, 6, 4, f'node 0, ID 020 is the row of Rx frame 0, record 3; {RISING}'),
    (GOOD + RX + RX.replace('0020', '001f'), 6, 4, f'node 0, ID 01F is not above node 0, ID 020 of Rx frame 0, record 3; {RISING}'),
    (GOOD + RX + LONG_RX + LONG_RX, 6, 5, f'node 0, ID 00000020 is the row of Rx frame 1, record 4; {RISING}'),
    (GOOD + LONG_RX.replace('0020', '0021') + LONG_RX, 6, 4,
     f'node 0, ID 00000020 is not above node 0, ID 00000021 of Rx frame 0, record 3; {RISING}'),
    (GOOD + LONG_RX + RX, 6, 4, f'node 0, ID 020 is not above node 0, ID 00000020 of Rx frame 0, record 3; {RISING}'),
    (GOOD + RX + '05 05 04', 7, 4, 'bits 5 to 8 would pass the data of Rx frame 0, 1 byte: bits 0 to 7'),
    (GOOD + RX + SIGNAL + '06 0001 06', 7, 5, 'it names Tx frame 1, and there is Tx frame 0 alone'),
    (GOOD + RX + SIGNAL + '06 0000 0d', 7, 5, 'bits 13 to 16 would pass the data of Tx frame 0, 2 bytes: bits 0 to 15'),
    (GOOD + RX.replace('20 01', '20 00') + SIGNAL, 7, 4, 'bits 2 to 5 would pass the data of Rx frame 0, 0 bytes: no bits'),
    (GOOD + RX + SIGNAL + DESTINATION + '06 0000 09', 8, 6,
     'this destination would have bit 9 of Tx frame 0, which the destination at record 5 (bits 6 to 9) has already'),
    (GOOD + RX + SIGNAL + DESTINATION + '06 0000 0a 06 0000 08', 8, 7,
     'this destination would have bits 8 to 9 of Tx frame 0, which the destination at record 5 (bits 6 to 9) has already; '
     'and bits 10 to 11 of Tx frame 0, which the destination at record 6 (bits 10 to 13) has already'),
    (GOOD + RX_FAILURE + SIGNAL + DESTINATION + '06 0000 0c', 8, 6,
     'this destination would have bit 15 of Tx frame 0, which the failure bit of Rx frame 0 (record 3) has already'),
    (GOOD + RX_FAILURE + SIGNAL + '06 0000 0c', 8, 5,
     'the failure bit of Rx frame 0 (record 3) would have bit 15 of Tx frame 0, which this destination has already'),
    (GOOD + RX_FAILURE, 9, 3, 'its failure enable is 01, and after it comes the end of the plan; '
                              'a signal and a destination must follow at once, or failure enable be 00'),
    (GOOD + LONG_RX.replace('00 00 02', '01 0f 02') + LONG_RX, 9, 3, 'its failure enable is 01, and after it comes an Rx frame with a 29-bit ID; '
                                                                     'a signal and a destination must follow at once, or failure enable be 00'),
    (GOOD + RX_FAILURE + SIGNAL + SIGNAL, 9, 3, 'its failure enable is 01, and after it comes a signal and a signal; '
                                                'a signal and a destination must follow at once, or failure enable be 00'),
    (GOOD + RX_FAILURE.replace('0f 02', '10 02') + SIGNAL + DESTINATION, 9, 5,
     'the failure bit of Rx frame 0 (record 3) is bit 16, which passes the data of Tx frame 0, 2 bytes: bits 0 to 15'),
]


def refusal(plan):
    """The number and the record with which the program refuses a plan, or nothing."""
    said = subprocess.run([sys.argv[1]], input=len(plan).to_bytes(2, 'big') + plan, capture_output=True, check=True).stdout.split()
    return (int(said[2]), int(said[3])) if said[1] == b'refused' else None


for typed, number, at, words in CAUSES:
    plan = bytes.fromhex(typed)
    if refusal(plan) != (number, at):
        sys.exit(f'{typed[-60:]}: {refusal(plan)}, not refused {number} at {at}')
    if cause(plan, number, at) != words:
        sys.exit(f'refusal {number}: {cause(plan, number, at)!r}, not {words!r}')
if {row[1] for row in CAUSES} != set(range(1, 10)):
    sys.exit('not every refusal of a plan is there')

met = 0
for example in ('examples/ship.txt', 'examples/listing.txt', 'examples/pumps.txt', 'examples/bridge.txt'):
    with open(example, encoding='utf-8') as text:
        good = bytes(read_text(text.read())[0].data)
    changed = [good[:place] + bytes([byte]) + good[place + 1:] for place in range(len(good)) for byte in (0, 1, 2, 5, 0x41, 0xff)]
    for plan in changed + [good[:end] for end in range(len(good))]:
        found = refusal(plan)
        met += found is not None
        if found and not cause(plan, *found):
            sys.exit(f'no words for refusal {found} of {plan.hex(" ")}')
print(f'{len(CAUSES)} causes in words, and words for each of {met} refusals')
