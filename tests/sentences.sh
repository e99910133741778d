#!/usr/bin/env bash
# Sentences and cases of documents 01 and 02 one by one, on the proved bench program: those that no other test runs by itself.
set -u -o pipefail
# says SENTENCE PLAN EVENTS LINES: the program writes these lines, given with / between them.
says() {
    local got
    got=$(printf '%s\nevents\n%s\n' "$2" "$3" | tools/bench --raw - | paste -sd/) || { echo "$1: no answer"; exit 1; }
    [ "$got" = "$4" ] || { echo "$1: '$got', and not '$4'"; exit 1; }
    tried=$((tried + 1))
}
tried=0
head='01 00'; node='02 00'
none='0000000000000000'

says 'case 10: size 4 fits' "$head $node 04 00 0020 08 01 02 02 00 00 02 05 3c 04" '' 'plan ok 1 0 1'
says 'case 10: size 5 is refusal 7' "$head $node 04 00 0020 08 01 02 02 00 00 02 05 3c 05" '' 'plan refused 7 3'
says 'case 11: rows (0, 7FF) then (1, 000)' "$head $node $node 04 00 07ff 08 01 02 02 00 00 02 04 01 0000 08 01 02 02 00 00 02" '' 'plan ok 2 0 2'
says 'case 11: a row twice' "$head $node 04 00 0020 01 01 02 02 00 00 02 04 00 0020 01 01 02 02 00 00 02" '' 'plan refused 6 3'
says 'case 12: empty plan' '' '' 'plan refused 1 0'
says 'case 12: head alone' "$head" '' 'plan ok 0 0 0'

# Tx frame 0 of two bytes, sent on reception; Rx frame 0 of one byte, whose timer stands still
tx="03 00 0100 02 01 00 00 01 $none"
rx='04 00 0020 01 01 00 00 00 00 00'
got='10 00 0020 01 2c00000000000000'
says 'signals may overlap in the source frame' "$head $node $tx $rx 05 00 08 06 0000 00 05 04 04 06 0000 08" "$got 12 00" \
    'plan ok 1 1 1/rx 0/take 0 256 2 2cc0 0'
says 'bytes past the size are ignored' "$head $node $tx $rx 05 00 08 06 0000 00" '10 00 0020 08 2cffffffffffffff 12 00' \
    'plan ok 1 1 1/rx 0/take 0 256 2 2c00 0'
says 'the payload is that of the take' "$head $node $tx $rx 05 00 08 06 0000 00" "$got 10 00 0020 01 3d00000000000000 12 00" \
    'plan ok 1 1 1/rx 0/rx 0/take 0 256 2 3d00 0'
says 'destinations in plan order' "$head $node $tx 03 00 0101 02 01 00 00 01 $none $rx 05 00 08 06 0001 00 06 0000 00" "$got 12 00 12 00" \
    'plan ok 1 2 1/rx 0/take 1 257 2 2c00 1/take 0 256 2 2c00 0'
says 'a zero timer stands still' "$head $node $tx $rx 05 00 08 06 0000 00" '11 11 11 12 00' 'plan ok 1 1 1/tick 0/tick 0/tick 0/take none'
says 'a zero long count is no long timeout' "$head $node 04 00 0020 01 01 01 01 00 00 00" '11 11 11' 'plan ok 1 0 1/tick 1/tick 1/tick 1'
says 'the Rx timer takes its reload value' "$head $node 04 00 0020 01 01 02 02 00 00 00" "11 $got 11 $got 11 11" \
    'plan ok 1 0 1/tick 0/rx 0/tick 0/rx 0/tick 0/tick 1'

# Ticket 1, on rows that expire at each tick
row='04 00 0020 01 01 01 01 00 00 02'; next='04 00 0021 01 01 01 01 00 00 02'; short='10 00 0020 00 0000000000000000'
says 'the long counter starts again at an acceptance' "$head $node $row" "11 $got 11 11 11" 'plan ok 1 0 1/tick 1/rx 0/tick 1/tick 2/tick 1'
says 'a payload that is too short starts nothing again' "$head $node $row" "11 $short 11" 'plan ok 1 0 1/tick 1/rx 2/tick 2'
says 'a refused reception starts nothing again' "$head $node $row" '11 10 00 0020 09 0000000000000000 11' 'plan ok 1 0 1/tick 1/rx refused 13/tick 2'
says 'a reception without a row starts nothing again' "$head $node $row" '11 10 00 0021 01 2c00000000000000 11' 'plan ok 1 0 1/tick 1/rx 1 1/tick 2'
says 'an acceptance starts its own row alone again' "$head $node $row $next" "11 $got 11 11" 'plan ok 1 0 2/tick 1 1/rx 0/tick 1 2/tick 2 1'
# Ticket 4, on three nodes: two rows, none, three
stranger() { printf ' 10 %02x %04x 01 2c00000000000000' "$1" "$2"; }
here=$(for id in 0020 0040; do printf '04 00 %s 01 01 01 01 00 00 00 ' "$id"; done)
there=$(for id in 0010 0030 0050; do printf '04 02 %s 01 01 01 01 00 00 00 ' "$id"; done)
says "the place is how many of that node's rows have a smaller ID" "$head $node $node $node $here $there" \
    "$(stranger 0 0x1f)$(stranger 0 0x21)$(stranger 0 0x3f)$(stranger 0 0x41)$(stranger 2 0x0f)$(stranger 2 0x31)$(stranger 2 0x7ff)" \
    'plan ok 3 0 5/rx 1 0/rx 1 1/rx 1 1/rx 1 2/rx 1 0/rx 1 2/rx 1 3'
says 'a node without rows has the place 0' "$head $node $node $node $here $there" "$(stranger 1 0x20)$(stranger 1 0)" 'plan ok 3 0 5/rx 1 0/rx 1 0'
says 'an ID above 2047 has the place behind all rows of its node' "$head $node $node $node $here $there" "$(stranger 0 0x800)$(stranger 2 0xffff)" \
    'plan ok 3 0 5/rx 1 2/rx 1 3'
says 'a refused reception and a payload that is too short have no place' "$head $node $here" \
    '10 01 0030 01 2c00000000000000 10 00 0030 09 2c00000000000000 10 00 0020 00 0000000000000000' 'plan ok 1 0 2/rx refused 12/rx refused 13/rx 2'
# Ticket 8, on a source of reload 2 and prescaler 2, accepted just after a tick that 2 divides; its failure bit is the last of the frame
source() { printf '%s' "$head $node $tx 04 00 0020 01 02 $1 00 $2 0f 00 05 00 08 06 0000 00"; }
says 'a fix of r p - 1 ticks ago can have failure bit 0' "$(source 02 01)" "11 $got 11 11 11 12 00" \
    'plan ok 1 1 1/tick 0/rx 0/tick 0/tick 0/tick 0/take 0 256 2 2c00 0'
says 'a fix of r p ticks ago has failure bit 1' "$(source 02 01)" "11 $got 11 11 11 11 12 00" \
    'plan ok 1 1 1/tick 0/rx 0/tick 0/tick 0/tick 0/tick 1/take 0 256 2 2c01 0'
says 'a fix of (r - 1) p ticks ago has failure bit 0' "$(source 02 01)" "$got 11 11 12 00" 'plan ok 1 1 1/rx 0/tick 0/tick 0/take 0 256 2 2c00 0'
says 'and one tick later it can have 1' "$(source 02 01)" "$got 11 11 11 12 00" 'plan ok 1 1 1/rx 0/tick 0/tick 0/tick 1/take 0 256 2 2c01 0'
says 'a fix has no bound where the reload value is 0' "$(source 00 01)" "11 $got 11 11 11 11 12 00" \
    'plan ok 1 1 1/tick 0/rx 0/tick 0/tick 0/tick 0/tick 0/take 0 256 2 2c00 0'
says 'a fix has no bound where the indicator is off' "$(source 02 00)" "11 $got 11 11 11 11 12 00" \
    'plan ok 1 1 1/tick 0/rx 0/tick 0/tick 0/tick 0/tick 1/take 0 256 2 2c00 0'
# Ticket 2. Node 0 is CAN, node 1 LIN. Tx frame 0 on CAN goes out at each tick; Rx frame 0 on LIN has ID 01 and one byte, is asked for each second
# tick, has its failure bit in the last bit of Tx frame 0, and long count 2. C1 is the protected identifier of 01, and C1 + 2C = ED, inverted 12.
lin='02 01'
logger="03 00 0100 02 01 01 01 00 $none"
asked() { printf '04 01 %s 01 01 02 02 %s 0f %s' "$1" "$2" "$3"; }
pump="$head $node $lin $logger $(asked 0001 01 02) 05 00 08 06 0000 00"
answer='14 01 0001 01 2c00000000000000 12'; silent='15 01 0001'
says 'LIN nodes follow all CAN nodes' "$head $node $node $lin $lin" '' 'plan ok 4 0 0'
says 'a plan may have LIN nodes alone' "$head $lin" '' 'plan ok 1 0 0'
says 'a CAN node after a LIN node is refusal 3' "$head $node $lin $node" '' 'plan refused 3 3'
says 'a type that does not exist is refusal 5, also after a LIN node' "$head $lin 02 02" '' 'plan refused 5 2'
says 'IDs on LIN run 0 to 59, sizes 1 to 8' \
    "$head $lin 03 00 0000 08 01 00 00 00 $none 03 00 003b 01 01 00 00 00 $none 04 00 0000 01 01 00 00 00 00 00 04 00 003b 08 01 00 00 00 00 00" '' \
    'plan ok 1 2 2'
says 'an Rx frame with ID 60 on LIN is refusal 5' "$head $lin 04 00 003c 01 01 00 00 00 00 00" '' 'plan refused 5 2'
says 'a Tx frame with ID 60 on LIN is refusal 5' "$head $lin 03 00 003c 01 01 00 00 00 $none" '' 'plan refused 5 2'
says 'an Rx frame of size 0 on LIN is refusal 5' "$head $lin 04 00 0001 00 01 00 00 00 00 00" '' 'plan refused 5 2'
says 'a Tx frame of size 0 on LIN is refusal 5' "$head $lin 03 00 0001 00 01 00 00 00 $none" '' 'plan refused 5 2'
says 'size 9 on LIN is refusal 5' "$head $lin 04 00 0001 09 01 00 00 00 00 00" '' 'plan refused 5 2'
says 'beside a LIN node, a CAN node has ID 60 and size 0' "$head $node $lin 04 00 003c 00 01 00 00 00 00 00" '' 'plan ok 2 0 1'
says 'expiry queues a request, once while it waits' "$pump" '11 11 11 11 12 01 12 01' \
    'plan ok 2 1 1/tick 0/tick 0/tick 0/tick 0/take request 0 1 1 0/take none'
says 'a request that was taken joins again' "$pump" '11 11 12 01 11 11 12 01' \
    'plan ok 2 1 1/tick 0/tick 0/take request 0 1 1 0/tick 0/tick 0/take request 0 1 1 0'
says 'at a request bit and long counter stay' "$pump" "11 11 11 11 12 00 $silent $silent" \
    'plan ok 2 1 1/tick 0/tick 0/tick 0/tick 0/take 0 256 2 0000 0/silent 1/silent 2'
says 'the period of a poll is reload times prescaler' "$head $lin 04 00 0001 01 0a 02 01 00 00 00" \
    "11 12 00 $(printf '11 %.0s' {1..19}) 12 00 11 12 00" \
    "plan ok 1 0 1/tick 0/take request 0 1 1 0$(printf '/tick 0%.0s' {1..19})/take none/tick 0/take request 0 1 1 0"
says 'requests join after the Tx frames of the tick, in number order, and all are counted' \
    "$head $lin 03 00 0003 01 01 02 02 00 $none 04 00 0001 01 01 02 02 00 00 00 04 00 0002 01 01 02 02 00 00 00" '11 11 12 00 12 00 12 00 12 00' \
    'plan ok 1 1 2/tick 0 0/tick 0 0/take 0 3 1 00 2/take request 0 1 1 1/take request 1 2 1 0/take none'
# by the checksum of one byte 00: 80, C1, 42 and FB are the protected identifiers of 00, 01, 02 and 3B
rows=$(for id in 0000 0001 0002 003b; do printf '04 00 %s 01 01 00 00 00 00 00 ' "$id"; done)
zero() { printf ' 14 00 %s 01 0000000000000000 %s' "$1" "$2"; }
says 'the protected identifier' "$head $lin $rows" "$(zero 0000 7f)$(zero 0001 3e)$(zero 0002 bd)$(zero 003b 04)" 'plan ok 1 0 4/rx 0/rx 0/rx 0/rx 0'
says 'the checksum is not of the plain ID' "$head $lin $rows" "$(zero 0000 ff)$(zero 0001 fe)$(zero 0002 fd)$(zero 003b c4)" \
    'plan ok 1 0 4/rx 3/rx 3/rx 3/rx 3'
says 'bit 6 and bit 7 are both in it' "$head $lin $rows" "$(zero 0001 7e)$(zero 0001 be)" 'plan ok 1 0 4/rx 3/rx 3'
says '4A 55 93 E5 gives E6, where 42 and 08 make the 4A' "$head $lin 04 00 0002 04 01 00 00 00 00 00" \
    '14 00 0002 04 085593e500000000 e6 14 00 0002 04 085593e500000000 e5 14 00 0002 04 085593e500000000 e7' 'plan ok 1 0 1/rx 0/rx 3/rx 3'
says 'the checksum is of every byte handed in' "$pump" '14 01 0001 02 2c01000000000000 11 14 01 0001 02 2c01000000000000 12' 'plan ok 2 1 1/rx 0/rx 3'
says 'and of no byte past the length' "$pump" '14 01 0001 01 2c01000000000000 12 14 01 0001 01 2c01000000000000 11' 'plan ok 2 1 1/rx 0/rx 3'
says 'a response is copied, clears the failure bit and starts the long counter again' "$pump" "$silent $answer 11 12 00 $silent $silent" \
    'plan ok 2 1 1/silent 1/rx 0/tick 0/take 0 256 2 2c00 0/silent 1/silent 2'
says 'a wrong checksum is answer 3 and changes nothing' "$pump" "$silent 14 01 0001 01 2c00000000000000 13 11 12 00 $silent" \
    'plan ok 2 1 1/silent 1/rx 3/tick 0/take 0 256 2 0001 0/silent 2'
says 'a payload that is too short is answer 2, whatever its checksum' "$pump" '14 01 0001 00 0000000000000000 3e 14 01 0001 00 0000000000000000 00' \
    'plan ok 2 1 1/rx 2/rx 2'
says 'a response does not reload a LIN timer' "$pump" "11 $answer 11 12 01" 'plan ok 2 1 1/tick 0/rx 0/tick 0/take request 0 1 1 0'
says 'nor does no response' "$pump" "11 $silent 11 12 01" 'plan ok 2 1 1/tick 0/silent 1/tick 0/take request 0 1 1 0'
says 'a request waits on where a response comes unasked, or none' "$pump" "11 11 $answer $silent 12 01" \
    'plan ok 2 1 1/tick 0/tick 0/rx 0/silent 1/take request 0 1 1 0'
says 'no response sets the failure bit and answers as a report would' "$pump" "$silent $silent $silent $silent 11 12 00" \
    'plan ok 2 1 1/silent 1/silent 2/silent 1/silent 2/tick 0/take 0 256 2 0001 0'
says 'no response with a long count of 0 answers 1' "$head $node $lin $logger $(asked 0001 01 00) 05 00 08 06 0000 00" "$silent $silent $silent" \
    'plan ok 2 1 1/silent 1/silent 1/silent 1'
says 'no response sets no bit where the indicator is off' "$head $node $lin $logger $(asked 0001 00 02) 05 00 08 06 0000 00" "$silent 11 12 00" \
    'plan ok 2 1 1/silent 1/tick 0/take 0 256 2 0000 0'
says 'no response is of its own row alone' "$head $node $lin $(asked 0001 00 02) $(asked 0002 00 02)" "$silent 15 01 0002 $silent" \
    'plan ok 2 0 2/silent 1/silent 1/silent 2'
says 'a response gives 12, then 16, then 13' "$pump" \
    "14 02 0001 09 $none 00 14 00 0001 09 $none 00 14 01 0002 09 $none 00 14 01 0001 09 $none 00" \
    'plan ok 2 1 1/rx refused 12/rx refused 16/rx refused 16/rx refused 13'
says 'no response gives 12, then 16' "$pump" '15 02 0001 15 00 0001 15 01 0002 15 01 003c' \
    'plan ok 2 1 1/silent refused 12/silent refused 16/silent refused 16/silent refused 16'
says 'the new calls go by the plain ID' "$pump" '14 01 00c1 01 2c00000000000000 12 15 01 00c1' 'plan ok 2 1 1/rx refused 16/silent refused 16'
says 'the old reception gives 16 on a LIN node, after 12 and before 13' "$pump" \
    "10 01 0001 01 2c00000000000000 10 01 0001 09 $none 10 02 0001 09 $none" 'plan ok 2 1 1/rx refused 16/rx refused 16/rx refused 12'
says 'a cut response is bad' "$pump" '14 01 0001 01 2c00000000000000' 'plan ok 2 1 1/input bad'
says 'a cut silence is bad' "$pump" '15 01 00' 'plan ok 2 1 1/input bad'
# Ticket 14, on nodes 1 and 2 with three Tx frames each, of which each reception on node 0 schedules one by its ID
queues=$(for id in {0..5}; do printf '03 %02x %04x 01 01 00 00 01 %s ' $((1 + id / 3)) "$id" "$none"; done
         for id in {0..5}; do printf '04 00 %04x 01 01 00 00 00 00 00 05 00 08 06 %04x 00 ' "$id" "$id"; done)
joins() { for id in "$@"; do printf ' 10 00 %04x 01 2c00000000000000' "$id"; done; }
accepted() { printf '/rx 0%.0s' $(seq "$1"); }
queues="$head $node $node $node $queues"
says 'the oldest leaves first, whatever its number' "$queues" "$(joins 2 0 1) 12 01 12 01 12 01 12 01" \
    "plan ok 3 6 6$(accepted 3)/take 2 2 1 2c 2/take 0 0 1 2c 1/take 1 1 1 2c 0/take none"
says 'a frame with two ahead of it leaves at the third take on its node, whatever comes between' "$queues" \
    "$(joins 1 2 0) 12 01 $(joins 1 0 4) 11 12 02 12 00 12 03 12 01 $(joins 2) 12 01" \
    "plan ok 3 6 6$(accepted 3)/take 1 1 1 2c 2$(accepted 3)/tick 0 0 0 0 0 0/take 4 4 1 2c 0/take none/take refused 12/take 2 2 1 2c 2/rx 0/take 0 0 1 2c 2"
says 'a full ring goes round, entry by entry' "$queues" "$(joins 0 1 2)$(for id in 0 1 2 0 1 2; do printf ' 12 01%s' "$(joins "$id")"; done)" \
    "plan ok 3 6 6$(accepted 3)$(for id in 0 1 2 0 1 2; do printf '/take %s %s 1 2c 2/rx 0' "$id" "$id"; done)"
says 'two full rings side by side' "$queues" "$(joins 0 1 2 3 4 5) 12 01 $(joins 0) 12 02 $(joins 3) 12 01 12 01 12 01 12 02 12 02 12 02" \
    "plan ok 3 6 6$(accepted 6)/take 0 0 1 2c 2/rx 0/take 3 3 1 2c 2/rx 0/take 1 1 1 2c 2/take 2 2 1 2c 1/take 0 0 1 2c 0/take 4 4 1 2c 2/take 5 5 1 2c 1/take 3 3 1 2c 0"
says 'a full ring of frames and requests' "$head $lin 03 00 0003 01 01 01 01 00 $none 04 00 0001 01 01 01 01 00 00 00 04 00 0002 01 01 01 01 00 00 00" \
    '11 12 00 11 12 00 11 12 00 11 12 00' \
    'plan ok 1 1 2/tick 0 0/take 0 3 1 00 2/tick 0 0/take request 0 1 1 2/tick 0 0/take request 1 2 1 2/tick 0 0/take 0 3 1 00 2'
says 'on a node without frames and requests nothing waits' "$queues" "$(joins 0 1 2 3 4 5) 11 12 00" "plan ok 3 6 6$(accepted 6)/tick 0 0 0 0 0 0/take none"
# Ticket 6. Node 0 has ID 32, hex 20, in both formats; the 11-bit one goes to the first byte of Tx frame 0, whose ID is 256, the 29-bit one to the first of
# Tx frame 1, whose ID is 256 with 29 bits. Both are sent on reception.
long_tx() { printf '07 00 %s 02 01 00 00 01 %s' "$1" "$none"; }
long_rx() { printf '08 00 %s 01 01 00 00 00 00 00' "$1"; }
short_rx() { printf '04 00 %s 01 01 00 00 00 00 00' "$1"; }
wide() { printf ' 13 %02x %08x 01 2d00000000000000' "$1" "$2"; }
to_first='05 00 08 06 0000 00'; to_second='05 00 08 06 0001 00'
both="$head $node $tx $(long_tx 00000100) $(short_rx 0020) $to_first $(long_rx 00000020) $to_second"
says 'kinds 7 and 8 have IDs from 0' "$head $node $(long_tx 00000000) $(long_rx 00000000)" '' 'plan ok 1 1 1'
says 'to 536,870,911' "$head $node $(long_tx 1fffffff) $(long_rx 1fffffff)" '' 'plan ok 1 1 1'
says 'a Tx frame with ID 536,870,912 is refusal 5' "$head $node $(long_tx 20000000)" '' 'plan refused 5 2'
says 'an Rx frame with ID 536,870,912 is refusal 5' "$head $node $(long_rx 20000000)" '' 'plan refused 5 2'
says 'an ID with the highest bit alone is refusal 5' "$head $node $(long_rx 80000020)" '' 'plan refused 5 2'
says 'kinds 7 and 8 are otherwise as 3 and 4: period, failure bit, long count' \
    "$head $node 07 00 00000100 02 01 03 03 02 $none 08 00 00000020 01 01 02 02 01 0f 02 05 02 04 06 0000 06" \
    '12 00 13 00 00000020 01 2c00000000000000 12 00 11 11 11 12 00 11 13 00 00000020 01 2c00000000000000 12 00' \
    'plan ok 1 1 1/take none/rx 0/take 0 e256 2 02c0 0/tick 0/tick 1/tick 0/take 0 e256 2 02c1 0/tick 2/rx 0/take none'
says 'and the order of little bits' "01 01 $node 07 00 00000100 02 01 00 00 01 $none $(long_rx 00000020) 05 02 04 06 0000 06" \
    "13 00 00000020 01 2c00000000000000 12 00" 'plan ok 1 1 1/rx 0/take 0 e256 2 c002 0'
says 'a field of kind 7 past its range is refusal 5' "$head $node 07 00 00000100 09 01 00 00 01 $none" '' 'plan refused 5 2'
says 'a field of kind 8 past its range is refusal 5' "$head $node 08 00 00000020 01 03 00 00 00 00 00" '' 'plan refused 5 2'
says 'a signal of kind 8 past its data is refusal 7' "$head $node $(long_rx 00000020) 05 05 04" '' 'plan refused 7 3'
says 'an indicator of kind 8 without a destination is refusal 9' "$head $node 08 00 00000020 01 01 00 00 01 00 00 $(long_rx 00000021)" '' 'plan refused 9 2'
says 'a Tx frame of either kind after an Rx frame is refusal 3' "$head $node $(short_rx 0020) $(long_tx 00000000)" '' 'plan refused 3 3'
says 'also after one with 29 bits' "$head $node $(long_rx 00000020) $tx" '' 'plan refused 3 3'
says 'a cut record of kind 7 is refusal 1' "$head $node 07 00 00000100 02 01 00 00 01 00000000000000" '' 'plan refused 1 2'
says 'a cut record of kind 8 is refusal 1' "$head $node 08 00 00000020 01 01 00 00 00 00" '' 'plan refused 1 2'
says 'Tx frames of both kinds count together' "$head $node $(for ((k = 0; k < 128; k++)); do printf '%s %s ' "$tx" "$(long_tx 00000100)"; done) $tx" '' \
    'plan refused 4 258'
says 'Rx frames of both kinds count together' \
    "$head $node $(for ((k = 0; k < 200; k++)); do short_rx "$(printf '%04x ' $k)"; printf ' '; done
                   for ((k = 0; k < 57; k++)); do long_rx "$(printf '%08x ' $k)"; printf ' '; done)" '' 'plan refused 4 258'
says 'ID 32 in one format is not ID 32 in the other' "$both" "$got 12 00 12 00 $(wide 0 32) 12 00 12 00" \
    'plan ok 1 2 2/rx 0/take 0 256 2 2c00 0/take none/rx 0/take 1 e256 2 2d00 0/take none'
says 'where the other format alone has a row, there is none' "$head $node $(short_rx 0020)" "$(wide 0 32)" 'plan ok 1 0 1/rx 1 1'
says 'and the other way' "$head $node $(long_rx 00000020)" "$got" 'plan ok 1 0 1/rx 1 0'
says 'an acceptance starts the row of its own format alone again' \
    "$head $node 04 00 0020 01 01 01 01 00 00 02 08 00 00000020 01 01 01 01 00 00 02" "11 $(wide 0 32) 11 11" 'plan ok 1 0 2/tick 1 1/rx 0/tick 2 1/tick 1 2'
says 'both take in the order in which they joined' "$both" "$(wide 0 32) $got 12 00 12 00" 'plan ok 1 2 2/rx 0/rx 0/take 1 e256 2 2d00 1/take 0 256 2 2c00 0'
says 'e stands before the greatest ID too, and before 0' "$head $node $(long_tx 1fffffff) $(long_tx 00000000) $(long_rx 1fffffff) $to_first $to_second" \
    "$(wide 0 0x1fffffff) 12 00 12 00" 'plan ok 1 2 1/rx 0/take 0 e536870911 2 2d00 1/take 1 e0 2 2d00 0'
says '11-bit rows come before 29-bit ones' "$head $node $(short_rx 07ff) $(long_rx 00000000)" '' 'plan ok 1 0 2'
says 'an 11-bit row behind a 29-bit one is refusal 6' "$head $node $(long_rx 00000000) $(short_rx 07ff)" '' 'plan refused 6 3'
says '29-bit rows ascend' "$head $node $(long_rx 0000ffff) $(long_rx 00010000) $(long_rx 09f80100)" '' 'plan ok 1 0 3'
says 'a 29-bit row that does not ascend is refusal 6' "$head $node $(long_rx 00010000) $(long_rx 0000ffff)" '' 'plan refused 6 3'
says 'a 29-bit row twice is refusal 6' "$head $node $(long_rx 00000020) $(long_rx 00000020)" '' 'plan refused 6 3'
says '11-bit rows ascend, also before 29-bit ones' "$head $node $(short_rx 0021) $(short_rx 0020) $(long_rx 00000000)" '' 'plan refused 6 3'
says 'the node counts before the format' "$head $node $node $(long_rx 1fffffff) 04 01 0000 01 01 00 00 00 00 00" '' 'plan ok 2 0 2'
# rows 10, 30, 10 with 29 bits, 30 with 29 bits
four="$head $node $node $(short_rx 0010) $(short_rx 0030) $(long_rx 00000010) $(long_rx 00000030)"
says 'the place of an 11-bit ID counts the 11-bit rows before it' "$four" "$(stranger 0 0x0f)$(stranger 0 0x20)$(stranger 0 0x31)$(stranger 0 0x7ff)" \
    'plan ok 2 0 4/rx 1 0/rx 1 1/rx 1 2/rx 1 2'
says 'that of a 29-bit ID all 11-bit rows too' "$four" "$(wide 0 0)$(wide 0 0x0f)$(wide 0 0x20)$(wide 0 0x31)$(wide 0 0x1fffffff)" \
    'plan ok 2 0 4/rx 1 2/rx 1 2/rx 1 3/rx 1 4/rx 1 4'
says 'an 11-bit ID above 2047 has the place behind the 11-bit rows' "$four" "$(stranger 0 0x800)$(stranger 0 0xffff)" 'plan ok 2 0 4/rx 1 2/rx 1 2'
says 'a 29-bit ID above 536,870,911 has the place behind all rows' "$four" "$(wide 0 0x20000010)$(wide 0 0x80000010)$(wide 0 0xffffffff)" \
    'plan ok 2 0 4/rx 1 4/rx 1 4/rx 1 4'
says 'on a node without rows the place is 0' "$four" "$(wide 1 0x10)" 'plan ok 2 0 4/rx 1 0'
says 'event 19 is a reception: accepted, too short, and bytes past the size ignored' "$both" \
    "13 00 00000020 00 $none 13 00 00000020 08 2dffffffffffffff 12 00" 'plan ok 1 2 2/rx 2/rx 0/take 1 e256 2 2d00 0'
says 'event 19 gives 12, then 16, then 13' "$pump" "13 02 00000001 09 $none 13 01 00000001 09 $none 13 00 00000001 09 $none" \
    'plan ok 2 1 1/rx refused 12/rx refused 16/rx refused 13'
says 'a cut event 19 is bad' "$both" '13 00 00000020 01 2d000000000000' 'plan ok 1 2 2/input bad'
says 'a Tx frame of kind 7 on a LIN node is refusal 5' "$head $lin $(long_tx 00000001)" '' 'plan refused 5 2'
says 'an Rx frame of kind 8 on a LIN node is refusal 5' "$head $lin $(long_rx 00000001)" '' 'plan refused 5 2'
says 'beside a LIN node a CAN node has them' "$head $node $lin $(long_tx 00000001) $(long_rx 00000001)" '' 'plan ok 2 1 1'
says '2 begins past the new kinds' "$head $node 09" '' 'plan refused 2 2'
# the last of 256 rows: its place is the highest that an acceptance writes
rows=$(for id in {0..255}; do printf '04 00 %04x 01 01 01 01 00 00 02 ' "$id"; done)
bytes() { printf " $1%.0s" {1..255}; }
says 'an acceptance starts the last of 256 rows alone again' "$head $node $rows" '11 10 00 00ff 01 2c00000000000000 11 11' \
    "plan ok 1 0 256/tick$(bytes 1) 1/rx 0/tick$(bytes 2) 1/tick$(bytes 1) 2"
says 'behind 256 rows the place is 256' "$head $node $rows" "$(stranger 0 0x100)" 'plan ok 1 0 256/rx 1 256'

# the same Tx frame on a period of three ticks
tx="03 00 0100 02 01 03 03 01 $none"
says 'scheduling loads the Tx timer' "$head $node $tx $rx 05 00 08 06 0000 00" "11 11 $got 12 00 11 11 12 00 11 12 00" \
    'plan ok 1 1 1/tick 0/tick 0/rx 0/take 0 256 2 2c00 0/tick 0/tick 0/take none/tick 0/take 0 256 2 2c00 0'
says 'a waiting frame is not loaded again' "$head $node $tx $rx 05 00 08 06 0000 00" "$got 11 11 $got 12 00 11 12 00" \
    'plan ok 1 1 1/rx 0/tick 0/tick 0/rx 0/take 0 256 2 2c00 0/tick 0/take 0 256 2 2c00 0'
echo "$tried sentences and cases, all as they say"
