#!/usr/bin/env bash
# tools/bench, as one types: what it cannot read is told with its line, a refusal with what to mend, and each end has its status.
# The second program answers here, being quick to start; tests/examples.sh has the proved one.
set -u
fail() { echo "$1"; exit 1; }
CARGO_TARGET_DIR=$PWD/target/cargo cargo build --offline --quiet --manifest-path second/program/Cargo.toml || exit 1
export BENCH=target/cargo/debug/second
python3 tests/causes.py "$BENCH" || exit 1
python3 tests/typed.py || exit 1
there=$(mktemp -d) || exit 1
trap 'rm -rf "$there"' EXIT
good=$there/good.txt
printf '0100\nevents\n12 00\n' >"$good"

# ends STATUS COMMAND ..: the command ends with this status, and tells at most one line on standard error: no traceback.
ends() {
    local status=$1 got
    shift
    "$@" >"$there/shown" 2>"$there/told"; got=$?
    [ "$got" -eq "$status" ] || fail "$*: ended with $got, not $status: $(cat "$there/told")"
    [ "$(wc -l <"$there/told")" -le 1 ] || fail "$*: told more than one line: $(cat "$there/told")"
}

# The files and words of the command.
ends 2 tools/bench "$there/none.txt"
[ "$(cat "$there/told")" = "tools/bench: $there/none.txt: No such file or directory" ] || fail "no file: $(cat "$there/told")"
for words in '' '--no-such' "--raw --hex $good"; do
    tools/bench $words >/dev/null 2>"$there/told"; [ $? -eq 2 ] || fail "tools/bench $words: not ended with 2"
done

# The ages of examples/age.txt: the position's bound is 2 * 2 ticks, the ion current's 3 * 1.
tools/bench examples/age.txt | grep -oE '(from Rx frame|no bound|accepted [0-9]).*' >"$there/ages"
diff "$there/ages" - <<'END' || fail "examples/age.txt: not these ages"
from Rx frame 0: 0x000000, 0x000000, failure bit 1
no bound: not accepted since the opening
from Rx frame 1: 0x0000, failure bit 1
no bound: not accepted since the opening
from Rx frame 0: 0x29839f, 0x0b4c59, failure bit 0
accepted 1 tick ago; bound: fewer than 4
from Rx frame 1: 0x1075, failure bit 0
accepted 1 tick ago; bound: fewer than 3
from Rx frame 0: 0x29839f, 0x0b4c59, failure bit 0
accepted 2 ticks ago; bound: fewer than 4
from Rx frame 1: 0x1075, failure bit 0
accepted 2 ticks ago; bound: fewer than 3
from Rx frame 0: 0x29839f, 0x0b4c59, failure bit 0
accepted 3 ticks ago; bound: fewer than 4
from Rx frame 1: 0x1071, failure bit 0
accepted 1 tick ago; bound: fewer than 3
from Rx frame 0: 0x29839f, 0x0b4c59, failure bit 1
accepted 4 ticks ago; no bound: its failure bit is 1
from Rx frame 1: 0x1071, failure bit 0
accepted 2 ticks ago; bound: fewer than 3
from Rx frame 0: 0x298438, 0x0b4d18, failure bit 0
accepted 2 ticks ago; bound: fewer than 4
from Rx frame 1: 0x109f, failure bit 0
accepted 1 tick ago; bound: fewer than 3
from Rx frame 0: 0x298438, 0x0b4d18, failure bit 1
accepted 3 ticks ago; no bound: its failure bit is 1
from Rx frame 1: 0x109f, failure bit 0
accepted 2 ticks ago; bound: fewer than 3
END

# What is shown of LIN in examples/pumps.txt up to the first frame on CAN: takes, responses and silence.
tools/bench examples/pumps.txt | sed -n '/^event /,/take on node 0/p' |
    grep -oE '(request for Rx|protected 0x|checksum 0x|not taken|the right one|short timeout).*' >"$there/lin"
diff "$there/lin" - <<'END' || fail "examples/pumps.txt: not these words"
request for Rx frame 1 (ID 0x021), none waits after it
protected 0x61; 3 bytes and a checksum should come
checksum 0x8d, protected 0x61
request for Rx frame 2 (ID 0x022), none waits after it
protected 0xe2; 3 bytes and a checksum should come
checksum 0x15, protected 0xe2
protected 0x50; checksum 0x64
request for Rx frame 1 (ID 0x021), none waits after it
protected 0x61; 3 bytes and a checksum should come
not taken: the checksum is wrong
the right one is 0x28, protected 0x61
short timeout: Rx frame 1 (node 1, ID 0x021)
request for Rx frame 2 (ID 0x022), none waits after it
protected 0xe2; 3 bytes and a checksum should come
checksum 0xb0, protected 0xe2
END

# The IDs of examples/bridge.txt, with 3 and with 8 digits as candump shows them: of frames, receptions, places, takes and timeouts.
tools/bench examples/bridge.txt | grep -v '^#' | grep -oE 'ID [0-9A-F]+' | sort | uniq -c | tr -s ' ' >"$there/ids"
diff "$there/ids" - <<'END' || fail "examples/bridge.txt: not these IDs"
 1 ID 00000100
 1 ID 09F11200
 14 ID 09F80100
 1 ID 09F80200
 5 ID 100
 3 ID 120
 2 ID 15FD0823
 4 ID 310
 1 ID 7FF
END
tools/bench examples/bridge.txt | sed -n '/^# The converter falls silent/,$p' | grep -oE '(take [01]|Tx frame|from Rx|short timeout|long timeout|ID .*\)|accepted [0-9]).*' >"$there/shown"
diff "$there/shown" - <<'END' || fail "examples/bridge.txt: not these words"
short timeout: Rx frame 1 (node 0,
ID 09F80100)
long timeout: Rx frame 1 (node 0,
ID 09F80100)
take 0 784 8 c9a38329505d4c0b 0
Tx frame 0 (ID 310), none waits after it
from Rx frame 1: 0x14c1d1e4, 0x0b4c5d50, failure bit 1
accepted 6 ticks ago; no bound: its failure bit is 1
take 1 e368904227 8 ff00005c6cffffff 0
Tx frame 1 (ID 15FD0823), none waits after it
from Rx frame 2: 0x6c5c
accepted 1 tick ago; no bound: no failure bit
take 0 784 8 38388429d0184d0b 0
Tx frame 0 (ID 310), none waits after it
from Rx frame 1: 0x14c21c1c, 0x0b4d18d0, failure bit 0
accepted 1 tick ago; bound: fewer than 3
END

# How many can be ahead of each frame and of each request. Node 0 has a Tx frame; node 1 an Rx frame that is asked for, one that never is, and two Tx frames.
frame='0000000000000000'
printf '01 00\n02 00\n02 01\n03 00 0100 01 01 01 01 00 %s\n03 01 0003 01 01 01 01 00 %s\n03 01 0004 01 01 01 01 00 %s\n' $frame $frame $frame >"$there/ahead.txt"
printf '04 00 0020 01 01 01 01 00 00 00\n04 01 0001 01 01 01 01 00 00 00\n04 01 0002 01 01 00 00 00 00 00\nevents\n' >>"$there/ahead.txt"
tools/bench "$there/ahead.txt" | grep -oE '[TR]x frame [0-9]|(its request: )?(none|at most [0-9]+) ahead of it on node [0-9]+' | paste -sd/ >"$there/shown"
[ "$(cat "$there/shown")" = 'Tx frame 0/none ahead of it on node 0/Tx frame 1/at most 3 ahead of it on node 1/Tx frame 2/at most 3 ahead of it on node 1'\
'/Rx frame 0/Rx frame 1/its request: at most 3 ahead of it on node 1/Rx frame 2' ] || fail "ahead of each frame: $(cat "$there/shown")"
tools/bench examples/refused-two-owners.txt | grep -q 'ahead of it' && fail "a refused plan: told who is ahead"

# Terminals that have ASCII alone.
printf '# na\303\257ve\n0100\nevents\n' >"$there/comment.txt"
printf '0\303\257\nevents\n' >"$there/word.txt"
export PYTHONIOENCODING=ascii LC_ALL=C
ends 0 tools/bench "$there/comment.txt"
grep -qF '# na\xefve' "$there/shown" || fail "on an ASCII terminal: $(head -n 1 "$there/shown")"
ends 1 tools/bench "$there/word.txt"
grep -qF "'0\xef' is not hex" "$there/told" || fail "on an ASCII terminal: $(cat "$there/told")"
ends 2 tools/bench "$there/$(printf '\303\257').txt"
unset PYTHONIOENCODING LC_ALL

# No end of input, no room for output.
ends 1 tools/bench /dev/zero
tools/bench "$good" >/dev/full 2>"$there/told"; [ $? -eq 1 ] || fail "a full disk: not ended with 1"
[ "$(cat "$there/told")" = 'tools/bench: standard output: No space left on device' ] || fail "a full disk: $(cat "$there/told")"

# A reader that leaves early, and Ctrl-C: no traceback.
{ printf '0100\nevents\n'; printf '1200\n%.0s' {1..20000}; } >"$there/long.txt"
for option in '' --raw --hex; do
    tools/bench $option "$there/long.txt" 2>"$there/told" | head -n 1 | head -c 10 >/dev/null
    [ ! -s "$there/told" ] || fail "tools/bench $option | head: $(cat "$there/told")"
done
BENCH='sleep 20' ends 130 timeout --foreground --preserve-status -s INT 1 tools/bench "$good"
[ "$(cat "$there/told")" = 'tools/bench: stopped' ] || fail "Ctrl-C: $(cat "$there/told")"
echo "ok"
