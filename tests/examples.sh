#!/usr/bin/env bash
# Each example gives its stored lines, and the listing those of document 01; the pages show what tools/bench prints.
set -u -o pipefail
fail() { echo "$1"; exit 1; }

for text in examples/*.txt; do
    tools/bench --raw "$text" | diff - "${text%.txt}.out" || fail "$text: not the lines of ${text%.txt}.out"
    view=$(tools/bench "$text"); status=$?
    expected=0; ! grep -qE '^(plan refused|input bad)' "${text%.txt}.out" || expected=1
    [ "$status" -eq "$expected" ] || fail "$text: ended with $status, not $expected"
    [ "$(wc -L <<<"$view")" -le 120 ] || fail "$text: the view is wider than 120 columns"
done
for lines in examples/*.out; do
    [ -f "${lines%.out}.txt" ] || fail "$lines: there is no such example"
done
refused=0
for lines in $(grep -l '^plan refused' examples/*.out); do
    number=$(sed -n 's/^plan refused \([0-9]*\) .*/\1/p' "$lines")
    head -n 1 "${lines%.out}.txt" | grep -q "^# Refused $number\. " || fail "${lines%.out}.txt: does not say that it is refused $number"
    refused=$((refused + 1))
done
[ "$refused" -ge 3 ] || fail "only $refused refused plans"

# The listing, word for word from document 01.
diff - examples/listing.out <<'END' || fail "examples/listing.out: not document 01's lines"
plan ok 1 1 1
take none
rx 0
take 0 256 2 02c0 0
tick 0
tick 1
tick 0
take 0 256 2 02c1 0
tick 2
rx 0
take none
rx 1 1
rx 2
END
plan='01 00 02 00 03 00 01 00 02 01 03 03 02 00 00 00 00 00 00 00 00 04 00 00 20 01 01 02 02 01 0f 02 05 02 04 06 00 00 06'
reception='10 00 00 20 01 2c 00 00 00 00 00 00 00'
events="12 00 $reception 12 00 11 11 11 12 00 11 $reception 12 00 10 00 00 21 01 2c 00 00 00 00 00 00 00"
events="$events 10 00 00 20 00 00 00 00 00 00 00 00 00"
[ "$(tools/bench --hex examples/listing.txt)" = "00 27 $plan $events" ] || fail "examples/listing.txt: not document 01's bytes"

# A block of a page that begins with such a command shows its output; a line of dots stands for lines left out.
python3 - <<'P' || exit 1
import glob, re, subprocess, sys
shown = 0
for page in ['README.md', *glob.glob('docs/*.md')]:
    for command, block in re.findall(r'^```\n\$ (tools/bench [^\n]*)\n(.*?)^```$', open(page, encoding='utf-8').read(), re.S | re.M):
        output = subprocess.run(command.split(), stdout=subprocess.PIPE, check=False).stdout.decode()
        pattern = '\n'.join('.*' if line == '...' else re.escape(line) for line in block.rstrip('\n').split('\n'))
        if not re.fullmatch(pattern, output.rstrip('\n'), re.S):
            sys.exit(f'{page}: {command} prints something else')
        shown += 1
if not shown:
    sys.exit('no page shows what tools/bench prints')
P
echo "ok"
