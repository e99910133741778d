#!/usr/bin/env bash
# No call takes more instructions or stack than benchmark/bounds.txt has for it, and the C gateways beside it answer as ours does.
# The comparison itself refuses what it should.
set -u
there=$(mktemp -d) || exit 1
trap 'rm -rf "$there"' EXIT
tools/speed check 1 100 || exit 1
tools/speed figures >"$there/figures" || exit 1
tools/speed bounds --figures "$there/figures" || exit 1

# told STATUS LINE EDIT: with bounds made of these figures, and then changed, the comparison ends so and has this line.
told() {
    sed "$3" "$there/bounds" >"$there/changed" || exit 1
    tools/speed bounds --figures "$there/figures" --bounds "$there/changed" >"$there/shown" 2>&1
    local status=$?
    [ "$status" -eq "$1" ] && grep -qxF "$2" "$there/shown" && return
    echo "bounds changed by '$3': ended with $status, not with $1 and the line '$2':"
    cat "$there/shown"
    exit 1
}
tools/speed bounds --figures "$there/figures" --bounds "$there/bounds" --write >/dev/null || exit 1
name='queue, take, 1 waits'
line=$(grep -nx " *[0-9]*  $name" "$there/bounds") || exit 1
n=${line%%:*} count=$(awk -v n="$n" 'NR == n { print $1 }' "$there/bounds") all=$(grep -vc '^#' "$there/bounds")
told 0 "$all figures: $all at their bound, 0 below, 0 above" ''
told 0 "below its bound: $name: $count, the bound is $((count + 1))" "${n}s/$count/$((count + 1))/"
told 1 "above its bound: $name: $count, the bound is $((count - 1))" "${n}s/$count/$((count - 1))/"
told 1 "a figure without a bound: $name: $count" "${n}d"
told 1 "a bound without a figure: no such call" '$a 7  no such call'
told 1 "tools/speed: $there/changed: line $((n + 1)) names '$name' once more" "${n}p"
told 1 "tools/speed: $there/changed: line $n is not a number and a name: '$name'" "${n}s/.*/$name/"

# The page of help, and words that are none.
tools/speed --help | grep -q 'tools/speed bounds --write' || { echo "tools/speed --help does not name all commands"; exit 1; }
for words in bound 'check seven' 'figures --write' '--figures'; do
    tools/speed $words >/dev/null 2>"$there/shown"
    [ $? -eq 2 ] && [ "$(wc -l <"$there/shown")" -eq 1 ] || { echo "tools/speed $words: not ended with 2 and one line: $(cat "$there/shown")"; exit 1; }
done
echo "ok"
