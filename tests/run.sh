#!/usr/bin/env bash
# tools/run starts a proved program, passes on what it writes, prints its command, and refuses what is no program. Where it must prove
# first, it says so in a few lines and keeps the rest in a log.
set -u
fail() { echo "$1"; exit 1; }
tools/run cases 2>/dev/null | cmp - crates/cases/stdout || exit 1
words=$(tools/run --command cases 2>/dev/null) || fail "no command was printed"
mapfile -t command <<<"$words"
"${command[@]}" | cmp - crates/cases/stdout || exit 1
tools/run no_such_program 2>/dev/null && fail "a program that is not there was run"
tools/run 2>/dev/null && fail "no program was run"

# A copy with a program that is not proved yet, and a stand-in for rt, which prints as much as rt and ends with STATUS.
copy=$(mktemp -d) || exit 1
trap 'rm -rf "$copy"' EXIT
mkdir -p "$copy/crates/bench/src" "$copy/bin" && cp -r tools "$copy" && touch -d '1 hour ago' "$copy/crates/bench/src/main.rt" || exit 1
cat >"$copy/bin/rt" <<'END'
#!/bin/sh
for i in 1 2 3; do echo "rt: chose --jobs 2 for crate_$i"; seq -f "fn number_%g: proved" 100; done
name=$(basename "$PWD")
[ "$STATUS" -eq 0 ] || { echo "rt: $name is not proved" >&2; exit "$STATUS"; }
mkdir -p out && { [ -f "out/$name" ] || { printf '#!/bin/sh\n' >"out/$name"; chmod +x "out/$name"; }; }
END
chmod +x "$copy/bin/rt"
# proves STATUS LINES TOOL ..: with rt ending so, the tool ends with 0 or 1 and tells as many lines.
proves() {
    local status=$1 lines=$2 got
    shift 2
    (cd "$copy" && STATUS=$status PATH=$copy/bin:$PATH "$@") >/dev/null 2>"$copy/told"; got=$?
    [ "$got" -eq $((status != 0)) ] && [ "$(wc -l <"$copy/told")" -eq "$lines" ] || fail \
        "rt ends with $status: $* ended with $got and told: $(cat "$copy/told")"
}
log=target/prove-bench.log
proves 3 4 tools/run --command bench
grep -qF "$copy/$log" "$copy/told" && grep -q 'bench is not proved' "$copy/told" || fail "a failure does not name the log: $(cat "$copy/told")"
[ "$(wc -l <"$copy/$log")" -eq 304 ] || fail "the log of a failure is not whole"
printf '0100\nevents\n' >"$copy/plan.txt"
proves 3 4 tools/bench plan.txt
proves 0 2 tools/run --command bench
grep -q ' proving crate_1 crate_2 crate_3$' "$copy/told" || fail "no progress was told: $(cat "$copy/told")"
[ "$(wc -l <"$copy/$log")" -eq 303 ] || fail "the log is not whole"
proves 0 0 tools/run --command bench
touch -d '1 hour ago' "$copy/crates/bench/out/bench"; touch "$copy/crates/bench/src/main.rt"
proves 0 2 tools/run --command bench
proves 0 0 tools/run --command bench
mkdir "$copy/no-rt" && ln -s "$(command -v dirname)" "$copy/no-rt"
told=$(PATH=$copy/no-rt tools/run bench 2>&1 </dev/null); status=$?
[ "$status" -eq 2 ] && [ "$told" = "tools/prove: the Rattle kit's rt is not on the PATH" ] || fail "without rt: $status, $told"
echo "ok"
