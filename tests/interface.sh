#!/usr/bin/env bash
# The C interface, from the proved static library: the header says what the Rattle source says, the examples print their lines, and every
# field of every struct and every refusal comes out right. Programs run natively, on x86-64.
set -u
python3 tests/header.py || exit 1
# the header alone, as C and as C++: with the headers of another compiler, and with the stand-ins of tools/include
strict='-Wall -Wextra -Wpedantic -Werror -fsyntax-only'
kit=${RATTLE_HOME:-$(dirname "$(dirname "$(readlink -f "$(command -v rt)")")")}
clang="$kit/toolchain/bin/clang --target=x86_64-unknown-linux-gnu $strict -nostdinc -isystem tools/include -I include"
gcc $strict -std=c99 -ffreestanding -I include -x c - <<<'#include "gateway.h"' || { echo "the header is refused as C"; exit 1; }
$clang -std=c++11 -x c++ - <<<'#include "gateway.h"' || { echo "the header is refused as C++"; exit 1; }
for file in examples/c/*.c tests/c/*.c; do
    $clang -std=c99 "$file" || { echo "$file is refused as C"; exit 1; }
done

for example in listing driver pumps; do
    tools/run-c examples/c/$example.c 2>/dev/null | cmp - examples/c/$example.txt || { echo "examples/c/$example.c does not print its lines"; exit 1; }
done
python3 - <<'P' || { echo "docs/DRIVER.md shows what examples/c/driver.c does not have"; exit 1; }
import re, sys
blocks = re.findall(r'^```c\n(.*?)^```$', open('docs/DRIVER.md', encoding='utf-8').read(), re.S | re.M)
code = open('examples/c/driver.c', encoding='utf-8').read()
sys.exit(not blocks or not all(block in code for block in blocks))
P

# the page's examples of refusals 1 to 9, as hex, number and record
mapfile -t refused < <(sed -nE 's/^\| ([1-9])( on LIN| with 29 bits)? \|.*\| `([0-9a-f ]+)` \| ([0-9]+) \|$/\3;\1;\4/p' docs/REFUSALS.md | tr -d ' ' | tr ';' '\n')
[ ${#refused[@]} -eq 51 ] || { echo "docs/REFUSALS.md: ${#refused[@]} words of examples, and not 51"; exit 1; }
tools/run-c tests/c/answers.c "${refused[@]}" || exit 1

# a marked area that no calls here left
tools/run-c tests/c/garbage.c || exit 1

# ordinary C: with the compiler that is there, and with the kit's where the others are none
there=$(mktemp -d) || exit 1
trap 'rm -rf "$there"' EXIT
fail() { echo "$1: $(cat "$there/told")"; exit 1; }
# stand_in NAME LINE ..: a command that is found before all others
stand_in() { local name=$1; shift; printf '%s\n' '#!/bin/sh' "$@" >"$there/bin/$name" && chmod +x "$there/bin/$name"; }
# builds COMPILER FILE ARGUMENT ..: the program runs, and this compiler is the one that is named
builds() {
    local compiler=$1
    shift
    tools/run-c --verbose "$@" >"$there/shown" 2>"$there/told" || fail "$1 failed"
    [[ $(head -n 1 "$there/told") == "tools/run-c: the compiler is "$compiler ]] || fail "the compiler is not $compiler"
}
mkdir "$there/bin"
kits="the Rattle kit's clang, with the few headers of tools/include"
for round in theirs ours; do
    builds '*' tests/c/ordinary.c 'two words'
    [ "$(cat "$there/shown")" = '2 two words 0 -9223372036854775808' ] && [ "$(tail -n +2 "$there/told")" = marked ] || fail "another output"
    tools/run-c tests/c/ordinary.c 2>&1 >/dev/null | grep -q 'the compiler is' && fail "the compiler was named, unasked"
    PATH=$there/bin:$PATH
    for name in cc gcc clang; do stand_in "$name" 'exit 1'; done
done
builds "$kits" tests/c/ordinary.c
echo 'int main(void) { return nothing; }' >"$there/wrong.c"
tools/run-c "$there/wrong.c" >/dev/null 2>"$there/told"; [ $? -eq 1 ] || fail "a wrong program did not end with 1"
[ "$(tail -n 1 "$there/told")" = "tools/run-c: the compiler is $kits" ] || fail "a failure does not name the compiler"

# the first compiler that can make a program: not one for another machine, nor one without C's headers
stand_in cc 'echo aarch64-linux-gnu'
stand_in gcc '[ "$1" != -dumpmachine ] || { echo x86_64-linux-gnu; exit; }' 'echo no stdio.h >&2; exit 1'
stand_in clang '[ "$1" != -dumpmachine ] || { echo x86_64-linux-gnu; exit; }' 'for word; do program=$word; done; [ "$program" != - ] || exit 0' \
    'printf "#!/bin/sh\necho built with %s, run with \$1\n" "$*" >"$program"; chmod +x "$program"'
builds clang tests/c/ordinary.c 'two words'
grep -q -- "-I $PWD/include tests/c/ordinary.c $PWD/target/staticlib/libinterface.a .* run with two words" "$there/shown" || { cat "$there/shown"; exit 1; }
stand_in clang '[ "$1" != -dumpmachine ] || { echo x86_64-linux-gnu; exit; }' 'for word; do program=$word; done; [ "$program" = - ]'
tools/run-c tests/c/ordinary.c >/dev/null 2>"$there/told"; [ $? -eq 1 ] || fail "a compiler that failed did not end it with 1"
[ "$(cat "$there/told")" = "tools/run-c: the compiler is clang" ] || fail "a failure does not name the compiler"
echo "ordinary C: ok"
