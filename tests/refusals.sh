#!/usr/bin/env bash
# Each example plan of docs/REFUSALS.md is refused by the second program with the number and at the record that the page says.
set -u
CARGO_TARGET_DIR=$PWD/target/cargo cargo build --offline --quiet --manifest-path second/program/Cargo.toml || exit 1
python3 - target/cargo/debug/second <<'P' || exit 1
import re, subprocess, sys
tried = 0
for line in open('docs/REFUSALS.md', encoding='utf-8'):
    cells = [c.strip() for c in line.split('|')]
    number = re.fullmatch(r'(\d+)(?: on LIN| with 29 bits)?', cells[1]) if len(cells) >= 7 else None
    if not number or not cells[4].startswith('`'):
        continue
    plan = bytes.fromhex(cells[4].strip('`'))
    said = f'plan refused {number[1]} {cells[5]}\n'
    got = subprocess.run([sys.argv[1]], input=len(plan).to_bytes(2, 'big') + plan, capture_output=True).stdout.decode()
    tried += 1
    if got != said:
        sys.exit(f'refusal {cells[1]}: the page says {said!r}, the second program {got!r}')
if tried != 17:
    sys.exit(f'{tried} examples, and not 17')
print(f'{tried} examples as the page says')
P
