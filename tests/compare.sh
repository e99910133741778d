#!/usr/bin/env bash
# The proved bench program and the second program say the same on generated plans and events, its lines keep what Tickets 8 and 14 say, and
# every row of the table is met.
# SEED=.. CASES=.. tests/compare.sh runs others; BENCH, a command line, stands in for the proved program.
set -u
export CARGO_TARGET_DIR=$PWD/target/cargo
cargo build --offline --release --quiet --manifest-path second/compare/Cargo.toml || exit 1
# Its own tests: it finds and prints a difference, a fix that is too old and a queue that breaks its order, and its table counts what the lines say.
# Those of planted mistakes take minutes.
cargo test --offline --release --quiet --manifest-path second/compare/Cargo.toml --test generator --test ages --test lin --test queues --test formats \
    --test command_line >/dev/null || exit 1
if [ -n "${BENCH-}" ]; then
    words=$(xargs printf '%s\n' <<<"$BENCH") || exit 1
else
    # The command itself, since tools/run would cost a shell for each case.
    words=$(tools/run --command bench) || exit 1
fi
mapfile -t command <<<"$words"
target/cargo/release/compare --cases "${CASES:-3000}" --seed "${SEED:-2026}" --jobs 2 -- "${command[@]}"
