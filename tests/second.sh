#!/usr/bin/env bash
# The second program, written apart from documents 01 and 02 alone: its own tests. Its build goes below target/, which git ignores.
set -u
CARGO_TARGET_DIR=$PWD/target/cargo cargo test --offline --quiet --manifest-path second/program/Cargo.toml || exit 1
echo "ok"
