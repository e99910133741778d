#!/usr/bin/env bash
# A write that fails is not the end of the bench program's output: what stands in the buffers after it comes, and the status is 0.
# The write that fails is made by a library in front of the C library's.
set -u
there=$(mktemp -d) || exit 1
trap 'rm -rf "$there"' EXIT
words=$(tools/run --command bench) || exit 1
mapfile -t command <<<"$words"
gcc -O2 -shared -fPIC -o "$there/fails.so" -x c - <<'C' || exit 1
#define _GNU_SOURCE
#include <errno.h>
#include <stdlib.h>
#include <sys/syscall.h>
#include <unistd.h>
/* The write to standard output that FAILS names, counted from 1, fails. */
ssize_t write(int file, const void *bytes, size_t size)
{
    static int done;
    if (file == 1 && ++done == atoi(getenv("FAILS"))) {
        errno = EIO;
        return -1;
    }
    return syscall(SYS_write, file, bytes, size);
}
C
python3 - "$there/fails.so" "${command[@]}" <<'P' || exit 1
import os, subprocess, sys
library, command = sys.argv[1], sys.argv[2:]
# 16 Rx frames on one node, and 10,000 ticks: a line of 37 bytes for each, so six buffers or more
plan = bytes([1, 0, 2, 0]) + b''.join(bytes([4, 0, 1, n, 8, 1, 1, 1, 0, 0, 3]) for n in range(16))
given = len(plan).to_bytes(2, 'big') + plan + bytes([17]) * 10000

def shown(fails):
    run = subprocess.run(command, input=given, capture_output=True, timeout=60, env={**os.environ, 'LD_PRELOAD': library, 'FAILS': str(fails)})
    if run.returncode != 0 or run.stderr:
        sys.exit(f'write {fails} failed: ended with {run.returncode}: {run.stderr.decode()}')
    return run.stdout

whole = shown(0)
first = len(b'plan ok 1 0 16\n')
if whole[:first] != b'plan ok 1 0 16\n' or whole.count(b'\n') != 10001:
    sys.exit('not the output that was expected')
lost = 0
for fails in range(1, 8):
    rest = shown(fails)
    gone = len(whole) - len(rest)
    at = 0 if fails == 1 else first + lost
    if not 0 < gone <= 65536 or rest != whole[:at] + whole[at + gone:] or whole[at + gone - 1] != 10:
        sys.exit(f'write {fails} failed: {len(rest)} of {len(whole)} bytes came, and not all but whole lines of one buffer')
    lost += gone if fails > 1 else 0
print('ok: of', len(whole), 'bytes all came but those of the write that failed')
P
