#!/bin/sh
# build.sh OUTDIR          builds OUTDIR/litefs-vfs.so
# build.sh --test OUTDIR   builds OUTDIR/litefs-vfs-test.so, which ends a process at a message that LITEFS_DIE names
# Needs gcc and SQLite's headers (Debian: gcc libsqlite3-dev).
set -eu
name=litefs-vfs; test=
if [ "${1:-}" = --test ]; then name=litefs-vfs-test; test=-DLITEFS_TEST; shift; fi
[ $# -eq 1 ] || { sed -n '2,4s/^# //p' "$0" >&2; exit 2; }
mkdir -p "$1"
exec ${CC:-gcc} -std=gnu11 -O2 -g -fPIC -shared -fvisibility=hidden -pthread \
  -Wall -Wextra -Werror -Wshadow -Wstrict-prototypes -Wmissing-prototypes -Wconversion $test \
  -o "$1/$name.so" "$(dirname "$0")"/*.c -ldl
