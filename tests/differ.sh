#!/bin/sh
# Compares a judging program and the library with an independent paper (tests/differ/) on made books, streams and fields, then checks that planted
# faults are found.
# Usage: tests/differ.sh [JUDGE [LIBRARY]]; where none is named, JUDGE is target/bin/judge and LIBRARY is target/staticlib/libfieldtext.a of
# the repository that this file stands in.
# Exit status 0 where nothing differs and every planted fault is found, or where rustc is not installed; else 1 or above.
set -u
unset CDPATH
root=$(cd -- "$(dirname -- "$0")/.." && pwd -P) || exit 2
judge=${1:-$root/target/bin/judge}
library=${2:-$root/target/staticlib/libfieldtext.a}
if ! command -v rustc >/dev/null 2>&1; then
    echo 'differ: skipped, rustc is not installed'
    exit 0
fi
if ! { [ -f "$judge" ] && [ -x "$judge" ]; }; then
    printf 'differ: no program %s; build it first\n' "$judge" >&2
    exit 2
fi
if ! { [ -f "$library" ] && [ -r "$library" ]; }; then
    printf 'differ: no library %s; build it first\n' "$library" >&2
    exit 2
fi
case $library in /*) ;; *) library=$PWD/$library ;; esac
made=
trap '[ -z "$made" ] || rm -rf -- "$made"' EXIT
trap 'exit 130' HUP INT TERM
out=$root/target/differ
if ! { mkdir -p -- "$out" && [ -w "$out" ]; } 2>/dev/null; then
    made=$(mktemp -d) || exit 2
    out=$made
fi
rustc -O --edition 2021 -C "link-arg=$library" -o "$out/differ" "$root/tests/differ/main.rs" || exit 2
"$out/differ" "$judge" || exit
"$out/differ" "$judge" --plants
