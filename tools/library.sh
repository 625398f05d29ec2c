#!/bin/sh
# Proves and builds the library for C and Rust: target/staticlib/libfieldtext.a of the repository that this file stands in. What rt says goes to
# standard output; the exit status is rt's.
set -eu
unset CDPATH
cd -- "$(dirname -- "$0")/.."
(cd crates/fieldtext && rt lib)
mkdir -p target/staticlib
cp crates/fieldtext/out/libfieldtext.a target/staticlib/libfieldtext.a.new
mv -f target/staticlib/libfieldtext.a.new target/staticlib/libfieldtext.a
