#!/bin/sh
# Compiles the measurement of fields with the libraries of geometry that are installed, and runs it: bench/README.md.
set -u
unset CDPATH

usage() {
    cat <<'END'
usage: bench/field.sh [options]

Measures the calls for fields beside the same test written by hand in C++, and beside libraries of geometry.

  --rounds N        rounds of each table (9)
  --archive FILE    the library (target/staticlib/libfieldtext.a, made by tools/library.sh)
  --markdown FILE   writes the tables to a file, too

Results go to target/bench/field.tsv. CXX names the compiler (c++).
END
}

fail() {
    printf 'bench: %s\n' "$1" >&2
    exit 2
}

here=$(cd -- "$(dirname -- "$0")" && pwd -P) || exit 2
root=$(dirname -- "$here")
out=$root/target/bench
archive=$root/target/staticlib/libfieldtext.a
compiler=${CXX:-c++}
rounds=9
markdown=

while [ $# -gt 0 ]; do
    case $1 in
    -h | --help) usage && exit 0 ;;
    --rounds | --archive | --markdown)
        [ $# -ge 2 ] || fail "$1 wants a word behind it"
        case $1 in
        --rounds) rounds=$2 ;;
        --archive) archive=$2 ;;
        --markdown) markdown=$2 ;;
        esac
        shift
        ;;
    *) fail "unknown argument $1 (see bench/field.sh --help)" ;;
    esac
    shift
done
case $rounds in '' | *[!0-9]* | 0) fail '--rounds wants a number from 1 on' ;; esac
[ -f "$archive" ] || fail "there is no $archive; make it with: tools/library.sh"
command -v "$compiler" >/dev/null 2>&1 || fail "there is no compiler $compiler"

# peer NAME HEADER LIBRARY PACKAGE: takes part where its header is found
sources=
libraries=
peer() {
    if printf '#include <%s>\n' "$2" | "$compiler" -std=c++17 -E -x c++ - >/dev/null 2>&1; then
        sources="$sources peers/$1.cpp"
        libraries="$libraries $3"
    else
        printf 'skipped: %s, as <%s> is not installed (Debian: %s)\n' "$1" "$2" "$4"
    fi
}

peer geos geos/algorithm/RayCrossingCounter.h -lgeos libgeos++-dev
peer boost_geometry boost/geometry.hpp '' libboost-dev
mkdir -p -- "$out" || fail "cannot make $out"
case $archive in /*) ;; *) archive=$PWD/$archive ;; esac
# shellcheck disable=SC2086 # sources and libraries are words
(cd "$here" && "$compiler" -std=c++17 -O3 -DNDEBUG -Wall -Wextra -Wl,-z,now -o "$out/field" \
    field.cpp track.cpp field_by_hand.cpp inputs.cpp report.cpp $sources "$archive" $libraries) || fail 'the measurement could not be built'
"$out/field" "$rounds" "$markdown" "$out/field.tsv"
