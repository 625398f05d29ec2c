#!/bin/sh
# Compiles the measurement with the peers that are installed, and runs it: bench/README.md.
set -u
unset CDPATH

usage() {
    cat <<'END'
usage: bench/run.sh [options] [MAP.json ...]

Measures the field text reader beside other readers of JSON. MAP.json is canada.json, citm_catalog.json or twitter.json; without any, those in
target/maps are taken.

  --quick           small inputs and few rounds: some seconds
  --only SECTION    speed or scaling
  --rounds N        rounds of each table (7)
  --megabytes N     length of the made streams (20)
  --seed N          seed of the made streams (1)
  --archive FILE    the library (target/staticlib/libfieldtext.a, made by tools/library.sh)
  --markdown FILE   writes the tables to a file, too

Results go to target/bench/results.tsv. CXX names the compiler (c++).
END
}

fail() {
    printf 'bench: %s\n' "$1" >&2
    exit 2
}

here=$(cd -- "$(dirname -- "$0")" && pwd -P) || exit 2
root=$(dirname -- "$here")
out=$root/target/bench
archive=$root/target/staticlib/libfieldtext.a
compiler=${CXX:-c++}
flags='-std=c++17 -O3 -DNDEBUG -Wall -Wextra'
options=
markdown=

# has_header NAME: the compiler finds it
has_header() {
    printf '#include <%s>\n' "$1" | "$compiler" -std=c++17 -E -x c++ - >/dev/null 2>&1
}

# compile FILE.cpp OBJECT: where the object is missing or older
compile() {
    if [ -e "$2" ] && [ -z "$(find "$1" "$here/bench.hpp" "$root/include/fieldtext.h" "$here/run.sh" -newer "$2")" ]; then
        return 0
    fi
    # shellcheck disable=SC2086 # flags are words
    "$compiler" $flags -c -o "$2" "$1" || rm -f -- "$2"
}

# peer NAME HEADER LIBRARY PACKAGE: takes part where its header is found
objects=
libraries=
peer() {
    if has_header "$2"; then
        compile "$here/peers/$1.cpp" "$out/$1.o" &
        objects="$objects $1.o"
        libraries="$libraries $3"
    else
        printf 'skipped: %s, as <%s> is not installed (Debian: %s)\n' "$1" "$2" "$4"
    fi
}

build() {
    [ -f "$archive" ] || fail "there is no $archive; make it with: tools/library.sh"
    command -v "$compiler" >/dev/null 2>&1 || fail "there is no compiler $compiler"
    peer yajl yajl/yajl_parse.h -lyajl libyajl-dev
    peer rapidjson rapidjson/reader.h '' rapidjson-dev
    peer boost boost/json/basic_parser_impl.hpp -lboost_json libboost-json-dev
    peer simdjson simdjson.h -lsimdjson libsimdjson-dev
    for name in ours bench report inputs speed scaling moments sizes; do
        compile "$here/$name.cpp" "$out/$name.o" &
        objects="$objects $name.o"
    done
    wait
    # shellcheck disable=SC2086 # objects and libraries are words
    (cd "$out" && "$compiler" -Wl,-z,now -o bench $objects "$archive" $libraries) || fail 'the measurement could not be built'
}

# absolute NAME: the same file from any folder
absolute() {
    case $1 in
    /*) printf '%s\n' "$1" ;;
    *) printf '%s/%s\n' "$PWD" "$1" ;;
    esac
}

# derived MAP NAME: the stream of records that is cut out of a map, in target/bench
derived() {
    if ! command -v python3 >/dev/null 2>&1; then
        printf 'skipped: the records of %s, as python3 is not installed\n' "$1" >&2
        return 1
    fi
    python3 "$here/derive.py" "$2" "$1" "$out/$2.jsons"
}

while [ $# -gt 0 ]; do
    case $1 in
    -h | --help) usage && exit 0 ;;
    --quick) options="$options --quick" ;;
    --only | --rounds | --megabytes | --seed | --archive | --markdown)
        [ $# -ge 2 ] || fail "$1 wants a word behind it"
        case $1 in
        --archive) archive=$(absolute "$2") ;;
        --markdown) markdown=$(absolute "$2") ;;
        *) options="$options $1 $2" ;;
        esac
        shift
        ;;
    --) shift && break ;;
    -*) fail "unknown option $1 (see bench/run.sh --help)" ;;
    *) break ;;
    esac
    shift
done

mkdir -p -- "$out" || fail "cannot make $out"
build
if [ $# -eq 0 ]; then
    for map in canada citm_catalog twitter; do
        [ ! -f "$root/target/maps/$map.json" ] || set -- "$@" "$root/target/maps/$map.json"
    done
    [ $# -gt 0 ] || echo 'skipped: maps, as none is named and target/maps has none'
fi

# the maps become inputs: name, book, schema, file
count=$#
while [ "$count" -gt 0 ]; do
    map=$1
    shift
    count=$((count - 1))
    [ -f "$map" ] || fail "there is no file $map"
    books=$here/books
    case $(basename -- "$map") in
    canada.json)
        set -- "$@" --valid canada.json "$books/canada.txt" "$books/canada.schema.json" "$map"
        ;;
    citm_catalog.json)
        if derived "$map" citm; then
            set -- "$@" --valid 'citm_catalog.json, performances' "$books/citm.txt" "$books/citm.schema.json" "$out/citm.jsons"
        fi
        set -- "$@" --invalid citm_catalog.json "$books/citm.txt" - "$map"
        ;;
    twitter.json)
        if derived "$map" twitter; then
            set -- "$@" --valid 'twitter.json, regrouped' "$books/twitter.txt" "$books/twitter.schema.json" "$out/twitter.jsons"
        fi
        set -- "$@" --invalid twitter.json "$books/twitter.txt" - "$map"
        ;;
    *) fail "no book for $map: canada.json, citm_catalog.json and twitter.json have one" ;;
    esac
done
[ -z "$markdown" ] || set -- --markdown "$markdown" "$@"
text=$(size -t "$archive" 2>/dev/null | awk 'END { print $1 + 0 }')
# shellcheck disable=SC2086 # options are words
"$out/bench" $options --results "$out/results.tsv" --text-bytes "${text:-0}" "$@"
