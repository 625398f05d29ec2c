# What ./judge and ./field share: how they end, their temporary folder, and the build of their program by rt. Sourced by each, with `program` set to
# the program's name and `root` to the repository's folder.
# shellcheck shell=sh disable=SC2154 # program and root are set by the caller

child=
folder=

# removes what was made, and ends
leave() {
    trap '' HUP INT PIPE TERM
    [ -z "$folder" ] || rm -f -- "$folder/begun"
    if [ -n "$child" ]; then
        kill "$child" 2>/dev/null
        wait "$child" 2>/dev/null
    fi
    [ -z "$folder" ] || rm -rf -- "$folder"
    trap - EXIT
    exit "$1"
}

fail() {
    printf '%s: %s\n' "$program" "$1" >&2
    leave 2
}

# can_read WHAT NAME: the file is there and can be read
can_read() {
    if [ -d "$2" ]; then
        fail "the $1 is a folder, not a file: $2"
    elif [ ! -e "$2" ]; then
        fail "there is no such $1: $2"
    elif [ ! -r "$2" ]; then
        fail "the $1 cannot be read: $2"
    fi
}

# makes the temporary folder, with the folder `run` in it that the program runs in; it is removed however the script ends
make_folder() {
    trap 'leave $?' EXIT
    trap 'leave 129' HUP
    trap 'leave 130' INT
    trap 'leave 141' PIPE
    trap 'leave 143' TERM
    folder=$(mktemp -d -- "${TMPDIR:-/tmp}/$program.XXXXXX") || fail "no temporary folder could be made"
    folder=$(cd -- "$folder" && pwd -P)
    mkdir -- "$folder/run" || fail "no temporary folder could be made"
}

# the program's crates by the dependencies in crates.txt, in the order in which rt builds them: each after those that it uses
crates() {
    awk -F': *' -v program="$program" '
        function visit(name, names, count, i) {
            if (name in seen) return
            seen[name] = 1
            count = split(needs[name], names, " ")
            for (i = 1; i <= count; i++) visit(names[i])
            if (name in listed) print name
        }
        !/^#/ { split($1, words, " "); needs[words[1]] = $2; listed[words[1]] = 1 }
        END { visit(program) }' crates.txt 2>/dev/null
}

# the folders of their sources
sources() {
    crates | while read -r name; do
        for part in src specs proofs; do
            [ ! -d "crates/$name/$part" ] || printf '%s\n' "crates/$name/$part"
        done
    done
}

# newest FILE: nothing of the sources is newer
newest() {
    # shellcheck disable=SC2046 # names of crates hold no blanks
    [ -z "$(find crates.txt $(sources) -type f -newer "$1" -print 2>/dev/null | head -n 1)" ]
}

# says on standard error which crate is being proved, and the seconds since the first, until $folder/begun is gone: a signal that comes while the
# shell is still dividing is lost
progress() {
    names=$(crates)
    total=$(printf '%s\n' "$names" | wc -l)
    begun=$(date +%s)
    told=' '
    while [ -e "$folder/begun" ] && kill -0 $$ 2>/dev/null; do
        # rt writes such a line where it begins to prove a crate; of one that it has proved before it writes none
        for name in $(sed -n 's/^rt: chose --jobs [0-9]* for \([a-z0-9_]*\)$/\1/p' "$folder/log"); do
            case $told in *" $name "*) continue ;; esac
            told="$told$name "
            place=$(printf '%s\n' "$names" | grep -n -x -e "$name" | cut -d : -f 1)
            printf '%s: proving crate %d of %d, %s (%d s)\n' "$program" "$place" "$total" "$name" "$(($(date +%s) - begun))" >&2
        done
        sleep 1
    done
}

# builds the program where need be; the repository is the folder that this runs in
build() {
    if [ -f "target/bin/$program" ] && newest "target/bin/$program"; then
        return
    fi
    command -v rt >/dev/null 2>&1 || fail "target/bin/$program must be built, and rt, of the Rattle kit, is not on the path"
    printf '%s: rt run in crates/%s proves and builds the program; the first time this takes some minutes\n' "$program" "$program" >&2
    : >"$folder/begun"
    : >"$folder/log"
    progress &
    child=$!
    # once the program is built, rt runs it as well: here without input, and in a folder that has no file for it
    (cd -- "crates/$program" && exec rt run) >"$folder/log" 2>&1 </dev/null
    rm -f -- "$folder/begun"
    kill "$child" 2>/dev/null
    wait "$child" 2>/dev/null
    child=
    # the exit status may be the program's: this line says that it is built
    if ! grep -q "^rt: running out/$program;" "$folder/log"; then
        cat -- "$folder/log" >&2
        fail "rt run in crates/$program failed; its log is above"
    fi
    if ! { mkdir -p target/bin && cp -- "crates/$program/out/$program" "target/bin/$program.new" && mv -f -- "target/bin/$program.new" "target/bin/$program"; }; then
        fail "rt run gave no crates/$program/out/$program that could be copied to target/bin"
    fi
}

# runs the program in $folder/run, with what descriptor 3 reads as its input and its words for people to descriptor 4, and sets `status` to its exit
# status
run() {
    cd -- "$folder/run" || fail "the temporary folder cannot be entered"
    # not in the foreground, so that a signal to this script is heard at once and ends the program
    "$root/target/bin/$program" <&3 2>&4 3<&- 4>&- &
    child=$!
    exec 3<&- 4>&-
    wait "$child"
    status=$?
    child=
}
