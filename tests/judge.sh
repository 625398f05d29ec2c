#!/bin/sh
# Tests ./judge and target/bin/judge of the repository that this file stands in, from outside: what they print, and how they end.
# The last line is a count; exit status 1 where anything failed. Needs coreutils, awk, find and python3; with a C compiler it tries failing reads too.
set -u
unset CDPATH
wrapper=judge
# shellcheck source=tests/calls.sh
. "$(dirname -- "$0")/calls.sh"

judge=$root/judge
day=$root/examples/day
program=$root/target/bin/judge

# ---- the example day, and the build that it may need

call "$judge"
if [ "$status" != 0 ] && [ ! -x "$program" ]; then
    cat -- "$work/err"
    echo "the program cannot be built: 0 passed, 1 failed"
    exit 1
fi
call "$judge"
prints 'the example day' 0 'verdict number place' 'valid 0 0' 'invalid 0 0' 'refused 14 8' 'refused 11 3'
call sh "$judge" "$day/book.txt" "$day/day.jsons"
prints 'the example day, its files named' 0 'verdict number place' 'valid 0 0' 'invalid 0 0' 'refused 14 8' 'refused 11 3'
tidy 'after the example day'

call "$judge" --help
if [ "$status" = 0 ] && grep -q '^usage:' "$work/out" && [ ! -s "$work/err" ]; then ok; else bad 'help'; fi
cp "$work/out" "$work/help"
call "$judge" -h
same 'both words for help' "$work/help" "$work/out"

# ---- a user's own files, from another folder

cd -- "$work/user" || exit 1
cat >'my book.txt' <<'END'
rule form state key value next
0 obj 0 tanks r1 1
0 obj 1 - end -
1 arr 0 - num 0
1 arr 0 - end -
END
printf 'noise\036{"tanks":[1,2.5]}\036{"tanks":1}\n\036{"tanks":[1,2.5' >'my stream.jsons'
cp 'my book.txt' ./-book
cp 'my stream.jsons' ./-stream
cp 'my book.txt' ./-h
wanted='verdict number place
refused 15 0
valid 0 0
invalid 0 0
refused 14 15'
call "$judge" 'my book.txt' 'my stream.jsons'
prints 'names with spaces, from another folder' 0 "$wanted"
call "$judge" -book -stream
prints 'names that begin with -' 0 "$wanted"
call "$judge" -- -h -stream
prints 'a book named -h behind --' 0 "$wanted"
call "$judge" ./-h -stream
prints 'a book named ./-h' 0 "$wanted"
call "$judge" 'my book.txt' <'my stream.jsons'
prints 'standard input' 0 "$wanted"
call "$judge" 'my book.txt' - <'my stream.jsons'
prints 'standard input named -' 0 "$wanted"
ln -s -- "$judge" link
call ./link 'my book.txt' 'my stream.jsons'
prints 'called by a link' 0 "$wanted"
CDPATH=$root
export CDPATH
call "$judge" 'my book.txt' 'my stream.jsons'
prints 'with CDPATH set' 0 "$wanted"
unset CDPATH
mkfifo fifo
cat 'my stream.jsons' >fifo &
call "$judge" 'my book.txt' fifo
prints 'a stream from a fifo' 0 "$wanted"
wait
rest=$(printf 'left alone' | { "$judge" 'my book.txt' 'my stream.jsons' >/dev/null; cat; })
if [ "$rest" = 'left alone' ]; then ok; else bad 'standard input is read where a file is given'; fi
ls -A >"$work/names"
printf '%s\n' -book -h -stream fifo link 'my book.txt' 'my stream.jsons' | LC_ALL=C sort >"$work/want"
LC_ALL=C sort "$work/names" >"$work/got"
same 'the user'"'"'s folder is left as it was' "$work/want" "$work/got"
tidy 'after the files of the user'

# ---- what cannot be read

call "$judge" missing.txt 'my stream.jsons'
says 'a missing book' 2 'missing.txt'
call "$judge" 'my book.txt' missing.jsons
says 'a missing stream' 2 'missing.jsons'
call "$judge" '' 'my stream.jsons'
says 'an empty name' 2 'book'
call "$judge" "$work" 'my stream.jsons'
says 'a folder for a book' 2 'folder'
call "$judge" 'my book.txt' "$work"
says 'a folder for a stream' 2 'folder'
call "$judge" 'my book.txt' 'my stream.jsons' more
says 'too many arguments' 2 'too many'
if [ "$(id -u)" = 0 ]; then
    echo 'skipped: files that cannot be read, since root reads all'
else
    cp 'my book.txt' closed
    chmod 0 closed
    call "$judge" closed 'my stream.jsons'
    says 'a book that cannot be read' 2 'cannot be read'
    call "$judge" 'my book.txt' closed
    says 'a stream that cannot be read' 2 'cannot be read'
    rm -f closed
fi
tidy 'after files that cannot be read'

# ---- refused books

# refused NAME BOOK NUMBER LINE
refused() {
    call "$judge" "$2" "$day/day.jsons"
    prints "$1" "$status" 'number line' "$3 $4"
}
: >empty.txt
refused 'an empty book' empty.txt 1 0
refused 'an empty device as book' /dev/null 1 0
refused 'an endless book' /dev/zero 1 0
printf 'rule form state key value next\n0 arr 0 - end\n' >five.txt
refused 'a malformed line' five.txt 3 2
printf 'rule form state key value next\n0 obj 0 a int 0\n' >loop.txt
refused 'keys not ascending' loop.txt 9 2
python3 -c '
names = b"rule form state key value next\n"
open("limit.txt", "wb").write(names + b"0 arr 0 - end -\n1" + b"0" * (65536 - 31 - 16 - 1 - 14) + b" arr 0 - end -")
open("over.txt", "wb").write(open("limit.txt", "rb").read() + b"\n")'
[ "$(wc -c <limit.txt)" -eq 65536 ] || bad 'the book at the limit has another length'
refused 'a book of 65,536 bytes without its last LF' limit.txt 3 3
refused 'a book of 65,537 bytes' over.txt 1 0
for book in "$root"/examples/broken/*.txt; do
    number=$(basename -- "$book")
    call "$judge" "$book" "$day/day.jsons"
    line=$(tail -n 1 -- "$work/out")
    prints "examples/broken/$number" "$status" 'number line' "${number%%-*} ${line#* }"
done

# ---- the program itself, without the wrapper

# alone: the program in a folder of its own, on standard input
alone() (
    cd -- "$work/run" && exec "$program"
)
direct() {
    alone >"$work/out" 2>"$work/err"
    status=$?
}
direct <"$day/day.jsons"
prints 'no book.txt' "$status" 'number line' '1 0'
mkdir "$work/run/book.txt"
direct <"$day/day.jsons"
prints 'a folder named book.txt' "$status" 'number line' '1 0'
rmdir "$work/run/book.txt"
# reads.so stands in front of the C library: files are read in pieces of 40 bytes, and after $READS reads every further one fails
cat >"$work/reads.c" <<'END'
#include <errno.h>
#include <stdlib.h>
#include <sys/syscall.h>
#include <unistd.h>
ssize_t read(int fd, void *bytes, size_t size) {
    static int reads;
    if (fd > 2 && reads++ >= atoi(getenv("READS"))) {
        errno = EIO;
        return -1;
    }
    return syscall(SYS_read, fd, bytes, fd > 2 && size > 40 ? 40 : size);
}
END
# reading READS: the program on the example day, its book.txt read so
reading() {
    (export READS="$1" LD_PRELOAD="$work/reads.so" && alone) <"$day/day.jsons" >"$work/out" 2>"$work/err"
    status=$?
}
if [ "$(uname -m)" = x86_64 ] && cc -shared -fPIC -o "$work/reads.so" "$work/reads.c" 2>/dev/null; then
    cp "$day/book.txt" "$work/run/book.txt"
    # the book has 166 bytes: the fifth read gives the last of them, the sixth says that the file ends
    for reads in 0 1 4 5; do
        reading $reads
        prints "a book whose reading fails after $reads reads" "$status" 'number line' '1 0'
    done
    reading 6
    prints 'a book read in small pieces' 0 'verdict number place' 'valid 0 0' 'invalid 0 0' 'refused 14 8' 'refused 11 3'
else
    echo 'skipped: errors in the middle of reading a book, since there is no C compiler for x86-64'
fi
cp five.txt "$work/run/book.txt"
direct </dev/null
direct_status=$status
prints 'a malformed book' "$status" 'number line' '3 2'
call "$judge" five.txt /dev/null
if [ "$status" = "$direct_status" ]; then ok; else bad 'the exit status of a refused book is not kept'; fi
cp "$day/book.txt" "$work/run/book.txt"
direct </dev/null
prints 'no input' 0 'verdict number place'
printf '\036\036\036' >rs
direct <rs
prints 'nothing but RS' 0 'verdict number place'
printf '\036\n\036' >lf
direct <lf
prints 'a record of one LF' 0 'verdict number place' 'refused 14 1'

# ---- the examples of the requirement, alone after an RS

# record VERDICT BYTES: as printf writes them
record() {
    # shellcheck disable=SC2059 # the record is written as a format
    printf "\\036$2" >one
    direct <one
    prints "the record $2" 0 'verdict number place' "$1"
}
record 'invalid 0 0' '{}'
record 'valid 0 0' '{"corners":[],"name":""}'
record 'invalid 0 0' '{"name":"","name":"","corners":[]}'
record 'valid 0 0' '{"n\\u0061me":"a","corners":[]}'
record 'valid 0 0' '{"corners":[[1.0,2]],"name":""}'
record 'valid 0 0' '{"corners":[[1,2]],"name":""}'
record 'invalid 0 0' '12'
record 'invalid 0 0' '1.0'
record 'refused 11 1' '01'
record 'refused 14 1' '-'
record 'refused 11 4' '"\\uDC00"'
record 'refused 11 2' '"\340\200'
record 'refused 11 3' 'nulx'
record 'refused 11 2' '{}x'
brackets=$(printf '%064d' 0 | tr 0 '[')
record 'refused 14 64' "$brackets"
record 'invalid 0 0' "${brackets}$(printf '%064d' 0 | tr 0 ']')"
record 'refused 12 64' "${brackets}["
record 'refused 11 64' "${brackets#?}{["
printf z >one
direct <one
prints 'a head' 0 'verdict number place' 'refused 15 0'

# ---- numbers as a corner: whole by their value, and not

for number in 7 -0 1.0 1e2 1.50e1 0e-5 100e-2 10e-1 0.0e-1 -0.0 1e-0 1E+2 100.0e-2 0.10e1 5e-000 1.5e18446744073709551616 0e-99999999999999999999; do
    record 'valid 0 0' "{\"corners\":[[0,$number]],\"name\":\"\"}"
done
for number in 15e-1 1.5 1.05e1 120e-2 0.01e1 10.50e0 10e-02 10e-4294967297 10e-18446744073709551617; do
    record 'invalid 0 0' "{\"corners\":[[0,$number]],\"name\":\"\"}"
done
# zeros EXPONENT: a corner of a 1 with 200,000 zeros and that exponent
zeros() { { printf '\036{"corners":[[0,1'; printf '%0200000d' 0; printf 'e%s]],"name":""}' "$1"; } >long; }
zeros -200000
direct <long
prints 'a 1 with 200,000 zeros and the exponent -200000' 0 'verdict number place' 'valid 0 0'
zeros -200001
direct <long
prints 'the same with the exponent -200001' 0 'verdict number place' 'invalid 0 0'
rm -f long

# ---- the worked books: what docs/ says of them

# lines NAME BOOK STREAM VERDICTS
lines() {
    call "$judge" "$root/examples/$2" "$root/examples/$3"
    # shellcheck disable=SC2086 # a word for each verdict
    set -- "$1" "$(cut -d ' ' -f 1,2 "$work/out" | tail -n +2 | sed 's/ 0$//; s/refused //' | tr '\n' ' ')" "$4 "
    if [ "$2" = "$3" ]; then ok; else bad "$1: $2"; fi
}
lines 'the field book' field/book.txt field/day.jsons '15 valid valid valid invalid invalid invalid invalid invalid 14 11 12'
lines 'the report book' report/book.txt report/week.jsons 'valid valid valid invalid invalid invalid 11 11 14'
lines 'the GeoJSON book' geojson/book.txt geojson/more.jsons 'valid valid invalid invalid invalid invalid invalid 11 14'

# ---- cut in pieces, and hostile bytes

cat >"$work/pieces.py" <<'END'
"""pieces.py SIZE FILE: writes the file in pieces of that many bytes, or of 1 to 50 where it is 0, with a pause after each"""
import os, random, sys, time
size, text = int(sys.argv[1]), open(sys.argv[2], 'rb').read()
rng, i = random.Random(5), 0
while i < len(text):
    n = size or rng.randrange(1, 51)
    os.write(1, text[i:i + n])
    i += n
    time.sleep(0.001)
END
cat >"$work/hostile.py" <<'END'
"""hostile.py BOOK STREAM ANSWER: random bytes from a fixed seed, and what the paper of crates/vectors_stream says to them"""
import random, sys
sys.dont_write_bytecode = True
sys.path.insert(0, sys.argv[4])
import calls
rng = random.Random(20270329)
book = open(sys.argv[1], 'rb').read()
tokens = [b'{', b'}', b'[', b']', b',', b':', b'"', b'"name"', b'"corners":', b'"n\\u0061me":', b'[[1,2]]', b'[1,2],', b'"\\ud83d', b'\\ude00"', b'12', b'-',
          b'.', b'e', b'true', b'nul', b' ', b'\n', b'\xf0\x9f\x9a\x9c', b'\xed\xa0\x80', b'{"corners":[[1,2],[3,', b'4]],"name":"', b'[' * 40, b']' * 40]
sound = b'{"name":"N","corners":[[1,2],[-3,4]]}'
out = bytearray()
for i in range(600):
    kind = rng.randrange(5)
    if kind == 0:
        out += bytes(rng.randrange(256) for _ in range(rng.randrange(40)))
    elif kind < 3:
        out += b''.join(rng.choice(tokens) for _ in range(rng.randrange(1, 9)))
    elif kind == 3:
        out += sound[:rng.randrange(len(sound) + 1)]
    else:
        text = bytearray(sound)
        text[rng.randrange(len(text))] = rng.randrange(256)
        out += text
    out += b'\x1e' * rng.randrange(1, 3)
open(sys.argv[2], 'wb').write(out)
with open(sys.argv[3], 'w') as answer:
    answer.write('verdict number place\n')
    for i, part in enumerate(bytes(out).split(b'\x1e')):
        if part:
            answer.write('%s %d %d\n' % calls.verdict(i == 0, part, 64, book))
END
python3 "$work/hostile.py" "$day/book.txt" "$work/hostile" "$work/answer" "$root/crates/vectors_stream" || bad 'no hostile stream'
alone <"$work/hostile" >"$work/whole"
same 'a hostile stream, against the paper' "$work/answer" "$work/whole"
for size in 0 4096; do
    python3 "$work/pieces.py" $size "$work/hostile" | alone >"$work/cut"
    same "a hostile stream in pieces of $size bytes (0: 1 to 50)" "$work/whole" "$work/cut"
done
cp "$root/examples/field/book.txt" "$work/run/book.txt"
alone <"$root/examples/field/day.jsons" >"$work/whole"
for size in 1 7 64; do
    python3 "$work/pieces.py" $size "$root/examples/field/day.jsons" | alone >"$work/cut"
    same "the field day in pieces of $size bytes" "$work/whole" "$work/cut"
done
python3 "$work/pieces.py" 1 "$day/day.jsons" | "$judge" "$day/book.txt" >"$work/cut"
"$judge" >"$work/whole"
same 'the example day in single bytes, through the wrapper' "$work/whole" "$work/cut"

# ---- the limit of length

cp "$day/book.txt" "$work/run/book.txt"
# padded BYTES: a sound text with blanks after it
padded() { python3 -c 'import sys; sys.stdout.write("\x1e" + "{\"corners\":[],\"name\":\"\"}".ljust(int(sys.argv[1])))' "$1" >long; }
padded 16777216
direct <long
prints 'a record of 16,777,216 bytes' 0 'verdict number place' 'valid 0 0'
padded 16777217
direct <long
prints 'a record one byte longer' 0 'verdict number place' 'refused 13 16777216'
rm -f long

# ---- the build, in a small repository with an rt of our own

mkdir -p "$work/repo/crates/judge/src" "$work/repo/crates/under/src" "$work/repo/crates/beside/src" "$work/repo/examples" "$work/rt" "$work/tools"
cp "$judge" "$work/repo/judge"
cp -R "$root/tools" "$work/repo/tools"
cp -R "$day" "$work/repo/examples/day"
printf '# names\nunder:\njudge: under io\nbeside:\n' >"$work/repo/crates.txt"
touch -d '2020-01-01' "$work/repo/crates/judge/src/lib.rt" "$work/repo/crates/under/src/lib.rt" "$work/repo/crates/beside/src/lib.rt"
find "$work/repo" -exec touch -d '2020-01-01' {} +
for tool in awk cat dirname find head mkdir mktemp readlink rm; do ln -s "$(command -v $tool)" "$work/tools/$tool"; done
# builds COUNT: how often rt was called
builds() { [ "$(wc -l <"$work/rt/count")" -eq "$1" ]; }
: >"$work/rt/count"
printf 'a\nb\n' >two
cat >"$work/rt/rt" <<END
#!/bin/sh
echo "\$*" >>"$work/rt/count"
echo 'a line of the log'
[ "\$*" = run ] && [ "\$(pwd -P)" = "$work/repo/crates/judge" ] || exit 3
[ ! -e "$work/rt/fails" ] || exit 1
mkdir -p out
echo 'rt: chose --jobs 2 for under' >&2
sleep 1.5
echo 'rt: chose --jobs 2 for judge' >&2
sleep 1.5
printf '#!/bin/sh\ncat book.txt -\nexit 7\n' >out/judge.new
chmod +x out/judge.new
[ -e out/judge ] || mv out/judge.new out/judge
echo 'rt: running out/judge; to give it other input, run that file yourself' >&2
exec out/judge
END
chmod +x "$work/rt/rt"
call env PATH="$work/tools" "$work/repo/judge"
says 'a build without rt' 2 'rt'
old=$PATH
PATH=$work/rt:$PATH
: >"$work/rt/fails"
call "$work/repo/judge"
says 'a build that fails' 2 'a line of the log'
rm "$work/rt/fails"
builds 1 || bad 'one build is tried'
call "$work/repo/judge" five.txt two
builds_and_prints 'a build, and the exit status of the program' 7 "$(cat five.txt)" "$(cat two)"
call "$work/repo/judge" five.txt two
prints 'no build the second time' 7 "$(cat five.txt)" "$(cat two)"
if builds 2; then ok; else bad "the program is built $(wc -l <"$work/rt/count") times, not twice"; fi
touch -d '+2 seconds' "$work/repo/crates/beside/src/lib.rt"
call "$work/repo/judge" five.txt two
if builds 2; then ok; else bad 'a crate that the program does not need makes a build'; fi
touch -d '2021-01-01' "$work/repo/target/bin/judge" "$work/repo/crates/judge/out/judge"
touch -d '2022-01-01' "$work/repo/crates/under/src/lib.rt"
call "$work/repo/judge" five.txt two
builds_and_prints 'a build where a source is newer' 7 "$(cat five.txt)" "$(cat two)"
call "$work/repo/judge" five.txt two
if builds 3; then ok; else bad "a newer source: $(wc -l <"$work/rt/count") builds, not 3"; fi
touch -d '+2 seconds' "$work/repo/crates/under/src/lib.rt"
: >"$work/rt/fails"
call "$work/repo/judge" five.txt two
says 'a build that fails beside an older program' 2 'a line of the log'
rm "$work/rt/fails"
touch -d '2022-01-01' "$work/repo/crates/under/src/lib.rt"
call env PATH="$work/tools" "$work/repo/judge" five.txt two
prints 'no rt, and none needed' 7 "$(cat five.txt)" "$(cat two)"
PATH=$old
tidy 'after the builds'

# ---- signals

ended_by_signals book.txt "$judge" "$day/book.txt"

cd / || exit 1
echo "$passed passed, $failed failed"
[ "$failed" -eq 0 ]
