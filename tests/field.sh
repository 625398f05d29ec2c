#!/bin/sh
# Tests ./field and target/bin/field of the repository that this file stands in, from outside: what they print, and how they end.
# The last line is a count; exit status 1 where anything failed. Needs coreutils, awk, find and python3.
set -u
unset CDPATH
wrapper=field
# shellcheck source=tests/calls.sh
. "$(dirname -- "$0")/calls.sh"

field=$root/field
example=$root/examples/boundary
program=$root/target/bin/field

# stops NAME LINE OUTPUT...: the last call ended with 2 and the message for that line, and printed these lines before
stops() {
    name=$1
    line=$2
    shift 2
    printf '%s\n' "$@" >"$work/want"
    printf 'field: line %s: not two whole numbers\n' "$line" >"$work/message"
    if [ "$status" != 2 ]; then
        bad "$name: exit status $status, not 2"
    elif ! cmp -s -- "$work/want" "$work/out"; then
        bad "$name: other output than wanted (wanted <, got >)"
        diff -- "$work/want" "$work/out" | head -n 10
    elif ! cmp -s -- "$work/message" "$work/err"; then
        bad "$name: another message than that of line $line"
        head -n 5 -- "$work/err"
    else
        ok
    fi
}

# ---- the example, and the build that it may need

call "$field"
if [ "$status" != 0 ] && [ ! -x "$program" ]; then
    cat -- "$work/err"
    echo "the program cannot be built: 0 passed, 1 failed"
    exit 1
fi
answers='answer corner
inside 4
outside 5
edge 0
edge 1
edge 0
outside 11
outside 3
outside 10
inside 7
refused 33'
call "$field"
prints 'the example' 0 "$answers"
call sh "$field" "$example/field.json" "$example/points.txt"
prints 'the example, its files named' 0 "$answers"
tidy 'after the example'

call "$field" --help
if [ "$status" = 0 ] && grep -q '^usage:' "$work/out" && [ ! -s "$work/err" ]; then ok; else bad 'help'; fi
cp "$work/out" "$work/help"
call "$field" -h
same 'both words for help' "$work/help" "$work/out"

# ---- a user's own files, from another folder

cd -- "$work/user" || exit 1
printf '{"corners":[[0,0],[10,0],[10,10],[0,10]],"name":"Square"}\n' >'my field.json'
printf '5 5\n5 0\n-1 10\n1000001 0\n' >'my points.txt'
cp 'my field.json' ./-field
cp 'my field.json' ./-h
cp 'my points.txt' ./-points
wanted='answer corner
inside 0
edge 0
outside 3
refused 33'
call "$field" 'my field.json' 'my points.txt'
prints 'names with spaces, from another folder' 0 "$wanted"
call "$field" -field -points
prints 'names that begin with -' 0 "$wanted"
call "$field" -- -h -points
prints 'a text named -h behind --' 0 "$wanted"
call "$field" 'my field.json' <'my points.txt'
prints 'standard input' 0 "$wanted"
call "$field" 'my field.json' - <'my points.txt'
prints 'standard input named -' 0 "$wanted"
ln -s -- "$field" link
call ./link 'my field.json' 'my points.txt'
prints 'called by a link' 0 "$wanted"
CDPATH=$root
export CDPATH
call "$field" 'my field.json' 'my points.txt'
prints 'with CDPATH set' 0 "$wanted"
unset CDPATH
mkfifo fifo
cat 'my field.json' >fifo &
call "$field" fifo 'my points.txt'
prints 'a text from a fifo' 0 "$wanted"
wait
cat 'my points.txt' >fifo &
call "$field" 'my field.json' fifo
prints 'points from a fifo' 0 "$wanted"
wait
rest=$(printf 'left alone' | { "$field" 'my field.json' 'my points.txt' >/dev/null; cat; })
if [ "$rest" = 'left alone' ]; then ok; else bad 'standard input is read where a file is given'; fi
ls -A >"$work/names"
printf '%s\n' -field -h -points fifo link 'my field.json' 'my points.txt' | LC_ALL=C sort >"$work/want"
LC_ALL=C sort "$work/names" >"$work/got"
same 'the user'"'"'s folder is left as it was' "$work/want" "$work/got"
tidy 'after the files of the user'

# ---- what cannot be read

call "$field" missing.json 'my points.txt'
says 'a missing text' 2 'missing.json'
call "$field" 'my field.json' missing.txt
says 'missing points' 2 'missing.txt'
call "$field" '' 'my points.txt'
says 'an empty name' 2 'text'
call "$field" "$work" 'my points.txt'
says 'a folder for a text' 2 'folder'
call "$field" 'my field.json' "$work"
says 'a folder for points' 2 'folder'
call "$field" 'my field.json' 'my points.txt' more
says 'too many arguments' 2 'too many'
if [ "$(id -u)" = 0 ]; then
    echo 'skipped: files that cannot be read, since root reads all'
else
    cp 'my field.json' closed
    chmod 0 closed
    call "$field" closed 'my points.txt'
    says 'a text that cannot be read' 2 'cannot be read'
    call "$field" 'my field.json' closed
    says 'points that cannot be read' 2 'cannot be read'
    rm -f closed
fi
tidy 'after files that cannot be read'

# ---- the worked cases of the requirement

# answered NAME TEXT POINTS ANSWER...: the text, as printf writes it, and its points, one to a line
answered() {
    case_name=$1
    # shellcheck disable=SC2059 # the text is written as a format
    printf "$2" >text.json
    printf '%s\n' "$3" >points.txt
    shift 3
    call "$field" text.json points.txt
    prints "$case_name" 0 'answer corner' "$@"
}
# refused NAME TEXT NUMBER: the text, as printf writes it, with points that nobody may read
refused() {
    # shellcheck disable=SC2059 # the text is written as a format
    printf "$2" >text.json
    printf 'no point\n' >points.txt
    call "$field" text.json points.txt
    prints "$1" 0 "refused $3"
}
# corners PAIRS: a text with these corners
corners() { printf '{"corners":[%s],"name":""}' "$1"; }
square=$(corners '[0,0],[10,0],[10,10],[0,10]')
answered 'the square' "$square" '5 5
5 0
-1 10
1000001 0' 'inside 0' 'edge 0' 'outside 3' 'refused 33'
answered 'a minus sign before 0' "$(corners '[-0,0],[10,-0],[10,10],[0,10]')" '-0 -0
5 5' 'edge 0' 'inside 0'
answered 'the bow tie' "$(corners '[0,0],[10,10],[10,0],[0,10]')" '5 5
9 5
5 1' 'edge 0' 'inside 1' 'outside 0'
answered 'corners all in one place' "$(corners '[3,3],[3,3],[3,3]')" '3 3
3 4' 'edge 0' 'outside 0'
answered 'a name that looks like corners' '{"corners":[[0,0],[10,0],[0,10]],"name":"[[1,2]]"}' '1 1' 'inside 0'
answered 'an escaped key' '{"n\\u0061me":"","c\\u006Frners":[[0,0],[10,0],[0,10]]}' '1 1' 'inside 0'
refused 'two corners, one out of range' "$(corners '[0,0],[9999999,0]')" 32
refused 'no corners' "$(corners '')" 32
refused 'a corner with a point and a 0' "$(corners '[0,0],[10,0],[0,1.0]')" 33
refused 'a corner with an exponent' "$(corners '[0,0],[10,0],[0,1e1]')" 33
refused 'a corner out of range' "$(corners '[0,0],[10,0],[0,1000001]')" 33
refused 'a corner out of range below 0' "$(corners '[0,0],[10,0],[0,-1000001]')" 33
refused 'a corner beyond every machine number' "$(corners '[0,0],[10,0],[0,99999999999999999999999999]')" 33
refused 'a corner that is not whole' "$(corners '[0,0],[10,0],[0,1.5]')" 31
refused 'a corner of three numbers' "$(corners '[0,0],[10,0],[0,1,2]')" 31
refused 'an empty text' '' 31
refused 'an RS before the text' "\\036$square" 31
refused 'an RS in the text' '{"corners":\036[[0,0],[10,0],[0,10]],"name":""}' 31
refused 'a key more' '{"corners":[[0,0],[10,0],[0,10]],"name":"","area":1}' 31
refused 'a key less' '{"corners":[[0,0],[10,0],[0,10]]}' 31
refused 'two texts' "$square$square" 31
refused 'half a text' '{"corners":[[0,0],[10,0]' 31
answered 'corners at the limit of the range' "$(corners '[-1000000,-1000000],[1000000,-1000000],[1000000,1000000],[-1000000,1000000]')" '0 0
1000000 1000000
-1000000 5
1000000 1000001' 'inside 0' 'edge 2' 'edge 3' 'refused 33'
# many COUNT: a text with so many corners, on a line and back
many() { python3 -c 'import sys; n = int(sys.argv[1]); print(sys.argv[2] % ",".join("[%d,%d]" % (i, i * i % 7) for i in range(n)))' "$1" '{"corners":[%s],"name":""}'; }
many 1024 >text.json
printf '1023 1\n' >points.txt
call "$field" text.json points.txt
prints '1,024 corners' 0 'answer corner' 'edge 1023'
many 1025 >text.json
printf 'no point\n' >points.txt
call "$field" text.json points.txt
prints '1,025 corners' 0 'refused 32'

# ---- lines of points

# line NAME BYTES ANSWER: one line, as printf writes it, behind another
line() {
    # shellcheck disable=SC2059 # the line is written as a format
    printf "5 5\n$2" >points.txt
    call "$field" 'my field.json' points.txt
    prints "$1" 0 'answer corner' 'inside 0' "$3"
}
line 'a last line without LF' '5 0' 'edge 0'
line 'CR LF' '5 0\r\n' 'edge 0'
line 'CR at the end of the input' '5 0\r' 'edge 0'
line 'blanks all about' ' \t5 \t 0\t \n' 'edge 0'
line 'blanks before CR' '5 0 \r\n' 'edge 0'
line 'zeros in front' '0005 -0000\n' 'edge 0'
line 'a minus sign' '-1 10\n' 'outside 3'
line 'the first number out of range' '1000001 0\n' 'refused 33'
line 'the second number out of range' '0 -1000001\n' 'refused 33'
line 'a number of 19 digits' '9223372036854775808 0\n' 'refused 33'
line 'a number that wraps to 5 in 32 bits' '4294967301 5\n' 'refused 33'
line 'a number that wraps to 5 in 64 bits' '5 18446744073709551621\n' 'refused 33'
line 'many digits and a minus sign' "-$(printf '%02000d' 0 | tr 0 9) 0\n" 'refused 33'
line 'a line of 4,096 bytes' "$(printf '%04094d' 5) 0\n" 'edge 0'

# no_point NAME BYTES: a line, as printf writes it, that ends the answers, behind another and in front of one that nobody may answer
no_point() {
    # shellcheck disable=SC2059 # the line is written as a format
    printf "5 5\n$2\n5 0\n" >points.txt
    call "$field" 'my field.json' points.txt
    stops "$1" 2 'answer corner' 'inside 0'
}
no_point 'an empty line' ''
no_point 'a line of blanks' ' \t'
no_point 'one number' '5'
no_point 'three numbers' '5 0 0'
no_point 'a plus sign' '+5 0'
no_point 'a point and a 0' '5.0 0'
no_point 'an exponent' '5e0 0'
no_point 'a sign alone' '5 -'
no_point 'a sign apart' '- 5 0'
no_point 'two signs' '--5 0'
no_point 'a sign behind' '5- 0'
no_point 'a comma' '5,0'
no_point 'a word' 'five 0'
no_point 'CR between' '5\r0'
no_point 'two CR' '5 0\r\r'
no_point 'blanks after CR' '5 0\r '
no_point 'a byte 0' '5 0\000'
no_point 'a byte above 127' '5\302\2400'
no_point 'an out-of-range number and a word' '9999999 x'
no_point 'a line of 4,097 bytes' "$(printf '%04095d' 5) 0"
printf 'x' >points.txt
call "$field" 'my field.json' points.txt
stops 'no point at all' 1 'answer corner'
printf '5 5\n5' >points.txt
call "$field" 'my field.json' points.txt
stops 'half a last line' 2 'answer corner' 'inside 0'
head -c 1000000 /dev/zero | tr '\0' 5 >points.txt
call "$field" 'my field.json' points.txt
stops 'a million digits' 1 'answer corner'
call "$field" 'my field.json' /dev/null
prints 'no points' 0 'answer corner'
tidy 'after lines of points'

# ---- from one point to some more than a hundred: each has its own answer, and those before a line that is no point have theirs

for count in 1 63 64 65 127 128 129; do
    awk -v count=$count 'BEGIN { for (i = 0; i < count; i++) print (i % 3 == 0 ? "5 5" : i % 3 == 1 ? "1000001 0" : "-1 10") }' >points.txt
    awk -v count=$count 'BEGIN { for (i = 0; i < count; i++) print (i % 3 == 0 ? "inside 0" : i % 3 == 1 ? "refused 33" : "outside 3") }' >"$work/some"
    call "$field" 'my field.json' points.txt
    prints "$count points" 0 'answer corner' "$(cat -- "$work/some")"
    printf 'no point\n5 5\n' >>points.txt
    call "$field" 'my field.json' points.txt
    stops "a line that is no point behind $count points" $((count + 1)) 'answer corner' "$(cat -- "$work/some")"
done
tidy 'after numbers of points'

# ---- many points, against a paper, whole and in pieces

cat >"$work/paper.py" <<'PAPER'
"""paper.py TEXT POINTS ANSWER: a field of random corners with random points from a fixed seed, and the answers in exact fractions"""
import json, random, sys
from fractions import Fraction
rng = random.Random(20270412)


def answer(corners, x, y):
    near = min(range(len(corners)), key=lambda i: ((corners[i][0] - x) ** 2 + (corners[i][1] - y) ** 2, i))
    odd = False
    for (ax, ay), (bx, by) in zip(corners, corners[1:] + corners[:1]):
        turn = (bx - ax) * (y - ay) - (by - ay) * (x - ax)
        if turn == 0 and min(ax, bx) <= x <= max(ax, bx) and min(ay, by) <= y <= max(ay, by):
            return 'edge %d' % near
        if (ay > y) != (by > y) and ax + Fraction((y - ay) * (bx - ax), by - ay) > x:
            odd = not odd
    return '%s %d' % ('inside' if odd else 'outside', near)


corners = [[rng.randrange(-30, 31), rng.randrange(-30, 31)] for _ in range(40)]
points = [(rng.randrange(-32, 33), rng.randrange(-32, 33)) for _ in range(8000)]
open(sys.argv[1], 'w').write(json.dumps({'corners': corners, 'name': 'N'}))
open(sys.argv[2], 'w').write(''.join('%d %d\n' % p for p in points))
open(sys.argv[3], 'w').write('answer corner\n' + ''.join(answer(corners, x, y) + '\n' for x, y in points))
PAPER
python3 "$work/paper.py" text.json points.txt "$work/answer" || bad 'no paper'
call "$field" text.json points.txt
same 'many points, against a paper' "$work/answer" "$work/out"
cat >"$work/pieces.py" <<'PIECES'
"""pieces.py FILE: writes the file in pieces of 1 to 50 bytes, with a pause after each"""
import os, random, sys, time
text, rng, i = open(sys.argv[1], 'rb').read(), random.Random(5), 0
while i < len(text):
    n = rng.randrange(1, 51)
    os.write(1, text[i:i + n])
    i += n
    time.sleep(0.0005)
PIECES
python3 "$work/pieces.py" points.txt | "$field" text.json >"$work/cut"
same 'many points in small pieces' "$work/answer" "$work/cut"

# ---- the program alone

# alone: the program in a folder with the text.json that is there
alone() {
    (cd -- "$work/run" && timeout 60 "$program") >"$work/out" 2>"$work/err"
    status=$?
}
alone </dev/null
says 'no text.json' "$status" 'text.json'
mkdir "$work/run/text.json"
alone </dev/null
says 'a folder text.json' "$status" 'text.json'
rmdir "$work/run/text.json"
cp 'my field.json' "$work/run/text.json"
alone <'my points.txt'
prints 'the program alone' 0 "$wanted"
rest=$( (cd -- "$work/run" && : >text.json && printf 'left alone' | { "$program" >/dev/null; cat; }))
if [ "$rest" = 'left alone' ]; then ok; else bad 'points are read where the text is refused'; fi
printf '5 5\n' | "$field" 'my field.json' >/dev/full 2>"$work/err"
if [ -s "$work/err" ]; then bad 'words where the output is full'; else ok; fi

# ---- the limit of length

# padded BYTES: a text with blanks after it
padded() { python3 -c 'import sys; sys.stdout.write("{\"corners\":[[0,0],[10,0],[0,10]],\"name\":\"\"}".ljust(int(sys.argv[1])))' "$1" >long.json; }
printf '1 1\n' >points.txt
padded 4194304
call "$field" long.json points.txt
prints 'a text of 4,194,304 bytes' 0 'answer corner' 'inside 0'
padded 4194305
call "$field" long.json points.txt
says 'a text one byte longer' 2 'field: the text has more than 4194304 bytes'
call "$field" /dev/zero points.txt
says 'an endless text' 2 'field: the text has more than 4194304 bytes'
rm -f long.json

# ---- the build, in a small repository with an rt of our own

mkdir -p "$work/repo/crates/field/src" "$work/repo/crates/under/src" "$work/repo/examples" "$work/rt"
cp "$field" "$work/repo/field"
cp -R "$root/tools" "$work/repo/tools"
cp -R "$example" "$work/repo/examples/boundary"
printf '# names\nunder:\nfield: under io\n' >"$work/repo/crates.txt"
touch "$work/repo/crates/field/src/lib.rt" "$work/repo/crates/under/src/lib.rt"
find "$work/repo" -exec touch -d '2020-01-01' {} +
: >"$work/rt/count"
cat >"$work/rt/rt" <<RT
#!/bin/sh
echo "\$*" >>"$work/rt/count"
[ "\$*" = run ] && [ "\$(pwd -P)" = "$work/repo/crates/field" ] || exit 3
mkdir -p out
echo 'rt: chose --jobs 2 for under' >&2
sleep 1.5
echo 'rt: chose --jobs 2 for field' >&2
sleep 1.5
printf '#!/bin/sh\ncat text.json -\n' >out/field
chmod +x out/field
echo 'rt: running out/field; to give it other input, run that file yourself' >&2
exec out/field
RT
chmod +x "$work/rt/rt"
printf 'a\nb\n' >two
call env PATH="$work/rt:$PATH" "$work/repo/field" 'my field.json' two
builds_and_prints 'a build' 0 "$(cat 'my field.json')" "$(cat two)"
call env PATH="$work/rt:$PATH" "$work/repo/field" 'my field.json' two
prints 'no build the second time' 0 "$(cat 'my field.json')" "$(cat two)"
if [ "$(wc -l <"$work/rt/count")" -eq 1 ]; then ok; else bad 'the program is built more than once'; fi
tidy 'after the builds'

# ---- signals

ended_by_signals text.json "$field" 'my field.json'

cd / || exit 1
echo "$passed passed, $failed failed"
[ "$failed" -eq 0 ]
