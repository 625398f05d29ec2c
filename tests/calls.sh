# What tests/judge.sh and tests/field.sh share: a folder for their work, and calls whose status, output and words are held against what is wanted.
# Sourced by each, with `wrapper` set to the name of the script under test.
# shellcheck shell=sh disable=SC2034,SC2154 # wrapper is set by the caller, which uses root
root=$(cd -- "$(dirname -- "$0")/.." && pwd -P) || exit 1
work=$(mktemp -d) || exit 1
work=$(cd -- "$work" && pwd -P)
trap 'rm -rf -- "$work"' EXIT
trap 'exit 130' HUP INT TERM
export TMPDIR="$work/tmp"
mkdir -- "$TMPDIR" "$work/user" "$work/run"
passed=0
failed=0

ok() { passed=$((passed + 1)); }
bad() {
    failed=$((failed + 1))
    printf 'FAILED %s\n' "$1"
}

# call COMMAND...: runs it, with its status, output and words for people kept
call() {
    timeout 120 "$@" >"$work/out" 2>"$work/err"
    status=$?
}

# prints NAME STATUS LINE...: the last call ended so, and printed these lines and no words
prints() {
    name=$1
    want=$2
    shift 2
    if [ $# -eq 0 ]; then : >"$work/want"; else printf '%s\n' "$@" >"$work/want"; fi
    if [ "$status" != "$want" ]; then
        bad "$name: exit status $status, not $want"
        cat -- "$work/err"
    elif ! cmp -s -- "$work/want" "$work/out"; then
        bad "$name: other output than wanted (wanted <, got >)"
        diff -- "$work/want" "$work/out" | head -n 10
    elif [ -s "$work/err" ]; then
        bad "$name: words where none are due"
        head -n 5 -- "$work/err"
    else
        ok
    fi
}

# says NAME STATUS WORDS: the last call ended so, said the words, and printed nothing
says() {
    if [ "$status" != "$2" ]; then
        bad "$1: exit status $status, not $2"
    elif [ -s "$work/out" ]; then
        bad "$1: it printed something"
    elif ! grep -q -F -e "$3" -- "$work/err"; then
        bad "$1: it does not say '$3'"
        head -n 5 -- "$work/err"
    else
        ok
    fi
}

# builds_and_prints NAME STATUS LINE...: the last call ended so, printed these lines, and named each crate on standard error as it was proved
builds_and_prints() {
    name=$1
    want=$2
    shift 2
    printf '%s\n' "$@" >"$work/want"
    sed -n "s/^$wrapper: proving \(crate .*\) ([0-9]* s)\$/\1/p" "$work/err" >"$work/named"
    if [ "$status" != "$want" ]; then
        bad "$name: exit status $status, not $want"
    elif ! cmp -s -- "$work/want" "$work/out"; then
        bad "$name: other output than wanted (wanted <, got >)"
        diff -- "$work/want" "$work/out" | head -n 10
    elif [ "$(cat "$work/named")" != "$(printf 'crate 1 of 2, under\ncrate 2 of 2, %s' "$wrapper")" ]; then
        bad "$name: it does not name each crate that it proves"
        head -n 5 -- "$work/err"
    else
        ok
    fi
}

# same NAME A B: two files are equal
same() {
    if cmp -s -- "$2" "$3"; then
        ok
    else
        bad "$1: outputs differ"
        diff -- "$2" "$3" | head -n 10
    fi
}

# tidy NAME: no temporary folder is left
tidy() {
    if [ -z "$(ls -A -- "$TMPDIR")" ]; then ok; else bad "$1: a temporary folder is left"; fi
}

# ended_by_signals FILE COMMAND...: each of three signals ends the command, once it has put FILE into its folder, and leaves nothing behind
ended_by_signals() {
    mkfifo "$work/open"
    for signal in HUP INT TERM; do
        if python3 -c '
import signal, subprocess, sys, time, os
name, words = sys.argv[3], sys.argv[4:]

def heard():
    for number in (signal.SIGHUP, signal.SIGINT, signal.SIGTERM):
        signal.signal(number, signal.SIG_DFL)

process = subprocess.Popen(words, stdin=os.open(sys.argv[2], os.O_RDWR), stdout=subprocess.DEVNULL, preexec_fn=heard)
for _ in range(200):
    time.sleep(0.05)
    if any(os.path.exists(os.path.join(os.environ["TMPDIR"], folder, "run", name)) for folder in os.listdir(os.environ["TMPDIR"])):
        break
time.sleep(0.5)
process.send_signal(getattr(signal, "SIG" + sys.argv[1]))
try:
    sys.exit(0 if process.wait(timeout=10) > 128 else 1)
except subprocess.TimeoutExpired:
    process.kill()
    sys.exit(1)' $signal "$work/open" "$@"; then ok; else bad "SIG$signal does not end it"; fi
        tidy "after SIG$signal"
    done
}
