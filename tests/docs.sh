#!/bin/sh
# Runs the command lines that README.md and docs/*.md show, and compares what they print with what the documents claim.
#
#   ```sh             commands, run from the root of a fresh copy of the repository; they must end well
#   ```sh needs=A,B   the same, skipped where a tool A or B is not installed
#   ```sh status=N    the same, ending with exit status N
#   ```sh slow        the same, only run as `tests/docs.sh slow`
#   ```output         what the commands before it print; a line ... stands for any lines
#   ```text file=F    the file F
#
# It also tries that each link to a file leads to one, that the picture of a rule has the rule's lines, that the picture of the crates is that of
# README.md and crates.txt, and that the list of stated files, their heads and the claims agree.
# The last line is a count; exit status 1 where anything failed. Needs coreutils, awk and git.
set -u
unset CDPATH
root=$(cd -- "$(dirname -- "$0")/.." && pwd -P) || exit 1
slow=${1-}
work=$(mktemp -d) || exit 1
work=$(cd -- "$work" && pwd -P)
trap 'rm -rf -- "$work"' EXIT
trap 'exit 130' HUP INT TERM
passed=0
failed=0
skipped=0

cd -- "$root" || exit 1
mkdir -p "$work/clean/target/bin" "$work/blocks" "$work/tmp"
git ls-files -z --cached --others --exclude-standard | xargs -0 cp -p --parents -t "$work/clean" || exit 1
# each program is built once, and each copy gets it
for program in judge field; do
    if ! "./$program" >"$work/first" 2>&1; then
        cat -- "$work/first"
        echo "./$program cannot be run: 0 passed, 1 failed"
        exit 1
    fi
    cp -p "target/bin/$program" "$work/clean/target/bin/$program"
done
if ! { [ -e target/staticlib/libfieldtext.a ] || tools/library.sh >"$work/first" 2>&1; }; then
    cat -- "$work/first"
    echo "the library cannot be built: 0 passed, 1 failed"
    exit 1
fi
mkdir -p "$work/clean/target/staticlib"
cp -p target/staticlib/libfieldtext.a "$work/clean/target/staticlib/"

for page in README.md docs/*.md; do
    awk -v page="$page" -v to="$work/blocks/$(basename "$page" .md)" '
        function name(n) { return sprintf("%s.%03d", to, n) }
        !inside && /^```/ {
            inside = 1; info = substr($0, 4); split(info, words, " "); kind = words[1]; into = ""
            if (kind == "sh" || (kind == "text" && words[2] ~ /^file=/)) {
                n++; into = name(n) (kind == "sh" ? ".sh" : ".file")
                print page ":" NR > (name(n) ".at"); print info > (name(n) ".info"); printf "" > into; last = kind == "sh" ? n : 0
            } else if (kind == "output" && last) { into = name(last) ".output"; printf "" > into; last = 0
            } else if (kind == "output") { print page ":" NR ": output without commands" > (to ".stray") }
            next
        }
        inside && /^```/ { inside = 0; if (into != "") close(into); next }
        inside && into != "" { print > into }
    ' "$page"
done

# like WANT GOT: equal, where a line ... of WANT stands for any lines
like() {
    awk -v want="$1" '
        BEGIN { while ((getline line < want) > 0) w[++m] = line }
        { g[++n] = $0 }
        function match_from(i, j,   k) {
            if (i > m) return j > n
            if (w[i] == "...") { for (k = j; k <= n + 1; k++) if (match_from(i + 1, k)) return 1; return 0 }
            return j <= n && w[i] == g[j] && match_from(i + 1, j + 1)
        }
        END { exit !match_from(1, 1) }' "$2"
}

bad() {
    failed=$((failed + 1))
    printf 'FAILED %s\n' "$1"
}

for page in README.md docs/*.md; do
    grep -o '](\([^)]*\))' "$page" | sed 's/^](//; s/)$//' | grep -v '^https\{0,1\}:' | sort -u >"$work/links"
    while read -r link; do
        to=$(dirname "$page")/${link%%#*}
        [ -n "${link%%#*}" ] || to=$page
        mark=
        case $link in *#*) mark=${link#*#} ;; esac
        if [ ! -e "$to" ]; then
            bad "$page: no file for the link $link"
        elif [ -n "$mark" ] && ! sed -n 's/^##* //p' "$to" | tr '[:upper:]' '[:lower:]' | tr -cd '[:alnum:] \n-' | tr ' ' - | grep -qx -e "$mark"; then
            bad "$page: no heading for the link $link"
        else
            passed=$((passed + 1))
        fi
    done <"$work/links"
done
sed -n 's/^ *<!-- \([0-9].*\) -->$/\1/p' docs/guidance-line.svg | sort >"$work/drawn"
if grep '^4 ' examples/field/book.txt | sort | cmp -s - "$work/drawn"; then passed=$((passed + 1)); else bad 'docs/guidance-line.svg: not rule 4'; fi
if ! command -v python3 >/dev/null 2>&1; then
    echo 'skipped docs/architecture.svg: python3 is not installed'
    skipped=$((skipped + 1))
elif python3 docs/architecture.py >"$work/drawn" && cmp -s -- "$work/drawn" docs/architecture.svg; then
    passed=$((passed + 1))
else
    bad 'docs/architecture.svg: not what docs/architecture.py draws of README.md and crates.txt'
fi
if ! command -v python3 >/dev/null 2>&1; then
    echo 'skipped docs/STATED.md: python3 is not installed'
    skipped=$((skipped + 1))
elif python3 docs/stated.py; then
    passed=$((passed + 1))
else
    bad 'docs/STATED.md: the list, the heads of specs/ and docs/CLAIMS.md do not agree'
fi
if ! command -v python3 >/dev/null 2>&1; then
    echo 'skipped docs/UTF8.md: python3 is not installed'
    skipped=$((skipped + 1))
elif python3 docs/utf8.py; then
    passed=$((passed + 1))
else
    bad 'docs/UTF8.md: its rows are not those of the code'
fi
for stray in "$work"/blocks/*.stray; do
    [ ! -e "$stray" ] || bad "$(cat -- "$stray")"
done
for info in "$work"/blocks/*.info; do
    block=${info%.info}
    at=$(cat -- "$block.at")
    want=0
    needs=
    run=yes
    # shellcheck disable=SC2013 # words, not lines
    for word in $(cat -- "$info"); do
        case $word in
        needs=*) needs=$(printf '%s' "${word#needs=}" | tr , ' ') ;;
        status=*) want=${word#status=} ;;
        slow) [ "$slow" = slow ] || run= ;;
        file=*)
            run=
            if cmp -s -- "$block.file" "$root/${word#file=}"; then
                passed=$((passed + 1))
            else
                bad "$at: not the file ${word#file=}"
                diff -- "$root/${word#file=}" "$block.file" | head -n 10
            fi
            continue 2
            ;;
        esac
    done
    for tool in $needs; do
        if ! command -v "$tool" >/dev/null 2>&1; then
            echo "skipped $at: $tool is not installed"
            skipped=$((skipped + 1))
            continue 2
        fi
    done
    if [ -z "$run" ]; then
        echo "skipped $at: slow; tests/docs.sh slow runs it"
        skipped=$((skipped + 1))
        continue
    fi
    rm -rf "$work/copy"
    cp -Rp "$work/clean" "$work/copy"
    (cd "$work/copy" && TMPDIR="$work/tmp" exec sh "$block.sh") >"$block.got" 2>&1 </dev/null
    status=$?
    if [ "$status" != "$want" ]; then
        bad "$at: exit status $status, not $want"
        tail -n 5 -- "$block.got"
    elif [ -e "$block.output" ] && ! like "$block.output" "$block.got"; then
        bad "$at: other output (the document <, the program >)"
        diff -- "$block.output" "$block.got" | head -n 20
    else
        passed=$((passed + 1))
    fi
done

echo "$passed passed, $failed failed, $skipped skipped"
[ "$failed" -eq 0 ]
