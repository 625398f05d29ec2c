"""Holds the table of UTF8.md against the code: the class table of chars/src/class.rt, and char_start and string_move of chars/src/string.rt.

Prints what is not so, and ends with status 1 where anything is not."""
import pathlib
import re
import sys

ROOT = pathlib.Path(__file__).resolve().parent.parent
code = (ROOT / "crates/chars/src/class.rt").read_text()
moves = (ROOT / "crates/chars/src/string.rt").read_text()
literal = code.split("const CLASSES: [Class; 256] = [", 1)[1].split("];", 1)[0]
table = re.findall(r"\w+", re.sub("//.*", "", literal))
modes = dict(re.findall(r"Class::(\w+) => StringMove::Go\(StringMode::(\w+)\)", moves))
seconds = {}
for mode, low, high, then in re.findall(r"StringMode::(\w+) => ranged\(0x(\w\w), 0x(\w\w), b, StringMove::(.*)\),$", moves, re.M):
    seconds[mode] = (low, high, {"Char": 0, "Go(StringMode::Tail1)": 1, "Go(StringMode::Tail2)": 2}[then])

page = re.findall(r"^\| ?[\w-]* \| ([\w-]+) \| `(\w+)` \| `(\w+)` \| (\w\w)-(\w\w) \| (\d) \|$", (ROOT / "docs/UTF8.md").read_text(), re.M)
wrong = []
if len(table) != 256 or len(page) != 8:
    wrong.append(f"{len(table)} classes, {len(page)} rows")
leads = {}
for firsts, kind, mode, low, high, tails in page:
    first, _, last = firsts.partition("-")
    for byte in range(int(first, 16), int(last or first, 16) + 1):
        leads[byte] = kind
    if modes.get(kind) != mode or seconds.get(mode) != (low, high, int(tails)):
        wrong.append(f"the row of {firsts}: {kind} leads to {modes.get(kind)}, then {seconds.get(mode)}")
for byte in range(0xC0, 0x100):
    if table[byte] != leads.get(byte, "Never"):
        wrong.append(f"{byte:02X} has class {table[byte]}")
print("\n".join(f"UTF8.md: {words}" for words in wrong), end="\n" if wrong else "")
sys.exit(1 if wrong else 0)
