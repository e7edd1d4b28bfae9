#!/usr/bin/env python3
"""Lists the older forms that are left in the sources of a commit, point by point as in docs/DESIGN-PASS.md.

Usage: tools/forms.py COMMIT [--places]

A pattern finds lines, of which some are no such place: docs/DESIGN-PASS.md says which. Twins are functions, types or impls that
are alike once names, numbers and texts are blanked.
"""
import collections
import re
import subprocess
import sys

PATTERNS = [
    ("1 enums, to be read for the shape of Option or Result", r"^ *(pub(\(crate\))? )?enum "),
    ("1 a flag or a number for none or for a kind: Option<bool>", r"Option<bool>"),
    ("1 a flag or a number for none or for a kind: a list's length", r"^ +rows\.len\(\)$|< rows\.len\(\) \{"),
    ("1 numbers for kinds and refusals", r"\b(kind|class|reason|own|other|deliverer|receiver|currency|priced|layer): u8"),
    ("3 loops with a hand-counted index or number", r"for [a-z]+ in 0\.\.[a-z]|while [a-z]+ *[<>]|^ *(number|left|n) [-+]= 1;|if left <= 1"),
    ("3 loops over day numbers", r"for [a-z]+ in [a-z][a-z_.]*\.\."),
    ("4 errors passed on by hand", r"Err\(([a-z]+|_)\) => (return )?Err\(|\.is_err\(\)"),
    ("4 tests of one variant by a match", r"=> (true|false),$"),
    ("4 types that are copied and have no equality", r"#\[derive\(Clone, Copy\)\]"),
    ("4 faults written out", r"Fault \{$"),
    ("4 casts by as", r" as (u8|u16|u32|u64|usize)\b"),
    ("4 printing by hand", r"impl.*Display for"),
    ("5 bounds in a contract", r"(ensures (bound|low|high)|requires)\b"),
    ("5 parameters that travel together", r"(calendar: &Calendar,|opted: &\[bool; 90\]|out: &mut W, line: usize)"),
    ("5 what is left of a line, by a function over its words", r"left words\.old"),
    ("6 arrays with a fixed length", r"\[[A-Za-z_<>]+; [0-9A-Z_]+\]"),
    ("7 a match on a kind", r"match (verb|happened|kind|field::[a-z]+\(words.*\)\?) \{"),
    ("7 marker types that stand for a test", r"ByteKind"),
]
KEPT = set(
    "fn pub crate impl for let mut match if else return while in loop struct enum trait type const use mod self Self where as ref "
    "Some None Ok Err Option Result true false ensures requires ghost".split()
)


def text(*words):
    return subprocess.run(["git", *words], check=True, capture_output=True, text=True).stdout


def files(commit):
    names = text("ls-tree", "-r", "--name-only", commit).splitlines()
    return [n for n in names if re.match(r"crates/\w+/src/.*\.rt$", n)]


def blanked(code):
    code = re.sub(r"//.*|^\s*(ensures|requires|ghost)\b.*", "", code, flags=re.M)
    code = re.sub(r'b?"[^"]*"', "T", code)
    code = re.sub(r"\b[0-9][0-9_a-z]*\b", "N", code)
    code = re.sub(r"'[a-z]+\b", "", code)
    code = re.sub(r"\b[A-Za-z_]\w*\b", lambda m: m[0] if m[0] in KEPT else "x", code)
    return re.sub(r"[\s,]+", " ", code)


def items(name, source):
    lines = source.splitlines()
    for i, line in enumerate(lines):
        head = re.match(r"( *)(pub(\(crate\))? )?(const )?(fn|struct|impl)\b", line)
        if not head or line.rstrip().endswith(";"):
            continue
        end = i
        while end + 1 < len(lines) and not re.match(head[1] + r"\}", lines[end]):
            end += 1
        yield "%s:%d" % (name, i + 1), "\n".join(lines[i : end + 1])


def main():
    commit = sys.argv[1]
    places = "--places" in sys.argv
    sources = {name: text("show", f"{commit}:{name}") for name in files(commit)}
    for title, pattern in PATTERNS:
        found = [
            f"{name}:{n}: {line.strip()}"
            for name, source in sources.items()
            for n, line in enumerate(source.splitlines(), 1)
            if re.search(pattern, line)
        ]
        print(f"{len(found):4} {title}")
        if places:
            print("".join(f"       {line}\n" for line in found), end="")
    alike = collections.defaultdict(list)
    for name, source in sources.items():
        for place, code in items(name, source):
            shape = blanked(code)
            if len(shape) > 60:
                alike[shape].append(place)
    groups = [group for group in alike.values() if len(group) > 1]
    print(f"{sum(map(len, groups)):4} 2 twins, in {len(groups)} groups")
    for group in groups if places else []:
        print("       " + " ".join(group))
    names = text("ls-tree", "-r", "--name-only", commit).splitlines()
    proofs = [n for n in names if re.match(r"crates/\w+/proofs/.*\.antt$", n)]
    size = sum(text("show", f"{commit}:{n}").count("\n") for n in proofs)
    print(f"{len(proofs):4} 8 files of proofs, with {size} lines")


main()
