#!/usr/bin/env python3
"""Brings this repository's own definitions, lemmas and fields of records to snake case, at the top of a checkout.

A name in lower camel case becomes snake case, as firstPlace becomes first_place. A dash between plain words becomes _,
as in worth-fits; it stays before the name of a function that a lemma is about, as in fits-append. Where two names would
fall together, the lemma takes the ending _lem. Types, modules, functions of src/ and strings keep their spelling; a name
in a comment, or in a code span of README.md and docs/, turns with the name that it means. Run it once, after the
toolchain's own script.
"""

import os
import re

# Names of functions: the dash before one of these stays.
FUNCTIONS = {"append", "cons", "length", "suc", "bind", "plus", "okOr"}
WORD = re.compile(r"(?<![\w'\-])[A-Za-z_][\w']*(?:-[\w']+)*")
DEFINED = re.compile(r"^\s*(?:abbrev |unfoldable )?(?:pub )?([a-z][\w'\-]*)\s*:(?=\s)", re.M)
STRING = re.compile(r'b?"(?:\\.|[^"\\])*"')
SPAN = re.compile(r"`[^`\n]+`")


def files(*endings):
    for folder, dirs, names in os.walk("crates"):
        dirs[:] = sorted(d for d in dirs if d != "out")
        for name in sorted(names):
            if name.endswith(endings):
                yield os.path.join(folder, name)


def read(path):
    with open(path, encoding="utf-8") as f:
        return f.read()


def is_camel(word):
    return re.match(r"[a-z]", word) and re.search(r"[a-z0-9][A-Z]", word)


def snake(word):
    return re.sub(r"([a-z0-9])([A-Z])", lambda m: m[1] + "_" + m[2].lower(), word)


def undashed(word):
    first, *rest = word.split("-")
    for part in rest:
        first += ("-" if part in FUNCTIONS else "_") + part
    return snake(first)


def table():
    camel, dashed, plain = set(), set(), set()
    for path in files(".antt", ".rt"):
        text = STRING.sub(" ", read(path))
        for word in WORD.findall(text):
            if "-" not in word and is_camel(word):
                camel.add(word)
        if path.endswith(".antt") and os.path.basename(path) not in ("Answers.antt", "Invariants.antt", "Choices.antt"):
            for word in DEFINED.findall(text):
                (dashed if "-" in word else plain).add(word)
    rows = {word: snake(word) for word in camel}
    taken = set(rows.values()) | plain
    for word in sorted(dashed):
        new = undashed(word)
        rows[word] = new + "_lem" if new in taken else new
    # the toolchain's script has put some lemmas into snake case already; one that would now be named as a definition moves aside
    for word in sorted(plain & set(snake(w) for w in camel)):
        rows[word] = word + "_lem"
    return {old: new for old, new in rows.items() if old != new}


def outside(pattern, text, turn):
    """The text with everything outside the pattern turned."""
    out, at = [], 0
    for m in pattern.finditer(text):
        out += [turn(text[at : m.start()]), m[0]]
        at = m.end()
    return "".join(out + [turn(text[at:])])


def main():
    rows = table()
    lemmas = {old for old in rows if "-" not in old and not is_camel(old)}
    turn = lambda t: WORD.sub(lambda m: rows.get(m[0], m[0]), t)
    # a function of src/ may have the name of a lemma that moves aside
    turn_code = lambda t: WORD.sub(lambda m: m[0] if m[0] in lemmas else rows.get(m[0], m[0]), t)
    for path in files(".antt", ".rt", ".edit"):
        text = read(path)
        one = turn_code if path.endswith((".rt", ".edit")) else turn
        lines = []
        for line in text.split("\n"):
            # the path of a function's goals has the function's name
            kept = path.endswith(".edit") and line.startswith("file:") or re.search(r"\.proofs\..*\.(Goals|Given) as goal", line)
            lines.append(line if kept else outside(STRING, line, one))
        new = "\n".join(lines)
        if new != text:
            with open(path, "w", encoding="utf-8") as f:
                f.write(new)
    pages = ["README.md"] + [os.path.join("docs", n) for n in sorted(os.listdir("docs")) if n.endswith(".md") and not n.startswith("PORT")]
    for path in pages:
        text = read(path)
        new = SPAN.sub(lambda m: WORD.sub(lambda w: snake(w[0]) if is_camel(w[0]) else w[0], m[0]), text)
        if new != text:
            with open(path, "w", encoding="utf-8") as f:
                f.write(new)
    for old in sorted(rows):
        print(old, rows[old])


main()
