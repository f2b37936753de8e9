#!/usr/bin/env python3
"""Brings the repository's own definitions and lemmas to the spelling of today's Rattle: words in snake case, types and facts in camel case.

usage: python3 tools/respell.py        at the top of the repository, once, right after the kit's own script port.py

Beside it stands respell.tsv, a row for each name: old, a tab, new, and where the row is for one file alone, a tab and that file.
A name turns as a whole word, in the code of specs/, proofs/ and src/, and in the code spans of README.md and docs/. No row has a name of Rust's, so in src/ it is clauses and ghost
items that turn. Text in quotes and comments of .antt and .rt files, but for their code spans, stay. It proves nothing: rt check decides.
"""

import os
import re
import sys

WORD = re.compile(r"[^\s(){}.;,@\"«»]+")
QUOTED = re.compile(r'"(?:[^"\\\n]|\\.)*"')
SPAN = re.compile(r"`[^`\n]*`")


def rows():
    everywhere, here = {}, {}
    with open(os.path.join(os.path.dirname(os.path.abspath(__file__)), "respell.tsv"), encoding="utf-8") as f:
        for line in f:
            parts = line.rstrip("\n").split("\t")
            if len(parts) == 3:
                here.setdefault(parts[2], {})[parts[0]] = parts[1]
            elif len(parts) == 2:
                everywhere[parts[0]] = parts[1]
    return everywhere, here


def code(text, table):
    """Turns each whole word outside quotes."""
    out, at = [], 0
    for q in QUOTED.finditer(text):
        out.append(WORD.sub(lambda m: table.get(m.group(), m.group()), text[at : q.start()]))
        out.append(q.group())
        at = q.end()
    out.append(WORD.sub(lambda m: table.get(m.group(), m.group()), text[at:]))
    return "".join(out)


def spans(text, table):
    return SPAN.sub(lambda m: code_span(m.group(), table), text)


def code_span(span, table):
    return "`" + code(span[1:-1], table) + "`"


def turn(text, mark, table):
    """Code by line, and of a comment, which begins with the mark, the code spans."""
    lines = []
    for line in text.split("\n"):
        found = re.search(r"(?:^|\s)" + re.escape(mark) + r"(?:\s|$)", line)
        cut = found.start() if found else len(line)
        lines.append(code(line[:cut], table) + spans(line[cut:], table))
    return "\n".join(lines)


def main():
    everywhere, here = rows()
    files = [os.path.join(d, f) for d, _, fs in os.walk("crates") if "/out" not in d for f in fs if f.endswith((".antt", ".rt"))]
    files += ["README.md"] + [os.path.join("docs", f) for f in os.listdir("docs") if f.endswith(".md")]
    texts = {}
    for path in sorted(files):
        with open(path, encoding="utf-8") as f:
            texts[path] = f.read()
    if not any(re.search(r"\bkeptVolume\b", t) for p, t in texts.items() if p.endswith(".antt")):
        sys.exit("respell: the names are turned already")
    for path, text in texts.items():
        table = everywhere | here.get(path, {})
        if path.endswith(".md"):
            new = spans(text, table)
        else:
            new = turn(text, "--" if path.endswith(".antt") else "//", table)
        if new != text:
            with open(path, "w", encoding="utf-8") as f:
                f.write(new)


main()
