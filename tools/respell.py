#!/usr/bin/env python3
"""Brings this repository's own names in specs/ and proofs/ to today's spelling: words in snake case, types in camel case.

  python3 tools/respell.py [--list]        once, at the top, right after /opt/rattle/port/port.py

A name is this repository's own where a file of specs/ or a lemma file of proofs/ declares it. Every token that is such a name is
respelled, in specs/, in proofs/ and in the clauses of src/; comments and strings stay. --list prints old and new, and changes nothing."""
import os, re, sys

CLOSED = re.compile(r"""(\s+|[(){}\[\];,.λ"⌜⌝?]+)""")
DECLARED = re.compile(r"^\s*(?:unfoldable |abbrev |pub )*(?:record |data )?([^\s:(){}\"]+)\s*(?::|\()")
GIVEN = {"Answers.antt", "Invariants.antt", "Proof.antt"}
# std declares these; a proof that names one of them means std's
STD = {"get_or-set_other", "get_or-set_same"}
# declared in a form that DECLARED does not read, or brought in under another name
EXTRA = {"Laid_out": "LaidOut", "Build-answer": "BuildAnswer", "build-number": "build_number", "fault-number": "fault_number", "refusal-number": "refusal_number", "sheet-number": "sheet_number", "template-number": "template_number"}
# rehearsal has an enum CallAnswer
OTHERWISE = {"Call-answer": "AnsweredCall"}


def files(*endings):
    for folder, dirs, names in os.walk("crates"):
        dirs[:] = sorted(d for d in dirs if d not in ("out", "must-fail", "data"))
        for name in sorted(names):
            if name.endswith(endings):
                yield os.path.join(folder, name)


def text_of(path):
    with open(path, encoding="utf-8") as f:
        return f.read()


def respelled(name):
    parts = name.split("-")
    if name[0].isupper() and len(parts[0]) > 1:
        return "".join(p[:1].upper() + p[1:] for p in parts)
    return "_".join(parts)


def own_names():
    names = dict(EXTRA)
    for path in files(".antt"):
        if os.path.basename(path) in GIVEN and "/proofs/" in path:
            continue
        for line in text_of(path).split("\n"):
            found = None if line.lstrip().startswith("--") else DECLARED.match(line)
            if found and re.fullmatch(r"[\w']+(?:-[\w']+)+", found.group(1)) and found.group(1) not in STD:
                names[found.group(1)] = respelled(found.group(1))
    return names | {old: new for old, new in OTHERWISE.items() if old in names}


def turned_line(line, names, mark):
    code, sign, comment = line.partition(mark)
    if mark == "//" and '"' in code:
        return line
    return "".join(names.get(token, token) for token in CLOSED.split(code)) + sign + comment


def main():
    names = own_names()
    tokens = {token for path in files(".antt", ".rt") for token in CLOSED.split(text_of(path))}
    for old, new in sorted(names.items()):
        if "--list" in sys.argv:
            print(old, new, "(the new name stood already)" if new in tokens else "")
    if "--list" in sys.argv:
        return
    for path in files(".antt", ".rt"):
        old = text_of(path)
        mark = "//" if path.endswith(".rt") else "-- "
        new = "\n".join(turned_line(line, names, mark) for line in old.split("\n"))
        if new != old:
            with open(path, "w", encoding="utf-8") as f:
                f.write(new)


main()
