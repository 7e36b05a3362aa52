#!/usr/bin/env python3
"""Brings the project's own names to the spelling of today's Rattle, behind its port.py.

usage: tools/spelling.py [COMMIT]     at the top; COMMIT (or HEAD) holds the text that port.py was given

Two rules, on .antt files and on the clauses and ghost items of .rt files:
- a definition, a field or a variable of the project in lower camel case gets snake case: `guardValue` is `guard_value`. Types, modules and
  functions of src/ keep their names.
- a lemma joins its words by dashes, as it did. Where port.py took the dashes away because a library has the same word, they come back:
  else `run-kept` would stand beside `run_done`.

It says which names of a file fall together.
"""

import collections
import os
import re
import subprocess
import sys

COMMIT = next((a for a in sys.argv[1:] if a != "--dry"), "HEAD")
NAME = re.compile(r"(?<![\w'-])[a-z][\w'′-]*[\w'′]|(?<![\w'-])[a-z](?![\w'-])")
DECLARED = re.compile(r"^\s*(?:unfoldable |abbrev |opaque )*(?:pub )?(?:record |data )?([a-z][\w'′-]*)(?: [^:=]*)? :(?: |$)")
CLAUSE = re.compile(r"^\s*(ghost\b|requires\b|ensures\b|also_|invariant\b)")

def snake(name):
    return re.sub(r"(?<=[a-z0-9_])([A-Z]+)", lambda m: "_" + m.group(1).lower(), name).replace("_ℤ", "ℤ")


def texts():
    for folder, dirs, files in os.walk("crates"):
        dirs[:] = sorted(d for d in dirs if d != "out")
        for f in sorted(files):
            if f.endswith((".antt", ".rt")):
                yield os.path.join(folder, f)


def before(path):
    run = subprocess.run(["git", "show", f"{COMMIT}:{path}"], capture_output=True, text=True)
    return run.stdout if run.returncode == 0 else ""


def declared(text):
    names = set()
    for line in text.splitlines():
        if line.startswith(("use ", "--")):
            continue
        m = DECLARED.match(line)
        if m:
            names.add(m.group(1))
    return names


def fields(text):
    """The names of the fields of records: each stands in snake case, as in the projections that port.py wrote."""
    names, inside = set(), False
    for line in text.splitlines():
        if not line.startswith((" ", "\t")):
            inside = bool(re.match(r"(pub )?record ", line))
        m = inside and re.match(r"\s+(?:pub )?([a-z][\w'′-]*) :", line)
        if m:
            names.add(m.group(1))
    return names


def spell(text, renamed, dashed, rattle):
    def word(m):
        name = m.group(0).replace("′", "'")
        if name in renamed:
            return renamed[name]
        if name in dashed and m.string[m.start() - 1 : m.start()] != ".":
            return dashed[name]
        return name

    out, inside = [], False
    for line in text.split("\n"):
        if rattle:
            starts = bool(CLAUSE.match(line))
            inside = (inside and "}" not in last) or starts
            last = line
            if not inside:
                out.append(line)
                continue
        code, mark, note = line.partition("--") if not rattle else (line, "", "")
        if not mark or code.strip():
            code = NAME.sub(word, code)
        if mark:
            note = re.sub(r"`[^`]*`", lambda m: NAME.sub(word, m.group(0)), note)
        out.append(code + mark + note)
    return "\n".join(out)


def main():
    old = {p: before(p) for p in texts()}
    own, of_records = set(), set()
    for text in old.values():
        own |= declared(text)
        of_records |= fields(text)
    every = set()
    for path, text in old.items():
        every |= set(NAME.findall(text)) if path.endswith(".antt") else set()
    camel = {n: snake(n) for n in every if re.search("[a-z0-9_][A-Z]", n)}
    camel.update({n: n.replace("-", "_") for n in of_records if "-" in n})
    dashes = {n.replace("-", "_"): n for n in own - of_records if "-" in n}
    changed, bad = 0, 0
    for path, was in old.items():
        with open(path, encoding="utf-8") as f:
            now = f.read()
        words = set(NAME.findall(was))
        here, imported = set(NAME.findall(now)), set()
        for m in re.finditer(r"^(?:ghost )?use (?:Rattle\.std|borrow|logic|mir|lib|native|mathlib|Prim)\.[^{;\n]*\{([^}]*)\}", now, re.M):
            imported |= {w.split(" as ")[-1].strip() for w in m.group(1).split(",")}
        dashed = {flat: snake(n) for flat, n in dashes.items() if n in words and n not in here and flat not in imported}
        new = spell(now, camel, dashed, path.endswith(".rt"))
        if path.endswith(".antt"):
            free = {m.group(0) for m in NAME.finditer(was) if m.string[m.start() - 1 : m.start()] not in (".", "·")}
            for name in sorted(free & set(camel)):
                if camel[name] in free:
                    print(f"together: {path}: {name} and {camel[name]}")
                    bad += 1
        if new != now:
            changed += 1
            if "--dry" not in sys.argv:
                with open(path, "w", encoding="utf-8") as f:
                    f.write(new)
    print(f"{changed} files, {len(camel)} names in snake case, {bad} fall together")


main()
