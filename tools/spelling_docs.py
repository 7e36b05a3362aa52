#!/usr/bin/env python3
"""Brings the names that tools/spelling.py put into snake case to the documents and to the comments of host/.

usage: tools/spelling_docs.py [--dry] COMMIT     at the top; COMMIT holds the text that port.py was given

Only what stands between backticks, or in a document's indented lines, changes: a name that the definitions and proofs of COMMIT have in lower
camel case, that no crate has any more, and whose new spelling one has: `guardValue` is `guard_value`. It says which other names of such a form
are left.
"""

import pathlib
import re
import subprocess
import sys

CODE = {".md": re.compile(r"`[^`\n]+`|^    .*", re.M)}
QUOTED = re.compile(r"`[^`\n]+`")
NAME = re.compile(r"(?<![\w'-])[a-z][\w'-]*")
CAMEL = re.compile("[a-z0-9_][A-Z]")
WHERE = ["README.md", "docs/*.md", "docs/changes/*.md", "examples/**/*.md", "host", "include", "crates/*/src"]


def snake(name):
    return re.sub(r"(?<=[a-z0-9_])([A-Z]+)", lambda m: "_" + m.group(1).lower(), name)


def git(*words):
    return subprocess.run(["git", *words], capture_output=True, text=True, check=True).stdout


def names_before(commit):
    files = git("ls-tree", "-r", "--name-only", commit, "crates").splitlines()
    return {n for f in files if f.endswith(".antt") for n in NAME.findall(git("show", f"{commit}:{f}"))}


def names_now():
    files = git("ls-files", "crates/*.antt", "crates/*.rt").splitlines()
    return {n for f in files if pathlib.Path(f).exists() for n in NAME.findall(pathlib.Path(f).read_text(encoding="utf-8"))}


def main():
    dry = "--dry" in sys.argv[1:]
    given = [a for a in sys.argv[1:] if a != "--dry"]
    if len(given) != 1:
        sys.exit(__doc__)
    now = names_now()
    renamed = {n: snake(n) for n in names_before(given[0]) if CAMEL.search(n) and n not in now and snake(n) in now}
    left, changed = set(), 0

    def word(m):
        name = m.group(0)
        if name not in renamed and CAMEL.search(name):
            left.add(name)
        return renamed.get(name, name)

    for path in map(pathlib.Path, git("ls-files", *WHERE).splitlines()):
        text = path.read_text(encoding="utf-8")
        new = CODE.get(path.suffix, QUOTED).sub(lambda m: NAME.sub(word, m.group(0)), text)
        if new != text:
            changed += 1
            if not dry:
                path.write_text(new, encoding="utf-8")
    print(f"{changed} files; left as they are: {' '.join(sorted(left)) or 'none'}")


main()
