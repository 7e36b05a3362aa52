#!/usr/bin/env python3
"""Counts the places of docs/DESIGN-PASS.md in the sources: python3 tools/places.py [-l] [CRATES_FOLDER].

-l lists each place. A place is a line of crates/*/src that a pattern below finds; what a pattern can't tell apart
(whether an enum has the shape of an Option) is named here by hand, and the page says what was read.
"""
import collections
import glob
import re
import sys

ARGS = [a for a in sys.argv[1:] if a != "-l"]
ROOT = ARGS[0] if ARGS else "crates"
LIST = "-l" in sys.argv


def lines():
    for path in sorted(glob.glob(ROOT + "/*/src/*.rt")):
        for number, line in enumerate(open(path), 1):
            code = line.split("//")[0].rstrip()
            if code.strip():
                yield path[len(ROOT) + 1 :], number, code


def functions():
    """(file, name, parameters, result) of each function."""
    for path in sorted(glob.glob(ROOT + "/*/src/*.rt")):
        text = re.sub(r"//[^\n]*", "", open(path).read())
        for m in re.finditer(r"\bfn (\w+)(?:<[^>]*>)?\(([^)]*)\)(?:\s*->\s*([^\n{]+))?", text):
            parameters = [re.sub(r"\s+", " ", p).strip().removeprefix("mut ") for p in m.group(2).split(",") if ":" in p]
            parameters = [re.sub(r"'\w+ ", "", p) for p in parameters]
            yield path[len(ROOT) + 1 :], m.group(1), parameters, (m.group(3) or "").strip()


def grep(pattern):
    return [(p, n, c.strip()) for p, n, c in lines() if re.search(pattern, c)]


def enums():
    """Each enum with its variants."""
    for path in sorted(glob.glob(ROOT + "/*/src/*.rt")):
        text = re.sub(r"//[^\n]*", "", open(path).read())
        for m in re.finditer(r"\benum (\w+)[^{]*\{([^}]*)\}", text):
            yield path[len(ROOT) + 1 :], m.group(1), re.findall(r"\b([A-Z]\w*)\b(?=[\s(,=])", m.group(2) + ",")


def show(title, found):
    print(f"{len(found):5}  {title}")
    if LIST:
        for f in found:
            print("         ", *f)


# ---- 1
NOTHING = {"Nothing", "Gone", "Open", "Undefined", "Unknown", "Stuck", "Bad", "End", "None"}
REFUSED = {"Refused", "Stop", "Left", "NoToken", "Wrong", "Unfinished", "Strange"}
show("1a enums with a variant for nothing, or for a refusal", [(p, e, *v) for p, e, v in enums() if set(v) & (NOTHING | REFUSED)])
show("1b functions that answer true or false beside a value that they write (`-> bool` with a `&mut`)",
     [(p, f, *ps) for p, f, ps, r in functions() if r == "bool" and any("&mut" in x for x in ps)])
show("1b fields that say whether another field counts", grep(r"^\s*pub (bound: \[bool|settled: bool)"))
show("1c numbers of a refusal or an ending, written out", grep(r"\b(refusal|refused|outcome|Stop|Refused|ended|weighing)\([0-9]+"))
show("1c numbers for kinds: fields, parameters and payloads", grep(r"\b(operation|op|cmp|stage|class|number|full|comparator): (u8|u32)\b|\b(Compares|Operates|Mark|Stop|Refused)\(u8"))
show("1c constants that number variants", grep(r"pub const [A-Z_]+: u8 = [0-9]+;"))

# ---- 2: bodies that are alike but for names and numbers
def bodies():
    for path in sorted(glob.glob(ROOT + "/*/src/*.rt")):
        text = re.sub(r"//[^\n]*", "", open(path).read())
        for m in re.finditer(r"^( *)(?:pub )?fn (\w+)[\s\S]*?\n\1\{\n([\s\S]*?)\n\1\}", text, re.M):
            yield path[len(ROOT) + 1 :], m.group(2), m.group(3)


shapes = collections.defaultdict(list)
for path, name, body in bodies():
    key = re.sub(r"\b[A-Za-z_]\w*(::\w+)*\b", lambda m: m.group(0) if m.group(0) in ("if", "while", "for", "match", "return", "let", "mut", "else") else "x", body)
    key = re.sub(r"b?'[^']*'|b\"[^\"]*\"|\b\d+\b", "0", re.sub(r"\s+", " ", key))
    if len(body.splitlines()) >= 3:
        shapes[key].append((path, name))
show("2 functions whose bodies (of three lines or more) are alike but for names and numbers", [f for v in shapes.values() if len(v) > 1 for f in sorted(v)])

# ---- 3
show("3 `while` and `loop`", grep(r"^\s*(while|loop)\b"))
show("3 of them those over an index or a count", grep(r"^\s*while (\w+ < |0 < \w+)"))

# ---- 4
show("4 equality of fields by hand (`.0 ==`, `[k] !=`), and functions for it", grep(r"\.0 [!=]= |\b[de]\[\d\] [!=]= |fn same"))
show("4 words put together or taken apart, signs turned by hand", grep(r"/ (256|65536|16777216) %|\* (256|65536|16777216)\b|\b(4294967295|2147483648|4294967296)\b"))
show("4 values of zeros written out", grep(r"-> (Entry|Stored|Mark|RuleShape|Scan|Fact)\b"))
show("4 codes read by a match or ifs", grep(r"fn (kind_of|slot_by|operation_byte)\b"))
show("4 records copied field by field", grep(r"fn with_(kept|removed|guard|item|part|symbol|rule)\b"))

# ---- 5
together = collections.Counter()
for _, _, ps, _ in functions():
    names = sorted({re.sub(r"mut ", "", p) for p in ps})
    for i, a in enumerate(names):
        for b in names[i + 1 :]:
            together[a, b] += 1
pairs = [(n, f"{a}, {b}") for (a, b), n in together.most_common() if n >= 5]
show("5 pairs of parameters (name and type) that five functions or more share", pairs)
show("5 functions with seven parameters or more", [(p, f, len(ps)) for p, f, ps, _ in functions() if len(ps) >= 7])
facts = collections.Counter()
for path in glob.glob(ROOT + "/*/src/*.rt"):
    for m in re.finditer(r"requires(?: \w+)? \{([^}]*)\}", open(path).read()):
        for fact in re.findall(r"\b([A-Z]\w+) [a-z(]", m.group(1)):
            facts[fact] += 1
show("5 facts that three contracts or more ask", [(n, f) for f, n in facts.most_common() if n >= 3])

# ---- 6
show("6 arrays lent as parameters (columns, buffers with a count beside them)", grep(r":\s*&('\w+ )?(mut )?\[\w+; "))
show("6 counts that go beside a buffer", grep(r"\b(stored|noted|depth|to|k|n|count): (usize|u8),?$"))

# ---- 7
show("7 matches that choose what to run (arms that call, ten or more)", [(p, f) for p, f, b in bodies() if len(re.findall(r"=> \w+(::\w+)*\(", b)) >= 5])
