#!/usr/bin/env python3
"""Respells the definitions and lemmas of crates/: words in snake case, types and modules in camel case. Run once, after the kit's port.py.

usage: tools/respell.py [--list]

A name is turned where specs/ or proofs/ declares it: `triangleCount` to `triangle_count`, `foot-as-told` to `foot_as_told`. Names of src/ and of goals
stay, and so do names that a file brings in from the library. Where two names would fall together, the lemma gets `_lem`. --list prints the table alone.
"""
import collections, glob, os, re, sys

os.chdir(os.path.join(os.path.dirname(os.path.abspath(__file__)), ".."))
OWN = {os.path.basename(c) for c in glob.glob("crates/*") if os.path.isdir(os.path.join(c, "src"))}
HEAD = re.compile(r"^(\s*)((?:pub |abbrev |unfoldable |data |record |ruleset |module )*)([^\s:({]+) *(?=[:({=])")
FIELDS = re.compile(r"^(\s*)((?:pub )?[A-Za-z][\w'-]*(?: [A-Za-z][\w'-]*)+) *:")
TOKEN = re.compile(r"[^\s(){};,.«»:`]+")
USE = re.compile(r"^\s*(?:pub )?(?:ghost )?use ([^\s;]+?)(?:\.\{([^}]*)\}|(?: as (\S+?)))?;?\s*$")
PATHS = sorted(glob.glob("crates/*/specs/**/*.antt", recursive=True) + glob.glob("crates/*/proofs/**/*.antt", recursive=True)
               + glob.glob("crates/*/src/**/*.rt", recursive=True))
PAGES = sorted(glob.glob("*.md") + glob.glob("docs/*.md") + glob.glob("examples/*.md"))
EDITS = sorted(glob.glob("crates/*/must-fail/*.edit"))


def read(path):
    with open(path, encoding="utf-8") as f:
        return f.read()


def is_code_proof(path):
    return "/proofs/" in path and path.endswith("/Proof.antt")


def snake(name):
    """The name in snake case; a name that begins with a capital keeps its camel case up to the first dash."""
    head, tail = name, ""
    if name[:1].isupper():
        head, dash, tail = name.partition("-")
        return head + ("-" + snake(tail) if dash else "")
    if not re.match(r"[a-z]", name):
        return name
    return re.sub(r"(?<=[a-z0-9'])(?=[A-Z])|(?<=[A-Z])(?=[A-Z][a-z])", "_", name.replace("′", "'").replace("-", "_")).lower()


def goals(text):
    """The names in a function's proof that are goals, and its last line's."""
    return set(re.findall(r"^(\S+) : tie\.", text, re.M)) | set(re.findall(r"^pub (\S+) :.*statement M", text, re.M)) | set(re.findall(r"\btie\.([^\s(){};,]+)", text))


def brought(text):
    """The names that a file brings in from modules that are not this repository's, or that are made from its code."""
    found = set()
    for line in text.split("\n"):
        m = USE.match(line)
        if not m:
            continue
        parts = m.group(1).split(".")
        own = parts[0] == "Rattle" and len(parts) > 1 and parts[1] in OWN
        made = own and ("declared" in parts or "contracts" in parts or parts[-1] in ("Goals", "Given", "Statement", "Tie"))
        if own and not made:
            continue
        for item in (m.group(2) or "").split(","):
            words = item.split()
            if words:
                found.add(words[-1])
                found.add(words[0])
        found.update(parts)
    return found


declared = collections.defaultdict(set)
fields = set()
for path in PATHS:
    if path.endswith(".rt"):
        continue
    text = read(path)
    kept = goals(text) if is_code_proof(path) else set()
    here = "S" if "/specs/" in path else "F" if is_code_proof(path) else "P"
    for line in text.split("\n"):
        if line.lstrip().startswith("--"):
            continue
        m = HEAD.match(line)
        names = [m.group(3)] if m else []
        if m and m.group(1):
            fields.add(m.group(3))
        m = FIELDS.match(line)
        if m:
            names += m.group(2).removeprefix("pub ").split()
            fields.update(names)
        for name in names:
            if name not in kept and not name.startswith("+"):
                declared[name].add(here)

table = {name: snake(name) for name in declared if snake(name) != name}
groups = collections.defaultdict(set)
for name in declared:
    groups[table.get(name, name)].add(name)
for target, names in sorted(groups.items()):
    if len(names) > 1:
        specs = [n for n in names if "S" in declared[n]]
        lemmas = [n for n in names if "S" not in declared[n]]
        if specs or len(lemmas) > 1:
            for n in sorted(lemmas, key=lambda n: (n == target, n))[0 if specs else 1:]:
                if n != target:
                    table[n] = target + "_lem"
        if len(specs) > 1 or len(lemmas) > 1:
            print("together:", target, specs, lemmas, file=sys.stderr)
if "--list" in sys.argv:
    for name in sorted(table):
        print(name, table[name], "".join(sorted(declared[name])))
    sys.exit()


def turn(text, kept, paths=False):
    """The text with the table's names. With paths, what follows a dot is a name of the table only after a module, or where it is a field."""

    def name(m):
        it = m.group()
        if it not in table or it in kept:
            return it
        if paths and m.start() and text[m.start() - 1] == ".":
            before = re.search(r"([^\s(){};,«»:`.]*)\.$", text[: m.start()]).group(1)
            if not before[:1].isupper() and it not in fields:
                return it
        return table[it]

    return TOKEN.sub(name, text)


def turn_edit(text):
    """The text of an edit, in which a name may still be as it was before port.py: turned where the new spelling is declared and the old is not."""
    new = {table.get(name, name) for name in declared}
    return TOKEN.sub(lambda m: m.group() if m.group() in new or snake(m.group()) not in new else snake(m.group()), turn(text, set()))


def ticked(line):
    """A comment or a page's line: only what stands between back ticks."""
    return re.sub(r"`[^`\n]+`", lambda m: turn_edit(m.group()), line)


for path in PATHS:
    old = text = read(path)
    kept = brought(text) | (goals(text) if is_code_proof(path) else set())
    lines = []
    clause = 0  # how deep in braces a clause of a .rt file stands
    for line in text.split("\n"):
        comment = line.lstrip().startswith(("--", "//"))
        if comment:
            lines.append(ticked(line))
            continue
        if path.endswith(".rt"):
            if clause or re.match(r"\s*(ghost|requires|ensures)\b", line):
                line = turn(line, kept)
                if not line.lstrip().startswith("ghost use"):
                    clause += line.count("{") - line.count("}")
            lines.append(line)
            continue
        new = turn(line, kept, is_code_proof(path))
        if USE.match(line):
            m = USE.match(line)
            parts = m.group(1).split(".")
            if not (parts[0] == "Rattle" and len(parts) > 1 and parts[1] in OWN):
                new = line
            else:
                new = line[: m.start(1)] + m.group(1) + turn(line[m.end(1):], set() if not brought(line) else kept)
        lines.append(new)
    text = "\n".join(lines)
    tokens = set(TOKEN.findall(old))
    for name in tokens & set(table):
        if name not in kept and table[name] in tokens and table[name] in set(TOKEN.findall(re.sub(r"(?m)^\s*(--|//).*$", "", old))):
            print(f"beside: {path}: {name} becomes {table[name]}, which stands there", file=sys.stderr)
    if text != old:
        with open(path, "w", encoding="utf-8") as f:
            f.write(text)
for path in PAGES + EDITS:
    old = read(path)
    if path.endswith(".edit"):
        text = "\n".join(turn_edit(line) if line.startswith(("old:", "new:")) else line for line in old.split("\n"))
    else:
        text = "\n".join(ticked(line) for line in old.split("\n"))
    if text != old:
        with open(path, "w", encoding="utf-8") as f:
            f.write(text)
