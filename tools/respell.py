#!/usr/bin/env python3
"""Gives the definitions and lemmas of this repository the spelling of the library: words in snake case, a dash only between two names.

usage: tools/respell.py            at the top of a checkout, right after the scripts of the kit have turned it

Turned are names that a file of specs/ or of proofs/ declares with a dash or a capital inside: `ruleAt` becomes `rule_at`, `kept-rules`
becomes `kept_rules`. A dash stays before a word of the library, as in `after-append`, and behind `length`. A lemma that would have the
name of its function gets `_lem`. Names of goals are no declarations, and functions of src/, texts, inputs and outputs keep their names.
A name is turned in a file that declares or imports it; a field everywhere.
It prints each name that falls together with another one in a file, and then changes nothing.
"""

import os
import re
import sys

LETTER = r"[\w'₀-₉-]"
TOKEN = re.compile(r"(?<!" + LETTER + r")([A-Za-z]" + LETTER + r"*)(?!" + LETTER + r")")
DECLARED = re.compile(r"^\s*(?:(?:abbrev|unfoldable|pub) )*([a-z]" + LETTER + r"*) : (.*)$")
IMPORT = re.compile(r"^\s*(?:pub )?(?:ghost )?use Rattle\.(\w+)\.(?:specs|proofs)\.[\w.'+-]+\.\{([^}]*)\}", re.M)
CLAUSE = re.compile(r"\s*(pub )?(ghost|requires|ensures)\b")
# names of the library that a lemma's name is joined to
WORDS = {"length", "append", "take", "drop", "map", "set", "insert", "replicate", "filter", "nth", "or", "and"}


def snake(name):
    return re.sub(r"([a-z0-9])([A-Z])", lambda m: m.group(1) + "_" + m.group(2).lower(), name)


def is_old(name):
    return "-" in name or snake(name) != name


def turned(name):
    parts = [snake(p) for p in name.split("-")]
    if len(parts) > 1 and parts[-1] in WORDS:
        return "_".join(parts[:-1]) + "-" + parts[-1]
    if len(parts) > 1 and parts[0] == "length":
        return "length-" + "_".join(parts[1:])
    return "_".join(parts)


def files(root):
    for folder, dirs, names in os.walk(os.path.join(root, "crates")):
        dirs[:] = sorted(d for d in dirs if d != "out")
        for n in sorted(names):
            if n.endswith((".antt", ".rt")):
                yield os.path.join(folder, n)


def crate_of(path):
    return path.split(os.sep + "crates" + os.sep)[1].split(os.sep)[0]


def below():
    """For each crate itself and the crates that its line of crates.txt lists."""
    lines = [line.split("#")[0] for line in open("crates.txt", encoding="utf-8")]
    return {line.split(":")[0].split()[0]: [line.split(":")[0].split()[0], *line.split(":")[1].split()] for line in lines if ":" in line}


def declarations(text):
    """The names that a file declares, each with whether it is a field of a record. Goals of functions are left out."""
    found, record = {}, None
    for line in text.splitlines():
        indent = len(line) - len(line.lstrip())
        if re.match(r"\s*(pub )?record \w", line):
            record = indent
            continue
        if line.strip() and record is not None and indent <= record:
            record = None
        m = DECLARED.match(line)
        if m and not m.group(2).startswith("goal."):
            found[m.group(1)] = record is not None
    return found


class Names:
    """The new names, by the crate that declares the old one."""

    def __init__(self, texts):
        self.declared = {p: declarations(t) for p, t in texts.items() if p.endswith(".antt")}
        self.fields = {n for names in self.declared.values() for n, field in names.items() if field and is_old(n)}
        functions, lemmas = {}, {}
        for p, names in self.declared.items():
            for n, field in names.items():
                definition = not field and ("/specs/" in p or (is_old(n) and "-" not in n))
                if definition:
                    functions.setdefault(crate_of(p), {}).setdefault(turned(n), set()).add(n)
                elif not field:
                    lemmas.setdefault(crate_of(p), set()).add(n)
        self.new, deps = {}, below()
        for p, names in self.declared.items():
            crate = crate_of(p)
            for n in names:
                of = {m for c in deps[crate] for m in functions.get(c, {}).get(turned(n), set())}
                if n in lemmas.get(crate, set()) and of and n not in of:
                    self.new[crate, n] = turned(n) + "_lem"
                elif is_old(n):
                    self.new[crate, n] = turned(n)

    def here(self, path, text):
        """Old and new names that the file declares or imports."""
        found = {n: (crate_of(path), n) for n in self.declared.get(path, {})}
        for crate, listed in IMPORT.findall(text):
            found |= {n.strip().split(" as ")[0]: (crate, n.strip().split(" as ")[0]) for n in listed.split(",")}
        new = {n: self.new[key] for n, key in found.items() if key in self.new}
        return {n: turned(n) for n in self.fields} | new


def respelt(line, new, fields):
    """The line with the new names. After a dot stands a field, or a goal that the check names."""

    def swap(m):
        before = line[: m.start()]
        if before.endswith("goal.") or (before.endswith(".") and m.group(1) not in fields):
            return m.group(1)
        return new.get(m.group(1), m.group(1))

    return TOKEN.sub(swap, line)


def respelt_file(path, text, new, fields):
    lines = []
    for line in text.split("\n"):
        if path.endswith(".rt") and not CLAUSE.match(line):
            lines.append(line)
            continue
        at = line.find("-- ") if path.endswith(".antt") else -1
        code, comment = (line, "") if at < 0 else (line[:at], line[at:])
        lines.append(respelt(code, new, fields) + re.sub(r"`[^`]*`", lambda m: respelt(m.group(0), new, fields), comment))
    return "\n".join(lines)


def main():
    texts = {p: open(p, encoding="utf-8").read() for p in files(os.getcwd())}
    names = Names(texts)
    clashes, out = [], {}
    for p, text in texts.items():
        tokens = set(TOKEN.findall(text))
        new = {n: w for n, w in names.here(p, text).items() if n in tokens}
        for n, w in new.items():
            if any(m != n and new[m] == w for m in new) or (p.endswith(".antt") and w in tokens and w not in new):
                clashes.append(f"{p}: {n} would be {w}, which is there already")
        out[p] = respelt_file(p, text, new, names.fields)
    if clashes:
        print("\n".join(sorted(clashes)))
        sys.exit(1)
    changed = [p for p in texts if out[p] != texts[p]]
    for p in changed:
        with open(p, "w", encoding="utf-8") as f:
            f.write(out[p])
    print(f"respell: {len(changed)} files changed")


if __name__ == "__main__":
    main()
