#!/usr/bin/env python3
"""Respells the names of definitions, fields and lemmas that this repository declares in its .antt files, after port.py.

usage: python3 tools/respell.py [--edits]     at the top of the repository; once
       --edits: also in must-fail/*.edit and tests/edits/*/*.edit, whose lines must fit the text of the crates

A name in camel case that begins with a small letter gets underscores, a variable too. In a name with a dash, the dash stays where both sides
are names of definitions, and is an underscore elsewhere, since a plain word is added so. Types, modules, operators, the names
of functions of src/ and the names that Rattle makes of them stay. A name that a file has from a library stays in that file.
A field gets underscores alone. Where a lemma would get the name of a definition, or of another lemma, it gets _lem behind it;
the table OTHER below has the fields for which this does not do.
"""

import collections
import os
import re
import sys

# fields that would fall together with a definition that stands beside them, each with the name that it gets instead
OTHER = {"state-cap": "state_cap_is", "arc-cap": "arc_cap_is", "limits-fit": "within_limits"}

MIXED = re.compile(r"(?<![\w])[a-z][a-z0-9_]*(?:[A-Z][a-z0-9_]+)+(?!\w)")
WORD = r"[^\s(){}\[\].;,@\"«»λ]+"
DECLARED = re.compile(r"^ *(?:(?:abbrev|unfoldable|opaque) )*(?:pub )?(?:(?:abbrev|unfoldable) )*([^\s(){}\[\].;,@\"«»]+)(?: \{[^{}\n]*\})* :(?= |$)", re.M)
RECORD = re.compile(r"^( *)(?:pub )?record .*\n(?:(?:\1  .*)?\n)*", re.M)
FIELD = re.compile(r"^ +pub ([^\s(){}\[\].;,@\"«»]+) :(?= |$)", re.M)
TYPE = re.compile(r"^(?:pub )?(?:data|record) (\S+)", re.M)
IMPORT = re.compile(r"\buse (Rattle\.\w+|[\w]+)([^\s;{]*?)(?:\.?\{([^}]*)\})?(?: as ([^\s;]+))?;?[ \t]*$", re.M)
LIBRARIES = {"std", "core", "io", "libc", "os", "std_alloc", "std_collections", "std_heap", "std_io", "check"}


def files(top, endings):
    for folder, dirs, names in os.walk(top):
        dirs[:] = sorted(d for d in dirs if d not in ("out", "target", ".git"))
        for name in sorted(names):
            if name.endswith(endings):
                yield os.path.join(folder, name)


def read(path):
    with open(path, encoding="utf-8") as file:
        return file.read()


def in_function(path):
    """Whether the file belongs to the proof of one function: a Proof.antt, Answers.antt or Invariants.antt."""
    return "/proofs/" in path and os.path.basename(path) in ("Proof.antt", "Answers.antt", "Invariants.antt")


def camel(name):
    return re.fullmatch(r"[a-z][\w'-]*", name) is not None and re.search(r"[a-z0-9][A-Z]", name) is not None


def snake(word):
    """One word: camel case of a small first letter turned; types keep theirs."""
    if not re.match(r"[a-z]", word):
        return word
    word = re.sub(r"(?<=[a-z0-9])([A-Z])(?=[A-Z])", lambda m: "_" + m[1].lower(), word)
    return re.sub(r"(?<=[a-z0-9])[A-Z]", lambda m: "_" + m[0].lower(), word)


def declared(paths):
    """The names that the files declare, with whether one is a definition of specs/."""
    names = collections.defaultdict(set)
    for path in paths:
        if in_function(path):
            continue
        text = read(path)
        for block in RECORD.finditer(text):
            for match in FIELD.finditer(block[0]):
                names[match[1]].add("field")
        for match in DECLARED.finditer(RECORD.sub("\n", text)):
            names[match[1]].add("specs" if "/specs/" in path else "proofs")
            names[match[1]].add("top")
        for match in TYPE.finditer(text):
            names[match[1]].add("type")
    return names


def respelled(names):
    """The table of old and new names."""
    known = {n for n, kinds in names.items() if "specs" in kinds or "type" in kinds}
    table = {}
    for name in names:
        if name in OTHER:
            table[name] = OTHER[name]
            continue
        if re.search(r"[◌≡≤<>+*→]", name):
            continue
        parts = name.split("-")
        if any(not p for p in parts):
            continue
        new = snake(parts[0])
        for before, after in zip(parts, parts[1:]):
            plain = "top" not in names[name] and "field" in names[name]
            new += ("-" if before in known and after in known and not plain else "_") + snake(after)
        if new != name:
            table[name] = new
    return apart(names, table)


def apart(names, table):
    """The table with names told apart that would fall together: a definition keeps its name, a lemma gets _lem behind it."""
    back = collections.defaultdict(set)
    for name in names:
        back[table.get(name, name)].add(name)
    for new, olds in back.items():
        olds = {n for n in olds if "field" not in names[n] or "top" in names[n]}
        if len(olds) < 2:
            continue
        first = min(olds, key=lambda n: ("specs" not in names[n], not camel(n), "-" in n, n))
        for name in olds - {first}:
            table[name] = new + "_lem"
    return table


def from_library(text):
    """The names that the text imports from a library of the kit."""
    out = set()
    for match in IMPORT.finditer(text):
        crate = match[1].split(".")[-1]
        ours = match[1].startswith("Rattle.") and crate not in LIBRARIES
        if not ours and match[3]:
            out |= {w.strip().split(" as ")[0] for w in match[3].split(",")}
    return out


def ours_in(text):
    """The names that the text imports from this repository, and the short names of its modules there."""
    names, modules = set(), set()
    for match in IMPORT.finditer(text):
        crate = match[1].split(".")[-1]
        if not match[1].startswith("Rattle.") or crate in LIBRARIES:
            continue
        if match[3]:
            names |= {w.strip().split(" as ")[0] for w in match[3].split(",")}
        else:
            modules.add(match[4] or (match[1] + match[2]).split(".")[-1])
    return names, modules


def turned(path, text, table, fields, alone):
    """The text with the names respelled."""
    lent = from_library(text) - {m[1] for m in DECLARED.finditer(text)}
    names, modules = ours_in(text)
    own = {m[1] for m in DECLARED.finditer(text)} if not in_function(path) else set()
    rust = path.endswith(".rt") or path.endswith(".edit")

    def one(match):
        word = match[0]
        if word not in table and word not in lent and MIXED.search(word) and not word.startswith("the_"):
            return MIXED.sub(lambda m: snake(m[0]), word)
        if word not in table or word in lent:
            return word
        before, after = text[: match.start()], text[match.end() :]
        if word in fields and (word in alone or re.search(r"\.$|\n +pub $", before[-40:]) or (after.startswith(" =") and not before.endswith("\n"))):
            return OTHER.get(word) or "_".join(snake(p) for p in word.split("-"))
        if camel(word):
            return table[word]
        if before.endswith("."):
            module = re.search(r"([\w'-]+)\.$", before)
            return table[word] if module and module[1] in modules else word
        if word in own or word in names:
            return table[word]
        return word

    return re.sub(WORD if not rust else r"(?<![\w.'\"-])" + r"[a-zℕ][\w'-]*" + r"|(?<=\.)[a-z][\w'-]*", one, text)


def main(argv):
    paths = list(files("crates", (".antt",)))
    names = declared(paths)
    table = respelled(names)
    fields = {n for n, kinds in names.items() if "field" in kinds and n in table}
    alone = {n for n in fields if "top" not in names[n]}
    for name, new in sorted(table.items()):
        if new.endswith("_lem") or name in OTHER:
            print(f"told apart: {name} -> {new}")
    if "--dry" in argv:
        return report(table)
    endings = (".antt", ".rt") + ((".edit",) if "--edits" in argv else ())
    tops = ["crates"] + (["tests/edits"] if "--edits" in argv else [])
    for top in tops:
        for path in files(top, endings):
            text = read(path)
            new = turned(path, text, table, fields, alone)
            if new != text:
                with open(path, "w", encoding="utf-8") as file:
                    file.write(new)
    return 0


def report(table):
    """Files in which a new name stands already."""
    for path in files("crates", (".antt", ".rt")):
        text = read(path)
        code = re.sub(r"(?m)--.*$" if path.endswith(".antt") else r"(?m)//.*$", "", text)
        words = set(re.findall(r"[\w'-]+", code))
        for old, new in table.items():
            if old in words and new in words:
                calls = path.endswith(".rt") and not re.search(rf"(?<![\w.]){new}\s*(:[^:]|[,)|=}}])", code)
                if not calls:
                    print(f"beside: {path}: {old} -> {new}")
    return 0


if __name__ == "__main__":
    raise SystemExit(main(sys.argv[1:]))
