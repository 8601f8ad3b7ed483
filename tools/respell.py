#!/usr/bin/env python3
"""Spells the repository's own names in specs/, proofs/ and clauses as Rattle's libraries do: words in snake case.

usage: tools/respell.py [--check]      at the top of the repository

openSets becomes open_sets, and a dash in a name that a file of specs/ or a file of lemmas declares becomes an underscore.
Types, modules, functions of src/, exported C names and strings keep their spelling. --check writes nothing and lists the
names that would fall together. It was run once, right after the scripts of the toolchain. docs/PORT.md says the rest.
"""
import collections
import glob
import os
import re
import sys

CAMEL = re.compile(r"(?<=[a-z0-9₀-₉])[A-Z]")
TOKEN = re.compile(r"[^\s(){}\[\].;,:@\"`«»|?!]+")
DECLARED = re.compile(
    r"^[ ]*(?:(?:abbrev|unfoldable|opaque|recursive|pub|record|data|module|instance)\s+)*"
    r"([^\s(){}\[\].;,:@\"`«»|]+)(?:\s+\{[^{}\n]*\})*\s+:(?=\s|$)",
    re.M,
)
OTHERS = re.compile(r"use ([^\s;{]+)\.\{([^}]*)\}")
# Fields and hypotheses that would fall together with a definition in its new spelling, by the file in which they do ('' for
# every file of specs/ and proofs/): another name for them.
COUNTED = {"step_count": "step_count_is"}
OWN_SPELLING = {
    "": {"is_open": "is_open_true", "is_member": "is_member_true"},
    "crates/model/specs/Planning.antt": COUNTED,
    "crates/planning/proofs/WrittenSite.antt": COUNTED,
    "crates/demands/proofs/ManyBoards.antt": COUNTED,
    "crates/demands/proofs/ShortPlans.antt": COUNTED,
}


def files():
    for pattern in ("specs/**/*.antt", "proofs/**/*.antt", "src/**/*.rt"):
        for path in sorted(glob.glob("crates/*/" + pattern, recursive=True)):
            yield path


def parts(path, text):
    """Yields (kind, piece): 'code', 'comment' or 'string'."""
    mark = "--" if path.endswith(".antt") else "//"
    if path.endswith(".antt"):
        pattern = re.compile(r'(?m)(?:^|(?<=\s))--.*$|"(?:\\.|[^"\\\n])*"')
    else:
        pattern = re.compile(r'(?m)//.*$|b?"(?:\\.|[^"\\])*"')
    at = 0
    for m in pattern.finditer(text):
        if m.start() > at:
            yield "code", text[at : m.start()]
        yield ("comment" if m[0].startswith(mark) else "string"), m[0]
        at = m.end()
    if at < len(text):
        yield "code", text[at:]


def camel_turned(name):
    turned = []
    for segment in name.split("-"):
        if segment[:1].islower():
            segment = CAMEL.sub(lambda m: "_" + m[0].lower(), segment)
        turned.append(segment)
    return "-".join(turned)


class Speller:
    def __init__(self):
        own = set()
        with open("crates.txt", encoding="utf-8") as f:
            for line in f:
                if ":" in line and not line.startswith("#"):
                    own.add(line.split(":")[0].split()[0])
        self.texts = {}
        declared, theirs, tokens = set(), set(), collections.Counter()
        for path in files():
            with open(path, encoding="utf-8") as f:
                text = f.read()
            self.texts[path] = text
            code = "".join(p if k == "code" else " " for k, p in parts(path, text))
            tokens.update(TOKEN.findall(code))
            for where, names in OTHERS.findall(code):
                steps = where.split(".")
                if steps[0] != "Rattle" or steps[1] not in own:
                    theirs.update(n.split(" as ")[0].strip() for n in names.split(","))
            if path.endswith(".antt") and not path.endswith("/Proof.antt"):
                declared.update(n for n in DECLARED.findall(code) if "-" in n.strip("-") and n[:1].islower())
        self.table, self.known = {}, set(tokens)
        for token in tokens:
            new = camel_turned(token)
            if token in declared and token not in theirs:
                new = new.replace("-", "_")
            if new != token and token not in theirs:
                self.table[token] = new
        # A name with dashes gives way where another name has its new spelling.
        taken = collections.defaultdict(set)
        for token in tokens:
            taken[self.table.get(token, token)].add(token)
        self.together = {new: olds for new, olds in taken.items() if len(olds) > 1}
        for new, olds in self.together.items():
            for old in olds:
                if "-" in old and old in self.table:
                    self.table[old] = camel_turned(old)
                    if self.table[old] == old:
                        del self.table[old]

    def of(self, path):
        if not path.endswith(".antt"):
            return self.table
        return {**self.table, **OWN_SPELLING[""], **OWN_SPELLING.get(path, {})}

    def turn(self, path, text):
        table = self.of(path)
        out = []
        for kind, piece in parts(path, text):
            if kind == "code":
                piece = TOKEN.sub(lambda m: table.get(m[0], m[0]), piece)
            elif kind == "comment":
                piece = self.prose(piece, table)
            out.append(piece)
        return "".join(out)

    def prose(self, text, table=None):
        """A name in prose is turned where it stands in backquotes, or is written with a capital inside.

        The toolchain's scripts turned some names before, but no pages: their new spelling is known by the code.
        """
        table = table or self.table
        one = lambda t: table.get(t, camel_turned(t) if camel_turned(t) in self.known else t)
        quoted = lambda m: "`" + TOKEN.sub(lambda t: one(t[0]), m[1]) + "`"
        text = re.sub(r"`([^`\n]*)`", quoted, text)
        plain = lambda m: table.get(m[0], m[0]) if CAMEL.search(m[0]) else m[0]
        return TOKEN.sub(plain, text)

    def clashes(self):
        """Lists, file by file, the new names that another token of the file has already."""
        for path, text in self.texts.items():
            code = "".join(p if k == "code" else " " for k, p in parts(path, text))
            have = set(TOKEN.findall(code))
            table = self.of(path)
            for old in sorted(have & set(table)):
                new = table[old]
                rivals = {t for t in have if table.get(t, t) == new} - {old}
                if rivals:
                    yield path, old, new, rivals


def main():
    speller = Speller()
    if sys.argv[1:] == ["--check"]:
        for path, old, new, rivals in speller.clashes():
            print(f"{path}: {old} -> {new}, as {', '.join(sorted(rivals))}")
        print(len(speller.table), "names")
        return
    for path, text in speller.texts.items():
        new = speller.turn(path, text)
        if new != text:
            with open(path, "w", encoding="utf-8") as f:
                f.write(new)
    pages = ["README.md", *glob.glob("docs/**/*.md", recursive=True)]
    for path in pages:
        if os.path.basename(path) == "PORT.md":
            continue
        with open(path, encoding="utf-8") as f:
            text = f.read()
        new = speller.prose(text)
        if new != text:
            with open(path, "w", encoding="utf-8") as f:
                f.write(new)
    print(len(speller.table), "names respelled")


if __name__ == "__main__":
    main()
