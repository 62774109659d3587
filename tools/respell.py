#!/usr/bin/env python3
"""Brings the repository's own definitions and lemmas to snake case, once, after port.py.

usage: python3 tools/respell.py        at the top of the checkout

A name is one that a file of specs/ or proofs/ declares, or a variable there. Its capitals and dashes become `_`. Functions of src/, strings, inputs and
outputs keep their names. A lemma that would fall together with the function that it speaks of gets `_lem`.
"""

import os
import re
import subprocess

TOKEN = re.compile(r"[^\W\d][\w'-]*(?<!-)")
DECLARED = re.compile(r"^(\s*)(?:(?:abbrev|unfoldable|pub|ruleset)\s+)*([A-Za-z_][\w'-]*)\s*:(?!=)")

# lemmas whose name in snake case is their function's
LEMMAS = """all-separate by-table each-once is-met is-ordered is-record is-spread no-time outcome-of put-parts reset-of
is-nan nan-bits state-of state-words step-on tidied-parts with-sign""".split()
# the same where port.py had already brought the two together: the lemma, and the file that has it
MERGED = {
    "crates/area/proofs/SweepLaws.antt": ["shown_by"],
    "crates/area/proofs/MovedLaws.antt": ["no_target"],
}
# `upFront` of host is a lemma, `up-front` of area a field
FIXED = {name: name.replace("-", "_") + "_lem" for name in LEMMAS} | {"upFront": "up_front_lem"}


def snake(name):
    if name in FIXED:
        return FIXED[name]
    name = name.replace("-", "_")
    name = re.sub(r"(?<=[a-z0-9])([A-Z])", lambda m: "_" + m.group(1).lower(), name)
    return re.sub(r"(?<=_)([A-Z])", lambda m: m.group(1).lower(), name)


def files(*ends):
    for top in ("crates", "mutants"):
        for folder, dirs, names in os.walk(top):
            dirs[:] = sorted(d for d in dirs if d != "out")
            yield from (os.path.join(folder, n) for n in sorted(names) if n.endswith(ends))


def read(path):
    with open(path, encoding="utf-8") as f:
        return f.read()


def write(path, text):
    with open(path, "w", encoding="utf-8") as f:
        f.write(text)


def declared():
    """The names that the files of specs/ and proofs/ declare and that are not in snake case, and those of them that may be fields."""
    names, fields = set(), set()
    for path in files(".antt"):
        for line in read(path).splitlines():
            m = DECLARED.match(line)
            if m and m[2][0].islower() and ("-" in m[2] or re.search("[A-Z]", m[2])):
                names.add(m[2])
                if m[1]:
                    fields.add(m[2])
    return names, fields


def library():
    """The names of Rattle's own library, which keep their spelling."""
    page = subprocess.run(["rt", "doc"], capture_output=True, text=True, check=True).stdout.strip()
    found = set()
    for folder, _, names in os.walk(os.path.join(os.path.dirname(page), "rattle")):
        for n in names:
            if n.endswith(".antt"):
                found.update(TOKEN.findall(read(os.path.join(folder, n))))
    return found


class Names:
    def __init__(self):
        self.names, self.fields = declared()
        self.library = library()
        self.local = False

    def word(self, text, m, dashes):
        name = m[0]
        if "-" in name and not dashes:
            return name
        before = text[: m.start()]
        if name not in self.names:
            return snake(name) if self.local and name[0].islower() and name not in self.library and not before.endswith(".") else name
        if before.endswith(".") and not re.search(r"(^|[\s({.])(Rattle|[A-Z][\w']*)\.$", before) and name not in self.fields:
            return name
        return snake(name)

    def words(self, text, dashes):
        return TOKEN.sub(lambda m: self.word(text, m, dashes), text)

    def antt(self, line, walk=False):
        code, mark, comment = line.partition("--") if line.lstrip().startswith("--") or " -- " in line else (line, "", "")
        comment = re.sub(r"`[^`]*`", lambda m: self.words(m[0], True), self.words(comment, False))
        self.local = not walk
        code = self.words(code, True)
        self.local = False
        return code + mark + comment

    def rust(self, line):
        dashes = line.lstrip().startswith("ghost use")
        code, mark, comment = line.partition("//")
        parts = re.split(r'("(?:[^"\\]|\\.)*")', code)
        parts[::2] = [self.words(p, dashes) for p in parts[::2]]
        return "".join(parts) + mark + self.words(comment, False)

    def edit(self, text):
        """An edit's lines, each spelled as those of the file that the line `file:` names."""
        antt, out = False, []
        for line in text.split("\n"):
            if line.startswith("file:"):
                antt = line.strip().endswith(".antt")
                out.append(line)
            elif line.startswith(("old:", "new:")):
                out.append(line[:4] + (self.antt(line[4:]) if antt else self.rust(line[4:])))
            else:
                out.append(line)
        return "\n".join(out)


def main():
    for path, lemmas in MERGED.items():
        text = read(path)
        for name in lemmas:
            text = re.sub(rf"(?<![\w'.-]){name}(?![\w'-])", name + "_lem", text)
        write(path, text)
    names = Names()
    for path in files(".antt", ".rt", ".edit"):
        text = read(path)
        if path.endswith(".edit"):
            new = names.edit(text)
        else:
            walk = path.endswith("Proof.antt")  # its other names are Rattle's own
            turn = (lambda line: names.antt(line, walk)) if path.endswith(".antt") else names.rust
            new = "\n".join(turn(line) for line in text.split("\n"))
        if new != text:
            write(path, new)


if __name__ == "__main__":
    main()
