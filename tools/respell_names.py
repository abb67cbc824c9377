#!/usr/bin/env python3
"""Spells the repository's own definitions, lemmas and fields in snake case, in crates/.

usage: python3 tools/respell_names.py        at the top of the repository

Run once, after the kit's port.py and before any edit by hand. Types, records and modules keep their camel case, and a name of Rust source its
spelling. A lemma that would have the name of the definition that it is about gets `_lem` (LEMMAS); the few others that would meet another
name are in OTHERS. Strings stay. It ends with 1 and changes nothing if two names of one file would fall together.
"""

import collections
import glob
import re
import sys

NAME = r"[^\s(){}.;,@\"«»\[\]⌜⌝|`]+"
# A name, or a dot and a name: what stands behind a dot is a field or a part of a path.
WORD = re.compile(rf"(\.?)({NAME})")
DECLARED = re.compile(
    rf"(?m)^ *((?:pub |abbrev |unfoldable |private )*)((?:{NAME}, )*{NAME})(?: \{{[^{{}}\n]*\}})* :(?!:)(.*)"
)
NAMED = re.compile(rf"(?m)^ *(?:pub )?(?:ruleset|module|record|data) ({NAME})")
ALIAS = re.compile(rf" as ({NAME})")
PARAMETERS = {"decideStart", "decideConflict", "settledK", "settledL", "y-below", "y-some"}

# Lemmas named as the definition that they are about.
LEMMAS = set(
    """coder-of different-test far-word field-at first-state first-test has-key image-word in-turn is-entry joined-entries joined-state kept_test
    later-or-fails least-test letter_at letters-below letters-from lexicographic-test no-earlier numbers_of pair_read same_answer same-list
    second-state state-at table-allowed table-at table-size valid-test window-read works-test outputs-of starts-of""".split()
)
# Names that would meet another one otherwise.
OTHERS = {
    "backLoop": "back_loop_letters",
    "forwardLoop": "forward_loop_letters",
    "leadIn": "lead_in_letters",
    "leadOut": "lead_out_letters",
}
# Both a lemma of that name and a field or a step of it: the lemma is what stands behind no dot in these files.
FIELD_TOO = {"no-later": re.compile(r"/(values/proofs/Orders|least/proofs/inner/choose/Proof|theorems/proofs/Tests)\.antt$")}


def texts():
    for kind in ("specs/**/*.antt", "proofs/**/*.antt"):
        yield from sorted(glob.glob("crates/*/" + kind, recursive=True))


def code_of(text):
    return "\n".join(re.sub(r"(^|\s)--(\s.*)?$", r"\1", line) for line in text.split("\n"))


def snake(name):
    name = name.replace("getD", "get_or")
    name = re.sub(r"(?<=[a-z0-9₀-₉])([A-Z])(?![A-Z])", lambda m: "_" + m.group(1).lower(), name)
    return name.replace("-", "_")


def spelled(name):
    if name in OTHERS:
        return OTHERS[name]
    if name in LEMMAS:
        return snake(name) + "_lem"
    return name if name[0].isupper() else snake(name)


def is_made(path, name, type_of):
    """A name of a goal that Rattle makes, as a proof file declares it."""
    return path.endswith("/Proof.antt") and (re.search(r"\btie\.(Need|invariant|decreases)", type_of) is not None or name.endswith("-spec"))


def own_names():
    own, declared = set(PARAMETERS), set()
    for path in texts():
        with open(path, encoding="utf-8") as f:
            code = code_of(f.read())
        for marks, names, type_of in DECLARED.findall(code):
            own.update(n for n in names.split(", ") if not is_made(path, n, type_of))
            declared.update(names.split(", "))
        own.update(NAMED.findall(code))
        own.update(a for line in code.split("\n") if line.lstrip().startswith("use ") for a in ALIAS.findall(line))
    return {n: spelled(n) for n in own if spelled(n) != n}, declared


class Respeller:
    def __init__(self, table, declared):
        self.table = table
        self.declared = declared
        self.met = []

    def word(self, path, seen):
        def one(m):
            dot, name = m.groups()
            new = self.table.get(name, name)
            if name in FIELD_TOO and FIELD_TOO[name].search(path) and not dot:
                new = snake(name) + "_lem"
            seen[(dot, new)].add(name)
            return dot + new

        return one

    def antt(self, path, text):
        seen = collections.defaultdict(set)
        one = self.word(path, seen)
        lines = []
        for line in text.split("\n"):
            m = re.match(r"^(.*?)((?:^|(?<=\s))--(?:\s.*)?)?$", line)
            code, comment = m.group(1), m.group(2) or ""
            parts = re.split(r'("[^"]*")', code)
            code = "".join(p if p.startswith('"') else WORD.sub(one, p) for p in parts)
            lines.append(code + self.comment(comment))
        self.look(path, seen)
        return "\n".join(lines)

    def comment(self, text):
        """In a comment: what stands in backticks, and words with a hump, which no English word has."""
        text = re.sub(r"`[^`]*`", lambda m: WORD.sub(lambda w: w.group(1) + self.table.get(w.group(2), w.group(2)), m.group(0)), text)
        return re.sub(r"(?<![\w-])[a-z]\w*[A-Z]\w*(?![\w-])", lambda m: self.table.get(m.group(0), m.group(0)), text)

    def clauses(self, path, text, seen):
        one = self.word(path, seen)
        parts = re.split(r'("[^"\n]*")', text)
        return "".join(p if p.startswith('"') else WORD.sub(one, p) for p in parts)

    def rust(self, path, text):
        """In Rust: ghost imports, clauses and ghost items; in what else stands there no name of these has a dash or a hump."""
        out, at, seen = [], 0, collections.defaultdict(set)
        for m in re.finditer(r"(?m)^[ \t]*(?:pub )?ghost use [^;]*;|\b(?:requires|ensures)\*? *(?:\w+ )?\{|^[ \t]*(?:pub )?ghost \w+: \{", text):
            if m.start() < at:
                continue
            end = m.end()
            if not m.group(0).endswith(";"):
                depth = 1
                while depth:
                    depth += {"{": 1, "}": -1}.get(text[end], 0)
                    end += 1
            out.append(self.rest(text[at : m.start()]))
            out.append(self.clauses(path, text[m.start() : end], seen))
            at = end
        out.append(self.rest(text[at:]))
        self.look(path, seen)
        return "".join(out)

    def rest(self, text):
        return "\n".join(line if "//" not in line else line[: line.index("//")] + self.comment(line[line.index("//") :]) for line in text.split("\n"))

    def look(self, path, seen):
        for (dot, new), olds in sorted(seen.items()):
            # A name of Rust source in its two spellings is one name.
            if {n.replace("-", "_") for n in olds} == {new} and not olds & self.declared & {new}:
                continue
            if len(olds) > 1:
                self.met.append(f"{path}: {dot}{new}: {', '.join(sorted(olds))}")


def main():
    table, declared = own_names()
    respeller = Respeller(table, declared)
    turned = {}
    for path in texts():
        with open(path, encoding="utf-8") as f:
            text = f.read()
        turned[path] = text, respeller.antt(path, text)
    for path in sorted(glob.glob("crates/*/src/**/*.rt", recursive=True)):
        with open(path, encoding="utf-8") as f:
            text = f.read()
        turned[path] = text, respeller.rust(path, text)
    for line in respeller.met:
        print("meet:", line)
    if respeller.met:
        return 1
    changed = 0
    for path, (old, new) in turned.items():
        if old != new:
            changed += 1
            with open(path, "w", encoding="utf-8") as f:
                f.write(new)
    print(f"{len(table)} names, {changed} files")
    return 0


if __name__ == "__main__":
    sys.exit(main())
