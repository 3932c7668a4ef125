#!/usr/bin/env python3
"""Spells this repository's own definitions, lemmas, fields and constructors as today's Rattle spells names.

usage: tools/respell.py [--check] [FOLDER]

A word is in snake case (`size-q` becomes `size_q`), a type or a statement in upper camel case (`Good-plan` becomes `GoodPlan`). Run it once, right
after the kit's port.py, at the top of the repository (or of FOLDER). What turns: every name with a dash that a file of specs/ or proofs/ declares,
wherever it is named; in the files of a function's own proof not the names of goals and steps, which Rattle makes. A name stays in a file that
imports it from a library. Names that would fall together in a file are listed, and then nothing is written. --check writes nothing.
"""
import collections
import os
import re
import sys

WORD = r"[^\s(){}.;,@\"«»\[\]|\\]+"
DECLARED = re.compile(
    rf"(?m)^ *(?:(?:pub|abbrev|unfoldable|data|record|module|mutual) )*({WORD})((?: {WORD})*?)(?: [({{].*?[)}}])* :(?= |$)"
)
MODULE = re.compile(rf"(?m)^ *(?:pub )?module ({WORD})")
USE = re.compile(r"\buse ([^\s;{]+)\.\{([^}]*)\}", re.S)
# the files of a function's own proof
OWN_PROOF = re.compile(r"/proofs/.+/(Answers|Invariants|Choices|Proof)\.antt$")
# what stands in front of a name that Rattle makes
MADE = re.compile(r"(?:^|[^\w.'])(?:goal|need|rules|c|w|l|g)[0-9']*\.$")
QUIET = re.compile(r'"(?:\\.|[^"\\\n])*"|//[^\n]*|(?<![^\s(){}.;,@"«»])--[^\n]*|\{-.*?-\}', re.S)
SPAN = re.compile(r"`[^`\n]*`")
# names that would fall together with a type or a variant of the code, or read badly
BY_HAND = {"Op-1": "IsOp1", "No-bag": "HasNoBag", "To-ask": "IsToAsk"}
# Names that meet one of the code in some file: a function beside the definition of what it returns, a field of another record, a module beside the
# record that it declares. None of these can be taken for the other.
MEET = set("""
tables-at query-at answer-of all-kilos rye-kilos kind-of of-type if-asked over-type in-bag as-field join-bags join-recs bag-part run-part sides-part
truth-part num-part truth-tag Type-made
""".split())
LIBRARY = ("std", "core", "std_alloc", "std_collections", "std_heap", "std_io", "io", "os", "libc")


def spelled(name):
    if name in BY_HAND:
        return BY_HAND[name]
    if name[:1].isupper():
        return "".join(it[:1].upper() + it[1:] for it in re.split("[-_]", name))
    return name.replace("-", "_")


def turns(name):
    # a type that the kit's script has spelled as a word turns too
    return re.fullmatch(r"[A-Za-z][\w'-]*-[\w'-]*\w'*|[A-Z]\w*_\w+", name) is not None


def files(root):
    top = os.path.join(root, "crates")
    for folder, dirs, names in os.walk(top):
        # what rt makes of a crate lies in the folder out beside src
        dirs[:] = sorted(it for it in dirs if it != "out" or os.path.dirname(folder) != top)
        for it in sorted(names):
            if it.endswith((".antt", ".rt", ".edit")):
                yield os.path.join(folder, it)


def without_comments(text):
    return re.sub(r"(?m)(?<![^\s(){}.;,])--[^\n]*", "", text)


def declared_in(path, text):
    text = without_comments(text)
    own = OWN_PROOF.search(path)
    for it in DECLARED.finditer(text):
        rest = text[it.end() : it.end() + 8].strip()
        for name in [it[1], *it[2].split()]:
            if turns(name) and not (own and re.match(r"(?:goal|need)\.", rest)):
                yield name
    for it in MODULE.finditer(text):
        if turns(it[1]):
            yield it[1]


def made_in(path, text):
    """Names of the file that Rattle makes: its goals, and what it imports of a function's goals."""
    found = set()
    for it in USE.finditer(text):
        head = it[1].split(".")
        if head[-1] in ("Goals", "Given", "Needs") or head[0] != "Rattle" or head[1] in LIBRARY:
            found |= {w for w in re.split(r"[\s,]+", it[2]) if w}
    if OWN_PROOF.search(path):
        found |= {it[1] for it in re.finditer(rf"(?m)^ *(?:pub |abbrev )*({WORD}) : (?:goal|need)\.", text)}
    return found


class Turned:
    def __init__(self, path, text, names):
        self.text, self.names, self.made = text, names, made_in(path, text)
        self.own_proof = bool(OWN_PROOF.search(path))
        self.seen = collections.defaultdict(set)

    def name(self, it):
        old = it[0]
        before = self.part[max(0, it.start() - 8) : it.start()]
        if old not in self.names or old in self.made or self.own_proof and MADE.search(before):
            self.seen[old].add(old)
            return old
        self.seen[spelled(old)].add(old)
        return spelled(old)

    def code(self, part):
        self.part = part
        return re.sub(WORD, self.name, part)

    def quiet(self, part):
        return part if part.startswith('"') else SPAN.sub(lambda it: self.code(it[0]), part)

    def run(self):
        out, end = [], 0
        for it in QUIET.finditer(self.text):
            out += [self.code(self.text[end : it.start()]), self.quiet(it[0])]
            end = it.end()
        return "".join([*out, self.code(self.text[end:])])


def main(argv):
    check = "--check" in argv
    root = ([it for it in argv if not it.startswith("-")] or ["."])[0]
    texts = {it: open(it, encoding="utf-8").read() for it in files(root)}
    names = {n for path, text in texts.items() if path.endswith(".antt") for n in declared_in(path, text)}
    together, changed = [], {}
    for path, text in texts.items():
        t = Turned(path, text, names)
        new = t.run()
        together += [(path, k, sorted(v)) for k, v in t.seen.items() if len(v) > 1 and not v & MEET]
        if new != text:
            changed[path] = new
    for path, new, old in together:
        print(f"together: {path}: {', '.join(old)} -> {new}")
    print(f"{len(names)} names, {len(changed)} files, {len(together)} that fall together")
    if together:
        return 1
    if not check:
        for path, text in changed.items():
            with open(path, "w", encoding="utf-8") as f:
                f.write(text)
    return 0


if __name__ == "__main__":
    raise SystemExit(main(sys.argv[1:]))
