#!/usr/bin/env python3
"""Spells the repository's own definitions, lemmas and import aliases in snake case: a capital inside a word and a dash become an underscore.

usage: python3 tools/respell.py [--list]      at the top of the repository, once, right after the port.py of the Rattle kit

Types and modules keep their capitals. Functions of src/, exported C names, strings, inputs and outputs keep their names; labels of goals, which
Rattle makes, keep theirs in Answers and Invariants. OTHER names the new spelling where plain underscores would meet another name.
--list writes nothing: it prints each name with its new spelling, and those that fall together in some file.
"""
import collections
import os
import re
import sys

OTHER = {
    "are-labels": "are_labels_lem",
    "bit-or": "bit_or_lem",
    "below-cut": "add_below_cut",
    "entry-after": "entry_after_lem",
    "entry_in": "entry_in_lem",
    "is_name": "is_name_lem",
    "place-written": "place_written_lem",
    "put-name": "put_name_lem",
    "read-labels": "read_labels_lem",
    "rises-from": "rises_from_lem",
    "signed_cut": "ask_at_signed_cut",
    "take-name": "take_name_lem",
    "unsigned-cut": "ask_below_cut",
    "words-at": "words_at_lem",
}
# parameters, which are declared nowhere
PARAMETERS = {"isPlace": "is_place"}
CHAR = r"[^\s(){}.;,@\"«»]"
NAME = re.compile(rf"{CHAR}+")
MODIFIERS = r"(?:(?:abbrev|unfoldable|pub|irrelevant|instance|tactic)\s+)*"
DECLARED = re.compile(rf"^\s*{MODIFIERS}((?:{CHAR}+\s+)*{CHAR}+)\s+(?:\{{[^{{}}]*\}}\s+)*:\s")
TYPE = re.compile(rf"^\s*{MODIFIERS}(?:data|record)\s+({CHAR}+)")
ALIAS = re.compile(r"\bas\s+([A-Za-z][\w'-]*)")
ANSWERS = re.compile(r"/proofs/(?:.*/)?(?:Answers|Invariants|Choices|Proof)\.antt$")
HEAD = re.compile(r"\b(?:goal|need|c|goals|Goals)\.$")
WORDS = {"let", "in", "with", "where", "λ"}


def texts(kinds):
    for folder, dirs, files in os.walk("crates"):
        dirs[:] = sorted(d for d in dirs if d != "out")
        for f in sorted(files):
            if f.endswith(kinds):
                p = os.path.join(folder, f)
                with open(p, encoding="utf-8") as t:
                    yield p, t.read()


def snake(name):
    return OTHER.get(name) or PARAMETERS.get(name) or re.sub(r"(?<=[a-z0-9])[A-Z]", lambda m: "_" + m[0].lower(), name).replace("-", "_")


def turns(name):
    """Whether it is a word of ours in an older spelling: it begins in lower case and has a capital or a dash between letters."""
    return bool(re.match(r"[a-z][\w'₀-₉-]*$", name)) and (re.search(r"[a-z0-9][A-Z]", name) or re.search(r"\w-\w", name)) or name in OTHER or name in PARAMETERS


def declared():
    found = collections.defaultdict(set)
    for p, t in texts((".antt", ".rt")):
        if p.endswith(".rt"):
            for m in re.finditer(r"ghost use [^;]*;", t):
                for a in ALIAS.findall(m[0]):
                    found[a].add(p)
            continue
        for line in t.splitlines():
            if line.lstrip().startswith("--"):
                continue
            for a in ALIAS.findall(line) if line.startswith(("use", "pub use")) else []:
                found[a].add(p)
            m = TYPE.match(line)
            if m:
                found[m[1]].add(p)
                continue
            m = DECLARED.match(line)
            if m and not (ANSWERS.search(p) and "goal." in line):
                for n in m[1].split():
                    if n not in WORDS:
                        found[n].add(p)
    for n in PARAMETERS:
        found[n].add("a parameter")
    return {n: ps for n, ps in found.items() if turns(n)}


def turn(path, text, names):
    answers = ANSWERS.search(path)

    def word(m):
        n = m[0]
        if n not in names:
            return n
        if answers and HEAD.search(text[: m.start()]):
            return n
        return snake(n)

    if path.endswith(".antt"):
        out = NAME.sub(word, text)
        if answers:
            # a label of a goal at the head of its answer stays
            labels = set(re.findall(rf"^pub ({CHAR}+) : goal\.", text, re.M))
            for l in labels & set(names):
                out = re.sub(rf"(?m)^(pub )?{re.escape(snake(l))}(?=[ :])", lambda m: (m[1] or "") + l, out)
        return out
    # Rust: identifiers outside strings
    def rust(m):
        return m[0] if m[0] not in names else snake(m[0])

    return re.sub(r"(?<![\w'\"-])[a-z][\w']*(?:-[\w']+)*", rust, text)


def main(argv):
    names = declared()
    new = collections.defaultdict(set)
    for n in names:
        new[snake(n)].add(n)
    everywhere = {p: (t, turn(p, t, names)) for p, t in texts((".antt", ".rt", ".edit"))}
    for n in sorted(names):
        if "--list" in argv:
            print(f"{n}\t{snake(n)}")
    together = 0
    for p, (t, u) in everywhere.items():
        words = set(re.findall(rf"[a-z][\w'₀-₉-]*", t)) | set(NAME.findall(t))
        for s, olds in new.items():
            here = {n for n in olds if n in words}
            if not here:
                continue
            # what is written as an item of the Rust is no name of a clause
            rust = (p.endswith((".rt", ".edit")) or ANSWERS.search(p)) and not re.search(rf"(?m)^{re.escape(s)} ", t) and s not in OTHER
            if len(here) > 1 or (s in words and s not in here and s not in OTHER and not rust):
                together += 1
                print(f"together: {p}: {s} of {sorted(here)}{' and ' + s if s in words else ''}")
    for s, olds in new.items():
        if len(olds) > 1:
            print(f"note: {sorted(olds)} all become {s}: {[sorted(names[o])[:2] for o in sorted(olds)]}")
    if "--list" in argv:
        return 0
    if together:
        print("names fall together: nothing was written")
        return 1
    for p, (t, u) in everywhere.items():
        if t != u:
            with open(p, "w", encoding="utf-8") as f:
                f.write(u)
    return 0


if __name__ == "__main__":
    sys.exit(main(sys.argv[1:]))
