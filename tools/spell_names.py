#!/usr/bin/env python3
"""Spells the repository's own definitions and lemmas as today's Rattle does: functions, lemmas and fields in snake case.

usage: tools/spell_names.py [--list]      at the top of the repository, once, on what the kit's port.py has turned

port.py turns only the names that a library of the kit has too. This script turns the others: each name that a file of
specs/ declares, begins in lower case and holds a dash or an inner capital, as 'fieldBytes' to 'field_bytes' and
'length-field' to 'length_field'. A name that begins with a capital is a type, and stays.
Where two names fall together, the definition has the name and the lemma ends in _lem: FALLING lists the lemmas that
were spelled with an underscore already; a lemma with a dash is found by itself.
It turns .antt files and, in .rt files, the clauses and the ghost items; in comments and in must-fail edits the names
with an inner capital alone, since words with a dash are English there. Names of Rust stay.
--list prints the table and writes nothing.
"""

import collections
import os
import re
import sys

TOKEN = re.compile(r'[^\s(){}.;,@"«»]+')
DECLARED = re.compile(r"(?m)^ *(?:(?:pub|abbrev|unfoldable|pattern|field|constructor|instance) )*([^\s(){}.;,@\"«»:|λ→=]+)(?: \{[^{}\n]*\})* : ")
TOGETHER = re.compile(r"(?m)^ +(?:pub )?([^\s(){}.;,@\"«»:|λ→=]+(?: [^\s(){}.;,@\"«»:|λ→=]+)+) : ")
USE = re.compile(r"\buse ([^\s;{]+)(\{[^;]*?\}(?=;|[ \t]*$))?", re.M)
GHOST = re.compile(r"\b(?:requires|ensures)\*?(?: \w+)? \{|\bghost use\b|\bghost \w+ *[:=]")
COMMENT = re.compile(r"--[^\n]*|\{-.*?-\}", re.S)
# names that a signature or a let binds
BOUND = """treeAt keysAt pathAt stagesAt first-is targetAt amount-is rest-is pairsAt sourceAt joinedAt line-is all-ts itemsAt
    othersAt array-is theirsAt elementAt treeAt2 criterionAt dataAt behindAt grouping-is others-are at-is membersAt literalAt
    trees-is labelsAt array-limits runs-computed split-spots in-range at-third aggregates-is front-is others-is""".split()
# lemmas that were in snake case already, each spelled as a definition is spelled now
FALLING = ["group_at", "none_before", "root_ok", "same_bytes", "same_key", "too_long", "two_at", "two_bytes"]


def snake(name):
    return re.sub(r"(?<=[a-z0-9])[A-Z]", lambda m: "_" + m[0].lower(), name).replace("-", "_")


def is_camel(name):
    return re.search(r"[a-z0-9][A-Z]", name) is not None


def texts():
    for folder, folders, files in os.walk("crates"):
        folders[:] = sorted(f for f in folders if f != "out")
        for f in sorted(files):
            if f.endswith((".antt", ".rt", ".edit")):
                path = os.path.join(folder, f)
                with open(path, encoding="utf-8") as it:
                    yield path, it.read()


def imported(text, own):
    """The names that a text brings in from a library of the kit."""
    names = set()
    for m in USE.finditer(text):
        steps = m[1].strip(".").split(".")
        if not (steps[0] == "Rattle" and len(steps) > 1 and steps[1] in own) and m[2]:
            names |= {w.split(" as ")[-1] for w in re.split(r",\s*", m[2].strip("{} "))}
    return names


def table(files, own):
    declared, tokens = collections.defaultdict(set), set()
    for path, text in files.items():
        if path.endswith(".antt") and not path.endswith("/Proof.antt"):
            tokens |= set(TOKEN.findall(text))
            names = [m[1] for m in DECLARED.finditer(text)]
            names += [w for m in TOGETHER.finditer(text) for w in m[1].split()]
            for n in names:
                declared[n].add(path)
    for n in BOUND:
        declared[n].add("")
    odd = sorted(n for n in declared if n[0].islower() and ("-" in n.strip("-") or is_camel(n)))
    turned = {n: snake(n) for n in odd if is_camel(n)}
    taken = set(turned.values()) | {t for t in tokens if t not in odd}
    for n in FALLING:
        if n in declared:
            turned[n] = n + "_lem"
    for n in odd:
        if n not in turned:
            turned[n] = snake(n) if snake(n) not in taken else snake(n) + "_lem"
            assert turned[n] not in taken, n
            taken.add(turned[n])
    return turned


def ghosts(text):
    """The spans of a .rt text that hold clauses and ghost items."""
    for m in GHOST.finditer(text):
        if m[0].endswith("{"):
            deep, i = 1, m.end()
            while deep:
                deep += (text[i] == "{") - (text[i] == "}")
                i += 1
            yield m.end(), i
        else:
            yield m.end(), text.index(";", m.end())


def turn(text, turned, stay, in_proof=False):
    """Turns the words of a piece of antt. In a Proof.antt what the checker names stays, as the steps behind c."""

    def word(m):
        w = m[0]
        if w not in turned or w in stay:
            return w
        before = text[: m.start()]
        if in_proof and re.search(r"(?<![^\s(){},;@])(c(\.before)*|tie|lts|reads|goal)\.$", before[-400:]):
            return w
        return turned[w]

    return TOKEN.sub(word, text)


def apart(text, spans):
    """The text in pieces, each with whether it lies in one of the spans."""
    at = 0
    for a, b in spans:
        if a >= at:
            yield text[at:a], False
            yield text[a:b], True
            at = b
    yield text[at:], False


def main(words):
    if not os.path.isfile("crates.txt"):
        raise SystemExit("run it at the top of the repository")
    own = set(os.listdir("crates"))
    files = dict(texts())
    turned = table(files, own)
    camel = {n: t for n, t in turned.items() if is_camel(n)}
    if words == ["--list"]:
        for n in sorted(turned):
            print(n, turned[n])
        return
    for path, text in files.items():
        stay = imported(text, own)
        out = ""
        if path.endswith(".antt"):
            for piece, quoted in apart(text, [m.span() for m in COMMENT.finditer(text)]):
                out += turn(piece, camel if quoted else turned, stay, path.endswith("/Proof.antt"))
        elif path.endswith(".rt"):
            for piece, ghost in apart(text, ghosts(text)):
                out += turn(piece, turned if ghost else camel, stay if ghost else set())
        else:
            out = turn(text, camel, stay)
        if out != text:
            with open(path, "w", encoding="utf-8") as it:
                it.write(out)


if __name__ == "__main__":
    main(sys.argv[1:])
