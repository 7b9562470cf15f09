#!/usr/bin/env python3
"""Spells the repository's own definitions and lemmas in snake case, as today's Rattle does.

usage: tools/snake_names.py [--list]        at the top of the repository, after the kit's port.py

`changeOf` becomes `change_of`, and `change-old` becomes `change_old`. Types, modules and names that begin
with a capital stay; so do names of the libraries, the labels that Rattle makes, everything of src/ outside
its clauses, and every comment's prose and quoted text. --list writes nothing: it prints each old and new
name, and those that would fall together.
"""

import os
import re
import sys

WORD = re.compile(r'[^\s(){}.;,@"«»]+')
OURS = sorted(c for c in os.listdir("crates") if os.path.isdir(f"crates/{c}/src"))
USE = re.compile(r"\buse\s+([\w.·+'-]+)\.\{([^}]*)\}")
PLAIN_USE = re.compile(r"\buse\s+([\w.·+'-]+)\s+as\s+(\S+)")
DECLARED = re.compile(r"(?m)^ *(?:(?:pub|abbrev|unfoldable|data|record|mutual|let) )*(\S+)(?: \{[^{}\n]*\})* :(?= |$)")
LABELLED = re.compile(r"(?m)^(?:(?:pub|abbrev|unfoldable) )*(\S+) : (?:tie|goal)\.")
PROOF = re.compile(r"^crates/\w+/proofs/.+/\w+\.antt$")


def snake(name):
    if "·" in name:
        head, _, tail = name.partition("·")
        return head + "·" + snake(tail)
    if not re.match(r"[a-z]", name):
        return name
    name = re.sub(r"(?<=[a-z0-9'])[A-Z]", lambda m: "_" + m[0].lower(), name)
    # A dash between two words; one at the end, or before a sign, stays.
    return re.sub(r"(?<=[\w'])-(?=\w)", "_", name)


def is_ours(path):
    steps = path.split(".")
    return len(steps) > 1 and steps[0] == "Rattle" and steps[1] in OURS


def files(ending):
    for c in OURS:
        for folder, dirs, names in os.walk(f"crates/{c}"):
            dirs[:] = sorted(d for d in dirs if d != "out")
            for n in sorted(names):
                if n.endswith(ending):
                    yield os.path.join(folder, n)


def read(path):
    with open(path, encoding="utf-8") as f:
        return f.read()


def pieces(text, comment):
    """The text as (is code, piece): a comment and a quoted text are no code."""
    cut = re.compile(r'"(?:[^"\\\n]|\\.)*"|' + comment)
    at = 0
    for m in cut.finditer(text):
        yield True, text[at : m.start()]
        yield False, m[0]
        at = m.end()
    yield True, text[at:]


ANTT = r'(?<![^\s(){}.;,@"«»])--[^\n]*|\{-(?s:.*?)-\}'
RUST = r"//[^\n]*"


def code_of(text, comment=ANTT):
    return "".join(t if code else " " for code, t in pieces(text, comment))


def imports(code):
    """The names that a file imports: ours, and a library's, as they are called in the file."""
    ours, theirs = {}, set()
    for path, names in USE.findall(code):
        for n in names.split(","):
            n = n.strip()
            if not n:
                continue
            old, _, new = n.partition(" as ")
            new = (new or old).strip().strip("«»")
            if is_ours(path):
                ours[new] = old.strip()
            else:
                theirs.update((new, old.strip()))
    return ours, theirs


# What the texts declare, by file.
CODE = {p: code_of(read(p)) for p in files(".antt")}
THEIRS = set()
FIELDS = set()
for p, code in CODE.items():
    THEIRS |= imports(code)[1]
OWN = set()
for p, code in CODE.items():
    if not PROOF.match(p):
        OWN |= set(DECLARED.findall(code))
        for m in re.finditer(r"(?m)^ *(?:pub )?record [^\n]*where\n((?:(?: +[^\n]*)?\n)+)", code):
            FIELDS |= set(re.findall(r"(?m)^ +(\S+) :(?= |$)", m[1]))
OWN_TURNED = {n for n in OWN if snake(n) != n}

# A lemma that would have its definition's name gets `_lem`: the definition is the one that stood in camel case.
MET = {}
for n in sorted(OWN):
    if "-" not in n:
        for other in OWN:
            if other != n and snake(other) == snake(n) and (snake(n) != n or "-" in other):
                MET[other] = snake(n) + "_lem"


def spelled(name):
    return MET.get(name) or snake(name)


def turn_spec(path, text):
    """A file of specs/, or of lemmas in proofs/: every word that no library has."""
    _, theirs = imports(code_of(text))

    def word(m):
        w = m[0]
        behind = m.string[m.start() - 1 : m.start()] == "."
        if w in theirs or (w in THEIRS and w not in OWN):
            return w
        if behind and w not in OWN:
            return w
        return spelled(w)

    return "".join(WORD.sub(word, t) if code else t for code, t in pieces(text, ANTT))


def turn_proof(path, text):
    """A proof of one function: what it imports of ours, its own helpers, and fields of our records."""
    code = code_of(text)
    ours, theirs = imports(code)
    labels = set(LABELLED.findall(code))
    own = {n for n in DECLARED.findall(code) if n not in labels and not re.search(r"[-_]spec$", n)}
    names = (set(ours) | set(ours.values()) | own) - labels

    def word(m):
        w = m[0]
        before = m.string[: m.start()]
        if before.endswith("."):
            # Inside a path to a definition of ours, or a field of a record of ours.
            path = re.search(r"[\w.]+\.$", before)
            if path and is_ours(path[0]) or w in FIELDS:
                return spelled(w) if w in OWN else w
            return w
        return spelled(w) if w in names and w not in theirs else w

    return "".join(WORD.sub(word, t) if is_code else t for is_code, t in pieces(text, ANTT))


CLAUSE = re.compile(r"(?:requires|ensures)\s*\*?\s*(?:\w+\s*)?\{|ghost\s*(?:\w+\s*(?::\s*(?:(?:owns|lends)\s*)?|=\s*))?\{|prove!\(")
GHOST_USE = re.compile(r"ghost\s+use\b[^;]*;")


def spans(text):
    """The clauses and ghost use items of a source file, as (start, end)."""
    for m in GHOST_USE.finditer(text):
        yield m.start(), m.end()
    for m in CLAUSE.finditer(text):
        deep, at = 1, m.end()
        while deep and at < len(text):
            deep += {"{": 1, "}": -1}.get(text[at], 0)
            at += 1
        yield m.start(), at


def turn_source(path, text):
    ours, _ = imports(text)
    names = set(ours) | set(ours.values())
    out, at = [], 0
    for start, end in sorted(spans(text)):
        if start < at:
            continue
        out.append(text[at:start])
        out.append(WORD.sub(lambda m: spelled(m[0]) if m[0] in names or (m.string[m.start() - 1 : m.start()] == "." and m[0] in FIELDS) else m[0], text[start:end]))
        at = end
    return "".join(out) + text[at:]


def turn_edit(path, text):
    """A must-fail edit: the names that its crate's clauses and definitions use, in the lines of old and new text."""
    crate = path.split("/")[1]
    names = set()
    for p in files(".rt"):
        if p.startswith(f"crates/{crate}/"):
            ours, _ = imports(read(p))
            names |= set(ours) | set(ours.values())
    target = re.search(r"(?m)^file: (\S+)", text)
    in_spec = target and target[1].endswith(".antt")
    out = []
    for line in text.split("\n"):
        if re.match(r"(old|new): ", line) and (in_spec or re.search(r"ensures|requires|ghost", line)):
            line = line[:5] + WORD.sub(lambda m: spelled(m[0]) if m[0] in names or (in_spec and m[0] in OWN and m[0] not in THEIRS) else m[0], line[5:])
        out.append(line)
    return "\n".join(out)


def turned(path, text):
    if path.endswith(".edit"):
        return turn_edit(path, text)
    if path.endswith(".rt"):
        return turn_source(path, text)
    return turn_proof(path, text) if PROOF.match(path) else turn_spec(path, text)


def merged(path, old, new):
    """Names of one file that were two and are one now."""
    comment = RUST if path.endswith(".rt") else ANTT
    were = {}
    for a, b in zip(WORD.findall(code_of(old, comment)), WORD.findall(code_of(new, comment))):
        were.setdefault(b, set()).add(a)
    return [f"{path}: {', '.join(sorted(names))}" for b, names in sorted(were.items()) if len(names) > 1]


def turn_page(text):
    """A page of docs/: code spans, of names that are ours."""
    def word(m):
        w = m[0]
        return spelled(w) if w in OWN or snake(w) in OWN else w

    def span(m):
        return re.sub(r"[\w'][\w'-]*", word, m[0])

    return re.sub(r"`[^`\n]+`", span, text)


def main():
    both = []
    listed = {}
    for p in ["README.md"] + sorted("docs/" + n for n in os.listdir("docs") if n.endswith(".md")) + sorted("docs/landings/" + n for n in os.listdir("docs/landings")):
        old = read(p)
        new = turn_page(old)
        if new != old and "--list" not in sys.argv:
            with open(p, "w", encoding="utf-8") as f:
                f.write(new)
    for ending in (".antt", ".rt", ".edit"):
        for p in list(files(ending)):
            old = read(p)
            new = turned(p, old)
            if ending != ".edit":
                both += merged(p, old, new)
            if new != old and "--list" not in sys.argv:
                with open(p, "w", encoding="utf-8") as f:
                    f.write(new)
    for n in sorted(OWN_TURNED | set(MET)):
        listed.setdefault(spelled(n), []).append(n)
    if "--list" in sys.argv:
        for s, ns in sorted(listed.items()):
            print(f"{', '.join(ns)} -> {s}")
    for s, ns in sorted(listed.items()):
        if len(ns) > 1 or (s in OWN and s not in MET):
            print(f"look: {', '.join(ns)}{' and ' + s if s in OWN else ''} are one spelling")
    for line in both:
        print("look: fall together in " + line)


main()
