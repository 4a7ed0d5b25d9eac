#!/usr/bin/env python3
"""Brings the names of this repository's definitions and lemmas to snake case. Run once, at the top, after port.py:

    python3 tools/respell.py

It turns camelCase names of definitions, fields and lemmas, and dashes in names of lemmas, in crates/ (contracts,
definitions, proofs, must-fail edits) and in the pages. Names of types, modules, functions of src/ and exported C
names stay, and so does each name that a file takes from a library. A lemma whose new name would be that of a
definition gets _lem. It also writes #![tactic(auto)] into each crate's root file.
"""

import collections
import glob
import os
import re

ID = r"[^\s(){}\[\];:,.λ«»`\"|]+"
TOKEN = re.compile(r"(?<![A-Za-z0-9_'\-₀-₉])[A-Za-z][A-Za-z0-9_'₀-₉ₐ-ₜ]*(?:-[A-Za-z0-9_'₀-₉]+)*(?![A-Za-z0-9_'])")


# Names that port.py turned in crates/ already, for the pages and the must-fail edits.
TURNED = """
add-at add-start all-append all-digits all-drop all-hold all-ones all-right all-tail all-take all-then
all-types all-wanted allBelow alone-at and-left and-right and-yes answer-keeps at-gap at-source at-width
bit-test bitOf bitsOf block-inside block-refused blockOf by-answer by-end by-equal by-first by-flags by-next
by-number by-over by-place by-size by-whole byte-low byte-small byteOf bytes-back bytes-drop bytes-le
bytes-left bytes-take bytesOf columns-spec copy-spec count-entries count-spec counted-next counted-start
cut-inside cut-short digits-more drop-le each-append each-puts each-spec edgeOf endOf ended-at ended-here
field-at field-is fill-spec find-spec first-fits first-found first-holds first-of first-part first-read
first-then firstOf fits-one fitsBy found-number from-at from-start front-long getD-map handleOf has-room
high-end high-is joined-bytes kept-from laid-out last-of leaves-at length-back length-last length-over
length-part length-spec linesOf low-bits met-at named-none next-grows next-last next-of no-blocks no-room
no-word noPart none-left not-at nothing-is nothing-put number-is number-passed number-past number-small
numberIn one-more one-unit only-through or-cases or-left or-right other-at over-nothing parts-are parts-in
parts-join passed-then past-end place-at place-found place-here place-inside placeOf placesOf put-all put-four
put-next put-spec puts-then ranges-in read-back read-done read-number read-same read-spec reads-end refused-as
rest-all rest-end resultOf row-is row-next row-same rows-are rows-none run-holds run-more run-none run-of
run-room run-short run-sound run-take runFrom same-at same-length same-size same-test set-holds some-first
stands-after startAt startOf step-spec stored-last stored-next sub-at sum-both sum-rows sum-same text-in
textOf there-back to-high to-low to-number to-start to-whole too-large too-long too-short top-bit typeAt
typesIn unit-spec unitOf upTo walked-line walked-on whole-room width-positive width-spec withNumber word-of
write-spec wrong-size zero-bit
""".split()


def read(p):
    with open(p, encoding="utf-8") as f:
        return f.read()


def write(p, t):
    with open(p, "w", encoding="utf-8") as f:
        f.write(t)


def snake(n):
    if n[0].islower():
        n = re.sub(r"([a-z0-9])([A-Z]+)", lambda m: m.group(1) + "_" + m.group(2).lower(), n)
    return n.replace("-", "_")


def antt():
    return sorted(glob.glob("crates/*/specs/**/*.antt", recursive=True) + glob.glob("crates/*/proofs/**/*.antt", recursive=True))


def declared():
    names = set()
    for p in antt():
        for line in read(p).split("\n"):
            m = re.match(r"^(?:abbrev |unfoldable )?(?:pub )?(" + ID + r") : (.*)", line)
            if m and not m.group(2).startswith("tie."):
                names.add(m.group(1))
            m = re.match(r"^(?:pub )?(?:data|record) (" + ID + ")", line)
            if m:
                names.add(m.group(1))
            m = re.match(r"^\s+(?:abbrev |unfoldable )?(?:pub )?(" + ID + r") : ", line)
            if m and m.group(1) not in ("let",):
                names.add(m.group(1))
    return {n for n in names if TOKEN.fullmatch(n)}


def table(names):
    by = collections.defaultdict(set)
    for n in names:
        by[snake(n)].add(n)
    turned = {}
    for n in names:
        s = snake(n)
        if s == n:
            continue
        if "-" in n and len(by[s]) > 1:
            s += "_lem"
        turned[n] = s
    return turned


CRATES = set()


def foreign(text):
    """The names that a file takes from a library."""
    found = set()
    for m in re.finditer(r"(?:ghost )?use ([^\s;{]+)\.\{([^}]*)\}", text):
        parts = m.group(1).split(".")
        if parts[0] == "Rattle" and len(parts) > 1 and parts[1] in CRATES:
            continue
        for item in m.group(2).split(","):
            item = item.strip()
            if item:
                found.add(item.split(" as ")[-1].strip())
    return found


def turn(text, turned, leave, only_camel=False):
    def one(m):
        n = m.group(0)
        if n not in turned or n in leave:
            return n
        if only_camel and "-" in n:
            return n
        s = turned[n]
        before = text[max(0, m.start() - 1) : m.start()]
        if before == "." and s.endswith("_lem"):
            head = re.search(r"([A-Za-z_]\w*)\.$", text[max(0, m.start() - 40) : m.start()])
            if not (head and head.group(1)[0].isupper()):
                s = snake(n)
        return s

    return TOKEN.sub(one, text)


def clauses(text, turned, leave):
    """A .rt file: camelCase names anywhere; names with dashes only in what is ghost."""
    text = turn(text, turned, leave, only_camel=True)
    out = []
    ghost = 0
    for line in text.split("\n"):
        if ghost == 0 and re.match(r"\s*(ghost |requires\b|ensures\b|with \{)", line):
            ghost = 1
        if ghost:
            line = turn(line, turned, leave)
            opened = line.count("{") - line.count("}")
            if ghost == 1:
                depth = opened
                ghost = 2
            else:
                depth += opened
            if depth <= 0:
                ghost = 0
        out.append(line)
    return "\n".join(out)


def edit(text, turned):
    """A must-fail edit: names as in the file that it changes, and of definitions the spelling of fields too."""
    spec = "file: specs" in text or "file: proofs" in text
    out = []
    for line in text.split("\n"):
        if line.startswith(("old:", "new:")):
            line = re.sub(r"«([a-z]+_[a-z_0-9]*)»", r"\1", turn(line, turned, set(), only_camel=not spec))
            if spec:
                line = re.sub(r"(?<![\w'])getD(?![\w'])", "get_or", line)
                line = re.sub(r"\(([\w']+(?: \.[a-z_]\w*)+)\)", lambda m: m.group(1).replace(" .", "."), line)
                line = re.sub(r"([\w')]) \.(?=[a-z_])", r"\1.", line)
        out.append(line)
    return "\n".join(out)


def tactic(text):
    """#![tactic(auto)] below the head comment."""
    if "#![tactic(" in text:
        return text
    lines = text.split("\n")
    i = 0
    while i < len(lines) and lines[i].startswith("//"):
        i += 1
    while i < len(lines) and lines[i] == "":
        i += 1
    return "\n".join(lines[:i] + ["#![tactic(auto)]", ""] + lines[i:])


def main():
    CRATES.update(os.path.basename(c) for c in glob.glob("crates/*"))
    turned = table(declared())
    for p in antt():
        t = read(p)
        leave = foreign(t)
        s = turn(t, turned, leave)
        s = re.sub(r"«([a-z]+_[a-z_0-9]*)»", r"\1", s)
        m = re.search(r"^pub ([\w\-]+-spec) :", s, re.M)
        if p.endswith("/Proof.antt") and m:
            s = re.sub(r"(?<![\w\-])" + re.escape(m.group(1)) + r"(?![\w\-])", m.group(1).replace("-", "_"), s)
        if s != t:
            write(p, s)
    for p in sorted(glob.glob("crates/*/src/**/*.rt", recursive=True)):
        t = read(p)
        s = clauses(t, turned, foreign(t))
        if p.endswith(("/src/lib.rt", "/src/main.rt")):
            s = tactic(s)
        if s != t:
            write(p, s)
    pages = turned | {n: snake(n) for n in TURNED}
    for p in sorted(glob.glob("crates/*/must-fail/*.edit")):
        t = read(p)
        s = edit(t, pages)
        if s != t:
            write(p, s)
    for p in sorted(glob.glob("*.md") + glob.glob("docs/*.md") + glob.glob("crates/*.md")):
        if os.path.basename(p).startswith("PORT"):
            continue
        t = read(p)
        s = re.sub(r"`[^`\n]+`", lambda m: turn(m.group(0), pages, set()), t)
        s = turn(s, pages, set(), only_camel=True)
        if s != t:
            write(p, s)
    for k in sorted(turned):
        print(k, turned[k])


main()
