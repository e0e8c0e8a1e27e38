#!/usr/bin/env python3
"""Spells the repository's own definitions and lemmas in snake case: `areasOf` is `areas_of`, `getD-listTo` is `get_or-list_to`.

usage: python3 tools/respell.py        at the top of the repository, once, after the kit's port script

A word of antt whose parts are in camel case (a small letter at the front) is respelled wherever it stands as a whole word: in
specs/ and proofs/, in the clauses and ghost imports of src/, in must-fail edits, in what makes the compared definitions, and in
the documents. A dash in a name that specs/ declares becomes `_`, but where another word has that spelling. Names in capitals
(K2, C1) are the annex's symbols and stay. Strings, inputs and outputs are not touched.
"""
import os
import re
import sys

WORD = re.compile(r"[A-Za-z0-9_'ᵇθ₁₂²-]+")
LETTERS = "A-Za-z0-9_'ᵇθ₁₂²-"
GETD = {"getD": "get_or"}  # the library's own respelling, within names of ours
STAY = {"hS"}
# what the kit's port script respelled in .rt and .antt files: here for edits, documents and reference/
PORTED = """
above-same add-at add-kept add-low add-r after-more after-two all-append all-back all-drop all-held all-hold all-in
all-map all-more all-set all-sound all-take all-there all-weaker allOf and-split answerOf any-append any-next anyOf
arm-at arm-more askedOf at-least atLeast atMost both-below both-some bound-at by-answer by-count by-size by-word
bytes-back bytes-read bytesOf call-step chain-same check-done countOf counted-spec covered-more cut-below
distinct-more either-way enum-told every-of field-back filled-more first-of first-slot firstWord fit-parts flowOf
forall-append found-in four-is free-of getD-any gives-all gives-none glyph-decimal group-at groupOf has-more
head-first headOf high-fits high-same high-small in-order in-p in-parts inTurn is-number is-read is-word isNone
isNumber isOver item-back item-count item-on itemAt items-back items-left items-more itemsIn joined-bytes
kept-append kept-more kind-fits kindOf known-of length-front lent-is line-word list-same load-at load-is load-same
low-bits low-fits low-of low-small many-read marked-more member-back moment-more more-room move-down-spec moved-more
mul-at mul-low mul-next no-borrow no-bytes no-digit no-end no-gap no-less no-lower no-number no-room no-start noItem
none-above none-below none-first none-found none-is none-left none-more none-over not-free not-so number-bound
number-is number-more number-read number-same number-small numberAt numberIn numbered-step of-three one-class
one-more or-split or-swap other-items other-word over-none paired-none partly-more place-same put-spec put-whole
puts-none puts-one read-byte read-first read-is read-length read-spec readAll refused-as restOf room-most roomAt
root-is row-back row-cons row-fits row-in row-is row-last row-more row-of row-put row-step rowAt rowOf rows-are
rows-fit rows-in rows-long rows-more rows-none rows-short rows-step rows-written rowsOf rowsTo same-bytes same-count
same-length same-refl same-test same-true sizeOf slotOf some-left some-mapped some-of some-right some-then stands-at
start-spec stateOf stays-all stays-on step-by sub-is sum-same sumTo sums-none sums-on take-again take-counted
take-next taken-at taken-none then-rule then-same too-large too-many totalOf turn-low turn-more turned-down turns-at
two-digits two-is value-grows value-none valueAt values-same with-root wordOf write-done write-spec written-next
written-none written-read
""".split()
# local lemmas that would fall together with a definition
LOCAL = {
    "crates/slots/proofs/Codec.antt": {"group_at": "group_kept"},
    "crates/lines/proofs/ReadBack.antt": {"read_byte": "read_next"},
}


def snake(name):
    parts = [GETD.get(part, part) for part in name.split("-")]
    return "-".join(re.sub(r"(?<=[a-z0-9])(?=[A-Z])", "_", part).lower() if re.match(r"[a-z].*[a-z0-9][A-Z]", part) else part for part in parts)


def files(kinds):
    for folder, dirs, names in os.walk("crates"):
        dirs[:] = sorted(d for d in dirs if d != "out")
        for name in sorted(names):
            if name.endswith(kinds):
                yield os.path.join(folder, name)


def text(path):
    with open(path, encoding="utf-8") as f:
        return f.read()


def uncommented(source):
    return re.sub(r"--.*", "", source)


def table():
    words, declared = set(), set()
    for path in files(".antt"):
        source = uncommented(text(path))
        words |= set(WORD.findall(source))
        if "/specs/" in path:
            declared |= set(re.findall(r"^\s*(?:abbrev |unfoldable |pub )*([a-z][a-z0-9]*(?:-[a-z0-9]+)+) *:", source, re.M))
    camel = {w: snake(w) for w in words if re.match(r"[a-z]", w) and w not in STAY and snake(w) != w and ("getD" != w)}
    camel.pop("getD", None)
    taken = words | set(camel.values())
    dashed = {w: w.replace("-", "_") for w in declared if w.replace("-", "_") not in taken}
    left = sorted(w for w in declared if w.replace("-", "_") in taken)
    if left:
        print("another word has the spelling, so the dash stays:", ", ".join(left))
    return {**camel, **dashed}


def respell(source, rows):
    pattern = re.compile(r"(?<![%s])(%s)(?![%s])" % (LETTERS, "|".join(sorted(map(re.escape, rows), key=len, reverse=True)), LETTERS))
    return pattern.sub(lambda m: rows[m.group(1)], source)


def in_page(source, rows):
    """Of a document: what stands in backquotes, and of it not the prose's words with a dash."""
    return re.sub(r"`[^`\n]*`", lambda m: respell(m.group(0), rows), source)


def in_code(source, rows):
    """Of a .rt file: ghost imports, clauses and comments. Its Rust has no camel case, so whole words are enough, outside strings."""
    parts = re.split(r'("(?:[^"\\]|\\.)*")', source)
    return "".join(part if i % 2 else respell(part, rows) for i, part in enumerate(parts))


def main():
    for path, names in LOCAL.items():
        old = text(path)
        with open(path, "w", encoding="utf-8") as f:
            f.write(respell(old, names))
    rows = table()
    ported = {w: snake(w).replace("-", "_") for w in PORTED}
    by_new = {}
    for old, new in rows.items():
        by_new.setdefault(new, []).append(old)
    for new, olds in sorted(by_new.items()):
        if len(olds) > 1:
            print("fall together:", olds, "->", new)
    others = ["README.md"] + [os.path.join("docs", n) for n in sorted(os.listdir("docs")) if n.endswith(".md") and not n.startswith("PORT")]
    others += [os.path.join("reference/definitions", n) for n in sorted(os.listdir("reference/definitions"))]
    others += [os.path.join("reference/src/vectors", n) for n in sorted(os.listdir("reference/src/vectors"))]
    done = 0
    for path in [*files((".antt", ".rt", ".edit")), *others]:
        old = text(path)
        if path.endswith(".rt"):
            new = in_code(old, rows)
        elif path.endswith(".md"):
            new = in_page(old, {**rows, **ported})
        else:
            new = respell(old, rows if path.endswith(".antt") else {**rows, **ported})
        if new != old:
            with open(path, "w", encoding="utf-8") as f:
                f.write(new)
            done += 1
    print(f"{len(rows)} names, {done} files")


if __name__ == "__main__":
    sys.exit(main())
