#!/usr/bin/env python3
"""Respells this repository's own definitions and lemmas as today's Rattle spells names.

usage: python3 tools/respell.py        at the top of the repository, once, after the kit's port.py

Words are in snake case, facts in upper camel case; a dash joins the names of two functions, or of a
fact and a function, as in `length-over` and `Lawful-emptied`. Names of src/, strings, inputs,
outputs and the names that Rattle itself makes for goals keep their spelling.
"""

import os
import re

# Facts: what stood in clauses with dashes.
FACTS = {
    "Columns-hold-each-once": "ColumnsHoldEachOnce",
    "Entries-are-kept": "EntriesAreKept",
    "First-kept-is-least": "FirstKeptIsLeast",
    "Given-up-for-good": "GivenUpForGood",
    "Names-in-byte-order": "NamesInByteOrder",
    "Nearest-is-found": "NearestIsFound",
    "Rows-hold-each-once": "RowsHoldEachOnce",
}

# Names that would fall together with another, and names in which a dash joins two names.
CHOSEN = {
    "packed-order": "packed_order_lem",
    "Bytes-drop": "Bytes-drop",
    "bytes-drop": "Bytes-drop",
    "bytes_drop": "Bytes-drop",
    "all-placed": "All-placed",
    "all_placed": "All-placed",
    "all-without": "All-without",
    "all_without": "All-without",
    "lacks-without": "Lacks-without",
    "lawful-appended": "Lawful-appended",
    "lawful-dropped": "Lawful-dropped",
    "lawful-emptied": "Lawful-emptied",
    "rising-without": "Rising-without",
    "length_over": "length-over",
    "length_without": "length-without",
}

# Lemmas whose dash joins two names already.
JOINED = {"length-entry", "length-over", "length-packed", "length-placed", "length-slot", "length-slots", "length-without"}

# Lemmas, fields of records and local names with dashes between words.
DASHED = """
a-before-a-srt a-srt-before-b a-srt-packed accepted-is-not-refused admitted-by-contents all-before-placing
all-in-slots all-in-the-middle all-taken also-accepted also-refused append-accepted append-refused append-step
at-any before-place before-zero-none before-zero-padded behind-or-end behind-place big-endian-bound
big-endian-none big-endian-split block-at-place block-bytes block-cut-short block-read-at-place block-too-long
both-parts bytes-around bytes-of-big-endian bytes-of-zero candidate-is-kept candidate-is-least column-holds
columns-hold-each-once columns-of-width contents-of-relaid count-at-end count-of-slots digit-bounds
drop-accepted drop-refused drop-step eight-bytes entries-are-kept entries-begin entries-read-back
entry-at-place entry-in-log entry-never-missing entry-read-at-place entry-read-back entry-written
every-and-next every-and-this every-at every-digit fewer-slots fewer-zeros first-from-eleven first-from-five
first-kept-is-least first-of-two first-or-later found-at-end found-at-place found-before-end found-block
found-is-made found-placed found-without four-byte-number free-slot free-slots-bytes free-slots-storable
given-up-for-good half-mod halving-two header-of-three-bytes holding-entry holds-too in-slot is-dropped
is-moved joined-both kept-among-and-next kept-before kept-by-age kept-is-first lacks-if-above lacks-if-below
lawful-readable leading-digit least-from-before least-is-first least-is-one least-of-first length-around
length-byte-at length-one-more length-without-within log-appended log-dropped log-emptied middle-taken-out
moment-is-made name-byte-is-nonzero name-bytes-are-nonzero name-is-nonzero name-is-short name-order
nearest-is-found no-block-found no-entry-at no-header-at no-row-above none-at none-is-first none-is-not-some
nonzero-bytes not-every not-held nothing-at-no-place nothing-found number-bytes number-order-is
number-order-lawful number-read-back one-byte-more one-entry-fits one-row order-of-big-endian others-lack
over-again over-behind over-front-part over-next pack-next-byte packed-if-repacked packed-length-bound
packed-name packed-one-less packed-one-more packed-parts packed-read-back packed-tail padded-none-split
padded-split part-written parts-order-lawful parts-turned passed-by place-in-log place-written
placed-in-either-order placed-last power-is-positive ranked-at ranked-none ranked-within reach-is-whole
read-next-digit rest-behind-word rising-all-above rising-all-up-to rising-at-end rising-before-placing
rising-bound rising-lower rising-readable room-for-a-byte room-has-a-slot round-finds round-none round-some
rounded-division-is-enough rounded-division-is-positive rounded-is-least rounded-is-multiple row-bounds
row-holds row-of-age rows-hold-each-once same-contents same-pair same-room same-tail second-of-two
seen-at-first seventeen-bytes sixteen-bytes slot-filled slot-freed slot-read-back slots-read-back slots-within
small-capacity so-far-all spelled-front spelled-length spelled-of-name step-holds stopped-at storable-slots
text-behind-spaces then-reversed transitive-by turned-and-zeroed two-entries-fit unpacked-if-no-name
unseen-at-end used-bound walk-finds walk-goes-on walk-is-at was-used whole-j window-begins window-three
without-placed word-in-text written-in-slot zero-th zeros-are-fewer zeros-are-most zeros-divide
""".split()

# `first_of` is the name of a tactic.
IN_POLICIES = {"firstOf": "first_among", "first_of": "first_among", "first-of-is-least": "first_among_is_least"}

CAMEL = re.compile(r"[a-z][a-z0-9]*(?:[A-Z][A-Za-z0-9]*)+$")
TOKEN = re.compile(r"(?<![0-9])[A-Za-z_][A-Za-z0-9_']*(?:-[A-Za-z0-9_']+)*")  # and no digits after 0x
STRING = re.compile(r'b?"(?:[^"\\]|\\.)*"')


def spelled(token, before, policies):
    """The spelling of a token; `before` is the character in front of it."""
    if policies and token in IN_POLICIES:
        return IN_POLICIES[token]
    if token in FACTS:
        return FACTS[token]
    if before == "." and not CAMEL.match(token):
        return token
    if token in CHOSEN:
        return CHOSEN[token]
    if token in JOINED:
        return token
    if token in DASHED:
        return token.replace("-", "_")
    if CAMEL.match(token):
        return re.sub(r"(?<=[a-z0-9])(?=[A-Z])", "_", token).lower()
    return token


def turned(text, policies, only=None):
    def one(m):
        token = m.group(0)
        if only is not None and token not in only:
            return token
        return spelled(token, text[m.start() - 1 : m.start()], policies)

    return TOKEN.sub(one, text)


def antt(text, path):
    """A file of specs/ or proofs/: code whole, of comments what stands in backquotes."""
    policies = "/policies/" in path or "/worked_examples/" in path
    if path.endswith("commands/proofs/Decimals.antt"):
        # the lemma, and the word of the library of which it speaks
        text = re.sub(r"(?<![A-Za-z_.-])digit[-_]value(?![A-Za-z_-])(?! as)", "digit_value_lem", text)
        text = text.replace("digit_value as digitValue", "digit_value")
    out = []
    for line in text.split("\n"):
        code, dashes, comment = line.partition("--") if not re.search(r'"[^"]*--', line) else (line, "", "")
        comment = re.sub(r"`[^`]*`", lambda m: turned(m.group(0), policies), comment)
        parts, at = [], 0
        for s in STRING.finditer(code):
            parts += [turned(code[at : s.start()], policies), s.group(0)]
            at = s.end()
        out.append("".join(parts) + turned(code[at:], policies) + dashes + comment)
    return "\n".join(out)


def rt(text, path):
    """A file of src/: what it imports by `ghost use`, outside of strings, and of its comments what stands in backquotes."""
    policies = "/policies/" in path
    imported = set()
    for names in re.findall(r"ghost use [^;{]*\{([^}]*)\}", text):
        imported |= {n for part in names.split(",") for n in part.split()}
    out = []
    for line in text.split("\n"):
        m = re.search(r"(?<!:)//", STRING.sub(lambda s: "_" * len(s.group(0)), line))
        code, comment = (line[: m.start()], line[m.start() :]) if m else (line, "")
        comment = re.sub(r"`[^`]*`", lambda m: turned(m.group(0), policies), comment)
        parts, at = [], 0
        for s in STRING.finditer(code):
            parts += [turned(code[at : s.start()], policies, imported), s.group(0)]
            at = s.end()
        out.append("".join(parts) + turned(code[at:], policies, imported) + comment)
    return "\n".join(out)


def main():
    for folder, dirs, files in os.walk("crates"):
        dirs[:] = sorted(d for d in dirs if d not in ("out", "must-fail"))
        for name in sorted(files):
            path = os.path.join(folder, name)
            turn = antt if name.endswith(".antt") else rt if name.endswith(".rt") else None
            if turn is None:
                continue
            with open(path, encoding="utf-8") as f:
                old = f.read()
            new = turn(old, path)
            if new != old:
                with open(path, "w", encoding="utf-8") as f:
                    f.write(new)
                print(path)


if __name__ == "__main__":
    main()
