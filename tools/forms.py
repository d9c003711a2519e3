#!/usr/bin/env python3
"""Lists the places in crates/*/src where an older form may stand, point by point.

    python3 tools/forms.py [FOLDER]

FOLDER is a checkout, by default this one. Each line is a place to read, not a verdict. The points are
those of docs/DESIGN-PASS.md.
"""
import collections
import pathlib
import re
import sys

ROOT = pathlib.Path(sys.argv[1] if len(sys.argv) > 1 else pathlib.Path(__file__).resolve().parent.parent)
SOURCES = sorted(ROOT.glob("crates/*/src/*.rt"))
PROOFS = sorted(ROOT.glob("crates/*/proofs/**/*.antt"))


def lines():
    for path in SOURCES:
        for number, line in enumerate(path.read_text().splitlines(), 1):
            yield f"{path.relative_to(ROOT / 'crates')}:{number}", line


def grep(title, pattern):
    found = [(place, line.strip()) for place, line in lines() if re.search(pattern, line)]
    show(title, [f"{place}: {line}" for place, line in found])


def show(title, found):
    print(f"\n{title}: {len(found)}")
    for line in found:
        print("  " + line)


def functions():
    """Each function: place, name, parameters' names, and its body without contract and comments."""
    for path in SOURCES:
        text = re.sub(r"//.*", "", path.read_text())
        for match in re.finditer(r"\bfn (\w+)(<[^{;]*?>)?\(", text):
            start = match.end()
            depth, at = 1, start
            while depth:
                depth += {"(": 1, ")": -1}.get(text[at], 0)
                at += 1
            names = re.findall(r"(\w+):(?!:)", text[start : at - 1])
            rest = re.sub(r"(?m)^\s*(requires|ensures\*?).*$", "", text[at:])
            head = re.match(r"[^{;]*([{;])", rest, re.S)
            if not head or head.group(1) == ";":
                continue
            depth, end = 1, head.end()
            while depth:
                depth += {"{": 1, "}": -1}.get(rest[end], 0)
                end += 1
            place = f"{path.relative_to(ROOT / 'crates')}"
            yield place, match.group(1), names, rest[head.end() : end - 1]


def shape(body):
    body = re.sub(r'b?"(\\.|[^"\\])*"', "S", body)
    tokens = re.findall(r"\w+|[^\s\w]", body)
    return tuple("I" if re.match(r"\w", t) and t not in KEYWORDS else t for t in tokens)


KEYWORDS = {"if", "else", "match", "for", "in", "return", "let", "mut", "while", "loop"}


def twins():
    groups = collections.defaultdict(list)
    for place, name, _, body in functions():
        form = shape(body)
        if len(form) >= 18:
            groups[form].append(f"{place} {name}")
    show("2 functions whose bodies have one shape", [" ~ ".join(g) for g in groups.values() if len(g) > 1])


def companions():
    pairs = collections.defaultdict(list)
    for place, name, names, _ in functions():
        for i, a in enumerate(names):
            for b in names[i + 1 :]:
                pairs[a, b].append(f"{place} {name}")
    show(
        "5 parameters that stand together in three or more functions",
        [f"({a}, {b}): {len(w)}" for (a, b), w in sorted(pairs.items(), key=lambda p: -len(p[1])) if len(w) >= 3],
    )


def main():
    grep("1 own enums", r"^\s*(pub )?enum ")
    grep("1 numbers for refusals", r"[Rr]efusal\.number\(\)|answer: u8|=> \d+,$")
    grep("1 numbers that stand for no number", r"const TOO_\w+: u")
    grep("1 matches on an Option or a Result", r"\b(Some|Ok)\((_|\w+)\) => ")
    grep("1 giving up by hand where there is none", r"let Some\(.*\belse \{|is_some\(\) \{")
    twins()
    grep("3 loops", r"^\s*(for|while|loop)\b.*\{")
    grep("4 orders, printing and conversions", r"^impl.* (Ordered|(fmt::)?Display|Ord|PartialOrd|From<.*>|TryFrom<.*>) for|fn compare\(&self, other|pub fn (new|from_\w+)\([^)]*\) -> Result|fn \w+_in\(")
    grep("4 casts", r"\bas (u8|u16|u32|u64|usize)\b")
    grep("5 clauses on a value's soundness", r"\b[Ss]ound (self|result)|S\.Store\.sound")
    grep("5 clauses that ask something of callers", r"^\s*requires\b")
    companions()
    grep("6 arrays, and buffers to fill", r"\[0u8; |\[\w+; \w+\]( \{|$)|buffer: &mut \[u8\]")
    grep("7 matches that pick a step", r"\bmatch (\*?self|verb|command|setting|retention|step\.call|\*call)\b")
    texts = [p.read_text() for p in PROOFS]
    print(f"\n8 files of proofs: {len(PROOFS)}")
    print(f"8 lines of proofs: {sum(t.count(chr(10)) for t in texts)}")
    print(f"8 answers to goals: {sum(len(re.findall(r'^pub [^:]+ : goal[.]', t, re.M)) for t in texts)}")


if __name__ == "__main__":
    main()
