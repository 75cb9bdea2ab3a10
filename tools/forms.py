#!/usr/bin/env python3
"""forms.py [CHECKOUT]: counts older forms of code in crates/*/src, by the points of docs/DESIGN-PASS.md, and lists each place.

A count is of places, not of faults: which of them stay, and why, stands beside them and in that page.
"""

import collections
import glob
import re
import sys

ROOT = sys.argv[1] if len(sys.argv) > 1 else "."
FILES = sorted(glob.glob(f"{ROOT}/crates/*/src/**/*.rt", recursive=True))
TOKEN = re.compile(r"[A-Za-z_]\w*|\d\w*|[^\s\w]")
WORDS = {
    "if", "else", "match", "return", "let", "mut", "for", "in", "while", "loop", "fn", "as", "true", "false", "self",
}
# the patterns of a point: what is counted, and a line that has it
LINES = {
    "1": [
        ("a refusal's number as a field or a parameter", r"^\s*(pub )?(refusal|number): u8\b|^\s*Refused \{ number: u8 \}|\((x|one|refusal|number): u8"),
        ("a function that answers a refusal's number", r"^[^/]*-> u8\b"),
        ("a constant for a refusal, a kind or no value", r"^\s*(pub )?const [A-Z_]+: (u8|u32|u64|i64) = (\d+|b'.');.*$"),
        ("a test of a refusal's number against 0", r"\b(refusal|refused|x|form|of_ticks|of_law|one) (!=|==) 0\b"),
        ("a flag beside a value, as a field", r"^\s*pub \w+: bool,"),
    ],
    "3": [
        ("while", r"^\s*while "),
        ("loop", r"^\s*(\w+ = )?loop \{"),
    ],
    "4": [
        ("as", r"[^/]* as (u8|u16|u32|u64|usize|i8|i16|i32|i64)\b"),
        ("a function for order, equality or bytes", r"fn (min|max|smaller|larger|compare|then_by|both_le|at_most|no_further|wide|two|four|bits|lies_between|first|first_of|marked|move_rest|put|put_decimal|zero)\("),
    ],
    "7": [
        ("a flag as a parameter", r"^[^/]*\b(?!pub )\w+: bool[,)]"),
    ],
}


def functions():
    """(file, line, name, parameters, clauses, body) of each function."""
    for path in FILES:
        text = open(path, encoding="utf-8").read()
        for m in re.finditer(r"^( *)(?:pub(?:\(crate\))? )?(?:extern \"C\" )?fn (\w+)(?:<[^\n]*?>)?\(", text, re.M):
            end = text.find(f"\n{m[1]}}}\n", m.end())
            whole = text[m.end() : end]
            depth, i = 1, 0
            while depth and i < len(whole):
                depth += (whole[i] == "(") - (whole[i] == ")")
                i += 1
            params = [" ".join(p.split()) for p in re.split(r",(?![^\[<(]*[\])>])", whole[: i - 1]) if p.strip()]
            rest = whole[i:]
            start = re.search(r"^%s\{$|\{$" % m[1], rest, re.M)
            clauses, body = (rest[: start.start()], rest[start.end() :]) if start else (rest, "")
            yield path, text.count("\n", 0, m.start()) + 1, m[2], params, clauses, body


def show(title, places):
    print(f"  {title}: {len(places)}")
    for place in places:
        print(f"    {place}")


def short(path):
    return path[len(ROOT) + 1 :].replace("crates/", "").replace("/src/", "/")


def main():
    every = list(functions())
    print(f"{len(FILES)} files, {len(every)} functions")
    for point, patterns in LINES.items():
        print(f"point {point}")
        for title, pattern in patterns:
            at = re.compile(pattern)
            show(title, [f"{short(p)}:{k}: {l.strip()[:100]}" for p in FILES for k, l in enumerate(open(p, encoding="utf-8"), 1) if at.search(l) and not l.strip().startswith("//")])
    print("point 2")
    shapes = collections.defaultdict(list)
    for path, line, name, _, _, body in every:
        shape = " ".join(t if t in WORDS or not re.match(r"\w", t) else ("n" if t[0].isdigit() else "x") for t in TOKEN.findall(re.sub(r"//.*", "", body)))
        if len(shape.split()) >= 12:
            shapes[shape].append(f"{short(path)}:{line} {name}")
    show("bodies of the same shape", [", ".join(v) for v in shapes.values() if len(v) > 1])
    print("point 5")
    facts, sets = collections.defaultdict(set), collections.defaultdict(set)
    for path, line, name, params, clauses, _ in every:
        for clause in re.findall(r"requires [\w ]*\{(.*)\}", clauses):
            for fact in re.split(r" × ", clause):
                facts[re.sub(r"^[ (]+|[ )]+$", "", fact)].add(f"{short(path)}:{name}")
        plain = [p for p in params if not p.startswith("&self") and p != "self"]
        for i, a in enumerate(plain):
            for b in plain[i + 1 :]:
                sets[(a, b)].add(f"{short(path)}:{name}")
    show("a fact asked by three functions or more", [f"{len(v)} × {f}" for f, v in sorted(facts.items(), key=lambda x: -len(x[1])) if len(v) > 2])
    show("two parameters together in four functions or more", [f"{len(v)} × {a}, {b}" for (a, b), v in sorted(sets.items(), key=lambda x: -len(x[1])) if len(v) > 3])
    print("point 6")
    pairs = []
    for path, line, name, params, _, _ in every:
        arrays = [p for p in params if re.search(r"&(mut )?\[", p)]
        counts = [p for p in params if re.match(r"(at|count|end|held|taken|n|place): usize", p)]
        if arrays and counts:
            pairs.append(f"{short(path)}:{line} {name}: {', '.join(arrays)} with {', '.join(counts)}")
    show("a buffer with a place or a count beside it", pairs)
    print("point 8")
    answers = glob.glob(f"{ROOT}/crates/*/proofs/**/Answers.antt", recursive=True)
    lines = sum(len(re.findall(r"^pub \S+ : goal\.", open(a, encoding="utf-8").read(), re.M)) for a in answers)
    print(f"  answers in proofs of functions: {lines} in {len(answers)} files")


main()
