#!/usr/bin/env python3
"""Spells the definitions and lemmas of this repository in snake case: `floorDiv` becomes `floor_div`, `floor-down` becomes `floor_down`.

usage: tools/respell.py [--list] FOLDER

It goes over FOLDER/crates, once, right after the toolchain's own script. A name is one that a file of specs/ or proofs/ declares: a definition, a
lemma, a field of a record. What stays: names of Rattle code, of types and of libraries, and names that Rattle makes (as `invariant-loop`). `--list` prints the old and the new names, and changes nothing. A line 'clash:' names a file in which a new name is there already.
"""

import os
import re
import sys

WORD = r"[^\s(){}.;,@\"«»`]+"
TOKEN = re.compile(WORD)
# one group of a head: (x : A) or {x : A}
BINDER = r"(?: [({][^(){}]*(?:[({][^(){}]*(?:[({][^(){}]*[)}][^(){}]*)*[)}][^(){}]*)*[)}])*"
HEAD = re.compile(rf"^\s*(?:(?:abbrev|unfoldable|opaque|instance|pub|record|data)\s+)*({WORD}){BINDER} :(?:\s|$)")
LOCAL = re.compile(rf"\blet ({WORD}){BINDER} :\s")
USE = re.compile(r"^\s*(?:pub )?(?:ghost )?use ([^\s{;]+?)(?:\.\{([^}]*)\})?(?: as ([^\s;]+))?;?$", re.M)
OURS = re.compile(r"^Rattle\.(?!(?:std|core|std_alloc|std_collections|std_heap|std_io|io|libc|os|check)\.)")
MADE = re.compile(r"^(?:invariant|decreases)-loop")
# lemmas that would have the name of their definition
LEMMAS = (
    "all_lines band-at box-at bytes-of equal-boxes failure-of head-refusal is-less is-unsafe law-at law-bytes law-size longest-sheet lowest-met"
    " moved-side one-command record-size row-size sides-at two-bands two-boxes well-formed with-next"
).split()


def snake(name):
    name = re.sub(r"(?<=[^\WA-Z_])([A-Z])", lambda m: "_" + m[1].lower(), name)
    return name.replace("-", "_")


def files(folder):
    for at, dirs, names in os.walk(os.path.join(folder, "crates")):
        dirs[:] = sorted(d for d in dirs if d not in ("out", "target"))
        for name in sorted(names):
            if name.endswith((".rt", ".antt")):
                yield os.path.join(at, name)


def declared(texts):
    names = set()
    for path, text in texts.items():
        if path.endswith(".antt"):
            for line in text.splitlines():
                line = line.split("-- ")[0]
                for m in [HEAD.match(line), *LOCAL.finditer(line)]:
                    if m:
                        names.add(m[1])
    return names


def imported(text):
    """The names that a file takes from a library."""
    found = set()
    for m in USE.finditer(text):
        if not OURS.match(m[1] + "."):
            found |= {n.strip().split(" as ")[0] for n in (m[2] or "").split(",")}
            if not m[2]:
                found.add(m[1].split(".")[-1])
    return found


def parts(path, text):
    """The text in pieces: (kind, piece), of the kinds code, comment and string."""
    mark = "--" if path.endswith(".antt") else "//"
    cut = re.compile(r'(b?"(?:[^"\\\n]|\\.)*")|((?:^|(?<=[\s]))' + mark + r"[^\n]*)", re.M)
    at = 0
    for m in cut.finditer(text):
        yield "code", text[at : m.start()]
        yield ("string" if m[1] else "comment"), m[0]
        at = m.end()
    yield "code", text[at:]


def respell(path, text, names):
    stays = imported(text)
    change = lambda m: names[m[0]] if m[0] in names and m[0] not in stays else m[0]
    quoted = lambda m: "`" + TOKEN.sub(change, m[1]) + "`"
    camel = lambda m: change(m) if "-" not in m[0] else m[0]
    out = []
    for kind, piece in parts(path, text):
        if kind == "code":
            piece = TOKEN.sub(change, piece)
        elif kind == "comment":
            piece = TOKEN.sub(camel, re.sub(r"`([^`\n]*)`", quoted, piece))
        out.append(piece)
    return "".join(out)


def main(argv):
    listing = argv[:1] == ["--list"]
    folder = argv[-1] if argv and not argv[-1].startswith("--") else None
    if folder is None:
        print(__doc__)
        return 2
    texts = {}
    for path in files(folder):
        with open(path, encoding="utf-8") as f:
            texts[path] = f.read()
    names = {}
    for name in declared(texts):
        new = snake(name) + ("_lem" if name in LEMMAS else "")
        if new != name and not name[0].isupper() and not MADE.match(name):
            names[name] = new
    by_new = {}
    for old, new in names.items():
        by_new.setdefault(new, []).append(old)
    for new, olds in sorted(by_new.items()):
        if len(olds) > 1:
            print(f"clash: {' and '.join(sorted(olds))} would both be {new}")
    for path, text in texts.items():
        stays = imported(text)
        tokens = {t for kind, piece in parts(path, text) if kind == "code" for t in TOKEN.findall(piece)}
        for old in sorted(tokens & names.keys()):
            if old not in stays and names[old] in tokens:
                print(f"clash: {os.path.relpath(path, folder)}: {names[old]} is there beside {old}")
    if listing:
        for old, new in sorted(names.items()):
            print(f"{old}\t{new}")
        return 0
    changed = 0
    for path, text in texts.items():
        new = respell(path, text, names)
        if new != text:
            changed += 1
            with open(path, "w", encoding="utf-8") as f:
                f.write(new)
    print(f"{len(names)} names, {changed} files changed")
    return 0


if __name__ == "__main__":
    raise SystemExit(main(sys.argv[1:]))
