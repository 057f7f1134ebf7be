#!/usr/bin/env python3
"""Spells the repository's own definitions and lemmas in snake case, as Rattle's library does: nameLines and kept-exact become name_lines and
kept_exact.

usage: tools/spell.py [--check]      at the top of the repository, once, right after port.py

A word turns if a part of it, between dashes, begins with a small letter and has a capital after a small letter or a digit, or if it has
dashes and each part begins with a small letter or a digit. In .antt files each such word turns, but for names that the file imports from the
library and what comments say outside backquotes; in the proofs of functions only those that the file imports from this repository, and the
fields of its records; in .rt files those in clauses and ghost items; in README.md and docs/ those between backquotes that are declared. A
lemma that would have the name of a definition gets `_lem`, and what the Rust's text has under the name of a function of ours `rust_`. --check
writes nothing. Names that fall together in one file are printed.
"""

import collections
import glob
import os
import re
import sys

OWN = sorted(c for c in os.listdir("crates") if os.path.isdir(f"crates/{c}/src"))
WORD = re.compile(r"[^\s(){}.;,@\"«»\[\]|`]+")
HUMP = re.compile(r"(?<=[a-z0-9])[A-Z]")
HUMPS = re.compile(r"(?<=[a-z0-9])(?:[A-Z]+(?![a-z])|[A-Z])")
USE = re.compile(r"\buse ([^\s;{]+)\.\{([^}]*)\}")
GHOST = re.compile(r"\bghost use [^;]*;|\b(?:requires|ensures)\*?(?: \w+)? \{")
DECLARED = re.compile(r"(?m)^ *(?:(?:pub|abbrev|unfoldable|record|data) )*([^\s(){}:]+) (?:\([^\n]*?\) )?: ")
PIECE = re.compile(r'"(?:\\.|[^"\\])*"|(?P<comment>(?:^|(?<=\s))--(?=\s|$)[^\n]*)|(?:(?!"|(?:^|(?<=\s))--(?=\s|$)).)+', re.M | re.S)
FIELD = re.compile(r"(?m)^  (?:pub )?([^\s(){}:]+) : ")
# Lemmas that the first script spelled like a definition of the same file.
TOGETHER = {
    "crates/page_reader/proofs/Starts.antt": "met_by",
    "crates/page_writer/proofs/Indexed.antt": "fields_in",
    "crates/yewdome/proofs/Looks.antt": "look_bytes",
    "crates/record_bytes/proofs/Theorems.antt": "text_at",
    "crates/reader/proofs/": "ruled_out",
    "crates/swift_mt_message/proofs/": "by_lines",
}


# What the Rust's text has under the name of a function of ours.
RUST = {
    "parse-bic",
    "parse-with-variant",
    "is-empty",
    "last-is-bic",
    "parse-remaining",
    "parse-swift-chars",
    "parse-party-identifier",
    "parse-name-and-address",
}


def camel(part):
    if not part[:1].islower() or not HUMP.search(part):
        return part
    return HUMPS.sub(lambda h: "_" + h[0].lower(), part)


def is_plain(word):
    parts = word.split("-")
    return len(parts) > 1 and all(re.fullmatch(r"[a-z0-9][A-Za-z0-9_]*|[A-Z0-9]{1,3}", p) for p in parts) and word[0].islower()


def is_proof(path):
    return re.search(r"/proofs/.*/(?:Proof|Answers|Invariants)\.antt$", path) is not None


def read(path):
    with open(path, encoding="utf-8") as f:
        return f.read()


def sources():
    for c in OWN:
        for folder in ("specs", "proofs"):
            yield from sorted(glob.glob(f"crates/{c}/{folder}/**/*.antt", recursive=True))


DASHED, PLAIN, FIELDS = set(), set(), set()
for path in sources():
    if not is_proof(path):
        text = re.sub(r"(?m)(^|\s)--.*$", "", read(path))
        for word in DECLARED.findall(text):
            if is_plain(word):
                DASHED.add(word)
            elif "-" not in word:
                PLAIN.add(camel(word))
        FIELDS.update(FIELD.findall(text))
FUNCTIONS = {f for c in OWN for p in glob.glob(f"crates/{c}/src/**/*.rt", recursive=True) for f in re.findall(r"\bfn (\w+)", read(p))}


def turned(word):
    if word in RUST:
        return "rust_" + word.replace("-", "_")
    if "·" in word and is_plain(word.rpartition("·")[2]):
        return word.replace("-", "_")
    if is_plain(word):
        it = "_".join(camel(p) for p in word.split("-"))
        return it + "_lem" if it in PLAIN or it in FUNCTIONS else it
    return "-".join(camel(p) for p in word.split("-"))


def imported(text, own):
    names = set()
    for module, items in USE.findall(text):
        head = module.split(".")
        made = "proofs" in head and head[-1] in ("Tie", "Statement", "Goals", "Given")
        mine = head[0] == "Rattle" and len(head) > 1 and head[1] in OWN and not made
        if mine == own:
            names.update(i.split(" as ")[0].strip() for i in items.split(","))
    return names


def words(text, does):
    def one(m):
        behind = m.start() > 0 and text[m.start() - 1] == "."
        return turned(m[0]) if does(m[0], behind) else m[0]

    return WORD.sub(one, text)


def antt(path, text):
    for folder, name in TOGETHER.items():
        if path.startswith(folder):
            text = re.sub(rf"(?<![\w.-]){name}(?![\w-])", name + "_lem", text)
    keep = imported(text, False)
    if is_proof(path):
        mine = imported(text, True)
        generated = {f.replace("_", "-") for f in FUNCTIONS}

        def does(word, behind):
            if word in keep:
                return False
            if "-" not in word:
                return True
            return word in FIELDS and word not in generated if behind else word in mine
    else:

        def does(word, behind):
            return word not in keep

    def piece(m):
        if m[0].startswith('"'):
            return m[0]
        if m["comment"]:
            return re.sub(r"`[^`]+`", lambda span: words(span[0], does), m[0])
        return words(m[0], does)

    return PIECE.sub(piece, text)


def rt(path, text):
    keep = imported(text, False)
    out, at = [], 0
    for m in GHOST.finditer(text):
        if m.start() < at:
            continue
        end = m.end()
        if text[end - 1] == "{":
            depth = 1
            while depth:
                depth += {"{": 1, "}": -1}.get(text[end], 0)
                end += 1
        out += [text[at : m.start()], words(text[m.start() : end], lambda w, b: w not in keep)]
        at = end
    return "".join(out) + text[at:]


def md(path, text):
    out, fence = [], False
    for line in text.split("\n"):
        fence ^= line.startswith("```")

        def span(m):
            if "::" in m[0] or "(" in m[0] or "/" in m[0] or "--" in m[0]:
                return m[0]
            return words(m[0], lambda w, b: w in DASHED or w in FIELDS or ("-" not in w and camel(w) in PLAIN))

        out.append(line if fence or line.startswith("    ") else re.sub(r"`[^`\n]+`", span, line))
    return "\n".join(out)


def files():
    for p in sources():
        yield p, antt
    for c in OWN:
        for p in sorted(glob.glob(f"crates/{c}/src/**/*.rt", recursive=True)):
            yield p, rt
    for p in ["README.md", *sorted(glob.glob("docs/*.md"))]:
        if os.path.basename(p) not in ("PORT.md", "DESIGN-PASS.md", "DECISIONS.md"):
            yield p, md


def main(argv):
    status = 0
    for path, turn in list(files()):
        old = read(path)
        new = turn(path, old)
        if turn is antt:
            strip = lambda t: WORD.findall(re.sub(r"(?m)(^|\s)--.*$", "", t))
            a, b = strip(old), strip(new)
            if len(a) == len(b):
                after = collections.defaultdict(set)
                for x, y in zip(a, b):
                    after[y].add(x)
                for y, xs in sorted(after.items()):
                    if len(xs) > 1 and not (is_proof(path) and y in FUNCTIONS):
                        print(f"{path}: {y} of {', '.join(sorted(xs))}")
                        status = 1
        if "--check" not in argv and new != old:
            with open(path, "w", encoding="utf-8") as f:
                f.write(new)
    return status


if __name__ == "__main__":
    sys.exit(main(sys.argv[1:]))
