#!/usr/bin/env python3
"""respell.py: the repository's own definitions and lemmas in today's spelling, once, after port.py.

  python3 tools/respell.py        at the top of the checkout

Words are in snake case: a word in lower camel case (`readNumber`, also as a part of `lastOf-append`) becomes
`read_number`, in crates/*/{src,specs,proofs}, comments too, strings not. Types, modules and constructors keep their
capital, and functions of src/ are in snake case already. A lemma that would get its definition's name ends in `_lem`.
It says which words it turned, and stops before it writes where two words would become one.
"""
import collections
import glob
import re
import sys

# a lemma beside the definition whose name it would have
BESIDE = {"crates/grammar/proofs/Rows.antt": {"node_ok": "nodeOk", "number_ok": "numberOk", "rest_ok": "restOk"}}


def snake(word):
    return re.sub(r"[A-Z]+", lambda m: "_" + m.group(0).lower(), word)


def is_camel(word):
    return re.fullmatch(r"[a-z]([a-z0-9_]*[a-z0-9])?([A-Z]([a-z0-9_]*[a-z0-9])?)+", word) is not None


def pieces(text, is_code):
    """the text in parts, each with whether it may change: in a .rt file a string may not"""
    if not is_code:
        return [(text, True)]
    out, last = [], 0
    for m in re.finditer(r'//[^\n]*|b?"(?:\\.|[^"\\])*"', text):
        if not m.group(0).startswith("//"):
            out += [(text[last : m.start()], True), (m.group(0), False)]
            last = m.end()
    return out + [(text[last:], True)]


def respelled(text, is_code, said):
    def turn(m):
        word = m.group(0)
        if not is_camel(word):
            return word
        said[word] += 1
        return snake(word)

    word = re.compile(r"(?<![\w'])[a-z]\w*")
    return "".join(word.sub(turn, part) if free else part for part, free in pieces(text, is_code))


def main():
    paths = sorted(p for kind in ("rt", "antt") for p in glob.glob(f"crates/**/*.{kind}", recursive=True))
    said, new = collections.Counter(), {}
    for path in paths:
        with open(path, encoding="utf8") as f:
            text = f.read()
        for lemma, definition in BESIDE.get(path, {}).items():
            if definition in text:
                text = re.sub(rf"(?<![\w'-]){lemma}(?![\w'-])", lemma + "_lem", text)
        new[path] = respelled(text, path.endswith(".rt"), said)
    made = collections.defaultdict(set)
    for word in said:
        made[snake(word)].add(word)
    twins = {k: v for k, v in made.items() if len(v) > 1}
    if twins:
        sys.exit(f"respell.py: these would become one: {twins}")
    for path, text in new.items():
        with open(path, "w", encoding="utf8") as f:
            f.write(text)
    print(f"{sum(said.values())} places of {len(said)} words: " + " ".join(sorted(said)))


if __name__ == "__main__":
    main()
