#!/usr/bin/env python3
"""places.py: counts the places of the design pass (docs/DESIGN-PASS.md), where the code may read like older Rattle.

It runs at the top of the checkout, over the files as they lie there or over a commit, which is not checked out, and
prints a line for each count: the point, what is counted, the number. A hit is no verdict, but where to look: a reader
says whether it changes or stays. Points 1 to 7 are counted in crates/*/src, 8 in crates/*/proofs. Nothing is written.
"""
import argparse
import collections
import difflib
import itertools
import pathlib
import re
import subprocess

NUMBER = "(u8|u16|u32|u64|usize)"
KEYWORDS = set("if else match while loop for in let mut return break as true false _".split())
# what own enums call a variant for none or a refusal
REFUSING = "None|Bad|Refused|Absent|Nothing|Failed|End|Outside|Cut"
# an arm for one of these, or for a gate that is shut; but shapes and forms are read on
OWN_ARM = rf"\b(?!\w*Shape|SymbolForm|TypeLetter|Got::End)\w+::({REFUSING})(\(\w+\))? =>|Gate::(Call|Symbol|High).* =>"
REFERENCE = r"\b(r|q|x|y|z|p|a|b|before) (==|!=) 0\b|\b0 < [py]\b|kid\(.*\) != 0"
CODE = r"\b(kind|k|op|operator|conv|convention|class|func_class|return_class|sc): u32"
ELSEWHERE = "requires|ensures|^crates/(?!(node|form|meaning|serializer|writer)/)"
# point, what is counted, what a line of src has, and what a line or path has that doesn't count
LINES = [
    ("1a", "enums", r"^ *(pub )?enum ", None),
    ("1d", "constants that are a number", rf"^ *(pub )?const [A-Z0-9_]+: {NUMBER} =", None),
    ("1f", "tests of a reference against 0, from node to writer", REFERENCE, ELSEWHERE),
    ("1g", "arms for none or a refusal of own enums", OWN_ARM, None),
    ("1g", "arms that hand an Err or a None on", r"\b(Err\(.*\)|None) => (return |break )?(Err\(|None\b)", None),
    ("2e", "parts that open: depth 0 is refused", "depth == 0", None),
    ("3", "loops", r"^ *('\w+: )?(let .* = )?(while|loop|for)\b", None),
    ("4a", "the larger or smaller of two, by if", r"if (\S+) <=? (\S+) \{ (\2|\1) \} else \{ (\1|\2) \}", None),
    ("4c", "`x: x` in a literal", r"^ +(\w+): \1,$", None),
    ("4e", "arms that say true or false", "=> (true|false),", None),
    ("4f", "bits asked for by division", "% 2 == 1", "requires|ensures"),
    ("4h", "literals of zeros", r"\w+ \{ (\w+: 0, )*\w+: 0 \}", None),
    ("4j", "derives", r"#\[derive", None),
    ("4j", "derives that are not Clone and Copy alone", r"#\[derive", r"\(Clone, Copy\)"),
    ("4j", "impl blocks", r"^ *impl\b", None),
    ("6b", "arrays of fixed size", r"\[[0-9a-z_]+; ?[A-Z0-9a-z_]+\]", "ensures"),
    ("7", "matches", r"\bmatch [^{]*\{", None),
    ("7b", "fn pointers, closures, dyn, Fn", r": fn\(|\bdyn\b|\bFn(Mut|Once)?\(|[(=,] *(move )?\|[^|]*\|", None),
]
# a buffer and the place in it, as parameters
PAIRS = ["text: &mut [u8] and o: usize", "out: &mut [u8] and o: usize", "out: &mut [u8] and used: usize",
         "s: &[u8] and at: usize", "s: &[u8] and st: Spot", "names: &mut Entries and st: Spot"]
# the indent, name, parameters, result, clauses and body of a function; in a trait it may have no body
FUNCTION = (
    r'^( *)(?:pub(?:\(\w+\))? )?(?:const )?(?:extern "C" )?fn (\w+)(?:<(?:->|[^<>]|<[^<>]*>)*>)?'
    r"\(((?:[^()]|\((?:[^()]|\([^()]*\))*\))*)\)(?: -> ([^\n{]*))?(.*?)(?:\{\n(.*?)^\1\}$|\{\}$|;$)"
)
LITERAL = r"^( *)(?!(?:pub )?(?:struct|enum|impl|trait|use)\b)(?:[^\n]*\W)?([A-Z][\w:]*) \{$(?=\n(.*?)^\1\})"
TOKEN = r"""b?'(?:\\.|[^'\\])'|b?"(?:\\.|[^"\\])*"|[A-Za-z_]\w*(?:::[A-Za-z_]\w*)*|0x[0-9a-f_]+|\d[\d_]*|\S"""
Function = collections.namedtuple("Function", "path line name params result head body")


def find(pattern, files):
    """where the pattern stands, which is in several lines: path, line, match"""
    found = ((p, t, m) for p, t in files.items() for m in re.finditer(pattern, t, re.M | re.S))
    return [(p, t.count("\n", 0, m.start()) + 1, m) for p, t, m in found]


def parameters(text):
    """what a function takes but for its own value; without lifetimes"""
    parts = [re.sub(r"'\w+ ", "", " ".join(p.split())) for p in re.split(r",(?![^\[(<]*[\])>])", text)]
    return frozenset(p for p in parts if p and not re.fullmatch(r"&?(mut )?self", p))


def shape(body, is_numbered):
    """the tokens of a body, constants as `#` and names as `v`, or as v0, v1 .. in the order in which they come"""
    names, out = {}, []
    for k in re.findall(TOKEN, re.sub("//.*", "", body)):
        if k in KEYWORDS or not re.match(r"""[\w'"]""", k):
            out.append(k)
        elif re.match(r"""b?['"]|\d""", k):
            out.append("#")
        else:
            out.append(names.setdefault(k, f"v{len(names)}") if is_numbered else "v")
    return tuple(out)


def gathered(pairs, least):
    """what is said so often or more, the most often first, with all places where it is said"""
    places = collections.defaultdict(list)
    for said, place in pairs:
        places[said].append(place)
    return sorted((x for x in places.items() if len(x[1]) >= least), key=lambda x: -len(x[1]))


class Places:
    """the sources and proofs, and in methods the hits in them: path, line, text"""

    def __init__(self, files):
        self.src = {p: t for p, t in files.items() if p.endswith(".rt")}
        self.own = {p: t for p, t in files.items() if re.fullmatch(r"crates/[^/]+/proofs/(?!Lib\.)[^/]+\.antt", p)}
        self.answer_files = {p: t for p, t in files.items() if re.search(r"/proofs/.*/(?!Lib\.)[^/]+\.antt$", p)}
        self.functions = [
            Function(p, i, m[2], parameters(m[3]), m[4] or "", m.string[m.start() : m.end(5)], m[6] or "")
            for p, i, m in find(FUNCTION, self.src)]

    def lines(self, pattern, but, where="src"):
        return [(p, i, line.strip()) for p, t in vars(self)[where].items() for i, line in enumerate(t.splitlines(), 1)
                if re.search(pattern, line) and not (but and (re.search(but, line) or re.search(but, p)))]

    def blocks(self, word):
        pattern = rf"^( *)(?:pub )?{word} (\w+)[^\n;]* \{{\n(.*?)^\1\}}"
        return [(p, i, m[2], m[3]) for p, i, m in find(pattern, self.src)]

    def own_options(self):
        for p, i, name, text in self.blocks("enum"):
            variants = re.findall(r"^ +([A-Z]\w*) ?([({]?)", re.sub("//.*", "", text), re.M)
            none = [v for v, _ in variants if re.fullmatch(REFUSING, v)]
            if none and any(carries and v not in none for v, carries in variants):
                yield p, i, f"{name}: {' '.join(v for v, _ in variants)}"

    def twins(self):
        shaped = [(shape(f.body, True), f) for f in self.functions]
        for _, (f, *others) in gathered((x for x in shaped if len(x[0]) >= 14), 2):
            yield f.path, f.line, " ~ ".join([f.name] + [f"{g.path}:{g.line} {g.name}" for g in others])

    def near_twins(self):
        shaped = [(f, s) for f in self.functions for s in [shape(f.body, False)] if 30 <= len(s) < 600]
        m = difflib.SequenceMatcher(autojunk=False)
        for i, (g, b) in enumerate(shaped):
            m.set_seq2(b)
            for f, a in shaped[:i]:
                m.set_seq1(a)
                if m.real_quick_ratio() >= 0.9 and m.quick_ratio() >= 0.9 and m.ratio() >= 0.9:
                    yield f.path, f.line, f"{f.name} ~ {g.path}:{g.line} {g.name}"

    def alike_structs(self):
        structs = [(p, i, name, re.findall(r"(\w+): ([^,]+),", t)) for p, i, name, t in self.blocks("struct")]
        for a, b in itertools.combinations(structs, 2):
            if len(a[3]) == len(b[3]) and sum(x != y for x, y in zip(a[3], b[3])) <= 1:
                yield a[0], a[1], f"{a[2]} ~ {b[0]}:{b[1]} {b[2]}"

    def copies(self):
        for p, i, m in find(LITERAL, self.src):
            fields = re.findall(r"^ +(?=(\w+): )\1: ([\w.]+)\.\1,$", m[3], re.M)
            for source, n in collections.Counter(source for _, source in fields).items():
                if n > 1:
                    yield p, i, f"{m[2]} copies {n} fields of {source}"

    def to_numbers(self):
        for p, i, m in find(r"^( *)([^\n]*\bmatch \w[\w.]* \{)$(?=\n(.*?)^\1\})", self.src):
            arms = re.findall(rf"^{m[1]}    \S.*=>.*$", m[3], re.M)
            told = sum(1 for a in arms if re.search(r"=> (\w+\()?(\d|true|false)", a))
            if len(arms) > 1 and told >= max(2, len(arms) - 1):
                yield p, i, f"{m[2].strip()} {told} of {len(arms)} arms"

    def facts(self, word, is_each):
        said = []
        clause = rf"^ *{word} (?:\w+ )?\{{ (.*?) \}}$(?=\n *(?:requires|ensures) |\s*\Z)"
        for f in self.functions:
            for m in re.finditer(clause, f.head, re.M | re.S):
                for fact in re.sub(r"\.(old|now|entry\.now|new)\b", ".·", m[1]).split(" × "):
                    bare = " ".join(re.sub(r"^\s*\(([^→]*)\)\s*$", r"\1", fact).split())
                    said.append((bare, (f.path, f.line + f.head.count("\n", 0, m.start(1)))))
        for fact, places in gathered(said, 3):
            yield from ((*place, f"{len(places)} times: {fact}") for place in (places if is_each else places[:1]))

    def travelling(self):
        given = {f.params for f in self.functions if len(f.params) > 1}
        groups, new = set(given), set(given)
        while new:
            new = {a & b for a in new for b in given if len(a & b) > 1} - groups
            groups |= new
        has = [(g, f) for g in sorted(groups, key=sorted) for f in self.functions if g <= f.params]
        return [(f[0].path, f[0].line, f"{len(f)} functions: {', '.join(sorted(g))}") for g, f in gathered(has, 3)]

    def with_place(self, pair):
        return [(f.path, f.line, f.name) for f in self.functions if f.params.issuperset(pair.split(" and "))]

    def answers_said(self):
        pattern = r"^[^\n]* : goal\.[^\n]*\n(?:[^\n]+\n)*?\S+(?: [^=\n]*)? = ((?:[^\n]*\S[^\n]*\n?)+)"
        found = ((p, i, m) for p, i, m in find(pattern, self.answer_files) if p.endswith("/Answers.antt"))
        said = gathered(((" ".join(m[1].split()), (p, i)) for p, i, m in found), 5)
        return [(*places[0], f"{len(places)} times: {text}") for text, places in said]

    def lemmas(self):
        pattern = r"^(?:  )?(?:pub )?([^\s:(){}|-]\S*) :(?: ([^\n]*))?$"
        return [(p, i, m[1], m[2] or "") for p, i, m in find(pattern, self.own)]

    def laws_said(self):
        laws = [(x[3], x) for x in self.lemmas() if re.search("[→≡]", x[3])]
        return [(*v[0][:3], *(f"{p}:{i} {name}" for p, i, name, _ in v[1:]))
                for _, v in gathered(laws, 2) if len({x[0] for x in v}) > 1]


COUNTS = [(point, what, Places.lines, patterns) for point, what, *patterns in LINES] + [
    ("1a2", "enums with a variant for none or a refusal beside one with a value", Places.own_options, ()),
    ("1b", "fields of structs that are a bool", lambda s: [
        (p, j, f"{name}: {field.strip()}") for p, i, name, text in s.blocks("struct")
        for j, field in enumerate(text.splitlines(), i + 1) if ": bool," in field], ()),
    ("1e", "functions that answer a number", lambda s: [
        (f.path, f.line, f"{f.name} -> {f.result}") for f in s.functions if re.match(NUMBER, f.result)], ()),
    ("1i", "parameters and fields that are a kind, operator, convention or class by number", lambda s: [
        (p, i, m[0]) for p, i, line in s.lines(CODE, None) for m in re.finditer(CODE, line)], ()),
    ("2a", "groups of functions alike but for names and constants", Places.twins, ()),
    ("2b", "pairs of functions alike nine parts in ten", Places.near_twins, ()),
    ("2d", "pairs of structs alike but for one field", Places.alike_structs, ()),
    ("4b", "literals that copy two fields or more of a value", Places.copies, ()),
    ("4d", "matches to numbers or bools", Places.to_numbers, ()),
    ("4i", "functions with two or more `if ..` that return a bool", lambda s: [
        (f.path, f.line, f.name) for f in s.functions
        if len(re.findall(r"^ +if .*\{\n +return (?:true|false);", f.body, re.M)) > 1], ()),
    ("5a", "facts that stand in requires three times or more", Places.facts, ("requires", False)),
    ("5a", "clauses of requires that say these", Places.facts, ("requires", True)),
    ("5b", "facts that stand in ensures three times or more", Places.facts, ("ensures", False)),
    ("5c", "closed groups of two parameters or more in three functions or more", Places.travelling, ()),
    *(("6a", f"functions with {pair}", Places.with_place, [pair]) for pair in PAIRS),
    ("8a", "answers", Places.lines, (r"^(abbrev )?(pub )?\S+ : goal\.", None, "answer_files")),
    ("8a", "lines of files of answers", Places.lines, ("", None, "answer_files")),
    ("8a", "own lemmas", Places.lemmas, ()),
    ("8b", "texts that stand as five answers or more", Places.answers_said, ()),
    ("8d", "statements of own lemmas that stand word for word in two files", Places.laws_said, ()),
]


def load(commit):
    """the files of sources and proofs by path, of a commit or of the working tree"""
    def git(*arguments):
        return subprocess.check_output(["git", *arguments], text=True)

    tree = git("ls-tree", "-rz", "--name-only", commit).split("\0") if commit else pathlib.Path("crates").rglob("*")
    paths = sorted(p for p in map(str, tree) if re.fullmatch(r"crates/[^/]+/(src/.*\.rt|proofs/.*\.antt)", p))
    return {p: git("show", f"{commit}:{p}") if commit else pathlib.Path(p).read_text("utf8") for p in paths}


def main():
    parser = argparse.ArgumentParser(description=__doc__, formatter_class=argparse.RawDescriptionHelpFormatter)
    parser.add_argument("commit", nargs="?", help="a commit to count in; without it, the files of the working tree")
    parser.add_argument("--list", metavar="POINT", choices=[c[0] for c in COUNTS], help="the hits of one count")
    asked = parser.parse_args()
    places = Places(load(asked.commit))
    if not places.src:
        parser.error("there is no crates/*/src: run it at the top of the checkout")
    for point, what, hits, arguments in sorted(COUNTS, key=lambda c: c[0]):
        if asked.list in (None, point):
            found = list(hits(places, *arguments))
            print(f"{point:3}  {what}: {len(found)}")
            for path, line, *text in found if asked.list else []:
                print(f"{path}:{line}: {' : '.join(text)}")


if __name__ == "__main__":
    main()
