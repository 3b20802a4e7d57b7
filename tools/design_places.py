#!/usr/bin/env python3
"""Places in crates/*/src that an older form of Rattle may have left, by the points of docs/DESIGN-PASS.md.

    python3 tools/design_places.py [--list]

It goes by text: it prints a count for each pattern, and with --list each place. Whether a place stays, and why, is said in
docs/DESIGN-PASS.md. Beside the patterns it compares functions by their shape (their tokens, with names and literals left out), and
counts clauses and parameter lists that stand in three functions or more.
"""
import collections
import pathlib
import re
import sys

ROOT = pathlib.Path(__file__).resolve().parent.parent
LIST = "--list" in sys.argv

# point, what, pattern on one line of code
PATTERNS = [
    ("1", "a field that is a flag", r"^\s*(pub )?\w+: bool,"),
    ("1", "a number for a refusal", r"Result<[^;{]*u8>|, u8\)>|fn number<|fn operation\(.*-> u8"),
    ("1", "a number for a kind", r"\bkind: u8|kind\w*\(.*\) -> (Result<)?u8|fn of\(number: u8\)"),
    ("1", "an error handed on by hand", r"\bErr\((_|e|trouble|wrong|code)\) => (return )?(Err\(|None|Ok\(\(\)\))"),
    ("1", "a variant turned by hand", r"\bNone => (return )?(Err\(|None|Ok\(None\)|Ok\(\(\)\)|0,|&\[\])"),
    ("3", "a loop over numbers", r"\bfor \w+ in [^{]*\.\."),
    ("3", "a loop with a place of its own", r"\bwhile [^{]*<"),
    ("3", "a count by hand", r"^\s*(n|at|end|number) (\+= 1|= .*saturating_add\(1\))"),
    ("3", "a search by hand", None),
    ("4", "equality by hand", r"\bfn (same|is_text)\b"),
    ("4", "conversion by hand", r"\bfn (number\(self\)|of\(number)|self as u8|LayoutCode::\w+ as u8|Unmade::\w+(\(\w+\))?\) => (Err\(|Ok\()"),
    ("4", "printing by hand", r"\bfn (put_\w+|shown|kind_name|meaning|show_trouble)\b|struct \w+\(pub (u8|Location|Fault)\);"),
    ("4", "a test that the library has", r"\bfn (is_digit)\b|b'A'\.\.=b'Z'"),
    ("6", "a fixed buffer", r"\[0; \w+\]|\[NO_OPERAND; \w+\]|bytes: \[u8; \w+\]"),
    ("6", "a list with its place or pool beside it", r"out: &mut \[[^\]]*\], n: usize|spare_\w+: Vec<"),
    ("6", "a list searched by hand", r"\bfn find_in\("),
    ("7", "a pointer to a function, or a dyn value", r"\bfn\(|\bdyn "),
]

FN = re.compile(r"^(\s*)(pub(?:\(\w+\))? )?fn (\w+)", re.M)


def functions(text):
    """name, line, signature with clauses, body"""
    for m in FN.finditer(text):
        indent = m.group(1).lstrip("\n")
        start = m.start()
        end = re.compile(r"^" + indent + r"(?:\{\}|\}|.*;)$", re.M)
        open_at = re.compile(r"^" + indent + r"\{\}?$|\{$", re.M).search(text, start)
        semi = re.compile(r";$", re.M).search(text, start)
        if open_at is None or (semi is not None and semi.start() < open_at.start()):
            stop = semi.end() if semi else len(text)
            yield m.group(3), text.count("\n", 0, m.start(3)) + 1, text[start:stop], ""
            continue
        close = re.compile(r"^" + indent + r"\}$|^" + indent + r"\{\}$", re.M).search(text, open_at.start())
        stop = close.end() if close else len(text)
        yield m.group(3), text.count("\n", 0, m.start(3)) + 1, text[start:open_at.start()], text[open_at.start():stop]


def shape(body):
    body = re.sub(r"//[^\n]*", "", body)
    body = re.sub(r'b?"(\\.|[^"])*"', " S ", body)
    body = re.sub(r"b?'(\\.|[^'])'", " C ", body)
    words = re.findall(r"[A-Za-z_]\w*|\d[\w_]*|[^\s\w]", body)
    keep = {"for", "in", "if", "else", "match", "while", "let", "mut", "return", "Some", "None", "Ok", "Err", "self"}
    return " ".join(w if w in keep or not re.match(r"\w", w) else "x" for w in words)


def main():
    files = sorted((ROOT / "crates").glob("*/src/**/*.rt"))
    found = collections.OrderedDict(((p, w), []) for p, w, _ in PATTERNS)
    shapes = collections.defaultdict(list)
    clauses = collections.defaultdict(set)
    params = collections.defaultdict(set)
    enums = []
    types = collections.defaultdict(list)
    for f in files:
        text = f.read_text()
        name = str(f.relative_to(ROOT / "crates"))
        for k, line in enumerate(text.split("\n"), 1):
            code = line.split("//")[0]
            for p, w, pattern in PATTERNS:
                if pattern and re.search(pattern, code):
                    found[p, w].append(f"{name}:{k}: {code.strip()}")
        for m in re.finditer(r"for [^{]+ in [^{]*\{\s*if [^{]*\{\s*return [^;]*;\s*\}\s*\}", text):
            found["3", "a search by hand"].append(f"{name}:{text.count(chr(10), 0, m.start()) + 1}: {m.group(0).split('{')[0].strip()}")
        for m in re.finditer(r"^pub enum (\w+) \{\n(.*?)^\}", text, re.M | re.S):
            variants = re.findall(r"^    (\w+)(\(|,| =)", m.group(2), re.M)
            bare = [v for v, k in variants if k != "("]
            if len(variants) <= 3 and len(bare) == 1:
                enums.append(f"{name}: {m.group(1)} {{ {', '.join(v for v, _ in variants)} }}")
        for m in re.finditer(r"^pub (?:struct|enum|trait) (\w+)[^{;]*\{\n(.*?)^\}", text, re.M | re.S):
            fields = sorted(set(re.findall(r"^    (?:pub )?(\w+(?:: [^,]*|\(.*\))?),$|^    fn (\w+)", m.group(2), re.M)))
            if fields:
                types[str(fields)].append(f"{name}: {m.group(1)}")
        for fn, line, sig, body in functions(text):
            s = shape(body)
            if len(s.split()) >= 14:
                shapes[s].append(f"{name}:{line} {fn}")
            for c in re.findall(r"^\s*(?:requires|ensures)(?: \w+)? \{ (.*) \}\s*;?$", sig, re.M):
                clauses[c].add(f"{name} {fn}")
            m = re.search(r"\((.*?)\)\s*(?:->|$|\n)", sig, re.S)
            if m:
                ps = [p.strip() for p in re.split(r",(?![^<\[(]*[>\])])", m.group(1)) if ":" in p]
                ps = sorted(set(ps))
                for a in range(len(ps)):
                    for b in range(a + 1, len(ps)):
                        params[ps[a], ps[b]].add(f"{name} {fn}")
    print("point  places  what")
    print(f"1      {len(enums):6}  an enum of up to three cases, one of them bare")
    for e in enums if LIST else []:
        print("                 " + e)
    for (p, w), places in found.items():
        print(f"{p}      {len(places):6}  {w}")
        for place in places if LIST else []:
            print("                 " + place)
    twins = {s: p for s, p in shapes.items() if len(p) > 1}
    print(f"2      {sum(len(p) for p in twins.values()):6}  functions of one shape, in {len(twins)} groups")
    for p in twins.values() if LIST else []:
        print("                 " + "; ".join(p))
    twins = [t for t in types.values() if len(t) > 1]
    print(f"2      {sum(len(t) for t in twins):6}  types and traits with the same fields, cases or functions, in {len(twins)} groups")
    for t in twins if LIST else []:
        print("                 " + "; ".join(t))
    often = {c: fs for c, fs in clauses.items() if len(fs) >= 3}
    print(f"5      {len(often):6}  clauses that stand in three functions or more")
    for c, fs in sorted(often.items(), key=lambda x: -len(x[1])) if LIST else []:
        print(f"                 {len(fs)} times: {c}")
    together = {p: fs for p, fs in params.items() if len(fs) >= 3}
    print(f"5      {len(together):6}  pairs of parameters that stand in three functions or more")
    for p, fs in sorted(together.items(), key=lambda x: -len(x[1])) if LIST else []:
        print(f"                 {len(fs)} times: {p[0]}, {p[1]}")
    proofs = list((ROOT / "crates").glob("*/proofs/**/*.antt"))
    print(f"8      {sum(len(f.read_text().splitlines()) for f in proofs):6}  lines of proofs in {len(proofs)} files, {sum(f.name == 'Answers.antt' for f in proofs)} of them answers")


main()
