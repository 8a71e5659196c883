#!/usr/bin/env python3
"""Lists the places that docs/DESIGN-PASS.md counts, over the code in crates/*/src.

`count.py` prints how many places each count finds; `count.py -l` prints each place too.
"""
import pathlib
import re
import sys

TOP = pathlib.Path(__file__).resolve().parents[2]
FILES = sorted(TOP.glob("crates/*/src/**/*.rt"))
FUNCTION = re.compile(r"^ *(?:pub(?:\(\w+\))? )?(?:final )?fn (\w+)")
CLAUSE = re.compile(r"^\s*(requires|ensures|ghost)\b")
WORD = re.compile(r"[A-Za-z_]\w*|\d[\w]*|\"[^\"]*\"|'[^']*'")
KEPT = set("fn let mut match if else while for in return loop self Ok Err Some None true false as ref "
           "break move impl where".split())


def lines_of(path):
    """The lines of code, numbered from 1, without comments, imports and clauses."""
    for number, text in enumerate(path.read_text().splitlines(), 1):
        bare = text.split("//")[0] if "b'/'" not in text else text
        if bare.strip() and not CLAUSE.match(bare):
            yield number, bare


def place(path, number):
    return f"{path.relative_to(TOP)}:{number}"


def matching(regex):
    found = re.compile(regex)
    return [f"{place(p, n)}: {t.strip()}" for p in FILES for n, t in lines_of(p) if found.search(t)]


def clauses():
    """Facts that stand in the `requires`, or as what is kept, of three functions or more."""
    facts = {}
    for path in FILES:
        function = None
        for number, text in enumerate(path.read_text().splitlines(), 1):
            begins = FUNCTION.match(text)
            if begins:
                function = f"{path.relative_to(TOP)}:{begins.group(1)}"
            clause = re.match(r"^\s*(?:requires(?: \w+)?|ensures (?:keeps|tied|fit|space|rule|clock|held)) \{ (.*) \}", text)
            if clause and function:
                fact = re.sub(r"\.(old|new|now)\b", "", clause.group(1)).replace("result", "self")
                words = re.findall(r"[A-Za-z_][\w.]*|≤|<|≡|≢", fact)
                head = words[0] if words and words[0][0].isupper() else " ".join(words)
                facts.setdefault(head, set()).add(function)
    return [f"{h[:60]}: {len(w)} functions" for h, w in sorted(facts.items()) if len(w) >= 3]


def enums():
    """Enums with a case that says that there is nothing, or why there is nothing."""
    odd = re.compile(r"^\s*(Refused|Refusal|Fault|Nothing|NoMemory|Missing|Empty|Failed)\b")
    out = []
    for path in FILES:
        name = None
        for number, text in lines_of(path):
            begins = re.match(r"^(?:pub(?:\(\w+\))? )?enum (\w+)", text)
            if begins:
                name = begins.group(1)
            elif text.startswith("}"):
                name = None
            elif name and odd.match(text):
                out.append(f"{place(path, number)}: {name}: {text.strip()}")
    return out


def functions():
    for path in FILES:
        body, head = [], None
        for number, text in lines_of(path):
            begins = FUNCTION.match(text)
            if begins:
                if head:
                    yield path, head, body
                head, body = (number, begins.group(1)), [text]
            elif head:
                body.append(text)
                if re.match(r"^}", text):
                    yield path, head, body
                    head, body = None, []
        if head:
            yield path, head, body


def shape(body):
    """The code with every name and value of its own struck out."""
    text = " ".join(" ".join(body).split())
    return WORD.sub(lambda m: m.group(0) if m.group(0) in KEPT else "_", text)


def twins():
    """Functions of three lines or more whose code is the same but for names, types and values."""
    groups = {}
    for path, (number, name), body in functions():
        if len(body) >= 3:
            code = " ".join(body)
            groups.setdefault(shape(body), []).append(f"{place(path, number)}: {name}")
    return [" ~ ".join(g) for g in groups.values() if len(g) > 1]


def same_names():
    names = {}
    for path, (number, name), body in functions():
        if not body[0].startswith(" ") and name not in ("main", "run"):
            names.setdefault(name, []).append(place(path, number))
    return [f"{n}: {', '.join(w)}" for n, w in sorted(names.items()) if len(w) > 1]


def proofs(answers):
    found = [p for p in TOP.glob("crates/*/proofs/**/*.antt") if p.name not in ("Lib.antt", "Invariants.antt")]
    found = [p for p in found if (p.name == "Answers.antt") == answers]
    return [f"{p.relative_to(TOP)}: {len(p.read_text().splitlines())} lines" for p in sorted(found)]


COUNTS = [
    ("1 enums with a case for nothing or for a refusal", enums),
    ("1 numbers for kinds or refusals", lambda: matching(
        r"const (HEAD|SERVER|ACTION)\b|\.kind\b|match \w+\[0\]|\bnumber(\(\))? *(<|>|<=|>=|==) *[2-9]")),
    ("1 a flag beside a value", lambda: matching(r"\(bool, |, bool\)|: bool,$")),
    ("1 Option or Result taken apart to be made again", lambda: matching(
        r"\blet (Some|Ok)\(.*\) = .*else|^\s*(None|Err\(\w+\)) => (return\b|0\b|false|None|Err\()|^\s*Ok\(\(\)\) => Ok|"
        r"^\s*Ok\((\w+)\) => Ok\(\2\)")),
    ("2 functions of one shape", twins),
    ("2 free functions of one name", same_names),
    ("3 loops without an iterator, or with a count", lambda: matching(
        r"^\s*(while|loop)\b|^\s*for .* in \w+\.\.|saturating_add\(1\)")),
    ("4 orders, comparisons, conversions and text by hand", lambda: matching(
        r"\bfn (at_or_before|eq|ne|cmp|partial_cmp|clone|default)\b|\bfn \w+_(line|text|numbers?|or_zero)\b|\bfn print_\w+|"
        r"^\s*self as u8$|from_le_bytes\(\[\s*$|from_le_bytes\(\[\w+\[")),
    ("5 facts in the contracts of three functions or more", clauses),
    ("5 clauses that ask something of the caller", lambda: [f"{place(p, n)}: {t.strip()[:110]}" for p in FILES
        for n, t in enumerate(p.read_text().splitlines(), 1) if re.match(r"^\s*requires\b", t)]),
    ("5 parameters that travel together", lambda: matching(
        r"load: u32, limit: u32, period: u32|^\s*load: u32,$|offset: u32, place: u32|server: u8, instant: u64")),
    ("6 buffers with a length beside, and tables", lambda: matching(
        r"^\s*(pub )?(places|len|words|slots): (usize|&|\[)|\blen: usize\b")),
    ("7 switches on which step to run", lambda: matching(r"^\s*match (call|operation|command|line\.command|step)\b")),
    ("8 files of answers", lambda: proofs(True)),
    ("8 files of lemmas", lambda: proofs(False)),
]

for title, find in COUNTS:
    found = find()
    total = sum(int(f.rsplit(" ", 2)[1]) for f in found) if title.startswith("8") else 0
    print(f"{title}: {len(found)}" + (f", {total} lines" if total else ""))
    if "-l" in sys.argv:
        for text in found:
            print("    " + text)
