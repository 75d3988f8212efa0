#!/usr/bin/env python3
"""Lists the places in crates/*/src that docs/DESIGN-PASS.md counts, point by point: tools/places.py [POINT ..].

What it lists is what a point may want; which of them it does want is said on that page, by name. `Kept:` lines are listed last.
"""
import collections
import pathlib
import re
import sys

ROOT = pathlib.Path(__file__).resolve().parent.parent
CODE = {p: p.read_text(encoding="utf-8") for p in sorted(ROOT.glob("crates/*/src/**/*.rt"))}
FN = re.compile(r"\bfn (\w+)(<[^>]*>)?\(([^)]*)\)[^{;]*?(?=\n    requires|\n    ensures|\n?\s*\{)", re.S)


def where(path, text, at):
    return f"{path.relative_to(ROOT)}:{text.count(chr(10), 0, at) + 1}"


def enums():
    for path, text in CODE.items():
        for m in re.finditer(r"\benum (\w+) \{(.*?)\n\}", text, re.S):
            cases = [c.strip().rstrip(",") for c in m[2].split("\n") if c.strip() and not c.strip().startswith("//")]
            yield path, text, m, cases


def point1():
    """enums that mix cases with and without a value or have a case of refusal; structs with a bool beside other fields"""
    for path, text, m, cases in enums():
        full = [c for c in cases if "(" in c]
        if (full and len(full) < len(cases)) or re.search(r"\b(Refused|Bad|OutOfRange|Full)\b", m[2]):
            yield f"{where(path, text, m.start())} enum {m[1]} {{ {', '.join(cases)} }}"
    for path, text in CODE.items():
        for m in re.finditer(r"\bstruct (\w+)[^{;(]*\{([^}]*: bool\b[^}]*)\}", text):
            yield f"{where(path, text, m.start())} struct {m[1]}, with a bool"


def bare(body):
    body = re.sub(r"//[^\n]*", "", body)
    return re.sub(r"\s+", " ", re.sub(r"\b\w+\b|\d+", "x", body))


def functions():
    for path, text in CODE.items():
        for m in FN.finditer(text):
            end = text.find("\n}\n", m.end())
            yield path, text, m, text[m.end():end if end >= 0 else None]


def point2():
    """functions of four lines and more whose bodies are the same but for names and numbers"""
    same = collections.defaultdict(list)
    for path, text, m, body in functions():
        code = body[body.find("{\n"):]
        if code.count("\n") >= 4:
            same[bare(code)].append(f"{where(path, text, m.start())} {m[1]}")
    for places in same.values():
        if len(places) > 1:
            yield "; ".join(places)


def lines(pattern):
    for path, text in CODE.items():
        for n, line in enumerate(text.split("\n"), 1):
            if re.search(pattern, line) and not line.strip().startswith("//"):
                yield f"{path.relative_to(ROOT)}:{n} {line.strip()}"


def point3():
    """loops that are not a `for`"""
    yield from lines(r"^\s*('\w+: )?(while|loop)\b")


def point4():
    """small functions that compare, convert or pick a case by hand, and types that derive no more than Clone and Copy"""
    yield from lines(r"\bfn (least|at_most|is_\w+|takes_length|order_\w+|of_\w+|byte_in|session_\w+|\w+_numbers)\b")
    yield from lines(r"=> (true|false),$")
    yield from lines(r"derive\(Clone, Copy\)")


def point5():
    """facts that stand in the clauses of three functions and more; parameters that three functions and more have together"""
    facts, groups = collections.Counter(), collections.Counter()
    for path, text, m, body in functions():
        for clause in re.findall(r"\n    (?:requires|ensures) ?\w* ?\{ (.*?) \}(?=\n)", body):
            for fact in clause.split(" × "):
                facts[fact.strip("() ")] += 1
        names = [re.sub(r"\s+", " ", p.strip()) for p in m[3].split(",") if p.strip()]
        for a in range(len(names)):
            for b in range(a + 2, len(names) + 1):
                groups[tuple(names[a:b])] += 1
    yield from (f"{n} x {fact}" for fact, n in facts.most_common() if n >= 3)
    longest = [(n, g) for g, n in groups.items() if n >= 3]
    for n, g in sorted(longest, reverse=True):
        if not any(n <= k and len(h) > len(g) and any(h[i:i + len(g)] == g for i in range(len(h))) for k, h in longest):
            yield f"{n} x ({', '.join(g)})"


def point6():
    """functions that take a slice or an array and beside it how much of it counts"""
    for path, text, m, body in functions():
        if re.search(r"\[", m[3]) and re.search(r"\b(used|count|lent|size|end|long|wanted|kept|cells|segments): (usize|u32)", m[3]):
            yield f"{where(path, text, m.start())} {m[1]}"


def point7():
    """a parameter or a value that chooses the step"""
    yield from lines(r"\bmatch (part|kind|command)\b|part: Part|kind: u8|match wire::u8_at\(bytes, 0\)")


def point8():
    """proof files, their lines, and names for the context that an answer gives in front"""
    for name in ("Invariants.antt", "Answers.antt", "Proof.antt"):
        files = list(ROOT.glob(f"crates/*/proofs/**/{name}"))
        yield f"{len(files)} files {name}, {sum(len(f.read_text(encoding='utf-8').splitlines()) for f in files)} lines"
    files = [f for f in ROOT.glob("crates/*/proofs/**/*.antt") if re.search(r"let \w+ = c in", f.read_text(encoding="utf-8"))]
    yield f"{len(files)} files with `let .. = c in`"


def kept():
    """places that stay, each with its reason"""
    for path, text in CODE.items():
        for m in re.finditer(r"// Kept: ((?:[^\n]*)(?:\n\s*// [^\n]*)*)", text):
            yield f"{where(path, text, m.start())} {m[1].split(chr(10))[0]}"


if __name__ == "__main__":
    points = {str(n): globals()[f"point{n}"] for n in range(1, 9)} | {"kept": kept}
    for name in sys.argv[1:] or points:
        found = list(points[name]())
        print(f"## {name}: {points[name].__doc__}: {len(found)}")
        print("\n".join(found), end="\n\n" if found else "\n")
