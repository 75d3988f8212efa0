#!/usr/bin/env python3
"""Respells the repository's own names of specs/ and proofs/ as today's Rattle spells them: words, lemmas and fields in snake case.

usage: python3 tools/spelling.py      at the top, once, right after port.py

Types and facts keep upper camel case. Names of the library, names that Rattle makes and names of src/ stay as they are.
Also turned: the same names in clauses, in must-fail edits, and, between backticks, in comments.
"""
import collections
import os
import re

TOKEN = r"[^\s(){}\[\].,;:«»\"`]"
DEFINED = re.compile(r"^[ \t]*(?:abbrev\s+)?(?:unfoldable\s+)?(?:pub\s+)?(?:(?:data|record)\s+)?(" + TOKEN + r"+)(?:[ \t]+[({][^\n]*?)?[ \t]*:(?=\s)", re.M)
BOUND = re.compile(r"\blet (" + TOKEN + r"+) [:=]")
USED = re.compile(r"^(?:pub )?(?:ghost )?use ([^\s{;]+?)(?:\.\{([^}]*)\})?(?: as (\S+?))?;?[ \t]*$", re.M)
CAMEL = re.compile(r"^[a-z][A-Za-z0-9]*[A-Z]")
LIBRARY = re.compile(r"^(mathlib|native|lib|base|borrow|types|denote|mir|prog|contract|runtime|Rattle\.(std|core|std_\w+|libc|os|io|check))\.")
# Types, facts and modules whose names hold a dash or begin with a capital, and are lemmas.
LEMMAS = {
    "P1-to-P14": "p1_to_p14",
    "Nearer-wf": "nearer_wf",
    "all_come": "all_come_lem",
    "at_level": "at_level_lem",
    "first_below": "first_below_lem",
    "same_item": "same_item_lem",
}
DRY = bool(os.environ.get("DRY"))


def texts():
    for folder, dirs, files in os.walk("crates"):
        dirs[:] = sorted(d for d in dirs if d != "out")
        for f in sorted(files):
            if f.endswith((".rt", ".antt", ".edit")):
                yield os.path.join(folder, f)


def of_a_function(path):
    parts = path.split("/")
    return parts[2] == "proofs" and len(parts) > 4


def snake(name):
    name = re.sub(r"(?<=[a-z0-9])(?=[A-Z])", "_", name)
    return name.replace("-", "_").lower()


def gather():
    own, library, all_words = collections.defaultdict(set), set(), set()
    for path in texts():
        text = open(path, encoding="utf-8").read()
        if path.endswith(".edit"):
            continue
        for m in USED.finditer(text):
            names = [n.strip().split(" as ")[0] for n in (m.group(2) or "").split(",") if n.strip()]
            if LIBRARY.match(m.group(1) + "."):
                library.update(names or [m.group(1).split(".")[-1]])
        if path.endswith(".antt"):
            bare = re.sub(r"--[^\n]*", "", text)
            all_words.update(re.findall(TOKEN + "+", bare))
            if not of_a_function(path):
                for m in list(DEFINED.finditer(bare)) + list(BOUND.finditer(bare)):
                    own[m.group(1)].add(path)
    return own, library, all_words


def wanted(name):
    return name in LEMMAS or bool(CAMEL.match(name)) or (re.match(r"^[a-z][\w'₀-₉]*(-[\w'₀-₉]+)+$", name) is not None)


def main():
    own, library, all_words = gather()
    names = {n: LEMMAS.get(n) or snake(n) for n in own if wanted(n) and n not in library}
    # A lemma that would have a definition's name, and a field that would have its row's.
    plain = {new for old, new in names.items() if "-" not in old} | {n for n in own if not wanted(n)} | library
    for old, new in names.items():
        if "-" in old and new in plain:
            shown = all(p.endswith(("/Shows.antt", "/ShowsLaws.antt")) for p in own[old])
            names[old] = new + ("_shown" if shown else "_lem")
    taken = collections.defaultdict(list)
    for old, new in names.items():
        taken[new].append(old)
    for new, olds in sorted(taken.items()):
        if len(olds) > 1 or new in own or new in library:
            print("falls together:", new, "<-", ", ".join(olds), "| own" if new in own else "", "| library" if new in library else "")
    word = re.compile(r"(?<!" + TOKEN + ")(?:" + "|".join(sorted(map(re.escape, names), key=len, reverse=True)) + ")(?!" + TOKEN + ")")
    camel = {o: n for o, n in names.items() if CAMEL.match(o)}
    in_code = re.compile(r"(?<!" + TOKEN + ")(?:" + "|".join(sorted(map(re.escape, camel), key=len, reverse=True)) + ")(?!" + TOKEN + ")")

    def turned(text):
        return word.sub(lambda m: names[m.group(0)], text)

    def quoted(text):
        return re.sub(r"`[^`\n]*`", lambda m: turned(m.group(0)), text)

    count = 0
    for path in texts():
        text = open(path, encoding="utf-8").read()
        if path.endswith(".rt"):
            lines = []
            for line in text.split("\n"):
                code, sep, rest = line.partition("//")
                ghost = re.match(r"\s*(ghost|requires|ensures)\b", code) or "≡" in code or "λ" in code
                lines.append((turned(code) if ghost else in_code.sub(lambda m: camel[m.group(0)], code)) + sep + quoted(rest))
            new = "\n".join(lines)
        elif path.endswith(".edit"):
            lines = []
            for line in text.split("\n"):
                ghost = re.match(r"(old|new): ", line)
                lines.append(turned(line) if ghost else quoted(line))
            new = "\n".join(lines)
        else:
            lines = []
            for line in text.split("\n"):
                code, sep, rest = re.match(r"^(.*?)((?:(?<=\s)|^)--(?=\s|$)|$)(.*)$", line).groups()
                lines.append(turned(code) + sep + quoted(rest))
            new = "\n".join(lines)
            if of_a_function(path) and path.endswith("/Proof.antt"):
                proof = os.path.basename(os.path.dirname(path)).replace("_", "-") + "-spec"
                new = re.sub("(?<!" + TOKEN + ")" + re.escape(proof) + "(?!" + TOKEN + ")", proof.replace("-", "_"), new)
        if new != text:
            DRY or open(path, "w", encoding="utf-8").write(new)
            count += 1
    print(f"{len(names)} names, {count} files")


main()
