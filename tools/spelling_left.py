#!/usr/bin/env python3
"""Respells what tools/spelling.py passed over: definitions of several names in one signature, and names bound inside proofs.

usage: python3 tools/spelling_left.py      at the top, once, after tools/spelling.py
"""
import os
import re

TOKEN = r"[^\s(){}\[\].,;:«»\"`]"
NAMES = """bytesKey dataIn heldBy noCell noCounts noneCell numbersOf offTold pairHabits priceName quantityName recordSlot rowListedNumbers
turnoverName and-false Some-number also-earlier amount-held byte-a byte-b difference-cell in-none in-run is-chosen is-width key-long may-it
none-held none-taken of-own price-cell quantity-cell row-off some-m some-n text-filled turnover-cell""".split()
NEW = {n: re.sub(r"(?<=[a-z0-9])(?=[A-Z])", "_", n).replace("-", "_").lower() for n in NAMES}
NEW["is-new"] = "new_here"
WORD = re.compile(r"(?<!" + TOKEN + ")(?:" + "|".join(sorted(map(re.escape, NEW), key=len, reverse=True)) + ")(?!" + TOKEN + ")")

for folder, dirs, files in os.walk("crates"):
    dirs[:] = [d for d in dirs if d != "out"]
    for name in files:
        path = os.path.join(folder, name)
        if not name.endswith((".antt", ".edit")):
            continue
        text = open(path, encoding="utf-8").read()
        new = WORD.sub(lambda m: NEW[m.group(0)], text)
        if new != text:
            open(path, "w", encoding="utf-8").write(new)
