#!/usr/bin/env python3
"""Respells the names that an import gives by `as`, in the files that import them, once, after tools/respell.py."""
import re
import sys
from pathlib import Path

TOKEN = re.compile(r"[^\s(){}\[\].;,`\"\\]+")
# An alias that would have the name of a function of its file.
OWN = {"names-declared": "declared_names"}

top = Path(sys.argv[1]) if len(sys.argv) > 1 else Path(__file__).resolve().parent.parent
for f in sorted(top.glob("crates/*/src/**/*.rt")) + sorted(top.glob("crates/*/*/**/*.antt")):
    text = f.read_text()
    plan = {a: OWN.get(a, a.replace("-", "_")) for a in re.findall(r" as ([A-Za-z']+(?:-[A-Za-z']+)+)", text)}
    for old, new in plan.items():
        if re.search(r"\b%s\b" % re.escape(new), text):
            print(f"{f}: {new} is there already")
    swapped = TOKEN.sub(lambda m: plan.get(m.group(0), m.group(0)), text)
    if swapped != text:
        f.write_text(swapped)
