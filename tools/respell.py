#!/usr/bin/env python3
"""Respells the repository's own definitions and lemmas, once, after the kit's port.py.

A name of specs/ or proofs/ that has a dash is written in snake case, and a type or a fact (a name with a capital first) in camel
case. Functions of src/, the names that the check makes of the code (goals and steps), the library's names and plain text stay.

    python3 tools/respell.py --plan     prints each old name with its new one, and the names that would fall together
    python3 tools/respell.py            rewrites the files
"""
import re
import sys
from pathlib import Path

# A token of a specification: everything between blanks, brackets and these marks.
TOKEN = re.compile(r"[^\s(){}\[\].;,`\"\\]+")
SIGNATURE = re.compile(r"^(?:(?:abbrev|unfoldable|pub|axiom) )*([^\s:(){}\[\].;,]+(?: [^\s:(){}\[\].;,]+)*) :(?: |$)")
FIELD = re.compile(r"^\s+(?:(?:abbrev|unfoldable|pub) )*([^\s:(){}\[\].;,]+(?: [^\s:(){}\[\].;,]+)*) : ")
HEADING = re.compile(r"^\s*(?:pub )?(?:data|record) ([^\s(){}:]+)")
GOAL = re.compile(r": goal\.")
KEYWORDS = {"abbrev", "unfoldable", "pub", "axiom", "let", "in", "λ"}


# Names that would fall together with a function beside them, a variant or a library's name, and what they are called instead.
OWN = {
    "No-state": "HasNoState",
    "bit-or": "has_bit-bit_or",
    "choose-status": "chosen_status",
    "is-finished": "status_is_finished",
    "is-ready": "status_is_ready",
    "sample-room": "samples_needed",
    "entry-room": "entries_needed",
    "long-enough": "is_long_enough",
    "same-port": "ports_agree",
    "same-ports": "all_ports_agree",
    "empty-port": "fresh_port",
}


def antt_files(top):
    return sorted(f for f in top.glob("crates/*/*/**/*.antt") if f.relative_to(top).parts[2] in ("specs", "proofs"))


def declared(top):
    """Each dashed name that a file of specs/ or proofs/ declares, and those that are fields or cases of a type."""
    names = set()
    fields = set()
    for f in antt_files(top):
        block = None
        for line in f.read_text().splitlines():
            heading = HEADING.match(line)
            if heading:
                block = line
                names.add(heading.group(1))
                continue
            if line and not line[0].isspace():
                block = None
            if GOAL.search(line):
                continue
            found = SIGNATURE.match(line) or (FIELD.match(line) if block or f_is_module(line) else None)
            if found:
                words = [w for w in found.group(1).split() if w not in KEYWORDS]
                names.update(words)
                if block and line[0].isspace():
                    fields.update(words)
    return {n for n in names if "-" in n.strip("-") and re.match(r"[A-Za-z]", n)}, fields


def f_is_module(line):
    """Inside `module _ (..) where` a definition stands two blanks in, or more where it is marked."""
    return re.match(r"^(?:  |\s+pub )(?:(?:abbrev|unfoldable|pub) )*[^\s:(){}\[\].;,]+ : ", line) is not None


def spelled(name):
    if name[0].isupper():
        return "".join(part[:1].upper() + part[1:] for part in name.split("-"))
    return name.replace("-", "_")


def library_names(top):
    """Names that a file takes from a library of the kit, or that the check makes."""
    out = set()
    for f in antt_files(top) + sorted(top.glob("crates/*/src/**/*.rt")):
        for line in f.read_text().splitlines():
            m = re.match(r"^\s*(?:ghost )?(?:pub )?use ((?:Rattle\.std|borrow|logic|denote|mathlib|Prim|lib)\.[^{;]*)\{([^}]*)\}", line)
            if m:
                out.update(w for w in re.split(r"[,\s]+", m.group(2)) if w)
    return out


def respell(text, plan, fields, spec):
    def swap(m):
        word = m.group(0)
        if word not in plan:
            return word
        before = text[max(0, m.start() - 5):m.start()]
        # Behind these stand the names that the check makes, unless it is a field of a record of this repository.
        if before.endswith("goal.") or (re.search(r"\b[cwgl]\.$", before) and word not in fields):
            return word
        return plan[word]

    if spec:
        return TOKEN.sub(swap, text)
    # In a document only what stands between back quotes is a name.
    return re.sub(r"`[^`\n]+`", lambda q: TOKEN.sub(lambda m: plan.get(m.group(0), m.group(0)), q.group(0)), text)


def main():
    top = Path(__file__).resolve().parent.parent if len(sys.argv) < 2 or sys.argv[-1].startswith("--") else Path(sys.argv[-1])
    names, fields = declared(top)
    library = library_names(top)
    plan = {n: OWN.get(n, spelled(n)) for n in names if n not in library}
    used = set()
    for f in antt_files(top) + sorted(top.glob("crates/*/src/**/*.rt")):
        used.update(TOKEN.findall(f.read_text()))
    together = sorted(n for n, new in plan.items() if new in used or new in library)
    if "--plan" in sys.argv:
        for n in sorted(plan):
            print(n, plan[n])
        print("kept, since the library has the name:", " ".join(sorted(names & library)))
        print("fall together:", " ".join(f"{n}>{plan[n]}" for n in together))
        return
    for f in antt_files(top) + sorted(top.glob("crates/*/src/**/*.rt")):
        old = f.read_text()
        new = respell(old, plan, fields, True)
        if new != old:
            f.write_text(new)
    for f in sorted(top.glob("docs/*.md")) + [top / "README.md"]:
        old = f.read_text()
        new = respell(old, plan, fields, False)
        if new != old:
            f.write_text(new)


if __name__ == "__main__":
    main()
