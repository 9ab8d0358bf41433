#!/usr/bin/env python3
"""In the proof files of functions, spells the names that the toolchain makes from a function or a variable as that stands in
src/: `c.load-after` as `c.load_after`, `returns-then-is-above` as `returns-then-is_above`. Run once at the top, after respell.py.
"""
import glob
import re
from pathlib import Path

WORDS = set()
for path in glob.glob("crates/*/src/**/*.rt", recursive=True):
    text = re.sub(r"//[^\n]*", "", Path(path).read_text())
    WORDS.update(re.findall(r"\b[a-z][a-z0-9]*(?:_[a-z0-9]+)+\b", text))
WORDS.update({"as_slice", "from_residual", "first_byte"})
TOKEN = re.compile(r"(?<![\w'\-])[A-Za-z][\w']*(?:-[\w']+)+")
BY_LENGTH = sorted(WORDS, key=len, reverse=True)
ONE = re.compile(r"(?<![^-])(?:" + "|".join(re.escape(w.replace("_", "-")) for w in BY_LENGTH) + r")(?![^-])")

for path in sorted(glob.glob("crates/*/proofs/**/*.antt", recursive=True)):
    if not path.endswith(("Answers.antt", "Invariants.antt")) or len(Path(path).parts) < 5:
        continue
    text = Path(path).read_text()

    def turn(m):
        before = text[:m.start()]
        line = before[before.rfind("\n") + 1:]
        if not (before.endswith(".") or re.fullmatch(r"\s*((pub|abbrev|unfoldable) )*", line)):
            return m.group(0)
        return ONE.sub(lambda w: w.group(0).replace("-", "_"), m.group(0))

    new = TOKEN.sub(turn, text)
    # what a `?` leads to, sums and ranges, and what is told of a parameter
    new = re.sub(r"(?<![\w'])((?:[\w']+-)*)in-(ok|err)-", r"\1in_\2-", new)
    new = re.sub(r"(?<![\w'-])overflow-(add|mul|sub|cast|shr|shl|neg)-", r"overflow_\1-", new)
    new = re.sub(r"(?<![\w'-])slice-bounds-", "slice_bounds-", new)
    new = re.sub(r"(?<![\w'-])invariant-of-", "invariant_of-", new)
    new = re.sub(r"\bc\.told_rows\b", "c.told-rows", new)
    if new != text:
        Path(path).write_text(new)
        print(path)
