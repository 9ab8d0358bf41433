#!/usr/bin/env python3
"""Drops the names of `impl` blocks and the imports of them: today an `impl` has no name. Run once at the top."""
import glob
import re
from pathlib import Path

IMPL = re.compile(r"(?m)^(\s*)(?:pub )?impl\b([^{]*?) as (\w+)([^{]*\{)")
files = sorted(glob.glob("crates/*/src/**/*.rt", recursive=True))
names = {m.group(3) for f in files for m in IMPL.finditer(Path(f).read_text())}
for f in files:
    text = Path(f).read_text()
    new = IMPL.sub(r"\1impl\2\4", text)
    for name in names:
        new = re.sub(rf"(?m)^use [\w:]+::{name};\n", "", new)
        new = re.sub(rf"(?m)^(use [\w:]+::)\{{(\w+), {name}\}};$", r"\1\2;", new)
    if new != text:
        Path(f).write_text(new)
print(" ".join(sorted(names)))
