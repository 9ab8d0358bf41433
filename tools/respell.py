#!/usr/bin/env python3
"""Respells the names of this repository's own definitions, lemmas and record fields: `dark-row` as `dark_row`, `Links-ok` as
`LinksOk`, `getD-tops` as `slice_index_tops`. Run once at the top, right after the toolchain's port.py.

Functions of src/, strings, inputs and outputs keep their names, and so do names that the toolchain makes (goals, loops, calls) or
that a file imports from its library. In pages only what stands between backquotes is respelled.
"""
import glob
import re
import sys
from pathlib import Path

CHARS = r"[^\s(){}\[\];,:.@\"`λ→≡∷]"
TOKEN = re.compile(r"(?<![\w'\-])[A-Za-z][\w'◌]*(?:-[\w']+)+|(?<![\w'\-])(?:getD|sumBy)(?![\w'\-])")
DECLARED = re.compile(
    r"\s*((?:(?:abbrev|unfoldable|pub|private)\s+)*)(?:(record|data|ruleset)\s+)?([A-Za-z][\w']*(?:-[\w']+)+)(\s*:|\s|$)(.*)$")
MADE = re.compile(r"(goal|given|needs|need|names)\.|Goals\.")


def sources():
    for pattern in ("crates/*/specs/**/*.antt", "crates/*/proofs/**/*.antt", "crates/*/src/**/*.rt"):
        yield from sorted(glob.glob(pattern, recursive=True))


def own_crates():
    return {p.parts[-1] for p in map(Path, glob.glob("crates/*"))}


def new_name(name):
    if name[0].isupper():
        return "".join(w[:1].upper() + w[1:] for w in name.split("-"))
    name = re.sub(r"^getD-", "slice_index-", name)
    name = re.sub(r"^sumBy-", "sum_by-", name)
    return name.replace("-", "_")


def declared():
    """The names that this repository declares, and those of them that are fields of records."""
    names, fields = set(), set()
    for path in sources():
        if not path.endswith(".antt"):
            continue
        folder = Path(path).name in ("Answers.antt", "Invariants.antt", "Proof.antt") and len(Path(path).parts) > 4
        record = None
        names.update(w for w in re.findall(r"\bas ([A-Za-z][\w']*(?:-[\w']+)+)", Path(path).read_text()))
        for line in Path(path).read_text().split("\n"):
            line = re.sub(r"--.*", "", line)
            indent = len(line) - len(line.lstrip())
            if line.strip() and record is not None and indent <= record:
                record = None
            m = re.match(r"\s*(?:(?:abbrev|unfoldable|pub|private)\s+)*record\b", line)
            if m:
                record = indent
            m = DECLARED.match(line)
            if not m:
                continue
            kind, name, colon, rest = m.group(2), m.group(3), m.group(4), m.group(5)
            is_signature = colon.strip() == ":" or kind in ("record", "data", "ruleset")
            if not is_signature and re.match(r"(?:[\w'-]+\s+)*:\s", rest):
                is_signature = True
            if not is_signature:
                continue
            if folder and (MADE.search(rest) or re.match(r"(returns|overflow|loop|invariant|decreases|index|slice)(-|$)", name) or name.endswith("-requires")):
                continue
            names.add(name)
            if record is not None and indent > record:
                fields.add(name)
    return names, fields


def imported(text, own):
    """The names that a file imports from outside this repository."""
    out = set()
    for m in re.finditer(r"(?m)^\s*(?:pub\s+)?(?:ghost\s+)?use\s+([\w.·'-]+?)\.?(?:\{([^}]*)\})?\s*;?\s*$", text):
        path, names = m.group(1), m.group(2)
        crate = re.match(r"Rattle[.·](\w+)", path)
        if crate and crate.group(1) in own:
            continue
        if names is None:
            out.add(path.split(".")[-1])
        else:
            out.update(n.strip() for n in names.split(",") if " as " not in n)
    return out


def parts(path, text):
    """The text in pieces: (is code, piece). Comments and strings are no code."""
    if path.endswith(".antt"):
        pattern = r"--[^\n]*"
    else:
        pattern = r"//[^\n]*|b?\"(?:[^\"\\]|\\.)*\""
    at = 0
    for m in re.finditer(pattern, text):
        yield True, text[at:m.start()]
        yield False, m.group(0)
        at = m.end()
    yield True, text[at:]


def respell(path, text, names, fields, kept):
    folder = path.endswith(("Answers.antt", "Invariants.antt"))

    def turn(m, code):
        word = m.group(0)
        if word not in names or word in kept:
            return word
        before = code[:m.start()]
        if before.endswith(".") and folder and word not in fields and re.search(r"(?<![\w'])[clgk](\.[\w'-]+)*\.$", before):
            return word
        return new_name(word)

    out = []
    for code, piece in parts(path, text):
        if code:
            piece = TOKEN.sub(lambda m: turn(m, piece), piece)
        else:
            piece = re.sub(r"`[^`\n]*`", lambda b: TOKEN.sub(lambda m: turn(m, b.group(0)), b.group(0)), piece) if piece.startswith(("--", "//")) else piece
        out.append(piece)
    return "".join(out)


def main():
    names, fields = declared()
    own = own_crates()
    changed = 0
    for path in sources():
        text = Path(path).read_text()
        kept = imported(text, own)
        for word in sorted(names & kept):
            print(f"look: {path}: {word} is the library's here")
        tokens = set(re.findall(r"[\w']+(?:-[\w']+)*", text))
        for word in sorted(names & tokens - kept):
            if new_name(word) in tokens:
                print(f"look: {path}: {word} and {new_name(word)} fall together")
        new = respell(path, text, names, fields, kept)
        if new != text:
            Path(path).write_text(new)
            changed += 1
    for path in ["README.md"] + sorted(glob.glob("docs/*.md")):
        text = Path(path).read_text()
        new = re.sub(r"`[^`\n]*`", lambda b: TOKEN.sub(lambda m: new_name(m.group(0)) if m.group(0) in names else m.group(0), b.group(0)), text)
        if new != text:
            Path(path).write_text(new)
            changed += 1
    print(f"{len(names)} names, {changed} files changed")


if __name__ == "__main__":
    sys.exit(main())
