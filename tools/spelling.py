#!/usr/bin/env python3
"""Brings the names of definitions and laws to the spelling of today's Rattle, once, after the kit's port.py.

    python3 tools/spelling.py [--check]

Words are in snake case, types, facts and modules in camel case. A dash joins two names that are defined by themselves ('length-fill'); a plain word is
added with '_'. Names are read off specs/ and off the lemma files right in proofs/. Contracts, proofs, must-fail edits, and code spans of *.md turn with
them; functions of src/, strings and prose stay. Names that would fall together with another one are in TOLD, with the name that they get.
"""
import glob
import re
import sys

WORD = re.compile(r'[^\s(){}.;,@"«»`]+')
SIGNATURE = re.compile(r"^\s*(?:(?:pub|abbrev|unfoldable)\s+)*([^\s(){}.;,@\"«»]+)\s+:(?:\s|$)")
LISTED = re.compile(r"\buse\s+((?:Rattle\.std|mathlib|native|lib|borrow|Prim|std|programs)[\w.]*)\.\{([^}]*)\}")
PLAIN = re.compile(r"[A-Za-z][A-Za-z0-9]*")
# what would fall together otherwise
TOLD = {
    "all_are": "all_are_each",
    "place_at": "place_reached",
    "place-of": "place_in_ring",
    "start-of": "start_each",
    "slots-of": "slots_are",
    "column-in": "column_inside",
    "column-of": "column_taken",
    "columns-in": "columns_inside",
    "file-played": "file_played_is",
    "in-steps": "in_steps_are",
    "parts-to": "parts_to_are",
    "head-width": "head_wide",
    "histories-joined": "histories_joined_are",
    "positions-joined": "positions_joined_are",
    "no-column": "no_column_is",
    "played-by": "played_by_is",
    "site-groups": "site_groups_in",
    "slot-memory": "slot_memory_is",
    "slot-place": "slot_place_is",
    "slot-weights": "slot_weights_are",
    "weights-at": "weights_at_is",
    "weights-in": "weights_inside",
    "is-nan": "is_nan_pattern",
    "out-rows": "out_rows",
    "none-given": "none_given",
    "none-played": "none_played",
}


def read(path):
    with open(path, encoding="utf-8") as f:
        return f.read()


def names():
    """The names defined in specs/ and in lemma files, and those that the library has."""
    own, library = {}, set()
    for path in sorted(glob.glob("crates/*/specs/**/*.antt", recursive=True) + glob.glob("crates/*/proofs/*.antt")):
        for line in read(path).splitlines():
            found = SIGNATURE.match(line)
            if found:
                own.setdefault(found.group(1), path)
    for path in glob.glob("crates/**/*.antt", recursive=True) + glob.glob("crates/**/*.rt", recursive=True):
        for found in LISTED.finditer(read(path)):
            for item in found.group(2).split(","):
                library.add(item.split(" as ")[0].strip())
    return own, library


def snake(word):
    """A word of camel case that begins small, in snake case."""
    return re.sub(r"(?<=[A-Za-z0-9])([A-Z])", lambda m: "_" + m.group(1), word).lower()


def turned(name, known):
    if name[0] == "◌" or not any(c.isascii() and c.isalpha() for c in name):
        return name
    parts = name.split("-")
    if parts[0][:1].islower():
        parts = [snake(p) for p in parts]
    out = parts[0]
    for a, b in zip(parts, parts[1:]):
        out += ("-" if a in known and b in known else "_") + b
    return out


def table():
    own, library = names()
    known = {"length", "set", "take", "drop", "append", "get_or", "suc", "add", "mul", "sub", "min", "max"}
    for path in glob.glob("crates/*/specs/**/*.antt", recursive=True):
        known |= {snake(n) for n in re.findall(r"(?m)^ *(?:pub )?(?:abbrev|unfoldable) (?:pub )?([a-z]\w*)", read(path))}
    known -= {"first", "last", "number", "output", "layer", "array", "signal", "head", "after", "value", "one", "values", "held", "plain", "site"}
    rows = {}
    for name in own:
        new = TOLD.get(name) or turned(name, known)
        if new != name and name not in library:
            rows[name] = new
    return rows, own, library


def rename(text, rows):
    return WORD.sub(lambda m: rows.get(m.group(0), m.group(0)), text)


def code_only(text, rows, comment):
    """Renames in each line's code, and in its comment only names that no prose has."""
    sure = {k: v for k, v in rows.items() if re.search(r"[a-z][A-Z]", k)}
    out = []
    for line in text.split("\n"):
        at = line.find(comment)
        code, said = (line, "") if at < 0 else (line[:at], line[at:])
        out.append(rename(code, rows) + rename(said, sure))
    return "\n".join(out)


def spans(text, rows):
    """Renames in the code spans of a page."""
    return re.sub(r"`[^`\n]+`", lambda m: rename(m.group(0), rows), text)


CLAUSE = re.compile(r"(?:\b(?:requires|ensures)\b(?:\s+\w+)?\s*\{|\bghost\s+\w+\s*:\s*\{)")
GHOST_USE = re.compile(r"ghost\s+use\b[^;]*;")


def source(text, rows):
    """Renames in the clauses and imports of a source file, and names that only antt can have in its comments."""
    sure = {k: v for k, v in rows.items() if re.search(r"[a-z][A-Z]", k)}
    out, at = [], 0
    while at < len(text):
        use, clause = GHOST_USE.search(text, at), CLAUSE.search(text, at)
        first = min((m for m in (use, clause) if m), key=lambda m: m.start(), default=None)
        if not first:
            break
        out.append(rename(text[at:first.start()], sure))
        end = first.end()
        if first is clause:
            depth = 1
            while depth:
                depth += {"{": 1, "}": -1}.get(text[end], 0)
                end += 1
        out.append(rename(text[first.start():end], rows))
        at = end
    out.append(rename(text[at:], sure))
    return "".join(out)


def edit(text, rows):
    """An edit's texts are code of a source file or of an .antt file: the lines behind 'old:' and 'new:'."""
    antt = re.search(r"^file:.*\.antt", text, re.M)
    sure = rows if antt else {k: v for k, v in rows.items() if re.search(r"[a-z][A-Z]", k)}
    return "\n".join(rename(l, sure) if l.startswith(("old:", "new:")) else l for l in text.split("\n"))


def main():
    rows, own, library = table()
    news = {}
    for old, new in sorted(rows.items()):
        news.setdefault(new, []).append(old)
    for new, olds in sorted(news.items()):
        if len(olds) > 1 or new in own:
            print("fall together:", new, olds, "and itself" if new in own else "")
    if "--check" in sys.argv:
        for old, new in sorted(rows.items()):
            print(old, new, sep="\t")
        return
    turns = [(f, lambda t: code_only(t, rows, "--")) for f in glob.glob("crates/**/*.antt", recursive=True)]
    turns += [(f, lambda t: source(t, rows)) for f in glob.glob("crates/**/*.rt", recursive=True)]
    turns += [(f, lambda t: edit(t, rows)) for f in glob.glob("crates/*/must-fail/*.edit")]
    turns += [(f, lambda t: spans(t, rows)) for f in ["README.md"] + glob.glob("docs/*.md")]
    for path, turn in turns:
        old = read(path)
        new = turn(old)
        if new != old:
            with open(path, "w", encoding="utf-8") as f:
                f.write(new)


if __name__ == "__main__":
    main()
