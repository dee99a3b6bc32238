#!/usr/bin/env python3
"""Counts the places of docs/DESIGN-PASS.md's points in crates/*/src, at a commit or as they stand: tools/design_places.py [COMMIT] [-l]
(-l lists each place). Points 1 to 4, 6 and 7 are lines that match a pattern; point 5 counts functions with seven parameters or more, and facts that
stand in the `requires` of three or more functions; point 8 counts lines of proofs."""
import re
import subprocess
import sys

PATTERNS = {
    "1 own enums": r"^\s*(?:pub )?enum \w+",
    "1 flags with a value beside": r"^\s*pub shifted: bool|shifted: bool,?$",
    "1 numbers for refusals": r"\bRefused\(|\breturn [0-9]+;|->\s*(?:io::Result<)?u32>?(?: \{)?$|\bOk\((?:0|10)\)|^    0$|number: u32|const WRONG|answers = answers \|",
    "1 numbers for kinds": r"\bkind: usize|\bkind == |const (?:PLAIN|IN_ORDER|IN_TWO)\b|^\s*(?:0|1|2|3|4|5|6|7|8|9|10) => ",
    "2 twins": r"fn \w+(?:_within|_four\w*|_eight\w*|eight\w*|_half\w*|_over|_in_place|_in|_to|_next|_apart|_of|_by|_one|_places|_floats|_numbers|_each|_biases|_largest)\b|fn (?:put|load|save|exp|tanh|same|largest|modulate|modulated|row|column|columns|print|print_sizes|print_answer|word|unpack|copy)(?:<[^>]*>)?\(",
    "3 loops over an index": r"^\s*(?:for \w+ in (?!rt)[^&]*\.\.|while )",
    "4 by hand": r"fn (?:same\w*|copy\w*|print\w*|put_\w+|hex_digit|read_mode|read_activation|number|word|half|float|wide|unpack\w*|lesser|least|larger|blended|spread_row|sounding|next_block)(?:<[^>]*>)?\(",
    "6 parallel arrays, lengths beside": r"\b(?:weights|histories|positions)_at: &|\bat: usize, (?:bits|x|text|n|index)|\bgot\b.*read_full|fn put_\w+.*at: usize",
    "7 switches on a step": r"^\s*match (?:i|k|code|self|mode|kind) \{|if (?:k|kind|n|i) == ",
}


def files(commit, where):
    if commit:
        names = subprocess.run(["git", "ls-tree", "-r", "--name-only", commit, "crates"], capture_output=True, text=True, check=True).stdout.split()
    else:
        names = subprocess.run(["git", "ls-files", "crates"], capture_output=True, text=True, check=True).stdout.split()
    for n in names:
        if re.search(where, n):
            if commit:
                yield n, subprocess.run(["git", "show", f"{commit}:{n}"], capture_output=True, text=True, check=True).stdout
            else:
                try:
                    yield n, open(n).read()
                except FileNotFoundError:
                    pass


def functions(text):
    """name, parameters, requires clauses"""
    for m in re.finditer(r"\bfn (\w+)(?:<[^(]*>)?\(", text):
        depth, i = 1, m.end()
        while depth:
            depth += {"(": 1, ")": -1}.get(text[i], 0)
            i += 1
        parameters = [p for p in re.split(r",(?![^<(]*[>)])", text[m.end() : i - 1]) if p.strip()]
        body = text.find("\n{", i)
        one = text.find(" {\n", i)
        end = min(x for x in (body, one, len(text)) if x != -1)
        yield m.group(1), parameters, re.findall(r"requires\s*\w*\s*\{(.*?)\}\s*(?=requires|ensures|$)", text[i:end], re.S)


def main():
    args = [a for a in sys.argv[1:] if a != "-l"]
    listing = "-l" in sys.argv
    commit = args[0] if args else None
    sources = list(files(commit, r"/src/.*\.rt$"))
    for point, pattern in PATTERNS.items():
        found = [(n, i, l.strip()) for n, t in sources for i, l in enumerate(t.split("\n"), 1) if re.search(pattern, l) and not l.lstrip().startswith("//")]
        print(f"{point}: {len(found)}")
        if listing:
            for n, i, l in found:
                print(f"    {n}:{i}: {l[:110]}")
    many, facts = [], {}
    for n, t in sources:
        for name, parameters, clauses in functions(t):
            if len(parameters) >= 7:
                many.append(f"{n}: {name} ({len(parameters)})")
            for head in {h for c in clauses for h in re.findall(r"\b([A-Z]\w+)\b", c)}:
                facts.setdefault((n.split("/")[1], head), []).append(name)
    repeated = {k: v for k, v in facts.items() if len(v) >= 3}
    print(f"5 functions with seven parameters or more: {len(many)}")
    print(f"5 facts in the requires of three functions or more: {len(repeated)}")
    if listing:
        for m in many:
            print("    " + m)
        for (crate, head), v in sorted(repeated.items()):
            print(f"    {crate}: {head} in {len(v)}")
    answers = [(n, t) for n, t in files(commit, r"/proofs/.*/(?:Answers|Invariants)\.antt$")]
    lemmas = [(n, t) for n, t in files(commit, r"/proofs/[^/]*\.antt$")]
    print(f"8 files of answers and invariants: {len(answers)}, lines {sum(t.count(chr(10)) for _, t in answers)}")
    print(f"8 lines of lemma files: {sum(t.count(chr(10)) for _, t in lemmas)}")
    print(f"lines of src/: {sum(t.count(chr(10)) for _, t in sources)}")


if __name__ == "__main__":
    main()
