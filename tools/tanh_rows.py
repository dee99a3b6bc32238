#!/usr/bin/env python3
"""How the rows of Tanh were made (crate tangent): for each stretch of 2^21 patterns from 2^-13 to 10 the quintic through tanh at the six Chebyshev
points of the stretch, its numbers rounded to whole ones. Needs mpmath. Prints the rows; with --write it rewrites the lists in
crates/tangent/src/rows.rt and crates/tangent/specs/Rows.antt, which `rt fmt` there lays out. Nothing rests on this script: what is proved of Tanh
is proved of the rows as they stand, and the distance from tanh is measured on every pattern (tools/measure)."""
import os
import sys
from mpmath import mp, mpf, tanh, cos, pi, nint, matrix, lu_solve

mp.prec = 120
LOW, HIGH, STRETCH, DEGREE = 0x39000000, 0x41200000, 21, 5


def row(a):
    e = a >> 23
    binade = mpf(2) ** (e - 127)
    x0, h = binade * (1 + mpf(a & 0x7FFFFF) / 2**23), binade / 2 ** (23 - STRETCH)
    unit = 2 ** mpf(min(e, 126) - 157)                       # the value counts tanh in these
    n = DEGREE + 1
    m, b = matrix(n, n), matrix(n, 1)
    for r in range(n):
        u = (1 - cos(pi * (2 * r + 1) / (2 * n))) / 2
        for c in range(n):
            m[r, c] = u**c
        b[r] = tanh(x0 + h * u) / unit
    s = lu_solve(m, b)
    half = mpf(1) / 2                                        # the last floor takes half a unit on average; 32 rounds to the nearest float
    return [int(nint(s[0] + half)) + 32] + [int(nint(s[k] * 8)) for k in range(1, n)]


def main():
    rows = [row(LOW + (i << STRETCH)) for i in range(((HIGH - LOW - 1) >> STRETCH) + 1)]
    assert all(abs(c) < 2**31 for r in rows for c in r)
    if "--write" not in sys.argv:
        for r in rows:
            print(*r)
        return
    here = os.path.join(os.path.dirname(os.path.abspath(__file__)), "..", "crates", "tangent")
    with open(os.path.join(here, "src", "rows.rt"), "w") as f:
        f.write("// The rows of Tanh, six numbers each. specs/Rows.antt has the same numbers; tools/tanh_rows.py made both.\n")
        f.write("pub static ROWS: [i32; %d] = [\n" % (len(rows) * len(rows[0])))
        f.write("".join("    %d,\n" % c for r in rows for c in r) + "];\n")
    with open(os.path.join(here, "specs", "Rows.antt"), "w") as f:
        f.write("-- The rows of Tanh, six whole numbers each, one row for each stretch of 2^21 patterns from 2^-13 to 10. tools/tanh_rows.py made them.\n")
        f.write("use Rattle.std.specs.Prelude.{List, [], ◌∷◌, ℤ, pos, negsuc}\n\n")
        f.write("unfoldable pub rows : List ℤ\nrows =\n")
        for r in rows:
            f.write("    " + " ∷ ".join("pos %d" % c if c >= 0 else "negsuc %d" % (-c - 1) for c in r) + " ∷\n")
        f.write("    []\n")


main()
