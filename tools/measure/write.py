#!/usr/bin/env python3
"""Writes docs/exp-tanh.md and docs/figures/exp-tanh.svg from what tools/measure printed over every pattern."""
import subprocess
import sys

BINS, W, H, PAD = 40, 300, 150, 34


def read(path):
    out = {}
    for line in open(path):
        w = line.split()
        if w[1] == "floats":
            out.setdefault(w[0], {}).update(floats=[int(x) for x in w[2:6]], far=w[7], far_at=w[9], worst=w[11], worst_at=w[13], broken=w[15])
        else:
            out.setdefault(w[0], {})["bins"] = [int(x) for x in w[2:]]
    return out


def chart(name, bins, x0):
    top = max(bins[1:])
    s = ['<text x="%d" y="16" font-weight="bold">%s</text>' % (x0 + PAD, name)]
    for k, n in enumerate(bins[:BINS]):
        h = H * min(n, top) / top
        s.append('<rect x="%.1f" y="%.1f" width="%.1f" height="%.1f"/>' % (x0 + PAD + k * W / BINS, 26 + H - h, W / BINS - 1, h))
    for k in range(0, 11, 2):
        s.append('<text x="%.1f" y="%d" text-anchor="middle">%.1f</text>' % (x0 + PAD + k * W / 10, 42 + H, k / 10))
    s.append('<text x="%.1f" y="%d" text-anchor="middle">distance from the true value, in float spacings</text>' % (x0 + PAD + W / 2, 60 + H))
    return "\n".join(s)


def main():
    r = read(sys.argv[1])
    with open("docs/figures/exp-tanh.svg", "w") as f:
        f.write('<svg xmlns="http://www.w3.org/2000/svg" width="%d" height="%d" font-family="sans-serif" font-size="11" fill="#234">\n' % (2 * (W + 2 * PAD), H + 72))
        f.write(chart("exp", r["exp"]["bins"], 0) + "\n" + chart("tanh", r["tanh"]["bins"], W + 2 * PAD) + "\n</svg>\n")
    with open("docs/exp-tanh.md", "w") as f:
        f.write("# exp and tanh, measured on every float\n\n")
        f.write("The proved code, linked from its static library, on all 2^32 bit patterns against double, and MPFR with 200 digits wherever the float\n")
        f.write("nearest to that is in doubt. `bash tools/measure/run.sh 1` makes this page and the figure. Measured with %s.\n\n" % subprocess.check_output(["rt", "version"], text=True).split()[0])
        f.write("| floats between the result and the correctly rounded value | 0 | 1 | 2 | more | largest true error, in float spacings | stated facts broken |\n|---|---|---|---|---|---|---|\n")
        for n in ("exp", "tanh"):
            t = r[n]
            f.write("| %s, all that are not NaN | %d | %d | %d | %d | %s, at %s | %s |\n" % ((n,) + tuple(t["floats"]) + (t["worst"], t["worst_at"], t["broken"])))
        f.write("\n![how far the results lie from the true values](figures/exp-tanh.svg)\n\n")
        f.write("The bars count the inputs by the distance of the result from the true value, half a spacing being the best that rounding can do; the first\n")
        f.write("bar, cut off at the height of the next highest, holds the inputs whose result is all but exact, as where exp is 1 or tanh is x.\n")


main()
