#!/usr/bin/env python3
"""Writes the cases of the program `describe` (crates/describe/stdin) and what it has to print (crates/describe/stdout).

The answers come from this script alone: it is written from docs/RULES.md, sections 'Description', 'Refusal numbers' and 'The recurrence' (Reset), and
shares nothing with the Rattle code or its definitions. It walks a description as dictionaries and lists of plain tuples, tests the refusals in their
order over the whole description, and counts the parts one by one.

A case is little-endian whole numbers of 32 bits: the description's length, the lengths of the histories and positions that are lent to reset, and the
description. The lent lengths are the right ones where nothing is refused and they are small, and wrong ones where refusal 7 is aimed at.

Run it from the root of the repository:  python3 tools/describe_cases.py
"""
import random
import struct

MOST = 1_048_576
SITES = 8


def split(d):
    """The array and the layers of a description whose length is right."""
    keys = ["input", "condition", "channels", "head_in", "head_size", "head_kernel", "head_bias", "layers"]
    array = dict(zip(keys, d[:8]))
    return array, [d[8 + 24 * l : 32 + 24 * l] for l in range(array["layers"])]


def ranges_kept(array, layers):
    widths = ["input", "condition", "channels", "head_in", "head_size"]
    good = all(1 <= array[w] <= 32 for w in widths)
    good &= 1 <= array["head_kernel"] <= 16 and array["head_bias"] in (0, 1) and 1 <= array["layers"] <= 24
    for y in layers:
        good &= 1 <= y[0] <= 32 and 1 <= y[1] <= 16 and 1 <= y[2] <= 2048 and 1 <= y[3] <= 32 and 1 <= y[4] <= 32
        good &= y[5] in (0, 1, 2) and y[6] in (0, 1, 2, 3) and y[8] in (0, 1, 2, 3)
        good &= y[10] <= 32 and y[11] in (0, 1) and y[12] <= 32 and y[13] <= 32 and y[14] in (0, 1)
        good &= all(g <= 32 for g in y[15:23]) and y[23] <= 255
    return good


def zeros_kept(layers):
    for y in layers:
        if (y[6] != 3 and y[7]) or (y[8] != 3 and y[9]):
            return False
        if y[5] == 0 and (y[8] or y[9]):
            return False
        if y[10] == 0 and y[11]:
            return False
        if y[12] == 0 and (y[13] or y[14]):
            return False
        if y[12] > 0 and y[13] == 0:
            return False
        if any(y[15 + i] == 0 and y[23] >> i & 1 for i in range(SITES)):
            return False
    return True


def parts(array, layers):
    """(ins, outs, kernel, dilation, groups, bias) of every convolution that is there, in order."""
    out = [(array["input"], array["channels"], 1, 1, 1, 0)]
    for y in layers:
        mid = y[0] if y[5] == 0 else 2 * y[0]
        head = y[12] or array["channels"]
        widths = [array["channels"], mid, array["condition"], mid, mid, y[0], array["channels"], head]
        out.append((array["channels"], mid, y[1], y[2], y[3], 1))
        out.append((array["condition"], mid, 1, 1, y[4], 0))
        if y[10]:
            out.append((y[0], array["channels"], 1, 1, y[10], y[11]))
        if y[12]:
            out.append((y[0], y[12], 1, 1, y[13], y[14]))
        for i in range(SITES):
            if y[15 + i]:
                out.append((array["condition"], widths[i] * (2 if y[23] >> i & 1 else 1), 1, 1, y[15 + i], 1))
    out.append((array["head_in"], array["head_size"], array["head_kernel"], 1, 1, array["head_bias"]))
    return out


def answer(d):
    """(refusal, sizes, positions after a reset)"""
    if len(d) < 8 or len(d) != 8 + 24 * d[7]:
        return 1, None, None
    array, layers = split(d)
    if not (ranges_kept(array, layers) and zeros_kept(layers)):
        return 2, None, None
    convs = parts(array, layers)
    if any(i % g or o % g for i, o, k, s, g, b in convs):
        return 3, None, None
    for y in layers:
        if (y[10] == 0 and y[0] != array["channels"]) or (y[12] or y[0]) != array["head_in"]:
            return 4, None, None
    weights = sum(o * i * k // g + (o if b else 0) for i, o, k, s, g, b in convs)
    rings = [(k - 1) * s + 1 for i, o, k, s, g, b in convs]
    histories = sum(c[0] * ring for c, ring in zip(convs, rings))
    if weights > MOST or histories > MOST:
        return 5, None, None
    mids = [y[0] if y[5] == 0 else 2 * y[0] for y in layers]
    widest = max(d[:5] + [w for y, m in zip(layers, mids) for w in (y[0], m, y[12])])
    depth = sum((y[1] - 1) * y[2] for y in layers)
    return 0, (weights, histories, len(convs), widest, depth), [ring - 1 for ring in rings]


CASE_A = [1, 1, 1, 1, 1, 1, 0, 1]
LAYER_A = [1, 2, 2, 1, 1, 0, 1, 0, 0, 0, 1, 1] + [0] * 12


def array_of(n, **kw):
    a = dict(input=1, condition=1, channels=16, head_in=16, head_size=8, head_kernel=1, head_bias=1)
    a.update(kw)
    return list(a.values()) + [n]


def layer_of(**places):
    """A layer by place: p5=1 sets place 5."""
    y = [16, 3, 1, 1, 1, 0, 0, 0, 0, 0, 1, 1] + [0] * 12
    for p, v in places.items():
        y[int(p[1:])] = v
    return y


def full_layer(r, array):
    """A layer with everything in it, its groups dividing."""
    mode = r.randrange(3)
    bottleneck = r.choice([b for b in (1, 2, 4, 8, 16, 32) if True])
    y = [bottleneck, r.randint(1, 16), r.choice([1, 2, 3, 7, 64, 2048 if r.random() < 0.1 else 5]), 1, 1, mode]
    for _ in range(2):
        code = r.randrange(4)
        y += [code, r.choice([0, 0x3F000000, 0x7FC00000, 0xFFFFFFFF, 0x80000000]) if code == 3 else 0]
    if mode == 0:
        y[8] = y[9] = 0
    y += [1, r.randrange(2)]
    y += [array[3], 1, r.randrange(2)]
    groups = [r.choice([0, 1]) for _ in range(SITES)]
    y += groups
    y.append(sum(1 << i for i in range(SITES) if groups[i] and r.random() < 0.5))
    return y


def cases():
    # case A, and the lengths around it
    yield CASE_A + LAYER_A
    yield []
    yield [1] * 7
    yield (CASE_A + LAYER_A)[:31]
    yield CASE_A + LAYER_A + [0]
    yield CASE_A[:7] + [0]
    yield CASE_A[:7] + [2**29 + 1] + LAYER_A
    yield CASE_A[:7] + [2**32 - 1] + LAYER_A
    for n in (0, 1, 2, 24, 25):
        yield array_of(n) + layer_of() * n
    # each number of the array and of a layer at the ends of its range and one past them
    ends = [0, 1, 2, 3, 4, 15, 16, 17, 24, 25, 31, 32, 33, 255, 256, 2047, 2048, 2049, 2**31, 2**32 - 1]
    for p in range(7):
        for v in ends:
            d = array_of(1) + layer_of()
            d[p] = v
            yield d
    for p in range(24):
        for v in ends:
            yield array_of(1) + layer_of(**{f"p{p}": v})
    # the same in the last of three layers, under mode Gated and with all that may be absent there
    rich = dict(p5=1, p8=2, p12=16, p13=1, p14=1, p23=0b10101010, **{f"p{15 + i}": 1 for i in range(SITES)})
    yield array_of(1) + layer_of(**rich)
    for p in range(24):
        for v in ends:
            yield array_of(3) + layer_of() + layer_of(**rich) + layer_of(**{**rich, f"p{p}": v})
    # slopes: only code 3 has one, with any bits
    for code in range(4):
        for bits in (0, 1, 0x3F000000, 0x7FC00000, 0x80000000, 0xFFFFFFFF):
            yield array_of(1) + layer_of(p6=code, p7=bits)
            yield array_of(1) + layer_of(p5=2, p8=code, p9=bits)
            yield array_of(1) + layer_of(p8=code, p9=bits)
    # each site there or absent, with and without its shift bit
    for i in range(SITES):
        for groups in (0, 1, 3):
            for bits in (0, 1 << i, 255):
                yield array_of(1, condition=3) + layer_of(**{f"p{15 + i}": groups, "p23": bits})
    # groups: with a shift they divide twice the width
    for groups in (1, 2, 3, 4, 5, 8, 16, 32):
        for place in (3, 4, 10, 13, 15, 16, 17, 18, 19, 20, 21, 22):
            more = {"p12": 16} if place == 13 else {}
            yield array_of(1, condition=8) + layer_of(**{f"p{place}": groups, **more})
            yield array_of(1, condition=32) + layer_of(**{"p5": 1, f"p{place}": groups, **more, "p23": 0 if place < 15 else 1 << (place - 15)})
    # refusal 4: layer1x1 absent, head1x1 there or absent
    for bottleneck in (8, 16):
        for one in (0, 1):
            for width in (0, 8, 16):
                for head_in in (8, 16):
                    yield array_of(1, head_in=head_in) + layer_of(p0=bottleneck, p10=one, p11=0, p12=width, p13=1 if width else 0)
    # several faults at once, in several layers: the lowest number is given
    broken, uneven, unmatched = dict(p23=1), dict(p3=3), dict(p0=8)
    for first in (broken, uneven, unmatched, {}):
        for second in (broken, uneven, unmatched, {}):
            for kernel in (1, 17):
                yield array_of(2, head_kernel=kernel) + layer_of(**first) + layer_of(**second)
    yield (array_of(2) + layer_of(**unmatched) + layer_of(**broken))[:-1]
    # run only: width 32 against 33; one layer of 32 channels, kernel 16, dilation 2048 fits, two do not
    wide = layer_of(p0=32, p1=16, p2=2048, p11=0)
    for width in (32, 33):
        yield array_of(1, channels=width, head_in=32) + layer_of(p0=32)
    for n in (1, 2):
        yield array_of(n, channels=32, head_in=32, head_bias=0) + wide * n
    # histories at 1,048,576, one less and one more: the input width makes up the rest
    for rest in (-1, 0, 1):
        d = array_of(2, input=30 + rest, channels=32, head_in=32, head_bias=0) + wide + layer_of(p0=32, p1=3, p2=1021, p11=0)
        assert history_count(d) == MOST + rest
        yield d
    # weights at 1,048,576, one less and one more
    yield from near_weights()
    # at random: sound ones with everything in them, and the same with one number set anyhow
    r = random.Random(20260101)
    for _ in range(60):
        n = r.randint(1, 4)
        a = [r.randint(1, 32), r.randint(1, 32), r.choice([1, 2, 4, 8, 16, 32]), r.randint(1, 32), r.randint(1, 32), r.randint(1, 16), r.randrange(2), n]
        d = a + sum((full_layer(r, a) for _ in range(n)), [])
        yield d
        for _ in range(4):
            e = list(d)
            e[r.randrange(len(e))] = r.choice([0, 1, 2, 3, 5, 32, 33, 255, r.randrange(2**32)])
            yield e


def history_count(d):
    array, layers = split(d)
    return sum(i * ((k - 1) * s + 1) for i, o, k, s, g, b in parts(array, layers))


def weight_count(d):
    array, layers = split(d)
    return sum(o * i * k // g + (o if b else 0) for i, o, k, s, g, b in parts(array, layers))


def near_weights():
    """Descriptions whose weights are 1,048,576, one less and one more: kernels come down until little is missing, and the ends make up the rest."""
    for rest in (-1, 0, 1):
        yield next(d for condition in range(8, 33) for d in near(rest, condition))


def near(rest, condition):
    layers = [layer_of(p0=32, p1=16, p5=1, **{f"p{15 + i}": 1 for i in range(SITES)}, p23=255) for _ in range(24)]

    def whole(input_width, size, kernel):
        return array_of(24, input=input_width, condition=condition, channels=32, head_in=32, head_size=size, head_kernel=kernel) + sum(layers, [])

    at = 0
    while weight_count(whole(1, 1, 1)) > MOST - 2:
        layers[at % 24][1] -= 1
        at += 1
    missing = MOST + rest - weight_count(whole(1, 1, 1))
    for size in range(1, 33):
        for kernel in range(1, 17):
            for i in range(1, 33):
                if missing == 32 * (i - 1) + 32 * (size * kernel - 1) + size - 1:
                    assert weight_count(whole(i, size, kernel)) == MOST + rest
                    yield whole(i, size, kernel)


def main():
    data, lines, seen = bytearray(), [], {}
    for d in cases():
        number, sizes, starts = answer(d)
        seen[number] = seen.get(number, 0) + 1
        lends = [(3, 2)]
        if number == 0:
            h, p = sizes[1], sizes[2]
            if h <= 4096:
                lends = [(h, p)]
                if seen[0] % 5 == 1:
                    lends += [(h + 1, p), (h - 1, p), (h, p + 1), (h, p - 1), (0, 0)]
        for h, p in lends:
            right = number == 0 and (h, p) == (sizes[1], sizes[2])
            if not (h <= 4096 and p <= 512 and len(d) <= 640):
                continue
            first = "refused %d" % number if number else "sizes %d %d %d %d %d" % sizes
            reset = number or (0 if right else 7)
            after = starts if reset == 0 else [9] * p
            seen["reset %d" % reset] = seen.get("reset %d" % reset, 0) + 1
            lines.append("%s; reset %d, sounding %d, positions %d%s" % (first, reset, 0 if reset == 0 else h, p, "".join(" %d" % x for x in after)))
            data += struct.pack("<%dI" % (3 + len(d)), len(d), h, p, *d)
    open("crates/describe/stdin", "wb").write(data)
    open("crates/describe/stdout", "w").write("\n".join(lines) + "\n")
    print(len(lines), "cases;", ", ".join("%s: %d" % (k, v) for k, v in sorted(seen.items(), key=str)))


main()
