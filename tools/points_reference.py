# Prints what crates/points_main prints, worked out with Python's floats: python3 tools/points_reference.py > crates/points_main/stdout
import math
import struct
import sys

WORD = (1 << 64) - 1


def following(x):
    x ^= (x << 13) & WORD
    x ^= x >> 7
    return x ^ ((x << 17) & WORD)


def pattern(x, mode):
    sign = x >> 63 << 63
    low = x & 0xFFFFFFFFFFFFF
    middling = (1013 + (x >> 52) % 29) << 52 | low
    if mode == 2:
        return middling
    if mode == 1:
        return sign if x % 7 == 0 else sign | middling
    kind = (x >> 40) % 16
    if kind == 0:
        return x
    if kind == 1:
        return sign
    if kind == 2:
        return sign | low >> (x >> 58)
    if kind == 3:
        return sign | 0x7FE0000000000000 | low
    if kind == 4:
        return sign | 0x7FF0000000000000
    if kind == 5:
        return 0x7FF0000000000000 | low
    if kind == 6:
        return sign | (0x3E112E0BE826D694 + x % 4)
    if kind < 10:
        return sign | (1023 + (x >> 52) % 8) << 52
    return sign | middling


def real(x, mode):
    return struct.unpack("<d", struct.pack("<Q", pattern(x, mode)))[0]


def bits(v):
    return 0x7FF8000000000000 if v != v else struct.unpack("<Q", struct.pack("<d", v))[0]


def divide(a, b):
    if b != 0:
        return a / b
    if a != a or a == 0:
        return math.nan
    return math.copysign(1.0, a) * math.copysign(1.0, b) * math.inf


def three(x, mode):
    values = []
    for _ in range(3):
        x = following(x)
        values.append(real(x, mode))
    return values


def after_three(x):
    return following(following(following(x)))


def site(x):
    return (x >> 10) % 32, (x >> 20) % 32, (x >> 30) % 32


def place(origin, step, at):
    u, v, w = at
    ijk = (w - u - v, u - v, -w)
    return [origin[k] + float(ijk[k]) * step[k] for k in range(3)]


def mean(points):
    if len(points) == 1:
        return points[0]
    total = [0.0, 0.0, 0.0]
    for p in points:
        total = [total[k] + p[k] for k in range(3)]
    share = 1.0 / float(len(points))
    return [t * share for t in total]


def edge_point(here, there, p, q):
    t = divide(p, p - q)
    seen["fractions below 0"] += t < 0
    seen["fractions above 1"] += t > 1
    seen["fractions NaN"] += t != t
    t = 0.0 if t < 0 else 1.0 if t > 1 else t
    return [here[k] + t * (there[k] - here[k]) for k in range(3)]


seen = {"cases": 0, "near the threshold": 0, "fractions below 0": 0, "fractions above 1": 0, "fractions NaN": 0,
        "coordinates": 0, "accepted frames": 0, "no point": 0, "NaN": 0, "infinite": 0, "zero": 0, "-0.0": 0, "subnormal": 0}


def show(n):
    print("%016x" % n)


def show_point(p):
    for v in p:
        seen["coordinates"] += 1
        seen["NaN"] += v != v
        seen["infinite"] += math.isinf(v)
        seen["zero"] += v == 0
        seen["-0.0"] += v == 0 and math.copysign(1.0, v) < 0
        seen["subnormal"] += 0 < abs(v) < 2.0**-1022
        show(bits(v))


def run(x, mode):
    seen["cases"] += 1
    a = after_three(x)
    b = after_three(a)
    c = following(b)
    d = following(c)
    e = following(d)
    origin, step = three(x, mode), three(a, mode + mode)
    ok = all(-1.0e9 <= v <= 1.0e9 for v in origin) and all(0.001 <= v <= 1.0e6 for v in step)
    seen["accepted frames"] += ok
    show(int(ok))
    here, there = place(origin, step, site(c)), place(origin, step, site(d))
    show_point(here)
    p, q = real(d, 0), real(e, 0)
    if math.isfinite(p) and math.isfinite(q):
        show_point(edge_point(here, there, p, q))
    else:
        seen["no point"] += 1
        show(0xFFFF)
    points, y = [], e
    for _ in range(e % 14 + 1):
        points.append(three(y, mode))
        y = after_three(y)
    show_point(mean(points))
    return following(e)


def close(x):
    return struct.unpack("<d", struct.pack("<Q", 0xBE112E0BE826D68D + (x >> 20) % 17))[0]


def near(x):
    seen["near the threshold"] += 1
    a = after_three(x)
    c = following(after_three(a))
    d = following(c)
    e = following(d)
    origin, step = three(x, 1), three(a, 2)
    show_point(edge_point(place(origin, step, site(c)), place(origin, step, site(d)), close(d), close(e)))
    return following(e)


x = 0x9E3779B97F4A7C15
for k in range(100):
    x = run(x, 0)
    x = run(x, 1)
for k in range(100):
    x = near(x)
print(seen, file=sys.stderr)
