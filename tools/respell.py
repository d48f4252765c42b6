#!/usr/bin/env python3
# Spells the repository's own definitions, lemmas, fields and constructors as today's Rattle does: words in snake case; a dash only where it joins two names. Run once, right after port.py.
"""usage: tools/respell.py [--list]   at the top of the repository; --list prints the table of names, old and new, and changes nothing.

What is renamed: names that specs/ and proofs/ declare (functions' labels excepted, which Rattle makes).
  siteOf      -> site_of          a word in camel case becomes snake case; types, facts and modules keep their capital
  book-append -> book_append      a dash stays only between two names: words of a definition, of the source or of the library; a plain word is added with _
  in-box      -> in_box_lem       a lemma that would get the name of a definition
Functions of src/, exported C names, strings, inputs and outputs keep their names. Pages, tools and must-fail edits are not turned here.
"""
import collections
import os
import re
import sys

NAME = r'[^\s(){}.;,@"«»`]+'
# Words of the library that lemmas are named after.
LIBRARY = """lt le eq add sub mul div mod pow suc zero and or not cond append length take drop set get_or map all every eqb ltb leb compare
bit_and bit_or bit_xor min max concat replicate reverse sum count""".split()
# Names whose new form the rules do not give.
BY_HAND = {"getD-there": "get_or-there", "recs-getD": "recs-get_or"}


def files():
    for root, ds, fs in os.walk("crates"):
        ds[:] = sorted(d for d in ds if d != "out")
        for f in sorted(fs):
            if f.endswith((".antt", ".rt")):
                yield os.path.join(root, f)


def snake(n):
    return re.sub(r"(?<=[a-z0-9])[A-Z]", lambda m: "_" + m[0].lower(), n)


def own_file(p):
    q = p.split("/")
    return q[2] == "specs" or q[2] == "proofs" and (len(q) == 4 or not re.search(r"/(Proof|Answers|Invariants)\.antt$", p))


SIGNATURE = re.compile(r"(?m)^( *)((?:(?:pub|unfoldable|abbrev|open|record|data|infix\w* \d+) )*)([^\s(){}]+)((?: [({][^\n]*?[)}])*) :(?=\s)([^\n]*)")


def declared(text):
    """(name, kind) of each declaration of a file: word, type, lemma, field or constructor. A function's label is none."""
    stack = []
    for line in text.split("\n"):
        if not line.strip() or line.strip().startswith("--"):
            continue
        indent = len(line) - len(line.lstrip())
        while stack and indent <= stack[-1][0]:
            stack.pop()
        m = re.match(r" *(?:pub )?(record|data) ([^\s(){}]+)", line)
        if m:
            stack.append((indent, m[1]))
            yield m[2], "type"
            continue
        m = SIGNATURE.match(line)
        if not m:
            m2 = re.match(r" *((?:(?:pub|unfoldable|abbrev) )*)([^\s(){}]+) :$", line)
            if not m2:
                continue
            how, name, rest = m2[1], m2[2], ""
        else:
            how, name, rest = m[2], m[3], m[5]
        if re.match(r"\s*(tie|goal)\.|.*\b[\w+-]+-lts\.", rest) or name.endswith("-spec"):
            continue
        if stack:
            yield name, "field" if stack[-1][1] == "record" else "constructor"
        elif "unfoldable" in how or "abbrev" in how:
            yield name, "word"
        else:
            yield name, "lemma"


def table():
    text = {p: open(p, encoding="utf-8").read() for p in files()}
    kinds = collections.defaultdict(set)
    rust = set()
    for p, t in text.items():
        if p.endswith(".rt"):
            rust |= set(re.findall(r"\bfn (\w+)", t))
        else:
            for n, k in declared(t):
                kinds[n].add(k)
    words = {snake(n) for n in kinds if kinds[n] & {"word", "type", "constructor"}} | rust | set(LIBRARY)
    words = {w for w in words if "-" not in w and len(w) > 1}

    def dashes(n):
        parts = n.split("-")
        units, i = [], 0
        while i < len(parts):
            for j in range(len(parts), i, -1):
                u = "_".join(parts[i:j])
                if j == i + 1 or u in words:
                    units.append(u)
                    i = j
                    break
        out = units[0]
        for a, b in zip(units, units[1:]):
            out += ("-" if a in words and b in words else "_") + b
        return out

    new = {}
    for n, ks in sorted(kinds.items()):
        if n.strip("-") != n or len(n) < 2 or re.search(r"[^\w'ᵇ→←₀-₉-]", n):
            continue
        if n in BY_HAND:
            new[n] = BY_HAND[n]
        elif ks & {"type"}:
            m = n.split("-")
            if len(m) > 1:
                new[n] = "".join(x[0].upper() + x[1:] for x in m)
        elif n[0].islower():
            s = snake(n)
            if ks <= {"field", "constructor"}:
                s = s.replace("-", "_")
            elif "-" in s:
                s = dashes(s)
            if s != n:
                new[n] = s
    # names that fall together: the lemma gets _lem
    taken = collections.defaultdict(list)
    for n in kinds:
        taken[new.get(n, n)].append(n)
    for s, ns in sorted(taken.items()):
        if len(ns) > 1:
            words_first = sorted(ns, key=lambda n: (not kinds[n] & {"word", "type", "constructor", "field"}, n in new, n))
            for n in words_first[1:]:
                if kinds[n] & {"word", "type", "constructor", "field"} and not kinds[words_first[0]] & {"lemma"}:
                    new[n] = s + "_word" if "-" not in n else s + "_lem"
                else:
                    new[n] = s + "_lem"
    return new, kinds, text


def turn_antt(t, new, fields, at_dots):
    """at_dots: the names that are turned behind a dot: all in a file of lemmas, and fields alone where labels of Rattle's stand there."""
    path = re.compile(r"^\s*(?:pub )?(?:ghost )?use [^{]*")

    def word(m):
        n = m[0]
        if m.string[m.start() - 1: m.start()] == ".":
            return at_dots.get(n, n)
        return new.get(n, n)

    out = []
    for line in t.split("\n"):
        code, dash, said = re.match(r'^((?:[^"\n]|"[^"]*")*?)((?:^|(?<=\s))--(?=\s|$))?(.*)$', line).groups() if "--" in line else (line, "", "")
        if not dash:
            code, said = line, ""
        pieces = re.split(r'("[^"]*")', code)
        code = "".join(x if x.startswith('"') else re.sub(NAME, word, x) for x in pieces)
        if path.match(line):
            kept = path.match(line)[0]
            kept = re.sub(r" as ([^\s;]+)", lambda m: " as " + new.get(m[1], m[1]), kept)
            code = kept + code[len(code) - len(path.sub("", code)):] if "{" in line else kept + line[len(path.match(line)[0]):]
        said = re.sub(r"`([^`\n]+)`", lambda m: "`" + re.sub(NAME, word, m[1]) + "`", said)
        out.append(code + (dash or "") + said)
    return "\n".join(out)


def turn_rt(t, new, fields):
    """Only `ghost use` lines and clauses."""
    out, depth = [], 0
    for line in t.split("\n"):
        ghost = line.lstrip().startswith("ghost ")
        clause = re.match(r"\s*(requires|ensures|ghost)\b", line)
        if ghost or clause or depth > 0:
            if clause or depth > 0:
                depth += line.count("{") - line.count("}")
                depth = max(depth, 0)
            out.append(turn_antt(line, new, fields, fields))
        else:
            out.append(line)
    return "\n".join(out)


def main(argv):
    new, kinds, text = table()
    if "--list" in argv:
        for n in sorted(new):
            print(f"{n}\t{new[n]}\t{' '.join(sorted(kinds[n]))}")
        return 0
    fields = {n: s for n, s in new.items() if "field" in kinds[n] or "constructor" in kinds[n]}
    changed = 0
    for p, t in text.items():
        u = turn_antt(t, new, fields, new if own_file(p) else fields) if p.endswith(".antt") else turn_rt(t, new, fields)
        if u != t:
            open(p, "w", encoding="utf-8").write(u)
            changed += 1
    print(f"respell: {len(new)} names, {changed} files")
    return 0


if __name__ == "__main__":
    raise SystemExit(main(sys.argv[1:]))
