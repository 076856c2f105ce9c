#!/usr/bin/env python3
"""places.py [CRATES [POINT]]: lists the places of each point of docs/DESIGN-PASS.md in CRATES/*/src, and how many."""
import collections, glob, re, sys

ROOT = sys.argv[1] if len(sys.argv) > 1 else "crates"
WANT = sys.argv[2:]
FILES = sorted(glob.glob(ROOT + "/*/src/*.rt"))


def crate(f):
    return f[len(ROOT) + 1:].split("/")[0]


def bare(t):
    """The text without comments."""
    return "\n".join(l.split("//")[0] for l in t.split("\n"))


TEXT = {f: bare(open(f).read()) for f in FILES}


def functions():
    """Each function: crate, name, its signature with clauses, its body."""
    for f, t in TEXT.items():
        for m in re.finditer(r"^( *)(?:#\[[^\n]*\n *)*(?:pub(?:\(crate\))? )?(?:const )?(?:extern \"C\" )?fn (\w+)", t, re.M):
            at, indent = m.start(), m.group(1)
            rest = t[at:]
            b = re.search(r"^" + indent + r"\{\n|(?<=[\w>\])]) \{\n", rest, re.M)
            while b and b.group(0) != indent + "{\n" and re.search(r"(requires|ensures)[^\n]*$", rest[:b.start()]):
                b = re.compile(r"^" + indent + r"\{\n|(?<=[\w>\])]) \{\n", re.M).search(rest, b.end())
            # a function of a trait that has no body
            if not b or re.search(r";$", rest[:b.start()], re.M):
                continue
            e = re.compile(r"^" + indent + r"\}", re.M).search(rest, b.end())
            if e:
                yield crate(f), m.group(2), rest[:b.start()], rest[b.end():e.start()]


FUNCTIONS = list(functions())


def structs():
    for f, t in TEXT.items():
        for m in re.finditer(r"struct (\w+)(?:<[^>]*>)? \{\n(.*?)^\}", t, re.M | re.S):
            yield crate(f), m.group(1), re.findall(r"(\w+): ([^,\n]+),", m.group(2))


def point_1():
    for f, t in TEXT.items():
        for m in re.finditer(r"enum (\w+) \{\n((?:    \w+(?:\([^)\n]*\))?,\n){2,3})\}", t):
            if "(" in m.group(2):
                yield "enum of two or three", crate(f), m.group(1)
    for c, n, fields in structs():
        for name, ty in fields:
            if ty == "bool":
                yield "flag in a struct", c, n + "." + name
            if ty == "u64" and re.match(r"(number|kind|found|read|has_\w+)$", name):
                yield "number for a kind", c, n + "." + name
    for c, n, sig, body in FUNCTIONS:
        ps = re.findall(r"(\w+): ([^,)]+)", sig.split("requires")[0].split("ensures")[0])
        for (a, x), (b, y) in zip(ps, ps[1:]):
            if a == "attached" and x.strip() == "bool" or {a, b} == {"line", "long"}:
                yield "flag beside a value", c, n
        k = len(re.findall(r"Refused\(\d+\)|refused\(\w+, \d+\)", body))
        k += len(re.findall(r"return [1-9]\d?;", body)) if n.endswith("refusal") else 0
        for _ in range(k):
            yield "number for a refusal", c, n
        if re.search(r"match \*?\w+ \{\n +(?:1|0x[0-9a-f]+|\[1,[^\n]*) =>", body) or re.search(r"Six\(1, |=> \[1, ", body):
            yield "kinds by number", c, n


def point_2():
    groups = collections.defaultdict(list)
    for c, n, sig, body in FUNCTIONS:
        s = re.sub(r"\b(?!if\b|else\b|while\b|for\b|in\b|let\b|mut\b|return\b|match\b|true\b|false\b)[a-zA-Z_]\w*\b", "x", body)
        s = re.sub(r"0x[0-9a-f_]+|\d[\d_]*", "0", s)
        s = re.sub(r"\bx(?:(?:::|\.)x)+", "x", s)
        s = re.sub(r"\s+", " ", s).strip()
        if len(s) > 34:
            groups[s].append((c, n))
    for s, l in sorted(groups.items()):
        if len(l) > 1:
            for c, n in l:
                yield "same body as " + ", ".join(b for _, b in l if (_, b) != (c, n))[:80], c, n


def point_3():
    for c, n, sig, body in FUNCTIONS:
        for m in re.finditer(r"^ *(?:'\w+: )?(while [^\n]*|loop) ?\{?$", body, re.M):
            yield m.group(1).rstrip(" {")[:60], c, n


def point_4():
    for c, n, sig, body in FUNCTIONS:
        if re.match(r"(lt|eq|same\w*|lesser|greater|larger|least|clamp|is_zero|wide|low|byte|long|digit|fill|shift|put_bytes|copy\w*|bump)$", n):
            yield "by its name", c, n
        elif "-> bool" in sig and re.search(r"return (true|false);", body) and not re.search(r"\b(while|for|loop|match)\b", body):
            yield "a chain of ifs for && and ||", c, n
        elif re.search(r"_named$|_word$|kind_of$|value_of$|command_at$|leader_at$|has_leader$|leader_in$|leader_number$|^(?:conf|node|plain)_of$|^number$", n):
            yield "a conversion by its name", c, n


def point_5():
    facts = collections.Counter()
    for c, n, sig, body in FUNCTIONS:
        for r in re.findall(r"requires(?: \w+)? \{(.*?)\}\n", sig):
            for p in re.split(r" × (?![^(]*\))", r.strip()):
                p = p.strip().strip("()")
                for q in p.split(" × "):
                    facts[q.strip().strip("()")] += 1
    for p, k in facts.most_common():
        if k >= 3:
            yield "in %d contracts" % k, "", p
    groups = collections.Counter()
    for c, n, sig, body in FUNCTIONS:
        ps = re.findall(r"(\w+): ([^,()]+)", sig.split("requires")[0].split("ensures")[0])
        names = [a + ": " + b.strip() for a, b in ps]
        for k in (2, 3, 4, 5):
            for i in range(len(names) - k + 1):
                groups[tuple(names[i:i + k])] += 1
    kept = [g for g, k in groups.items() if k >= 3]
    for g in kept:
        if not any(g != h and " ".join(g) in " ".join(h) and groups[h] >= groups[g] for h in kept):
            yield "in %d signatures" % groups[g], "", ", ".join(g)


def point_6():
    for c, n, sig, body in FUNCTIONS:
        s = sig.split("requires")[0].split("ensures")[0]
        if re.search(r"&(?:mut )?\[u(?:8|64)\],\s+(?:count|n|used|have|end|k): usize", s):
            yield "a buffer with a length beside it", c, n
        if re.search(r"\[0(?:u64|u8)?; ", body):
            yield "a fixed array", c, n
    for c, n, fields in structs():
        if [x for x in fields if x[1] == "usize" and re.match(r"(start|end|\w+_end|name|input|answers|count|have|used|slots)$", x[0])]:
            yield "places or a length in a struct", c, n


def point_7():
    for c, n, sig, body in FUNCTIONS:
        for m in re.finditer(r"match \*?(\w+) \{\n(.*?)\n    \}", body, re.S):
            arms = re.findall(r"^        [^ \n][^\n]*=>", m.group(2), re.M)
            calls = re.findall(r"=>\s*(?:\{\s*)?(?:let [^\n]*;\s*)*(?:\w+\.)?(?!Some|Ok|Err|Six|Item::|Kind::|Call::|Command::)\w+(?:::\w+)*\(", m.group(2))
            if len(arms) > 2 and len(calls) * 2 > len(arms):
                yield "match %s" % m.group(1), c, n


def point_8():
    for f in sorted(glob.glob(ROOT + "/*/proofs/**/*.antt", recursive=True)):
        t = open(f).read()
        if f.endswith("/Answers.antt"):
            for m in re.finditer(r"^pub [^ ]+ : goal\.([^ ]+)$", t, re.M):
                yield "answer", f[len(ROOT) + 1:].split("/")[0], f.split("/proofs/")[1][:-13] + " " + m.group(1)
        elif "/proofs/" in f and f.count("/") == f[:f.index("/proofs/")].count("/") + 2:
            for m in re.finditer(r"^ *(?:pub )?([^ :]+) : ", t, re.M):
                yield "lemma", f[len(ROOT) + 1:].split("/")[0], m.group(1)


POINTS = [point_1, point_2, point_3, point_4, point_5, point_6, point_7, point_8]
for i, p in enumerate(POINTS, 1):
    if WANT and str(i) not in WANT:
        continue
    found = list(p())
    if WANT:
        for what, c, n in found:
            print("%d  %-22s %-28s %s" % (i, c, n, what))
    by = collections.Counter(w.split(" as ")[0] if i != 3 else "loop" for w, _, _ in found)
    if i == 5:
        by = collections.Counter("facts" if "contracts" in w else "parameters" for w, _, _ in found)
    if i == 7:
        by = collections.Counter(len(found) * ["switch"])
    print("point %d: %d (%s)" % (i, len(found), ", ".join("%s %d" % x for x in by.most_common())))
