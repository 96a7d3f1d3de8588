#!/usr/bin/env python3
"""Brings the repository's own definitions and lemmas to the library's spelling: values and fields in snake_case, types in PascalCase.

usage: tools/respell.py [--table]        at the top of the repository; --table only prints the table

Taken are the names that specs/ and proofs/ declare, but for the goals that a Proof.antt answers. The code's functions, exported names, strings,
inputs and outputs keep theirs. Where a lemma would fall together with a definition, it takes the ending _law, and a record of facts the ending Within.
"""
import os
import re
import sys

WORD = r"[^\s(){}\[\];,.@\"«»λ]+"
DECL = re.compile(r"^( *)(?:(?:abbrev|unfoldable|opaque|instance|private|pub|irreducible) +)*(%s(?: %s)*) :(?= |$)" % (WORD, WORD))
TYPE = re.compile(r"^( *)(?:pub +)?(?:record|data) +(?:pub +)?(%s)" % WORD)
KEYWORDS = {"use", "let", "in", "where", "case", "do", "ghost"}
CLAUSE = re.compile(r"(?:requires|ensures)\b|ghost\b")


def files(top, ends):
    for folder, dirs, names in os.walk(top):
        dirs[:] = sorted(d for d in dirs if d not in ("out", "target", ".git"))
        for n in sorted(names):
            if n.endswith(ends):
                yield os.path.join(folder, n)


def read(p):
    with open(p, encoding="utf-8", newline="") as f:
        return f.read()


def declared(p, text):
    """The names that a file declares; of a Proof.antt not the goals nor the function's own statement."""
    found = set()
    walk = p.endswith("/Proof.antt")
    for line in text.splitlines():
        m = TYPE.match(line)
        if m:
            found.add(m[2])
            continue
        m = DECL.match(line)
        if not m:
            continue
        if walk and re.search(r": (tie\.Need|\{M : Type 1\} → statement)", line):
            continue
        for n in m[2].split(" "):
            if n not in KEYWORDS:
                found.add(n)
    return found


def respelled(n):
    core = n.rstrip("'′")
    tail = n[len(core):].replace("′", "'")
    if not re.search(r"[A-Za-z]", core):
        return n
    if core[:1].isupper():
        parts = core.split("-")
        out = parts[0] + "".join(p[:1].upper() + p[1:] for p in parts[1:])
    else:
        out = re.sub(r"(?<=[a-z0-9])[A-Z]", lambda m: "_" + m[0].lower(), core).replace("-", "_")
    return out + tail


# lemmas that have the plain spelling of a definition already
LAWS = {"after_look": "after_look_law", "plain_value": "plain_value_law"}
# a name of two files that do not meet
SHARED = {"onRow", "columnsOf"}


def apart(n, to):
    """The spelling of a name whose plain one another definition takes: a lemma is the law of the definition that it is named after."""
    if to[:1].isupper():
        return re.sub("In$", "Within", to) if to.endswith("In") else to + "Fact"
    return to + "_law"


def table(root):
    names, taken, theirs = set(), set(), set()
    for p in files(os.path.join(root, "crates"), ".antt"):
        t = read(p)
        names |= declared(p, t)
        for path, those in re.findall(r"^use ((?:Rattle\.std|mathlib|lib|native|Prim|borrow|mir)[\w.]*)\.\{([^}]*)\}", t, re.M):
            theirs |= {w.split(" as ")[-1].strip() for w in those.split(",")}
    names -= theirs
    taken |= theirs
    taken |= {n for n in names if respelled(n) == n and n not in LAWS}
    rows, stay = dict(LAWS), []
    # a definition in the older camel case comes before a lemma with dashes
    for n in sorted(names, key=lambda n: ("-" in n, n)):
        to = respelled(n)
        if to == n:
            continue
        if to in taken and n not in SHARED:
            to = apart(n, to)
        if to in taken and n not in SHARED:
            stay.append((n, to, "in use"))
            continue
        taken.add(to)
        rows[n] = to
    return rows, stay


def turn(text, rows, rust):
    """Whole words of code and of a comment's code spans; of Rust only in clauses and ghost items."""
    word = lambda m: rows.get(m[0], m[0])
    sub = lambda t: re.sub(WORD, word, t)
    spans = lambda t: re.sub(r"`[^`\n]*`", lambda m: sub(m[0].replace("`", " ` ")).replace(" ` ", "`"), t)
    out, inside = [], False
    for line in text.splitlines(keepends=True):
        mark = "//" if rust else "--"
        at = re.search(r"(?:(?<=\s)|^)" + re.escape(mark) + r"(?=\s|$)", line)
        code, comment = (line[: at.start()], line[at.start():]) if at else (line, "")
        if rust:
            if CLAUSE.search(code) or inside:
                start = 0 if inside else CLAUSE.search(code).start()
                body = code[start:]
                depth = body.count("{") - body.count("}")
                level = (depth if not inside else inside + depth)
                inside = max(level, 0) if "{" in body or inside else 0
                code = code[:start] + sub(body)
        else:
            parts = re.split(r'("(?:[^"\\]|\\.)*")', code)
            code = "".join(q if i % 2 else sub(q) for i, q in enumerate(parts))
        out.append(code + spans(comment))
    return "".join(out)


def main(argv):
    root = os.getcwd()
    rows, stay = table(root)
    for n, to, why in stay:
        print(f"stays: {n}: {to} is {why}")
    if argv:
        for n, to in sorted(rows.items()):
            print(f"{n}\t{to}")
        return
    with open(os.path.join(root, "tools", "respelled.tsv"), "w", encoding="utf-8") as f:
        f.writelines(f"{n}\t{to}\n" for n, to in sorted(rows.items()))
    for p in files(os.path.join(root, "crates"), (".antt", ".rt")):
        t = read(p)
        to = turn(t, rows, p.endswith(".rt"))
        if to != t:
            with open(p, "w", encoding="utf-8", newline="") as f:
                f.write(to)


main(sys.argv[1:])
