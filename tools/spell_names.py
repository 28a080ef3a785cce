#!/usr/bin/env python3
"""Brings the names of this repository's own definitions and lemmas to the spelling of today's Rattle.

usage: python3 tools/spell_names.py [--dry]     at the top of the repository, once, right after the kit's port.py

Words are in snake case, types in camel case. A name is one that a file of specs/ or proofs/ declares (an answer, an
invariant or a measure, which Rattle names, is left alone). Functions of src/, strings and comments in prose keep
their text. It names those that would fall together.
"""

import os
import re
import sys

WORD = r"[^\s(){}\[\],;:.λ`\"]+"
SPECIAL = {
    "Day-opens": "DayOpens",
    "Image-is-its-day": "ImageIsItsDay",
    "lotsBought": "lots_bought_by",
    "lotsSold": "lots_sold_by",
    "lotsTraded": "lots_traded_by",
    # lemmas that would have their function's name
    "all-lawful": "all_lawful_lem",
    "charged-by": "charged_by_lem",
    "corrected-list": "corrected_list_lem",
    "long_of": "long_of_lem",
    "long-side": "long_side_lem",
    "not-below": "not_below_lem",
    "pool-bill": "pool_bill_lem",
    "short-of": "short_of_lem",
    "short-side": "short_side_lem",
}
MADE = re.compile(r"^(invariant|decreases|ghost|returns|loop|overflow|bounds|slice_bounds|nonzero|prove|invariant_of|in|if|at|type_inv|the|measures|join)-")
LINE = re.compile(r"(?m)^([ \t]*)((?:pub |abbrev |unfoldable )*)(" + WORD + r")[ \t]+(?:[({][^=\n]*[)}][ \t]*)?:[ \t]+(.*)$")
KIND = re.compile(r"(?m)^[ \t]*(?:pub )?(?:record|data|ruleset)[ \t]+(" + WORD + r")")


def snake(name):
    if name in SPECIAL:
        return SPECIAL[name]
    if name.startswith("sumℤ") or "-sumℤ" in name:
        name = name.replace("sumℤ", "int-sum-").rstrip("-").replace("--", "-")
    name = name.replace("-", "_")
    if re.match(r"[A-Z]{2,}_", name):
        head, rest = name.split("_", 1)
        return head + "_" + snake(rest)
    if name[:1].isupper():
        return name
    return re.sub(r"(?<=[a-z0-9])_?([A-Z])", lambda m: "_" + m[1].lower(), name).replace("__", "_")


def files(root, ends):
    for folder, dirs, names in os.walk(root):
        dirs[:] = sorted(d for d in dirs if d != "out")
        for n in sorted(names):
            if n.endswith(ends):
                yield os.path.join(folder, n)


def bare(text):
    """The text of an .antt file without its comments."""
    return re.sub(r"(?m)(^|(?<=\s))--.*$", "", text)


def declared(root):
    """Every name that a file declares, and those among them that are fields of a record."""
    names, fields = set(), set()
    for p in files(root, ".antt"):
        text = bare(open(p, encoding="utf-8").read())
        for m in KIND.finditer(text):
            names.add(m[1])
        for m in LINE.finditer(text):
            indent, marks, name, rest = m.groups()
            if re.match(r"(goal|need|given)[.]", rest) or MADE.match(name):
                continue
            names.add(name)
            if indent and "pub" in marks and "/specs/" in p:
                fields.add(name)
    return names, fields


TOKEN = re.compile(r"(?<![^\s(){}\[\],;:.λ`\"])" + WORD)


def rename(text, table, fields):
    def one(m):
        w = m[0]
        if w not in table:
            return w
        before = text[: m.start()]
        if before.endswith("."):
            path = re.search(r"[^\s(){}\[\],;]*$", before)[0]
            if not path.startswith("Rattle.") and w not in fields:
                return w
        return table[w]

    return TOKEN.sub(one, text)


def turn_antt(text, table, fields):
    out = []
    camel = {k: v for k, v in table.items() if "-" not in k}
    for line in text.split("\n"):
        m = re.search(r"(^|(?<=\s))--", line)
        code, note = (line[: m.start()], line[m.start() :]) if m else (line, "")
        out.append((code, note))
    code = rename("\n".join(c for c, _ in out), table, fields).split("\n")
    return "\n".join(c + (rename(n, camel, fields) if n else "") for c, (_, n) in zip(code, out))


def turn_rt(text, table, fields):
    out = []
    for line in text.split("\n"):
        m = re.match(r"\s*//", line)
        out.append(rename(line, {k: v for k, v in table.items() if "-" not in k} if m else table, fields))
    return "\n".join(out)


def turn_page(text, table, fields):
    return re.sub(r"`[^`\n]+`", lambda m: rename(m[0], table, fields), text)


def main(argv):
    names, fields = declared("crates")
    table = {n: snake(n) for n in names if snake(n) != n}
    others = names - set(table)
    clash = [f"{a} and {b}" for a, b in table.items() if b in others]
    seen = {}
    for a, b in sorted(table.items()):
        if b in seen:
            clash.append(f"{seen[b]} and {a}, both {b}")
        seen[b] = a
    for c in clash:
        print("falls together:", c)
    print(len(names), "names,", len(table), "to respell")
    if "--dry" in argv:
        for a, b in sorted(table.items()):
            print(a, b)
        return 0
    for p in list(files("crates", (".antt", ".rt", ".edit"))) + list(files("docs", ".md")) + ["README.md"]:
        text = open(p, encoding="utf-8").read()
        turn = turn_antt if p.endswith(".antt") else turn_page if p.endswith(".md") else turn_rt
        new = turn(text, table, fields)
        if new != text:
            open(p, "w", encoding="utf-8").write(new)
    return 0


if __name__ == "__main__":
    raise SystemExit(main(sys.argv[1:]))
