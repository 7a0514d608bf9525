#!/usr/bin/env python3
"""Spells the definitions and lemmas of this repository as today's Rattle does: words in snake case, types and modules in camel case.

usage: tools/respell.py [--check]      at the top, once, on what port.py left; --check writes nothing and lists names that would fall together

A name that an .antt file of specs/ or proofs/ declares turns wherever it stands as a whole word: in .antt files, in the clauses, ghost items and comments of
.rt files, and in code spans of the pages. `storeLength` becomes `store_length`, and the dashes of a lemma become underscores, as port.py already had them in
the names that it turned: a lemma can then be named in an attribute. Names that Rust code, strings, inputs and outputs have stay.
"""
import collections
import glob
import os
import re
import sys

DECLARED = re.compile(r"^(\s*)((?:(?:pub|abbrev|unfoldable|private|open)\s+)*)([^\s(){}.;,@\"«»]+)((?:\s+\{[^{}]*\}|\s+\([^()]*\))*)\s+:\s+(\S+)")
WORD = re.compile(r'[^\s(){}.;,@"«»`]+')
GHOST = re.compile(r"(?:requires|ensures)\s*\*?\s*(?:\w+\s*)?\{|ghost\s+(?:\w+\s*(?::\s*)?)?\{|ghost\s+\w+\s*:\s*\{")
# What is a label of a proof file of the old form, and no name of ours.
LABEL = re.compile(r"tie\.|statement")
# Of two old names that would be one the definition takes it, and the lemma gets `_lem`; these are definitions already.
STAY = {"number_of", "cell_of", "has_value", "answer_of"}
# Names that the library has too, and keeps.
LIBRARY = {"or-false", "and-false"}


def is_old(name):
    return bool(re.match(r"^[a-z][^-]*[A-Z]", name) or "-" in name and re.search(r"[a-z]", name) and not name.startswith("-"))


def snake(name):
    return re.sub(r"(?<=[a-z0-9])[A-Z]|(?<=[A-Z])[A-Z](?=[a-z])", lambda m: "_" + m[0].lower(), name).lower().replace("-", "_")


def sources(*ends):
    for folder, dirs, files in os.walk("crates"):
        dirs[:] = sorted(d for d in dirs if d not in ("out", "data", "must-fail"))
        for f in sorted(files):
            if f.endswith(ends):
                yield os.path.join(folder, f)


def is_function_proof(path):
    return "/proofs/" in path and len(path.split("/proofs/")[1].split("/")) > 1


def read(path):
    with open(path, encoding="utf-8") as f:
        return f.read()


def table():
    declared, local, present = set(), collections.defaultdict(set), set()
    for path in sources(".antt"):
        for line in read(path).splitlines():
            m = DECLARED.match(line)
            if not m:
                continue
            if not is_function_proof(path):
                declared.add(m[3])
            elif not LABEL.match(m[5]) and not m[3].endswith("-spec") and is_old(m[3]):
                local[path].add(m[3])
    rows = {}
    for name in sorted(declared):
        if is_old(name) and name not in LIBRARY:
            rows[name] = snake(name)
    taken = collections.defaultdict(list)
    for name in declared:
        taken[rows.get(name, name)].append(name)
    for new, olds in taken.items():
        if len(olds) < 2:
            continue
        camel = [n for n in olds if re.match(r"^[a-z][^-]*[A-Z]", n)]
        for n in olds:
            if camel and n in camel or n in STAY:
                continue
            rows[n] = new + "_lem"
    return rows, local


def turned(text, rows, snakes):
    def one(m):
        w = m[0]
        if w in snakes and m.start() and text[m.start() - 1] == ".":
            return w
        return rows.get(w, w)
    return WORD.sub(one, text)


def antt(text, rows):
    snakes = {n for n in rows if not is_old(n)}
    here = {n for n in snakes if re.search(r"(?m)^\s*(?:(?:pub|abbrev|unfoldable)\s+)*" + re.escape(n) + r" .*:", text) or re.search(r"(?m)^use Rattle\S*\.\{[^}]*(?<![\w-])" + re.escape(n) + r"(?![\w-])[^}]*\}", text) and n not in own_functions(text)}
    mine = {k: v for k, v in rows.items() if is_old(k) or k in here}
    out = []
    for line in text.split("\n"):
        code, dash, comment = line.partition("--") if re.match(r"^\s*--", line) or " -- " in line else (line, "", "")
        code = turned(code, mine, snakes)
        if dash:
            comment = re.sub(r"`[^`]*`", lambda m: turned(m[0], mine, snakes), comment)
            comment = re.sub(r"(?<![\w`'-])[A-Za-z][\w'-]*(?![\w-])", lambda m: mine[m[0]] if m[0] in mine and re.search(r"[A-Z]", m[0]) else m[0], comment)
        out.append(code + dash + comment)
    return "\n".join(out)


def own_functions(text):
    return set(re.findall(r"specs\.contracts\.(\w+)", text))


def rt(text, rows):
    mine = {k: v for k, v in rows.items() if is_old(k)}
    out, at = [], 0
    for m in re.finditer(r"ghost use [^;]*;", text):
        out.append((m.start(), m.end()))
    for m in re.finditer(r"(?:requires|ensures)\*?\s*(?:\w+\s*)?\{|ghost\s+\w+\s*:\s*\{|ghost\s*\{", text):
        depth, i = 1, m.end()
        while depth and i < len(text):
            depth += {"{": 1, "}": -1}.get(text[i], 0)
            i += 1
        out.append((m.start(), i))
    for m in re.finditer(r"(?m)//[^\n]*", text):
        out.append((m.start(), m.end()))
    out.sort()
    done, last = [], 0
    for a, b in out:
        if a < last:
            continue
        done.append(text[last:a])
        piece = text[a:b]
        if piece.startswith("//"):
            piece = re.sub(r"(?<![\w-])[A-Za-z][\w'-]*(?![\w-])", lambda m: mine.get(m[0], m[0]) if re.search(r"[A-Z]", m[0]) else m[0], piece)
        else:
            piece = turned(piece, mine, set())
        done.append(piece)
        last = b
    return "".join(done) + text[last:]


def pages(text, rows):
    mine = {k: v for k, v in rows.items() if is_old(k)}
    return re.sub(r"`[^`\n]*`", lambda m: m[0] if "/" in m[0] and " " in m[0] else turned(m[0], mine, set()), text)


# What an edit of a definition has of the older spelling, apart from names.
OLDER = [
    (r"Rattle·(\w+)·specs\.specs\.", r"Rattle.\1.specs."),
    (r"Rattle·(\w+)\.specs\.", r"Rattle.\1.specs."),
    (r"(?<![\w-])_([^\w\s]+)_(?![\w-])", r"◌\1◌"),
    (r"(?<![\w-])getD(?![\w-])", "get_or"),
    (r"\(([\w.]+) \.(\w+)\)", r"\1.\2"),
    (r"(?<=[\w)]) \.(\w+)", r".\1"),
]


# `result` is today's word for what a function returns. The definition of that name, of an answer with the stores that are left, is `result_of`.
def result(path, text):
    if path.endswith(".rt"):
        text = re.sub(r"(ghost use Rattle\.schema\.specs\.Store\.\{[^}]*?)(?<!\w)result(?!\w)", r"\1result_of", text)
        return re.sub(r"(λ r\. ⌜ )result r", r"\1result_of r", text)
    if path.endswith(".edit"):
        return re.sub(r"\(result \(refused", "(result_of (refused", text)
    if not (re.search(r"(?m)^use Rattle\.schema\.specs\.Store\.\{[^}]*(?<![\w.])result(?!\w)", text) or path.endswith("schema/specs/Store.antt")):
        return text
    to = re.sub(r"(?<![\w.\-'])result(?![\w\-'])", "result_of", text)
    return "\n".join(a if a.lstrip().startswith("--") else b for a, b in zip(text.split("\n"), to.split("\n")))


def edit(text, rows):
    mine, out, specs = {k: v for k, v in rows.items() if is_old(k)}, [], False
    for line in text.split("\n"):
        head, colon, rest = line.partition(": ")
        if head == "file":
            specs = rest.strip().startswith("specs/")
        elif head in ("old", "new") and specs:
            for old, new in OLDER:
                rest = re.sub(old, new, rest)
            line = head + colon + turned(rest, mine, set())
        out.append(line)
    return "\n".join(out)


def main():
    check = "--check" in sys.argv
    rows, local = table()
    new = set(rows.values())
    if check:
        for path in sources(".antt", ".rt"):
            text = read(path)
            words = set(WORD.findall("\n".join(l for l in text.split("\n") if not re.match(r"^\s*(--|//)", l))))
            mine = dict(rows)
            mine.update({n: snake(n) for n in local.get(path, ())})
            for o in sorted(words):
                if o in mine and mine[o] in words and mine[o] not in mine:
                    print(f"{path}: {o} -> {mine[o]} stands there already")
        print(len(rows), "names")
        return
    changed = 0
    for path in sources(".antt", ".rt"):
        text = read(path)
        if path.endswith(".rt"):
            to = result(path, rt(text, rows))
        else:
            mine = dict(rows)
            mine.update({n: snake(n) for n in local.get(path, ())})
            to = result(path, antt(text, mine))
        if to != text:
            changed += 1
            with open(path, "w", encoding="utf-8") as f:
                f.write(to)
    for path in sorted(glob.glob("*.md") + glob.glob("docs/**/*.md", recursive=True) + glob.glob("rust/**/*.md", recursive=True)):
        text = read(path)
        to = pages(text, rows)
        if to != text:
            changed += 1
            with open(path, "w", encoding="utf-8") as f:
                f.write(to)
    for path in sorted(glob.glob("crates/*/must-fail/*.edit")):
        text = read(path)
        to = result(path, edit(text, rows))
        if to != text:
            changed += 1
            with open(path, "w", encoding="utf-8") as f:
                f.write(to)
    print(len(rows), "names,", changed, "files")


main()
