#!/usr/bin/env python3
"""Brings the names of this repository's definitions and lemmas to today's spelling, after port.py: snake case in place of
camel case, and a dash only between two names (`length-wide`), an underscore otherwise (`bytes_inj`).

usage: tools/port-names.py        at the top of the repository, once, right after port.py

Renamed are the top-level names and record fields of specs/ and of the lemma files of proofs/, in every .antt file, in the
clauses of .rt files and in must-fail edits. Where the new spelling already stands in a file that uses the name, a lemma ends in
`_lem` and a definition in `_of`; if that stands there too, the name is left as it is, and printed. Functions of src/, generated
names and strings keep theirs.
"""
import glob
import re

NAME = r"[^\s(){}\[\].;,@\"«»:]+"
DECLARED = re.compile(rf"^(?:(?:abbrev|unfoldable|opaque|pub|data|record|ruleset|syntax) )*({NAME}) (?:[({{].*)?[:=]", re.M)
FIELD = re.compile(rf"^ +(?:pub )?({NAME}) :", re.M)
TOKEN = re.compile(NAME)
IMPORT = re.compile(r"^(?:ghost )?use ([^\s;{]+)\.\{([^}]*)\}", re.M)


def read(path):
    with open(path, encoding="utf-8") as file:
        return file.read()


def in_snake_case(name):
    return re.sub(r"(?<=[a-z0-9])[A-Z](?![A-Z])|(?<=[a-z0-9])[A-Z]$", lambda m: "_" + m[0].lower(), name)


def inner():
    """The same for the camel case names that stand inside a `module _ (..) where`, in comments too; a lemma that has the new
    spelling already gets `_lem`."""
    files = [f for part in ("specs/**/*.antt", "proofs/**/*.antt", "src/**/*.rt") for f in glob.glob("crates/*/" + part, recursive=True)]
    files += glob.glob("crates/*/must-fail/*.edit")
    texts = {f: read(f) for f in files}
    functions = {n for f, t in texts.items() if f.endswith(".rt") for n in re.findall(r"\bfn (\w+)", t)}
    mine = set()
    for f, text in texts.items():
        if f.endswith(".antt"):
            mine.update(n for n in re.findall(rf"^ *(?:(?:abbrev|unfoldable|pub) )*({NAME}) (?:[({{].*)?:", text, re.M) if re.search("[a-z0-9][A-Z]", n) and n[0].islower())
    for old in sorted(mine):
        new = in_snake_case(old)
        whole = lambda n: re.compile(rf"(?<![\w'-]){re.escape(n)}(?![\w'-])")
        if any(whole(old).search(t) and whole(new).search(t) for t in texts.values()):
            lemma = re.compile(rf"(?<![\w'.-]){re.escape(new)}(?![\w'.-])")
            texts = {f: lemma.sub(new + "_lem", t) if f.endswith(".antt") and new not in functions else t for f, t in texts.items()}
        texts = {f: whole(old).sub(new, t) for f, t in texts.items()}
    for f, text in texts.items():
        if text != read(f):
            with open(f, "w", encoding="utf-8") as file:
                file.write(text)


def main():
    specs = sorted(glob.glob("crates/*/specs/**/*.antt", recursive=True))
    proofs = sorted(glob.glob("crates/*/proofs/**/*.antt", recursive=True))
    sources = sorted(glob.glob("crates/*/src/**/*.rt", recursive=True))
    edits = sorted(glob.glob("crates/*/must-fail/*.edit"))
    lemmas = [f for f in proofs if not re.search(r"/(Proof|Answers|Invariants|Lib)\.antt$", f)]
    texts = {f: read(f) for f in specs + proofs + sources + edits}
    functions = {n for f in sources for n in re.findall(r"\bfn (\w+)", texts[f])}

    mine, words = {}, set(functions)
    for f in specs + lemmas:
        for n in DECLARED.findall(texts[f]):
            mine.setdefault(n, f)
            if f in specs:
                words.add(in_snake_case(n))
        for n in FIELD.findall(texts[f]):
            if re.search("[a-z0-9][A-Z]", n) and n[0].islower():
                mine.setdefault(n, f)
    for f in specs + proofs:
        for path, names in IMPORT.findall(texts[f]):
            if not re.match(r"Rattle\.(?!std\b)", path):
                words.update(x.strip() for x in names.split(","))

    def respelled(name):
        if name.replace("-", "_") in functions:
            return name.replace("-", "_")
        parts = name.replace("getD-", "get_or-").split("-")
        if name[0].islower():
            parts = [in_snake_case(p) if p[0].islower() else p for p in parts if p] if all(parts) else parts
        if len(parts) < 2 or not all(parts):
            return "-".join(parts)
        out = parts[0]
        for left, right in zip(parts, parts[1:]):
            out += ("-" if left in words and right in words and re.search(r"[a-zA-Z]", right) else "_") + right
        return out

    def bare(text, is_rust):
        """The names that stand alone in a text: no part of a path, and in Rust a parameter, a field or a local."""
        if is_rust:
            return set(re.findall(r"(?<![\w.:])(\w+)(?=:[^:])", text)) | set(re.findall(r"\blet (?:mut )?(\w+)", text))
        text = re.sub(r"^ *(?:pub )?(?:mod|use) [^\n{]*", "", re.sub(r"--[^\n]*", "", text), flags=re.M)
        return {m[0] for m in TOKEN.finditer(text) if text[m.start() - 1 : m.start()] != "." and text[m.end() : m.end() + 1] != "."}

    turn = {n: respelled(n) for n in mine if respelled(n) != n and n not in functions}
    used = {f: set(TOKEN.findall(t)) for f, t in texts.items()}
    alone = {f: bare(t, f.endswith(".rt")) for f, t in texts.items() if not f.endswith(".edit")}
    left = {}

    def meets(old, new):
        return sorted(f for f, s in alone.items() if new in s and (old in used[f] or mine[old] == f))

    # Definitions first: a lemma that would have its definition's name gets `_lem`.
    taken = {}
    for old in sorted(turn, key=lambda o: (mine[o] not in specs, o)):
        for new in (turn[old], turn[old] + ("_of" if mine[old] in specs else "_lem")):
            others = taken.setdefault(new, [])
            if not meets(old, new) and not any(o in s and old in s or mine[o] == mine[old] for o in others for s in used.values()):
                turn[old] = new
                others.append(old)
                break
        else:
            left[old] = f"{turn[old]} stands in {(meets(old, turn[old]) or ['another'])[0]}"
    for old in left:
        turn.pop(old)

    for f, text in texts.items():
        def one(m):
            n = m[0]
            if n not in turn:
                return n
            before = text[: m.start()]
            if before.endswith(".") and re.search(r"(?:^|[^\w.])(?:c|w|l|st|s|d)(?:\.[\w-]+)*\.$", before[-200:]) and not turn[n] in words:
                return n
            return turn[n]

        if f.endswith(".rt"):
            # only clauses and ghost lines carry names of specs/: none of the names turned is a Rust identifier in use
            rust = set(re.findall(r"\b(?:fn|let|let mut|struct|enum|const|mod|type) (\w+)", text))
            new = TOKEN.sub(lambda m: m[0] if m[0] in rust else one(m), text)
        else:
            new = TOKEN.sub(one, text)
        if new != text:
            with open(f, "w", encoding="utf-8") as file:
                file.write(new)
    inner()
    for old in sorted(turn):
        print(f"{old}\t{turn[old]}")
    for old in sorted(left):
        print(f"left: {old}: {left[old]}")


main()
