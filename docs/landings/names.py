#!/usr/bin/env python3
"""docs/landings/names.py crates | code | marks: the renaming of the tables below, run from the root of the repository.

`crates` renames the crates and every reference to them, one module that would have the name of a crate that it calls, and
puts the one module of `block` into its lib.rt. `code` renames identifiers and modules; it runs after `crates`. `marks` gives
the marks of document 01 names, in a module of `block_step`, and uses them in code; it runs after `code`.
`edits` looks whether every must-fail edit fits its file, `statements` lists what promises/specs states; they change nothing.
Each stage ends with `rt fmt`, which sorts the imports by the new names, and refuses to run twice. It goes by patterns, so that it can be run on any branch that has the old names; it changes
no text that the patterns below do not name, and prints what it leaves to be looked at by hand.
"""
import os
import pathlib
import re
import subprocess
import sys

# ---- the tables

CRATES = {
    "words": "block",
    "arx": "word",
    "runs": "byte_runs",
    "fips197": "aes_spec",
    "aes": "aes_plain",
    "columns": "aes_tables",
    "cham": "cham_spec",
    "numbers": "status",
    "keys": "block_key",
    "step": "block_step",
    "walk": "block_walk",
    "format": "shift_format",
    "table": "shift_check",
    "shift": "shift_jobs",
    "search": "shift_search",
    "draft": "shift_draft",
    "writer": "shift_writer",
    "reseal": "shift_reseal",
    "editions": "shift_editions",
    "amend": "shift_amend",
    "compare": "shift_compare",
    "reader": "shift_reader",
    "lines": "program_text",
    "args": "program_files",
    "printed": "program_reports",
}

# In backquotes these name something else too (a definition of `mode`, a program of reference/, a field): as a crate only
# after the word crate, in a path, or in a paper that speaks of crates.
AMBIGUOUS = {"keys", "step", "cham", "compare", "search", "reseal", "reader", "draft", "writer"}
SPEAKS_OF_CRATES = {"docs/DECISIONS.md", "docs/mistakes.md"}
PROGRAMS = {"compare"}

# Crate (new name), module, its new name.
STEP_MODULE = ("block_step", "block", "one_block")

# Proof files of `block` whose names would differ from a function's only in case.
BLOCK_PROOFS = {"Same": "SameBytes", "Xor": "XorLaws"}

# The second stage. Crate, module, its new name.
MODULES = [
    ("snoekeldraf", "halving", "search"),
    ("snoekeldraf", "listing", "compare"),
    ("snoekeldraf", "renewal", "reseal"),
    ("snoekeldraf", "parts", "sessions"),
    ("snoekeldraf", "moves", "editions"),
    ("snoekeldraf", "drafts", "writer"),
    ("test_shift", "halving", "search"),
]

# Functions: crate, old, new. In proofs their names have - for _.
FUNCTIONS = [
    ("cipher", "lends", "needs_tables"),
    ("comet", "seal_with", "seal_core"),
    ("comet", "seal_lent", "seal_with_tables"),
    ("comet", "seal_taken", "seal_checked"),
    ("comet", "unseal_with", "unseal_core"),
    ("comet", "unseal_lent", "unseal_with_tables"),
    ("comet", "unseal_taken", "unseal_checked"),
    ("comet", "verify_with", "verify_core"),
    ("comet", "crypt_with", "crypt_core"),
    ("comet", "tag_with", "tag_core"),
]

# Types: the crates whose code has the name, the declaring one first; the declaration's path as proofs cite it; old, new.
TYPES = [
    (("cipher", "comet", "session", "block_step", "block_walk"), None, "Lent", "AesTables"),
    (("block_walk", "comet", "session"), "Behind", "Behind", "Progress"),
    (("session",), "blocks.Fed", "Fed", "Absorbed"),
    (("session",), "blocks.Made", "Made", "Sealed"),
    (("block_step", "comet", "session"), "tag.Last", "Last", "TagAndCalls"),
    (("shift_reader", "shift_report", "snoekeldraf", "test_shift"), "answers.Said", "Said", "ReportSummary"),
    (("shift_reader", "program_reports", "snoekeldraf", "test_shift", "yard"), "cursor.Given", "Given", "NextRow"),
]

# Definitions (antt): old, new.
DEFINITIONS = {"Ready": "TablesFit", "isLent": "hasTables", "lentBy": "tablesBy", "same-lent": "same-tables"}

# Crates whose functions are given the tables of AES as the parameter `lent`.
GIVEN_TABLES = {"cipher", "comet", "session", "block_step", "block_walk"}

# The marks of document 01, in code; contracts say the numbers.
MARKS = {
    "0x08": ("MARK_FIRST_DATA", "The first block of associated data."),
    "0x10": ("MARK_SHORT_DATA", "A last block of associated data that is short."),
    "0x20": ("MARK_FIRST_TEXT", "The first block of the message."),
    "0x40": ("MARK_SHORT_TEXT", "A last block of the message that is short."),
    "0x80": ("MARK_TAG", "The tag's call."),
}
MARKED = {"block_step", "comet", "session"}

# ---- files

ROOT = pathlib.Path(".")
SKIP = {".git", "target", "node_modules"}
SOURCE = (".rt", ".antt", ".edit", ".rt.in", ".antt.in")
LEFT_AS_WRITTEN = "docs/landings/"


def stop(sentence):
    print(f"names: {sentence}", file=sys.stderr)
    sys.exit(1)


def files():
    """The repository's text files, by their paths from its root."""
    found = []
    for folder, folders, names in os.walk(ROOT):
        folders[:] = sorted(f for f in folders if f not in SKIP)
        found += [pathlib.Path(folder) / n for n in sorted(names)]
    return [p for p in found if not p.as_posix().startswith(LEFT_AS_WRITTEN)]


def read(path):
    """A file's text, or None where it is no text."""
    data = path.read_bytes()
    if b"\0" in data:
        return None
    try:
        return data.decode("utf-8")
    except UnicodeDecodeError:
        return None


def is_source(path):
    return path.name.endswith(SOURCE)


def crate_of(path):
    parts = path.parts
    if len(parts) > 2 and parts[0] == "crates":
        return parts[1]
    return "yard" if "yard" in parts else ""


def move(old, new):
    if new.exists():
        stop(f"{old} cannot be moved: {new} is there")
    new.parent.mkdir(parents=True, exist_ok=True)
    old.rename(new)


def rewrite(change):
    """Gives every file the text that change(path, text) returns."""
    changed = 0
    for path in files():
        text = read(path)
        if text is None:
            continue
        new = change(path, text)
        if new != text:
            path.write_bytes(new.encode("utf-8"))
            changed += 1
    return changed


# ---- the first stage: crates

OLD = "|".join(sorted(CRATES, key=len, reverse=True))
IMPORT = re.compile(rf"Rattle·({OLD})(?=[.·\s])")
WALKED = re.compile(rf"((?<![\w-])calls-|#)({OLD})(?=·)")  # names of functions in a walk by hand, _ as -
PATH = re.compile(rf"(?<![\w:./·-])({OLD})(?=::)")
FOLDER = re.compile(rf"(?<![\w/·-])(crates/)?({OLD})(?=/(?:src|specs|proofs|must-fail)\b)")
UNDER_CRATES = re.compile(rf"\bcrates/({OLD})\b(?!-)")
QUOTED = re.compile(rf"`({OLD})`")
SAID = re.compile(rf"(\bcrates? `|\bfunctions? of `)({OLD})(?=`)")
IN_BRACKETS = re.compile(rf"\(crate ({OLD})\)")
NAMED_LIST = re.compile(r'"([a-z0-9_]+(?: [a-z0-9_]+)+)"')
RUST_STRING = re.compile(rf'"({OLD})((?:::\w+)+)"')
BRANCHES = re.compile(rf'(\bdecisions\(")({OLD})(?=")')


def new_name(match):
    return CRATES[match.group(1)]


def own_modules(crate):
    """The modules that a crate declares: their names are no crate's there."""
    text = "".join(read(p) or "" for p in sorted((ROOT / "crates" / crate).glob("src/**/*.rt")))
    return set(re.findall(r"^\s*(?:pub(?:\(crate\))? )?mod (\w+);", text, re.M))


def in_paths(text, shadowed=frozenset()):
    return PATH.sub(lambda m: m.group(1) if m.group(1) in shadowed else new_name(m), text)


def in_folders(text):
    text = FOLDER.sub(lambda m: (m.group(1) or "") + CRATES[m.group(2)], text)
    return UNDER_CRATES.sub(lambda m: "crates/" + new_name(m), text)


def in_prose(path, text):
    """Crates in backquotes, where they can be nothing else."""
    text = SAID.sub(lambda m: m.group(1) + CRATES[m.group(2)], text)
    text = IN_BRACKETS.sub(lambda m: f"(crate {new_name(m)})", text)
    plain = path.as_posix() in SPEAKS_OF_CRATES
    if path.suffix == ".md" and path.parts[0] in ("docs", "README.md"):
        free = PROGRAMS if plain else AMBIGUOUS
        text = QUOTED.sub(lambda m: m.group(0) if m.group(1) in free else f"`{new_name(m)}`", text)
    return text


def layout_line(line):
    """A line of the README's picture of the repository: crates/a, b; c     what they are."""
    found = re.match(r"(\s+crates/)(.*?)(\s{2,}.*)$", line)
    if not found:
        return line
    names = re.sub(r"\w+", lambda m: CRATES.get(m.group(0), m.group(0)), found.group(2))
    return found.group(1) + names + found.group(3)


def crates_txt(text):
    lines = []
    for line in text.split("\n"):
        if not line.startswith("#"):
            line = re.sub(r"\w+", lambda m: CRATES.get(m.group(0), m.group(0)), line)
        lines.append(line)
    return "\n".join(lines)


def all_crates():
    text = (ROOT / "crates.txt").read_text(encoding="utf-8")
    return set(re.findall(r"^(\w+):", text, re.M)) | {"io", "libc", "os"}


def crate_change(known, shadowed):
    def change(path, text):
        name = path.as_posix()
        if name == "crates.txt":
            return crates_txt(text)
        text = IMPORT.sub(lambda m: "Rattle·" + new_name(m), text)
        text = WALKED.sub(lambda m: m.group(1) + CRATES[m.group(2)].replace("_", "-"), text)
        if name == "README.md":
            text = "\n".join(layout_line(line) for line in text.split("\n"))
        text = in_folders(text)
        if is_source(path):
            text = in_paths(text, shadowed.get(crate_of(path), frozenset()))
            return in_prose(path, text)
        if path.suffix == ".md":
            if path.parts[0] in ("docs", "README.md"):
                text = in_paths(text)
            return in_prose(path, text)
        if path.suffix == ".rs":
            text = BRANCHES.sub(lambda m: m.group(1) + CRATES[m.group(2)], text)
            return RUST_STRING.sub(lambda m: f'"{new_name(m)}{m.group(2)}"', text)
        return NAMED_LIST.sub(lambda m: list_of(m, known), text)

    return change


def list_of(match, known):
    words = match.group(1).split(" ")
    if not all(w in known for w in words):
        return match.group(0)
    return '"' + " ".join(CRATES.get(w, w) for w in words) + '"'


def rename_crates():
    if (ROOT / "crates/block").exists() or not (ROOT / "crates/words").exists():
        stop("the crates are renamed already (there is no crates/words): nothing is changed")
    known = all_crates()
    shadowed = {c: own_modules(c) & set(CRATES) for c in sorted(os.listdir("crates"))}
    changed = rewrite(crate_change(known, shadowed))
    for old, new in CRATES.items():
        if (ROOT / "crates" / old).exists():
            move(ROOT / "crates" / old, ROOT / "crates" / new)
    rename_module(*STEP_MODULE)
    docs_of_step()
    lift_block()
    print(f"names: {len(CRATES)} crates renamed, {changed} files changed")


def docs_of_step():
    """Papers say `block::crypt_short` of the step's module."""
    steps = r"(?:absorb_full|absorb_short|crypt_short|open_full|seal_full|verify_full)"

    def change(path, text):
        if path.suffix != ".md":
            return text
        return re.sub(rf"`block::(?={steps})", "`one_block::", text)

    rewrite(change)


def lift_block():
    """The crate `block` has one module, `block`: it becomes the crate's lib.rt."""
    crate = ROOT / "crates/block"
    lib, module = crate / "src/lib.rt", crate / "src/block.rt"
    rest = [l for l in lib.read_text(encoding="utf-8").split("\n") if l and not l.startswith("//")]
    if rest != ["pub mod block;"]:
        stop(f"{lib} has more than `pub mod block;`: {rest}")
    lib.unlink()
    move(module, lib)
    for folder in sorted((crate / "proofs/block").iterdir()):
        move(folder, crate / "proofs" / folder.name)
    (crate / "proofs/block").rmdir()
    for old, new in BLOCK_PROOFS.items():
        move(crate / f"proofs/{old}.antt", crate / f"proofs/{new}.antt")

    def change(path, text):
        text = re.sub(r"\bblock::block::", "block::", text)
        text = text.replace("`block::block`", "`block`")
        text = re.sub(r"(Rattle·block(?:·proofs)?\.proofs\.)block\.", r"\1", text)
        text = re.sub(r"(Rattle·block(?:·specs|·proofs)?\.specs\.declared\.)block\.", r"\1", text)
        for old, new in BLOCK_PROOFS.items():
            text = re.sub(rf"(Rattle·block(?:·proofs)?\.proofs\.){old}(?=\.|\s)", rf"\g<1>{new}", text)
            text = re.sub(rf"\bblock/proofs/{old}\.antt", f"block/proofs/{new}.antt", text)
        if crate_of(path) == "block":
            text = re.sub(r"^file: src/block\.rt$", "file: src/lib.rt", text, flags=re.M)
            text = text.replace("crate::block::", "crate::")
            for old, new in BLOCK_PROOFS.items():
                text = re.sub(rf"^file: proofs/{old}\.antt$", f"file: proofs/{new}.antt", text, flags=re.M)
                if path.name == "Lib.antt":
                    text = re.sub(rf"^pub mod {old}$", f"pub mod {new}", text, flags=re.M)
        return text

    rewrite(change)


# ---- modules


def rename_module(crate, old, new):
    """A module of a crate, with its file, its proofs' folder, and every path to it."""
    root = ROOT / "crates" / crate
    if not (root / f"src/{old}.rt").exists():
        print(f"names: {crate} has no module {old}")
        return
    if (root / f"src/{new}.rt").exists() or new in own_modules(crate):
        stop(f"{crate} has a module {new} already")
    move(root / f"src/{old}.rt", root / f"src/{new}.rt")
    if (root / f"proofs/{old}").exists():
        move(root / f"proofs/{old}", root / f"proofs/{new}")

    def change(path, text):
        text = re.sub(rf"(Rattle·{crate}(?:·proofs)?\.proofs\.){old}(?=\.)", rf"\g<1>{new}", text)
        text = re.sub(rf"(Rattle·{crate}(?:·specs|·proofs)?\.specs\.declared\.){old}(?=\.)", rf"\g<1>{new}", text)
        text = re.sub(rf"(?<![\w:]){crate}::{old}(?=::|`)", f"{crate}::{new}", text)
        text = re.sub(rf"\b{crate}/(src|proofs)/{old}\b", rf"{crate}/\1/{new}", text)
        if crate_of(path) == crate:
            text = re.sub(rf"^(\s*(?:pub(?:\(crate\))? )?mod ){old};", rf"\1{new};", text, flags=re.M)
            text = re.sub(rf"\bcrate::{old}(?=::)", f"crate::{new}", text)
            text = re.sub(rf"^file: src/{old}\.rt$", f"file: src/{new}.rt", text, flags=re.M)
            text = re.sub(rf"^file: proofs/{old}/", f"file: proofs/{new}/", text, flags=re.M)
            if path.suffix in (".rt", ".edit") and path.name in ("lib.rt", "main.rt"):
                text = re.sub(rf"(?<![\w:]){old}(?=::)", new, text)
        return text

    rewrite(change)


def sort_modules(crate):
    """`mod` lines that stand one below the other, in the order of their names, as rt fmt leaves them and a reader expects."""
    for name in ("src/lib.rt", "src/main.rt"):
        path = ROOT / "crates" / crate / name
        if not path.exists():
            continue
        lines = path.read_text(encoding="utf-8").split("\n")
        at = [i for i, l in enumerate(lines) if re.match(r"(pub(\(crate\))? )?mod \w+;$", l)]
        if at and at == list(range(at[0], at[-1] + 1)):
            lines[at[0] : at[-1] + 1] = sorted(lines[at[0] : at[-1] + 1], key=lambda l: l.split("mod ")[1])
            path.write_text("\n".join(lines), encoding="utf-8")


# ---- the second stage: identifiers

NAME = r"[\w′'-]"


def whole(name):
    """An identifier as a whole: in proofs - is a letter of a name."""
    return re.compile(rf"(?<!{NAME}){re.escape(name)}(?!{NAME})")


def parts(path, text):
    """(is code, piece) of a source: comments are the rest."""
    name = path.name.removesuffix(".in")
    for line in text.splitlines(keepends=True):
        if name.endswith(".edit"):
            yield not line.startswith("#"), line
            continue
        mark = re.search(r"//", line) if name.endswith(".rt") else re.search(r"(^|\s)--(?=\s|$)", line)
        if mark:
            yield True, line[: mark.start()]
            yield False, line[mark.start() :]
        else:
            yield True, line


def renamed(path, text, old, new, code=True):
    """The identifier in code; in comments only between backquotes."""
    pattern, out = whole(old), []
    for is_code, piece in parts(path, text):
        if is_code and code:
            piece = pattern.sub(new, piece)
        elif not is_code:
            piece = re.sub(r"`[^`]*`", lambda m: pattern.sub(new, m.group(0)), piece)
        out.append(piece)
    return "".join(out)


def function_change(crate, old, new):
    """In code by its name; in proofs by the folder's name, the path's field and the names that the check derives from it."""
    dash, new_dash = old.replace("_", "-"), new.replace("_", "-")
    derived = re.compile(rf"(?<!{NAME})((?:[\w]+-)*){dash}((?:-\w+)*|\d+)(?!{NAME})")
    users = GIVEN_TABLES if crate == "cipher" else {crate}

    def dashed(m):
        """`.lends`, `Need-lends-requires`; the word alone is something else."""
        if m.group(1) or m.group(2) or m.string[: m.start()].endswith("."):
            return m.group(1) + new_dash + m.group(2)
        return m.group(0)

    def change(path, text):
        text = re.sub(rf"(?<![\w:]){crate}::{old}(?!\w)", f"{crate}::{new}", text)
        text = re.sub(rf"\b{crate}/proofs/{old}(?=/)", f"{crate}/proofs/{new}", text)
        if path.suffix == ".md":
            return text.replace(f"`{old}`", f"`{new}`") if "_" in old else text
        if not is_source(path):
            return text
        text = re.sub(rf"(Rattle·{crate}(?:·proofs)?\.proofs\.){old}(?=\.)", rf"\g<1>{new}", text)
        if crate_of(path) == crate:
            text = re.sub(rf"^file: proofs/{old}/", f"file: proofs/{new}/", text, flags=re.M)
            text = re.sub(rf"(?<![\w.:]){old}(?=\(|`)", new, text)
        if crate_of(path) in users:
            text = derived.sub(dashed, text)
        return text

    return change


def rename_functions():
    for crate, old, new in FUNCTIONS:
        folder = ROOT / "crates" / crate / "proofs"
        if (folder / new).exists():
            stop(f"{folder / new} is there already")
        if (folder / old).exists():
            move(folder / old, folder / new)
        rewrite(function_change(crate, old, new))


def needs_tables(path, text):
    """What is left of `lends` is the definition, and in Outcomes.antt the function's theorem."""
    if path.suffix == ".md":
        return re.sub(r"`lends`", "`needsTables`", text)
    if not is_source(path) or crate_of(path) not in GIVEN_TABLES | {"promises"}:
        return text
    return renamed(path, text, "lends", "needs-tables" if path.name == "Outcomes.antt" else "needsTables")


def definitions(path, text):
    if path.suffix == ".md":
        return re.sub(r"`(\w+)`", lambda m: f"`{DEFINITIONS.get(m.group(1), m.group(1))}`", text)
    if not is_source(path):
        return text
    if crate_of(path) not in GIVEN_TABLES | {"promises"}:
        return text
    for old, new in DEFINITIONS.items():
        text = renamed(path, text, old, new)
    return text


def types(path, text):
    """In code by the crate; in proofs the paths to it, and the name itself where it is imported from its declaration."""
    if not is_source(path):
        return text
    code = path.name.endswith((".rt", ".rt.in")) or (path.suffix == ".edit" and "file: src/" in text)
    for crates, declared, old, new in TYPES:
        imported = False
        if declared:
            place, crate = declared.removesuffix(old), rf"Rattle·{crates[0]}(?:·specs|·proofs)?"
            imported = re.search(rf"{crate}\.specs\.declared\.{re.escape(declared)}\.\{{[^}}]*\b{old}\b", text)
            to = rf"({crate}\.(?:specs\.declared|proofs)\.{re.escape(place)}){old}(?=[.\s]|$)"
            text = re.sub(to, rf"\g<1>{new}", text, flags=re.M)
        if imported or (crate_of(path) in crates and (code or old == "Behind")):
            text = renamed(path, text, old, new)
    return text


def given_tables(path, text):
    """The parameter `lent`; in proofs where it is bound with a loop's variables."""
    if not is_source(path) or crate_of(path) not in GIVEN_TABLES:
        return text
    if path.suffix == ".antt":
        text = re.sub(r"(?<=\.args \.)lent\b", "tables", text)
        return re.sub(r"^((?:Inv|μ)-[\w-]+ .*?)(?<![\w-])lent(?![\w-])", r"\1tables", text, flags=re.M)
    if path.suffix == ".edit" and "file: src/" not in text:
        return text
    return renamed(path, text, "lent", "tables")


def rename_code():
    if not (ROOT / "crates/block").exists():
        stop("run `names.py crates` first")
    if "AesTables" in (ROOT / "crates/cipher/src/lib.rt").read_text(encoding="utf-8"):
        stop("the identifiers are renamed already (cipher has AesTables): nothing is changed")
    for module in MODULES:
        rename_module(*module)
    for crate in sorted({m[0] for m in MODULES}):
        sort_modules(crate)
    rename_functions()
    old, new = ROOT / "crates/block_walk/specs/Behind.antt", ROOT / "crates/block_walk/specs/Progress.antt"
    if old.exists():
        move(old, new)
    for change in (needs_tables, definitions, types, given_tables):
        rewrite(change)
    rewrite(lambda p, t: t.replace("block_walk/specs/Behind.antt", "block_walk/specs/Progress.antt"))
    print("names: identifiers renamed")


# ---- the third stage: marks


def outside_contracts(text, change):
    """Changes what stands outside ⌜ and ⌝."""
    return "".join(p if p.startswith("⌜") else change(p) for p in re.split(r"(⌜[^⌝]*⌝)", text))


def mark_change(path, text):
    if crate_of(path) not in MARKED or not is_source(path) or path.suffix == ".antt":
        return text
    if path.suffix == ".edit" and "file: src/" not in text:
        return text
    used = set()

    def named(piece):
        def name(m):
            used.add(MARKS[m.group(0)][0])
            return MARKS[m.group(0)][0]

        return re.sub(r"(?<![\w_])0x(?:08|10|20|40|80)(?![\w_])", name, piece)

    if path.suffix == ".edit":
        return "".join(l if l.startswith("#") else named(l) for l in text.splitlines(keepends=True))
    new = outside_contracts(text, lambda piece: "".join(named(p) if is_code else p for is_code, p in parts(path, piece)))
    where = "crate" if crate_of(path) == "block_step" else "block_step"
    uses = "".join(f"use {where}::marks::{name};\n" for name in sorted(used))
    return re.sub(r"^use ", uses + "use ", new, count=1, flags=re.M) if used else text


def name_marks():
    module = ROOT / "crates/block_step/src/marks.rt"
    if module.exists():
        stop("the marks have names already: nothing is changed")
    rewrite(mark_change)
    lines = ["// The marks of document 01: the bits that are put into byte 15 of Z before a cipher call."]
    for number, (name, what) in MARKS.items():
        lines += ["", f"// {what}", f"pub const {name}: u8 = {number};"]
    module.write_text("\n".join(lines) + "\n", encoding="utf-8")
    lib = ROOT / "crates/block_step/src/lib.rt"
    lib.write_text(re.sub(r"^(pub )?mod ", r"pub mod marks;\n\g<0>", lib.read_text(encoding="utf-8"), count=1, flags=re.M), encoding="utf-8")
    sort_modules("block_step")
    split_edit()
    print("names: marks named")


def split_edit():
    """`rt fmt` gives each argument of this call a line: the edit changes the state's."""
    edit = ROOT / "crates/comet/must-fail/last_block_by_first_state.edit"
    if edit.exists():
        text = edit.read_text(encoding="utf-8")
        call = "return crypt_short(tables, opening, suite, {}, m ^ MARK_SHORT_TEXT, &mut text[i..end]);"
        text = text.replace("old: " + call.format("t"), "old:             t,")
        edit.write_text(text.replace("new: " + call.format("s"), "new:             s,"), encoding="utf-8")


# ---- what is left


def case_clashes():
    for folder, folders, names in os.walk(ROOT / "crates"):
        seen = {}
        for n in folders + [re.sub(r"\.(rt|antt)$", "", x) for x in names if x.endswith((".rt", ".antt"))]:
            if n.lower() in seen and seen[n.lower()] != n:
                print(f"names: {folder}: {n} and {seen[n.lower()]} differ only in case")
            seen[n.lower()] = n


def edits():
    """Every must-fail edit's old line stands exactly once in its file, after the changes before it."""
    for edit in sorted((ROOT / "crates").glob("*/must-fail/*.edit")):
        text, before = "", None
        for line in edit.read_text(encoding="utf-8").split("\n"):
            key, _, rest = line.partition(": ")
            if key == "file":
                path = edit.parent.parent / rest
                text = read(path) if path.exists() else ""
            elif key == "old":
                before = rest
                if text.count(rest) != 1:
                    print(f"names: {edit}: `{rest}` stands {text.count(rest)} times")
            elif line.startswith("new:") and before is not None:
                text, before = text.replace(before, rest, 1), None


def statements():
    """Every definition and every field of a record in promises/specs, a line for each file."""
    for path in sorted((ROOT / "crates/promises/specs").glob("*.antt")):
        names, record = [], ""
        for line in path.read_text(encoding="utf-8").split("\n"):
            top = re.match(r"(?:abbrev |unfoldable )?pub (?:record |data )?([^\s:(]+)", line)
            field = re.match(r"  pub ([^\s:]+) :", line)
            if top and not line.startswith("pub mod"):
                record = top.group(1)
                names.append(record)
            elif field:
                names.append(f"{record}.{field.group(1)}")
        if names:
            print(f"{path.stem} ({len(names)}): {', '.join(names)}")


def main():
    if not (ROOT / "crates.txt").exists() or sys.argv[1:] not in (["crates"], ["code"], ["marks"], ["edits"], ["statements"]):
        stop("run from the root of the repository: docs/landings/names.py crates | code | marks | edits | statements")
    if sys.argv[1] == "statements":
        statements()
        return
    if sys.argv[1] == "crates":
        rename_crates()
    if sys.argv[1] == "code":
        rename_code()
    if sys.argv[1] == "marks":
        name_marks()
    if sys.argv[1] != "edits" and subprocess.run(["rt", "fmt"]).returncode != 0:
        stop("`rt fmt` failed: run it by hand")
    case_clashes()
    edits()


if __name__ == "__main__":
    main()
