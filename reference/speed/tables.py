"""The instruction counts as tables in Markdown."""

COMPILERS = ("gcc", "clang", "kit")
LENGTHS = (0, 1, 15, 64, 1024, 65536)
PARTS = (8, 64, 100, 1024, 65536)


class Case:
    def __init__(self, unit, by):
        self.unit, self.by, self.ran = unit, by, {}

    def least(self, name):
        """The least count of one compiler's variants; None if it has none."""
        return min((n for who, n in self.ran.items() if who.split("-")[0] == name), default=None)

    def best(self):
        return min((n for n in map(self.least, COMPILERS) if n is not None), default=None)

    def ratio(self):
        return self.best() / self.ran["ours"] if self.best() else None

    def a_unit(self):
        return self.ran["ours"] / max(self.by, 1)


def table(head, rows):
    lines = ["| " + " | ".join(cells) + " |" for cells in [head, ["---"] * len(head), *rows]]
    return "\n".join(lines)


# ---- every case


def show(n, by):
    if n is None:
        return ""
    return f"{n:,}" if by <= 1 else f"{n:,} ({n / by:.2f})"


def full(cases):
    rows = []
    for name, case in cases.items():
        shown = [show(n, case.by) for n in (case.ran["ours"], *map(case.least, COMPILERS))]
        rows.append([name, case.unit, *shown, f"{case.ratio():.2f}" if case.best() else ""])
    return table(["case", "per", "ours", "gcc", "clang", "kit's clang", "best C / ours"], rows)


# ---- the tables of docs/SPEED.md


def ratios(cases):
    """Instructions of sealing or opening, by suite and length."""
    rows = []
    for suite in range(1, 7):
        cells = []
        for n in LENGTHS:
            found = [cases.get(f"{way} {suite} ad 0 msg {n}") for way in ("seal", "open")]
            cells.append(", ".join(f"{case.ratio():.2f}" if case else "-" for case in found))
        rows.append([str(suite), *cells])
    return table(["suite", *(f"{n:,}" for n in LENGTHS)], rows)


def a_byte(cases):
    """Instructions per byte at 64 KiB, of an empty message, and the cost of a byte at 64 KiB divided by that at 1 KiB."""
    rows = []
    for suite in range(1, 7):
        way = "open" if suite == 4 else "seal"
        at = {n: cases[f"{way} {suite} ad 0 msg {n}"] for n in (0, 1024, 65536)}
        each = [f"{n / 65536:.2f}" for n in (at[65536].ran["ours"], *map(at[65536].least, COMPILERS))]
        none = [f"{at[0].ran['ours']:,}", f"{at[0].best():,}"]
        rows.append([f"{suite}, {way}", *each, *none, f"{at[65536].a_unit() / at[1024].a_unit():.2f}"])
    head = ["suite", "ours", "gcc", "clang", "kit's clang", "0 bytes, ours", "0 bytes, best C", "64 KiB / 1 KiB"]
    return table(head, rows)


def sessions(cases):
    rows = []
    for suite in (1, 2, 3, 5, 6):
        call = cases[f"seal {suite} ad 16 msg 65536"].ran["ours"]
        rows.append([str(suite), *(f"{call / cases[f'session {suite} parts of {n}'].ran['ours']:.2f}" for n in PARTS)])
    return table(["suite", *(f"{n:,}" for n in PARTS)], rows)


ROUTINES = (
    "check 512 rows random nonces", "check 512 rows made to collide", "check 15 rows 1 MiB", "check 1 rows",
    "lookup job 5120 of 512 rows", "search job 5120 of 512 rows", "open_job 512 rows 1 MiB suite 3",
    "amended 8 rows, day 512 rows", "open_amended from the day 512 rows", "open_amended from the amendment 8 rows",
    "compare equal 512 rows of 2000", "compare 512 rows of 2000, all differ early",
    "compare 512 rows of 2000, no job in both", "report 512 rows 65,280 bytes", "seal_file 512 rows of 2000",
    "unseal_file 512 rows of 2000", "reseal 512 rows of 2000, all suite 4", "reseal 512 rows of 2000, none suite 4",
    "to_edition2 512 rows of 1960", "to_edition1 512 rows of 1960", "reader over 512 rows",
)


def routines(cases):
    rows = []
    for name in ROUTINES:
        case = cases[name]
        beside = [f"{case.best():,}", f"{case.ratio():.2f}"] if case.best() else ["", ""]
        rows.append([name, f"{case.ran['ours']:,}", *beside])
    return table(["routine", "ours", "best C", "best C / ours"], rows)


def by_rows(cases):
    """Instructions per row."""
    kinds = {"check, random nonces": "check {} rows random nonces", "check, counters": "check {} rows counter nonces",
             "reader, to its end": "reader over {} rows", "compare, equal": "compare equal {} rows small",
             "seal_file, no text": "seal_file {} rows small"}
    many = (64, 128, 256, 512)
    rows = [[kind, *(f"{cases[name.format(n)].ran['ours'] / n:,.1f}" for n in many)] for kind, name in kinds.items()]
    return table(["rows", *map(str, many)], rows)


def by_bytes(cases):
    """Instructions per byte of a file of 512 rows."""
    kinds = {"seal_file": "seal_file 512 rows of {}", "unseal_file": "unseal_file 512 rows of {}",
             "reseal, all suite 4": "reseal 512 rows of {}, all suite 4",
             "reseal, none suite 4": "reseal 512 rows of {}, none suite 4",
             "compare, equal": "compare equal 512 rows of {}"}
    each = (250, 500, 1000, 2000)
    rows = [[kind, *(f"{cases[name.format(n)].a_unit():.2f}" for n in each)] for kind, name in kinds.items()]
    return table(["bytes a row", *map(str, each)], rows)


def paper(cases):
    parts = {
        "Instructions, best C / ours, sealing and opening, by the message's bytes": ratios(cases),
        "Instructions a byte at 64 KiB, and of a message of no bytes": a_byte(cases),
        "One call / a session of 64 KiB, by the bytes of its parts": sessions(cases),
        "Routines of the shift file": routines(cases),
        "Instructions a row": by_rows(cases),
        "Instructions a byte of a file of 512 rows": by_bytes(cases),
    }
    return "\n\n".join(f"{title}:\n\n{text}" for title, text in parts.items())
