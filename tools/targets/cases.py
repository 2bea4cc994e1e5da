"""The gate's test data for the test driver: its input, and the expected lines.

reference/README.md has the format. The expectation leaves out lines that no C function produces: those of test_shift's ops
6 to 9 (what the plant's programs print) and the reader's in op 5.
"""
import collections
import pathlib
import struct

Set = collections.namedtuple("Set", "name cases lines calls")
Call = collections.namedtuple("Call", "op suite job n")

KINDS = {"comet": b"c", "session": b"s", "shift": b"f", "writer": b"w"}
SEALING = {1, 2, 3, 5, 6}
PRINTED = {6, 7, 8, 9}


def bytes_after(kind, c):
    """How many bytes follow the first 30 bytes of a call."""
    n = c.n
    if kind == "comet":
        return sum(n[:4]) + (n[5] if c.op in (1, 3, 5, 6) else 0)
    if kind == "session":
        return {0: n[0] + n[1], 1: n[0], 2: n[0], 3: 0, 4: 0}[c.op]
    if kind == "shift":
        return {2: n[0], 3: sum(n[:3]), 7: sum(n[:3]), 10: n[0]}.get(c.op, n[0] + n[1])
    return n[0] + n[1]


def calls_of(kind, data):
    calls, at = [], 0
    while at < len(data):
        op, suite, job, *n = struct.unpack_from("<BBI6I", data, at)
        calls.append(Call(op, suite, job, n))
        at += 30 + bytes_after(kind, calls[-1])
    if at != len(data):
        raise SystemExit(f"test-targets: the stdin of test_{kind} is not a row of calls")
    return calls


def lines_of(c):
    """How many lines a call of test_shift writes, and which of them a C function produces."""
    if c.op in (0, 3, 4):
        return [True]
    if c.op == 1:
        return [True] * c.n[0]
    if c.op == 2:
        return [True] * min(c.n[1], 2**32 - c.job)
    if c.op == 5:
        return [True, False]
    if c.op == 10:
        return [True] + [True] * min(c.n[1], 2**32 - c.job)
    raise SystemExit(f"test-targets: test_shift has op {c.op}, which is unknown here")


def shift_lines(calls, lines):
    """The lines without those of the printing calls, whose number is unknown. These calls are consecutive: lines before them
    are counted from the start, lines after them from the end."""
    printed = [i for i, c in enumerate(calls) if c.op in PRINTED]
    first, last = (printed[0], printed[-1] + 1) if printed else (len(calls), len(calls))
    if len(printed) != last - first:
        raise SystemExit("test-targets: calls that print stand between others in test_shift")
    front = [right for c in calls[:first] for right in lines_of(c)]
    back = [right for c in calls[last:] for right in lines_of(c)]
    kept = [line for line, right in zip(lines, front) if right]
    return kept + [line for line, right in zip(lines[len(lines) - len(back) :], back) if right]


def session_lines(calls, lines, suite):
    """The lines of a small build of one suite: calls on a session of another suite, started or forged, are `skipped`."""
    foreign, kept, left = False, [], iter(lines)
    for c in calls:
        if c.op == 0:
            foreign = c.suite != suite
        if c.op == 4:
            foreign = foreign or c.suite in SEALING - {suite}
        else:
            line = next(left)
            kept.append("skipped" if foreign else line)
    return kept


def load(root, kind, suite=None):
    """The data of one test program; with a suite, the lines are those of a small build of that suite."""
    folder = pathlib.Path(root) / "crates" / f"test_{kind}"
    data, lines = (folder / "stdin").read_bytes(), (folder / "stdout").read_text().splitlines()
    calls = calls_of(kind, data)
    if kind == "shift":
        lines = shift_lines(calls, lines)
    elif suite and kind == "comet":
        lines = [line if c.suite == suite else "skipped" for c, line in zip(calls, lines)]
    elif suite:
        lines = session_lines(calls, lines, suite)
    return Set(f"test_{kind}", KINDS[kind] + data, lines, len(calls))
