#!/usr/bin/env python3
"""Runs a program over the conformance vectors and says what it answers wrongly.

    check.py [--only CALL,..] [--show N] [FILE.json ..] -- PROGRAM [ARGUMENTS ..]

PROGRAM reads one case a line from its standard input and writes one answer a line to its standard output, by the protocol
of vectors/README.md. Without FILE.json, every file beside this script is run. --only runs some calls alone, --show limits
how many failures of a file are printed (default 10).

Exit status: 0 every answer is right, 1 an answer is wrong or missing or none was compared, 2 usage error.
Standard library alone; Python 3.8 or later.
"""
import hashlib
import json
import pathlib
import subprocess
import sys

SCHEMA = "snoekeldraf-vectors-1"
HERE = pathlib.Path(__file__).resolve().parent
# The fields of a case that are byte strings.
INPUTS = {"key", "block", "nonce", "ad", "msg", "text", "tag", "file", "ring", "amendment", "day", "first", "second"}
# Those of an answer. It may leave them out after a refusal, if the program gives no output then.
OUTPUTS = {"out", "tag"}
# The rule that an answer breaks if its status is right and only its outputs are wrong: after 8, and after every other refusal.
ORDER = "In which order each routine checks"
AFTER_8 = ("after 8", {"section": ORDER, "text": "8 leaves every byte of the output 0"})
AFTER_REFUSAL = ("after a refusal", {"section": ORDER, "text": "a status other than 0 and 8 leaves outputs and tags unchanged"})


def part_of(part):
    """The bytes of one part: LEN*BB, LEN@SEED or hex digits."""
    if "*" in part:
        length, byte = part.split("*")
        return bytes.fromhex(byte) * int(length)
    if "@" in part:
        length, seed = map(int, part.split("@"))
        return bytes((seed + 31 * i + i // 256) & 255 for i in range(length))
    return bytes.fromhex(part)


def bytes_of(text):
    """The byte string that a text stands for."""
    return b"".join(map(part_of, text.split("+")))


def sent(test):
    """The line that the program reads: the case with its id, and with byte strings in plain hex."""
    case = {"id": test["id"]}
    for name, value in test["case"].items():
        case[name] = bytes_of(value).hex() if name in INPUTS else value
    return json.dumps(case)


def is_same_bytes(wanted, given):
    """Whether hex digits are the byte string that a text stands for, or match its digest."""
    try:
        given = bytes.fromhex(given)
    except (TypeError, ValueError):
        return False
    if "#" in wanted:
        length, digest = wanted.split("#")
        return len(given) == int(length) and hashlib.sha256(given).hexdigest() == digest
    return given == bytes_of(wanted)


def shown(value):
    """A value as messages show it, shortened if it is long."""
    text = str(value)
    return text if len(text) <= 72 else f"{text[:56]}.. ({len(text)} characters)"


def differences(wanted, given):
    """What is wrong with an answer: for each wrong field its name and a sentence."""
    refused = wanted.get("status", 0) != 0
    for name, value in wanted.items():
        if name not in given:
            if not (refused and name in OUTPUTS):
                yield name, f"{name} is missing"
        elif name in OUTPUTS:
            if not is_same_bytes(value, given[name]):
                yield name, f"{name} is {shown(given[name])}, not {shown(value)}"
        elif given[name] != value:
            yield name, f"{name} is {shown(json.dumps(given[name]))}, not {shown(json.dumps(value))}"


def broken_rule(test, wrong, rules):
    """The rule that wrong fields break, (name, rule); None if there is no answer. A case tries one rule, but a program that
    refuses it rightly can still break the rule on outputs."""
    status = test["answer"].get("status", 0)
    if not wrong:
        return None
    if status != 0 and OUTPUTS.issuperset(wrong):
        return AFTER_8 if status == 8 else AFTER_REFUSAL
    return test["rule"], rules[test["rule"]]


def answers_of(program, tests):
    """The program's answers by id, and a sentence on how it failed, if it did."""
    lines = "".join(sent(test) + "\n" for test in tests)
    try:
        done = subprocess.run(program, input=lines, stdout=subprocess.PIPE, text=True)
    except OSError as error:
        give_up(f"{program[0]}: {error}")
    answers = {}
    for line in done.stdout.splitlines():
        try:
            answer = json.loads(line)
            answers[answer["id"]] = answer
        except (ValueError, TypeError, KeyError):
            return answers, f"this line is no answer: {shown(line)}"
    return answers, f"the program ended with {done.returncode}" if done.returncode else None


class Counts:
    passed = failed = skipped = unanswered = uncompared = 0


def judged(test, answers, counts):
    """Counts one answer; gives what is wrong with it as {field: sentence}, or None if nothing is."""
    answer = answers.get(test["id"])
    if answer is None:
        counts.failed += 1
        counts.unanswered += 1
        return {}
    if answer.get("skipped"):
        counts.skipped += 1
        return None
    wrong = dict(differences(test["answer"], answer))
    counts.uncompared += any(name in test["answer"] and name not in answer for name in OUTPUTS)
    counts.failed += bool(wrong)
    counts.passed += not wrong
    return wrong or None


def print_failure(name, test, wrong, rule):
    print(f"{name} {test['id']}, {test['case']['call']}: {test['comment']}")
    for sentence in wrong.values() or ["no answer"]:
        print(f"    {sentence}")
    if rule:
        print(f"    rule \"{rule[0]}\" (docs/FORMAT.md, {rule[1]['section']}): {rule[1]['text']}")


def run_file(path, program, only, show, counts, broken):
    """Runs one file and prints its failures; collects the rules that are broken."""
    try:
        vectors = json.loads(path.read_text())
        schema = vectors["schema"]
    except (OSError, ValueError, TypeError, KeyError) as error:
        give_up(f"{path} is no file of vectors: {error}")
    if schema != SCHEMA:
        give_up(f"{path}: the schema is {schema}, not {SCHEMA}")
    tests = [test for test in vectors["cases"] if not only or test["case"]["call"] in only]
    answers, said = answers_of(program, tests)
    failures = 0
    for test in tests:
        wrong = judged(test, answers, counts)
        if wrong is not None:
            rule = broken_rule(test, wrong, vectors["rules"])
            failures += 1
            if rule:
                broken[rule[0]] = broken.get(rule[0], 0) + 1
            if failures <= show:
                print_failure(path.name, test, wrong, rule)
    if failures > show:
        print(f"{path.name}: {failures - show} more failures")
    if said:
        print(f"{path.name}: {said}")


def arguments():
    """The options, the files and the program of the command line."""
    if "--" not in sys.argv or sys.argv[-1] == "--":
        give_up(__doc__)
    at = sys.argv.index("--")
    options, program = sys.argv[1:at], sys.argv[at + 1:]
    only, show, files = set(), 10, []
    while options:
        word = options.pop(0)
        if word == "--only" and options:
            only = set(options.pop(0).split(","))
        elif word == "--show" and options and options[0].isdecimal():
            show = int(options.pop(0))
        elif word.startswith("--"):
            give_up(__doc__)
        else:
            files.append(pathlib.Path(word))
    return only, show, files or sorted(HERE.glob("*.json")), program


def give_up(words):
    print(words, file=sys.stderr)
    sys.exit(2)


def main():
    only, show, files, program = arguments()
    counts, broken = Counts(), {}
    for path in files:
        run_file(path, program, only, show, counts, broken)
    if broken:
        print("rules that are broken, and by how many cases:")
        for rule, count in sorted(broken.items(), key=lambda entry: -entry[1]):
            print(f"    {rule}: {count}")
    if counts.unanswered:
        print(f"{counts.unanswered} cases had no answer")
    if counts.uncompared:
        print(f"{counts.uncompared} refusals came without the output: what it holds was not compared")
    skipped = f", {counts.skipped} skipped" if counts.skipped else ""
    print(f"{counts.passed} passed, {counts.failed} failed{skipped}")
    # a run that compared nothing is no success
    return counts.failed > 0 or counts.passed == 0


if __name__ == "__main__":
    sys.exit(main())
