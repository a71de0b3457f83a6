"""The peer: a second judge of the strict check beside the model, pyrlp, which Debian has as python3-rlp.

`peer.py CASES MODEL` reads the cases and the model's answers to them, and says of each `strict` case whether pyrlp agrees that
the bytes are an encoding or are none, and of an encoding whether it agrees on the number of items and the depth and encodes
its tree to the same bytes. pyrlp has neither a limit of levels nor one of bytes. So cases that the model refuses with 12 are
passed over; those that it refuses with 11 are too where pyrlp refuses them, and where it does not, must be too deep.
Ends with status 0 if there was no disagreement, with 1 if there was one or inputs of 0 to 2 bytes are missing, and with 2 if it
could not run.
"""

import collections
import sys
import traceback

import rlp

# A longer line than this asks something, whatever it starts with.
LONGEST_LINE = 65_536

# The refusals that pyrlp has not, and the most levels.
TOO_MANY_LEVELS = "no 11"
TOO_LARGE = "no 12"
MOST_LEVELS = 16

# All inputs of 0 to 2 bytes must be among the cases.
SHORT_INPUTS = 1 + 256 + 256 * 256

# How many characters of a case are written out.
SHOWN = 300

# What pyrlp says of the bytes, beside `ok ITEMS DEPTH`.
NO = "no"
TOO_DEEP = "too deep for Python"
NOT_ASKED = "not asked"


def main(cases, model):
    counts = collections.Counter()
    short = set()
    for word, answer in strict_cases(cases, model):
        data = bytes_of(word)
        said = NOT_ASKED if answer == TOO_LARGE else peer_says(data)
        if cannot_judge(said, answer):
            counts[said if said == TOO_DEEP else answer] += 1
            continue
        counts[said.split(" ")[0]] += 1
        if len(data) <= 2:
            short.add(data)
        if not agrees(said, answer):
            counts["disagreements"] += 1
            print(f"strict {word[:SHOWN]} | rules: {answer} | pyrlp: {said}")
    report(counts, len(short))
    return int(counts["disagreements"] > 0 or len(short) != SHORT_INPUTS)


def strict_cases(cases, model):
    """The bytes of each strict case as they are written, and the model's answer."""
    with open(cases, "rb") as lines, open(model, "rb") as answers:
        for line in lines:
            line = line.rstrip(b"\n")
            if not asks(line):
                continue
            answer = next(answers).rstrip(b"\n").decode()
            if line.startswith(b"strict ") and answer != "bad line":
                yield line.decode().split(" ")[1], answer


def asks(line):
    return len(line) > LONGEST_LINE or (line != b"" and not line.startswith(b"#"))


def bytes_of(word):
    """The bytes that a word stands for: `-` for none, else parts of hex, or of one byte and how often, joined by `.`."""
    if word == "-":
        return b""
    data = b""
    for part in word.split("."):
        hexadecimal, _, times = part.partition("*")
        data += bytes.fromhex(hexadecimal) * int(times or 1)
    return data


def peer_says(data):
    """What pyrlp says of the bytes: `ok ITEMS DEPTH`, or `no`."""
    try:
        tree = rlp.decode(data, strict=True)
        items, depth = items_and_depth(tree)
        same = rlp.codec.encode_raw(tree) == data
    except rlp.DecodingError:
        return NO
    except RecursionError:
        return TOO_DEEP
    return f"ok {items} {depth}" + ("" if same else " and encodes it otherwise")


def items_and_depth(tree):
    if isinstance(tree, bytes):
        return 1, 0
    items, depth = 1, 0
    for item in tree:
        inner_items, inner_depth = items_and_depth(item)
        items += inner_items
        depth = max(depth, inner_depth)
    return items, depth + 1


def cannot_judge(said, answer):
    return said in (NOT_ASKED, TOO_DEEP) or (said == NO and answer == TOO_MANY_LEVELS)


def agrees(said, answer):
    if said != NO and answer == TOO_MANY_LEVELS:
        return int(said.split(" ")[2]) > MOST_LEVELS
    return said == answer or (said == NO and answer.startswith("no "))


def report(counts, short):
    compared = counts["ok"] + counts[NO]
    print(f"pyrlp: {compared} inputs compared, of which it accepts {counts['ok']} and refuses {counts[NO]}.")
    over = [f"{counts[kind]} {kind}" for kind in (TOO_MANY_LEVELS, TOO_LARGE, TOO_DEEP)]
    print(f"Passed over: {', '.join(over)}.")
    print(f"Disagreements: {counts['disagreements']}.")
    if short != SHORT_INPUTS:
        print(f"Of the {SHORT_INPUTS} inputs of 0 to 2 bytes only {short} were there.")


def status(arguments):
    """What the program ends with: 2 too where it failed on the way."""
    if len(arguments) != 2:
        print("usage: peer.py CASES MODEL", file=sys.stderr)
        return 2
    try:
        return main(*arguments)
    except Exception:
        traceback.print_exc()
        return 2


if __name__ == "__main__":
    sys.exit(status(sys.argv[1:]))
