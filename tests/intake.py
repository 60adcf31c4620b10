#!/usr/bin/env python3
"""Compares random inputs, delimiters and policies, checks among them, with a plain split of the whole text: intake.py [CASES] [SEED].

It wants the program of crates/bt_intake_cases, which `rt run` builds in that folder. Each case is a line of that program's
input, and its answer must be what is computed here of the finished bytes, whatever pieces they are read in.
"""
import pathlib
import random
import subprocess
import sys

PROGRAM = pathlib.Path(__file__).resolve().parents[1] / "crates/bt_intake_cases/out/bt_intake_cases"
LONGEST = 65_536
BLOCK = 20_000


def real(text):
    return text.replace("|", "\n").replace("^", "\r").replace("~", "x" * LONGEST)


def shown(text):
    return text.replace("\n", "|").replace("\r", "^") if len(text) <= 40 else f"{len(text)} bytes"


def lines_of(sources, delimiter, bound):
    """The path and the bytes of each line, and whether it is whole."""
    taken = []
    for path, text in sources:
        taken.append((path, text[:bound]))
        bound = max(0, bound - len(text))
    for place, (path, text) in enumerate(taken):
        *ended, last = text.split(delimiter)
        yield from ((path, piece, True) for piece in ended)
        if last:
            yield path, last, bound > 0 or any(later for _, later in taken[place + 1:])


def items_of(sources, delimiter, bound):
    """The items, and the answer behind them."""
    items = []
    for number, (path, line, whole) in enumerate(lines_of(sources, delimiter, bound), 1):
        if len(line) > LONGEST:
            return items, f"line {number} is too long"
        if whole:
            dropped = line[:-1] if delimiter == "\n" and line.endswith("\r") else line
            items.append((path, dropped))
    return items, "bound" if sum(len(text) for _, text in sources) >= bound else "end"


# Checks, and when the last item of a batch passes them.
CHECKS = {
    "": None,
    'content().string() == "a"': lambda batch: batch[-1][1] == "a",
    "batch_index() == 1": lambda batch: len(batch) == 2,
    "batch_size() > 2": lambda batch: len(batch) > 2,
    'meta("path") == "p"': lambda batch: batch[-1][0] == "p",
    "this.k": lambda batch: False,
}


def batches_of(items, count, size, check):
    batch = []
    passes = CHECKS[check]
    for item in items:
        batch.append(item)
        has_count = count > 0 and len(batch) >= count
        has_size = size > 0 and sum(len(text) for _, text in batch) >= size
        has_passed = passes is not None and passes(batch)
        if has_count or has_size or has_passed or (count == 0 and size == 0 and passes is None):
            yield batch
            batch = []
    if batch:
        yield batch


def case(chance):
    """A line for the program, and what it must print behind it."""
    word = lambda letters, least, most: "".join(chance.choice(letters) for _ in range(chance.randint(least, most)))
    letters = chance.choice(["a|", "ab|^", "ab", "aab|", "^|"])
    sources = [(chance.choice(["", "p", "qr"]), word(letters, 0, chance.choice([3, 12, 40]))) for _ in range(chance.randint(1, 3))]
    if chance.random() < 0.002:
        sources = [(path, text + "~" + word("x|", 0, 2) + text) for path, text in sources]
    delimiter = chance.choice(["", "", word(letters, 1, 1), word(letters, 1, 3), word(letters, 16, 16)])
    whole = sum(len(real(text)) for _, text in sources)
    bound = chance.choice([1_000_000, whole, whole + 1, chance.randint(0, whole)])
    count, size = chance.choice([0, 0, 1, 2, 3]), chance.choice([0, 0, 1, 4, 9])
    check = chance.choice(["", "", *CHECKS])
    piece = chance.choice([1, 2, 3, 7, 4096] if whole < 1000 else [777, 4096])
    written = ",".join(f"{path}:{text}" if path else text for path, text in sources)
    items, last = items_of([(path, real(text)) for path, text in sources], real(delimiter) or "\n", bound)
    batches = ["".join(f"[{path + ':' if path else ''}{shown(text)}]" for path, text in batch) for batch in batches_of(items, count, size, check)]
    line = f"sources={written};delimiter={delimiter};count={count};size={size};check={check};piece={piece};bound={bound}"
    return line, " ".join([line, *batches, last])


def main():
    cases = int(sys.argv[1]) if len(sys.argv) > 1 else 100_000
    seed = int(sys.argv[2]) if len(sys.argv) > 2 else 1
    chance = random.Random(seed)
    for start in range(0, cases, BLOCK):
        block = [case(chance) for _ in range(min(BLOCK, cases - start))]
        given = "".join(line + "\n" for line, _ in block).encode()
        out = subprocess.run([PROGRAM], input=given, stdout=subprocess.PIPE, check=True).stdout.decode().split("\n")
        for (_, want), got in zip(block, out, strict=False):
            if got != want:
                sys.exit(f"FAILED: got  {got}\n        want {want}")
    print(f"ok     {cases} cases from seed {seed}")


main()
