#!/usr/bin/env python3
"""Runs each row of tests/mappings.tsv through the built program: what a mapping makes of a line.

It wants crates/benthos/out/benthos, which the gate and `make build` leave.
"""
import pathlib
import subprocess
import sys

ROOT = pathlib.Path(__file__).resolve().parents[1]
PROGRAM = ROOT / "crates/benthos/out/benthos"


def outcome(mapping, line):
    """What the program prints of the line, in the words of the table."""
    done = subprocess.run([PROGRAM, "blobl", "--raw", mapping], input=line.encode() + b"\n", capture_output=True, check=False)
    out, err = done.stdout.decode(), done.stderr.decode()
    if done.returncode == 0 and not err:
        return out.removesuffix("\n") if out else "dropped"
    if done.returncode == 1 and not out and err.startswith("line 1: "):
        return "flagged " + err.removeprefix("line 1: ").removesuffix("\n")
    return f"status {done.returncode}: {out!r} {err!r}"


def main():
    if not PROGRAM.exists():
        sys.exit(f"no {PROGRAM}: run make build first")
    rows = [row.split("\t") for row in (ROOT / "tests/mappings.tsv").read_text().splitlines() if not row.startswith("#")]
    failed = 0
    for mapping, line, want in rows:
        got = outcome(mapping.replace("~", "\n"), line)
        if got != want:
            failed += 1
            print(f"FAILED {mapping} of {line}: {got}, not {want}")
    if failed:
        sys.exit(1)
    print(f"ok     {len(rows)} mappings of tests/mappings.tsv")


main()
