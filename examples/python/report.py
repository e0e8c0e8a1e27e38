#!/usr/bin/env python3
"""Prints the report of a tower file under a wind as a table."""

import os
import sys

from dembyhai import MAX_FILE_BYTES, Refused, load, report

USAGE = """\
usage: report FILE K ICE FACTOR PRESSURE...
       report --help

Prints areas, force, shear and moment of each section of a tower under wind.

  FILE      a tower file
  K         wind direction, 0 to 23, 15 degrees each; even with three legs
  ICE       ice class, 0 (bare) to 5
  FACTOR    structure factor in thousandths, 500 to 2000
  PRESSURE  in N/m2, 0 to 5000: one for each section from the top, or one
            for all

Status 0: the table is printed. 1: the file cannot be read, or the tower or
the wind is refused. 2: the words are wrong.
"""

HEAD = "section  q N/m2    A_f mm2    A_c mm2    A_p mm2    force N    shear N        moment kN m"


class BadWords(Exception):
    """The words on the command line are wrong."""


class Failed(Exception):
    """Something cannot be read, or the tower or the wind is refused."""


def number(name, word, limit):
    """Decimal digits up to the limit and nothing else."""
    digits = word.isascii() and word.isdigit()
    # no number with more digits is within a limit, and long ones are slow to read
    value = int(word) if digits and len(word.lstrip("0")) <= 10 else limit + 1
    if value > limit:
        raise BadWords(f"{name} must be a whole number, at most {limit}, not '{word}'")
    return value


def read_file(name):
    """All bytes of a file that is not too large."""
    try:
        with open(name, "rb") as file:
            found = file.read(MAX_FILE_BYTES + 1)
    except OSError as error:
        raise Failed(f"{name}: {error.strerror}") from error
    if len(found) > MAX_FILE_BYTES:
        raise Failed(f"{name}: too large, a tower file has at most {MAX_FILE_BYTES} bytes")
    return found


def table(name, wind, pressures, rows):
    """The lines of the table."""
    k, ice, factor = wind
    thousandths = f"{factor // 1000}.{factor % 1000:03}"
    yield f"{name}: {len(rows)} sections, k {k}, ice class {ice}, structure factor {thousandths}"
    yield HEAD
    for section, (pressure, row) in enumerate(zip(pressures, rows)):
        numbers = " ".join(f"{value:10}" for value in row[:5])
        moment = f"{row.moment // 10**6:11}.{row.moment % 10**6:06}"
        yield f"{section:7} {pressure:7} {numbers} {moment}"


def answer(words):
    """What is printed for these words."""
    if words == ["--help"]:
        return USAGE
    if len(words) < 5:
        raise BadWords("FILE, K, ICE, FACTOR and PRESSURE are needed")
    name = words[0]
    wind = [number(*pair, 2**32 - 1) for pair in zip(("K", "ICE", "FACTOR"), words[1:4])]
    pressures = [number("PRESSURE", word, 2**16 - 1) for word in words[4:]]
    file = read_file(name)
    if len(pressures) == 1 and len(file) > 1:
        pressures *= file[1]
    try:
        function = load()
    except OSError as error:
        raise Failed(f"no shared library: {error}") from error
    try:
        rows = report(function, file, *wind, pressures)
    except Refused as refusal:
        raise Failed(f"{name}: {refusal}") from refusal
    return "".join(line + "\n" for line in table(name, wind, pressures, rows))


def main():
    """The exit status."""
    try:
        sys.stdout.write(answer(sys.argv[1:]))
        sys.stdout.flush()
    except BadWords as wrong:
        print(f"report: {wrong}\nreport: see report --help", file=sys.stderr)
        return 2
    except Failed as wrong:
        print(f"report: {wrong}", file=sys.stderr)
        return 1
    except OSError as error:
        print(f"report: standard output: {error.strerror}", file=sys.stderr)
        # what is left cannot be written either
        os.dup2(os.open(os.devnull, os.O_WRONLY), sys.stdout.fileno())
        return 1
    return 0


if __name__ == "__main__":
    sys.exit(main())
