#!/usr/bin/env python3
"""What document 01 says that `sheet` prints (tools/model): tools/sheet.py FILE...

It reads each sheet and prints its listing; with no file it reads standard input. `tools/sheet.py --compare sheet` runs the
program, as tools/run does, on the sheets of sheet_cases.py, one by one, and holds what it prints to the model's listings."""
import os, subprocess, sys

sys.path.insert(0, os.path.dirname(os.path.abspath(__file__)))
import programs
import sheet_cases
from model.sheets import listing


def compare(program):
    """Whether any of the sheets is printed otherwise."""
    many, words = list(sheet_cases.cases()), programs.words(program)
    printed = lambda data: subprocess.run(words, input=data, capture_output=True).stdout.decode()
    differ = [data for data in many if printed(data) != listing(data)]
    for data in differ[:3]:
        print("differs:", data.hex())
    print(f"{len(many)} sheets, {len(differ)} differ")
    return 1 if differ else 0


def main():
    if sys.argv[1:2] == ["--compare"] and len(sys.argv) == 3:
        sys.exit(compare(sys.argv[2]))
    if any(name.startswith("--") for name in sys.argv[1:]):
        sys.exit(__doc__)
    for name in sys.argv[1:] or ["-"]:
        data = sys.stdin.buffer.read() if name == "-" else open(name, "rb").read()
        sys.stdout.write(listing(data))


if __name__ == "__main__":
    main()
