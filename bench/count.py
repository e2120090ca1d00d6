#!/usr/bin/env python3
"""Instructions a call, counted one by one: what bench/run takes where programs for x86-64 are emulated and callgrind cannot
run them. bench/count.py BENCH WORDS.. prints them for a bench that bench/run has linked, as `bench/count.py BENCH count port
8 3`, which is bench/c/bench.c's use without the number of lives.

The emulator writes a line for each instruction that it carries out (one instruction a block, no block chained to the next).
A function takes the lines from its entry to its return, with all that it calls. The program is linked to fixed addresses,
so that its table of symbols says where a function begins. Three lives are run, and the first is not counted."""
import os, struct, subprocess, sys, tempfile
from pathlib import Path

sys.path.insert(0, str(Path(__file__).resolve().parent.parent / "tools"))
import programs

LIVES = 3
LONGEST = 15  # bytes of an instruction of x86-64
SYMTAB, FUNCTION = 2, 2


def symbols(path):
    """Where each function of an ELF file for x86-64 begins, by name."""
    data = Path(path).read_bytes()
    (at,) = struct.unpack_from("<Q", data, 40)
    size, number = struct.unpack_from("<HH", data, 58)
    sections = [struct.unpack_from("<IIQQQQII", data, at + size * k) for k in range(number)]
    found = {}
    for _, kind, _, _, start, length, link, _ in sections:
        if kind != SYMTAB:
            continue
        names = sections[link][4]
        for entry in range(start, start + length, 24):
            name, info, _, _, value, _ = struct.unpack_from("<IBBHQQ", data, entry)
            if info & 15 == FUNCTION and value:
                found[data[names + name : data.index(0, names + name)].decode()] = value
    return found


def addresses(log):
    """The address of each instruction, in order."""
    with open(log, errors="replace") as lines:
        for line in lines:
            if line.startswith("Trace"):
                yield int(line.split("/")[1], 16)


def inclusive(addresses, entries):
    """What each call of the functions at `entries` took, by the names of those that it stands in and its own."""
    took, open_calls, before = {}, [], 0
    for turn, address in enumerate(addresses):
        while open_calls and any(caller < address <= caller + LONGEST for _, caller, _ in open_calls):
            names, caller, entered = open_calls.pop()
            if not caller < address <= caller + LONGEST:
                programs.stop(f"{names[-1]} did not return to where it was called")
            took.setdefault(names, []).append(turn - entered)
        if address in entries:
            within = open_calls[-1][0] if open_calls else ()
            open_calls.append((within + (entries[address],), before, turn))
        before = address
    return took


def traced(bench, log):
    """The words that run a program with each instruction noted in a file. The word for one instruction a block was
    `-singlestep` in older emulators."""
    emulator = programs.emulated(bench)[0]
    known = subprocess.run([emulator, "-help"], capture_output=True, text=True).stdout
    single = "-one-insn-per-tb" if "-one-insn-per-tb" in known else "-singlestep"
    return programs.emulated(bench, ["-cpu", "max", single, "-d", "exec,nochain", "-D", log])


def in_lives(took):
    """What a call takes and what a life does, of all lives but the first, by the names of `inclusive`. What is not done
    equally often in each life, as opening, is left out."""
    a_call, a_life = {}, {}
    for names, each in took.items():
        calls = len(each) // LIVES
        if calls * LIVES == len(each):
            a_life[names] = sum(each[calls:]) / (LIVES - 1)
            a_call[names] = a_life[names] / calls
    return a_call, a_life


def count(bench, words, wanted):
    """`in_lives` of the bench's functions whose names are `wanted`. The words are those of bench.c, with LIVES lives."""
    entries = {address: name for name, address in symbols(bench).items() if wanted(name)}
    with tempfile.TemporaryDirectory() as folder:
        log = os.path.join(folder, "trace")
        words = traced(str(bench), log) + [str(word) for word in words]
        done = subprocess.run(words, capture_output=True, text=True)
        if done.returncode:
            programs.stop(f"{' '.join(words)}: status {done.returncode}\n{done.stdout}{done.stderr}")
        return in_lives(inclusive(addresses(log), entries))


def main():
    if len(sys.argv) < 6:
        sys.exit(__doc__)
    bench, verb, side, endpoints, size, *how = sys.argv[1:]
    a_call, _ = count(bench, [verb, side, endpoints, size, LIVES, *how], lambda name: name.startswith("m_"))
    for names, cost in a_call.items():
        print(f"{' '.join(names)} {cost:,.1f}")


if __name__ == "__main__":
    main()
