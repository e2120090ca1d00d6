#!/usr/bin/env python3
"""Writes the fixed list, crates/fixed_list/stdin and crates/fixed_list/stdout, from the Rust: the log by `oracle fixed`, what
is to be printed by `oracle < LOG`. This port's `replay` is not run. It needs the published files, as tools/compare does."""
import os

from compare_run import ORACLE, TOP, build, written


def main():
    build()
    folder = os.path.join(TOP, "crates", "fixed_list")
    os.makedirs(folder, exist_ok=True)
    log = written([ORACLE, "fixed"])
    for name, data in (("stdin", log), ("stdout", written([ORACLE], log))):
        with open(os.path.join(folder, name), "wb") as out:
            out.write(data)
    print(f"{len(log) // 64} calls")


main()
