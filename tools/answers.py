#!/usr/bin/env python3
"""Says of each file of answers whether the check needs it: takes it away, checks its function, puts it back.

Usage: tools/answers.py CRATE..     in a clone of its own, since it alters files; no CRATE is every crate
"""
import glob
import os
import subprocess
import sys

ROOT = os.path.dirname(os.path.dirname(os.path.abspath(__file__)))


def is_needed(crate, function):
    """Whether the check of a function fails, or has no room to spare."""
    command = ["rt", "check", "--margin", "--only", f"{crate}::{function}"]
    run = subprocess.run(command, cwd=f"{ROOT}/crates/{crate}", capture_output=True, text=True)
    proved = f"fn {crate}::{function}: proved" in run.stdout + run.stderr
    return run.returncode != 0 or not proved


def main(crates):
    for crate in crates or sorted(os.listdir(f"{ROOT}/crates")):
        proofs = f"{ROOT}/crates/{crate}/proofs"
        for path in sorted(glob.glob(f"{proofs}/**/Answers.antt", recursive=True)):
            function = os.path.relpath(os.path.dirname(path), proofs).replace("/", "::")
            with open(path) as file:
                answers = file.read()
            os.remove(path)
            try:
                print("needed" if is_needed(crate, function) else "ALONE ", f"{crate}::{function}", flush=True)
            finally:
                with open(path, "w") as file:
                    file.write(answers)


if __name__ == "__main__":
    main(sys.argv[1:])
