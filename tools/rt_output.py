#!/usr/bin/env python3
"""Of what rt prints, the lines that report a failure: without those that say how far it is, or that all is well. And what to say
where rt is another one than the README names."""
import os
import re
import subprocess
import sys

README = f"{os.path.dirname(os.path.dirname(os.path.realpath(__file__)))}/README.md"

WELL = re.compile(
    r"(statements|library|crate|logic|by-macro:|so far:|checked|rt: chose|axioms) |(only|tests)=|logic=proved"
    r"|.*: (proved|no proof needed)$|test .* ok$"
)


def amiss(lines):
    return [it for it in lines if not WELL.match(it)]


def other_toolchain():
    """Returns what to say where this is another toolchain than the README's, and nothing where it is that one."""
    is_now = subprocess.run(["rt", "version"], stdout=subprocess.PIPE, text=True).stdout.strip()
    with open(README, encoding="utf-8") as it:
        was = re.search(r"\((rattle-kit-\S+ logic \w+), by `rt version`\)", it.read())
    return "" if was and was[1] == is_now else f"the toolchain is {is_now}, and the README's is {was[1] if was else 'not told'}"


if __name__ == "__main__":
    sys.stdout.writelines(amiss(sys.stdin))
