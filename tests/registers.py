"""Looks through compiled files for a fault of the compiler's: code that makes room on the stack in register r11 while r11
holds a value that is still wanted. A proof says nothing of what LLVM makes of proved code, and this it has made.

What is looked for is r11 in use, for whatever it be, before a function makes its room in it: where that is never so, no
value is lost. Where it is so once, a reader decides whether the value is wanted afterwards.

usage: python3 tests/registers.py FILE..     exit status 1, and the functions' names, where it is found
"""

import re
import subprocess
import sys

FUNCTION = re.compile(r"[0-9a-f]+ <(.+)>:$")
ROOM = re.compile(r"mov\s+%rsp,%r11$")


def functions(path):
    """The instructions of each function of a compiled file, by its name."""
    said = subprocess.run(["objdump", "-d", "--no-show-raw-insn", path], capture_output=True, text=True, check=True).stdout
    found, name = {}, None
    for line in said.splitlines():
        start = FUNCTION.match(line)
        if start:
            name = start.group(1)
            found[name] = []
        elif name and "\t" in line:
            found[name].append(line.split("\t", 1)[1].strip())
    return found


def in_use(instructions):
    """Whether r11 is named before it is used to make room on the stack."""
    rooms = [at for at, instruction in enumerate(instructions) if ROOM.match(instruction)]
    return bool(rooms) and any("%r11" in before for before in instructions[: rooms[0]])


def main(paths):
    found_in = []
    for path in paths:
        found = functions(path)
        if not found:
            raise SystemExit("no function in " + path)
        found_in += [path + ": " + name for name, code in found.items() if in_use(code)]
    print("\n".join(found_in) if found_in else "no register is in use where room is made on the stack")
    return 1 if found_in else 0


if __name__ == "__main__":
    raise SystemExit(main(sys.argv[1:]))
