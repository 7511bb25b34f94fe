"""Stand-ins for functions that were proved before: the same contract, a body that does nothing, and a proof that is a hole.

A check of a function reads what it calls by contract alone, and yet proves all that it calls, and what these call. Where that is known
to be proved, a stand-in takes the place of each: antt takes it by its type, and says of what rests on it that it depends on a hole.
An open goal of the function itself is told as ever. A check of the 36 edits of tp_script took 808 seconds of processors without
stand-ins, as the crate does, and 276 with them.
"""
import os
import re
import shutil

from functions import FUNCTION, defined_in, lines_of_body, module_of, path_of, read

# All of them rest on one hole, so that one goal is printed.
HOLE = "StandIn"
TEXT = """-- Stands in for what was proved before.
pub anything : {A : Type 2} → A
anything = ?
"""
# What a check says of a function whose goals are all proved over stand-ins, as a pattern.
PROVED = r"(no holes|depends on a hole in `[\w.+]*StandIn\.anything`)"
PROOF = """use Rattle.%(crate)s.proofs.StandIn.{anything}
use Rattle.%(crate)s.proofs.%(path)s.Statement as stated

pub %(name)s_spec : {M : Type 1} → stated.statement M
%(name)s_spec = anything
"""


def put(crate, room, kept):
    """Puts stand-ins into this copy of a crate, in the place of all its functions but these: of each file the lines, from 0, of their
    heads. What can have none, as what calls itself, keeps its body and its proof."""
    homes = defined_in(room)
    for at, _, files in os.walk(f"{room}/src"):
        for file in sorted(it for it in files if it.endswith(".rt")):
            path = os.path.relpath(f"{at}/{file}", room)
            text = stubbed(crate, room, path, homes, kept.get(path, set()))
            with open(f"{room}/{path}", "w", encoding="utf-8") as it:
                it.write(text)
    os.makedirs(f"{room}/proofs", exist_ok=True)
    with open(f"{room}/proofs/Lib.antt", "a", encoding="utf-8") as it:
        it.write(f"\npub mod {HOLE}\n")
    with open(f"{room}/proofs/{HOLE}.antt", "w", encoding="utf-8") as it:
        it.write(TEXT)


def stubbed(crate, room, path, homes, kept):
    """Returns the text of a file with stand-ins, whose proofs it puts in place."""
    lines = read(f"{room}/{path}").split("\n")
    made, at = [], 0
    for head, line in enumerate(lines):
        if head < at or head in kept or not FUNCTION.search(line) or line.lstrip().startswith("//"):
            continue
        body, name = lines_of_body(lines, head), path_of(lines, head, module_of(path), homes)
        if body is None or name is None or is_bound(lines, head) or not prove(crate, room, name):
            continue
        made += lines[at : body[0]]
        if body[0] < body[1]:
            # (all else keeps its line)
            made += [re.match(r"\s*", line)[0] + "    loop {}", *[""] * (body[1] - body[0] - 1)]
        at = body[1]
    return "\n".join([*made, *lines[at:]])


def is_bound(lines, head):
    """Returns whether the function has a proof together with others, or is computed before the program runs."""
    above = head
    while above > 0 and lines[above - 1].strip().startswith(("#[", "//")):
        above -= 1
    return "const fn " in lines[head] or any("#[cycle(" in it for it in lines[above:head])


def prove(crate, room, name):
    """Puts a hole in the place of a function's proof, and takes away those of what stands in its body. Returns whether that can be."""
    folder, within = f"{room}/proofs/{'/'.join(name)}", f"{room}/proofs/{'/'.join(name[:-1])}"
    top = f"{room}/proofs/{'/'.join([*name[:-1], '+' + name[-1]])}"
    if os.path.isdir(top):
        return False
    shutil.rmtree(folder, ignore_errors=True)
    shutil.rmtree(f"{within}/fn/{name[-1]}", ignore_errors=True)
    os.makedirs(folder)
    with open(f"{folder}/Proof.antt", "w", encoding="utf-8") as it:
        it.write(PROOF % {"crate": crate, "path": ".".join(name), "name": name[-1]})
    return True
