"""tools/functions.py: the functions of a file, read off its text: where each is, how a check names it, and a copy of it."""
import glob
import os
import re

FUNCTION = re.compile(r"(?:^|[\s{}])fn (\w+)")
TYPE = re.compile(r"(?m)^\s*(?:pub(?:\([^)]*\))? )?(?:struct|enum|union|trait) (\w+)")
IMPL = re.compile(r"impl\b\s*(?P<generics><(?:[^<>]|<[^<>]*>)*>)?\s*(?:(?P<trait>[^{]*?)\s+for\s+)?(?P<type>[^{]*?)\s*(?:\bwhere\b[^{]*)?{")


class Function:
    """The function whose head is at this line, counted from 0: where its text is, and its proof files."""

    def __init__(self, crate, path, text, at):
        lines = text.split("\n")
        indent = re.match(r"\s*", lines[at])[0]
        first = first_line(lines, at)
        last = next((it for it in range(at, len(lines)) if lines[it] == indent + "}"), at)
        self.path, self.name, self.text = path, FUNCTION.search(lines[at])[1], text
        self.begins, self.ends = (sum(len(it) + 1 for it in lines[:it]) for it in (first, last + 1))
        self.named = sum(len(it) + 1 for it in lines[:at]) + FUNCTION.search(lines[at]).start(1)
        self.proofs, self.above = f"{crate.folder}/proofs", named(path, text, at).split("::")[:-1]
        self.folders = [it for it in glob.glob(f"{self.proofs}/**/{self.name}", recursive=True) if self.is_its(it)]
        self.can_be_copied = self.is_whole() and self.has_room(lines, at) and len(self.folders) < 2 and not self.is_in_a_cycle()

    def is_its(self, folder):
        """Returns whether this folder stands where the proof files of the module or type are whose function it is."""
        above = os.path.relpath(folder, self.proofs).split("/")[:-1]
        return above[-1:] == self.above[-1:]

    def is_whole(self):
        body = self.text[self.begins : self.ends]
        return body.count("{") == body.count("}") > 0

    def has_room(self, lines, at):
        """Returns whether another function can stand beside it: an impl of a trait has its functions, and no more."""
        impl = impl_of(lines, at)
        return not lines[at][:1].isspace() or bool(impl and impl["trait"] is None)

    def is_in_a_cycle(self):
        """Returns whether it calls itself, itself or through others: a copy does not, and what proves the one doesn't prove the other."""
        joint = [it for it in glob.glob(f"{self.proofs}/**/+*/*.antt", recursive=True) if self.is_its(os.path.dirname(it))]
        return any(re.search(rf"\b{self.name}\b", read(it)) for it in joint)

    def copied(self, name, changes):
        """Returns the text of a copy of this name, with these changes of its body, and the proof files of the copy, by their paths."""
        made, at = "", self.begins
        for begins, ends, new in sorted([(self.named, self.named + len(self.name), name), *changes]):
            made, at = made + self.text[at:begins] + new, ends
        files = {}
        for folder in self.folders:
            place = os.path.relpath(folder, self.proofs)
            to = place.removesuffix(self.name) + name
            mine, its = (f".proofs.{it.replace('/', '.')}." for it in (place, to))
            files |= {f"proofs/{to}/{it}": read(f"{folder}/{it}").replace(mine, its) for it in os.listdir(folder)}
        return "\n" + made + self.text[at : self.ends].rstrip("\n"), files


def enclosing(text, line):
    """Returns the line of the function that this line, counted from 0, is in; none within what a file begins with. A function's
    attributes and the comment above it are part of it."""
    lines = text.split("\n")
    heads = [at for at, it in enumerate(lines) if FUNCTION.search(it) and not it.lstrip().startswith("//")]
    before = None
    for head in heads:
        if line < first_line(lines, head):
            return before
        before = head
    return before


def first_line(lines, at):
    """Returns the line at which the attributes and the comment begin of the function whose head is at this line."""
    while at > 0 and lines[at - 1].strip() and not lines[at - 1].rstrip().endswith(("{", "}", ";")):
        at -= 1
    return at


def named(path, text, at):
    """Returns how a check names the function at this line, counted from 0: the end of its path. Where that fits none or several, the
    check doesn't reach the prover, and the edits are tried in smaller checks and then alone."""
    lines = text.split("\n")
    name = FUNCTION.search(lines[at])[1]
    if not lines[at][:1].isspace():
        module = os.path.basename(path).removesuffix(".rt")
        return name if module in ("lib", "main") else f"{module}::{name}"
    found = impl_of(lines, at)
    if not found:
        return name
    # A type of another crate may have another name there: then its whole module stands for the function.
    if re.search(r"<.*::.*>", found["trait"] or ""):
        return "::".join(module_of(path)) or name
    # An impl of a trait goes by the type's name and the trait's, with its arguments; that of a destructor by the type's.
    trait = "" if found["trait"] in (None, "Drop") else "".join(last_names(found["trait"]))
    return f"{last_names(found['type'])[0]}{trait}::{name}"


def impl_of(lines, at):
    """Returns the head of the impl that this line, counted from 0, is in: none outside of one."""
    head = next((it for it in range(at, -1, -1) if lines[it].startswith(("impl", "trait", "pub trait"))), at)
    return IMPL.match("\n".join(lines[head:at]))


def last_names(text):
    """Returns, of each path in this text, the last name, and each number."""
    return [it.rpartition("::")[2] for it in re.findall(r"(?<!')\b\w[\w:]*", text)]


def lines_of_body(lines, at):
    """Returns at which line the body begins, and at which it has ended, of the function whose head is at this line: the same of an
    empty one, and none where it has none, or stands on the line of its head."""
    indent, has_clauses = re.match(r"\s*", lines[at])[0], False
    for it in range(at, len(lines)):
        text = lines[it].rstrip()
        has_clauses = has_clauses or text.lstrip().startswith(("requires", "ensures", "ghost"))
        if text == indent + "{}":
            return it + 1, it + 1
        # (behind clauses the body's brace stands alone)
        if text == indent + "{" or text.endswith(" {") and not has_clauses:
            return it + 1, next(stop for stop in range(it, len(lines)) if lines[stop] == indent + "}")
        if text == indent + "}" or text.endswith(";") and not has_clauses or it == at and text.endswith("}"):
            return None
    return None


def module_of(path):
    """Returns the module that a file of a crate is, as names from its root."""
    names = path.removeprefix("src/").removesuffix(".rt").split("/")
    return names[:-1] if names[-1] in ("lib", "main", "mod") else names


def defined_in(folder):
    """Returns, for each type that a crate defines, the module that it is in."""
    homes = {}
    for file in sorted(glob.glob(f"{folder}/src/**/*.rt", recursive=True)):
        for it in TYPE.finditer(read(file)):
            homes.setdefault(it[1], module_of(os.path.relpath(file, folder)))
    return homes


def path_of(lines, at, module, homes):
    """Returns the path of the function whose head is at this line, by which its proof goes; none where that isn't known."""
    name = FUNCTION.search(lines[at])[1]
    if not lines[at][:1].isspace():
        return [*module, name]
    found = impl_of(lines, at)
    if not found:
        return None
    # (parameters of the impl are no part of it)
    free = {it[1] for it in re.finditer(r"[<,]\s*(?:const )?(\w+)", found["generics"] or "")}
    type_name, trait = last_names(found["type"])[0], found["trait"]
    if trait in (None, "Drop"):
        return [*homes[type_name], type_name, name] if type_name in homes else None
    # An impl of a trait goes by the module that it stands in; a type of another crate may have another name there.
    if type_name not in homes or re.search(r"<.*::.*>", trait):
        return None
    return [*module, "".join([type_name, *(it for it in last_names(trait) if it not in free)]), name]


def heads(text, begins, ends):
    """Returns where the names of functions stand within these bounds."""
    return [it.start(1) for it in FUNCTION.finditer(text) if begins <= it.start(1) < ends]


def read(file):
    with open(file, encoding="utf-8") as it:
        return it.read()
