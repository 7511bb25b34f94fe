"""tools/loops.py: the loops and the recursions of a crate, read off its text, and those that tools/LOOPS.md lists with their bounds."""
import hashlib
import re

from source_text import code, leads_to

HEAD = re.compile(r"(?:'\w+: )?(?:for|while|loop)\b")
# A range that a method goes over is a loop too, and so is an iterator without an end.
GONE_OVER = re.compile(r"\.\.=?[^;{]*\)\s*\.\s*\w+\(|\b(?:cycle|repeat|repeat_n|repeat_with|successors|from_fn)\(")
WORD = re.compile(r"(?:(?<=\.\.)|(?<![.\w:]))[a-z_]\w*\b(?![(:!])")


def bodies(text):
    """Yields the functions of a file: the type that each is of or None, its name, and the lines of its body."""
    depth, of, name, body, start = 0, None, None, [], 0
    for line in code(text):
        if depth == 0:
            head = re.match(r"(?:impl(?:<[^>]*>)? (?:[^{]* for )?|(?:pub )?trait )(\w+)", line)
            of = head[1] if head else of if line == "}" else None
        if name is None and (head := re.search(r"\bfn (\w+)", line)):
            name, body, start = head[1], [], depth
        else:
            body.append(line)
        depth += line.count("{") - line.count("}")
        if name and depth <= start and line.endswith(("}", ";")):
            yield of if start else None, name, body
            name = None


def loops(path, text):
    """Yields the loops of a file, each as a row of the page: its function, and its head with what the names in it are. Of a loop that no range
    or list bounds, a sum of its lines stands behind it: where they change, its bound has to be read anew."""
    file = path.rpartition("/")[2]
    for of, name, body in bodies(text):
        function = f"`{file}` `{'.'.join(filter(None, (of, name)))}`"
        for at, line in enumerate(body):
            if HEAD.match(line):
                end = next(it for it in range(at, len(body)) if body[it].endswith("{"))
                head = " ".join(body[at : end + 1])
                yield function, cell(f"`{head}`{told(head, body[:at])}{summed(head, body[end:])}")
            elif GONE_OVER.search(line):
                yield function, cell(f"`{line}`{told(line, body[:at])}")


def cell(text):
    """Returns a text as it stands in a table."""
    return text.replace("|", "\\|")


def told(head, before):
    """Returns what the names in a loop's head are, as the lines before it say."""
    words = dict.fromkeys(WORD.findall(head))
    lets = [it for word in words for it in before if re.match(rf"let (mut )?{word}\b[^=]*=[^=]", it)]
    return "".join(f", `{it}`" for it in dict.fromkeys(lets))


def summed(head, lines):
    """Returns a sum of the lines of a loop that nothing in its head ends."""
    if re.match(r"(?:'\w+: )?for ", head):
        return ""
    depth, inside = 0, []
    for line in lines:
        depth += line.count("{") - line.count("}")
        inside.append(line)
        if depth <= 0:
            break
    return f" {hashlib.sha256(chr(10).join(inside).encode()).hexdigest()[:8]}"


def circles(files, order):
    """Yields the calls that lead back to themselves, as sets of their names, each with its crate. order: the crates, lowest first."""
    every = [(path.split("/")[0], of, name, "\n".join(body)) for path, text in files.items() for of, name, body in bodies(text)]
    known = {}
    for crate, of, name, _ in every:
        known.setdefault(name, set()).add((crate, of))
    leads = {}
    for crate, of, name, body in every:
        leads.setdefault((of, name), set()).update(leads_to(body, crate, of, known, order))
    for circle in strong(leads):
        yield frozenset(".".join(filter(None, it)) for it in circle)


def strong(leads):
    """Yields the sets of what leads to one another in a graph, and what leads to itself (Tarjan's way, without recursion)."""
    index, low, on, stack, count = {}, {}, set(), [], 0
    for root in leads:
        if root in index:
            continue
        work = [(root, iter(leads[root]))]
        index[root] = low[root] = count
        count, stack, on = count + 1, [*stack, root], on | {root}
        while work:
            at, left = work[-1]
            for to in left:
                if to not in leads:
                    continue
                if to not in index:
                    index[to] = low[to] = count
                    count += 1
                    stack.append(to)
                    on.add(to)
                    work.append((to, iter(leads[to])))
                    break
                if to in on:
                    low[at] = min(low[at], index[to])
            else:
                work.pop()
                if work:
                    low[work[-1][0]] = min(low[work[-1][0]], low[at])
                if low[at] == index[at]:
                    circle = set()
                    while at not in circle:
                        circle.add(stack.pop())
                    on -= circle
                    if len(circle) > 1 or at in leads[at]:
                        yield circle


def listed(page):
    """Returns the rows of tools/LOOPS.md: for each crate its loops with their bounds, and the circles with theirs."""
    found, circles_there, crate = {}, {}, None
    for line in page.split("\n"):
        if line.startswith("## "):
            crate = line[3:].strip()
        cells = [it.strip() for it in re.split(r"(?<!\\)\|", line)[1:-1]] if line.startswith("| `") else []
        if len(cells) == 3:
            found.setdefault(crate, []).append((cells[0], cells[1], cells[2]))
        elif len(cells) == 2:
            circles_there[frozenset(re.findall(r"`([\w.]+)`", cells[0]))] = cells[1]
    return found, circles_there
