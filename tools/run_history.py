"""What the run of a script did, by its report: which elements were born, who held them, and where they ended."""
from dataclasses import dataclass, field

SETTINGS = ("rows", "units", "limit", "spare")


class Untold(Exception):
    """There is nothing to draw: the script was refused, or the report isn't that of the script."""


@dataclass
class Server:
    name: str
    kind: str
    stage: int
    act: str
    outputs: list
    final: str = ""


@dataclass
class Hold:
    """A unit of work's hold of an element: from its claim to its end, in rows."""

    lane: int
    unit: str
    first: int
    last: int = -1
    how: str = "held"
    killed: int = -1


@dataclass
class Element:
    number: int
    root: int
    stage: int
    lane: int
    born: int
    text: str
    holds: list = field(default_factory=list)
    end: int = -1
    how: str = "waiting"
    parked: int = -1
    # where the rounds before this one parked it, and how many holds they had
    parkings: list = field(default_factory=list)
    past: int = 0


@dataclass
class Row:
    """A command and the line that it gave. A gap stands before it where the script has an empty line or a comment."""

    command: str
    line: str
    gap: bool
    is_crowd: bool = False


class Story:
    def __init__(self, script, report):
        self.title, self.servers, self.rows, self.elements = "", [], [], {}
        self.open, self.attempts = {}, 3
        commands = self.read_script(script)
        lines = report.splitlines()
        if lines and lines[0].startswith("refused line "):
            raise Untold(f"the script was refused: {lines[0]}")
        if len(lines) < len(commands):
            raise Untold("the report has fewer lines than the script has commands")
        finals = lines[len(commands):]
        for (command, gap), line in zip(commands, lines):
            self.rows.append(Row(command, line, gap))
            if line.startswith("rolled over"):
                break
            self.tell(len(self.rows) - 1, command.split(), line.split())
        self.end(finals)

    def read_script(self, script):
        commands, gap, before = [], False, []
        for line in script.splitlines():
            words = line.split()
            if not words or line.startswith("#"):
                gap = bool(commands)
                if not commands and not self.servers and line.startswith("#"):
                    before.append(line.lstrip("# "))
            elif words[0] == "server":
                self.servers.append(Server(words[1], words[2], int(words[3]), words[5], words[6:]))
            elif words[0] == "limit":
                self.attempts = int(words[1])
            elif words[0] not in SETTINGS and words[0] not in ("start", "account"):
                commands.append((" ".join(words), gap))
                gap = False
        self.title = " ".join(before)
        return commands

    def lane(self, name):
        """The lane of a server: the client has lane 0."""
        return 1 + [it.name for it in self.servers].index(name)

    def tell(self, row, command, line):
        verb = command[0]
        if verb == "submit" and line[0] == "submitted":
            number = int(line[1])
            more = f", and behind them {' and '.join(command[4:])}" if len(command) > 4 else ""
            text = f"submitted to stage {command[1]} with key {command[2]} and amount {command[3]}{more}"
            self.elements[number] = Element(number, number, int(command[1]), 0, row, text)
        elif verb == "kill" and line[0] == "killed":
            self.kill(row, int(command[1]))
        elif verb == "cancel" and line[0] == "cancelled":
            for it in self.elements.values():
                if it.root == int(command[1]) and it.stage != 15 and it.how not in ("consumed", "killed"):
                    self.kill(row, it.number)
        elif verb == "collect" and line[0] == "collected":
            for reply in line[2:]:
                self.kill(row, int(reply.split(":")[0]))
        elif verb == "requeue" and line[0] == "requeued":
            self.requeue(int(command[1]))
        elif verb == "release" and line[0] == "released":
            self.release(row, int(command[1]))
        elif verb in ("race", "drain"):
            self.crowd(row)
        elif verb == "take" and line[1] != "work":
            return
        elif verb in ("turn", "claim", "next", "take", "prepare", "commit", "abort", "drop"):
            self.serve(row, self.lane(command[1]), line[1:])

    def serve(self, row, lane, answer):
        """What a server did with an element: `answer` is the report's line without its name."""
        what = answer[0]
        element = self.elements.get(int(answer[1])) if len(answer) > 1 else self.open.get(lane)
        if what == "work":
            # (what a drain has made isn't known)
            if element is None:
                return
            self.open[lane] = element
            element.holds.append(Hold(lane, answer[3], row))
        elif what in ("done", "refused", "lost", "full", "aborted", "already", "dropped") and element:
            hold = self.hold(element, lane, row)
            hold.last = row
            hold.how = {"already": "lost", "dropped": "aborted", "refused": answer[-1]}.get(what, what)
            self.open.pop(lane, None)
            if what == "done":
                hold.unit = answer[3]
                element.end, element.how = row, "consumed"
                self.bear(row, lane, element, int(answer[5]), int(answer[6]))
            else:
                self.wait_again(row, element)

    def hold(self, element, lane, row):
        """The hold that is open there, or that of a turn."""
        if self.open.get(lane) is element:
            return element.holds[-1]
        element.holds.append(Hold(lane, "", row))
        return element.holds[-1]

    def bear(self, row, lane, element, first, count):
        for at, output in enumerate(self.servers[lane - 1].outputs[:count]):
            stage = int(output.split(":")[0])
            text = f"an output of {self.servers[lane - 1].name}, " + ("a reply" if stage == 15 else f"for stage {stage}")
            self.elements[first + at] = Element(first + at, element.root, stage, lane, row, text)

    def wait_again(self, row, element):
        if element.how == "waiting" and len(element.holds) - element.past >= self.attempts:
            element.end, element.how, element.parked = row, "parked", row

    def kill(self, row, number):
        element = self.elements.get(number)
        if element:
            element.end, element.how = row, "killed"
            if element.holds and element.holds[-1].last < 0:
                element.holds[-1].killed = row

    def requeue(self, number):
        element = self.elements.get(number)
        if element:
            element.parkings.append(element.parked)
            element.end, element.how, element.parked, element.past = -1, "waiting", -1, len(element.holds)

    def release(self, row, number):
        element = self.elements.get(number)
        if element:
            element.holds[-1].killed = row
            self.wait_again(row, element)

    def crowd(self, row):
        """In a race or a drain the servers that are free take what waits for them. The report doesn't say which of it."""
        self.rows[row].is_crowd = True
        free = {it.stage for at, it in enumerate(self.servers) if at + 1 not in self.open}
        for it in self.elements.values():
            if it.end < 0 and it.stage in free and not (it.holds and it.holds[-1].last < 0):
                it.end, it.how = row, "taken in " + self.rows[row].command.split()[0]

    def end(self, finals):
        """All desks are dropped, which aborts the units that are open, and the servers' registers are reported."""
        row = len(self.rows)
        for lane, element in self.open.items():
            hold = element.holds[-1]
            hold.last, hold.how = row, "lost" if hold.killed >= 0 else "aborted"
            self.wait_again(row, element)
        for line in finals:
            words = line.split()
            if words[0] == "account":
                continue
            self.servers[self.lane(words[1]) - 1].final = " ".join(words[2:])

    def words(self, element):
        """An element's way in words."""
        said = [f"Element {element.number}: {element.text}"]
        for it in element.holds:
            unit = f" with unit {it.unit}" if it.unit else ""
            how = {"done": "committed", "lost": "lost its unit", "held": "still holds it"}.get(it.how, it.how)
            said.append(f"taken by {self.servers[it.lane - 1].name}{unit}: {how}")
        ends = {"waiting": "it waits at the end", "consumed": "consumed", "parked": "parked in the error queue"}
        said.append(ends.get(element.how, element.how))
        return "; ".join(said) + "."
