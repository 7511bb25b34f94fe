"""Draws a story as SVG: lanes side by side, time downward, an element as a line from its birth to where it ends."""
from html import escape

ROW, GAP, TOP, FOOT = 24, 12, 64, 84
COMMANDS, REPORTS, LETTER = 12, 24, 7.3
TRACK, UNIT, EDGE = 22, 58, 14
STYLE = """
  svg { background: #ffffff; }
  text { font: 12px ui-monospace, SFMono-Regular, Menlo, Consolas, "DejaVu Sans Mono", monospace; fill: #1f2328; }
  .faint { fill: #59636e; } .small { font-size: 11px; } .head { font-weight: bold; }
  .lane { fill: #f3f5f7; } .rule { stroke: #d5dbe1; stroke-width: 1; } .crowd { fill: #d5dbe1; fill-opacity: .55; }
  .way { fill: none; stroke-width: 2.5; stroke-linejoin: round; } .spur { stroke-dasharray: 3 3; }
  .unit { fill: #ffffff; stroke-width: 2; } .gone { stroke-dasharray: 4 3; }
  .halo { paint-order: stroke; stroke: #f3f5f7; stroke-width: 3px; stroke-linejoin: round; }
  .r0 { stroke: #0b62c4; } .r1 { stroke: #b5500a; } .r2 { stroke: #1a7f37; } .r3 { stroke: #8044cc; } .r4 { stroke: #b01e6b; }
  .d0 { fill: #0b62c4; } .d1 { fill: #b5500a; } .d2 { fill: #1a7f37; } .d3 { fill: #8044cc; } .d4 { fill: #b01e6b; }
  @media (prefers-color-scheme: dark) {
    svg { background: #0d1117; }
    text { fill: #e6edf3; } .faint { fill: #9198a1; } .lane { fill: #171d25; } .rule { stroke: #30363d; }
    .crowd { fill: #3d444d; } .unit { fill: #0d1117; } .halo { stroke: #171d25; }
    .r0 { stroke: #58a6ff; } .r1 { stroke: #f0883e; } .r2 { stroke: #56d364; } .r3 { stroke: #bc8cff; } .r4 { stroke: #f778ba; }
    .d0 { fill: #58a6ff; } .d1 { fill: #f0883e; } .d2 { fill: #56d364; } .d3 { fill: #bc8cff; } .d4 { fill: #f778ba; }
  }
"""


class Drawing:
    def __init__(self, story, name):
        self.story, self.name, self.out = story, name, []
        self.place_rows()
        self.place_tracks()
        self.place_lanes()
        roots = sorted({it.root for it in story.elements.values()})
        self.colour = {root: at % 5 for at, root in enumerate(roots)}

    def place_rows(self):
        self.y, y = [], TOP + ROW
        for row in self.story.rows:
            y += GAP * row.gap
            self.y.append(y)
            y += ROW
        self.y.append(y)
        self.height = y + FOOT

    def place_tracks(self):
        """Gives each element a track of its lane, for as long as it is on its way there."""
        self.track, ends = {}, {}
        for it in sorted(self.story.elements.values(), key=lambda it: (it.born, it.number)):
            busy = ends.setdefault(it.lane, [])
            until = it.end if it.end >= 0 else len(self.story.rows) + 1
            free = next((at for at, end in enumerate(busy) if end < it.born), len(busy))
            busy[free:free + 1] = [until]
            self.track[it.number] = free
        self.tracks = {lane: len(busy) for lane, busy in ends.items()}

    def place_lanes(self):
        widest = max([len(it.command) for it in self.story.rows] + [7])
        x, self.left, self.width_of = COMMANDS + widest * LETTER + 18, [], []
        for lane in range(len(self.story.servers) + 1):
            heads = self.head(lane) + (["final " + self.story.servers[lane - 1].final] if lane else [])
            width = EDGE + UNIT * (lane > 0) + TRACK * self.tracks.get(lane, 0) + EDGE
            width = max(width, max(len(it) for it in heads) * 6.8 + 16)
            self.left.append(x)
            self.width_of.append(width)
            x += width + 8
        self.reports = x + 8
        widest = max([len(it.line) for it in self.story.rows] + [6])
        self.width = self.reports + widest * LETTER + 12

    def head(self, lane):
        if lane == 0:
            return ["client", ""]
        server = self.story.servers[lane - 1]
        return [server.name, f"stage {server.stage}, {server.act}"]

    def unit_x(self, lane):
        return self.left[lane] + EDGE + UNIT / 2 - 5

    def track_x(self, element):
        return self.left[element.lane] + EDGE + UNIT * (element.lane > 0) + TRACK * (self.track[element.number] + 0.5) - 5

    def put(self, text):
        self.out.append(text)

    def text(self, x, y, text, kind="", anchor="start"):
        said = f' class="{kind}"' if kind else ""
        at = "" if anchor == "start" else f' text-anchor="{anchor}"'
        self.put(f'<text x="{x:.0f}" y="{y:.0f}"{said}{at}>{escape(text)}</text>')

    def whole(self):
        """The picture, with its name and its story in words."""
        ways = [self.story.words(it) for it in sorted(self.story.elements.values(), key=lambda it: it.number)]
        told = " ".join(([self.story.title] if self.story.title else []) + ways)
        self.put(f'<svg xmlns="http://www.w3.org/2000/svg" viewBox="0 0 {self.width:.0f} {self.height:.0f}" width="{self.width:.0f}" height="{self.height:.0f}" role="img" aria-labelledby="title desc">')
        self.put(f'<title id="title">The run of {escape(self.name)}</title>')
        self.put(f'<desc id="desc">{escape(told)}</desc>')
        self.put(f"<style>{STYLE}</style>")
        self.backdrop()
        for it in sorted(self.story.elements.values(), key=lambda it: it.number):
            self.element(it)
        self.legend()
        self.put("</svg>")
        return "\n".join(self.out) + "\n"

    def backdrop(self):
        """The lanes, the commands on their left and the report's lines on their right."""
        bottom = self.y[-1] + 30
        self.text(COMMANDS, TOP - 34, "command", "faint small")
        self.text(self.reports, TOP - 34, "report", "faint small")
        for lane, (x, width) in enumerate(zip(self.left, self.width_of)):
            self.put(f'<rect class="lane" x="{x:.0f}" y="{TOP - 52}" width="{width:.0f}" height="{bottom - TOP + 52:.0f}" rx="6"/>')
            name, what = self.head(lane)
            self.text(x + 8, TOP - 34, name, "head")
            self.text(x + 8, TOP - 18, what, "faint small")
            if lane and self.story.servers[lane - 1].final:
                self.text(x + 8, bottom - 8, "final " + self.story.servers[lane - 1].final, "small")
        for row, y in zip(self.story.rows, self.y):
            if row.is_crowd:
                x = self.left[0]
                self.put(f'<rect class="crowd" x="{x:.0f}" y="{y - 10:.0f}" width="{self.reports - 16 - x:.0f}" height="20" rx="4"/>')
            self.text(COMMANDS, y + 4, row.command)
            self.text(self.reports, y + 4, row.line, "faint")
        self.put(f'<line class="rule" x1="{COMMANDS}" x2="{self.width - 12:.0f}" y1="{TOP - 6}" y2="{TOP - 6}"/>')

    def element(self, it):
        """An element's line: down its track, over to each unit that held it, back where that aborted, and to its end."""
        colour = self.colour[it.root]
        self.put(f"<g><title>{escape(self.story.words(it))}</title>")
        x, y = self.track_x(it), self.y[it.born]
        if it.lane == 0:
            self.put(f'<circle class="d{colour}" cx="{x:.0f}" cy="{y:.0f}" r="5"/>')
            at = y
        else:
            self.put(f'<path class="way r{colour}" d="M{self.unit_x(it.lane) + 22:.0f},{y:.0f} H{x - 6:.0f} Q{x:.0f},{y:.0f} {x:.0f},{y + 6:.0f}"/>')
            at = y + 6
        for hold in it.holds:
            at = self.hold(it, hold, at, colour)
        if at is not None:
            self.end(it, at, colour)
        self.text(x + 4, y + 17, str(it.number), "small halo")
        self.put("</g>")

    def hold(self, it, hold, at, colour):
        """Draws the way to a unit and the unit, and returns where the line goes on in its track, if it does."""
        x, to = self.track_x(it), self.unit_x(hold.lane)
        y, last = self.y[hold.first], self.y[hold.last if hold.last >= 0 else hold.first]
        side = 22 if x > to else -22
        turn = -6 if x > to else 6
        ends = hold.how in ("done", "lost", "held") or hold.killed >= 0
        if hold.first == hold.last and not ends:
            self.put(f'<path class="way r{colour}" d="M{x:.0f},{at:.0f} V{y:.0f}"/>')
            self.put(f'<path class="way spur r{colour}" d="M{x:.0f},{y:.0f} H{to + side:.0f}"/>')
        else:
            self.put(f'<path class="way r{colour}" d="M{x:.0f},{at:.0f} V{y - 6:.0f} Q{x:.0f},{y:.0f} {x + turn:.0f},{y:.0f} H{to + side:.0f}"/>')
        if not ends and hold.last > hold.first:
            self.put(f'<path class="way spur r{colour}" d="M{to + side:.0f},{last:.0f} H{x:.0f}"/>')
        gone = " gone" if hold.how != "done" else ""
        self.put(f'<rect class="unit r{colour}{gone}" x="{to - 22:.0f}" y="{y - 9:.0f}" width="44" height="{last - y + 18:.0f}" rx="5"/>')
        self.text(to, y + 4, hold.unit or hold.how, "small", "middle")
        if hold.last > hold.first:
            self.text(to, last + 4, {"done": "commit", "aborted": "abort"}.get(hold.how, hold.how), "small", "middle")
        if hold.killed >= 0:
            self.cross(to, self.y[hold.killed], colour)
            if it.end != hold.killed or it.how != "killed":
                # (the unit was aborted by a release, and the element waits again)
                self.put(f'<path class="way spur r{colour}" d="M{to + side:.0f},{self.y[hold.killed]:.0f} H{x:.0f}"/>')
                return self.y[hold.killed]
        return None if ends else last

    def end(self, it, at, colour):
        """The last of an element's line, from `at` on, and what stands there."""
        x = self.track_x(it)
        y = self.y[it.end] if it.end >= 0 else self.y[-1]
        if it.how.startswith("taken"):
            y -= 10
        if it.how == "parked":
            y = self.y[it.parked] + ROW / 2
        if y > at:
            self.put(f'<path class="way r{colour}" d="M{x:.0f},{at:.0f} V{y:.0f}"/>')
        for row in [*it.parkings, it.parked]:
            if row >= 0:
                parked = self.y[row] + ROW / 2
                self.put(f'<rect class="d{colour}" x="{x - 5:.0f}" y="{parked - 5:.0f}" width="10" height="10"/>')
        if it.how == "killed":
            self.cross(x, y, colour)
        elif it.how == "waiting":
            self.put(f'<circle class="unit r{colour}" cx="{x:.0f}" cy="{y:.0f}" r="5"/>')

    def cross(self, x, y, colour):
        self.put(f'<path class="way r{colour}" d="M{x - 6:.0f},{y - 6:.0f} l12,12 m0,-12 l-12,12"/>')

    def legend(self):
        """What the marks mean, in a line at the foot."""
        y = self.height - 30
        marks = [
            ('<circle class="d0" cx="6" cy="-4" r="5"/>', "submitted"),
            ('<rect class="unit r0" x="0" y="-12" width="22" height="16" rx="4"/>', "unit, committed"),
            ('<rect class="unit r0 gone" x="0" y="-12" width="22" height="16" rx="4"/>', "unit, aborted"),
            ('<circle class="unit r0" cx="6" cy="-4" r="5"/>', "waits"),
            ('<rect class="d0" x="1" y="-9" width="10" height="10"/>', "parked"),
            ('<path class="way r0" d="M0,-10 l12,12 m0,-12 l-12,12"/>', "killed"),
        ]
        if any(it.is_crowd for it in self.story.rows):
            marks.append(('<rect class="crowd" x="0" y="-12" width="22" height="16" rx="4"/>', "who took what isn't told"))
        x = COMMANDS
        for mark, meaning in marks:
            wide = 28 if 'width="22"' in mark else 18
            length = wide + len(meaning) * 6.7 + 20
            if x + length > self.width and x > COMMANDS:
                x, y = COMMANDS, y + 18
            self.put(f'<g transform="translate({x:.0f},{y:.0f})">{mark}<text class="faint small" x="{wide}">{meaning}</text></g>')
            x += length
