"""Finds a history that agrees with a log.

Nearly all of the order is in the answers: an element's claims are numbered, and what a unit made is born at its commit. So the
points of each element lie in a chain, and each point between two times of the counter. What is left to choose is which call
aborted a unit or killed an element that others report, and, where a call passed an element over, whether that began to wait
after the call began or was taken before it ended. Each choice narrows the times of a point, and what must come before and after.
"""
from histories import MAX_ROUNDS, Point, Wrong, agrees, contents, status

# How many choices are tried out in one round.
TRIES = 20_000

# What a refusal says that an element is not.
NOT_SO = {"NotParked": "parked", "NotHeld": "held", "NotWaiting": "waiting"}


def drafts_of(stage, body, count):
    """The drafts of a commit: in each further one each word but the key is one more."""
    key, *words = body
    return [(stage, (key, *(word + it for word in words))) for it in range(count)]


class GaveUp(Exception):
    """Neither a history was found nor that there is none."""


class Log:
    """The points of all calls of a round, which come before which, and where that is for a search to choose."""

    def __init__(self, limits, calls, with_order=True):
        self.limits, self.points, self.with_order = limits, [], with_order
        self.births, self.roots, self.stages, self.claims, self.ends = {}, {}, {}, {}, {}
        self.kills, self.cancels, self.looks, self.nones, self.requeues = {}, [], [], [], {}
        # The point at which a call aborted a unit, with the element and the attempt that it reported; and where a refusal says of an
        # element whether it is a reply.
        self.releases, self.kinds = {}, []
        # Of which call an abort or a kill may have been, and how many each call says that it made.
        self.choices, self.needs = [], {}
        # The spare blocks that calls named, how many were drawn in all, and a call that found none left.
        self.blocks, self.draws, self.full = set(), 0, None
        for thread in sorted({it.thread for it in calls}):
            self.next, self.left, self.used = thread * limits["rows"], limits["rows"], 0
            self.open, self.turns = None, {}
            for call in calls:
                if call.thread == thread:
                    getattr(self, "take_" + call.kind.lower())(call, call.told)
        if self.full:
            self.must(self.draws == limits["spare"], self.full, "a spare block was left")
        self.find_roots()
        self.stands = {id: self.lifetime(id) for id in self.births}
        if not set(self.claims) | set(self.kills) | set(self.requeues) | {it[1] for it in self.kinds} <= set(self.births):
            raise Wrong("what was never born was taken or killed, or is of a stage")
        if not set(self.releases) <= set(self.ends):
            raise Wrong("a unit that took nothing was released")
        for it in self.looks:
            self.place_look(*it)
        for call, id, is_reply in self.kinds:
            self.births[id].next.append(self.point(call, "stage_is", id, is_reply))
        for call in self.cancels:
            self.place_cancel(call)

    def point(self, call, does, *what):
        self.points.append(Point(call, does, *what))
        return self.points[-1]

    # What each call says, for its own thread first.

    def must(self, holds, call, why):
        if not holds:
            raise Wrong(f"thread {call.thread}, {call.before} to {call.after}, {call.kind}: {why}")

    def first_row(self, call, count, told):
        """Returns the first of `count` rows that the pass uses: `told`, or None where the answer names none."""
        own = self.limits["parts"] * self.limits["rows"]
        if self.left < count:
            self.next, self.left, self.draws = None, 8, self.draws + 1
            self.must(self.draws <= self.limits["spare"], call, "no spare block was left")
        if self.next is None and told is not None:
            # The run is in a block that no call has named yet: a lost commit names no id.
            block, at = divmod(told - own, 8)
            self.must(0 <= block < self.limits["spare"] and block not in self.blocks and at == 8 - self.left, call, "not a row of a new block")
            self.blocks.add(block)
            self.next = told
        first, self.left = self.next, self.left - count
        self.next = None if first is None else first + count
        return first

    def no_room(self, call, count):
        self.full = call
        return self.must(self.left < count, call, "there was room")

    def take_submit(self, call, told):
        if call.answer == ("Err", "Full"):
            return self.no_room(call, 1)
        how, id = call.answer
        self.must(how == "Ok" and self.first_row(call, 1, id) == id, call, "not the next id")
        self.births[id] = self.point(call, "submit", call.thread, id, told["stage"], tuple(told["body"]))

    def has_unit(self, call, is_refused):
        self.must(is_refused == (self.used == self.limits["units"]), call, "there were units" if is_refused else "no unit was left")
        return not is_refused

    def take_claim(self, call, told, begins=0):
        if not self.has_unit(call, call.answer == "NoUnit"):
            return
        stage = told["stage"]
        if call.answer == "Idle":
            return self.nones.append((call, "waiting", stage, None, 0, float("inf")))
        id = self.take(call, call.answer[1], stage)
        if self.with_order:
            # It takes the first that waits, from where it begins and then from 0 on: each one before that was passed over.
            ends = [(begins, id)] if begins <= id else [(begins, float("inf")), (0, id)]
            self.nones += [(call, "waiting", stage, None, first, end) for first, end in ends]

    def take_claimnext(self, call, told):
        self.take_claim(call, told, self.turns.get(told["stage"], 0))
        if call.answer[0] == "Work":
            self.turns[told["stage"]] = call.answer[1]["element"]["id"] + 1

    def take_claimid(self, call, told):
        how, what = call.answer
        if not self.has_unit(call, what == "NoUnit"):
            return
        if how == "Ok":
            self.must(self.take(call, what, what["element"]["stage"]) == told["id"], call, "another element")
        else:
            self.found(call, what, is_reply=what == "BadStage")

    def take(self, call, work, stage):
        self.must(work["unit"] == call.thread * self.limits["units"] + self.used, call, "not the next unit")
        id, self.open, self.used = work["element"]["id"], work["unit"], self.used + 1
        what = self.open, id, contents(work["element"]), stage, work["attempt"]
        self.claims.setdefault(id, []).append((work["attempt"], self.open, self.point(call, "claim", call.thread, *what)))
        self.ends[self.open] = None
        return id

    def found(self, call, why, is_reply):
        """A refusal says how the element stood, or that it was not there, and whether it is a reply."""
        if why != "BadStage":
            self.looks.append((call, call.told["id"], {"NotThere": None, "AlreadyKilled": ("killed",)}.get(why, why), None))
        if why != "NotThere":
            self.kinds.append((call, call.told["id"], is_reply))

    def take_commit(self, call, told):
        count = told["drafts"]
        if call.answer == "Full":
            self.no_room(call, count)
            self.ends[self.open] = ("aborted by any", call)
            return
        if call.answer == "Lost":
            if count:
                self.first_row(call, count, None)
            self.ends[self.open] = ("aborted by another", call)
        else:
            first = self.first_row(call, count, call.answer["first"]) if count else 0
            drafts = told.get("outputs") or drafts_of(told["stage"], told["body"], count)
            wanted = {"is": "Committed", "first": first, "count": len(drafts)}
            self.must(call.answer == wanted, call, "not the drafts' ids")
            made = self.point(call, "commit", call.thread, self.open, first, drafts)
            self.ends[self.open] = ("committed", made)
            for it in range(len(drafts)):
                self.births[first + it] = made

    def take_abort(self, call, told):
        if call.answer == "Aborted":
            self.ends[self.open] = ("aborted", self.point(call, "abort", self.open))
        else:
            self.ends[self.open] = ("aborted by another", call)

    def take_release(self, call, told):
        how, what = call.answer
        if how == "Ok":
            unit, attempt = what["unit"], what["attempt"]
            self.must(unit not in self.releases, call, "that unit was released before")
            self.releases[unit] = (told["id"], attempt, self.point(call, "release", told["id"], unit, attempt))
        else:
            self.looks.append((call, told["id"], None if what == "NotThere" else what, None))

    def take_kill(self, call, told):
        if call.answer[0] == "Ok":
            self.kills.setdefault(told["id"], []).append((call, self.point(call, "kill", told["id"])))
            self.needs[call, "abort"] = call.answer[1]["units_aborted"]
        elif call.answer[1] == "NotThere":
            self.looks.append((call, told["id"], None, None))
        else:
            wanted = ("killed",) if call.answer[1] == "AlreadyKilled" else status(call.answer[1])
            self.looks.append((call, told["id"], wanted, None))
            self.kills.setdefault(told["id"], []).append((call, None))

    def take_cancel(self, call, told):
        if call.answer[0] == "Ok":
            self.cancels.append(call)
        else:
            self.looks.append((call, told["root"], "no request", None))

    def take_requeue(self, call, told):
        id = told["id"]
        if call.answer[0] == "Ok":
            rounds = self.requeues.setdefault(id, {})
            self.must(call.answer[1] not in rounds, call, "that round was given before")
            rounds[call.answer[1]] = self.point(call, "requeue", id, call.answer[1])
        else:
            self.looks.append((call, id, None if call.answer[1] == "NotThere" else call.answer[1], None))

    def take_read(self, call, told):
        if call.answer == ("Err", "NotThere"):
            return self.looks.append((call, told["id"], None, None))
        look = call.answer[1]
        self.must(look["element"]["id"] == told["id"], call, "another element")
        self.looks.append((call, told["id"], status(look["status"]), contents(look["element"])))

    def take_reply(self, call, told, name="waiting", stage=15):
        found = call.answer[1] if call.answer != "None" else float("inf")
        self.nones.append((call, name, stage, told.get("root"), told["from"], found))
        if call.answer != "None":
            self.looks.append((call, found, (name,), (15, told["root"]) if name == "waiting" else None))
            self.must(found >= told["from"], call, "an id before it was asked from")

    def take_nexterror(self, call, told):
        self.take_reply(call, told, "parked", None)

    def take_collect(self, call, told):
        how, what = call.answer
        if how == "Ok":
            self.must(what["id"] == told["id"], call, "another element")
            self.collect(call, what)
        else:
            self.found(call, what, is_reply=what == "AlreadyKilled")

    def take_collectnext(self, call, told):
        found = float("inf")
        if call.answer != "None":
            found = call.answer[1]["id"]
            self.must(call.answer[1]["root"] == told["root"], call, "a reply to another request")
            self.collect(call, call.answer[1])
        if self.with_order:
            self.nones.append((call, "waiting", 15, told["root"], 0, found))

    def collect(self, call, element):
        self.kills.setdefault(element["id"], []).append((call, self.point(call, "collect", element["id"], contents(element))))

    def take_family(self, call, told):
        found = float("inf")
        if call.answer != "None":
            look = call.answer[1]
            found = look["element"]["id"]
            self.must(look["element"]["root"] == told["root"], call, "an element of another request")
            self.must(found >= told["from"], call, "an id before it was asked from")
            self.looks.append((call, found, status(look["status"]), contents(look["element"])))
        self.nones.append((call, "there", None, told["root"], told["from"], found))

    def find_roots(self):
        """Finds each element's root and stage: an output's are that of what its unit took, and its draft's."""
        taken = {unit: id for id, claims in self.claims.items() for _, unit, _ in claims}
        for id, made in self.births.items():
            root = id
            for _ in range(len(self.births)):
                if self.births[root].does == "submit":
                    break
                root = taken[self.births[root].what[1]]
                if root not in self.births:
                    raise Wrong(f"{root} was taken, and not born")
            self.roots[id] = root
            made = made.what
            self.stages[id] = made[2] if root == id else made[3][id - made[2]][0]

    # How each element stood, one status after another, each from a point on.

    def lifetime(self, id):
        stands = [(("waiting", 0), self.births[id])]
        killed = [it for it in self.kills.get(id, []) if it[1]]
        is_killed = killed or any(of == id and wanted == ("killed",) for _, of, wanted, _ in self.looks)
        changes = self.claims_and_rounds(id)
        for place, (attempt, unit, made) in enumerate(changes, 1):
            if unit is None:
                if stands[-1][0][0] != "parked":
                    raise Wrong(f"{id} is given another round, and was {stands[-1][0]}")
                stands.append((("waiting", 0), made))
                continue
            if stands[-1][0] != ("waiting", attempt - 1):
                raise Wrong(f"{id} is taken by unit {unit} as {attempt}, and was {stands[-1][0]}")
            stands.append((("held", unit, attempt), made))
            how, by = self.ends[unit] or ("open", None)
            released = self.releases.get(unit)
            if released and (how in ("committed", "aborted") or released[:2] != (id, attempt)):
                raise Wrong(f"unit {unit} is released from {released[0]}, took {id} as {attempt}, and was {how}")
            if how == "committed":
                stands.append((("consumed", unit), by))
            elif how != "open" or place < len(changes) or is_killed or released:
                if released:
                    by = self.before_end(released[2], by)
                elif how != "aborted":
                    by = self.abort_by_another(id, unit, by, how)
                name = "waiting" if attempt < self.limits["attempts"] else "parked"
                stands.append(((name, attempt), by))
        if is_killed:
            if len(killed) > 1 or stands[-1][0][0] == "consumed":
                raise Wrong(f"{id} is killed, and was {stands[-1][0]} or killed before")
            stands.append((("killed",), killed[0][1] if killed else self.kill_by_cancel(id)))
        for (_, a), (_, b) in zip(stands, stands[1:]):
            a.next.append(b)
        return stands

    def claims_and_rounds(self, id):
        """The claims of an element in order, and before those of each further round its requeue, with no unit. Claims for the
        same time are of one round after another, so their calls end one after another too."""
        rounds = self.requeues.get(id, {})
        if sorted(rounds) != list(range(1, len(rounds) + 1)):
            raise Wrong(f"{id} was given the rounds {sorted(rounds)}")
        times = {}
        for it in sorted(self.claims.get(id, []), key=lambda it: it[2].window[1]):
            times.setdefault(it[0], []).append(it)
        changes = []
        for round in range(len(rounds) + 1):
            if round:
                changes.append((0, None, rounds[round]))
            changes += [its[round] for _, its in sorted(times.items()) if round < len(its)]
        if len(changes) < len(rounds) + sum(map(len, times.values())):
            raise Wrong(f"{id} is taken more often than its rounds allow")
        return changes

    @staticmethod
    def before_end(made, end):
        """Another's abort of a unit comes before the end of the call that found it."""
        if end:
            made.low, made.high = made.window = (made.low, min(made.high, end.after))
        return made

    def abort_by_another(self, id, unit, end, how):
        made = self.before_end(self.point(None, "abort", unit), end)
        owner = unit // self.limits["units"]
        calls = [it for it, _ in self.kills.get(id, [])] + self.cancels_of(id)
        calls = [it for it in calls if it.thread != owner] + [end] * (how == "aborted by any")
        # A kill that went through says how many units it aborted, so those are tried first.
        calls.sort(key=lambda it: (it, "abort") not in self.needs)
        self.choices.append([(made, it.before, it.after, (it, "abort")) for it in calls])
        return made

    def kill_by_cancel(self, id):
        made = self.point(None, "kill", id)
        self.choices.append([(made, it.before, it.after, (it, "kill")) for it in self.cancels_of(id)])
        return made

    def cancels_of(self, id):
        return [it for it in self.cancels if it.told["root"] == self.roots[id] and self.stages[id] != 15]

    def place_look(self, call, id, wanted, element):
        if wanted == "no request":
            if id in self.births and self.births[id].does == "commit":
                return
            wanted = None
        if wanted is None:
            made = self.point(call, "look", id, wanted, element)
            if id in self.births:
                made.next.append(self.births[id])
            return
        stands = self.stands.get(id, [])
        after = [it for _, it in stands[1:]] + [None]
        places = [at for at, (it, since) in enumerate(stands) if self.is_so(id, at, wanted) and since.low < call.after
                  and (after[at] is None or after[at].high > call.before)]
        self.must(places, call, f"{id} was not {wanted} then")
        if len(places) > 1:
            # It stood so more than once in that time, in one round and another: which look it was is left open.
            self.births[id].next.append(self.point(call, "look", id, (), element))
            return
        if wanted in NOT_SO:
            wanted = stands[places[0]][0]
        made = self.point(call, "no_round", id) if wanted == "NoRound" else self.point(call, "look", id, wanted, element)
        stands[places[0]][1].next.append(made)
        if after[places[0]]:
            made.next.append(after[places[0]])

    def is_so(self, id, at, wanted):
        """Whether an element's status at a place of its life is the wanted one, or begins so."""
        stands = self.stands[id]
        if wanted in NOT_SO:
            return stands[at][0][0] != NOT_SO[wanted]
        if wanted == "NoRound":
            return stands[at][0][0] == "parked" and sum(it.does == "requeue" for _, it in stands[: at + 1]) == MAX_ROUNDS
        return stands[at][0][: len(wanted)] == wanted

    def place_cancel(self, call):
        root = call.told["root"]
        self.must(root in self.births and self.births[root].does == "submit", call, "no such request")
        made = self.point(call, "settled", root)
        self.needs[call, "kill"] = call.answer[1]["killed"]
        for id, its in self.roots.items():
            if its == root and self.stages[id] != 15:
                how, since = self.stands[id][-1]
                self.must(how[0] in ("consumed", "killed"), call, f"{id} is {how} ever after")
                since.next.append(made)

    def passed_over(self):
        """For each answer that passed an element over, the times from which and to which that stood so, from a call on."""
        kinds = {}
        for id, stands in self.stands.items():
            for (how, since), (_, until) in zip(stands, [*stands[1:], (None, None)]):
                if how[0] in ("waiting", "parked"):
                    key = (how[0], self.stages[id]) if how[0] == "waiting" else ("parked", None)
                    kinds.setdefault(key, []).append((id, since, until))
            kinds.setdefault(("there", None), []).append((id, stands[0][1], None))
        for call, name, stage, root, first, end in self.nones:
            for id, since, until in kinds.get((name, stage), []):
                if first <= id < end and (root is None or self.roots[id] == root):
                    yield call, id, since, until


def narrow(point, low, high, trail):
    """Puts a point after and before these times, and what follows from that; false where there is none left for some point."""
    todo = [(point, low, high)]
    while todo:
        point, low, high = todo.pop()
        if low <= point.low and high >= point.high:
            continue
        trail.append((point, point.low, point.high))
        point.low, point.high = max(low, point.low), min(high, point.high)
        if point.low >= point.high:
            return False
        todo += [(it, point.low, float("inf")) for it in point.next]
        todo += [(it, -1, point.high) for it in point.last]
    return True


def in_order(points):
    """The points in an order in which each comes before those that it must come before."""
    for it in points:
        for later in it.next:
            later.last.append(it)
    waits = {it: len(it.last) for it in points}
    ready, sorted_ = [it for it in points if not it.last], []
    while ready:
        sorted_.append(ready.pop())
        for later in sorted_[-1].next:
            waits[later] -= 1
            if not waits[later]:
                ready.append(later)
    if len(sorted_) < len(points):
        raise Wrong("points that each come before the other")
    return sorted_


class Search:
    def __init__(self, log):
        self.log, self.needs, self.tries, self.chosen, self.trail = log, dict(log.needs), TRIES, {}, []

    def run(self):
        """Returns the points in the order of a history, each with the latest time before it as its low."""
        points = in_order(self.log.points)
        for it in points:
            if not narrow(it, max([it.low, *(before.low for before in it.last)]), it.high, []):
                raise Wrong(f"{it.does} {it.what} at no time")
        for it in reversed(points):
            if not narrow(it, it.low, min([it.high, *(after.high for after in it.next)]), []):
                raise Wrong(f"{it.does} {it.what} at no time")
        choices = list(self.log.choices)
        for call, id, since, until in self.log.passed_over():
            # It was not so all the time: it began to be so after the call began, or was over before the call ended.
            if since.low < call.before and (until is None or until.high > call.after):
                choices.append([(since, call.before, float("inf"), None)] + [(until, -1, call.after, None)] * (until is not None))
        if not self.choose(choices):
            raise Wrong("no choice of who aborted, who killed and what came first fits")
        for point, call in self.chosen.items():
            point.window = (call.before, min(call.after, point.window[1]))
        place = {it: at for at, it in enumerate(points)}
        return sorted(points, key=lambda it: (it.low, place[it]))

    def fits(self, choice):
        point, low, high, call = choice
        return max(low, point.low) < min(high, point.high) and self.needs.get(call, 1) > 0

    def take(self, choice):
        point, low, high, call = choice
        if call in self.needs:
            self.needs[call] -= 1
        if call:
            self.chosen[point] = call[0]
        return narrow(point, low, high, self.trail)

    def choose(self, choices):
        """Takes what has no other choice, and then tries each of the fewest."""
        self.tries -= 1
        if self.tries < 0:
            raise GaveUp(f"no answer after {TRIES} tries")
        is_forced = True
        while is_forced:
            is_forced, left = False, []
            for options in choices:
                if any(call is None and low <= point.low and high >= point.high for point, low, high, call in options):
                    continue
                options = [it for it in options if self.fits(it)]
                if len(options) > 1:
                    left.append(options)
                    continue
                is_forced = True
                if not options or not self.take(options[0]):
                    return False
            choices = left
        if not choices:
            return not any(self.needs.values())
        options = min(choices, key=len)
        others = [it for it in choices if it is not options]
        for it in options:
            mark, needs, chosen = len(self.trail), dict(self.needs), dict(self.chosen)
            if self.take(it) and self.choose(others):
                return True
            while len(self.trail) > mark:
                point, point.low, point.high = self.trail.pop()
            self.needs, self.chosen = needs, chosen
        return False


def find(limits, calls, account, with_order=True):
    """Finds a history that agrees with a round's log, or raises Wrong; returns how many points it has. Without order a claim may take
    any element of its stage that waits."""
    log = Log(limits, calls, with_order)
    points = Search(log).run()
    agrees(limits, points, log.nones, account)
    return len(points)
