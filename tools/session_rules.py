"""The rules of sessions: what each line is answered, and what it leaves. They are written from docs/LIVE.md,
and know nothing of the program."""
from session_heads import AWAITING, SETTINGS, Head, must, shown, words
from session_lines import Fault, parted, said
from session_store import Refused

FAULTS = {"Syntax": 1, "BadNumber": 2, "BadLimits": 3, "BadRecipe": 4, "BadName": 5, "TooLong": 6, "Order": 7}
REFUSALS = {
    "BadStage": 3, "NotThere": 4, "Consumed": 5, "AlreadyKilled": 6, "Full": 7, "NotParked": 8, "NoRound": 9, "NotWaiting": 10,
    "Busy": 11, "NotHeld": 12, "Gap": 15, "Fenced": 16, "Differs": 17,
}
STATES = ("waiting", "held", "consumed", "parked", "killed")
ROUNDS = 1000


class RuledSession(Head):
    """A session between two lines."""

    def __init__(self):
        super().__init__()
        self.lines = 0

    def answers(self, line):
        """The lines that a line is answered: none, one, or those of a dump."""
        self.lines += 1
        tag, behind = parted(line)
        told = self.answers_behind(behind, line)
        return told if tag is None else [f"@{tag} {it}" for it in told] or [f"@{tag}"]

    def answers_behind(self, line, whole):
        try:
            return self.answer(said(line, whole))
        except Fault as fault:
            return [f"refused line {self.lines}: {FAULTS[str(fault)]} {fault}"]
        except Refused as why:
            return [f"refused {REFUSALS[why.args[0]]} {why}"]

    def answer(self, line):
        if line is None:
            return []
        verb, *rest = line
        if verb == "version":
            return ["version 0.25.0 lines 2"]
        if verb in SETTINGS + AWAITING:
            return self.of_head(verb, rest)
        must(self.phase == "head" or (verb == "restore") == (self.phase == "restoring"), "Order")
        before, self.phase = self.phase, "begun"
        try:
            told = getattr(self, f"do_{verb}")(*rest)
        except Fault:
            self.phase = before
            raise
        return told if verb == "dump" else [told]

    def finals(self):
        return [f"final {name} {words(v.registers, ' ')}" for name, v in self.servers.items()]

    # -- requests

    def do_submit(self, stage, body):
        return f"submitted {self.store.submit(stage, body)}"

    def do_kill(self, id):
        return f"killed {id} aborted {int(self.store.kill(id))}"

    def do_cancel(self, root):
        return f"cancelled {root} killed {self.store.cancel(root)}"

    def do_requeue(self, id):
        return f"requeued {id} round {self.store.requeue(id)}"

    def do_release(self, id):
        unit, attempt = self.store.release(id)
        return f"released {id} unit {unit} attempt {attempt}"

    def do_read(self, id):
        e = self.store.at(id)
        more = f" more {e.body[2]} {e.body[3]}" if any(e.body[2:]) else ""
        maker = "client" if e.by is None else e.by
        return f"{id} stage {e.stage} root {e.root} key {e.body[0]} amount {e.body[1]}{more} by {maker} {words(e.status, ' ')}"

    def replies(self, root):
        return [(id, e) for id, e in self.store.family(root) if e.is_reply()]

    def do_reply(self, root, verb="replies"):
        return f"{verb} {root}" + "".join(f" {id}:{words(shown(e.body))}" for id, e in self.replies(root))

    def do_collect(self, root):
        told = self.do_reply(root, "collected")
        for id, _ in self.replies(root):
            self.store.collect(id)
        return told

    def do_family(self, root):
        return f"family {root}" + "".join(f" {id}:{e.stage}:{e.status[0]}" for id, e in self.store.family(root))

    def do_errors(self):
        return "errors" + "".join(f" {id}" for id, e in self.store.elements.items() if e.status[0] == "parked")

    def do_list(self, stage, start):
        return f"list {stage}" + "".join(f" {id}" for id in self.store.waiting(stage, start)[:200])

    def do_count(self):
        return " ".join(f"{it} {self.store.total[it]}" for it in STATES)

    def do_account(self):
        if self.store.total["held"]:
            raise Refused("Busy")
        return f"account born {self.store.total.total()} {self.do_count()}"

    def do_depth(self):
        rows = [(stage, *(counts[it] for it in ("waiting", "held", "parked"))) for stage, counts in sorted(self.store.tally.items())]
        return "depth" + "".join(f" {words(it)}" for it in rows if any(it[1:]))

    # -- servers and workers

    def do_holds(self):
        told = "holds"
        for name, it in [*self.servers.items(), *sorted(self.workers.items())]:
            if it.hand is not None:
                e = self.store.held(it.hand)
                told += f" {name}:{words(it.hand[:2])}:{e.status[2] if e else 'lost'}"
        return told

    def do_sum(self, k):
        return f"sum {k} {sum(it.registers[k] for it in self.servers.values() if k < len(it.registers))}"

    def do_balance(self, name, k):
        registers = self.server(name).registers
        return f"balance {name} {k} {registers[k] if k < len(registers) else 'none'}"

    def do_drain(self, in_turn):
        for _ in range(ROUNDS):
            took = False
            for it in self.servers.values():
                if not it.is_dropped and it.hand is None:
                    took = self.turn(it, in_turn) != "idle" or took
            if not took:
                return "drained"
        return "drained so far"

    def act(self, name, verb, *rest, only=None):
        if only is not None:
            it = self.worker(name)
            if not it.hand or (it.hand[0], it.hand[2]) != only:
                return f"{name} other"
        if name in self.workers:
            must(verb not in ("turn", "prepare", "drop"), "BadName")
            return f"{name} {self.works(self.workers[name], verb, *rest)}"
        it = self.server(name)
        must(verb != "commit" or not rest[0], "Syntax")
        return f"{name} {'ended' if it.is_dropped else self.serves(it, verb, *rest)}"

    def do_claim(self, name):
        return self.act(name, "claim")

    def do_next(self, name):
        return self.act(name, "next")

    def do_take(self, name, id):
        return self.act(name, "take", id)

    def do_turn(self, name):
        return self.act(name, "turn")

    def do_prepare(self, name):
        return self.act(name, "prepare")

    def do_commit(self, name, drafts, only):
        return self.act(name, "commit", drafts, only=only)

    def do_abort(self, name, only):
        return self.act(name, "abort", only=only)

    def do_drop(self, name):
        return self.act(name, "drop")

    def take(self, it, verb, stage, *rest):
        """Takes an element into the hand of a server or a worker; returns what it is told where it has none."""
        if it.hand is not None:
            return "busy"
        if verb == "take":
            try:
                e = self.store.elements.get(rest[0])
                if stage and e and e.stage != stage:
                    raise Refused("BadStage")
                it.hand = self.store.hand_out(rest[0])
            except Refused as why:
                return f"refused {rest[0]} {why}"
            return None
        it.hand = self.store.claim(it.stage, it.start if verb == "next" else 0)
        if it.hand is None:
            return "idle"
        if verb == "next":
            it.start = it.hand[0] + 1
        return None

    def serves(self, it, verb, *rest):
        hand = it.hand
        if verb in ("claim", "next", "take", "turn"):
            told = self.turn(it, False) if verb == "turn" and hand is None else self.take(it, verb, it.stage, *rest)
            if told is None:
                it.is_prepared = False
                told = f"work {it.hand[0]} unit {it.hand[1]} attempt {self.store.held(it.hand).status[2]}"
            return told
        if verb == "drop":
            if hand is not None:
                self.store.abort(hand)
            it.hand, it.is_prepared, it.is_dropped = None, False, True
            return "dropped"
        if hand is None:
            return "none"
        if verb == "abort":
            it.hand, it.is_prepared = None, False
            return f"{'aborted' if self.store.abort(hand) else 'already'} {hand[0]}"
        if verb == "commit":
            return self.settle(it)
        if it.is_prepared:
            return "busy"
        e = self.store.held(hand)
        if e and not isinstance(it.effect(e.body), str):
            it.is_prepared = True
            return "ready"
        return self.settle(it)

    def turn(self, it, in_turn):
        return self.take(it, "next" if in_turn else "claim", it.stage) or self.settle(it)

    def settle(self, it):
        """Commits what a server has in hand, or gives up what its recipe declines."""
        hand, it.hand, it.is_prepared = it.hand, None, False
        e = self.store.held(hand)
        if not e:
            return f"lost {hand[0]}"
        effect = it.effect(e.body)
        if isinstance(effect, str):
            self.store.abort(hand)
            return f"refused {hand[0]} {effect}"
        key, after, drafts = effect
        _, first = self.store.commit(hand, drafts)
        it.registers[key] = after
        return f"done {hand[0]} unit {hand[1]} outputs {first} {len(drafts)}"

    def in_hand(self, hand):
        e = self.store.held(hand)
        told = f"{hand[0]} unit {hand[1]} attempt {e.status[2]} root {e.root} body {words(e.body)}" if e else f"lost {hand[0]}"
        return f"{told} try {hand[2]}"

    def works(self, it, verb, *rest):
        if verb in ("claim", "next", "take"):
            return self.take(it, verb, None, *rest) or f"work {self.in_hand(it.hand)}"
        if it.hand is None:
            return "none"
        hand, it.hand = it.hand, None
        if verb == "commit":
            is_done, first = self.store.commit(hand, rest[0])
            it.end = ("done", *hand[:2], first, len(rest[0])) if is_done else ("lost", hand[0])
            return self.ending(it.end)
        is_aborted = self.store.abort(hand)
        it.end = ("aborted" if is_aborted else "lost", hand[0])
        return f"{'aborted' if is_aborted else 'already'} {hand[0]}"

    @staticmethod
    def ending(end):
        if end and end[0] == "done":
            return "done {} unit {} outputs {} {}".format(*end[1:])
        return words(end, " ") if end else "none"

    def do_leave(self, name):
        told = f"left {name} {self.works(self.worker(name), 'abort')}"
        del self.workers[name]
        return told

    # -- clients

    def client(self, name, epoch=None):
        must(name not in self.servers and name not in self.workers, "BadName")
        if name not in self.clients:
            raise Refused("NotThere")
        if epoch not in (None, self.clients[name].epoch):
            raise Refused("Fenced")
        return self.clients[name]

    def do_send(self, name, epoch, number, stage, body):
        it = self.client(name, epoch)
        if number > it.sent + 1:
            raise Refused("Gap")
        if number == it.sent + 1:
            it.element = self.store.submit(stage, body, it.owner)
            it.sent, it.said = number, (stage, body)
        elif number == it.sent and it.said[0] and it.said != (stage, body):
            raise Refused("Differs")
        return f"sent {name} {number} {it.element if number == it.sent else 'done'}"

    def do_receive(self, name, epoch, number, root, note):
        it = self.client(name, epoch)
        if number > it.received + 1:
            raise Refused("Gap")
        if number == it.received + 1:
            asked = self.store.elements.get(root)
            if root is not None and not (asked and asked.root == root and asked.owner == it.owner):
                raise Refused("NotThere")
            replies = [x for x in self.store.elements.items() if x[1].is_reply()]
            found = [(id, e) for id, e in replies if (e.owner == it.owner if root is None else e.root == root)]
            if not found:
                return f"received {name} {number} none"
            id, e = found[0]
            self.store.collect(id)
            it.received, it.reply, it.root, it.body, it.note = number, id, e.root, e.body, note
        return f"received {name} {number} {self.received(it) if number == it.received else 'done'}"

    @staticmethod
    def received(it):
        return f"{it.reply} {it.root} {words(it.body)}"

    def do_last(self, name):
        if name in self.workers:
            it = self.workers[name]
            return f"last {name} hand {'none' if it.hand is None else self.in_hand(it.hand)} {self.ending(it.end)}"
        it = self.client(name)
        sent = f"sent {it.sent}" + f" {it.element}" * (it.sent > 0)
        received = f"received {it.received}" + f" {self.received(it)}" * (it.received > 0)
        return f"last {name} {sent} {received}" + f" note {it.note}" * (it.note is not None)

    def do_forget(self, name):
        self.client(name)
        del self.clients[name]
        return f"forgotten {name}"
