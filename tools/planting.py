"""Makes one answer of a round's log wrong, so that no history agrees with it any more.

Each kind of error is a method that yields the calls where it can be planted, each with its line made wrong, or, where two calls exchange
what they took, the whole log. What a call means, and so what makes an answer wrong, is histories.py's and history_search.py's to say: an error is
planted where all the rest of the log may stay as it is.
"""
import re
from itertools import islice

from history_search import find
from histories import Wrong, read_rounds, read_value, status

# How many pairs of calls are tried for one whose exchange is wrong in its order alone.
MOST_SWAPS = 12

CLAIMS = ("Claim", "ClaimNext", "ClaimId")


def judge(lines, with_order=True):
    """Looks for a history of one round: returns how many points it has, or why there is none."""
    (limits, calls, account), = read_rounds(lines)
    try:
        return find(limits, calls, account, with_order), ""
    except Wrong as wrong:
        return 0, str(wrong)


class Planter:
    """Makes one answer of a round's log wrong."""

    def __init__(self, lines):
        self.lines = lines
        self.limits, self.calls, _ = read_rounds(lines)[0]
        # The calls of each kind, those that name an element, the last read of it, and when a call had told of its birth.
        self.kinds, self.naming, self.final, self.born = {}, {}, {}, {}
        for call, line in zip(self.calls, lines[1:]):
            call.line = line
            self.kinds.setdefault(call.kind, []).append(call)
            if call.thread == 0 and call.kind == "Read" and call.answer[0] == "Ok":
                self.final[call.told["id"]] = call
            for id in self.born_by(call):
                self.born[id] = call.after
            for id in self.named_by(call):
                self.naming.setdefault(id, []).append(call)

    @staticmethod
    def born_by(call):
        made = call.answer
        if call.kind == "Commit" and isinstance(made, dict):
            return range(made["first"], made["first"] + made["count"])
        return [made[1]] if call.kind == "Submit" and made[0] == "Ok" else []

    @staticmethod
    def named_by(call):
        if "id" in call.told:
            return [call.told["id"]]
        answer = call.answer[1] if call.kind in (*CLAIMS, "Family") and isinstance(call.answer, tuple) else {}
        return [answer["element"]["id"]] if "element" in answer else []

    def of_kind(self, *kinds):
        return [it for kind in kinds for it in self.kinds.get(kind, [])]

    def how(self, id):
        """How an element stands at the end."""
        return status(self.final[id].answer[1]["status"])

    def element(self, id):
        return re.search(r"Element \{.*?\}", self.final[id].line)[0]

    def taken_instead(self, claim, id):
        """The claim's line with another element in its answer."""
        return re.sub(r"Element \{.*?\}", self.element(id), claim.line)

    @staticmethod
    def answered(call, answer):
        return re.sub(r"answer: .*", lambda _: f"answer: {answer} }}", call.line)

    @staticmethod
    def asked(call, name, id):
        """The call's line as if it had been given another id."""
        return re.sub(rf"\b{name}: \d+", f"{name}: {id}", call.line, count=1)

    def refused(self, kind, why):
        return [it for it in self.of_kind(kind) if it.answer == ("Err", why)]

    def works(self, *kinds):
        """The claims that took an element."""
        return [it for it in self.of_kind(*(kinds or CLAIMS)) if it.answer[0] in ("Work", "Ok")]

    def of_element(self, id):
        return [it for it in self.naming.get(id, []) if it.kind in CLAIMS and it.answer[0] in ("Work", "Ok")]

    def consumers(self):
        """The claims whose elements were consumed by them, each with its element."""
        took = [(it, it.answer[1]["element"]) for it in self.works()]
        return [(it, element) for it, element in took if self.how(element["id"]) == ("consumed", it.answer[1]["unit"])]

    def consumed_twice(self):
        took = self.consumers()
        for claim, element in took:
            for other, its in took:
                if other.after < claim.before and its["stage"] == element["stage"] and claim.kind != "ClaimId":
                    yield claim, self.taken_instead(claim, its["id"])

    def old_read(self):
        for read in self.of_kind("Read"):
            if read.answer[0] == "Ok" and "Waiting" not in read.line and not self.is_requeued(read.told["id"]):
                for claim in self.works():
                    if claim.answer[1]["element"]["id"] == read.told["id"] and claim.after < read.before:
                        yield read, re.sub(r"status: .*", "status: Waiting { attempts: 0 } }) }", read.line)

    def is_requeued(self, id):
        return any(it.told["id"] == id and it.answer[0] == "Ok" for it in self.of_kind("Requeue"))

    def requeued_though_not_parked(self):
        for requeue in self.of_kind("Requeue"):
            if requeue.answer == ("Err", "NotParked"):
                if len(self.of_element(requeue.told["id"])) < self.limits["attempts"]:
                    yield requeue, self.answered(requeue, "Ok(1)")

    def claim_after_cancel(self):
        slain = {it.told["id"] for it in self.of_kind("Kill") if it.answer[0] == "Ok"}
        for cancel in self.of_kind("Cancel"):
            if cancel.answer[0] == "Ok" and cancel.answer[1]["killed"]:
                for id, read in self.final.items():
                    element = read.answer[1]["element"]
                    if element["root"] == cancel.told["root"] and self.how(id) == ("killed",) and id not in slain:
                        for claim in self.works("Claim", "ClaimNext"):
                            is_aborted = self.how(claim.answer[1]["element"]["id"])[0] in ("parked", "waiting")
                            if claim.before > cancel.after and claim.told["stage"] == element["stage"] and is_aborted:
                                yield claim, self.taken_instead(claim, id)

    def out_of_order(self):
        return self.swapped_claims("Claim")

    def out_of_turn(self):
        return self.swapped_claims("ClaimNext")

    def swapped_claims(self, kind):
        """Two claims of a stage, the first of this kind, of which each takes what the other one did, though the first one's waited. Nothing
        but the order is wrong then, so a history agrees that may take any."""
        quiet = list(self.consumed_quietly())
        pairs = ((it, other) for it in quiet if it.kind == kind for other in quiet if self.may_swap(it, other))
        for claim, other in islice(pairs, MOST_SWAPS):
            works = [it.answer[1] for it in (claim, other)]
            ids, units = [it["element"]["id"] for it in works], [it["unit"] for it in works]
            swapped = {}
            for id, was, now in ((ids[0], *units), (ids[1], *units[::-1])):
                swapped |= {it.line: it.line.replace(f"unit: {was} ", f"unit: {now} ") for it in self.naming[id]}
            swapped |= {claim.line: self.taken_instead(claim, ids[1]), other.line: self.taken_instead(other, ids[0])}
            yield from self.wrong_in_order(swapped)

    def wrong_in_order(self, swapped):
        made = [swapped.get(it, it) for it in self.lines]
        if judge(made, with_order=False)[0]:
            yield made

    def may_swap(self, claim, later):
        ids = [it.answer[1]["element"]["id"] for it in (claim, later)]
        # A claim in turn took what came first in the turns of its pass, whichever id is less.
        is_first = claim.kind == "ClaimNext" or ids[0] < ids[1]
        if claim.after > later.before or claim.told["stage"] != later.told["stage"] or not is_first:
            return False
        # (a claim may pass over what is born meanwhile)
        if not all(self.was_there(id, claim) for id in ids):
            return False
        ended = max(self.end_of(it).after for it in (claim, later))
        others = [it for id in ids for it in self.naming[id] if it not in (claim, later)]
        return all(it.after < claim.before or it.before > ended for it in others)

    def consumed_quietly(self):
        """Claims of elements that no other claim took, whose units were committed without outputs."""
        cancelled = [it.told["root"] for it in self.of_kind("Cancel")]
        for claim in self.works("Claim", "ClaimNext"):
            element, end = claim.answer[1]["element"], self.end_of(claim)
            is_empty = end is not None and end.kind == "Commit" and isinstance(end.answer, dict) and end.answer["count"] == 0
            if is_empty and len(self.of_element(element["id"])) == 1 and element["root"] not in cancelled:
                yield claim

    def end_of(self, claim):
        ends = (it for it in self.calls if it.thread == claim.thread and it.before > claim.after and it.kind in ("Commit", "Abort"))
        return next(ends, None)

    def was_there(self, id, call):
        """Whether an element was born before a call began."""
        return self.born[id] < call.before

    def lost_output(self):
        return ((it, self.answered(it, "Err(NotThere)")) for it in self.final.values() if it.answer[1]["element"]["by"] != "None")

    def lost_request(self):
        return ((it, self.answered(it, "Err(NotThere)")) for it in self.final.values() if it.answer[1]["element"]["by"] == "None")

    def missed(self):
        for call in self.of_kind("Reply"):
            if call.answer != "None" and self.how(call.answer[1])[0] == "waiting" and self.was_there(call.answer[1], call):
                yield call, self.answered(call, "None")

    def killed_though_consumed(self):
        for kill in self.of_kind("Kill"):
            if "Consumed" in kill.line:
                yield kill, self.answered(kill, "Ok(Killed { units_aborted: 0 })")

    def with_body(self, change):
        """Reads whose body's words are changed so."""
        for read in self.of_kind("Read"):
            if read.answer[0] == "Ok" and change(read.answer[1]["element"]["body"]) != read.answer[1]["element"]["body"]:
                yield read, re.sub(r"body: (\[.*?\])", lambda it: f"body: {change(read_value(it[1]))}", read.line)

    def changed_body(self):
        return self.with_body(lambda words: [words[0], words[1] + 1, *words[2:]])

    def truncated_body(self):
        return self.with_body(lambda words: [*words[:2], 0, 0])

    def kill_too_many(self):
        for cancel in self.of_kind("Cancel"):
            if cancel.answer[0] == "Ok":
                yield cancel, re.sub(r"killed: (\d+)", lambda it: f"killed: {int(it[1]) + 1}", cancel.line)

    def released_though_not_held(self):
        """The unit that consumed the element is said to have been released."""
        by = {element["id"]: it.answer[1] for it, element in self.consumers()}
        for call in self.refused("Release", "NotHeld"):
            if call.told["id"] in by:
                work = by[call.told["id"]]
                yield call, self.answered(call, f"Ok(Released {{ unit: {work['unit']}, attempt: {work['attempt']} }})")

    def released_another_unit(self):
        for call in self.of_kind("Release"):
            if call.answer[0] == "Ok":
                units = [it.answer[1]["unit"] for it in [*self.of_element(call.told["id"]), *self.works()]]
                other = next((it for it in units if it != call.answer[1]["unit"]), None)
                if other is not None:
                    yield call, re.sub(r"unit: \d+", f"unit: {other}", call.line)

    def not_released_though_held(self):
        """Nobody else may have aborted the unit."""
        killed = {it.told["id"] for it in self.of_kind("Kill")}
        cancelled = {it.told["root"] for it in self.of_kind("Cancel")}
        for call in self.of_kind("Release"):
            id = call.told["id"]
            if call.answer[0] == "Ok" and id not in killed and self.final[id].answer[1]["element"]["root"] not in cancelled:
                if not self.has_room_refused(call.answer[1]["unit"]):
                    yield call, self.answered(call, "Err(NotHeld)")

    def has_room_refused(self, unit):
        """Whether the unit's own commit aborted it, since there was no room."""
        claim = next(it for it in self.works() if it.answer[1]["unit"] == unit)
        end = self.end_of(claim)
        return end is not None and end.answer == "Full"

    def collected_twice(self):
        for call in self.refused("Collect", "AlreadyKilled"):
            yield call, self.answered(call, f"Ok({self.element(call.told['id'])})")

    def collected_out_of_order(self):
        """Two calls collect replies to a request, one after the other, of which each takes what the other one did."""
        took = [it for it in self.of_kind("CollectNext") if it.answer != "None"]
        pairs = ((it, other) for it in took for other in took if it.told["root"] == other.told["root"] and it.after < other.before)
        for call, other in islice(pairs, MOST_SWAPS):
            ids = [it.answer[1]["id"] for it in (call, other)]
            if all(self.was_there(id, call) for id in ids):
                yield from self.wrong_in_order({call.line: self.taken_instead(call, ids[1]), other.line: self.taken_instead(other, ids[0])})

    def none_collected(self):
        """A request has a reply that waits ever after, and none is said to wait."""
        waiting = [it.answer[1]["element"] for it in self.final.values() if self.how(it.told["id"])[0] == "waiting"]
        for call in self.of_kind("CollectNext"):
            if call.answer == "None":
                for element in waiting:
                    if element["stage"] == 15 and self.was_there(element["id"], call):
                        yield call, self.asked(call, "root", element["root"])

    def reply_taken_for_none(self):
        replies = [id for id, it in self.final.items() if it.answer[1]["element"]["stage"] == 15]
        for call in self.refused("Collect", "BadStage"):
            yield from ((call, self.asked(call, "id", id)) for id in replies if self.was_there(id, call))

    def family_hides_one(self):
        for call in self.of_kind("Family"):
            if call.answer != "None" and self.was_there(call.answer[1]["element"]["id"], call):
                yield call, self.answered(call, "None")

    def claimed_though_consumed(self):
        """A claim by an id is said to have taken what was taken before, and was consumed by that unit."""
        for claim in self.works("ClaimId"):
            for other, element in self.consumers():
                if other.after < claim.before:
                    yield claim, self.asked(claim, "id", element["id"]).replace(self.element(claim.told["id"]), self.element(element["id"]))

    def refused_though_waiting(self):
        """What is never taken, and waits ever after, is said not to wait."""
        touched = {it.told["id"] for it in self.of_kind("Requeue")} | {it.answer[1]["element"]["id"] for it in self.works()}
        idle = [it for it in self.final if self.how(it) == ("waiting", 0) and it not in touched]
        for call in self.refused("ClaimId", "NotWaiting"):
            for id in idle:
                if self.final[id].answer[1]["element"]["stage"] != 15 and self.was_there(id, call):
                    yield call, self.asked(call, "id", id)

    KINDS = {
        "consumed-twice": consumed_twice,
        "old-read": old_read,
        "claim-after-cancel": claim_after_cancel,
        "lost-output": lost_output,
        "lost-request": lost_request,
        "missed-reply": missed,
        "killed-though-consumed": killed_though_consumed,
        "changed-body": changed_body,
        "truncated-body": truncated_body,
        "one-kill-too-many": kill_too_many,
        "requeued-though-not-parked": requeued_though_not_parked,
        "released-though-not-held": released_though_not_held,
        "released-another-unit": released_another_unit,
        "not-released-though-held": not_released_though_held,
        "collected-twice": collected_twice,
        "none-collected": none_collected,
        "reply-taken-for-none": reply_taken_for_none,
        "family-hides-one": family_hides_one,
        "claimed-though-consumed": claimed_though_consumed,
        "refused-though-waiting": refused_though_waiting,
    }
    # These make more than one line wrong, and yield logs.
    EXCHANGES = {
        "out-of-order": out_of_order,
        "out-of-turn": out_of_turn,
        "collected-out-of-order": collected_out_of_order,
    }
    ALL = (*KINDS, *EXCHANGES)

    def plant(self, kind, most=1):
        """Logs with one error of this kind each, spread over the places where one can be planted."""
        if kind in self.EXCHANGES:
            yield from islice(self.EXCHANGES[kind](self), most)
            return
        places = list(self.KINDS[kind](self))
        for call, line in places[:: max(1, len(places) // most)][:most]:
            yield [line if it is call.line else it for it in self.lines]
