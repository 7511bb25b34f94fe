"""What is carried over from one round's manager to the next one's: whether it is what was alive, and by which calls it came to be there.

The first round's last reads say how each element stands, and its requeues which round it is in. rollover_rules.py says from that which
calls are made in the new manager. They come before all calls of the second round's log, for which one history is looked for then.
"""
from histories import Call, Wrong, read_rounds, read_value, status
from history_search import find
from rollover_rules import Births, Full, described
from rules import Element, Run


def carried_in(lines):
    """Returns what a round's log says was carried over, old and new ids; None where it says nothing."""
    said = [line[len("carried "):] for line in lines if line.startswith("carried ")]
    return [(it["old"], it["new"]) for it in read_value(said[0])] if said else None


def stand_of(lines):
    """Returns the manager as a round's log leaves it."""
    (limits, calls, _), = read_rounds(lines)
    run = Run(limits["rows"], limits["units"], limits["attempts"], limits["spare"], [], others=limits["parts"] - 1)
    run.begin()
    for call in calls:
        if call.thread == 0 and call.kind == "Read" and call.answer[0] == "Ok":
            look = call.answer[1]
            it, (name, *numbers) = look["element"], status(look["status"])
            by = None if it["by"] == "None" else it["by"][1]
            run.elements[it["id"]] = Element(it["stage"], it["root"], it["body"], by, name, attempts=numbers[-1] if name in ("waiting", "parked") else 0)
    for call in calls:
        if call.kind == "Requeue" and call.answer[0] == "Ok":
            element = run.elements[call.told["id"]]
            element.rounds = max(element.rounds, call.answer[1])
    return run


def made_by(births):
    """Returns the calls of a rollover as if a log had them, one after another from 0 on, and the next time."""
    calls, elements = [], births.new.elements

    def told(number):
        it = elements[number]
        return {"is": "Element", "id": number, "stage": it.stage, "root": it.root, "body": it.body, "by": "None" if it.by is None else ("Some", it.by)}

    def note(thread, kind, **fields):
        calls.append(Call(thread, 2 * len(calls), 2 * len(calls) + 1, {"is": kind, **fields}))

    for thread, what, *numbers in births.calls:
        if what == "submit":
            it = elements[numbers[0]]
            note(thread, "Submit", stage=it.stage, body=it.body, answer=("Ok", numbers[0]))
        elif what == "claim":
            work = {"is": "Work", "unit": numbers[1], "attempt": numbers[2], "element": told(numbers[0])}
            note(thread, "ClaimId", id=numbers[0], answer=("Ok", work))
        elif what == "commit":
            first, count = numbers
            outputs = [(elements[it].stage, tuple(elements[it].body)) for it in range(first, first + count)]
            note(thread, "Commit", drafts=count, outputs=outputs, answer={"is": "Committed", "first": first, "count": count})
        elif what == "abort":
            note(thread, "Abort", answer="Aborted")
        else:
            note(thread, "Requeue", id=numbers[0], answer=("Ok", numbers[1]))
    return calls, 2 * len(calls)


def judge_next(before, lines, with_order=True):
    """Looks for a history of a round behind a rollover: returns how many points it has, or why there is none."""
    try:
        stand = stand_of(before)
        births = Births(described(stand), stand.afresh())
        if births.all() != carried_in(before):
            raise Wrong("not all that is alive was carried over, or something else")
        calls, later = made_by(births)
        (limits, others, account), = read_rounds(lines)
        for call in others:
            call.before, call.after = call.before + later, call.after + later
        return find(limits, calls + others, account, with_order), ""
    except Full:
        return 0, "there was no room for what is alive"
    except Wrong as wrong:
        return 0, str(wrong)


def told_otherwise(before):
    """A round's log with what was carried over told otherwise, in each of several ways."""
    line, = (it for it in before if it.startswith("carried "))
    moved = read_value(line[len("carried "):])

    def with_moved(moved):
        told = ", ".join(f"Moved {{ old: {it['old']}, new: {it['new']}, old_root: {it['old_root']}, new_root: {it['new_root']} }}" for it in moved)
        return [it if it is not line else f"carried [{told}]\n" for it in before]

    if len(moved) > 1:
        first, second, *others = moved
        yield "left out", with_moved(moved[1:])
        yield "named twice", with_moved([first, *moved])
        yield "exchanged", with_moved([{**first, "new": second["new"]}, {**second, "new": first["new"]}, *others])
        yield "another element", with_moved([{**first, "old": second["old"] + 1}, *moved[1:]])
