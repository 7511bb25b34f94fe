"""What a line of a session says: its first word and what stands behind it, or its first fault. It is written from docs/LIVE.md."""
import re

LARGEST = 2**64 - 1
KINDS, DEEDS = ("eager", "lazy"), ("add", "take", "pass")
# How many numbers stand behind the word that says how an element stands, and how a unit of work ended.
STANDINGS = {"waiting": 1, "held": 2, "consumed": 1, "parked": 1, "killed": 0}
ENDINGS = {"done": 4, "aborted": 1, "lost": 1}


class Fault(Exception):
    """A faulty line."""


def need(is_well, fault):
    if not is_well:
        raise Fault(fault)


def number(word, most=LARGEST, least=0):
    need(re.fullmatch("[0-9]{1,20}", word) and least <= int(word) <= most, "BadNumber")
    return int(word)


def name(word):
    need(re.fullmatch("[A-Za-z][0-9A-Za-z._-]{0,31}", word), "BadName")
    return word


def short(word):
    return number(word, 65535)


def byte(word):
    return number(word, 255)


def ordinal(word):
    return number(word, least=1)


def stage(word):
    return number(word, 999, 1)


def worker_stage(word):
    need(stage(word) != 15, "BadNumber")
    return int(word)


def body(words):
    """Two to four words; the missing ones are 0."""
    return tuple(number(it) for it in [*words, "0", "0"][:4])


def or_none(word, none):
    return None if word == none else number(word)


def who(word):
    """NAME or NAME/EPOCH, in words."""
    parts = word.split("/")
    need(len(parts) <= 2, "Syntax")
    return parts if len(parts) == 2 else [word, None]


def fence(word):
    """=ID:TRY, in words."""
    parts = word[1:].split(":")
    need(word[:1] == "=" and len(parts) == 2, "Syntax")
    return parts


def read_fence(parts):
    return number(parts[0]), short(parts[1])


# The lines with a word for each of these.
SHAPES = {
    "max": [number], "start": [name, number, number], "worker": [name, worker_stage], "numbers": [number] * 3,
    "over": [number], "settled": [short, number, number], "prepared": [name], "dropped": [name],
    "from": [name, number], "sum": [number], "balance": [name, number], "take": [name, number], "leave": [name], "last": [name],
    "forget": [name], "limit": [number], "keep": [number],
    **{it: [number] for it in ("kill", "cancel", "requeue", "release", "read", "reply", "collect", "family")},
    **{it: [] for it in ("errors", "count", "depth", "account", "holds", "dump", "restore", "version")},
    **{it: [name] for it in ("claim", "next", "turn", "prepare", "drop")},
}


def server(words):
    need(len(words) >= 5 and words[1] in KINDS, "Syntax")
    found = re.fullmatch(f"({'|'.join(DEEDS)})(?::([123]))?", words[4])
    need(found and len(words) <= 9 and all(it.count(":") == 2 for it in words[5:]), "Syntax")
    called, takes, registers = name(words[0]), byte(words[2]), byte(words[3])
    outputs = []
    for to, key, amount in (it.split(":") for it in words[5:]):
        output = byte(to), key if key == "same" else number(key), amount if amount in ("same", "after") else number(amount)
        outputs.append(output)
    need(1 <= takes <= 14 and 1 <= registers <= 64 and all(1 <= it[0] <= 15 for it in outputs), "BadRecipe")
    return called, words[1], takes, registers, found[1], int(found[2] or 1), outputs


def element(words):
    need(len(words) >= 7 and words[1].count(":") == 4 and words[5].count(":") <= 1, "Syntax")
    need(len(words) == 7 + STANDINGS.get(words[6], -8), "Syntax")
    id, place = number(words[0]), words[1].split(":")
    at, held = short(place[0]), body(place[1:])
    root, by, owner = number(words[2]), or_none(words[3], "client"), or_none(words[4], "nobody")
    rounds, earlier = [byte(it) for it in [*words[5].split(":"), "0"][:2]]
    last = number if words[6] == "consumed" else byte
    status = (words[6], *(number(it) for it in words[7:-1]), *(last(it) for it in words[7:][-1:]))
    return id, at, held, root, by, owner, rounds, earlier, status


def ended(words):
    need(len(words) >= 2 and len(words) == 2 + ENDINGS.get(words[1], -3), "Syntax")
    return name(words[0]), (words[1], *(number(it) for it in words[2:]))


def client(words):
    need(len(words) in (8, 11) and words[7].count(":") == 3, "Syntax")
    if len(words) == 8:
        words = [*words, "1", "0:0:0:0:0", "-"]
    need(words[9].count(":") == 4, "Syntax")
    called, numbers, reply = name(words[0]), [number(it) for it in words[1:7]], body(words[7].split(":"))
    note, epoch, (at, *sent) = None if words[10] == "-" else name(words[10]), number(words[8]), words[9].split(":")
    return (called, *numbers, reply, epoch, (short(at), body(sent)), note)


def register(words):
    need(len(words) == 1 or (len(words) == 2 and words[1] == "new"), "Syntax")
    return name(words[0]), len(words) == 2


def hand(words):
    need(3 <= len(words) <= 4, "Syntax")
    return name(words[0]), number(words[1]), number(words[2]), short([*words, "0"][3])


def submit(words):
    need(3 <= len(words) <= 5, "Syntax")
    return short(words[0]), body(words[1:])


def listed(words):
    need(1 <= len(words) <= 2, "Syntax")
    return stage(words[0]), number([*words, "0"][1])


def drain(words):
    need(words in ([], ["next"]), "Syntax")
    return (len(words) == 1,)


def commit(words):
    need(words, "Syntax")
    parts = fence(words.pop(1)) if words[1:] and words[1][:1] == "=" else None
    need(len(words) <= 5 and all(2 <= it.count(":") <= 4 for it in words[1:]), "Syntax")
    called, only = name(words[0]), parts and read_fence(parts)
    drafts = [it.split(":") for it in words[1:]]
    return called, [(stage(it[0]), body(it[1:])) for it in drafts], only


def abort(words):
    need(1 <= len(words) <= 2, "Syntax")
    parts = fence(words[1]) if len(words) == 2 else None
    return name(words[0]), parts and read_fence(parts)


def send(words):
    need(5 <= len(words) <= 7, "Syntax")
    called, epoch = who(words[0])
    return name(called), None if epoch is None else number(epoch), ordinal(words[1]), short(words[2]), body(words[3:])


def receive(words):
    need(2 <= len(words) <= 5, "Syntax")
    called, epoch = who(words[0])
    words, note = (words[:-2], words[-1]) if len(words) >= 4 and words[-2] == "note" else (words, None)
    need(len(words) <= 3, "Syntax")
    called, note = name(called), note and name(note)
    return called, None if epoch is None else number(epoch), ordinal(words[1]), number(words[2]) if len(words) == 3 else None, note


SPECIAL = {
    "server": server, "element": element, "ended": ended, "client": client, "submit": submit, "list": listed, "drain": drain,
    "commit": commit, "abort": abort, "send": send, "receive": receive, "register": register, "hand": hand,
}


def parted(line):
    """The tag of a line, if it has one, and what stands behind it."""
    found = re.match(rb"@([0-9A-Za-z._-]{1,20})(?: |\Z)", line)
    return (found[1].decode(), line[found.end():]) if found else (None, line)


def said(line, whole):
    """Returns the words of a line, read; nothing of an empty line or a comment. `whole` is the line with its tag."""
    need(len(whole) <= 1023, "TooLong")
    need(all(32 <= it <= 126 for it in line), "Syntax")
    words = [it for it in line.decode("ascii").split(" ") if it]
    if not words or line[:1] == b"#":
        return None
    verb, *words = words
    if verb in SPECIAL:
        return (verb, *SPECIAL[verb](words))
    need(verb in SHAPES and len(words) == len(SHAPES[verb]), "Syntax")
    read = [form(it) for form, it in zip(SHAPES[verb], words)]
    need(verb != "limit" or 1 <= read[0] <= 7, "BadLimits")
    need(verb != "keep" or read[0] >= 1, "BadLimits")
    return (verb, *read)
