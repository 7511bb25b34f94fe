"""The examples of scripts and sessions on the pages, as the programs answer them.

An example is an indented text whose first line, but for comments, is one of a head, or the answer `recovered N` of a session with a
journal.
On the left is what is sent, on the right, behind two spaces at least, what is answered. What it leaves out at its end are final lines.
Those of docs/LIVE.md are answered by the rules of sessions, which tools/sessions holds the program to, and by the proved program where it
stands.
"""
import os
import re
import subprocess
import tempfile

from session_rules import RuledSession

TOP = os.path.dirname(os.path.dirname(os.path.realpath(__file__)))
SETTINGS = ("rows ", "units ", "limit ", "spare ")
# Which pages have scripts; the examples of all others are sessions.
SCRIPTS = ("README.md", "docs/SCRIPTS.md")
# More than a mebibyte of comments, and commands, with which they are put down.
LONG = ["# " + 998 * "-", "kill 9999999"] * 1100
# Which have sessions, how their heads begin, and the program.
LIVE, HEADS, PROGRAM = ("docs/LIVE.md",), ("keep ", "server ", "worker "), "crates/tp_live/out/tp_live"


def sides(text):
    """Returns what an indented text sends, and what it is answered, each line by line."""
    pairs = [re.fullmatch(r"    (\S(?: ?\S)*)?(?: *(?: {2}|(?<= {6}))(\S.*))?", it) for it in text.split("\n") if it.strip()]
    if None in pairs:
        return [], []
    return [it[1] for it in pairs if it[1]], [it[2] for it in pairs if it[2]]


def examples(text, settings=SETTINGS):
    """Yields of each example of a page what it sends, and what it is answered."""
    for block in re.findall(r"(?:(?: {4}[^\n]*)\n)+", text):
        sent, answers = sides(block.rstrip("\n"))
        lines = [it for it in sent if not it.startswith("#")]
        if answers and ((lines and lines[0].startswith(settings)) or answers[0].startswith("recovered ")):
            yield sent, answers


def differs(answers, said):
    """Returns the first answer of an example that isn't what was said, or None: at its end final lines may be left out."""
    for k, line in enumerate(said):
        if k >= len(answers) and not line.startswith("final "):
            return line
        if k < len(answers) and answers[k] != line:
            return answers[k]
    return answers[len(said)] if len(answers) > len(said) else None


def said_by(words, sent, program="run"):
    """Returns the lines that ./run writes with these words, once it was sent these lines."""
    ran = subprocess.run([f"{TOP}/{program}", *words], input="".join(f"{it}\n" for it in sent), capture_output=True, text=True)
    return ran.stdout.splitlines()


def said_by_rules(sent):
    """Returns what the rules of sessions answer to these lines."""
    session = RuledSession()
    return [it for line in sent for it in session.answers(line.encode())] + session.finals()


def wrong_sessions(text):
    """Yields of each example of a session the answer that isn't so, or None."""
    for sent, answers in examples(text, HEADS):
        yield differs(answers, said_by_rules(sent))
        if os.path.exists(f"{TOP}/{PROGRAM}"):
            yield differs(answers, said_by([], sent, PROGRAM))


def wrong_examples(page, text):
    """Yields of each example of a page the answer that isn't so, or None. Those with a journal go on from one another."""
    if page in LIVE:
        yield from wrong_sessions(text)
        return
    with tempfile.TemporaryDirectory() as room:
        for sent, answers in examples(text, SETTINGS if page in SCRIPTS else HEADS):
            words = [] if page in SCRIPTS else ["--live"]
            if answers[0].startswith("recovered "):
                words += ["--journal", f"{room}/journal"]
            yield differs(answers, said_by(words, sent))
        yield from wrong_journal(text, f"{room}/journal")


def wrong_journal(text, path):
    """Yields, for each text that a page shows of the journal of its examples, what isn't so, or None. Empty lines aren't shown. The
    second one is that behind lines by which it becomes short, N lines, and they aren't shown."""
    for shown in re.findall(r"(?m)^    # covetrivet journal \d+\n(?: {4}[^\n]*\n)+", text) if os.path.exists(path) else ():
        if "lines for N" in shown:
            said_by(["--live", "--journal", path], LONG)
        with open(path, encoding="latin-1") as it:
            lines = it.read().replace("\0", "").split("\n")
        kept = [re.sub(r"lines for \d+\x02", "lines for N", line) for line in lines if line and "\x17" not in line]
        yield differs([it.strip() for it in shown.splitlines()], [it for it in kept if it not in LONG[:2]])
