"""The sentences of a page: its headline, and the rows of output and report."""

import html
import re

from story import FINALISERS, MAIN
from traced import COLLECTION, DEAD, REACHED, STOPPED

STATUS = {
    0: "The run returned, and nothing was reported.",
    1: "The run returned, and a goroutine was reported.",
    2: "The run ended by a panic, by a fatal error, or with all goroutines asleep.",
    3: "The run has not ended after its turns or its written choices.",
    4: "The file is refused.",
    6: "Reading the file failed.",
    7: "A write failed.",
    8: "Memory ran out.",
}
TOLD_FAULT = re.compile(r"(?s)(panic|fatal error): (.*) \(goroutine (\d+), "
                        r"((?:line|in) .*|[^()]+:\d+:\d+(?: in .*)?)\)$")
GOOD, DOUBTFUL, BAD = "good", "warn", "bad"

MOST_ROWS = 1000
MOST_BYTES = 150_000   # of the rows of one list
MOST_OF_A_ROW = 2000   # the most characters of a row


def counted(count, word):
    return f"{count:,} {word}{'' if count == 1 else 's'}"


# ---- the headline


def headline(run):
    """Returns the headline, the sentence below it, and how bad it is."""
    trace = run.trace
    if not run.accepted:
        sentence = run.places.told_text(run.refusal) or (trace.lines[-1][1] if trace.lines else "")
        return STATUS.get(run.status, "The program failed.").rstrip("."), sentence, BAD
    dead = [goroutine for goroutine in run.story.goroutines.values() if goroutine.dead is not None]
    reported = [goroutine for goroutine in dead if goroutine.reported is not None]
    unreported = len(dead) - len(reported)
    if reported:
        head, sentences, level = of_reports(reported, run)
    elif run.tail:
        head, sentences, level = of_crash(run)
    elif trace.stopped is not None:
        head, sentences, level = f"Stopped after {counted(trace.stopped, 'turn')}", ["The run had not ended."], DOUBTFUL
    elif unreported:
        head, sentences, level = "Nothing was reported", [], DOUBTFUL
    elif not trace.collections:
        head, sentences, level = "Nothing was reported", ["No collection ran: add --every N."], GOOD
    else:
        head, sentences, level = "No goroutine is dead", ["Each collection found every blocked goroutine live."], GOOD
    if unreported:
        sentences.append(f"{counted(unreported, 'goroutine')} {'was' if unreported == 1 else 'were'} dead at the end,"
                         f" and no collection reported {'it' if unreported == 1 else 'them'}.")
    return head, " ".join(sentences), level


def of_reports(reported, run):
    head = f"{counted(len(reported), 'goroutine')} can never run again"
    if len(reported) == 1:
        goroutine = reported[0]
        wait = goroutine.waits[-1]
        places = run.places
        at = places.wait_at(goroutine.number, wait.line, wait.begin)
        sentence = (f"Goroutine {goroutine.number} waits for ever {at} ({wait.kind}), "
                    f"started {places.at(goroutine.started)}{places.things(wait.kind, wait.line)}.")
    else:
        sentence = of_places(reported, run.places)
    return head, [sentence] + (["Then the run crashed."] if run.tail and not run.exits else []), BAD


def of_places(reported, places):
    """Returns the sentence that counts the waits of several goroutines by place and kind."""
    counts = {}
    for goroutine in reported:
        wait = goroutine.waits[-1]
        key = (places.wait_at(goroutine.number, wait.line, wait.begin), wait.kind)
        counts[key] = counts.get(key, 0) + 1
    parts = [f"{count:,} wait{'s' if count == 1 else ''} {at} ({kind})" for (at, kind), count in counts.items()]
    more = f", and others at {counted(len(parts) - 3, 'more place')}" if len(parts) > 3 else ""
    return ", ".join(parts[:3]) + more + "."


def of_crash(run):
    if run.exits:
        return run.tail.removeprefix("golf-go: "), ["The file ended the run."], GOOD if run.status == 0 else BAD
    fault = TOLD_FAULT.match(run.tail)
    if fault:
        head = "Panic" if fault[1] == "panic" else "Fatal error"
        at = "" if fault[4].startswith("in ") else "at "
        return f"{head} {at}{fault[4]}", [f"Goroutine {fault[3]}: {fault[2]}."], BAD
    return "All goroutines are asleep", [f"No goroutine can run after turn {run.story.last:,}."], BAD


# ---- rows


def turn_mark(turn):
    return f'<a class=turn data-t={turn} href="#t={turn}">{turn}</a>' if turn else "<span></span>"


def shown_text(text):
    """Returns a line in HTML, cut where it is too long."""
    more = len(text) - MOST_OF_A_ROW
    return (html.escape(text[:MOST_OF_A_ROW]) or " ") + (f"<em>… {more:,} more characters</em>" if more > 0 else "")


def fitted(rows):
    """Returns the rows as text. If they are too many, the first and the last are shown."""
    bytes_left, first, last = MOST_BYTES, 0, 0
    while first + last < min(len(rows), MOST_ROWS) and bytes_left > 0:
        at_end = 3 * last < first
        bytes_left -= len(rows[-1 - last] if at_end else rows[first])
        first, last = (first, last + 1) if at_end else (first + 1, last)
    left_out = len(rows) - first - last
    gap = [f"<li class=none>{left_out:,} lines are left out</li>"] if left_out else []
    return "\n".join(rows[:first] + gap + rows[len(rows) - last:])


def output_rows(pieces):
    """Returns the rows of the output. `pieces` has (turn, bytes)."""
    rows = [f"<li data-t={turn or 0}>{turn_mark(turn)}<code>{shown_text(line)}</code></li>"
            for turn, line in output_lines(pieces)]
    return fitted(rows) or "<li class=none>Nothing was printed.</li>"


def output_lines(pieces):
    """Returns (turn, text) of each line of the output, with the turn that began it."""
    lines, open_turn, open_line = [], None, b""
    for turn, piece in pieces:
        *whole, rest = (open_line + piece).split(b"\n")
        lines += [(open_turn if at == 0 and open_line else turn, line) for at, line in enumerate(whole)]
        open_turn, open_line = open_turn if open_line and not whole else turn, rest
    if open_line:
        lines.append((open_turn, open_line))
    return [(turn, line.decode("utf-8", "replace")) for turn, line in lines]


def report_rows(run):
    """Returns the rows of standard error without its turns."""
    rows, shown = [], None
    for turn, line, kind, goroutine in report_lines(run):
        tied = f' data-g="{goroutine}"' if goroutine else ""
        mark = turn_mark(turn if turn != shown else None)
        text = f"<code>{shown_text(line)}</code>"
        link = f'<a class=of href="#t={turn}&amp;g={goroutine}">{text}</a>' if goroutine else text
        rows.append(f'<li class="{kind}" data-t={turn}{tied}>{mark}{link}</li>')
        shown = turn
    return fitted(rows) or "<li class=none>Nothing was written to standard error.</li>"


def report_lines(run):
    """Returns (turn, text, class, goroutine) of each line of standard error, in order. What a lowered file printed to
    it comes at its turn."""
    lines = [(turn, run.places.told_text(line, turn), *kind_of(line)) for turn, line in run.trace.lines]
    printed = [(turn, line, "printed", None) for turn, line in output_lines(run.printed.errors)]
    lines = sorted(printed + lines, key=lambda line: line[0] or 0) if printed else lines
    lines += [(run.story.last, line, "end", None) for line in run.tail.split("\n") if run.tail]
    return lines + (asleep_lines(run) if run.trace.asleep else [])


def asleep_lines(run):
    """Returns a line for each blocked goroutine of a run that ended asleep: how and where it waits, its start, and who
    holds the lock that it waits for. If the run could not be repeated, it is not known how the last one waits."""
    lines, at = [], run.places.at
    for number, goroutine in sorted(run.story.goroutines.items()):
        wait = goroutine.waits[-1] if goroutine.waits else None
        if number != FINALISERS and wait and wait.end is None and goroutine.end is None and goroutine.removed is None:
            started = f", started {at(goroutine.started)}" if goroutine.started and number != MAIN else ""
            kind = run.kinds.get(number) or wait.kind or "blocked"
            more = run.places.things(kind, wait.line) + held(run.holders.get(number), number, at)
            where = run.places.wait_at(number, wait.line, wait.begin)
            line = f"goroutine {number}: {kind} {where}{started}{more}"
            lines.append((run.story.last, line, "asleep", number))
    return lines


def held(lock, waiter, at):
    """Returns the words for the operation of the holder of a lock, if it is known."""
    if lock is None:
        return ""
    by = "itself" if lock.goroutine == waiter else f"goroutine {lock.goroutine}"
    return f", locked by {by} {at(lock.line)}"


def kind_of(line):
    """Returns the class of a line of standard error, and the goroutine that it tells of."""
    if STOPPED.match(line):
        return "end", None
    if COLLECTION.match(line):
        return "collects", None
    match = DEAD.match(line)
    if match:
        return "dead", match[1]
    match = REACHED.match(line)
    return ("reached", match[1]) if match else ("other", None)


# ---- callouts in the source


def fault_note(tail):
    """Returns the callout of a panic or fatal error."""
    fault = TOLD_FAULT.match(tail)
    return (f"<span class=fault hidden><b>{html.escape(fault[1])}</b> {shown_text(fault[2])}"
            f" <em>goroutine {fault[3]}</em></span>")


def refusal_note(refusal, raw, rules):
    """Returns (line, callout) of a refused file; the line is 0 if the refusal names none."""
    match = re.match(r"refused: line (\d+): (?:byte (\d+)|rule (\d+)|syntax)$", refusal)
    if not match:
        return 0, ""
    if match[3]:
        note = f"<b>Rule {match[3]}</b> {in_html(rules.get(int(match[3]), ''))}"
    elif match[2]:
        note = f"<b>Byte {match[2]}</b> {byte_note(int(match[2]), raw)}"
    else:
        note = "<b>Syntax</b> The tokens are no file of the language: the first broken part begins on this line."
    return int(match[1]), f"<span class=fault>{note}</span>"


def byte_note(place, raw):
    if place >= len(raw):
        return "The file ends inside a token or a comment."
    column = place - raw.rfind(b"\n", 0, place)
    byte = raw[place]
    shown = f" ({html.escape(chr(byte))})" if 32 < byte < 127 else ""
    return f"The bytes are no tokens of the language: column {column}, the byte {byte}{shown}."


def in_html(sentence):
    return re.sub(r"`([^`]*)`", r"<code>\1</code>", html.escape(sentence, quote=False))


def rules_of(text):
    """Returns the sentences of the rules of types by number, from docs/LANGUAGE.md."""
    part = text.partition("## The rules of types")[2].partition("\n## ")[0]
    rules = re.findall(r"(?ms)^(\d+)\. (.+?)\s+Not:", part)
    return {int(number): " ".join(sentence.split()) for number, sentence in rules}
