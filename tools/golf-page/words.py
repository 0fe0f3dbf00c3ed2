"""The words of `golf run`."""

import re

from program import Failure

VALUED = ("--schedule", "--turns", "--every", "--markers", "--threads")
FLAGS = ("--recover", "--why")
# The largest value of an option that takes a number; the smallest is 1.
LARGEST = {"--turns": 10_000_000, "--every": 10_000_000, "--markers": 16, "--threads": 16}
SCHEDULE = re.compile(r"rotate|seed:\d{1,20}|choices:\d{1,20}(,\d{1,20})*")
ANSWERS = ("leak:", "panic:", "asleep:")
MOST_TURNS = 100_000  # of a page
MOST_BYTES_OF_A_WORD = 131_000  # Linux takes words of up to 128 KiB


def of_answer(words):
    """Returns the words of a run from an answer of `golf-explore`, given as it is printed, in one word or in several:
    `leak: --every 26 --schedule choices:0,1`. Other words are returned as they are."""
    if not words or not words[0].startswith(ANSWERS):
        return words
    words = " ".join(words).split()[1:]
    if words[:1] == ["after"]:
        raise Failure("the numbers of this answer are more than the words of a run may have")
    return words


def options_of(words):
    """Returns the options by name, with None for an option without a value."""
    options, at = {}, 0
    while at < len(words):
        name, sign, value = words[at].partition("=")
        if name in VALUED and sign:
            options[name] = value
        elif name in VALUED and at + 1 < len(words):
            at += 1
            options[name] = words[at]
        elif words[at] != "--":
            options[words[at]] = None
        at += 1
    return options


def wrong_word(words):
    """Returns a sentence on the first word that is none of `golf run`."""
    seen, left = [], list(words)
    while left:
        name, sign, value = left.pop(0).partition("=")
        if name == "--" and not sign and not left:
            break
        if name not in (*VALUED, *FLAGS) or (name in FLAGS and sign):
            return f"no word of golf run: {name}{sign}{value}"
        if name in seen:
            return f"twice: {name}"
        seen.append(name)
        if name in VALUED:
            if not sign and not left:
                return f"no value after {name}"
            value = value if sign else left.pop(0)
            if not is_value(name, value):
                return f"no value of {name}: {value}"
    others = [name for name in seen if name != "--threads"]
    if "--threads" in seen and others:
        return f"not beside --threads: {others[0]}"
    return "the words after the file are not those of golf run (docs/USAGE.md)"


def is_value(name, value):
    """Whether a value is one of an option that takes one."""
    if name == "--schedule":
        return bool(SCHEDULE.fullmatch(value))
    return bool(re.fullmatch(r"\d{1,20}", value)) and 1 <= int(value) <= LARGEST[name]


def written(options):
    """Returns the words of options."""
    return [word for name, value in options.items() for word in (name, value) if word is not None]


def of_page(words):
    """Returns the words with at most as many turns as a page shows. Faulty words are left to the program."""
    options = options_of(words)
    turns = options.get("--turns", str(MOST_TURNS + 1)) or ""
    if "--threads" in options or not turns.isdecimal() or int(turns) <= MOST_TURNS:
        return words
    if "--turns" not in options:
        return ["--turns", str(MOST_TURNS), *words]
    return written({**options, "--turns": str(MOST_TURNS)})


def of_history(history):
    """Returns the words that repeat a run by threads, from the numbers of its `history` line."""
    if len(history) > MOST_BYTES_OF_A_WORD:
        raise Failure("the history of the run by threads is too long for the words of a run")
    return ["--schedule", f"choices:{history}"]
