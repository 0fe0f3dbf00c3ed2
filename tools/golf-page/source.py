"""The Go file of a page: its tokens in colours, its functions, and its lines as rows of HTML."""

import bisect
import html
import re

KEYWORDS = set("""
    break case chan const continue default defer else for func go goto if import interface map package range
    return select struct switch type var
""".split())
NAMES = set("""any append bool byte cap close delete error false int len make new nil panic print println rune string
true""".split())
TOKEN = re.compile(r"""//[^\n]*|/\*.*?(?:\*/|\Z)|"(?:\\.|[^"\\\n])*"?|'(?:\\.|[^'\\\n])+'|`[^`]*(?:`|\Z)|\w+|\s+|.""",
                   re.S)

COMMENT, STRING, KEYWORD, NUMBER, BUILT_IN, NAME, OTHER = "c", "s", "k", "n", "b", "name", ""
IN_COLOUR = (COMMENT, STRING, KEYWORD, NUMBER, BUILT_IN)

MOST_OF_A_LINE = 2000  # the most characters of a line that are shown
MOST_BYTES = 500_000   # the most bytes of the rows of all files
AROUND = 3             # so many lines are shown before and after a line that must be


def kind_of(word):
    first = word[0]
    if word.startswith(("//", "/*")):
        return COMMENT
    if first in '"`' or (first == "'" and len(word) > 1):
        return STRING
    if word in KEYWORDS:
        return KEYWORD
    if word in NAMES:
        return BUILT_IN
    if first.isdigit():
        return NUMBER
    return NAME if first.isalpha() or first == "_" else OTHER


class Source:
    """A file with its lines in HTML, the function of each line, and the calls that `go` makes."""

    def __init__(self, text):
        self.rows = []
        self.heads, self.functions = [], []  # the first line of each function, and its name
        self.calls = {}                      # the calls of the `go` statements of a line
        self.finalisers = False
        tokens = [(kind_of(word), word) for word in TOKEN.findall(text)]
        self.colour(tokens, text.endswith("\n"))
        self.find_names(with_lines(tokens))

    def colour(self, tokens, whole):
        row = Row()
        for kind, word in tokens:
            for at, piece in enumerate(word.split("\n")):
                if at:
                    self.rows.append(row.html())
                    row = Row()
                row.add(kind, piece)
        if not (whole and row.length == 0):
            self.rows.append(row.html())

    def find_names(self, words):
        depth = 0
        for at, (kind, word, line) in enumerate(words):
            if kind == NAME and word == "SetFinalizer":
                self.finalisers = True
            elif kind == KEYWORD and word == "func" and depth == 0:
                self.heads.append(line)
                self.functions.append(function_name(words[at + 1:at + 12]))
            elif kind == KEYWORD and word == "go":
                self.calls.setdefault(line, []).append(call_name(words[at + 1:at + 40]))
            elif kind == OTHER and word in "{}":
                depth += 1 if word == "{" else -1

    def function_of(self, line):
        """Returns the name of the function around a line, or an empty text."""
        at = bisect.bisect_right(self.heads, line) - 1
        return self.functions[at] if at >= 0 else ""

    def call_of(self, line):
        """Returns the name of the function that the only `go` of a line calls, or an empty text."""
        calls = self.calls.get(line, [])
        return calls[0] if len(calls) == 1 else ""


class Row:
    """One line in HTML, cut where it is too long."""

    def __init__(self):
        self.parts, self.length = [], 0

    def add(self, kind, piece):
        shown = html.escape(piece[:max(0, MOST_OF_A_LINE - self.length)])
        self.length += len(piece)
        if shown:
            self.parts.append(f"<i class={kind}>{shown}</i>" if kind in IN_COLOUR else shown)

    def html(self):
        more = self.length - MOST_OF_A_LINE
        return "".join(self.parts) + (f"<em>… {more:,} more characters</em>" if more > 0 else "")


def with_lines(tokens):
    """Returns (kind, word, line) of each token that is neither a blank nor a comment."""
    words, line = [], 1
    for kind, word in tokens:
        if kind != COMMENT and not word.isspace():
            words.append((kind, word, line))
        line += word.count("\n")
    return words


def function_name(words):
    """Returns the name after `func`, with the type of the receiver if it is a method."""
    if words and words[0][1] == "(":
        names = [word for kind, word, line in words if kind == NAME]
        return ".".join(names[1:3])
    return words[0][1] if words else ""


def call_name(words):
    """Returns the words after `go` up to the parenthesis."""
    name = ""
    for kind, word, line in words:
        if word == "(":
            break
        name += word
    return name


def rows_of(source, notes, wanted, first, most):
    """Returns the rows of a file. `notes` are the callouts below lines, as HTML. If the rows have more than the most
    bytes, those around the wanted lines are shown, in the order in which they are wanted. `first` is the number of
    the first row."""
    shown = shown_lines(source, wanted, most)
    rows, before = [], 0
    for line in [*shown, len(source.rows) + 1]:
        if line - before > 1:
            left_out = f"line {line - 1:,} is" if line - before == 2 else f"lines {before + 1:,} to {line - 1:,} are"
            rows.append(f"<li class=gap>{left_out} left out</li>")
        if line <= len(source.rows):
            rows.append(row_html(first + line - 1, line, source.rows[line - 1]))
        if line in notes:
            rows.append(f"<li class=note>{notes[line]}</li>")
        before = line
    return "\n".join(rows)


def row_html(row, line, text):
    code = f'<code>{text or " "}</code>'
    return f"<li id=L{row} data-n={row}><span class=no>{line}</span>{code}<span class=at></span></li>"


def shown_lines(source, wanted, most):
    """Returns the lines that are shown, by rising number."""
    count = len(source.rows)
    cost = len(row_html(count, count, ""))
    if sum(len(row) + cost for row in source.rows) <= most:
        return range(1, count + 1)
    shown, left = set(), most
    for line in [*wanted, *range(1, count + 1)]:
        near = [each for each in range(max(1, line - AROUND), min(count, line + AROUND) + 1) if each not in shown]
        left -= sum(len(source.rows[each - 1]) + cost for each in near)
        if left < 0:
            break
        shown.update(near)
    return sorted(shown)
