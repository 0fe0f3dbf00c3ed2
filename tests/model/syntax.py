"""The syntax of a file, for the model: tokens and trees.

It reads a part of the accepted language: functions, globals, `int`, `bool`, `string`, channels, and mutexes, groups and
conditions of `sync`. There are no structs, methods, slices, finalisers, collections and readers' locks in it.
"""

import re

TOKEN = re.compile(r"(?P<space>[ \t\r]+|//[^\n]*)|(?P<line>\n)|(?P<name>[A-Za-z_]\w*)|(?P<number>\d+)"
                   r'|(?P<text>"(?:[^"\\\n]|\\.)*")'
                   r"|(?P<mark><-|:=|\+\+|--|&&|\|\||[-+*/%=!<>]=|[-+*/%=!<>&(){}\[\],;:.])")
WORDS = {"package", "import", "const", "var", "func", "type", "struct", "chan", "go", "defer", "return", "break",
         "continue", "if", "else", "for", "range", "select", "case", "default"}
ENDS_A_LINE = {"return", "break", "continue", "++", "--", ")", "}", "]"}
ESCAPES = {"\\n": "\n", "\\t": "\t", "\\\\": "\\", '\\"': '"'}
PRECEDENCE = {"||": 1, "&&": 2, "==": 3, "!=": 3, "<": 3, "<=": 3, ">": 3, ">=": 3, "+": 4, "-": 4, "*": 5, "/": 5,
              "%": 5}
UPDATES = {"+=": "Add", "-=": "Sub", "*=": "Mul", "/=": "Div", "%=": "Rem"}
SYNC_TYPES = ("Mutex", "WaitGroup", "Cond")


class Unread(Exception):
    """The file is outside of what the model reads."""


# ---- tokens

def tokens_of(text):
    """Returns (kind, text, line) of each token, with the semicolons that Go inserts."""
    found, at, line = [], 0, 1
    while at < len(text):
        match = TOKEN.match(text, at)
        if not match:
            raise Unread("line %d: no token" % line)
        at = match.end()
        if match.lastgroup == "line":
            end_line(found, line)
            line += 1
        elif match.lastgroup != "space":
            kind = "word" if match.group() in WORDS else match.lastgroup
            found.append((kind, match.group(), line))
    end_line(found, line)
    return found + [("end", "", line)]


def end_line(found, line):
    """Adds a semicolon if the last token of the line asks for one."""
    if found and (found[-1][0] in ("name", "number", "text") or found[-1][1] in ENDS_A_LINE):
        found.append(("mark", ";", line))


# ---- trees: tuples whose first part is the kind; statements have their line second

class Reader:
    """Reads tokens into trees, by recursive descent."""

    def __init__(self, text):
        self.tokens = tokens_of(text)
        self.at = 0

    def peek(self, ahead=0):
        return self.tokens[min(self.at + ahead, len(self.tokens) - 1)][1]

    def kind(self, ahead=0):
        return self.tokens[min(self.at + ahead, len(self.tokens) - 1)][0]

    def line(self):
        return self.tokens[self.at][2]

    def take(self, wanted=None):
        kind, text, line = self.tokens[self.at]
        if wanted is not None and text != wanted:
            raise Unread("line %d: %r, not %r" % (line, text, wanted))
        self.at += 1
        return text

    def took(self, text):
        if self.peek() != text or self.kind() == "text":
            return False
        self.at += 1
        return True

    def name(self):
        if self.kind() != "name":
            raise Unread("line %d: no name" % self.line())
        return self.take()

    def ends(self):
        """Takes the semicolon after a statement, which may be left out before `)` and `}`."""
        if self.peek() not in (")", "}"):
            self.take(";")

    # declarations

    def file(self):
        self.take("package")
        self.name()
        self.ends()
        declarations = []
        while self.kind() != "end":
            declarations.extend(self.declaration())
            if self.kind() != "end":
                self.take(";")
        return declarations

    def declaration(self):
        line, word = self.line(), self.take()
        if word == "import":
            self.imports()
            return []
        if word == "const":
            name = self.name()
            self.take("=")
            return [("const", line, name, self.expression())]
        if word == "var":
            return [self.variable(line)]
        if word == "func":
            return [self.function(line)]
        raise Unread("line %d: %s" % (line, word))

    def imports(self):
        if not self.took("("):
            self.take()
            return
        while not self.took(")"):
            self.take()
            self.ends()

    def variable(self, line):
        name = self.name()
        written = None if self.peek() == "=" else self.type()
        value = self.expression() if self.took("=") else None
        return ("var", line, name, written, value)

    def function(self, line):
        if self.peek() == "(":
            raise Unread("line %d: a method" % line)
        name = self.name()
        self.take("(")
        parameters = self.parameters()
        result = None if self.peek() == "{" else self.type()
        return ("func", line, name, parameters, result, self.block())

    def parameters(self):
        found = []
        while not self.took(")"):
            names = [self.name()]
            while self.took(","):
                names.append(self.name())
            written = self.type()
            found.extend((name, written) for name in names)
            if self.peek() != ")":
                self.take(",")
        return found

    def type(self):
        """Returns a name of a basic type, a name of a type of `sync`, or ('chan', element)."""
        if self.took("<-"):
            self.take("chan")
            return ("chan", self.type())
        if self.took("chan"):
            self.took("<-")
            return ("chan", self.type())
        if self.took("*"):
            self.take("sync")
            self.take(".")
            return self.sync_type()
        if self.took("struct"):
            self.take("{")
            self.take("}")
            return "unit"
        if self.peek() not in ("int", "bool", "string"):
            raise Unread("line %d: type %s" % (self.line(), self.peek()))
        return self.take()

    def sync_type(self):
        if self.peek() not in SYNC_TYPES:
            raise Unread("line %d: sync.%s" % (self.line(), self.peek()))
        return self.take()

    # statements

    def block(self):
        self.take("{")
        body = []
        while not self.took("}"):
            if self.took(";"):
                continue
            body.append(self.statement())
            self.ends()
        return body

    def statement(self):
        line, word = self.line(), self.peek()
        if self.kind() != "word" and word != "{":
            return self.simple()
        if word == "{":
            return ("block", line, self.block())
        if word == "chan" or word == "struct":
            return self.simple()
        self.take()
        reading = getattr(self, "read_" + word, None)
        if reading is None:
            raise Unread("line %d: %s" % (line, word))
        return reading(line)

    def read_var(self, line):
        return self.variable(line)

    def read_go(self, line):
        return ("go", line, self.expression())

    def read_defer(self, line):
        return ("defer", line, self.expression())

    def read_return(self, line):
        return ("return", line, None if self.peek() in (";", "}") else self.expression())

    def read_break(self, line):
        return ("break", line)

    def read_continue(self, line):
        return ("continue", line)

    def read_if(self, line):
        first, test = None, self.simple()
        if self.took(";"):
            first, test = test, self.simple()
        body, otherwise = self.block(), None
        if self.took("else"):
            otherwise = self.statement()
        return ("if", line, first, self.bare(test), body, otherwise)

    def bare(self, simple):
        """Returns the expression that a simple statement consists of."""
        if simple[0] != "expression":
            raise Unread("line %d: no condition" % simple[1])
        return simple[2]

    def read_for(self, line):
        if self.peek() == "{":
            return ("for", line, None, None, None, self.block())
        if self.range_is_next():
            return self.read_range(line)
        first = None if self.peek() == ";" else self.simple()
        if self.peek() == "{":
            return ("for", line, None, self.bare(first), None, self.block())
        self.take(";")
        test = None if self.peek() == ";" else self.expression()
        self.take(";")
        post = None if self.peek() == "{" else self.simple()
        return ("steps", line, first, test, post, self.block())

    def range_is_next(self):
        return self.peek() == "range" or (self.peek(1) == ":=" and self.peek(2) == "range")

    def read_range(self, line):
        name = None
        if self.peek() != "range":
            name = self.name()
            self.take(":=")
        self.take("range")
        return ("range", line, name, self.expression(), self.block())

    def read_select(self, line):
        self.take("{")
        clauses = []
        while not self.took("}"):
            clause_line = self.line()
            communication = None
            if self.take() == "case":
                communication = self.simple()
            self.take(":")
            clauses.append((clause_line, communication, self.clause_body()))
        return ("select", line, clauses)

    def clause_body(self):
        body = []
        while self.peek() not in ("case", "default", "}"):
            if self.took(";"):
                continue
            body.append(self.statement())
            self.ends()
        return body

    def simple(self):
        line = self.line()
        if self.kind() == "name" and self.peek(1) == ",":
            return self.pair(line)
        left = self.expression()
        if self.took("<-"):
            return ("send", line, left, self.expression())
        if self.peek() in ("++", "--"):
            return ("update", line, self.left(left), "Add" if self.take() == "++" else "Sub", ("number", 1))
        if self.peek() in UPDATES:
            return ("update", line, self.left(left), UPDATES[self.take()], self.expression())
        if self.took("="):
            return ("assign", line, self.left(left), self.expression())
        if self.took(":="):
            return ("define", line, self.left(left), self.expression())
        return ("expression", line, left)

    def left(self, tree):
        if tree[0] != "name":
            raise Unread("line %d: a left side that is no name" % self.line())
        return tree[1]

    def pair(self, line):
        value = self.name()
        self.take(",")
        sent = self.name()
        defines = self.take() == ":="
        self.take("<-")
        return ("pair", line, value, sent, defines, self.unary())

    # expressions

    def expression(self, least=1):
        left = self.unary()
        while PRECEDENCE.get(self.peek(), 0) >= least and self.kind() == "mark":
            operator = self.take()
            left = ("binary", operator, left, self.expression(PRECEDENCE[operator] + 1))
        return left

    def unary(self):
        for operator in ("-", "!", "<-"):
            if self.peek() == operator and self.kind() == "mark":
                self.take()
                return ("unary", operator, self.unary())
        return self.primary()

    def primary(self):
        tree = self.operand()
        while True:
            if self.took("("):
                tree = ("call", tree, self.arguments())
            elif self.took("."):
                tree = ("dot", tree, self.name())
            else:
                return tree

    def arguments(self):
        found = []
        while not self.took(")"):
            found.append(self.expression())
            if self.peek() != ")":
                self.take(",")
        return found

    def operand(self):
        if self.kind() == "number":
            return ("number", int(self.take()))
        if self.kind() == "text":
            return ("text", re.sub(r"\\.", lambda match: ESCAPES[match.group()], self.take()[1:-1]))
        if self.took("("):
            tree = self.expression()
            self.take(")")
            return tree
        if self.took("&"):
            return self.sync_literal()
        if self.took("struct"):
            for mark in "{}{}":
                self.take(mark)
            return ("unit",)
        if self.peek() == "make" and self.peek(1) == "(":
            return self.make()
        if self.peek() == "new" and self.peek(1) == "(":
            return self.new()
        return ("name", self.name())

    def sync_literal(self):
        self.take("sync")
        self.take(".")
        made = self.sync_type()
        self.take("{")
        self.take("}")
        return ("new", made)

    def make(self):
        self.take()
        self.take("(")
        written = self.type()
        size = self.expression() if self.took(",") else ("number", 0)
        self.take(")")
        return ("make", written, size)

    def new(self):
        self.take()
        self.take("(")
        self.take("sync")
        self.take(".")
        made = self.sync_type()
        self.take(")")
        return ("new", made)
