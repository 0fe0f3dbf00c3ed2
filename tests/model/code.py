"""The code of a file, for the model.

Which instructions a construct becomes follows the definitions of `golf_code_of`; no code of the program is used.
"""

from .syntax import PRECEDENCE, Reader, Unread

COMBINE = {"==": ["Eq"], "!=": ["Eq", "Not"], "<": ["Less"], "<=": ["AtMost"], ">": ["AtMost", "Not"],
           ">=": ["Less", "Not"], "+": ["Add"], "-": ["Sub"], "*": ["Mul"], "/": ["Div"], "%": ["Rem"]}
METHODS = {("Mutex", "Lock"): ["Lock"], ("Mutex", "Unlock"): ["Unlock"], ("WaitGroup", "Add"): ["GroupAdd"],
           ("WaitGroup", "Done"): [("Int", -1), "GroupAdd"], ("WaitGroup", "Wait"): ["GroupWait"],
           ("Cond", "Wait"): ["CondWait"], ("Cond", "Signal"): ["CondSignal"], ("Cond", "Broadcast"): ["CondBroadcast"]}
MOST_MASKED_SLOTS = 64


# ---- instructions: lists [name, argument, line]

# How values are written in states: integers as they are, nil as None, references as a tuple with the number, and the
# rest as strings, so that no truth value is equal to a number.
TRUE, FALSE, UNIT = "true", "false", "unit"


def text_value(text):
    return '"' + text


def zero_of(written):
    """Returns the zero value of a type."""
    return {"int": 0, "bool": FALSE, "string": text_value(""), "unit": UNIT}.get(written)


class Function:
    """A function of the code: its instructions, and for each of them the slots that are needed there."""

    def __init__(self, parameters, line):
        self.parameters = parameters
        self.line = line
        self.slots = parameters
        self.body = []
        self.needed = []


class Code:
    """The code of a file."""

    def __init__(self, functions, globals_at_start, main_line):
        self.functions = functions
        self.globals_at_start = globals_at_start
        self.main_line = main_line


class Label:
    """A place to which jumps lead; it is known once `Writer.put` has passed it."""

    def __init__(self):
        self.place = None


class Names:
    """What the names of a file mean."""

    def __init__(self, declarations):
        self.constants = {d[2]: d[3] for d in declarations if d[0] == "const"}
        self.globals = {}
        self.global_types = []
        self.functions = {}
        self.results = []
        for d in declarations:
            if d[0] == "func":
                self.functions[d[2]] = len(self.functions) + 1
                self.results.append(d[4])

    def result(self, number):
        return self.results[number - 1]


class Writer:
    """Writes the instructions of one function."""

    def __init__(self, names, made, function):
        self.names = names
        self.made = made
        self.function = function
        self.scopes = [{}]
        self.line = function.line
        self.breaks = []
        self.continues = []

    def emit(self, name, argument=None):
        self.function.body.append([name, argument, self.line])

    def put(self, label):
        label.place = len(self.function.body)

    def declare(self, name, of_type):
        """Returns the slot of a new variable."""
        slot = self.function.slots
        self.function.slots += 1
        if name is not None:
            self.scopes[-1][name] = (slot, of_type)
        return slot

    def local(self, name):
        for scope in reversed(self.scopes):
            if name in scope:
                return scope[name]
        return None

    def store(self, name):
        found = self.local(name)
        if name == "_":
            self.emit("Drop")
        elif found:
            self.emit("Store", found[0])
        else:
            self.emit("StoreGlobal", self.names.globals[name])

    # expressions: each returns the type of its value, none if there is no value

    def expression(self, tree):
        return getattr(self, "write_" + tree[0])(tree)

    def write_number(self, tree):
        self.emit("Int", tree[1])
        return "int"

    def write_text(self, tree):
        self.emit("Text", text_value(tree[1]))
        return "string"

    def write_unit(self, tree):
        self.emit("Unit")
        return "unit"

    def write_name(self, tree):
        name = tree[1]
        found = self.local(name)
        if found:
            self.emit("Load", found[0])
            return found[1]
        if name in self.names.globals:
            number = self.names.globals[name]
            self.emit("LoadGlobal", number)
            return self.names.global_types[number]
        if name in self.names.constants:
            return self.constant(self.names.constants[name])
        if name in (TRUE, FALSE):
            self.emit("Bool", name)
            return "bool"
        if name == "nil":
            self.emit("Nil")
            return None
        raise Unread("line %d: name %s" % (self.line, name))

    def constant(self, tree):
        if tree[0] == "unary" and tree[2][0] == "number":
            return self.write_number(("number", -tree[2][1]))
        return self.expression(tree)

    def write_unary(self, tree):
        of_type = self.expression(tree[2])
        self.emit({"-": "Neg", "!": "Not", "<-": "Receive"}[tree[1]])
        return of_type[1] if tree[1] == "<-" else of_type

    def write_binary(self, tree):
        operator = tree[1]
        if operator in ("&&", "||"):
            return self.either(operator, tree[2], tree[3])
        left = self.expression(tree[2])
        self.expression(tree[3])
        for name in COMBINE[operator]:
            self.emit(name)
        return left if PRECEDENCE[operator] > 3 else "bool"

    def either(self, operator, left, right):
        """The second operand is evaluated only if it decides."""
        decided, end = Label(), Label()
        self.expression(left)
        if operator == "||":
            self.emit("Not")
        self.emit("JumpIfNot", decided)
        self.expression(right)
        self.emit("Jump", end)
        self.put(decided)
        self.emit("Bool", TRUE if operator == "||" else FALSE)
        self.put(end)
        return "bool"

    def write_make(self, tree):
        self.expression(tree[2])
        self.emit("NewChan", zero_of(tree[1][1]))
        return tree[1]

    def write_new(self, tree):
        if tree[1] == "Cond":
            raise Unread("line %d: a condition without a mutex" % self.line)
        self.emit({"Mutex": "NewMutex", "WaitGroup": "NewGroup"}[tree[1]])
        return tree[1]

    def write_dot(self, tree):
        if tree[2] != "L" or self.expression(tree[1]) != "Cond":
            raise Unread("line %d: .%s" % (self.line, tree[2]))
        self.emit("CondMutex")
        return "Mutex"

    def write_call(self, tree):
        called, arguments = tree[1], tree[2]
        if self.is_function(called):
            return self.call_function("Call", called[1], arguments)
        name = self.package_member(called)
        if name == "NewCond":
            self.expression(arguments[0])
            self.emit("NewCond")
            return "Cond"
        if name == "Println":
            self.push_all(arguments)
            self.emit("Print", len(arguments))
            return None
        operations, count = self.built_in(called, arguments)
        self.do(operations)
        return "int" if operations == ["Len"] else None

    def is_function(self, tree):
        return tree[0] == "name" and tree[1] in self.names.functions and not self.local(tree[1])

    def package_member(self, tree):
        is_member = tree[0] == "dot" and tree[1][0] == "name" and tree[1][1] in ("sync", "fmt", "runtime")
        return tree[2] if is_member else None

    def push_all(self, trees):
        return [self.expression(tree) for tree in trees]

    def call_function(self, how, name, arguments):
        self.push_all(arguments)
        number = self.names.functions[name]
        self.emit(how, (number, len(arguments)))
        return self.names.result(number)

    def built_in(self, called, arguments):
        """Pushes receiver and arguments; returns what is done with them, and how many they are."""
        if called[0] == "name" and called[1] in ("close", "len", "panic"):
            self.push_all(arguments)
            return [{"close": "Close", "len": "Len", "panic": "Panic"}[called[1]]], 1
        if called[0] == "dot":
            of_type = self.expression(called[1])
            self.push_all(arguments)
            if (of_type, called[2]) in METHODS:
                return METHODS[of_type, called[2]], 1 + len(arguments)
        raise Unread("line %d: a call" % self.line)

    def do(self, operations):
        for operation in operations:
            if isinstance(operation, tuple):
                self.emit(*operation)
            else:
                self.emit(operation)

    # statements

    def statements(self, body):
        for statement in body:
            self.statement(statement)

    def statement(self, tree):
        around, self.line = self.line, tree[1]
        getattr(self, "lay_" + tree[0])(tree)
        self.line = around

    def in_scope(self, act):
        self.scopes.append({})
        act()
        self.scopes.pop()

    def scoped(self, body):
        self.in_scope(lambda: self.statements(body))

    def lay_block(self, tree):
        self.scoped(tree[2])

    def lay_var(self, tree):
        line, name, written, value = tree[1:]
        if value is None:
            self.push_value(zero_of(written))
        of_type = written if value is None else self.expression(value)
        self.emit("Store", self.declare(name, written or of_type))

    def push_value(self, value):
        if value is None:
            self.emit("Nil")
        elif isinstance(value, int):
            self.emit("Int", value)
        elif value in (TRUE, FALSE):
            self.emit("Bool", value)
        elif value == UNIT:
            self.emit("Unit")
        else:
            self.emit("Text", value)

    def lay_define(self, tree):
        of_type = self.expression(tree[3])
        self.emit("Store", self.declare(tree[2], of_type))

    def lay_assign(self, tree):
        self.expression(tree[3])
        self.store(tree[2])

    def lay_update(self, tree):
        self.write_name(("name", tree[2]))
        self.expression(tree[4])
        self.emit(tree[3])
        self.store(tree[2])

    def lay_expression(self, tree):
        if self.expression(tree[2]) is not None:
            self.emit("Drop")

    def lay_send(self, tree):
        self.expression(tree[2])
        self.expression(tree[3])
        self.emit("Send")

    def lay_pair(self, tree):
        line, value, sent, defines, channel = tree[1:]
        of_type = self.expression(channel)
        self.emit("ReceiveOk")
        self.store_pair(value, sent, defines, of_type[1])

    def store_pair(self, value, sent, defines, element):
        """Stores whether a value was sent, and then the value."""
        if defines:
            self.define_if_new(value, element)
            self.define_if_new(sent, "bool")
        self.store(sent)
        self.store(value)

    def define_if_new(self, name, of_type):
        if name != "_" and name not in self.scopes[-1]:
            self.declare(name, of_type)

    def lay_go(self, tree):
        self.begin("Go", tree[2])

    def lay_defer(self, tree):
        self.begin("Defer", tree[2])

    def begin(self, how, call):
        if call[0] != "call":
            raise Unread("line %d: no call" % self.line)
        if self.is_function(call[1]):
            self.call_function(how, call[1][1], call[2])
            return
        operations, count = self.built_in(call[1], call[2])
        self.made.append((operations, count, self.line))
        self.emit(how, (len(self.names.functions) + len(self.made), count))

    def lay_return(self, tree):
        if tree[2] is None:
            self.emit("Return")
        else:
            self.expression(tree[2])
            self.emit("ReturnValue")

    def lay_break(self, tree):
        self.emit("Jump", self.breaks[-1])

    def lay_continue(self, tree):
        self.emit("Jump", self.continues[-1])

    def lay_if(self, tree):
        self.in_scope(lambda: self.lay_choice(*tree[2:]))

    def lay_choice(self, first, test, body, otherwise):
        line, no, end = self.line, Label(), Label()
        if first:
            self.statement(first)
        self.expression(test)
        self.emit("JumpIfNot", no)
        self.scoped(body)
        self.line = line
        if otherwise:
            self.emit("Jump", end)
        self.put(no)
        if otherwise:
            self.statement(otherwise)
        self.put(end)

    def looped(self, body, end, again):
        self.breaks.append(end)
        self.continues.append(again)
        self.scoped(body)
        self.breaks.pop()
        self.continues.pop()

    def lay_for(self, tree):
        """`for { }` and `for test { }`."""
        test, body, begin, end = tree[3], tree[5], Label(), Label()
        self.put(begin)
        if test:
            self.expression(test)
            self.emit("JumpIfNot", end)
        self.looped(body, end, begin)
        self.emit("Jump", begin)
        self.put(end)

    def lay_steps(self, tree):
        self.in_scope(lambda: self.lay_three_parts(*tree[2:]))

    def lay_three_parts(self, first, test, post, body):
        begin, again, end = Label(), Label(), Label()
        if first:
            self.statement(first)
        self.put(begin)
        if test:
            self.expression(test)
            self.emit("JumpIfNot", end)
        self.looped(body, end, again)
        self.put(again)
        if post:
            self.statement(post)
        self.emit("Jump", begin)
        self.put(end)

    def lay_range(self, tree):
        self.in_scope(lambda: self.lay_received(*tree[2:]))

    def lay_received(self, name, channel, body):
        """A `range` over a channel. What a closed channel gives is dropped where the loop ends."""
        begin, closed, end = Label(), Label(), Label()
        of_type = self.expression(channel)
        hidden = self.declare(None, of_type)
        self.emit("Store", hidden)
        self.put(begin)
        self.emit("Load", hidden)
        self.emit("ReceiveOk")
        self.emit("JumpIfNot", closed)
        if name is None or name == "_":
            self.emit("Drop")
        else:
            self.emit("Store", self.declare(name, of_type[1]))
        self.looped(body, end, begin)
        self.emit("Jump", begin)
        self.put(closed)
        self.emit("Drop")
        self.put(end)

    def lay_select(self, tree):
        line, clauses = tree[1:]
        end, labels = Label(), [Label() for clause in clauses]
        kinds = [self.push_clause(clause[1]) for clause in clauses]
        cases = [(kind[0], label) for kind, label in zip(kinds, labels) if kind]
        otherwise = [label for kind, label in zip(kinds, labels) if not kind]
        self.emit("Select", (cases, otherwise[0] if otherwise else None))
        self.breaks.append(end)
        for clause, kind, label in zip(clauses, kinds, labels):
            self.put(label)
            self.line = clause[0]
            self.in_scope(lambda: self.lay_clause(clause, kind))
            self.line = clause[0]
            self.emit("Jump", end)
        self.breaks.pop()
        self.put(end)

    def push_clause(self, communication):
        """Pushes the operands of a case; returns its kind and the type of its elements, none for `default`."""
        if communication is None:
            return None
        if communication[0] == "send":
            of_type = self.expression(communication[2])
            self.expression(communication[3])
            return ("Send", of_type[1])
        if communication[0] == "pair":
            return ("TakeOk", self.expression(communication[5])[1])
        receive = communication[2] if communication[0] == "expression" else communication[3]
        if receive[0] != "unary" or receive[1] != "<-":
            raise Unread("line %d: a case" % self.line)
        return ("Take", self.expression(receive[2])[1])

    def lay_clause(self, clause, kind):
        line, communication, body = clause
        if communication is not None:
            self.take_in(communication, kind[1])
        self.statements(body)

    def take_in(self, communication, element):
        """What a chosen receive does with what it was given."""
        if communication[0] == "expression":
            self.emit("Drop")
        elif communication[0] == "define":
            self.emit("Store", self.declare(communication[2], element))
        elif communication[0] == "assign":
            self.store(communication[2])
        elif communication[0] == "pair":
            self.store_pair(communication[2], communication[3], communication[4], element)


# ---- functions and files

def code_of(text):
    """Returns the code of a file, or raises `Unread`."""
    declarations = Reader(text).file()
    names, made = Names(declarations), []
    entry = Function(0, main_line(declarations))
    starts = Writer(names, made, entry)
    for declaration in declarations:
        if declaration[0] == "var":
            declare_global(names, starts, declaration)
    starts.line = entry.line
    starts.emit("Call", (names.functions["main"], 0))
    starts.emit("Return")
    functions = [entry] + [function_of(names, made, d) for d in declarations if d[0] == "func"]
    functions += [made_function(names, *making) for making in made]
    for function in functions:
        place(function)
    return Code(functions, tuple(zero_of(of_type) for of_type in names.global_types), entry.line)


def main_line(declarations):
    lines = [d[1] for d in declarations if d[0] == "func" and d[2] == "main"]
    if not lines:
        raise Unread("no main")
    return lines[0]


def declare_global(names, starts, declaration):
    kind, line, name, written, value = declaration
    of_type, number, starts.line = written, len(names.global_types), line
    if value is not None:
        given = starts.expression(value)
        of_type = written or given
        starts.emit("StoreGlobal", number)
    names.globals[name] = number
    names.global_types.append(of_type)


def function_of(names, made, declaration):
    kind, line, name, parameters, result, body = declaration
    function = Function(0, line)
    writer = Writer(names, made, function)
    for parameter, of_type in parameters:
        writer.declare(parameter, of_type)
    function.parameters = len(parameters)
    writer.statements(body)
    writer.line = line
    if result is None:
        writer.emit("Return")
    else:
        writer.push_value(zero_of(result))
        writer.emit("ReturnValue")
    return function


def made_function(names, operations, count, line):
    """The function that is made for `go` or `defer` of a built-in operation."""
    function = Function(count, line)
    writer = Writer(names, [], function)
    for slot in range(count):
        writer.emit("Load", slot)
    writer.do(operations)
    writer.emit("Return")
    return function


def place(function):
    """Puts numbers in the place of labels, and finds the slots that are needed at each instruction."""
    for instruction in function.body:
        name, argument, line = instruction
        if isinstance(argument, Label):
            instruction[1] = argument.place
        if name == "Select":
            cases, otherwise = argument
            instruction[1] = (tuple((kind, label.place) for kind, label in cases), otherwise and otherwise.place)
    function.body = [tuple(instruction) for instruction in function.body]
    function.needed = needed_slots(function)


def successors(at, instruction):
    name, argument, line = instruction
    if name == "Jump":
        return [argument]
    if name == "JumpIfNot":
        return [at + 1, argument]
    if name == "Select":
        return [target for kind, target in argument[0]] + ([] if argument[1] is None else [argument[1]])
    return [] if name in ("Return", "ReturnValue", "Panic") else [at + 1]


def needed_slots(function):
    """For each place the slots that a path of places reads before it stores to them."""
    body = function.body
    if function.slots > MOST_MASKED_SLOTS:
        return [frozenset(range(function.slots))] * len(body)
    needed, changed = [frozenset()] * len(body), True
    while changed:
        changed = False
        for at in range(len(body) - 1, -1, -1):
            name, argument, line = body[at]
            later = frozenset().union(*[needed[k] for k in successors(at, body[at]) if k < len(body)])
            now = later | {argument} if name == "Load" else later - {argument} if name == "Store" else later
            if now != needed[at]:
                needed[at], changed = now, True
    return needed
