"""A slow, plain reading of formulas and times files, and of the numbers and names of all texts.

Nothing here is made to be fast. Each function does one thing in the most
direct way. The module shares no code with the program, so that the two can be
compared. Logs are read by logs.py.
"""

import re
import sys
from typing import NamedTuple

sys.setrecursionlimit(max(sys.getrecursionlimit(), 20_000))

FORMULA_LIMIT = 65_536
TIMES_LIMIT = 65_536
REPORT_LIMIT = 1_073_741_824
NODE_LIMIT = 512
SIZE_LIMIT = 4_194_304
HEIGHT_LIMIT = 200
NAME_LIMIT = 32

INTERVAL_GREATEST = 10**18
TIME_GREATEST = 10**19


# Numbers and names


def number(text, greatest):
    """The value of a decimal number from 0 to greatest, or None."""
    if not re.fullmatch(rb"0|[1-9][0-9]*", text):
        return None
    if len(text) > len(str(greatest)):
        return None
    value = int(text)
    return value if value <= greatest else None


def signed_number(text, greatest):
    """The value of a number that may have a minus sign, or None."""
    if not text.startswith(b"-"):
        return number(text, greatest)
    value = number(text[1:], greatest)
    return -value if value else None


def is_name(text):
    """Whether the bytes are a name: a small letter, then letters, digits, underscores."""
    return len(text) <= NAME_LIMIT and bool(re.fullmatch(rb"[a-z][a-z0-9_]*", text))


# The formula


class Token(NamedTuple):
    kind: str  # "number", "word", or the sign itself
    text: bytes
    byte: int  # the place of its first byte


class FormulaFault(NamedTuple):
    number: int
    byte: int


class Tree:
    """A node of a formula as it is written: parentheses leave no trace.

    The forms are true, false, prop and the signs of the operators. An
    interval is a pair whose second part is None for no upper bound.
    """

    __slots__ = ("form", "interval", "children", "height", "host", "name", "byte")

    def __init__(self, form, children=(), interval=None, host=None, name=None, byte=None):
        self.form = form
        self.children = children
        self.interval = interval
        self.host = host
        self.name = name
        self.byte = byte
        self.height = 1 + max((child.height for child in children), default=0)


PREFIXED = ("!", "F", "G", "O", "H")
BETWEEN = ("->", "|", "&", "U", "S")
TIMED = ("F", "G", "O", "H", "U", "S")

# How tightly an operator binds, and which of those between operands lean right.
TIGHTNESS = {"->": 1, "|": 2, "&": 3, "U": 4, "S": 4, "!": 5, "F": 5, "G": 5, "O": 5, "H": 5}
RIGHTWARD = ("->", "U", "S")


def read_formula(data):
    """The tree that the bytes spell, or the FormulaFault."""
    tokens = read_tokens(data)
    if isinstance(tokens, FormulaFault):
        return tokens
    if not tokens:
        return FormulaFault(7, 0)
    fault = grammar_fault(tokens, len(data)) or interval_fault(tokens)
    if fault:
        return fault
    tree = build_tree(tokens)
    return tree if tree.height <= HEIGHT_LIMIT else FormulaFault(5, 0)


def read_tokens(data):
    """The tokens of the text, or the fault of the leftmost bad one."""
    pattern = re.compile(rb"([0-9]+)|([a-z][a-z0-9_]*)|(->|[()\[\],.!&|USFGOH])")
    tokens = []
    place = 0
    while place < len(data):
        if data[place] in b" \t\r\n":
            place += 1
            continue
        found = pattern.match(data, place)
        if not found:
            return FormulaFault(1, place)
        text = found.group()
        if found.group(1):
            if number(text, INTERVAL_GREATEST) is None:
                return FormulaFault(3, place)
            tokens.append(Token("number", text, place))
        elif found.group(2):
            if len(text) > NAME_LIMIT:
                return FormulaFault(1, place)
            tokens.append(Token("word", text, place))
        else:
            tokens.append(Token(text.decode(), text, place))
        place = found.end()
    return tokens


def grammar_fault(tokens, length):
    """The fault of tokens that aren't a formula, or None.

    What may stand next depends only on a state and on how many parentheses
    are open, so the first token that has no state to go to is the first that
    no formula can go on with.
    """
    state, depth = "operand", 0
    for token in tokens:
        following = next_state(state, depth, token)
        if following is None:
            whole = state == "operator" and depth == 0
            return FormulaFault(6 if whole else 2, token.byte)
        state = following
        depth += {"(": 1, ")": -1}.get(token.kind, 0)
    if state == "operator" and depth == 0:
        return None
    return FormulaFault(2, length)


def next_state(state, depth, token):
    """What is asked for after the token, or None where it can't stand there."""
    kind = token.kind
    if state == "operator":
        if kind == ")" and depth > 0:
            return "operator"
        return state_after_sign(kind) if kind in BETWEEN else None
    if state == "operand or interval" and kind == "[":
        return "low"
    if state in ("operand", "operand or interval"):
        return state_after_operand_start(token)
    if state == "dot" and kind == ".":
        return "second word"
    if state == "second word" and kind == "word":
        return "operator"
    if state == "low" and kind == "number":
        return "comma"
    if state == "comma" and kind == ",":
        return "high"
    if state == "high" and (kind == "number" or token.text == b"inf"):
        return "bracket"
    if state == "bracket" and kind == "]":
        return "operand"
    return None


def state_after_operand_start(token):
    """What is asked for after a token where an operand begins, or None."""
    if token.kind == "(":
        return "operand"
    if token.kind in PREFIXED:
        return state_after_sign(token.kind)
    if token.text in (b"true", b"false"):
        return "operator"
    if token.kind == "word" and token.text != b"inf":
        return "dot"
    return None


def state_after_sign(kind):
    """What is asked for after an operator."""
    return "operand or interval" if kind in TIMED else "operand"


def interval_fault(tokens):
    """The fault of the leftmost interval of a formula whose ends are crossed, or None."""
    for place, token in enumerate(tokens):
        if token.kind == "[":
            low, high = interval_at(tokens, place)
            if high is not None and low > high:
                return FormulaFault(4, token.byte)
    return None


def interval_at(tokens, place):
    """The ends of the interval whose bracket stands at that place."""
    low, high = tokens[place + 1], tokens[place + 3]
    return int(low.text), None if high.text == b"inf" else int(high.text)


def build_tree(tokens):
    """The tree of tokens that are a formula.

    Operands and waiting operators stand on two lists, so depth costs no
    recursion. A waiting operator takes its operands as soon as one comes that
    binds less tightly, or as tightly and leans left.
    """
    operands, waiting = [], []
    place = 0
    while place < len(tokens):
        token = tokens[place]
        if token.kind == "word":
            leaf, place = read_leaf(tokens, place)
            operands.append(leaf)
        elif token.kind == "(":
            waiting.append(("(", None))
            place += 1
        elif token.kind == ")":
            while waiting[-1][0] != "(":
                take_operands(operands, waiting)
            waiting.pop()
            place += 1
        else:
            while token.kind in BETWEEN and waiting and goes_first(waiting[-1][0], token.kind):
                take_operands(operands, waiting)
            interval, place = read_interval(tokens, place)
            waiting.append((token.kind, interval))
    while waiting:
        take_operands(operands, waiting)
    return operands.pop()


def read_leaf(tokens, place):
    """The constant or proposition at that place, and the place after it."""
    token = tokens[place]
    if token.text in (b"true", b"false"):
        return Tree(token.text.decode()), place + 1
    name = tokens[place + 2].text
    return Tree("prop", host=token.text, name=name, byte=token.byte), place + 3


def read_interval(tokens, place):
    """The interval of the operator at that place, if it has one, and the place after it."""
    if tokens[place].kind not in TIMED:
        return None, place + 1
    if tokens[place + 1].kind != "[":
        return (0, None), place + 1
    return interval_at(tokens, place + 1), place + 6


def goes_first(waiting, coming):
    """Whether a waiting operator takes its operands before one that comes between operands."""
    if waiting == "(":
        return False
    if TIGHTNESS[waiting] == TIGHTNESS[coming]:
        return coming not in RIGHTWARD
    return TIGHTNESS[waiting] > TIGHTNESS[coming]


def take_operands(operands, waiting):
    """Makes the last waiting operator into a tree over the last operands."""
    form, interval = waiting.pop()
    count = 1 if form in PREFIXED else 2
    children = tuple(operands[-count:])
    del operands[-count:]
    operands.append(Tree(form, children, interval))


def propositions(tree):
    """The propositions of a tree from left to right, each as often as it occurs."""
    if tree.form == "prop":
        return [tree]
    return [leaf for child in tree.children for leaf in propositions(child)]


def unknown_host(tree, log):
    """The byte of the first host word that the log doesn't have, or None."""
    known = {host.name for host in log.hosts}
    for leaf in propositions(tree):
        if leaf.host not in known:
            return leaf.byte
    return None


def core_nodes(tree):
    """The distinct subtrees of the core of a tree, in the order in which they are finished.

    The core has only true, propositions, not, and, until and since. Each node
    is a tuple of its form, its interval or names, and its children's numbers.
    """
    numbers = {}
    core_number(tree, numbers)
    return list(numbers)


def core_number(tree, numbers):
    """The number of a tree's core, which is put into the numbers with all below it."""

    def node(*shape):
        return numbers.setdefault(shape, len(numbers))

    def negated(inner):
        return node("not", inner)

    form, interval, children = tree.form, tree.interval, tree.children
    if form == "true":
        return node("true")
    if form == "false":
        return negated(node("true"))
    if form == "prop":
        return node("prop", tree.host, tree.name)
    if form in ("F", "O"):
        kind = "until" if form == "F" else "since"
        always = node("true")
        return node(kind, interval, always, core_number(children[0], numbers))
    if form in ("G", "H"):
        kind = "until" if form == "G" else "since"
        always = node("true")
        inner = negated(core_number(children[0], numbers))
        return negated(node(kind, interval, always, inner))
    left = core_number(children[0], numbers)
    if form == "!":
        return negated(left)
    if form == "|":
        left = negated(left)
        right = negated(core_number(children[1], numbers))
        return negated(node("and", left, right))
    right = core_number(children[1], numbers)
    if form == "->":
        return negated(node("and", left, negated(right)))
    if form == "&":
        return node("and", left, right)
    return node("until" if form == "U" else "since", interval, left, right)


# Times files


class TimesFault(NamedTuple):
    number: int
    line: int


def read_times(data, events):
    """One time per event, or the TimesFault."""
    lines = times_lines(data)
    times = [signed_number(line, TIME_GREATEST) for line in lines[:events]]
    if None in times:
        return TimesFault(1, times.index(None) + 1)
    if len(lines) < events:
        return TimesFault(2, len(lines) + 1)
    if len(lines) > events:
        return TimesFault(2, events + 1)
    return times


def times_lines(data):
    """The lines of a times file, without newlines and the carriage returns before them."""
    *ended, last = data.split(b"\n")
    lines = [line[:-1] if line.endswith(b"\r") else line for line in ended]
    return lines + [last] if last else lines
