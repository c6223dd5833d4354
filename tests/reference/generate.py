"""Random cases: words and files, most of them small and many of them broken.

Every function takes a source of chance, random.Random, first. Texts of
formulas are made from trees and then perhaps broken by an edit; logs are those
of generate_logs.py. What the program must answer is left to the reference.
"""

from typing import NamedTuple

import formats
import logs
import program
import reference
from generate_logs import (
    EVENT_NAMES,
    GREATEST,
    HOST_NAMES,
    HUGE_NUMBER,
    broken_bytes,
    chance,
    crowded_log,
    log_file,
    odd_numbers,
    some_log,
    steady_log,
    wild_log,
)

BLANKS = [b" ", b" ", b" ", b"\t", b"\n", b"\r", b"\r\n", b"  "]


class Case(NamedTuple):
    words: list
    files: dict  # the bytes by name; the name - is the standard input


# Formulas. A tree is a tuple: the form, the interval of timed operators, the children.


def some_interval(draw):
    """The ends of an interval, mostly small; None is no upper end."""
    low = draw.choice((0, 0, 0, 1, 1, 2, 3, 5))
    choice = draw.randrange(10)
    if choice < 3:
        return 0, None
    if choice < 5:
        return low, None
    if choice < 9:
        return low, low + draw.randint(0, 6)
    far = [(0, GREATEST), (GREATEST, GREATEST), (GREATEST, None), (low, 10**17)]
    return draw.choice(far + [(0, 0)])


def some_leaf(draw, log):
    """A constant or a proposition, mostly one that a row is about."""
    changes = [row for row in log.rows if row.act in (b"set", b"clear", b"pulse")]
    choice = draw.random()
    if choice < 0.06:
        return ("true",)
    if choice < 0.12:
        return ("false",)
    row = draw.choice(changes or log.rows)
    if choice < 0.75:
        return "prop", log.hosts[row.host].name, row.name
    if choice < 0.95:
        return "prop", draw.choice(log.hosts).name, row.name
    return "prop", draw.choice(log.hosts).name, draw.choice(EVENT_NAMES)


def some_tree(draw, log, size):
    """A tree with about as many operators as its size."""
    if size <= 0:
        return some_leaf(draw, log)
    form = draw.choice(("!", "&", "|", "->", "U", "S", "U", "S", "F", "G", "O", "H"))
    if form in ("!", "F", "G", "O", "H"):
        return one_sided(draw, form, some_tree(draw, log, size - 1))
    left = draw.randint(0, size - 1)
    return two_sided(draw, form, some_tree(draw, log, left), some_tree(draw, log, size - 1 - left))


def one_sided(draw, form, inner):
    """A tree of a form before its operand."""
    return (form, inner) if form == "!" else (form, some_interval(draw), inner)


def two_sided(draw, form, left, right):
    """A tree of a form between its operands."""
    if form in ("U", "S"):
        return form, some_interval(draw), left, right
    return form, left, right


def tall_tree(draw, log):
    """A tree whose height is close to the greatest."""
    height = draw.choice((150, 198, 199, 200, 200, 200, 201, 201, 202))
    forms = draw.choice(("!", "FGOH", "!FGOH", "&|", ">", "US", "!FGOH&|>US"))
    leftward = draw.choice((0.0, 0.5, 1.0))
    tree = some_leaf(draw, log)
    for _ in range(height - 1):
        form = draw.choice(forms).replace(">", "->")
        if form in ("!", "F", "G", "O", "H"):
            tree = one_sided(draw, form, tree)
        elif chance(draw, leftward):
            tree = two_sided(draw, form, tree, some_leaf(draw, log))
        else:
            tree = two_sided(draw, form, some_leaf(draw, log), tree)
    return tree


def wide_tree(draw, log):
    """A tree with about as many distinct nodes as are allowed; signs before it bring it close."""
    forms = draw.choice(("&", "&", "&|", "&|US", "|>", "U", "S&", "&FGOH", "&|>USFGOH", "&FO"))
    host = draw.choice(log.hosts).name
    leaves, count = draw.randint(60, 256), 0
    while not 380 <= count <= 514:
        leaves = leaves * 470 // count if count else leaves
        tree = full_tree(draw, host, forms, 0, leaves)
        count = node_count(draw, tree)
    for _ in range(512 + draw.choice((-1, 0, 0, 1, 1, 2, 30)) - count):
        tree = ("!", tree)
    return ("&", tree, tree) if chance(draw, 0.1) else tree


def node_count(draw, tree):
    """The number of distinct nodes of a tree's core."""
    text = b" ".join(tokens_of(draw, tree, spare=0))
    return len(formats.core_nodes(formats.read_formula(text)))


def full_tree(draw, host, forms, first, count):
    """A tree of even height over numbered propositions; some operands come twice in it."""
    if count == 1:
        return "prop", host, b"x%d" % first
    half = count // 2
    left = full_tree(draw, host, forms, first, half)
    right = full_tree(draw, host, forms, first + half, count - half)
    form = draw.choice(forms).replace(">", "->")
    if form in ("F", "G", "O", "H"):
        return "&", one_sided(draw, form, left), right
    if form in ("U", "S") and count < 8:
        interval = some_interval(draw)
        return "&", ("U", interval, left, right), ("S", interval, left, right)
    return two_sided(draw, form, left, right)


# How tightly forms bind, and the tightness asked of their left and right operands.
LEVELS = {"->": (1, 2, 1), "|": (2, 2, 3), "&": (3, 3, 4), "U": (4, 5, 4), "S": (4, 5, 4)}


def tokens_of(draw, tree, level=1, spare=0.1):
    """The tokens of a tree, with the parentheses that it needs and a few to spare."""
    own = LEVELS.get(tree[0], (5,))[0]
    tokens = bare_tokens(draw, tree, spare)
    while own < level or chance(draw, spare):
        tokens = [b"(", *tokens, b")"]
        own = 6
    return tokens


def bare_tokens(draw, tree, spare):
    """The tokens of a tree without parentheses around it."""
    form = tree[0]
    sign = form.encode()
    if form in ("true", "false"):
        return [sign]
    if form == "prop":
        return [tree[1], b".", tree[2]]
    if form == "!":
        return [sign, *tokens_of(draw, tree[1], 5, spare)]
    if form in ("F", "G", "O", "H"):
        return [sign, *interval_tokens(draw, tree[1]), *tokens_of(draw, tree[2], 5, spare)]
    _, left, right = LEVELS[form]
    between = [sign, *interval_tokens(draw, tree[1])] if form in ("U", "S") else [sign]
    before = tokens_of(draw, tree[-2], left, spare)
    return before + between + tokens_of(draw, tree[-1], right, spare)


def interval_tokens(draw, interval):
    """The tokens of an interval, or none for the one that may be left out."""
    low, high = interval
    if interval == (0, None) and chance(draw, 0.6):
        return []
    return [b"[", b"%d" % low, b",", b"inf" if high is None else b"%d" % high, b"]"]


def formula_text(draw, tokens):
    """The bytes of tokens with blanks between some of them."""
    share = draw.choice((0.0, 0.2, 0.5, 1.0))
    pieces = []
    for token in tokens:
        if chance(draw, share):
            pieces.append(draw.choice(BLANKS))
        pieces.append(token)
    if chance(draw, share / 2):
        pieces.append(draw.choice(BLANKS))
    return b"".join(pieces)


LOOSE_TOKENS = b"( ) [ ] , . ! & | -> U S F G O H 0 7 true false inf a - > _ X 01 00".split()
LOOSE_TOKENS += b"[0,3] a.p inf.p true.p a.inf a.true a.7 F[inf,3] F[1,2 [3,inf]".split()
LOOSE_TOKENS += [b"1000000000000000001", b"9" * 30, HUGE_NUMBER, b"w" * 32, b"w" * 33]


def broken_tokens(draw, tokens):
    """The tokens after one edit of a token."""
    tokens = list(tokens)
    place = draw.randrange(len(tokens))
    choice = draw.randrange(8)
    if choice == 0:
        tokens.pop(place)
    elif choice == 1:
        tokens.insert(place, tokens[place])
    elif choice == 2:
        other = draw.randrange(len(tokens))
        tokens[place], tokens[other] = tokens[other], tokens[place]
    elif choice == 3:
        del tokens[place:]
    elif choice == 4:
        tokens[place] = draw.choice(LOOSE_TOKENS)
    elif choice == 5:
        tokens.append(draw.choice(LOOSE_TOKENS))
    elif choice == 6:
        tokens += [draw.choice((b")", b"(", b"!", b"[", b"U", b"")), *tokens]
    else:
        tokens.insert(place, draw.choice(LOOSE_TOKENS))
    return tokens


def broken_numbers(draw, tokens):
    """The tokens with a number of an interval spelled wrongly or the interval made empty."""
    tokens = list(tokens)
    brackets = [place for place, token in enumerate(tokens) if token == b"["]
    if not brackets:
        return broken_tokens(draw, tokens)
    for place in draw.sample(brackets, min(len(brackets), draw.choice((1, 1, 2)))):
        if chance(draw, 0.4):
            crossed = (b"5 , 3", b"1 , 0", b"1000000000000000000 , 999999999999999999")
            tokens[place + 1 : place + 4] = draw.choice(crossed).split()
        else:
            spelled = b"01 00 1000000000000000001 1000000000000000000 99999999999999999999".split()
            spelled += [b"-1", b"", b"inf", b"x", HUGE_NUMBER]
            tokens[place + draw.choice((1, 3))] = draw.choice(spelled)
    return tokens


def broken_formula(draw, tokens):
    """The bytes of tokens after an edit of a number, a token or a byte."""
    choice = draw.random()
    if choice < 0.25:
        return formula_text(draw, broken_numbers(draw, tokens))
    if choice < 0.6:
        return formula_text(draw, broken_tokens(draw, tokens))
    others = b"( ) [ ] , . ! & | -> - U F 0 1 a # \xff".split() + [b" ", b"\0"]
    return broken_bytes(draw, formula_text(draw, tokens), others)


def flat_tokens(draw, log):
    """The tokens of operands in a row, with nothing but the operators to tell how they group."""
    tokens = []
    for place in range(draw.randint(2, 5)):
        if place:
            form = draw.choice(("&", "|", "->", "U", "S", "U", "S"))
            interval = interval_tokens(draw, some_interval(draw)) if form in ("U", "S") else []
            tokens += [form.encode(), *interval]
        if chance(draw, 0.25):
            signed = one_sided(draw, draw.choice("!FGOH"), some_leaf(draw, log))
            tokens += bare_tokens(draw, signed, 0)
        elif chance(draw, 0.4):
            tokens.append(draw.choice((b"true", b"false")))
        else:
            tokens += bare_tokens(draw, some_leaf(draw, log), 0)
    return tokens


def formula_file(draw, log):
    """The bytes of a formula over the hosts of a log."""
    choice = draw.random()
    if choice < 0.04:
        tokens = tokens_of(draw, tall_tree(draw, log), spare=0.01)
        return formula_text(draw, broken_numbers(draw, tokens) if chance(draw, 0.1) else tokens)
    if choice < 0.08:
        tokens = tokens_of(draw, wide_tree(draw, log), spare=0.01)
        if chance(draw, 0.1):
            dots = [place for place, token in enumerate(tokens) if token == b"."]
            tokens[draw.choice(dots) - 1] = b"zz"
        return formula_text(draw, tokens)
    if choice < 0.083:
        depth = draw.randint(1000, 32000)
        inner = formula_text(draw, tokens_of(draw, some_tree(draw, log, 2)))
        return b"(" * depth + inner + b")" * (depth - draw.choice((0, 0, 0, 1, -1)))
    if chance(draw, 0.3):
        tokens = flat_tokens(draw, log)
        if chance(draw, 0.5):
            later = interval_tokens(draw, some_interval(draw))
            tokens = [draw.choice((b"F", b"G")), *later, b"(", *tokens, b")"]
    else:
        tree = some_tree(draw, log, draw.choice((0, 1, 1, 2, 2, 3, 3, 4, 6, 10)))
        tree = one_sided(draw, draw.choice("FG"), tree) if chance(draw, 0.5) else tree
        tokens = tokens_of(draw, tree)
    if choice < 0.29:
        return broken_formula(draw, tokens)
    if choice < 0.33:
        other = draw.choice((b"zz", b"zz", b"a", b"b", b"web", b"inf", b"true", b"false"))
        tokens = [other if token in HOST_NAMES and chance(draw, 0.5) else token for token in tokens]
    return formula_text(draw, tokens)


# Times


def near_times(draw, log):
    """A time for each row, near its local time."""
    wider = draw.choice((0, 0, 1))
    skews = [reference.skew_of(log, event) + wider for event in range(len(log.rows))]
    return [row.local + draw.randint(-skew, skew) for row, skew in zip(log.rows, skews)]


def relaxed_times(draw, log):
    """An admissible timing, or near times where the log has none.

    Times near the local ones are lowered, or raised, until each bound holds;
    then the zero moment is put back to zero and some rows are moved a little.
    """
    if any(row.act == b"recv" and row.name not in logs.sent_names(log) for row in log.rows):
        return near_times(draw, log)
    edges = reference.bounds(log)
    times = dict(enumerate([*near_times(draw, log), *[0] * len(log.clocks)]))  # clocks stand behind the rows
    times[None] = 0
    lowering = chance(draw, 0.5)
    for _ in range(len(times) + 1):
        for edge in edges:
            if times[edge.start] - times[edge.end] > edge.most and lowering:
                times[edge.start] = times[edge.end] + edge.most
            elif times[edge.start] - times[edge.end] > edge.most:
                times[edge.end] = times[edge.start] - edge.most
    found = [times[event] - times[None] for event in range(len(log.rows))]
    return moved_times(draw, log, found)


def moved_times(draw, log, times):
    """Admissible times with some rows moved so that they stay admissible."""
    for _ in range(8):
        other = list(times)
        other[draw.randrange(len(other))] += draw.choice((-2, -1, 1, 2))
        if reference.first_broken(log, other) is None:
            times = other
    return times


def times_text(draw, lines):
    """The bytes of lines, mostly with a newline behind each."""
    end = b"\r\n" if chance(draw, 0.1) else b"\n"
    text = end.join(lines)
    return text + draw.choice((b"", b"", b"\r")) if chance(draw, 0.15) else text + end


def faulty_times(draw, times):
    """The bytes of a times file after an edit."""
    lines = [b"%d" % time for time in times]
    place = draw.randrange(len(lines))
    choice = draw.randrange(8)
    if choice == 0:
        del lines[place:]
    elif choice == 1:
        lines.append(draw.choice((b"0", b"", b"x", b"\r")))
    elif choice == 2:
        lines[place] += draw.choice((b"\r", b" ", b".", b"\r\r", b"\0"))
    elif choice == 3:
        others = [b"\r", b"\n", b"-", b"+", b"0", b"1", b" ", b"x"]
        return broken_bytes(draw, times_text(draw, lines), others)
    elif choice == 4:
        lines.insert(place, b"")
    else:
        lines[place] = draw.choice(odd_numbers())
    return times_text(draw, lines)


def nudged_times(draw, log):
    """An admissible timing with one row moved, which may break a bound."""
    times = relaxed_times(draw, log)
    times[draw.randrange(len(times))] += draw.choice((-3, -2, -1, -1, 1, 1, 2, 3))
    return times


def times_file(draw, log):
    """The bytes of times for a log: admissible, near the local times, or faulty."""
    choice = draw.randrange(6)
    if choice in (0, 1):
        times = relaxed_times(draw, log)
    else:
        times = nudged_times(draw, log) if choice == 2 else near_times(draw, log)
    if choice in (4, 5):
        return faulty_times(draw, times)
    return times_text(draw, [b"%d" % time for time in times])


# Cases


def drop_file(draw, files):
    """Seldom takes one file away."""
    if chance(draw, 0.01):
        del files[draw.choice(list(files))]


def log_case(draw, command, log, share_broken):
    """A case of a command that takes a log alone."""
    name = draw.choice(("l", "l", "l", "l", "-"))
    files = {name: log_file(draw, log, share_broken)}
    drop_file(draw, files)
    return Case([command, name], files)


def times_case(draw):
    """A case of times."""
    if chance(draw, 0.02):
        log = crowded_log(draw)
    else:
        log = wild_log(draw) if chance(draw, 0.4) else steady_log(draw)
    return log_case(draw, "times", log, 0.2)


def order_case(draw):
    """A case of order, mostly with many messages."""
    if chance(draw, 0.02):
        log = crowded_log(draw)
    else:
        log = wild_log(draw, 0.9) if chance(draw, 0.6) else some_log(draw)
    return log_case(draw, "order", log, 0.35)


def replay_case(draw):
    """A case of replay, seldom with one or two of its files on the standard input."""
    log = crowded_log(draw) if chance(draw, 0.005) else some_log(draw)
    files = {
        "f": formula_file(draw, log),
        "l": log_file(draw, log, 0.06),
        "t": times_file(draw, log),
    }
    drop_file(draw, files)
    names = ["f", "l", "t"]
    for _ in range(draw.choice([0] * 20 + [1, 1, 2])):
        place = draw.randrange(3)
        if names[place] in files:
            files["-"] = files.pop(names[place])
        names[place] = "-"
    return Case(["replay", *names], files)


# The operands of commands in cases of words: names of files, and what is asked before them.
OPERANDS_OF_WORDS = {
    "times": "l", "order": "l", "replay": "f l t", "check": "f l", "audit": "f l r", "trim": "r", "json": "l",
    "tolerance": "true 5 f l", "span": "false 0 1 f l",
}
NUMBERS_OF_CONFLICTS = "1 5 1000000 0 1000001 05 +5 -5 5x 1e3".split() + [""]


def words_case(draw):
    """A case of words that are often no command, with short files that are without fault."""
    command = draw.choice((*OPERANDS_OF_WORDS, "replay", "check", "audit", "demo", "demo"))
    words = [seed_of_demo(draw)] if command == "demo" else OPERANDS_OF_WORDS[command].split()
    for place in range(len(words)):
        if chance(draw, 0.2):
            words[place] = draw.choice(("-", "--", "--", "-x", "5", "", "none"))
    for _ in range(draw.choice((0, 0, 1, 1, 1, 2))):
        words.insert(draw.randint(0, len(words)), "--")
    if chance(draw, 0.6 if command in program.SEARCHES else 0.1):
        for _ in range(draw.choice((1, 1, 1, 1, 2))):
            place = draw.randint(0, len(words))
            words[place:place] = option_words(draw)
    words.insert(0, command)
    for _ in range(draw.choice((0, 0, 0, 1, 1, 2))):
        edit_words(draw, words)
    return Case([] if chance(draw, 0.05) else words, files_of_words(draw))


def seed_of_demo(draw):
    """A seed of a demo: at a limit, small, or anywhere."""
    return str(draw.choice((draw.choice((0, 2**64 - 1, 2**64)), draw.randrange(1000), draw.getrandbits(64))))


def option_words(draw):
    """The option on conflicts, mostly with a right number, in one of its two forms."""
    number = draw.choice(NUMBERS_OF_CONFLICTS[: draw.choice((2, 3, 11))])
    return draw.choice((["--conflicts", number], [f"--conflicts={number}"]))


def files_of_words(draw):
    """Short files under names that words are likely to have."""
    log = b"kind,host,time,name\nhost,a,1,0\nset,a,10,p\n"
    report = b"skewcheck 1\nevents 1\ntrue witness\n10\nfalse refuted 1\n"
    report += b"learn 0 3 rule 2 0 0 0 rule 11 rule 24 0\nend\n"
    contents = {"f": b"a.p", "t": b"10\n", "r": report}
    names = draw.sample(["f", "l", "t", "r", "-x", "--", "5"], draw.randint(5, 7))
    files = {name: contents.get(name, log) for name in names}
    files["-"] = draw.choice((log, b"a.p", b"10\n", report, b""))
    return files


def edit_words(draw, words):
    """Drops, adds, exchanges or doubles a word."""
    loose = "- - -- -- -- -x --- --conflicts --conflicts=5 5 f l t no \u00e9 Times".split()
    loose += "times order replay check audit trim json demo tolerance span true 0 look --help -h --version -V".split()
    loose += ["", "", "times "]
    choice = draw.randrange(6)
    if choice == 0 and words:
        words.pop(draw.randrange(len(words)))
    elif choice == 1 and words:
        words[draw.randrange(len(words))] = draw.choice(loose)
    elif choice == 2 and words:
        words.insert(draw.randint(0, len(words)), draw.choice(words))
    else:
        words.insert(draw.randint(0, len(words)), draw.choice(loose))


KINDS = {"times": times_case, "order": order_case, "replay": replay_case, "words": words_case}
