"""Breaks derivations by edits of their lines and of their text.

Most edits make a derivation wrong or take it out of the grammar; some leave it
right. Which is the case isn't known here.
"""

import derivations
import generate_logs
from derivations import Cycle, Learn, LineHint, Literal, Rule, Step, negation, order
from generate_logs import chance

LIMITS = (2**32 - 1, 2**32, 2**31, 2**64, 10**21, 10**21 + 1, 10**21 - 1, 10**22, 255, 256)


def broken_text(draw, problem, lines):
    """The text of the lines after an edit or two, which seldom leave it as it was."""
    right = derivations.text_of(lines)
    for _ in range(5):
        edited = [opened(line) for line in lines]
        for _ in range(draw.choice((0, 1, 1, 1, 1, 1, 1, 2))):
            edit = draw.choice(LINE_EDITS)
            edit(draw, problem, edited)
        text = derivations.text_of(edited)
        if text and chance(draw, 0.12):
            text = edited_text(draw, text)
        if text != right:
            break
    return text


def opened(line):
    """The line with lists of its own, which may be changed."""
    return type(line)(*(list(part) for part in line))


# Things by chance


def some_event(draw, problem):
    """The number of an event, seldom of none."""
    return draw.randint(0, len(problem.log.rows) - (not chance(draw, 0.05)))


def some_node(draw, problem):
    """The number of a node, seldom of none."""
    return draw.randint(0, len(problem.nodes) - (not chance(draw, 0.05)))


def some_bound(draw):
    """A bound, mostly a small one."""
    return draw.choice((draw.randint(-4, 4), 0, -1, 10**21, -(10**21), -(10**21) - 1))


def some_order(draw, problem):
    """Two different events and a bound."""
    e, f = some_event(draw, problem), some_event(draw, problem)
    return (e, f if f != e else e + 1, some_bound(draw))


def some_literal(draw, problem):
    """A literal by chance."""
    kind = draw.choice(("order", "node", "node", "first", "same", "wit", "span", "gap"))
    if kind == "order":
        return order(*some_order(draw, problem))
    if kind == "same":
        return some_same(draw, problem)
    if kind == "first":
        atom = (kind, some_event(draw, problem))
    else:
        events = [some_event(draw, problem) for _ in range(1 if kind == "node" else 2)]
        atom = (kind, some_node(draw, problem), *events)
    return Literal(atom, chance(draw, 0.5))


def some_same(draw, problem):
    """A literal by chance on whether two events are at one instant, the smaller one first."""
    e = some_event(draw, problem)
    return Literal(("same", e, e + draw.choice((1, 1, 2, 3))), chance(draw, 0.5))


def some_rule(draw, problem):
    """A rule by chance, seldom with a number that no rule has."""
    rules = tuple(derivations.RULE_ARGUMENTS)
    rule = draw.choice((*rules, *rules, 0, 25, 29, 255))
    letters = derivations.RULE_ARGUMENTS.get(rule, "")
    draws = {"k": some_node}
    return Rule(rule, tuple(draws.get(letter, some_event)(draw, problem) for letter in letters))


def some_hint(draw, problem, count):
    """A hint by chance in a derivation with that many lines."""
    if chance(draw, 0.4):
        return LineHint(draw.randint(0, count + 1))
    return some_rule(draw, problem)


def log_steps():
    """The kinds of steps that are bounds of a log, without those of a version of which no log is."""
    versions = generate_logs.versions()
    return [kind for kind in derivations.LOG_STEPS if STEP_VERSIONS.get(kind, 1) in versions]


# The versions of steps that not all logs have.
STEP_VERSIONS = {b"late": 2, b"under": 3, b"over": 3}


def some_step(draw, problem):
    """A step by chance."""
    kind = draw.choice((*log_steps(), b"order"))
    if kind == b"order":
        return Step(kind, some_order(draw, problem))
    return Step(kind, (some_event(draw, problem),))


def lists_of(lines, form, part):
    """The lists of that part in the lines of a form, each with the number of its line."""
    return [
        (number, getattr(line, part))
        for number, line in enumerate(lines, start=1)
        if isinstance(line, form)
    ]


def filled(lists):
    """Those of the lists that aren't empty."""
    return [(number, items) for number, items in lists if items]


def one_of(draw, lists):
    """One of the lists, or an empty list of no line where there is none."""
    return draw.choice(lists) if lists else (0, [])


# Edits of lists: each takes a list and a way to draw a new item.


def drop_item(draw, items, fresh):
    """Takes one item out."""
    del items[draw.randrange(len(items))]


def add_item(draw, items, fresh):
    """Puts a new item in."""
    items.insert(draw.randint(0, len(items)), fresh())


def replace_item(draw, items, fresh):
    """Puts a new item in the place of another."""
    items[draw.randrange(len(items))] = fresh()


def repeat_item(draw, items, fresh):
    """Puts an item in once more."""
    items.insert(draw.randint(0, len(items)), draw.choice(items))


def exchange_items(draw, items, fresh):
    """Exchanges two items."""
    one, other = draw.randrange(len(items)), draw.randrange(len(items))
    items[one], items[other] = items[other], items[one]


def turn_items(draw, items, fresh):
    """Puts the items in cyclic order from another one on."""
    place = draw.randrange(len(items))
    items[:] = items[place:] + items[:place]


def double_items(draw, items, fresh):
    """Writes all items twice."""
    items[:] = items * 2


def cut_items(draw, items, fresh):
    """Takes the items from some place on away."""
    del items[draw.randrange(len(items)) :]


LIST_EDITS = (drop_item, drop_item, add_item, replace_item, repeat_item, exchange_items)


# Edits of lines


def edit_hints(draw, problem, lines):
    """Edits the list of hints of a line."""
    number, hints = one_of(draw, filled(lists_of(lines, Learn, "hints")))
    if hints:
        edit = draw.choice((*LIST_EDITS, turn_items, cut_items))
        edit(draw, hints, lambda: some_hint(draw, problem, len(lines)))


def misdirect_hint(draw, problem, lines):
    """Has a hint name line 0, its own line, a later one, or one that can't be."""
    number, hints = one_of(draw, filled(lists_of(lines, Learn, "hints")))
    if hints:
        others = (0, number, number + 1, number - 1, len(lines), len(lines) + 1, 2**32 - 1, 2**32)
        hints[draw.randrange(len(hints))] = LineHint(draw.choice(others))


def change_rule(draw, problem, lines):
    """Changes the number or an argument of a rule that a hint names."""
    _, hints = one_of(draw, filled(lists_of(lines, Learn, "hints")))
    places = [place for place, hint in enumerate(hints) if isinstance(hint, Rule)]
    if not places:
        return
    place = draw.choice(places)
    rule, arguments = hints[place].number, list(hints[place].arguments)
    if not arguments or chance(draw, 0.4):
        alike = [
            other
            for other, letters in derivations.RULE_ARGUMENTS.items()
            if len(letters) == len(arguments)
        ]
        rule = draw.choice(alike)
    else:
        at = draw.randrange(len(arguments))
        arguments[at] = max(0, arguments[at] + draw.choice((-1, 1, 1, 2, 2**32 - 1)))
    hints[place] = Rule(rule, tuple(arguments))


def edit_literals(draw, problem, lines):
    """Edits the list of literals of a line."""
    lists = lists_of(lines, Learn, "literals")
    if chance(draw, 0.5):
        lists = filled(lists)
    _, literals = one_of(draw, lists)
    edit = draw.choice(LIST_EDITS) if literals else add_item
    edit(draw, literals, lambda: some_literal(draw, problem))


def change_literal(draw, problem, lines):
    """Turns the sign of a literal, moves its bound by one, or changes one of its numbers."""
    _, literals = one_of(draw, filled(lists_of(lines, Learn, "literals")))
    if not literals:
        return
    place = draw.randrange(len(literals))
    kind, *numbers = literals[place].atom
    if chance(draw, 0.4):
        literals[place] = negation(literals[place])
        return
    at = -1 if kind == "order" and chance(draw, 0.7) else draw.randrange(len(numbers))
    numbers[at] += draw.choice((-1, 1))
    if kind == "order":
        changed = order(*numbers)
        literals[place] = literals[place] if isinstance(changed, bool) else changed
    elif numbers[at] >= 0:
        literals[place] = Literal((kind, *numbers), literals[place].positive)


def repeat_atom(draw, problem, lines):
    """Writes an atom twice in a line, with the same or the other sign."""
    _, literals = one_of(draw, filled(lists_of(lines, Learn, "literals")))
    if literals:
        literal = draw.choice(literals)
        again = negation(literal) if chance(draw, 0.5) else literal
        literals.insert(draw.randint(0, len(literals)), again)


def edit_steps(draw, problem, lines):
    """Edits the list of steps of a line."""
    _, steps = one_of(draw, filled(lists_of(lines, Cycle, "steps")))
    if steps:
        edit = draw.choice((*LIST_EDITS, turn_items, turn_items, double_items, cut_items))
        edit(draw, steps, lambda: some_step(draw, problem))


def change_step(draw, problem, lines):
    """Moves the bound of an order step by one, or changes a number or the kind of a step."""
    _, steps = one_of(draw, filled(lists_of(lines, Cycle, "steps")))
    if not steps:
        return
    place = draw.randrange(len(steps))
    kind, numbers = steps[place]
    if kind == b"order" and chance(draw, 0.7):
        e, f, bound = numbers
        steps[place] = Step(kind, (e, f, bound + draw.choice((-1, 1))))
    elif kind == b"order" or chance(draw, 0.5):
        numbers = (max(0, numbers[0] + draw.choice((-1, 1, 2**32 - 1))), *numbers[1:])
        steps[place] = Step(kind, numbers)
    else:
        steps[place] = Step(draw.choice(log_steps()), numbers)


def edit_lines(draw, problem, lines):
    """Edits the list of lines."""
    if lines:
        edit = draw.choice((*LIST_EDITS, turn_items, cut_items, cut_items, double_items))
        edit(draw, lines, lambda: some_line(draw, problem, len(lines)))
        lines[:] = [opened(line) for line in lines]


def some_line(draw, problem, count):
    """A line by chance: often one that has an empty clause."""
    if chance(draw, 0.3):
        return Cycle([some_step(draw, problem) for _ in range(draw.randint(0, 3))])
    literals = [some_literal(draw, problem)] if chance(draw, 0.5) else []
    hints = [some_hint(draw, problem, count) for _ in range(draw.randint(0, 3))]
    return Learn(literals, hints)


def end_early(draw, problem, lines):
    """Puts the last line, or an empty clause by it, somewhere before the end or after it."""
    if lines:
        lines.insert(draw.randint(0, len(lines)), opened(lines[-1]))
    if chance(draw, 0.5):
        lines.append(Learn([], [LineHint(len(lines))]))


def learn_from_constant(draw, problem, lines):
    """Begins with a line that names a rule without a clause, as a constant makes it trivial.

    The line learns what else the rule lists.
    """
    rules = [some_rule(draw, problem) for _ in range(20)]
    trivial = [
        rule
        for rule in rules
        if derivations.clause_of(problem, rule) == derivations.RuleFault.TRIVIAL
    ]
    if trivial:
        parts = derivations.rule_parts(problem, trivial[0])
        literals = [part for part in parts if not isinstance(part, bool)]
        lines.insert(0, Learn(literals, [trivial[0]]))


LINE_EDITS = (
    edit_hints, edit_hints, edit_hints, misdirect_hint, change_rule, change_rule, change_rule,
    edit_literals, edit_literals, change_literal, change_literal, repeat_atom, edit_steps,
    edit_steps, change_step, change_step, edit_lines, edit_lines, end_early, learn_from_constant,
)


# Edits of texts


def edited_text(draw, text):
    """The text with one of its lines, or one of its line ends, misspelled."""
    *lines, _ = text.split(b"\n")
    place = draw.randrange(len(lines))
    if chance(draw, 0.15):
        return edited_ends(draw, lines, place)
    edit = draw.choice(WORD_EDITS)
    words = lines[place].split(b" ")
    edit(draw, words)
    lines[place] = b" ".join(words)
    return b"".join(line + b"\n" for line in lines)


def edited_ends(draw, lines, place):
    """The text of the lines with a fault in where they end."""
    choice = draw.randrange(5)
    if choice == 0:
        return b"\n".join(lines)
    if choice == 1:
        lines.insert(draw.randint(0, len(lines)), b"")
    elif choice == 2:
        lines[place] += b"\r"
    elif choice == 3:
        lines[place] = lines[place].replace(b" ", b"\n", 1)
    else:
        lines[place : place + 2] = [b" ".join(lines[place : place + 2])]
    return b"".join(line + b"\n" for line in lines)


def number_places(words):
    """The places of words that are numbers, or the first word's where there is none."""
    places = [place for place, word in enumerate(words) if word.lstrip(b"-").isdigit()]
    return places or [0]


def make_huge(draw, words):
    """Puts a number at the limit of some range, or beyond it, in the place of another."""
    limit = draw.choice(LIMITS)
    sign = b"-" if chance(draw, 0.2) else b""
    words[draw.choice(number_places(words))] = sign + b"%d" % limit


def misspell_number(draw, words):
    """Spells a number in a way that numbers aren't spelled."""
    place = draw.choice(number_places(words))
    word = words[place]
    odd = (b"0" + word, b"+" + word, b"-" + word, b"-0", b"--" + word, b"", word + b"0", b"x",
           b"00", word + b".", b"-0" + word, b"0x" + word, b" " + word, b"\xff")
    words[place] = draw.choice(odd)


def change_count(draw, words):
    """Moves a number by one, which may be a count of the line."""
    places = number_places(words)
    place = draw.choice((places[0], draw.choice(places)))
    if words[place].isdigit():
        words[place] = b"%d" % max(0, int(words[place]) + draw.choice((-1, 1)))


def change_word(draw, words):
    """Puts another word in the place of one."""
    others = b"cycle learn order line rule node first same wit span gap"
    signed = b"+node -node +first -first +same -same +wit -wit +span -span +gap -gap +order Learn CYCLE"
    words[draw.randrange(len(words))] = draw.choice([*others.split(), *log_steps(), *signed.split()])


def change_blank(draw, words):
    """Puts a blank too much, another blank or another sign somewhere."""
    place = draw.randrange(len(words))
    odd = (b" " + words[place], words[place] + b" ", words[place] + b"\t", b"\t", b"",
           words[place] + b",", words[place].upper())
    words[place] = draw.choice(odd)


def drop_word(draw, words):
    """Takes a word away."""
    del words[draw.randrange(len(words))]


def add_word(draw, words):
    """Puts a word in."""
    word = draw.choice((b"0", b"1", b"2", b"line", b"rule", b""))
    words.insert(draw.randint(0, len(words)), word)


def make_one_event(draw, words):
    """Has an order constraint name one event twice."""
    places = [place for place, word in enumerate(words[:-2]) if word == b"order"]
    if places:
        place = draw.choice(places)
        words[place + 1] = words[place + 2]


WORD_EDITS = (
    make_huge, make_huge, misspell_number, misspell_number, change_count, change_count,
    change_word, change_blank, drop_word, add_word, make_one_event,
)
