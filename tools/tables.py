#!/usr/bin/env python3
"""Checks table images, and writes sample tables and random ones.

    tables.py samples                 writes the sample tables
    tables.py expect PATH...          prints what is to be said of each file
    tables.py random DIR COUNT SEED   writes COUNT random tables, sound and
                                      damaged, and DIR/expected.txt
    tables.py selftest                tests the checker

What is expected comes from the checker below, which is written from the rules
of a table image, never from the program. Run it in the repository's top folder.

A table image is a list of signed 32-bit numbers. A file of one is text: decimal
numbers with white space between them; "#" starts a comment up to the line's end.
"""
import collections
import pathlib
import random
import re
import sys

FOLDER = pathlib.Path("crates/scoreline_batch/data/tables")

END = -1  # the end of the text, which counts as the symbol before all others
LAST = 1_114_111  # the last symbol
MOST = 65_535  # of token types, channels and predicates

State = collections.namedtuple("State", "kind rule flag first count")
Transition = collections.namedtuple("Transition", "kind target p q")
Interval = collections.namedtuple("Interval", "low high")
Mode = collections.namedtuple("Mode", "start")
Rule = collections.namedtuple("Rule", "start stop type")
Action = collections.namedtuple("Action", "kind argument")
Table = collections.namedtuple(
    "Table", "states transitions intervals modes rules actions"
)

# The sections in their order: the record, and the least and most of them.
SECTIONS = [
    (State, 1, 4096),
    (Transition, 0, 16384),
    (Interval, 0, 8192),
    (Mode, 1, 64),
    (Rule, 1, 512),
    (Action, 0, 256),
]

# Kinds of states.
ORDINARY, RULE_START, MODE_START, RULE_STOP = 1, 2, 6, 7

# Kinds of transitions, and those that never read a symbol.
EPSILON, RANGE, CALL, PREDICATE, ATOM, ACTION, SET, NOT_SET, ANY = range(1, 10)
SILENT = (EPSILON, CALL, PREDICATE, ACTION)

# Kinds of actions.
CHANNEL, MODE, MORE, POP_MODE, PUSH_MODE, SKIP, TYPE = 0, 2, 3, 4, 5, 6, 7

FAULTS = {
    1: "the table ends before its sections are complete",
    2: "a count of the table is outside its limits",
    3: "numbers are left over after the table's last section",
    4: "a record of the table breaks a rule",
    5: "the table can go round without reading a symbol",
}


# ---- The checker ----


def check(numbers):
    """The fault of an image and its place, or (0, 0) if it has none."""
    fault, place, table = split(numbers)
    if fault:
        return fault, place
    place = 0
    for (record, _, _), sound in zip(SECTIONS, SOUND):
        place += 1  # the count
        for good in sound(table):
            if not good:
                return 4, place
            place += len(record._fields)
    state = lowest_round(silent_edges(table))
    return (0, 0) if state is None else (5, state)


def split(numbers):
    """The fault of an image's sections, its place, and the table if it has none."""
    at = 0
    sections = []
    for record, least, most in SECTIONS:
        if at == len(numbers):
            return 1, at, None
        count = numbers[at]
        if not least <= count <= most:
            return 2, at, None
        width = len(record._fields)
        first, at = at + 1, at + 1 + count * width
        if at > len(numbers):
            return 1, len(numbers), None
        sections.append([record(*numbers[i : i + width]) for i in range(first, at, width)])
    if at < len(numbers):
        return 3, at, None
    return 0, 0, Table(*sections)


# The functions below tell of each record in turn whether it keeps the rules. They
# are asked no further after the first that does not, and so may rely on all before.


def sound_states(table):
    before = 0  # transitions of earlier states
    for number, (kind, rule, flag, first, count) in enumerate(table.states):
        ways = table.transitions[before : before + max(count, 0)]
        last = number == len(table.states) - 1
        yield (
            kind in (ORDINARY, RULE_START, MODE_START, RULE_STOP)
            and (rule == -1 if kind == MODE_START else is_index(rule, table.rules))
            and (flag == 0 or (flag == 1 and kind == ORDINARY))
            and first == before
            and (count == 0 if kind == RULE_STOP else count >= 1)
            and first + count <= len(table.transitions)
            and (first + count == len(table.transitions) or not last)
            and (count <= 1 or all(way.kind in SILENT for way in ways))
            and (count <= 1 or len({way.target for way in ways}) == count)
        )
        before += count


def sound_transitions(table):
    sources = [state for state in table.states for _ in range(state.count)]
    for source, way in zip(sources, table.transitions):
        yield sound_numbers(table, way) and sound_target(table, source, way)


def sound_numbers(table, way):
    """Whether the numbers p and q of a transition suit its kind."""
    kind, _, p, q = way
    if kind in (EPSILON, ANY):
        return p == 0 and q == 0
    if kind == RANGE:
        return is_symbol(p) and is_symbol(q) and p <= q
    if kind == CALL:
        return is_index(p, table.states) and is_index(q, table.rules)
    if kind == PREDICATE:
        return is_index(p, table.rules) and 0 <= q <= MOST
    if kind == ATOM:
        return is_symbol(p) and q == 0
    if kind == ACTION:
        return is_index(p, table.actions) and q == 0
    if kind in (SET, NOT_SET):
        return p >= 0 and q >= 1 and p + q <= len(table.intervals)
    return False


def sound_target(table, source, way):
    """Whether a transition, whose numbers suit its kind, leads where it may."""
    if not is_index(way.target, table.states):
        return False
    target = table.states[way.target]
    if source.kind == MODE_START:
        return way.kind == EPSILON and target.kind == RULE_START
    if way.kind == CALL:
        back = table.states[way.p]
        return way.target == table.rules[way.q].start and back.rule == source.rule
    return target.rule == source.rule


def sound_intervals(table):
    for low, high in table.intervals:
        yield is_symbol(low) and is_symbol(high) and low <= high


def sound_modes(table):
    for (start,) in table.modes:
        yield is_index(start, table.states) and table.states[start].kind == MODE_START


def sound_rules(table):
    for number, (start, stop, type_) in enumerate(table.rules):
        yield (
            is_index(start, table.states)
            and is_index(stop, table.states)
            and table.states[start].kind == RULE_START
            and table.states[stop].kind == RULE_STOP
            and table.states[start].rule == number
            and table.states[stop].rule == number
            and 0 <= type_ <= MOST
        )


def sound_actions(table):
    for number, action in enumerate(table.actions):
        kind, argument = action
        if kind in (CHANNEL, TYPE):
            suits = 0 <= argument <= MOST
        elif kind in (MODE, PUSH_MODE):
            suits = is_index(argument, table.modes)
        else:
            suits = kind in (MORE, POP_MODE, SKIP) and argument == 0
        yield suits and action not in table.actions[:number]


SOUND = [
    sound_states,
    sound_transitions,
    sound_intervals,
    sound_modes,
    sound_rules,
    sound_actions,
]


def is_index(number, records):
    return 0 <= number < len(records)


def is_symbol(number):
    return END <= number <= LAST


def silent_ways(table, state):
    """The transitions of a state that can be followed without reading a symbol."""
    first, count = table.states[state].first, table.states[state].count
    for way in table.transitions[first : first + count]:
        if way.kind in (RANGE, ATOM):
            silent = way.p == END
        elif way.kind == SET:
            intervals = table.intervals[way.p : way.p + way.q]
            silent = any(interval.low == END for interval in intervals)
        else:
            silent = way.kind in SILENT
        if silent:
            yield way


def stopping(table):
    """The states from which silent steps lead to a stop and the return states there
    are those of the beginning.

    A stop is such a state. Another is if it has a silent transition to such a state,
    or a call where both the rule's start and the return state are such states.
    """
    needed_by = collections.defaultdict(list)
    for state in range(len(table.states)):
        for way in silent_ways(table, state):
            needs = {way.target, way.p} if way.kind == CALL else {way.target}
            for need in needs:
                needed_by[need].append((state, needs))
    found = set()
    todo = [n for n, state in enumerate(table.states) if state.kind == RULE_STOP]
    while todo:
        state = todo.pop()
        if state not in found:
            found.add(state)
            todo += [user for user, needs in needed_by[state] if needs <= found]
    return found


def silent_edges(table):
    """For each state those that silent steps lead to, at the state's own return states
    or above them: to a transition's target, and also over a call that can match nothing.
    """
    stops = stopping(table)
    edges = []
    for state in range(len(table.states)):
        after = set()
        for way in silent_ways(table, state):
            after.add(way.target)
            if way.kind == CALL and way.target in stops:
                after.add(way.p)
        edges.append(after)
    return edges


def lowest_round(edges):
    """The lowest state that edges lead back to from itself, or None."""
    # States that no edge leaves, or none enters, are taken away again and again: no
    # round is lost, and mostly nothing is left to search.
    left = set(range(len(edges)))
    before = collections.defaultdict(set)
    for state, after in enumerate(edges):
        for other in after:
            before[other].add(state)
    for forth, back in ((edges, before), (before, edges)):
        degrees = {state: len(forth[state] & left) for state in left}
        todo = [state for state in left if degrees[state] == 0]
        while todo:
            state = todo.pop()
            left.remove(state)
            for other in back[state] & left:
                degrees[other] -= 1
                if degrees[other] == 0:
                    todo.append(other)
    return next((state for state in sorted(left) if comes_back(edges, state)), None)


def comes_back(edges, state):
    """Whether one or more edges lead from a state back to it."""
    seen = set()
    todo = list(edges[state])
    while todo:
        other = todo.pop()
        if other == state:
            return True
        if other not in seen:
            seen.add(other)
            todo += edges[other]
    return False


# ---- What is to be said of a file ----


def say(name, numbers):
    """The line that is to be printed of a file with these numbers."""
    if not numbers:
        return f"{name}: holds no number"
    fault, place = check(numbers)
    if not fault:
        sections = zip(Table._fields, split(numbers)[2])
        counts = ", ".join(f"{len(records)} {section}" for section, records in sections)
        return f"{name}: passes: {counts}"
    words = f"{name}: refused {fault} at {place} in table: {FAULTS[fault]}"
    return words if fault == 3 else f"{words}: {spot(numbers, fault, place)}"


def spot(numbers, fault, place):
    """The count or the record that a fault's place lies in."""
    if fault == 5:
        return f"state {place}"
    at = 0
    for (record, _, _), section in zip(SECTIONS, Table._fields):
        if place == at:
            return f"count of {section}"
        width = len(record._fields)
        first, at = at + 1, at + 1 + numbers[at] * width
        if place < at:
            return f"{record.__name__.lower()} {(place - first) // width}"
    raise ValueError(f"place {place} lies in no section")


def read(path):
    """The numbers of a file."""
    numbers = []
    for line in pathlib.Path(path).read_text(encoding="utf-8").split("\n"):
        for word in line.partition("#")[0].split():
            if not re.fullmatch("-?[0-9]+", word) or not -(2**31) <= int(word) < 2**31:
                raise ValueError(f"{path}: {word!r} is not a signed 32-bit number")
            numbers.append(int(word))
    return numbers


# ---- Drafts: tables under construction ----


class Node:
    """A state of a draft. Its ways are (kind, target, p, q), where the target, and p
    of a call, are nodes."""

    def __init__(self, kind, rule):
        self.kind = kind
        self.rule = rule
        self.flag = 0
        self.ways = []


class Draft:
    """A table from its modes (each the numbers of its rules), its rules (each a name,
    a token type and an expression) and its actions."""

    def __init__(self, modes, rules, actions=()):
        self.names = [name for name, _, _ in rules]
        self.types = [type_ for _, type_, _ in rules]
        self.starts = [Node(RULE_START, rule) for rule in range(len(rules))]
        self.stops = [Node(RULE_STOP, rule) for rule in range(len(rules))]
        self.inner = [[] for _ in rules]  # the other nodes of each rule
        self.intervals = []
        self.actions = list(actions)
        self.modes = []
        for members in modes:
            mode = Node(MODE_START, -1)
            mode.ways = [(EPSILON, self.starts[rule], 0, 0) for rule in members]
            self.modes.append(mode)
        for rule, (_, _, expression) in enumerate(rules):
            if expression:
                expression(self, self.starts[rule], self.stops[rule])

    def node(self, rule, kind=ORDINARY):
        """A new node of a rule."""
        self.inner[rule].append(Node(kind, rule))
        return self.inner[rule][-1]

    def nodes(self):
        """All nodes in the order that is easiest to read: modes, then rule after rule in
        the order that a walk comes to its nodes, the stop last."""
        nodes = list(dict.fromkeys(self.modes))
        for start, inner, stop in zip(self.starts, self.inner, self.stops):
            walk, seen = [start], {start, stop}
            for node in walk:
                for kind, target, p, _ in node.ways:
                    after = p if kind == CALL else target
                    if after not in seen:
                        seen.add(after)
                        walk.append(after)
            nodes += walk + [node for node in inner if node not in seen] + [stop]
        return nodes

    def table(self, nodes=None):
        """The table, its states in the order of the nodes given."""
        nodes = nodes or self.nodes()
        number = {node: n for n, node in enumerate(nodes)}
        states, transitions = [], []
        for node in nodes:
            first, count = len(transitions), len(node.ways)
            states.append(State(node.kind, node.rule, node.flag, first, count))
            for kind, target, p, q in node.ways:
                p = number[p] if kind == CALL else p
                transitions.append(Transition(kind, number[target], p, q))
        rules = zip(self.starts, self.stops, self.types)
        return Table(
            states,
            transitions,
            [Interval(*interval) for interval in self.intervals],
            [Mode(number[mode]) for mode in self.modes],
            [Rule(number[start], number[stop], type_) for start, stop, type_ in rules],
            [Action(*action) for action in self.actions],
        )


def image(table):
    """The numbers of a table."""
    numbers = []
    for records in table:
        numbers.append(len(records))
        for record in records:
            numbers += record
    return numbers


# Expressions. Each is a function that leads from a node, which has no ways yet, to
# another node of the same rule.


def leaf(kind, p=0, q=0):
    """One transition, neither a call nor a set."""

    def lay(_, source, target):
        source.ways.append((kind, target, p, q))

    return lay


def atom(symbol):
    return leaf(ATOM, ord(symbol) if isinstance(symbol, str) else symbol)


def one_of(intervals, kind=SET):
    """A set of symbols, or with the kind NOT_SET all symbols outside it."""

    def lay(draft, source, target):
        source.ways.append((kind, target, len(draft.intervals), len(intervals)))
        draft.intervals += intervals

    return lay


def call(rule):
    def lay(draft, source, target):
        source.ways.append((CALL, draft.starts[rule], target, rule))

    return lay


def seq(*parts):
    """The parts one after the other."""

    def lay(draft, source, target):
        for part in parts[:-1]:
            between = draft.node(source.rule)
            part(draft, source, between)
            source = between
        parts[-1](draft, source, target)

    return lay


def word(text):
    return seq(*map(atom, text))


def alt(*options):
    """One of the options."""

    def lay(draft, source, target):
        for option in options:
            node = draft.node(source.rule)
            source.ways.append((EPSILON, node, 0, 0))
            option(draft, node, target)

    return lay


def decide(node, into, out, greedy):
    """Makes a node the decision whether to go into something or out of it."""
    node.flag = 0 if greedy else 1
    for target in (into, out) if greedy else (out, into):
        node.ways.append((EPSILON, target, 0, 0))


def decision(draft, source):
    """A node for a decision at a source: itself if it is ordinary, else one after it."""
    if source.kind == ORDINARY:
        return source
    node = draft.node(source.rule)
    source.ways.append((EPSILON, node, 0, 0))
    return node


def opt(part, greedy=True):
    """The part or nothing."""

    def lay(draft, source, target):
        source = decision(draft, source)
        into = draft.node(source.rule)
        decide(source, into, target, greedy)
        part(draft, into, target)

    return lay


def star(part, greedy=True):
    """The part as often as it comes, or nothing."""

    def lay(draft, source, target):
        source = decision(draft, source)
        into = draft.node(source.rule)
        decide(source, into, target, greedy)
        part(draft, into, source)

    return lay


def plus(part, greedy=True):
    """The part once or more."""

    def lay(draft, source, target):
        into = decision(draft, source)
        after = draft.node(source.rule)
        part(draft, into, after)
        decide(after, into, target, greedy)

    return lay


# ---- Sample tables ----

SCRIPTS = {
    "Latin": [
        *((0x41, 0x5A), (0x61, 0x7A), (0xAA, 0xAA), (0xBA, 0xBA)),
        *((0xC0, 0xD6), (0xD8, 0xF6), (0xF8, 0x24F), (0x1E00, 0x1EFF)),
    ],
    "Greek": [
        *((0x370, 0x373), (0x376, 0x377), (0x37B, 0x37D), (0x37F, 0x37F), (0x386, 0x386)),
        *((0x388, 0x38A), (0x38C, 0x38C), (0x38E, 0x3A1), (0x3A3, 0x3E1)),
    ],
    "Cyrillic": [(0x400, 0x481), (0x48A, 0x52F)],
    "Arabic": [(0x620, 0x652), (0x66E, 0x6D3), (0x6D5, 0x6D5)],
    "Devanagari": [(0x900, 0x963), (0x971, 0x97F)],
    "CJK": [(0x3400, 0x4DBF), (0x4E00, 0x9FFF), (0x20000, 0x2A6DF)],
    "Hangul": [(0x1100, 0x11FF), (0x3131, 0x318E), (0xAC00, 0xD7A3)],
}
DIGITS = {
    "ASCII digits": [(0x30, 0x39)],
    "Arabic-Indic digits": [(0x660, 0x669)],
    "Devanagari digits": [(0x966, 0x96F)],
}
SPACES = {
    "white space": [
        *((0x9, 0xD), (0x20, 0x20), (0x85, 0x85), (0xA0, 0xA0), (0x1680, 0x1680)),
        *((0x2000, 0x200A), (0x2028, 0x2029), (0x202F, 0x202F), (0x205F, 0x205F)),
        (0x3000, 0x3000),
    ]
}
GROUPS = {
    interval: name
    for groups in (SCRIPTS, DIGITS, SPACES)
    for name, intervals in groups.items()
    for interval in intervals
}


def joined(groups):
    return [interval for intervals in groups.values() for interval in intervals]


SAMPLES = {
    "a_or_ab": (
        "'a' is type 1, 'ab' is type 2.",
        Draft([[0, 1]], [("A", 1, word("a")), ("AB", 2, word("ab"))]),
    ),
    "a_or_a_end": (
        "'a' is type 1, 'a' and then the end of the text is type 2.",
        Draft([[0, 1]], [("A", 1, word("a")), ("A_END", 2, seq(atom("a"), atom(END)))]),
    ),
    "seat_j_or_j": (
        "'j' is type 1 where predicate 1 of rule 0 holds, else type 2.",
        Draft(
            [[0, 1]],
            [("SEAT_J", 1, seq(leaf(PREDICATE, 0, 1), atom("j"))), ("J", 2, atom("j"))],
        ),
    ),
    "comment": (
        "'/*', anything up to the nearest '*/', and that, is type 5.",
        Draft([[0]], [("COMMENT", 5, seq(word("/*"), star(leaf(ANY), False), word("*/")))]),
    ),
    "abc": ("'abc' is type 1.", Draft([[0]], [("ABC", 1, word("abc"))])),
    "words": (
        "Letters are type 1, digits type 2, white space type 3 and skipped; '\"' is\n"
        "type 5 and leads into mode 1, where anything else is type 4, and '\"' is type 6\n"
        "and leads back. LETTER is there to be called. Signs that are written with\n"
        "letters of a script are taken for letters.",
        Draft(
            [[0, 1, 2, 3], [4, 5]],
            [
                ("WORD", 1, plus(call(6))),
                ("NUMBER", 2, plus(one_of(joined(DIGITS)))),
                ("SPACE", 3, seq(plus(one_of(joined(SPACES))), leaf(ACTION, 0))),
                ("OPEN", 5, seq(atom('"'), leaf(ACTION, 1))),
                ("TEXT", 4, plus(one_of([(0x22, 0x22)], NOT_SET))),
                ("CLOSE", 6, seq(atom('"'), leaf(ACTION, 2))),
                ("LETTER", 0, one_of(joined(SCRIPTS))),
            ],
            [(SKIP, 0), (PUSH_MODE, 1), (POP_MODE, 0)],
        ),
    ),
}

# A page is a list of lines, each with the number of its section, the numbers that
# stand there, and the words of its comment. The first line of a section is its count.
Line = collections.namedtuple("Line", "section numbers words")


def page(draft):
    table = draft.table()
    lines = []
    for section, (records, words) in enumerate(zip(table, comments(draft, table))):
        lines.append(Line(section, [len(records)], ""))
        for number, (record, comment) in enumerate(zip(records, words)):
            lines.append(Line(section, list(record), f"{number}: {comment}"))
    return lines


def comments(draft, table):
    """What is to be said of each record, section by section."""
    names = draft.names
    modes = {mode.start: number for number, mode in enumerate(table.modes)}
    states = []
    for number, state in enumerate(table.states):
        if state.kind == MODE_START:
            states.append(f"mode {modes[number]} starts")
        elif state.kind == RULE_START:
            states.append(f"{names[state.rule]} starts")
        elif state.kind == RULE_STOP:
            states.append(f"{names[state.rule]} stops")
        elif state.flag:
            states.append(f"in {names[state.rule]}, a non-greedy decision")
        elif state.count > 1:
            states.append(f"in {names[state.rule]}, a decision")
        else:
            states.append(f"in {names[state.rule]}")
    sources = [n for n, state in enumerate(table.states) for _ in range(state.count)]
    transitions = []
    for source, way in zip(sources, table.transitions):
        step = f"{source} to {way.target}"
        if way.kind == CALL:
            step += f" and back to {way.p}"
        transitions.append(f"{step}, {meaning(draft, table, way)}")
    intervals = []
    for low, high in table.intervals:
        group = GROUPS.get((low, high))
        span = shown(low) if low == high else f"{shown(low)} to {shown(high)}"
        intervals.append(f"{span}, {group}" if group else span)
    return [
        states,
        transitions,
        intervals,
        [f"starts at {mode.start}" for mode in table.modes],
        [f"{name}, type {rule.type}" for name, rule in zip(names, table.rules)],
        [told(action) for action in table.actions],
    ]


def meaning(draft, table, way):
    kind, _, p, q = way
    if kind == CALL:
        return f"calls {draft.names[q]}"
    if kind == PREDICATE:
        return f"predicate {q} of {draft.names[p]}"
    if kind == ATOM:
        return shown(p)
    if kind == ACTION:
        return f"action {p}, {told(table.actions[p])}"
    if kind in (SET, NOT_SET):
        span = f"interval {p}" if q == 1 else f"intervals {p} to {p + q - 1}"
        return span if kind == SET else f"all but {span}"
    if kind == RANGE:
        return f"{shown(p)} to {shown(q)}"
    return {EPSILON: "epsilon", ANY: "any symbol"}[kind]


def shown(symbol):
    if symbol == END:
        return "end of text"
    if 0x20 < symbol < 0x7F:
        return f"'{chr(symbol)}'"
    return f"U+{symbol:04X}"


def told(action):
    kind, argument = action
    if kind in (CHANNEL, TYPE, MODE, PUSH_MODE):
        names = {CHANNEL: "channel", TYPE: "type", MODE: "mode", PUSH_MODE: "push mode"}
        return f"{names[kind]} {argument}"
    return {MORE: "more", POP_MODE: "pop mode", SKIP: "skip"}[kind]


def written(title, lines):
    """The text of a page."""
    out = [f"# {line}" for line in title.split("\n")]
    section = None
    for line in lines:
        if line.section != section:
            section = line.section
            out += ["", heading(section)]
        numbers = " ".join(map(str, line.numbers))
        out.append(f"{numbers:<24}# {line.words}" if line.words else numbers)
    return "\n".join(out) + "\n"


def heading(section):
    if section == len(SECTIONS):
        return "# Left over."
    record, _, _ = SECTIONS[section]
    return f"# {Table._fields[section].capitalize()}: {', '.join(record._fields)}."


def changed(lines, section, record, old, new, words):
    """A page with one line changed: a section's count (record None) or a record."""
    lines = list(lines)
    first = next(n for n, line in enumerate(lines) if line.section == section)
    at = first if record is None else first + 1 + record
    if lines[at].numbers != old:
        sys.exit(f"{lines[at]} is not {old}")
    label = "" if record is None else f"{record}: "
    lines[at] = Line(section, new, f"{label}{words}; was {' '.join(map(str, old))}")
    return lines


def broken(pages):
    """The broken copies: the name, the fault, what is changed, and the page."""
    abc, comment = pages["abc"], pages["comment"]
    a_or_ab, words = pages["a_or_ab"], pages["words"]
    states, transitions, intervals, modes, rules, actions = range(len(SECTIONS))
    cut = changed(abc, rules, 0, [1, 4, 1], [1, 4], "not whole")[:-1]
    letter, nothing = [7, 26, 14, 30], [1, 26, 0, 0]
    return [
        ("ends_early", 1, "abc.table, but it ends within rule 0.", cut),
        (
            "count_outside",
            2,
            "abc.table, but with the count of 65 modes.",
            changed(abc, modes, None, [1], [65], "one too many"),
        ),
        (
            "left_over",
            3,
            "a_or_ab.table, but two numbers follow it.",
            a_or_ab + [Line(len(SECTIONS), [0, 0], "")],
        ),
        (
            "state_flag",
            4,
            "comment.table, but its rule's start has the flag of a non-greedy decision.",
            changed(comment, states, 1, [2, 0, 0, 1, 1], [2, 0, 1, 1, 1], "COMMENT starts"),
        ),
        (
            "transition_target",
            4,
            "a_or_ab.table, but after 'a' rule 1 goes on to the stop of rule 0.",
            changed(a_or_ab, transitions, 3, [5, 4, 97, 0], [5, 2, 97, 0], "3 to 2, 'a'"),
        ),
        (
            "interval_upside_down",
            4,
            "words.table, but an interval's low symbol is above its high one.",
            changed(words, intervals, 3, [9, 13], [13, 9], "upside down"),
        ),
        (
            "mode_not_a_start",
            4,
            "words.table, but mode 1 starts at a rule's start.",
            changed(words, modes, 1, [1], [2], "starts at 2"),
        ),
        (
            "rule_stop_wrong",
            4,
            "a_or_ab.table, but rule 1 stops at the stop of rule 0.",
            changed(a_or_ab, rules, 1, [3, 5, 2], [3, 2, 2], "AB, type 2"),
        ),
        (
            "actions_alike",
            4,
            "words.table, but action 2 is to skip, as action 0 is.",
            changed(words, actions, 2, [4, 0], [6, 0], "skip"),
        ),
        (
            "round",
            5,
            "comment.table, but the way through the loop reads nothing.",
            changed(comment, transitions, 6, [9, 3, 0, 0], [1, 3, 0, 0], "5 to 3, epsilon"),
        ),
        (
            "round_by_call",
            5,
            "words.table, but LETTER, which WORD calls in a loop, matches nothing.",
            changed(words, transitions, 27, letter, nothing, "25 to 26, epsilon"),
        ),
    ]


def samples():
    """All sample files: the name, the fault, and the text."""
    pages = {name: page(draft) for name, (_, draft) in SAMPLES.items()}
    for name, lines in pages.items():
        yield name, 0, written(SAMPLES[name][0], lines)
    for name, fault, title, lines in broken(pages):
        yield name, fault, written(title, lines)


def write_samples():
    FOLDER.mkdir(parents=True, exist_ok=True)
    for name, fault, text in samples():
        path = FOLDER / f"{name}.table"
        path.write_text(text, encoding="utf-8")
        found, _ = check(read(path))
        if found != fault:
            sys.exit(f"{path}: fault {found}, not {fault}")


# ---- Random tables ----

SYMBOLS = [0, 1, 9, 10, 32, 97, 0x7F, 0x80, 0xD7FF, 0xD800, 0xFFFF, 0x10000, LAST - 1, LAST]


class Grower:
    """Grows random expressions for a table of so many rules and actions."""

    def __init__(self, rng, rules, actions):
        self.rng = rng
        self.rules = rules
        self.actions = actions

    def symbol(self):
        """A symbol, never the end of the text."""
        return self.rng.choice([*SYMBOLS, self.rng.randint(0, LAST)])

    def interval(self):
        low, high = sorted((self.symbol(), self.symbol()))
        return self.rng.choice([(low, high), (low, low)])

    def intervals(self):
        return [self.interval() for _ in range(self.rng.randint(1, 4))]

    def with_end(self):
        """Intervals of which at least one holds the end of the text."""
        intervals = self.intervals()
        for _ in range(self.rng.randint(1, 2)):
            high = self.rng.choice([END, 0, self.symbol()])
            intervals.insert(self.rng.randint(0, len(intervals)), (END, high))
        return intervals

    def greedy(self):
        return self.rng.random() < 0.7

    def reads(self):
        """A transition that always reads a symbol."""
        shape = self.rng.randrange(7)
        if shape == 0:
            return leaf(RANGE, *self.interval())
        if shape == 1:
            return one_of(self.intervals())
        if shape == 2:
            return one_of(self.intervals(), NOT_SET)
        if shape == 3:  # the end lies outside every set, whatever the intervals
            return one_of(self.with_end(), NOT_SET)
        if shape == 4:
            return leaf(ANY)
        return atom(self.symbol())

    def quiet(self):
        """A transition that can be followed without reading a symbol."""
        shape = self.rng.randrange(6 if self.actions else 5)
        if shape == 0:
            return atom(END)
        if shape == 1:
            return leaf(RANGE, END, self.rng.choice([END, 0, self.symbol()]))
        if shape == 2:
            return one_of(self.with_end())
        if shape == 3:
            predicate = self.rng.choice([0, 1, MOST, self.rng.randint(0, MOST)])
            return leaf(PREDICATE, self.rng.randrange(self.rules), predicate)
        if shape == 4:
            return leaf(EPSILON)
        return leaf(ACTION, self.rng.randrange(self.actions))

    def nothing(self):
        """An expression that can match nothing."""
        return self.rng.choice(
            [
                self.quiet(),
                opt(self.reads(), self.greedy()),
                star(self.reads(), self.greedy()),
                seq(self.quiet(), self.quiet()),
                seq(opt(self.reads()), star(self.reads())),
                alt(self.reads(), self.quiet()),
            ]
        )

    def any(self, depth):
        """Any expression; its loops read, unless a call spoils it."""
        if depth == 0:
            return self.reads() if self.rng.random() < 0.8 else self.quiet()
        shape = self.rng.randrange(10)
        if shape < 3:
            return seq(*(self.any(depth - 1) for _ in range(self.rng.randint(2, 3))))
        if shape < 5:
            return alt(*(self.any(depth - 1) for _ in range(self.rng.randint(2, 4))))
        if shape == 5:
            return opt(self.any(depth - 1), self.greedy())
        if shape < 8:
            loop = self.rng.choice([star, plus])
            parts = [self.reads(), self.any(depth - 1)]
            self.rng.shuffle(parts)
            return loop(seq(*parts), self.greedy())
        if shape == 8:
            return call(self.rng.randrange(self.rules))
        return seq(self.reads(), call(self.rng.randrange(self.rules)))

    def round(self, rule):
        """Expressions for a rule and some after it that make the table go round, or
        nearly so: now and then something in them reads after all."""
        near = self.rng.random() < 0.3

        def quiet():
            return self.reads() if near and self.rng.random() < 0.5 else self.quiet()

        def nothing():
            return self.reads() if near and self.rng.random() < 0.5 else self.nothing()

        loop = self.rng.choice([star, plus])
        greedy = self.greedy()
        this, next_, third = call(rule), call(rule + 1), call(rule + 2)
        return self.rng.choice(
            [
                # Loops that read nothing.
                [loop(quiet(), greedy)],
                [loop(seq(quiet(), quiet(), quiet()), greedy)],
                [loop(nothing(), greedy)],
                [loop(alt(self.reads(), seq(quiet(), quiet())), greedy)],
                # Loops through calls of rules that match nothing.
                [loop(next_, greedy), nothing()],
                [loop(seq(next_, next_), greedy), nothing()],
                [loop(seq(next_, third, next_), greedy), nothing(), nothing()],
                [loop(seq(quiet(), next_), greedy), seq(third, third), nothing()],
                [loop(next_, greedy), alt(self.reads(), third), seq(quiet(), quiet())],
                # Recursion before anything is read.
                [this],
                [seq(quiet(), this)],
                [alt(seq(this, self.reads()), self.reads())],
                [alt(self.reads(), seq(nothing(), this))],
                [seq(next_, this), nothing()],
                [seq(next_, next_, this, self.reads()), nothing()],
                [opt(seq(next_, quiet(), this), greedy), nothing()],
                [next_, this],
                [alt(next_, self.reads()), seq(quiet(), this)],
                [seq(quiet(), next_), alt(third, self.reads()), seq(nothing(), this)],
                [seq(third, next_), alt(self.reads(), seq(third, this)), nothing()],
            ]
        )


def random_actions(rng, modes):
    found = set()
    for _ in range(rng.choice([0, 1, 2, 3, 6])):
        kind = rng.choice([CHANNEL, MODE, MORE, POP_MODE, PUSH_MODE, SKIP, TYPE])
        if kind in (CHANNEL, TYPE):
            found.add((kind, rng.choice([0, 1, MOST, rng.randint(0, MOST)])))
        elif kind in (MODE, PUSH_MODE):
            found.add((kind, rng.randrange(modes)))
        else:
            found.add((kind, 0))
    found = sorted(found)
    rng.shuffle(found)
    return found


def random_modes(rng, count, rules):
    return [rng.sample(range(rules), rng.randint(1, rules)) for _ in range(count)]


def random_type(rng):
    return rng.choice([0, 1, 2, MOST, rng.randint(0, MOST)])


def grown(rng, expressions, rules, modes, actions):
    named = [(f"R{n}", random_type(rng), expressions[n]) for n in range(rules)]
    return Draft(random_modes(rng, modes, rules), named, actions)


def tree(rng):
    """A draft whose rules are random expressions."""
    rules, modes = rng.randint(1, 5), rng.randint(1, 3)
    actions = random_actions(rng, modes)
    grower = Grower(rng, rules, len(actions))
    expressions = [grower.any(rng.randint(0, 3)) for _ in range(rules)]
    return grown(rng, expressions, rules, modes, actions)


def rounded(rng):
    """A draft that goes round, or nearly so."""
    before, after, modes = rng.randint(0, 2), rng.randint(2, 3), rng.randint(1, 3)
    actions = random_actions(rng, modes)
    rules = before + 1 + after
    grower = Grower(rng, rules, len(actions))
    expressions = [grower.any(rng.randint(0, 2)) for _ in range(before)]
    expressions += grower.round(before)
    while len(expressions) < rules:
        expressions.append(grower.any(rng.randint(0, 1)))
    return grown(rng, expressions, rules, modes, actions)


def tangle(rng, rules=4, inner=4):
    """A draft whose rules are no expressions but random nodes and ways."""
    rules, modes = rng.randint(1, rules), rng.randint(1, 3)
    actions = random_actions(rng, modes)
    grower = Grower(rng, rules, len(actions))
    draft = grown(rng, [None] * rules, rules, modes, actions)
    draft.intervals += grower.intervals() + grower.with_end() + grower.intervals()
    for rule in range(rules):
        for _ in range(rng.randint(0, inner)):
            draft.node(rule, rng.choice([ORDINARY] * 6 + [RULE_START, RULE_STOP]))
        # Silent ways lead on in this order, with few exceptions.
        nodes = [*draft.inner[rule], draft.stops[rule]]
        rng.shuffle(nodes)
        nodes.insert(0, draft.starts[rule])
        for place, node in enumerate(nodes):
            if node.kind != RULE_STOP:
                later = nodes if rng.random() < 0.1 else nodes[place + 1 :]
                tangled_ways(rng, grower, draft, node, nodes, later or nodes)
                node.flag = int(node.kind == ORDINARY and rng.random() < 0.2)
    return draft


def tangled_ways(rng, grower, draft, node, nodes, later):
    """Gives a node its ways: one of any kind, or several that are silent."""
    count = rng.choice([1, 1, 1, 2, 2, 3, 4])
    if count == 1 and rng.random() < 0.8:
        shape = rng.randrange(4)
        if shape == 0:  # a set of intervals that other sets have too
            p = rng.randrange(len(draft.intervals))
            q = rng.randint(1, min(3, len(draft.intervals) - p))
            node.ways.append((rng.choice([SET, NOT_SET]), rng.choice(later), p, q))
        elif shape == 1:
            grower.quiet()(draft, node, rng.choice(later))
        else:
            grower.reads()(draft, node, rng.choice(nodes))
        return
    taken = set()
    for _ in range(count):
        target, kind = rng.choice(later), rng.choice(SILENT)
        p = q = 0
        if kind == CALL:
            q = rng.randrange(len(draft.starts))
            target, p = draft.starts[q], rng.choice(later)
        elif kind == PREDICATE:
            p, q = rng.randrange(len(draft.starts)), rng.randint(0, MOST)
        elif kind == ACTION:
            if not draft.actions:
                continue
            p = rng.randrange(len(draft.actions))
        if target not in taken:
            taken.add(target)
            node.ways.append((kind, target, p, q))
    if not node.ways:
        node.ways.append((EPSILON, rng.choice(later), 0, 0))


def passing(rng, make):
    """A draft that passes: what is made keeps all rules, but calls, and the few silent
    ways that lead back, can make it go round."""
    while True:
        draft = make(rng)
        if check(image(draft.table()))[0] == 0:
            return draft


def large(rng):
    """A draft with one section filled up or one too many in it, or with long walks."""
    section = rng.randrange(len(SECTIONS) + 2)
    if section >= len(SECTIONS):
        return rng.choice([long_chain, deep_calls])(rng)
    draft = passing(rng, tangle)
    stop = draft.stops[0]
    grower = Grower(rng, len(draft.starts), 0)
    records = draft.table()[section]
    missing = SECTIONS[section][2] - len(records) + rng.randint(0, 1)
    if section == 0:
        for _ in range(missing):
            draft.node(0).ways.append((ATOM, stop, grower.symbol(), 0))
    elif section == 1:
        earlier = [stop]
        while missing:
            count = min(missing, len(earlier), 16)
            node = draft.node(0)
            node.ways = [(EPSILON, target, 0, 0) for target in rng.sample(earlier, count)]
            earlier.append(node)
            missing -= count
    elif section == 2:
        draft.intervals += [grower.interval() for _ in range(missing)]
    elif section == 3:
        draft.modes += rng.choices(draft.modes, k=missing)
    elif section == 4:
        rules = range(len(records) + missing)
        named = [(f"R{n}", random_type(rng), atom("a")) for n in rules]
        draft = Draft([[0, len(named) - 1]], named)
    else:
        draft.actions += rng.sample([(TYPE, n) for n in range(1000, 9000)], missing)
        draft.actions = list(dict.fromkeys(draft.actions))
    return draft


def long_chain(rng):
    """A silent walk through thousands of states, perhaps round."""
    chain = seq(*[leaf(EPSILON)] * 4000)
    loops = [plus(chain), plus(seq(chain, atom("a"))), plus(seq(chain, atom(END)))]
    return Draft([[0]], [("R0", 1, rng.choice([chain, *loops]))])


def deep_calls(rng):
    """Rules that each call the next twice, the last of which matches nothing or reads;
    perhaps in a loop."""
    rules = [call(n + 1) for n in range(500)]
    rules = [seq(part, part) for part in rules]
    rules[0] = rng.choice([rules[0], star(rules[0]), star(rules[0])])
    rules.append(rng.choice([leaf(EPSILON), atom(END), atom("a")]))
    return Draft([[0]], [(f"R{n}", 1, rule) for n, rule in enumerate(rules)])


def numbered(rng, draft):
    """The image of a draft, its states in any order."""
    nodes = draft.nodes()
    if rng.random() < 0.7:
        rng.shuffle(nodes)
    return image(draft.table(nodes))


def valid(rng):
    """The image of a random table that passes, and whence it comes."""
    make = rng.choice([tree, tangle])
    return numbered(rng, passing(rng, make)), make.__name__


def layout(numbers):
    """For each section of a sound image: where its count stands, the width of its
    records and how many there are."""
    at, found = 0, []
    for record, _, _ in SECTIONS:
        width = len(record._fields)
        found.append((at, width, numbers[at]))
        at += 1 + numbers[at] * width
    return found


BOUNDARIES = [-(2**31), -2, -1, *range(10), 64, 65, 256, 257, 512, 513, 4096, 4097]
BOUNDARIES += [8192, 8193, 16384, 16385, MOST, MOST + 1, LAST, LAST + 1, 2**31 - 1]


def telling(rng, table, section, record):
    """For each number of a record of a sound table, values at the limits of the rules."""
    states, rules = len(table.states), len(table.rules)
    anywhere = [-1, states, rng.randrange(states)]
    if section == 0:
        firsts = [record.first - 1, record.first + 1]
        counts = [-1, 0, record.count - 1, record.count + 1]
        return [range(-1, 9), [-2, -1, 0, rules - 1, rules], [-1, 0, 1, 2], firsts, counts]
    if section == 1:
        targets = [rng.choice(table.transitions).target for _ in range(3)]
        actions, beyond = len(table.actions), len(table.intervals) + 1
        values = {
            EPSILON: [[-1, 1], [-1, 1]],
            RANGE: [
                [-2, -1, record.q, record.q + 1],
                [LAST, LAST + 1, record.p, record.p - 1],
            ],
            CALL: [[*anywhere, rng.randrange(states)], [-1, rules, rng.randrange(rules)]],
            PREDICATE: [[-1, rules - 1, rules], [-1, 0, MOST, MOST + 1]],
            ATOM: [[-2, -1, LAST, LAST + 1], [-1, 1]],
            ACTION: [[-1, actions - 1, actions], [-1, 1]],
            SET: [
                [-1, beyond - record.q - 1, beyond - record.q],
                [-1, 0, beyond - record.p - 1, beyond - record.p],
            ],
        }
        values[NOT_SET], values[ANY] = values[SET], values[EPSILON]
        return [[0, 10, *range(11)], anywhere + targets, *values[record.kind]]
    if section == 2:
        lows = [-2, -1, record.high, record.high + 1]
        return [lows, [LAST, LAST + 1, record.low, record.low - 1]]
    if section == 3:
        return [anywhere]
    if section == 4:
        starts = [rng.choice(table.rules).start, record.stop]
        stops = [rng.choice(table.rules).stop, record.start]
        return [anywhere + starts, anywhere + stops, [-1, 0, MOST, MOST + 1]]
    modes = len(table.modes)
    limits = {CHANNEL: [-1, MOST, MOST + 1], MODE: [-1, modes - 1, modes]}
    limits[TYPE], limits[PUSH_MODE] = limits[CHANNEL], limits[MODE]
    return [range(-1, 9), limits.get(record.kind, [-1, 0, 1])]


def aimed(rng, numbers):
    """A copy of a sound image with one number changed to a value at a rule's limits."""
    table = split(numbers)[2]
    filled = [n for n, records in enumerate(table) if records]
    section = rng.choice([0, 1, 1, 1, 1, *filled])
    at, width, count = layout(numbers)[section]
    records = range(count)
    if section < 2:  # each kind of state or transition is as likely as any other
        kind = rng.choice(sorted({record.kind for record in table[section]}))
        records = [n for n in records if table[section][n].kind == kind]
    record = rng.choice(records)
    values = telling(rng, table, section, table[section][record])
    field = rng.choice([1, 2, 2, 3, 3, 0] if section == 1 else range(width))
    place = at + 1 + record * width + field
    numbers = list(numbers)
    numbers[place] = rng.choice(list(values[field]))
    return numbers, f"number {place} changed to the limits of a rule"


def shifted(rng, numbers):
    """A copy of a sound image where a state has a transition more and the next one less,
    or the other way round."""
    numbers = list(numbers)
    count = numbers[0]
    state, one = rng.randrange(max(count - 1, 1)), rng.choice([-1, 1])
    at = 1 + 5 * state
    for place, more in ((at + 4, one), (at + 8, one), (at + 9, -one)):
        numbers[place] += more
    return numbers, f"transition handed over between states {state} and {state + 1}"


def damaged(rng, numbers):
    """A damaged copy of a sound image, and what was done to it."""
    chance = rng.random()
    if chance < 0.5:
        return aimed(rng, numbers)
    if chance < 0.52:
        return shifted(rng, numbers)
    return scattered(rng, numbers)


def scattered(rng, numbers):
    """A copy of a sound image that is damaged somewhere and somehow."""
    numbers = list(numbers)
    sections = layout(numbers)
    number = rng.randrange(len(SECTIONS))
    at, width, count = sections[number]
    name = SECTIONS[number][0].__name__.lower()
    first = at + 1

    def anything(near):
        counts = [count for _, _, count in sections]
        return rng.choice(
            [
                near - 1,
                near + 1,
                rng.choice(BOUNDARIES),
                rng.choice(counts) + rng.randint(-1, 1),
                rng.randint(0, max(counts)),
                rng.randint(-(2**31), 2**31 - 1),
            ]
        )

    def clipped(value):
        return min(max(value, -(2**31)), 2**31 - 1)

    def change():
        at, width, count = rng.choice([section for section in sections if section[2]])
        field = at + 1 + rng.randrange(width)  # of the section's first record
        place = field + width * rng.randrange(count)
        if rng.random() < 0.25:
            numbers[place] = numbers[field + width * rng.randrange(count)]
        else:
            numbers[place] = clipped(anything(numbers[place]))
        return f"number {place} changed"

    way = rng.randrange(15)
    if way < 5 or (way >= 10 and count == 0):
        return numbers, " and ".join(change() for _ in range(rng.choice([1, 1, 1, 2])))
    if way == 5:
        _, least, most = SECTIONS[number]
        outside = [least - 1, most + 1, -1, -(2**31), 2**31 - 1, most + rng.randint(1, 99)]
        numbers[at] = rng.choice([*outside, *outside, count - 1, count + 1, least, most])
        words = f", {change()}" if rng.random() < 0.2 else ""
        return numbers, f"count of {name}s changed{words}"
    if way in (6, 7):
        cut = rng.randint(at, at + count * width)
        return numbers[:cut], f"cut off at {cut}"
    if way == 8:
        words = f", {change()}" if rng.random() < 0.2 else ""
        more = [clipped(anything(0)) for _ in range(rng.randint(1, 5))]
        return numbers + more, f"numbers appended{words}"
    if way == 9:
        place = rng.randint(at, at + count * width)
        if rng.random() < 0.5:
            del numbers[place : place + rng.randint(1, 6)]
            return numbers, f"numbers removed at {place}"
        numbers[place:place] = [clipped(anything(0)) for _ in range(rng.randint(1, 6))]
        return numbers, f"numbers put in at {place}"
    one, two = (first + width * rng.randrange(count) for _ in range(2))
    record, other = numbers[one : one + width], numbers[two : two + width]
    if way == 10:
        numbers[one : one + width], numbers[two : two + width] = other, record
        return numbers, f"{name}s at {one} and {two} swapped"
    if way == 11:
        numbers[one : one + width] = other
        return numbers, f"{name} at {two} copied to {one}"
    if way == 12:
        numbers[at] += 1
        numbers[one:one] = other
        return numbers, f"{name} at {two} put in at {one}"
    if way == 13:
        rng.shuffle(record)
        numbers[one : one + width] = record
        return numbers, f"numbers of {name} at {one} shuffled"
    numbers[at] -= 1
    del numbers[one : one + width]
    return numbers, f"{name} at {one} taken out"


def random_image(rng):
    """A random image, and whence it comes."""
    kind = rng.random()
    if kind < 0.12:
        return valid(rng)
    if kind < 0.25:
        return numbered(rng, rounded(rng)), "rounded"
    if kind < 0.29:
        return numbered(rng, tangle(rng)), "tangle"
    if kind < 0.3:
        return numbered(rng, large(rng)), "large"
    if kind < 0.35:
        draft = rng.choice(list(SAMPLES.values()))[1]
        numbers, words = damaged(rng, image(draft.table()))
        return numbers, f"sample, {words}"
    numbers, whence = valid(rng)
    numbers, words = damaged(rng, numbers)
    return numbers, f"{whence}, {words}"


def rows(rng, numbers, words):
    """The text of an image, in rows of any length."""
    out = [f"# {words}"]
    width = rng.randint(1, 20)
    space = rng.choice([" ", " ", "  ", "\t"])
    comment = rng.choice(["", "", "#", " # 1 2 3"])
    for at in range(0, len(numbers), width):
        out.append(space.join(map(str, numbers[at : at + width])) + comment)
    return "\n".join(out) + "\n"


def write_random(folder, count, seed):
    rng = random.Random(seed)
    folder = pathlib.Path(folder)
    folder.mkdir(parents=True, exist_ok=True)
    lines, found = [], collections.Counter()
    for number in range(count):
        name = f"{number:05}.table"
        numbers, words = random_image(rng)
        (folder / name).write_text(rows(rng, numbers, words), encoding="utf-8")
        lines.append(say(name, numbers))
        fault, place = check(numbers)
        where = spot(numbers, fault, place) if fault in (1, 2, 4, 5) else ""
        found[fault, re.sub(r"count of (\w+)s$| \d+$", r"\1", where)] += 1
    (folder / "expected.txt").write_text("\n".join(lines) + "\n", encoding="utf-8")
    print_histogram(found)


def print_histogram(found):
    """Prints how often each fault was found, in all and by the section of its place."""
    names = [record.__name__.lower() for record, _, _ in SECTIONS]
    print("fault   total", *(f"{name:>10}" for name in names))
    for fault in range(len(FAULTS) + 1):
        total = sum(count for (other, _), count in found.items() if other == fault)
        counts = [found[fault, name] or "-" for name in names]
        print(f"{fault:5}{total:8}", *(f"{count:>10}" for count in counts))


# ---- The checker's own test ----

# A small table. Its counts stand at 0, 31, 52, 55, 57 and 64, and it has 67 numbers.
SMALL = [
    6,  # states, from 1 on, 5 numbers each
    *(6, -1, 0, 0, 1),  # 0 at 1: mode 0 starts
    *(2, 0, 0, 1, 1),  # 1 at 6: rule 0 starts
    *(1, 0, 0, 2, 2),  # 2 at 11: a decision
    *(7, 0, 0, 4, 0),  # 3 at 16: rule 0 stops
    *(2, 1, 0, 4, 1),  # 4 at 21: rule 1 starts
    *(7, 1, 0, 5, 0),  # 5 at 26: rule 1 stops
    5,  # transitions, from 32 on, 4 numbers each
    *(1, 1, 0, 0),  # 0 at 32: 0 to 1, epsilon
    *(3, 4, 2, 1),  # 1 at 36: 1 to 4 and back to 2, calls rule 1
    *(1, 1, 0, 0),  # 2 at 40: 2 to 1, epsilon
    *(6, 3, 0, 0),  # 3 at 44: 2 to 3, action 0
    *(7, 5, 0, 1),  # 4 at 48: 4 to 5, interval 0
    1,  # intervals
    *(97, 122),  # 0 at 53
    1,  # modes
    0,  # 0 at 56
    2,  # rules
    *(1, 3, 1),  # 0 at 58
    *(4, 5, 0),  # 1 at 61
    1,  # actions
    *(6, 0),  # 0 at 65
]

# The numbers put at an index of the small table, and the fault and place then.
CHANGES = [
    # Nothing, or nothing that matters.
    (0, [6], 0, 0),
    (13, [1], 0, 0),  # the decision is non-greedy
    (32, [1, 4], 0, 0),  # the mode's only rule is rule 1
    (40, [4, 1, 1, 65535], 0, 0),  # a predicate of another rule
    (48, [8, 5, 0, 1], 0, 0),
    (48, [8, 5, 0, 1, 1, -1], 0, 0),  # a not-set never matches the end of the text
    (48, [9, 5, 0, 0], 0, 0),
    (48, [5, 5, 0, 0], 0, 0),
    (48, [2, 5, 0, 1114111], 0, 0),
    (65, [7, 65535], 0, 0),
    (65, [5, 0], 0, 0),
    # Counts outside their limits, whatever follows; else the sections end too late.
    (0, [0], 2, 0),
    (0, [4097], 2, 0),
    (0, [4096], 1, 67),
    (31, [-1], 2, 31),
    (31, [16385], 2, 31),
    (31, [16384], 1, 67),
    (52, [8193], 2, 52),
    (55, [0], 2, 55),
    (55, [65], 2, 55),
    (57, [0], 2, 57),
    (57, [513], 2, 57),
    (64, [257], 2, 64),
    (64, [2], 1, 67),
    (64, [0], 3, 65),  # the action is left over
    # States: record K starts at 1 + 5 K.
    (1, [0], 4, 1),  # kinds
    (11, [3], 4, 11),
    (2, [0], 4, 1),  # a mode's start has the rule -1
    (7, [-1], 4, 6),  # others have a rule that is there
    (27, [2], 4, 26),
    (8, [1], 4, 6),  # no flag at a rule's start
    (13, [2], 4, 11),  # no flag but 1
    (13, [-1], 4, 11),
    (4, [1], 4, 1),  # first is the sum of the counts before
    (14, [1], 4, 11),
    (20, [1], 4, 16),  # a stop's count is 0
    (5, [0], 4, 1),  # and no other's
    (15, [-1], 4, 11),
    (15, [4], 4, 11),  # first and count are above the 5 transitions
    (25, [2], 4, 21),
    (15, [2147483647], 4, 11),
    (21, [7, 1, 0, 4, 0, 7, 1, 0, 4, 0], 4, 26),  # the last state leaves one over
    (40, [9], 4, 11),  # one of several transitions matches a symbol
    (44, [5, 3, 97, 0], 4, 11),
    (45, [1], 4, 11),  # two of them have the same target
    # Transitions: record K starts at 32 + 4 K.
    (48, [0, 5, 0, 0], 4, 48),  # kinds
    (48, [10, 5, 0, 0], 4, 48),
    (34, [1], 4, 32),  # numbers without meaning
    (35, [1], 4, 32),
    (43, [-1], 4, 40),
    (47, [1], 4, 44),
    (48, [9, 5, 1, 0], 4, 48),
    (48, [5, 5, 97, 1], 4, 48),
    (48, [2, 5, 98, 97], 4, 48),  # ranges
    (48, [2, 5, -2, 97], 4, 48),
    (48, [2, 5, 97, 1114112], 4, 48),
    (48, [5, 5, 1114112, 0], 4, 48),  # atoms
    (48, [5, 5, -2, 0], 4, 48),
    (48, [7, 5, -1, 1], 4, 48),  # sets
    (48, [7, 5, 0, 0], 4, 48),
    (48, [7, 5, 0, 2], 4, 48),
    (48, [7, 5, 1, 1], 4, 48),
    (48, [8, 5, 2147483647, 2147483647], 4, 48),
    (40, [4, 1, 2, 0], 4, 40),  # predicates
    (40, [4, 1, -1, 0], 4, 40),
    (40, [4, 1, 0, -1], 4, 40),
    (40, [4, 1, 0, 65536], 4, 40),
    (46, [1], 4, 44),  # actions
    (46, [-1], 4, 44),
    (39, [2], 4, 36),  # calls: rule 2 is not there
    (39, [0], 4, 36),  # the target is not the start of rule 0
    (37, [5], 4, 36),  # nor is this that of rule 1
    (38, [5], 4, 36),  # the return state is of another rule
    (38, [6], 4, 36),  # or not there
    (38, [0], 4, 36),  # or of no rule
    (32, [9], 4, 32),  # from a mode's start only epsilon leads on
    (32, [4, 1, 0, 0], 4, 32),
    (33, [2], 4, 32),  # to a rule's start
    (33, [6], 4, 32),  # that is there
    (41, [4], 4, 40),  # a target of another rule
    (41, [6], 4, 40),  # or not there
    (41, [-1], 4, 40),
    (49, [0], 4, 48),  # or of no rule
    # The interval.
    (53, [123], 4, 53),
    (53, [-2], 4, 53),
    (54, [1114112], 4, 53),
    # The mode.
    (56, [1], 4, 56),
    (56, [6], 4, 56),
    (56, [-1], 4, 56),
    # The rules: 58 and 61.
    (58, [2], 4, 58),  # starts; no call tells of rule 0
    (58, [4], 4, 58),
    (58, [-1], 4, 58),
    (61, [6], 4, 36),  # the call of rule 1 is told first
    (59, [1], 4, 58),  # stops
    (59, [5], 4, 58),
    (59, [6], 4, 58),
    (62, [3], 4, 61),
    (60, [-1], 4, 58),  # types
    (63, [65536], 4, 61),
    # The action.
    (65, [1], 4, 65),
    (65, [8], 4, 65),
    (66, [1], 4, 65),
    (65, [0, 65536], 4, 65),
    (65, [7, -1], 4, 65),
    (65, [2, 1], 4, 65),
    (65, [5, -1], 4, 65),
    (64, [2, 6, 0, 6, 0], 4, 67),  # two alike: the later
    (64, [2, 6, 0, 4, 0], 0, 0),
    # Rounds. If rule 1 can match nothing, 1 and 2 lead to each other.
    (48, [1, 5, 0, 0], 5, 1),
    (48, [5, 5, -1, 0], 5, 1),
    (48, [2, 5, -1, 9], 5, 1),
    (53, [-1], 5, 1),
    (48, [1, 4, 0, 0], 5, 4),  # rule 1 never comes to its stop: only 4 leads to itself
    (48, [3, 4, 5, 1], 5, 4),  # rule 1 calls itself
    (48, [3, 1, 5, 0], 5, 1),  # rule 1 calls rule 0, which calls rule 1
    (36, [1, 2, 0, 0], 5, 1),  # rule 0 by itself
    (36, [5, 3, 97, 0, 1, 2, 0, 0], 5, 2),  # the decision leads to itself
    # Of two faults the first record's is told, and a record's before a round.
    (26, [7, 1, 1], 4, 26),
    (48, [1, 5, 0, 0, 1, 97, 96], 4, 53),
]

# What is to be said of some images.
LINES = [
    (SMALL, "passes: 6 states, 5 transitions, 1 intervals, 1 modes, 2 rules, 1 actions"),
    ([], "holds no number"),
    (SMALL[:1], f"refused 1 at 1 in table: {FAULTS[1]}: state 0"),
    (SMALL[:30], f"refused 1 at 30 in table: {FAULTS[1]}: state 5"),
    (SMALL[:31], f"refused 1 at 31 in table: {FAULTS[1]}: count of transitions"),
    (SMALL[:36], f"refused 1 at 36 in table: {FAULTS[1]}: transition 1"),
    (SMALL[:63], f"refused 1 at 63 in table: {FAULTS[1]}: rule 1"),
    (SMALL[:66], f"refused 1 at 66 in table: {FAULTS[1]}: action 0"),
    (SMALL[:55] + [0], f"refused 2 at 55 in table: {FAULTS[2]}: count of modes"),
    (SMALL + [0, 1], f"refused 3 at 67 in table: {FAULTS[3]}"),
    (SMALL[:66] + [1], f"refused 4 at 65 in table: {FAULTS[4]}: action 0"),
    (SMALL[:62] + [3] + SMALL[63:], f"refused 4 at 61 in table: {FAULTS[4]}: rule 1"),
    (SMALL[:53] + [-1] + SMALL[54:], f"refused 5 at 1 in table: {FAULTS[5]}: state 1"),
]


def steps(table, state, returns):
    """The silent steps from a state with return states, the newest last."""
    if table.states[state].kind == RULE_STOP and returns:
        yield returns[-1], returns[:-1]
    for way in silent_ways(table, state):
        yield way.target, returns + (way.p,) if way.kind == CALL else returns


def walks_round(table, state, depth):
    """Whether a walk with at most so many return states leads back to a state."""
    seen = set()
    todo = list(steps(table, state, ()))
    while todo:
        place = todo.pop()
        if place[0] == state:
            return True
        if place not in seen and len(place[1]) <= depth:
            seen.add(place)
            todo += steps(table, *place)
    return False


def compare_rounds(seed, count):
    """Compares which states go round with a search of all walks; tells of how many
    tables and states, and how deep the return states were at most."""
    rng = random.Random(seed)
    tables = round_states = deepest = 0
    while tables < count:
        draft = rounded(rng) if rng.random() < 0.3 else tangle(rng, rules=3, inner=3)
        numbers = numbered(rng, draft)
        table = split(numbers)[2]
        calls = sum(way.kind == CALL for way in table.transitions)
        if calls > 5:  # too many walks
            continue
        tables += 1
        edges = silent_edges(table)
        back = [state for state in range(len(edges)) if comes_back(edges, state)]
        fault = (5, back[0]) if back else (0, 0)
        assert check(numbers) == fault, (numbers, check(numbers), fault)
        for state in range(len(edges)):
            if state not in back:
                assert not walks_round(table, state, 6), (numbers, state)
                continue
            depths = range(len(edges) + len(table.rules) + 1)
            depth = next((d for d in depths if walks_round(table, state, d)), None)
            assert depth is not None, (numbers, state)
            deepest = max(deepest, depth)
            round_states += 1
    return tables, round_states, deepest


def selftest():
    for at, numbers, fault, place in CHANGES:
        found = check(SMALL[:at] + numbers + SMALL[at + len(numbers) :])
        assert found == (fault, place), (at, numbers, found, (fault, place))
    for length in range(len(SMALL)):
        assert check(SMALL[:length]) == (1, length), length
    for numbers, words in LINES:
        assert say("x", numbers) == f"x: {words}", (say("x", numbers), words)
    print(f"{len(CHANGES) + len(SMALL) + len(LINES)} checks by hand")
    tables, states, deepest = compare_rounds(1, 3000)
    print(f"{tables} tables searched: {states} states go round, at most {deepest} deep")


def main():
    command, *rest = sys.argv[1:] or [""]
    if command == "samples" and not rest:
        write_samples()
    elif command == "expect" and rest:
        for path in rest:
            print(say(path, read(path)))
    elif command == "random" and len(rest) == 3:
        write_random(rest[0], int(rest[1]), int(rest[2]))
    elif command == "selftest" and not rest:
        selftest()
    else:
        sys.exit(__doc__)


if __name__ == "__main__":
    main()
