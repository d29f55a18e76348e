"""Domains, problems and plans as the tools here need them, with the places of their parts.

Nothing is judged here: what is read was accepted by the program, or is looked at only up to where it was refused.
"""
import re
from fractions import Fraction
from itertools import product

TOKEN = re.compile(rb";[^\n]*|[()]|[!-'*-:<-~]+")
NUMBER = r"\d+(?:\.\d+|/\d+)?"
NAME = r"[A-Za-z0-9_][A-Za-z0-9_-]*"


class Node:
    """A word or a list, with the offsets of its first byte and behind its last."""

    def __init__(self, at, word=None):
        self.at, self.end, self.word, self.items = at, at + len(word or b"("), None, []
        self.word = word.decode().lower() if word is not None else None

    def head(self):
        return self.items[0].word if self.items else None

    def __str__(self):
        return self.word if self.word is not None else f"({' '.join(map(str, self.items))})"


def nodes(data):
    """All words and lists of a text by their offset; what is not closed ends behind its parenthesis."""
    found, open_lists = {}, [Node(0)]
    for match in TOKEN.finditer(data):
        token, at = match.group(), match.start()
        if token.startswith(b";"):
            continue
        if token == b")":
            if len(open_lists) > 1:
                open_lists.pop().end = match.end()
            found.setdefault(at, Node(at, token))
            continue
        node = Node(at) if token == b"(" else Node(at, token)
        open_lists[-1].items.append(node)
        found[at] = node
        if token == b"(":
            open_lists.append(node)
    return found


def typed(items):
    """The pairs of a name and its type, of a typed list."""
    pairs, group, place = [], [], 0
    while place < len(items):
        if items[place].word == "-" and group:
            place += 1
            pairs += [(name, str(items[place])) for name in group]
            group = []
        else:
            group.append(items[place].word)
        place += 1
    return pairs + [(name, "object") for name in group]


class NoValue(Exception):
    """A duration that has no value, with the part that has none."""


class Action:
    """An action of a domain."""

    def __init__(self, node):
        self.node, self.name = node, node.items[1].word
        self.keys = {key.word: value for key, value in zip(node.items[2::2], node.items[3::2])}
        self.parameters = typed(self.keys[":parameters"].items) if ":parameters" in self.keys else []
        self.is_simple = node.head() == ":action"

    def parts(self, key, simple_key):
        """Its conditions or effects, each with its time."""
        if self.is_simple:
            return [("start", self.keys[simple_key])] if simple_key in self.keys else []
        return timed_parts(self.keys[key]) if key in self.keys else []


def timed_parts(node):
    if node.head() == "and":
        return [part for item in node.items[1:] for part in timed_parts(item)]
    return [(node.items[1].word, node.items[2])] if node.items else []


class Outer:
    """An event of the environment: its bounds, and what it writes."""

    def __init__(self, node, low, high, effect):
        self.node, self.low, self.high, self.effects = node, low, high, [effect]


class World:
    """A domain with its problem."""

    def __init__(self, domain, problem):
        self.domain, self.problem = nodes(domain), nodes(problem)
        sections = lambda found: [it for it in found[min(found)].items[2:] if it.items]
        mine, theirs = sections(self.domain), sections(self.problem)
        listed = lambda these, word: [x for it in these if it.head() == word for x in it.items[1:]]
        self.parents = dict(typed(listed(mine, ":types")))
        self.objects = dict(typed(listed(mine, ":constants")) + typed(listed(theirs, ":objects")))
        self.actions = {}
        for it in mine:
            if it.head() in (":action", ":durative-action"):
                self.actions[it.items[1].word] = Action(it)
        self.goal = (listed(theirs, ":goal") or [None])[0]
        self.initial, self.values, self.fixed, self.chosen = set(), {}, {}, []
        for item in listed(theirs, ":init"):
            self.read_item(item)

    def read_item(self, item):
        words, head = item.items, item.head()
        if head == "=":
            self.values[tuple(x.word for x in words[1].items)] = Fraction(words[2].word)
        elif head in ("at", "between") and words[-1].items:
            low, high = Fraction(words[1].word), Fraction(words[-2].word)
            if low < high:
                self.chosen.append(Outer(item, low, high, words[-1]))
            elif low in self.fixed:
                self.fixed[low].effects.append(words[-1])
            else:
                self.fixed[low] = Outer(item, low, low, words[-1])
        elif head != "not":
            self.initial.add(tuple(x.word for x in words))

    def is_below(self, kind, other):
        """Whether a type is another one or below it."""
        seen = set()
        while kind != other and kind in self.parents and kind not in seen:
            seen.add(kind)
            kind = self.parents[kind]
        return kind == other or other == "object"

    def of_type(self, kind):
        return [name for name, its in self.objects.items() if self.is_below(its, kind)]

    # ---- durations

    def value(self, node, binding):
        """The value of an expression."""
        if node.word is not None:
            return Fraction(node.word)
        head = node.head()
        if head not in ("+", "-", "*", "/"):
            key = ground(node, binding)
            if key not in self.values:
                raise NoValue(f"{text_of(key)} has no value")
            return self.values[key]
        first, *others = [self.value(it, binding) for it in node.items[1:]]
        if not others:
            return -first
        for it in others:
            if head == "/" and it == 0:
                raise NoValue(f"{bound_text(node, binding)} divides by 0")
            first = {"+": first + it, "-": first - it, "*": first * it}[head] if head != "/" else first / it
        return first

    def bounds(self, action, binding):
        """The least and the greatest duration, and whether the environment chooses; None for a simple action."""
        if action.is_simple:
            return None
        key = ":duration" if ":duration" in action.keys else ":uncontrollable-duration"
        node = action.keys[key]
        parts = node.items[1:] if node.head() == "and" else [node]
        values = {it.head(): self.value(it.items[2], binding) for it in parts}
        low, high = values.get(">=", values.get("=")), values.get("<=", values.get("="))
        return low, high, key != ":duration" and low < high

    # ---- conditions

    def bindings(self, node, binding):
        """What binds the variables of a quantifier, each way."""
        variables = typed(node.items[1].items)
        for objects in product(*(self.of_type(kind) for _, kind in variables)):
            yield {**binding, **{name: it for (name, _), it in zip(variables, objects)}}

    def holds(self, node, binding, is_true):
        head, items = node.head(), node.items[1:]
        if head is None or head == "and":
            return all(self.holds(it, binding, is_true) for it in items)
        if head == "or":
            return any(self.holds(it, binding, is_true) for it in items)
        if head == "not":
            return not self.holds(items[0], binding, is_true)
        if head == "imply":
            return not self.holds(items[0], binding, is_true) or self.holds(items[1], binding, is_true)
        if head in ("forall", "exists"):
            test = all if head == "forall" else any
            return test(self.holds(items[1], it, is_true) for it in self.bindings(node, binding))
        atom = ground(node, binding)
        return atom[1] == atom[2] if head == "=" else is_true(atom)

    def may_be(self, node, binding, value, is_possible):
        """Whether a condition may have a value, each member by itself, where atoms may have those that are possible."""
        head, items = node.head(), node.items[1:]
        if head == "not":
            return self.may_be(items[0], binding, not value, is_possible)
        if head == "imply":
            test = any if value else all
            sides = zip(items, (not value, value))
            return test(self.may_be(it, binding, wanted, is_possible) for it, wanted in sides)
        if head in (None, "and", "or", "forall", "exists"):
            test = all if (head in ("or", "exists")) != value else any
            if head in ("forall", "exists"):
                return test(self.may_be(items[1], it, value, is_possible) for it in self.bindings(node, binding))
            return test(self.may_be(it, binding, value, is_possible) for it in items)
        atom = ground(node, binding)
        return (atom[1] == atom[2]) == value if head == "=" else is_possible(atom, value)

    def unmet(self, node, binding, is_met):
        """The least parts of a condition, with their bindings, that have to be met and are not."""
        if node.head() == "and":
            return [it for part in node.items[1:] for it in self.unmet(part, binding, is_met)]
        if node.head() == "forall":
            return [x for it in self.bindings(node, binding) for x in self.unmet(node.items[2], it, is_met)]
        return [] if is_met(node, binding) else [(node, binding)]

    def failing(self, node, binding, is_true):
        """The least parts of a condition, with their bindings, that have to hold and do not."""
        return self.unmet(node, binding, lambda it, its: self.holds(it, its, is_true))

    def atoms(self, node, binding):
        """The atoms of a condition, quantifiers expanded, in order and once each."""
        head = node.head()
        if head in ("forall", "exists"):
            found = [a for it in self.bindings(node, binding) for a in self.atoms(node.items[2], it)]
        elif head in (None, "and", "or", "not", "imply"):
            found = [a for it in node.items[1:] for a in self.atoms(it, binding)]
        else:
            found = [] if head == "=" else [ground(node, binding)]
        return list(dict.fromkeys(found))


def ground(node, binding):
    return tuple(binding.get(it.word, it.word) for it in node.items)


def text_of(atom):
    return f"({' '.join(atom)})"


def bound_text(node, binding):
    """A condition's text with the objects in place of its variables."""
    if node.word is not None:
        return binding.get(node.word, node.word)
    return f"({' '.join(bound_text(it, binding) for it in node.items)})"


def written(node, binding):
    """The atoms that an effect adds, and those that it deletes and does not add."""
    def walk(it):
        if it.head() == "and":
            for part in it.items[1:]:
                walk(part)
        elif it.head() == "not":
            deleted.append(ground(it.items[1], binding))
        elif it.items:
            added.append(ground(it, binding))
    added, deleted = [], []
    walk(node)
    return added, [it for it in deleted if it not in added]


class Step:
    """A step of a plan: its line, counted from 1, and the columns of its parts, from 0, as (from, to)."""

    def __init__(self, line, parts):
        self.line, self.parts = line, parts
        text = lambda part: parts[part][2]
        self.time = Fraction(text("time"))
        self.call = [it[2].lower() for it in parts["names"]]
        self.bracket = re.sub(r"\s", "", text("bracket")[1:-1]) if parts["bracket"] else None
        self.text = f"({' '.join(self.call)})"

    def mark(self):
        """The columns of the action with its arguments."""
        return self.parts["call"][:2]


def step_in(line, number):
    """The step on a line without its comment, None where it is empty, or the column from which on it is no step."""
    place, parts = 0, {"names": [], "bracket": None}

    def take(pattern):
        nonlocal place
        place = re.compile(r"[ \t\r\n]*").match(line, place).end()
        match = re.compile(pattern).match(line, place)
        if match:
            place = match.end()
            return match.start(), match.end(), match.group()
        return None

    if not line.strip(" \t\r\n"):
        return None
    parts["time"] = take(NUMBER)
    opened = parts["time"] and take(":") and take(r"\(")
    while opened and (name := take(NAME)):
        parts["names"].append(name)
    closed = opened and parts["names"] and take(r"\)")
    if closed:
        parts["call"] = (opened[0], closed[1], "")
        parts["bracket"] = take(rf"\[[ \t\r]*(?:\*|{NUMBER}(?:,{NUMBER})?)[ \t\r]*\]")
    take("")
    if not closed or place < len(line):
        return place
    try:
        return Step(number, parts)
    except ZeroDivisionError:
        return parts["time"][0]


def plan_lines(data):
    return [line.split(b";")[0].decode("latin-1") for line in data.split(b"\n")]


def plan_steps(data):
    """The steps of a plan whose lines are lawful."""
    found = (step_in(line, number) for number, line in enumerate(plan_lines(data), 1))
    return [it for it in found if isinstance(it, Step)]


class Event:
    """Something that comes at a moment: of a step, or of the environment."""

    def __init__(self, time, kind, number, name, needs, reads, effects, binding):
        self.time, self.kind, self.number, self.name, self.needs, self.reads = time, kind, number, name, needs, reads
        self.adds, deleted = [], []
        for node in effects:
            added, removed = written(node, binding)
            self.adds += added
            deleted += removed
        self.dels = [it for it in deleted if it not in self.adds]


class Timed:
    """A step in its world: its action with its objects, the interval of its duration, and its times in a run."""

    def __init__(self, world, step, number):
        self.step, self.number, self.name = step, number, step.text
        self.action = world.actions[step.call[0]]
        self.binding = {name: it for (name, _), it in zip(self.action.parameters, step.call[1:])}
        self.bounds = world.bounds(self.action, self.binding)
        self.is_open = bool(self.bounds and self.bounds[2])
        self.start = step.time
        self.low = self.high = Fraction(0)
        if self.bounds:
            self.low, self.high = self.bounds[:2]
            if not self.is_open and step.bracket and re.fullmatch(NUMBER, step.bracket):
                self.low = self.high = Fraction(step.bracket)
        self.length = self.low

    def end(self):
        return self.start + self.length

    def needs(self, time):
        return [it for when, it in self.action.parts(":condition", ":precondition") if when == time]


class Run:
    """A plan under a list of durations and moments, or the plan alone, where the list is None."""

    def __init__(self, world, steps, choices):
        self.world = world
        self.steps = [Timed(world, step, number) for number, step in enumerate(steps, 1)]
        self.moments = [it.low for it in world.chosen]
        if choices is not None:
            left = list(choices)
            for it in self.steps:
                it.length = left.pop(0) if it.is_open else it.low
            self.moments = left
        self.events = sorted(self.all_events(), key=lambda it: (it.time, it.number))

    def all_events(self):
        world = self.world
        for time, it in world.fixed.items():
            yield Event(time, "timed", 0, str(it.node), [], [], it.effects, {})
        for place, it in enumerate(world.chosen):
            yield Event(self.moments[place], "event", len(self.steps) + place + 1, str(it.node), [], [], it.effects, {})
        for it in self.steps:
            effects = it.action.parts(":effect", ":effect")
            for kind in ["moment"] if it.action.is_simple else ["start", "end"]:
                part = "end" if kind == "end" else "start"
                needs, mine = it.needs(part), [node for when, node in effects if when == part]
                reads = [atom for node in needs for atom in world.atoms(node, it.binding)]
                time = it.end() if kind == "end" else it.start
                yield Event(time, kind, it.number, it.name, needs, reads, mine, it.binding)

    def writers(self, atom):
        return [it for it in self.events if atom in it.adds or atom in it.dels]

    def is_true(self, atom, is_past):
        """Whether an atom is true once those events have come of which `is_past` says so."""
        past = [it for it in self.writers(atom) if is_past(it.time)]
        if not past:
            return atom in self.world.initial
        return any(it.time == past[-1].time and atom in it.adds for it in past)

    def lines(self):
        """The lines of events that `stp replay` prints."""
        return [f"{it.time} {it.kind} {it.number}" for it in self.events]


def choices_in(text):
    """The numbers of a list of durations."""
    return [] if text == "none" else [Fraction(it) for it in text.split(",")]
