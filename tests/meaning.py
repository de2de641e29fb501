"""What scripts mean, worked out from docs/LANGUAGE.md and from no code of the program: tests/random and tests/simulations compare `pedrun` with it.

A script is its functions by name. Statements and expressions are tuples that begin with a word for what they are, as Instance and `evaluated`
have them. A pedigree or a path is a tuple of ranks, and so is an Id. A fault is a pair of its pedigree and its text.

An instance runs from stop to stop. A stop is the origin of a child, a Call or a Loop, or None where it waits: then the nodes of the children since
the wait before are sent to it. Here a child is worked out at once, which gives the open tree; tests/simulations works out tasks by turns.
"""
from typing import NamedTuple

WORD = 2**64
PRIME = 2**64 - 59
OPEN_CALLS = 256


class Function(NamedTuple):
    params: list  # pairs of a name and its kind, which is "int" or "id"
    body: list
    result: tuple
    kind: str


class Event(NamedTuple):
    kind: str
    pedigree: tuple
    # the path of its instance, which is a front of the pedigree
    instance: tuple
    value: object = None


class Call(NamedTuple):
    """The origin of an instance."""

    name: str
    args: list
    path: tuple


class Loop(NamedTuple):
    """The origin of iterations of a loop. The first argument of iteration k is `first + k`, and `rest` are the others."""

    name: str
    first: int
    rest: list
    path: tuple
    low: int
    high: int


class Node:
    """What an instance or a loop shows in the open tree: its events and children in order, the strands that it came to, and how it ended."""

    def __init__(self, path, is_loop=False):
        self.path, self.is_loop = path, is_loop
        self.items, self.strands = [], set()
        # the value of an instance, or the list of a loop's values
        self.value = self.own_fault = self.child_fault = None
        # the least fault of it and of all below it, and the steps that an instance took
        self.fault, self.steps = None, 0

    def children(self):
        return [it for it in self.items if isinstance(it, Node)]

    def events(self):
        return [it for it in self.items if isinstance(it, Event)]

    def is_faulty(self):
        return self.own_fault is not None or self.child_fault is not None


# Draws


def word(seed, i):
    """Word i of the SplitMix64 sequence of a seed, from 1 on."""
    z = (seed + i * 0x9E3779B97F4A7C15) % WORD
    z = (z ^ (z >> 30)) * 0xBF58476D1CE4E5B9 % WORD
    z = (z ^ (z >> 27)) * 0x94D049BB133111EB % WORD
    return z ^ (z >> 31)


def dotmix(coefficients, pedigree, rounds):
    z = sum(c * (rank + 1) for c, rank in zip(coefficients, pedigree)) % PRIME
    for _ in range(rounds):
        z = (2 * z * z + z) % WORD
        z = z >> 32 | z % 2**32 << 32
    return z


# Values


class OwnFault(Exception):
    """A fault of the instance's own, with its text."""


class ChildFault(Exception):
    """The fault of a child by which an instance ends at a sync or a loop."""


class TooLarge(Exception):
    """More steps than a script may take here."""


def wrapped(n):
    return (n + WORD // 2) % WORD - WORD // 2


def quotient(a, b):
    if b == 0:
        raise OwnFault("division by zero")
    size = abs(a) // abs(b)
    return size if (a < 0) == (b < 0) else -size


def checked_index(items, index):
    if not 0 <= index < len(items):
        raise OwnFault("index out of range")
    return index


OPERATIONS = {
    "+": lambda a, b: wrapped(a + b),
    "-": lambda a, b: wrapped(a - b),
    "*": lambda a, b: wrapped(a * b),
    "/": lambda a, b: wrapped(quotient(a, b)),
    "%": lambda a, b: wrapped(a - b * quotient(a, b)),
    "==": lambda a, b: int(a == b),
    "!=": lambda a, b: int(a != b),
    "<": lambda a, b: int(a < b),
    "<=": lambda a, b: int(a <= b),
    ">": lambda a, b: int(a > b),
    ">=": lambda a, b: int(a >= b),
    "same": lambda a, b: int(a == b),
    # tuples are compared as pedigrees are: rank by rank, a proper prefix first
    "older": lambda a, b: int(a < b),
}


def evaluated(variables, e):
    kind = e[0]
    if kind == "number":
        return e[1]
    if kind == "name":
        return variables[e[1]]
    if kind == "item":
        items = variables[e[1]]
        return items[checked_index(items, evaluated(variables, e[2]))]
    if kind == "negative":
        return wrapped(-evaluated(variables, e[1]))
    a = evaluated(variables, e[1])
    if kind == "chain":
        for sign, operand in e[2]:
            a = OPERATIONS[sign](a, evaluated(variables, operand))
        return a
    return OPERATIONS[kind](a, evaluated(variables, e[2]))


# The open tree


def has_spawn(body):
    for kind, *rest in body:
        if kind in ("let", "set") and rest[1][0] == "spawn":
            return True
        if any(isinstance(it, list) and has_spawn(it) for it in rest if kind in ("if", "while", "scope")):
            return True
    return False


class Plan:
    """A script, its coefficients and its limits. `most` is how many steps all of its instances may take together."""

    def __init__(self, functions, coefficients, rounds, depth, budget, most):
        self.functions, self.coefficients, self.rounds = functions, coefficients, rounds
        self.depth, self.budget, self.left = depth, budget, most
        self.spawning = {name for name, it in functions.items() if has_spawn(it.body)}

    def tree(self):
        return node_of(self, Call("main", [], ()))


def node_of(plan, origin):
    """The open tree of an origin."""
    if isinstance(origin, Loop):
        node = Node(origin.path, is_loop=True)
        node.items = [node_of(plan, iteration(origin, k)) for k in range(origin.low, origin.high)]
        node.value = [it.value for it in node.items]
        node.fault = min((it.fault for it in node.items if it.fault), default=None)
        return node
    instance = Instance(plan, origin.path)
    stops, children, answers = instance.run(origin.name, origin.args), [], None
    while True:
        try:
            stop = stops.send(answers)
        except StopIteration:
            return instance.node
        answers = None
        if stop is None:
            answers, children = children, []
        else:
            children.append(node_of(plan, stop))
            instance.node.items.append(children[-1])


def iteration(loop, k):
    return Call(loop.name, [loop.first + k, *loop.rest], (*loop.path, k))


class Frame:
    """A function that was begun: its variables, whether it spawned since its last sync, and the faults of those children that it heard of."""

    def __init__(self, variables=None):
        self.variables, self.spawned, self.faults = variables, False, []


class Instance:
    def __init__(self, plan, path):
        self.plan, self.node = plan, Node(path)
        self.path, self.rank, self.steps, self.calls = path, 0, plan.budget, 0
        # for each child since the last wait its frame and what takes its value, and the faults of all children before that
        self.waited_for, self.faults = [], []
        self.begin_strand()

    def run(self, name, args, children=()):
        """Its stops. `children` are those from before it, which it waits for too. It ends with its value or its faults in its node."""
        self.waited_for = list(children)
        try:
            self.node.value = yield from self.function(name, args)
        except OwnFault as fault:
            self.node.own_fault = (self.pedigree(), str(fault))
            self.faults.append(self.node.own_fault)
        except ChildFault as fault:
            self.node.child_fault = fault.args[0]
        if self.waited_for and self.node.is_faulty():
            yield from self.wait()
        self.node.fault, self.node.steps = min(self.faults, default=None), self.plan.budget - self.steps

    def wait(self):
        nodes = yield None
        for (frame, take), node in zip(self.waited_for, nodes, strict=True):
            if node.fault:
                frame.faults.append(node.fault)
                self.faults.append(node.fault)
            else:
                take(node.value)
        self.waited_for = []

    def pedigree(self):
        return (*self.path, self.rank)

    def begin_strand(self):
        self.node.strands.add(self.pedigree())

    def raise_rank(self):
        self.rank += 1
        self.begin_strand()

    def show(self, kind, value=None):
        self.node.items.append(Event(kind, self.pedigree(), self.node.path, value))

    def pay(self, n=1):
        if n > self.steps:
            raise OwnFault("budget spent")
        self.steps -= n
        self.plan.left -= n
        if self.plan.left < 0:
            raise TooLarge

    def need_depth(self, ranks):
        if len(self.path) + ranks > self.plan.depth:
            raise OwnFault("depth")

    def function(self, name, args):
        function = self.plan.functions[name]
        frame = Frame({param: arg for (param, _), arg in zip(function.params, args)})
        yield from self.block(frame, function.body)
        self.pay()
        if name in self.plan.spawning:
            yield from self.sync(frame)
        return evaluated(frame.variables, function.result)

    def sync(self, frame):
        self.show("sync")
        if frame.spawned:
            yield from self.wait()
            frame.spawned = False
            if frame.faults:
                raise ChildFault(min(frame.faults))
        self.raise_rank()

    # What a statement does. One that may come to a stop gives its stops.

    def block(self, frame, body):
        for kind, *rest in body:
            self.pay()
            yield from getattr(self, "do_" + kind)(frame, *rest) or ()

    def do_let(self, frame, name, right):
        return self.do_set(frame, name, right)

    def do_set(self, frame, name, right):
        kind, *rest = right
        if kind in ("call", "spawn"):
            return getattr(self, kind)(frame, name, *rest)
        frame.variables[name] = getattr(self, "right_" + kind)(frame, *rest)
        return ()

    def right_value(self, frame, e):
        return evaluated(frame.variables, e)

    def right_draw(self, _):
        number = dotmix(self.plan.coefficients, self.pedigree(), self.plan.rounds)
        self.show("draw", number)
        self.raise_rank()
        return wrapped(number)

    def right_new(self, _):
        made = self.pedigree()
        self.show("new")
        self.raise_rank()
        return made

    def put(self, frame, name, value):
        if name is not None:
            frame.variables[name] = value

    def call(self, frame, target, name, args):
        args = [evaluated(frame.variables, e) for e in args]
        if self.calls == OPEN_CALLS:
            raise OwnFault("calls")
        self.calls += 1
        value = yield from self.function(name, args)
        self.calls -= 1
        self.put(frame, target, value)

    def spawn(self, frame, target, name, args):
        args = [evaluated(frame.variables, e) for e in args]
        self.need_depth(2)
        self.show("spawn")
        self.waited_for.append((frame, lambda value: self.put(frame, target, value)))
        frame.spawned = True
        child = Call(name, args, self.pedigree())
        self.raise_rank()
        yield child

    def do_array(self, frame, name, length):
        frame.variables[name] = [0] * length

    def do_store(self, frame, name, index, e):
        items = frame.variables[name]
        k = checked_index(items, evaluated(frame.variables, index))
        items[k] = evaluated(frame.variables, e)

    def do_print(self, frame, e):
        self.show("print", evaluated(frame.variables, e))

    def do_sync(self, frame):
        return self.sync(frame)

    def do_if(self, frame, condition, then, other):
        return self.block(frame, then if evaluated(frame.variables, condition) else other)

    def do_while(self, frame, condition, body):
        while evaluated(frame.variables, condition):
            yield from self.block(frame, body)
            self.pay()

    def do_scope(self, frame, body):
        self.need_depth(2)
        outside = self.path, self.rank
        self.path, self.rank = self.pedigree(), 0
        self.begin_strand()
        yield from self.block(frame, body)
        yield from self.sync(frame)
        self.path, self.rank = outside
        self.raise_rank()

    def do_pfor(self, frame, low, high, target, name, rest):
        low, high = evaluated(frame.variables, low), evaluated(frame.variables, high)
        rest = [evaluated(frame.variables, e) for e in rest]
        count = max(high - low, 0)
        self.pay(count)
        if target is not None and len(frame.variables[target]) < count:
            raise OwnFault("index out of range")
        if count > 0:
            self.need_depth(3)
        self.show("loop")
        if count > 0:
            yield from self.loop(Loop(name, low, rest, self.pedigree(), 0, count), frame.variables[target] if target is not None else [])
        else:
            self.node.items.append(Node(self.pedigree(), is_loop=True))
        self.raise_rank()

    def loop(self, loop, target):
        def take(values):
            if target:
                target[: len(values)] = values

        inside = Frame()
        self.waited_for.append((inside, take))
        yield loop
        yield from self.wait()
        if inside.faults:
            raise ChildFault(min(inside.faults))


# What is printed


def dotted(ranks):
    return ".".join(map(str, ranks))


def printed(value):
    return dotted(value) if isinstance(value, tuple) else str(value)


def line(event, show):
    """An event's line under a show, which is `plain`, `log`, or `strand` for that of a replay; None where it has none."""
    if event.kind == "print":
        return printed(event.value)
    if show == "plain" or show == "log" and event.kind not in ("draw", "new"):
        return None
    return f"{event.kind} {dotted(event.pedigree)}" + (f" = {event.value}" if event.kind == "draw" else "")


def lines(events, fault, show):
    texts = [line(it, show) for it in events]
    texts.append(f"fault {dotted(fault[0])}: {fault[1]}" if fault else None)
    return "".join(it + "\n" for it in texts if it is not None)


def elision(node, events):
    """Adds the events of the serial elision of an instance or loop, and gives the fault that ends it."""
    for it in node.items:
        if isinstance(it, Event):
            events.append(it)
        elif fault := elision(it, events):
            return fault
    return node.own_fault


def begins_with(ranks, front):
    return ranks[: len(front)] == front


def end_of(node):
    """The pedigree of the sync or loop at which an instance ended by a child's fault."""
    return node.events()[-1].pedigree


def replayed(root, pedigree):
    """The status, the output and the error output of a replay."""
    node = root
    while way := [it for it in node.children() if len(it.path) < len(pedigree) and begins_with(pedigree, it.path)]:
        node = way[0]
    if node.child_fault and end_of(node) < pedigree and not begins_with(pedigree, end_of(node)):
        return 7, "", f"blocked by fault {dotted(node.child_fault[0])}\n"
    if pedigree not in node.strands:
        return 7, "", f"no strand {dotted(pedigree)}\n"
    fault = node.own_fault if node.own_fault and node.own_fault[0] == pedigree else None
    return int(fault is not None), lines([it for it in node.events() if it.pedigree == pedigree], fault, "strand"), ""


# Work and span


def joins(events):
    """For the path of each spawned child and each loop: its parent's path, and for a child the place of the sync that joins it."""
    found = {}
    for place, it in enumerate(events):
        if it.kind == "loop":
            found[it.pedigree] = it.instance, None
        elif it.kind == "spawn":
            syncs = (k for k in range(place, len(events)) if events[k].kind == "sync" and events[k].instance == it.instance)
            found[it.pedigree] = it.instance, next(syncs, len(events))
    return found


def longest_chain(events):
    """How many events the longest chain has, in which each one is in series before the next."""
    found = joins(events)
    fronts = [[it.instance[:n] for n in range(len(it.instance) + 1)] for it in events]
    lies_in = [[(path, *found[path]) for path in paths if path in found] for paths in fronts]

    def is_joined(path, parent, sync, place):
        later = events[place].instance
        return begins_with(later, parent) and (not begins_with(later, path) if sync is None else sync < place)

    def in_series(a, b):
        return begins_with(events[b].instance, events[a].instance) or any(is_joined(*it, b) for it in lies_in[a])

    lengths = []
    for b in range(len(events)):
        lengths.append(1 + max((lengths[a] for a in range(b) if in_series(a, b)), default=0))
    return max(lengths, default=0)
