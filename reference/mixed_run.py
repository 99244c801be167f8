#!/usr/bin/env python3
"""Plays one mixed run over the growing bank and one over the fixed bank, from the rules alone.

An errand is a generator that pauses before each access to a node's word; a wait for a parent is a plain nested
call. So there are no phases and no frames here. A turn lets the agent's generator run to its next pause.

    mixed_run.py             each step, its answer, and the watched words after it
    mixed_run.py --rattle    the same as the tables of crates/forest_trials/src/mixed.rt
    mixed_run.py --events    how often each kind of lost access and each overtaking comes up
    mixed_run.py --check F   whether the tables stand in the file F, whatever its line breaks
"""
import re
import sys
from collections import Counter

EMPTY, HALF, COUNTED = 0, 1, 2
AGENTS = 16
CROWD = 2048


def packed(word):
    kind, count, version = word
    return kind << 30 | count << 16 | version


class Refusal(Exception):
    """A call is refused, by a number of layer B."""


class Bank:
    def __init__(self):
        self.word = {}  # node: (kind, count, version)
        self.up = {}  # node: parent, or None at a root
        self.out = Counter()  # receipts by (tally, node)
        self.opened = 0
        self.errand = {}  # agent: (generator, tally, arriving or not)
        self.events = Counter()

    # Accesses. Each pauses first, so that one turn makes one.

    def read(self, node):
        yield
        return self.word[node]

    def swap(self, node, seen, new, name):
        yield
        if new is None or self.word[node] != seen:
            self.events["lost " + name] += 1
            return False
        self.word[node] = new
        return True

    # Arriving and departing.

    def come(self, node):
        up = self.up[node]
        while True:
            seen = yield from self.read(node)
            kind, count, version = seen
            if kind == COUNTED:
                if (yield from self.swap(node, seen, (COUNTED, count + 1, version), "raise")):
                    return
            elif kind == EMPTY and up is None:
                if (yield from self.swap(node, seen, (COUNTED, 1, (version + 1) % 65536), "open")):
                    return
            elif kind == EMPTY:
                half = (HALF, 0, (version + 1) % 65536)
                if (yield from self.swap(node, seen, half, "open")):
                    yield from self.finish(node, half, "owner's settle")
                    return
            else:
                yield from self.finish(node, seen, "helper's settle")

    def finish(self, node, half, name):
        """Arrives at the parent and settles the half word; if that is lost, gives the arrival back."""
        yield from self.come(self.up[node])
        if (yield from self.swap(node, half, (COUNTED, 1, half[2]), name)):
            self.events["won " + name] += 1
        else:
            yield from self.go(self.up[node])

    def go(self, node):
        """Departs from a node. Answers whether it made the root empty."""
        while True:
            seen = yield from self.read(node)
            kind, count, version = seen
            new = None
            if kind == COUNTED:
                new = (COUNTED, count - 1, version) if count > 1 else (EMPTY, 0, version)
            if (yield from self.swap(node, seen, new, "lower")):
                break
        if count > 1:
            return False
        if self.up[node] is None:
            return True
        return (yield from self.go(self.up[node]))

    # Calls. Each answers the text of a reply.

    def begin(self, agent, tally, steps, arriving):
        next(steps)
        self.errand[agent] = (steps, tally, arriving)
        return "Begun"

    def free(self, agent, tally):
        if agent >= AGENTS:
            raise Refusal(12)
        if agent in self.errand:
            raise Refusal(13)
        if tally >= self.opened:
            raise Refusal(15)

    def open(self):
        if self.opened == self.tallies:
            raise Refusal(11)
        tally = self.opened
        self.opened += 1
        root = self.node_of(tally, self.first_place(tally))
        self.word[root] = (COUNTED, 1, 0)
        self.out[tally, root] += 1
        return f"Opened({tally}, {self.first_place(tally)})"

    def arrive(self, agent, tally, place, side, coin):
        self.free(agent, tally)
        if not self.may_start(tally, place):
            raise Refusal(16)
        crowd = sum(n for (t, _), n in self.out.items() if t == tally)
        crowd += sum(1 for _, t, arriving in self.errand.values() if t == tally and arriving)
        if crowd >= CROWD:
            raise Refusal(17)
        return self.begin(agent, tally, self.arrival(agent, tally, place, side, coin), True)

    def depart(self, agent, tally, place):
        self.free(agent, tally)
        if not self.has(tally, place) or not self.out[tally, self.node_of(tally, place)]:
            raise Refusal(18)
        node = self.node_of(tally, place)
        self.out[tally, node] -= 1
        return self.begin(agent, tally, self.go(node), False)

    def turn(self, agent):
        if agent >= AGENTS:
            raise Refusal(12)
        if agent not in self.errand:
            raise Refusal(14)
        steps, tally, arriving = self.errand[agent]
        try:
            next(steps)
            return "Going"
        except StopIteration as end:
            del self.errand[agent]
            if not arriving:
                return f"Departed({str(end.value).lower()})"
            node, left, right = end.value
            self.out[tally, node] += 1
            return f"Arrived({self.place_of(tally, node)}, {left}, {right})"

    def reads(self, tally):
        if tally >= self.opened:
            raise Refusal(15)
        root = self.word[self.node_of(tally, self.first_place(tally))]
        return "Zero" if root[0] == EMPTY else "Held"


class Fixed(Bank):
    tallies = 256

    def __init__(self):
        super().__init__()
        for node in range(15 * self.tallies):
            tally, place = divmod(node, 15)
            self.word[node] = (EMPTY, 0, 0)
            self.up[node] = 15 * tally + (place - 1) // 2 if place else None

    def first_place(self, tally):
        return 0

    def node_of(self, tally, place):
        return 15 * tally + place

    def place_of(self, tally, node):
        return node - 15 * tally

    def has(self, tally, place):
        return place < 15

    def may_start(self, tally, place):
        return place == 0

    def arrival(self, agent, tally, place, side, coin):
        leaf = 15 * tally + 7 + agent % 8
        yield from self.come(leaf)
        return leaf, 0, 0


class Growing(Bank):
    def __init__(self, size):
        super().__init__()
        self.size = size
        self.tallies = min(256, size)
        self.used = self.tallies
        self.children = {}  # node: its left child; the right one is one higher
        self.owner = {}  # node: its tally
        self.depth = {}
        for node in range(size):
            self.word[node] = (EMPTY, 0, 0)
        for root in range(self.tallies):
            self.up[root], self.owner[root], self.depth[root] = None, root, 0

    def first_place(self, tally):
        return tally

    def node_of(self, tally, place):
        return place

    def place_of(self, tally, node):
        return node

    def has(self, tally, place):
        return self.owner.get(place) == tally

    may_start = has

    def arrival(self, agent, tally, place, side, coin):
        yield
        room = self.used + 2 <= min(self.size, 8192)
        if coin == "Heads" and place not in self.children and self.depth[place] < 16 and room:
            self.children[place] = self.used
            for child in (self.used, self.used + 1):
                self.up[child], self.owner[child], self.depth[child] = place, tally, self.depth[place] + 1
            self.used += 2
        yield
        left = right = place
        if place in self.children:
            left = self.children[place]
            right = left + 1
        start = left if side == "Left" else right
        yield from self.come(start)
        return start, left, right


# The steps: ("open",), ("arrive", agent, tally, place, side, coin), ("depart", agent, tally, place),
# ("turn", agent), ("reads", tally). A text is a comment on the steps after it.


def turns(*agents):
    return [("turn", agent) for agent in agents]


def arrive(*numbers):
    return [("arrive", *numbers)]


def depart(*numbers):
    return [("depart", *numbers)]


GROWING_NODES = [0, 1, 256, 257, 258, 259, 260, 261]
GROWING_STEPS = [
    ("open",),
    ("open",),
    "Agent 0 opens node 256. Agent 8 finds it half and settles it first. Agent 1 takes the first receipt meanwhile.",
    *arrive(0, 0, 0, "Left", "Heads"),
    *turns(0, 0, 0, 0),
    *arrive(8, 0, 0, "Left", "Tails"),
    *turns(8, 8, 8, 8, 8, 0, 8),
    *depart(1, 0, 0),
    "Agent 0 loses its settle, and then a lower at the root to agent 1.",
    *turns(0, 1, 8, 0, 0, 1, 8, 0, 0, 0),
    "Agent 2 opens node 259 and agent 3 the node above it. Each helps the other: 2 settles 257 and 259, both before 3.",
    *arrive(2, 0, 257, "Right", "Heads"),
    *turns(2, 2),
    *arrive(3, 0, 257, "Right", "Heads"),
    *turns(3, 3, 2, 3, 2, 3, 3, 3, 3, 2, 3, 2, 2, 3, 2, 3, 3, 2, 3, 3, 2, 3, 2, 3, 3, 3, 3, 3),
    "Node 256 is no place of tally 1.",
    *arrive(4, 1, 256, "Left", "Tails"),
    "Agent 0 loses a lower to agent 8, empties node 256 and goes on to the root.",
    *depart(0, 0, 256),
    *depart(8, 0, 256),
    *turns(0, 8, 8, 0, 0, 0, 0, 0),
    ("reads", 0),
    *depart(8, 0, 256),
]

FIXED_NODES = [0, 1, 2, 3, 4, 7, 8, 22]
FIXED_STEPS = [
    ("open",),
    "Agents 0 and 8 share leaf 7. Agent 0 opens it and node 3, agent 8 node 1. Agent 8 settles all three.",
    *arrive(0, 0, 0, "Left", "Heads"),
    *arrive(8, 0, 0, "Right", "Tails"),
    *turns(0, 8, 0, 8, 0, 0, 8, 8, 8, 8, 8, 8, 8, 8, 8, 8, 8),
    "Agent 0 has lost its settles at nodes 3 and 7, and gives back its arrivals above them.",
    *turns(0, 8, 0, 8, 0, 0, 0, 0, 0, 0),
    *depart(8, 0, 3),
]


def played(bank, steps, nodes):
    """Each step, its answer, the one word that it writes, if any, and the watched words after it."""
    for step in steps:
        if isinstance(step, str):
            continue
        before = dict(bank.word)
        try:
            answer = f"Ok({getattr(bank, step[0])(*step[1:])})"
        except Refusal as refusal:
            answer = f"Err({refusal})"
        writes = [node for node in bank.word if bank.word[node] != before[node]]
        assert len(writes) <= 1 and set(writes) <= set(nodes)
        yield step, answer, writes, [packed(bank.word[node]) for node in nodes]


def shown(step):
    name = step[0].capitalize()
    return name if len(step) == 1 else f"{name}({', '.join(str(part) for part in step[1:])})"


def hexed(bits):
    return f"0x{bits >> 16:04X}_{bits & 0xFFFF:04X}" if bits else "0"


RUNS = {
    "GROWING": (lambda: Growing(300), GROWING_STEPS, GROWING_NODES),
    "FIXED": (Fixed, FIXED_STEPS, FIXED_NODES),
}


def tables():
    lines = []
    for name, (new, steps, nodes) in RUNS.items():
        bank = new()
        rows = played(bank, steps, nodes)
        count = sum(1 for step in steps if not isinstance(step, str))
        lines.append(f"const {name}_NODES: [u16; {len(nodes)}] = {nodes};\n")
        lines.append(f"const {name}: [Row; {count}] = [")
        for step in steps:
            if isinstance(step, str):
                lines.append(f"    // {step}")
                continue
            _, answer, writes, _ = next(rows)
            change = "None"
            for node in writes:
                change = f"Some(({node}, {hexed(packed(bank.word[node]))}))"
            lines.append(f"    ({shown(step)}, {answer}, {change}),")
        lines.append("];\n")
    return "\n".join(lines)


def bare(text):
    return re.sub(r",(?=[\])])", "", re.sub(r"\s", "", text))


def main(arguments):
    match arguments:
        case []:
            for name, (new, steps, nodes) in RUNS.items():
                print(name, "nodes", *nodes)
                for number, (step, answer, _, words) in enumerate(played(new(), steps, nodes)):
                    print(f"{number:3} {shown(step):32} {answer:24}", *[f"{word:08X}" for word in words])
        case ["--rattle"]:
            print(tables())
        case ["--events"]:
            for name, (new, steps, nodes) in RUNS.items():
                bank = new()
                print(name, len(list(played(bank, steps, nodes))), "steps:", dict(bank.events))
        case ["--check", path]:
            with open(path) as file:
                text = bare(file.read())
            if any(bare(table) not in text for table in tables().split("\n\n")):
                sys.exit("the tables differ")
            print("the tables stand")
        case _:
            sys.exit(__doc__)


main(sys.argv[1:])
