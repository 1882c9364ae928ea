"""What the calls of groups and of the union-find answer, from the rules alone.

Renamings. A number has 64 bits; bits 4 i to 4 i + 3 are the image of i, for i from 0 to 15. Names are 0 to 9. The number
is lawful when each name is the image of one name and the bits from 40 on are 0. A lawful number is held here as the tuple
of its ten images. Composing g and h sends i to g of h of i.

Ticks. Numbers below 2 ** 32, added modulo 2 ** 32; all are lawful.

Facts. Members are 0 to 255. A fact says that i is j moved by g. What is known of i and j is found by walking over the
facts from i, breadth first: a fact read from i to j gives its move, read from j to i the inverse, and the moves along the
walk are composed in order. Facts are kept only where nothing was known of i and j, so all walks agree.

A call is declined with the first of these that applies: 15 short, the table has fewer than 256 entries; 16 stranger, a
member is 256 or more; 17 unlawful, the move is.

The answers are the words that crates/group_cases/src/main.rt lists.
"""
from collections import deque

NAMES = range(10)
MEMBERS = 256
SHORT, STRANGER, UNLAWFUL = "refused 15 short 0", "refused 16 stranger 0", "refused 17 unlawful 0"


class Renamings:
    word = "renaming"
    identity = tuple(NAMES)

    @staticmethod
    def read(number):
        """The images of a lawful number, or None."""
        text = f"{number:X}"[::-1].ljust(10, "0")
        if sorted(text) != list("0123456789"):
            return None
        return tuple(int(digit) for digit in text)

    @staticmethod
    def number(g):
        return int("".join(str(image) for image in reversed(g)), 16)

    @staticmethod
    def compose(g, h):
        return tuple(g[h[i]] for i in NAMES)

    @staticmethod
    def inverse(g):
        return tuple(g.index(i) for i in NAMES)


class Ticks:
    word = "tick"
    identity = 0

    @staticmethod
    def read(number):
        return number

    @staticmethod
    def number(g):
        return g

    @staticmethod
    def compose(g, h):
        return (g + h) % 2**32

    @staticmethod
    def inverse(g):
        return -g % 2**32


def image(number, name):
    """The image of a name in any number."""
    digits = f"{number:016X}"[::-1]
    return int(digits[name], 16) if name < len(digits) else 0


def exchange(a, b):
    if a not in NAMES or b not in NAMES:
        return Renamings.identity
    return tuple({a: b, b: a}.get(i, i) for i in NAMES)


class Facts:
    """A table of some entries, and the facts that it was told."""

    def __init__(self, group, entries):
        self.group = group
        self.short = entries < MEMBERS
        self.seen_from = {}  # for each member the facts that it is in, read from it

    def opened(self):
        return SHORT if self.short else "ok"

    def declined(self, i, j):
        if self.short:
            return SHORT
        if max(i, j) >= MEMBERS:
            return STRANGER
        return None

    def known(self, i, j):
        """What i is of j, or None."""
        moves = {i: self.group.identity}
        queue = deque([i])
        while queue:
            at = queue.popleft()
            if at == j:
                return moves[at]
            for other, move in self.seen_from.get(at, []):
                if other not in moves:
                    moves[other] = self.group.compose(moves[at], move)
                    queue.append(other)
        return None

    def told(self, g):
        return f"{self.group.number(g):X}"

    def relation(self, i, j):
        declined = self.declined(i, j)
        if declined:
            return declined
        known = self.known(i, j)
        return "nothing" if known is None else self.told(known)

    def relate(self, i, j, number):
        declined = self.declined(i, j)
        if declined:
            return declined
        said = self.group.read(number)
        if said is None:
            return UNLAWFUL
        known = self.known(i, j)
        if known is None:
            self.seen_from.setdefault(i, []).append((j, said))
            self.seen_from.setdefault(j, []).append((i, self.group.inverse(said)))
            return "new"
        return "known" if known == said else f"clash {self.told(known)}"


class Model:
    """Answers lines."""

    def __init__(self):
        self.groups = {group.word: group for group in (Renamings, Ticks)}
        self.tables = {word: Facts(group, 0) for word, group in self.groups.items()}

    def answer(self, line):
        word, *rest = line.split()
        if word == "image":
            return str(image(int(rest[0], 16), int(rest[1])))
        if word == "exchange":
            return f"{Renamings.number(exchange(int(rest[0]), int(rest[1]))):X}"
        return self.call(word, rest[0], rest[1:])

    def call(self, word, name, rest):
        group = self.groups[word]
        table = self.tables[word]
        if name == "open":
            table = self.tables[word] = Facts(group, int(rest[0]))
            return table.opened()
        if name == "relate":
            return table.relate(int(rest[0]), int(rest[1]), int(rest[2], 16))
        if name == "relation":
            return table.relation(int(rest[0]), int(rest[1]))
        return self.element(group, name, [int(number, 16) for number in rest])

    def element(self, group, name, numbers):
        moves = [group.read(number) for number in numbers]
        if name == "identity":
            return f"{group.number(group.identity):X}"
        if name == "lawful":
            return "no" if None in moves else "yes"
        if name == "equals":
            return "yes" if numbers[0] == numbers[1] else "no"
        if None in moves:
            return "free"
        return f"{group.number(getattr(group, name)(*moves)):X}"
