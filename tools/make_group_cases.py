#!/usr/bin/env python3
"""Write the cases of groups and of the union-find.

    make_group_cases.py

writes crates/group_cases/stdin and crates/group_cases/stdout, and prints how
often each answer comes up. A line of stdin is one call, with a line of stdout
as its answer; crates/group_cases/src/main.rt lists both.

The lines of hand_cases state their answers by hand, and the model must agree.
All others take them from the model, group_model.py; the pseudo-random ones
come from a fixed seed.
"""
import os
import random
from collections import Counter

import group_model as model
from group_model import Renamings, Ticks

SEED = 47
HERE = os.path.dirname(os.path.abspath(__file__))
TARGET = os.path.join(HERE, "..", "crates", "group_cases")
IDENTITY = "9876543210"
EDGES = [0, 1, 2, 0x7FFFFFFF, 0x80000000, 0x80000001, 0xFFFFFFFE, 0xFFFFFFFF]

rng = random.Random(SEED)
answers = model.Model()
inputs = []
outputs = []


# ---------------------------------------------------------------- writing lines

def emit(line):
    inputs.append(line)
    outputs.append(answers.answer(line))


def emit_bad(line):
    inputs.append(line)
    outputs.append("bad")


def by_hand(line, answer):
    emit(line)
    assert outputs[-1] == answer, (line, outputs[-1], answer)


def some_move(group):
    if group is Ticks:
        return rng.choice([rng.getrandbits(32), rng.choice(EDGES)])
    images = list(model.NAMES)
    rng.shuffle(images)
    return tuple(images)


def hexed(group, move):
    return f"{group.number(move):X}"


def relate(group, i, j, move):
    emit(f"{group.word} relate {i} {j} {hexed(group, move)}")


def relation(group, i, j):
    emit(f"{group.word} relation {i} {j}")


# ---------------------------------------------------------------- by hand

def hand_cases():
    by_hand("renaming identity", IDENTITY)
    by_hand("tick identity", "0")
    by_hand("exchange 0 1", "9876543201")
    by_hand("exchange 9 0", "876543219")
    by_hand("image 9876543201 0", "1")
    by_hand("image FEDCBA9876543210 15", "15")
    by_hand("image FFFFFFFFFFFFFFFF 16", "0")
    by_hand("renaming lawful 876543219", "yes")
    by_hand("renaming lawful 9876543211", "no")
    by_hand("renaming lawful 19876543210", "no")
    # first 0 and 1 are exchanged, then 1 and 2: 0 goes to 2, 1 to 0, 2 to 1
    by_hand("renaming compose 9876543120 9876543201", "9876543102")
    by_hand("renaming inverse 9876543102", "9876543021")
    by_hand("renaming compose 9876543211 9876543210", "free")
    by_hand("tick compose FFFFFFFF 2", "1")
    by_hand("tick inverse 1", "FFFFFFFF")
    by_hand("tick open 256", "ok")
    by_hand("tick relate 3 1 28", "new")
    by_hand("tick relate 7 3 F", "new")
    by_hand("tick relation 7 1", "37")
    by_hand("tick relation 1 7", "FFFFFFC9")
    by_hand("tick relate 7 1 37", "known")
    by_hand("tick relate 7 1 36", "clash 37")
    by_hand("tick relation 7 2", "nothing")
    by_hand("tick relation 4 4", "0")
    by_hand("tick relate 256 1 28", "refused 16 stranger 0")
    by_hand("renaming relate 0 1 9876543210", "refused 15 short 0")
    by_hand("renaming open 256", "ok")
    by_hand("renaming relate 5 4 9876543120", "new")
    by_hand("renaming relate 4 3 9876543201", "new")
    by_hand("renaming relation 5 3", "9876543102")
    by_hand("renaming relation 3 5", "9876543021")
    by_hand("renaming relate 0 1 9876543211", "refused 17 unlawful 0")


def bad_cases():
    for line in ["", "tick", "tick lawful", "tick lawful 100000000", "tick lawful G", "tick lawful 1 2", "tock identity"]:
        emit_bad(line)
    for line in ["renaming compose 1", "renaming lawful 10000000000000000", "image 1", "image 1 256", "exchange 0 x"]:
        emit_bad(line)


# ---------------------------------------------------------------- elements

def exchange_cases():
    for a in model.NAMES:
        for b in range(a, 10):
            emit(f"exchange {a} {b}")
            emit(f"exchange {b} {a}")
    for a, b in [(0, 10), (10, 0), (10, 11), (9, 15), (16, 3), (255, 255), (255, 0)]:
        emit(f"exchange {a} {b}")


def image_cases():
    for _ in range(15):
        number = rng.getrandbits(64)
        for name in range(21):
            emit(f"image {number:X} {name}")
    for name in [63, 64, 128, 255]:
        emit(f"image FFFFFFFFFFFFFFFF {name}")


def changed_digits(number):
    """The numbers that differ from this one in one of its sixteen digits."""
    for place in range(16):
        for other in range(1, 16):
            yield number ^ other << 4 * place


def lawful_cases():
    for number in changed_digits(Renamings.number(some_move(Renamings))):
        emit(f"renaming lawful {number:X}")
    for bit in range(40, 64):
        emit(f"renaming lawful {Renamings.number(some_move(Renamings)) | 1 << bit:X}")
    for _ in range(40):
        emit(f"renaming lawful {rng.getrandbits(64):X}")
        emit(f"renaming lawful {rng.getrandbits(40):X}")
        emit(f"renaming lawful {hexed(Renamings, some_move(Renamings))}")
    for digit in range(16):
        emit(f"renaming lawful {f'{digit:X}' * 10}")
    for count in EDGES:
        emit(f"tick lawful {count:X}")


def product_cases():
    for _ in range(300):
        g, h = some_move(Renamings), some_move(Renamings)
        emit(f"renaming compose {hexed(Renamings, g)} {hexed(Renamings, h)}")
        emit(f"renaming inverse {hexed(Renamings, g)}")
    for g in EDGES:
        emit(f"tick inverse {g:X}")
        for h in EDGES:
            emit(f"tick compose {g:X} {h:X}")
    for _ in range(40):
        emit(f"tick compose {rng.getrandbits(32):X} {rng.getrandbits(32):X}")
        emit(f"tick inverse {rng.getrandbits(32):X}")


def free_cases():
    for number in ["0", "FFFFFFFFFFFFFFFF", "FFFFFFFFFF", "9876543211", "F9876543210"]:
        emit(f"renaming inverse {number}")
        emit(f"renaming compose {number} {IDENTITY}")
        emit(f"renaming compose {IDENTITY} {number}")
    for _ in range(25):
        emit(f"renaming compose {rng.getrandbits(64):X} {rng.getrandbits(64):X}")
        emit(f"renaming inverse {rng.getrandbits(64):X}")


def equals_cases():
    for group, bits in [(Renamings, 64), (Ticks, 32)]:
        number = group.number(some_move(group))
        emit(f"{group.word} equals {number:X} {number:X}")
        for bit in range(bits):
            emit(f"{group.word} equals {number:X} {number ^ 1 << bit:X}")


# ---------------------------------------------------------------- the union-find

def true_move(group, at, i, j):
    """What i is of j, where at says what each member is of one that is not told of."""
    return group.compose(at[i], group.inverse(at[j]))


def random_script(group, members, facts, made_up, entries):
    """Facts of which some share are made up."""
    emit(f"{group.word} open {entries}")
    at = {i: some_move(group) for i in members}
    for _ in range(facts):
        i, j = rng.choice(members), rng.choice(members)
        relate(group, i, j, some_move(group) if rng.random() < made_up else true_move(group, at, i, j))


def all_pairs(group, members):
    for i in members:
        for j in members:
            relation(group, i, j)


def some_pairs(group, count):
    for _ in range(count):
        relation(group, rng.randrange(256), rng.randrange(256))


def chain_script(group, members):
    """Each member told of the next one, then what is known."""
    emit(f"{group.word} open 256")
    for i, j in zip(members, members[1:]):
        relate(group, i, j, some_move(group))
    relation(group, 0, 255)
    relation(group, 255, 0)
    some_pairs(group, 25)
    relate(group, 0, 255, some_move(group))


def backwards_script(group):
    """Facts, and the same facts read the other way round."""
    emit(f"{group.word} open 256")
    for _ in range(25):
        i, j, g = rng.randrange(256), rng.randrange(256), some_move(group)
        if i == j:
            continue
        relate(group, i, j, g)
        relate(group, j, i, group.inverse(g))
        relate(group, j, i, some_move(group))
        relation(group, j, i)


def self_script(group):
    """Members told of themselves."""
    emit(f"{group.word} open 256")
    for i in [0, 1, 100, 254, 255]:
        relate(group, i, i, group.identity)
        relate(group, i, i, some_move(group))
        relation(group, i, i)
        relate(group, i, i ^ 1, some_move(group))


def refusal_script(group, entries):
    """Calls that are refused for several reasons at once, and others next to them."""
    emit(f"{group.word} open {entries}")
    moves = [hexed(group, some_move(group))] + (["9876543211", "0", "F9876543210"] if group is Renamings else ["0"])
    for i, j in [(0, 255), (255, 254), (256, 0), (0, 256), (256, 257), (300, 3), (2**32, 1), (7, 2**63), (2**64 - 1, 0)]:
        relation(group, i, j)
        for move in moves:
            emit(f"{group.word} relate {i} {j} {move}")
        relation(group, i, j)


def reopened_script(group):
    """Opening forgets."""
    emit(f"{group.word} open 256")
    relate(group, 9, 2, some_move(group))
    relation(group, 9, 2)
    emit(f"{group.word} open 256")
    relation(group, 9, 2)
    relate(group, 9, 2, some_move(group))


def scripts(group):
    some = [0, 3, 77, 128, 200, 254, 255]
    random_script(group, range(12), 60, 0.2, 256)
    all_pairs(group, range(12))
    random_script(group, some, 30, 0, 300)
    all_pairs(group, some)
    random_script(group, range(256), 220, 0.2, 300)
    some_pairs(group, 100)
    random_script(group, range(256), 300, 0, 256)
    some_pairs(group, 100)
    chain_script(group, list(range(256)))
    chain_script(group, list(range(255, -1, -1)))
    mixed = list(range(256))
    rng.shuffle(mixed)
    chain_script(group, mixed)
    backwards_script(group)
    self_script(group)
    for entries in [0, 255, 256, 300]:
        refusal_script(group, entries)
    reopened_script(group)


# ---------------------------------------------------------------- all of them

def main():
    hand_cases()
    bad_cases()
    exchange_cases()
    image_cases()
    lawful_cases()
    product_cases()
    free_cases()
    equals_cases()
    for group in [Renamings, Ticks]:
        scripts(group)
    kinds = Counter(" ".join(text.split()[:2]) if text.startswith("refused") else text.split()[0] for text in outputs)
    for kind in ["yes", "no", "free", "ok", "new", "known", "clash", "nothing", "refused 15", "refused 16", "refused 17"]:
        assert kinds[kind] >= 6, kind
        print(f"{kind}: {kinds[kind]}")
    for name, lines in [("stdin", inputs), ("stdout", outputs)]:
        with open(os.path.join(TARGET, name), "w", encoding="ascii", newline="\n") as file:
            file.write("\n".join(lines) + "\n")
    print(f"{len(inputs)} lines")


if __name__ == "__main__":
    main()
