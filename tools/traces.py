#!/usr/bin/env python3
"""Makes traces: good ones under even seeds, damaged ones under odd seeds. One seed always makes the same trace.

    python3 tools/traces.py SEED

writes the bytes of the trace of this seed.
"""

import random
import sys
from typing import NamedTuple

SCOPE_NUMBERS = 1_024
MOST_BYTES = 65_536
MOST_CALLS = 7_279  # so many accesses fit into the bytes, with header and end line

DIGITS = b"0123456789ABCDEF"

# Bytes that are no digit but lie close to one, end a line elsewhere, or are the first or last of their kind.
ODD_BYTES = b"\x00\t\n\r /:@G`afg\x7f\x80\xb0\xff"


class Dice:
    """Chance from a seed. It rests on random() alone, which is the same in every Python."""

    def __init__(self, seed):
        self.random = random.Random(seed).random

    def below(self, number):
        return int(self.random() * number)

    def between(self, low, high):
        return low + self.below(high - low + 1)

    def pick(self, choices):
        return choices[self.below(len(choices))]

    def weighed(self, choices, weights):
        """One of the choices, each as often as its weight says."""
        left = self.random() * sum(weights)
        for choice, weight in zip(choices, weights):
            left -= weight
            if left < 0:
                return choice
        return choices[-1]

    def once_in(self, number):
        return self.below(number) == 0

    def digits(self, count):
        return bytes(self.pick(DIGITS) for _ in range(count))


# Good traces


class Shape(NamedTuple):
    """How scopes lie: the deepest nesting, and for each equal part of the plan the weights of its actions."""

    deepest: int
    parts: list  # of weights for open task, open finish, close, access


TASK, FINISH, CLOSE, ACCESS = "T", "F", ")", "."
ACTIONS = [TASK, FINISH, CLOSE, ACCESS]


def shape_named(name, dice):
    if name == "deep":
        return Shape(SCOPE_NUMBERS, [(6, 1, 1, 4), (1, 1, 7, 5)])
    if name == "wide":
        return Shape(2, [(5, 1, 5, 6)])
    if name == "finishes":
        return Shape(40, [(3, 4, 7, 6)])
    if name == "escaping":  # tasks within tasks, so that many are begun by a task that ends ahead of them
        return Shape(12, [(7, 1, 7, 7)])
    return Shape(dice.between(1, 60), [tuple(dice.between(1, 8) for _ in ACTIONS) for _ in range(dice.between(1, 4))])


SHAPES = ["deep", "wide", "finishes", "escaping", "random"]


def actions_of(shape, size, dice):
    """So many actions, with every scope closed in the end."""
    actions = []
    depth = opened = 0
    while len(actions) + depth < size:
        part = shape.parts[len(actions) * len(shape.parts) // size]
        action = dice.weighed(ACTIONS, part)
        if action in (TASK, FINISH):
            room = len(actions) + depth + 2 <= size
            if depth == shape.deepest or opened == SCOPE_NUMBERS or not room:
                action = ACCESS
            else:
                depth += 1
                opened += 1
        elif action == CLOSE:
            if depth == 0:
                action = ACCESS
            else:
                depth -= 1
        actions.append(action)
    return actions + [CLOSE] * depth


def size_of_plan(dice):
    """How many actions: mostly 20 to 200, often very few, rarely thousands."""
    if dice.once_in(200):
        return dice.between(1_000, MOST_CALLS)
    if dice.once_in(5):
        return dice.between(0, 14)
    return dice.between(20, 200)


def records_of_plan(dice):
    return dice.pick([dice.between(1, 3), dice.between(4, 20), dice.between(21, 256), 256])


RULES = ["plain", "depot", "field"]


def classes_of_plan(rule, dice):
    """The classes used by a plan, and their weights: eight at most."""
    if rule == "plain":
        return [0, 1], dice.pick([(1, 1), (5, 1), (30, 1), (1, 5)])
    if rule == "depot":
        return [0, 1, 2], dice.pick([(1, 1, 1), (5, 1, 5), (1, 0, 9), (20, 1, 20), (9, 0, 1)])
    return field_classes(dice.between(1, 8), dice), [1] * 8


def field_classes(count, dice):
    """So many classes of the field rule; either any, or such as touch few fields."""
    few = dice.once_in(2)
    classes = []
    while len(classes) < count:
        class_ = 1 << dice.below(8) | 1 << dice.below(8) if few else dice.between(1, 255)
        if class_ not in classes:
            classes.append(class_)
    return classes


def good_trace(dice):
    """What the trace is, in words, and its bytes."""
    name = dice.pick(SHAPES)
    rule = dice.below(len(RULES))
    records = records_of_plan(dice)
    used = records if dice.once_in(2) else dice.between(1, min(records, 6))  # accesses go to the last of them
    classes, weights = classes_of_plan(RULES[rule], dice)

    def line(action):
        if action == ACCESS:
            return b"04%02X%04X" % (dice.weighed(classes, weights), records - 1 - dice.below(used))
        return {TASK: b"01", FINISH: b"02", CLOSE: b"03"}[action]

    actions = actions_of(shape_named(name, dice), size_of_plan(dice), dice)
    lines = [b"00%02X%04X" % (rule, records)] + [line(action) for action in actions] + [b"0F%08X" % len(actions)]
    return f"{name}, {RULES[rule]}, {records} records", joined(lines)


# Damage: each takes dice and the bytes of a trace, and gives other bytes


def joined(lines):
    return b"".join(line + b"\n" for line in lines)


def lines_of(data):
    """The lines without their byte 10; what follows the last byte 10 is one more, if it is anything."""
    lines = data.split(b"\n")
    return lines if lines[-1] else lines[:-1]


def mended(lines):
    """The same lines, with the count of the end line put right."""
    if lines and lines[-1].startswith(b"0F"):
        return lines[:-1] + [b"0F%08X" % max(len(lines) - 2, 0)]
    return lines


def mended_or_not(lines, dice):
    return joined(mended(lines) if dice.once_in(2) else lines)


def byte_changed(dice, data):
    at = dice.below(len(data))
    return data[:at] + some_byte(dice) + data[at + 1 :]


def byte_inserted(dice, data):
    at = dice.below(len(data) + 1)
    return data[:at] + some_byte(dice) + data[at:]


def some_byte(dice):
    return bytes([dice.pick([dice.pick(DIGITS), dice.pick(ODD_BYTES), dice.below(256)])])


def byte_dropped(dice, data):
    at = dice.below(len(data))
    return data[:at] + data[at + 1 :]


def cut_off(dice, data):
    return data[: dice.below(len(data))]


def cut_off_after_a_line(dice, data):
    lines = lines_of(data)
    return joined(lines[: dice.below(len(lines))])


def last_byte_dropped(_, data):
    return data[:-1]


def letter_in_lower_case(dice, data):
    letters = [at for at, byte in enumerate(data) if byte in b"ABCDEF"]
    if not letters:
        return data
    at = dice.pick(letters)
    return data[:at] + data[at : at + 1].lower() + data[at + 1 :]


def line_doubled(dice, data):
    lines = lines_of(data)
    at = dice.below(len(lines))
    return mended_or_not(lines[: at + 1] + lines[at:], dice)


def line_dropped(dice, data):
    lines = lines_of(data)
    at = dice.below(len(lines))
    return mended_or_not(lines[:at] + lines[at + 1 :], dice)


def line_inserted(dice, data):
    lines = lines_of(data)
    at = dice.below(len(lines) + 1)
    line = dice.pick([b"", b"01", b"02", b"03", b"0F00000000", b"00000010", b"04" + dice.digits(6), dice.digits(2)])
    return mended_or_not(lines[:at] + [line] + lines[at:], dice)


def lines_swapped(dice, data):
    lines = lines_of(data)
    one = dice.below(len(lines))
    other = min(one + 1, len(lines) - 1) if dice.once_in(2) else dice.below(len(lines))
    lines[one], lines[other] = lines[other], lines[one]
    return mended_or_not(lines, dice)


def kind_changed(dice, data):
    lines = lines_of(data)
    at = dice.below(len(lines))
    lines[at] = dice.pick([dice.digits(2), b"0" + dice.digits(1)]) + lines[at][2:]
    return joined(lines)


def field_changed(dice, data):
    """Some digits of one access, or of another line that has fields."""
    lines = lines_of(data)
    with_fields = [at for at, line in enumerate(lines) if len(line) > 2]
    if not with_fields:
        return data
    at = dice.pick(with_fields)
    begin = dice.between(2, len(lines[at]) - 1)
    end = dice.between(begin + 1, len(lines[at]))
    lines[at] = lines[at][:begin] + dice.digits(end - begin) + lines[at][end:]
    return joined(lines)


def header_changed(dice, data):
    rule = dice.pick([0, 1, 2, 3, 255, dice.below(256)])
    records = dice.pick([0, 1, 2, 256, 257, 65_535, dice.below(256), dice.below(65_536)])
    header = b"00%02X%04X" % (rule, records)
    others = [dice.digits(8), header[:6], header + b"00", header + b"\r", header.lower(), b"", b"01", b"03"]
    return joined([dice.pick(others) if dice.once_in(4) else header] + lines_of(data)[1:])


def end_changed(dice, data):
    lines = lines_of(data)
    events = max(len(lines) - 2, 0)
    counts = [events + 1, max(events - 1, 0), 0, 0xFFFFFFFF, events ^ 1 << dice.below(32), dice.below(1 << 32)]
    end = b"0F%08X" % dice.pick(counts)
    others = [end[:8], end + b"00", end.lower(), end + b" ", end[:9], b"0F"]
    return joined(lines[:-1] + [dice.pick(others) if dice.once_in(4) else end])


def bytes_behind_the_end(dice, data):
    more = [b"\n", b"0", b"01", b"01\n", b"\r\n", b" ", b"\x00", b"0F00000000\n", lines_of(data)[-1] + b"\n", data]
    return data + dice.pick(more + [some_byte(dice)])


def close_too_many(dice, data):
    """A close where main alone is open."""
    places = []
    depth = 0
    lines = lines_of(data)
    for at, line in enumerate(lines):
        if depth == 0 and at > 0:
            places.append(at)
        depth += line in (b"01", b"02")
        depth -= line == b"03"
    if not places:
        return data
    at = dice.pick(places)
    return joined(mended(lines[:at] + [b"03"] + lines[at:]))


def scope_left_open(dice, data):
    lines = lines_of(data)
    return mended_or_not(lines[:-1] + [dice.pick([b"01", b"02"])] + lines[-1:], dice)


def accesses_of(lines):
    return [at for at, line in enumerate(lines) if len(line) == 8 and line.startswith(b"04")]


def record_too_high(dice, data):
    lines = lines_of(data)
    accesses = accesses_of(lines)
    if not accesses or len(lines[0]) != 8:
        return data
    at = dice.pick(accesses)
    record = dice.pick([lines[0][4:], b"%04X" % dice.between(256, 65_535)])
    class_ = dice.pick([lines[at][2:4], dice.digits(2)])
    lines[at] = b"04" + class_ + record
    return joined(lines)


def class_unknown(dice, data):
    lines = lines_of(data)
    accesses = accesses_of(lines)
    if not accesses:
        return data
    at = dice.pick(accesses)
    class_ = {b"00": b"02", b"01": b"03", b"02": b"00"}.get(lines[0][2:4], b"FF")
    lines[at] = b"04" + class_ + lines[at][4:]
    return joined(lines)


def many_classes(dice, data):
    """The accesses under the field rule, at three records, with up to twelve classes."""
    lines = lines_of(data)
    lines[0] = b"00020003"
    classes = field_classes(dice.between(8, 12), dice)
    for at in accesses_of(lines):
        lines[at] = b"04%02X%04X" % (dice.pick(classes), dice.below(3))
    return joined(lines)


def many_scopes(dice, data):
    """Around 1,024 scopes in all, ahead of the end line."""
    lines = lines_of(data)
    opened = sum(line in (b"01", b"02") for line in lines)
    more = max(SCOPE_NUMBERS - opened + dice.between(-1, 2), 0)
    scopes = [dice.pick([b"01", b"02"]) for _ in range(more)]
    if dice.once_in(2):
        added = scopes + [b"03"] * more
    else:
        added = [line for scope in scopes for line in (scope, b"03")]
    return joined(mended(lines[:-1] + added + lines[-1:]))


def many_bytes(dice, data):
    """Around 65,536 bytes, by reads ahead of the end line or by bytes behind it."""
    lines = lines_of(data)
    size = MOST_BYTES + dice.between(-4, 4)
    if dice.once_in(3):
        return data + dice.pick([b"0", b"\n", b" "]) * (size - len(data))
    read = b"04010000" if lines[0].startswith(b"0002") else b"04000000"
    added = [read] * max((size - len(data)) // 9, 0)
    data = joined(mended(lines[:-1] + added + lines[-1:]))
    return data + b"\n" * (size - len(data)) if dice.once_in(2) else data


DAMAGES = [
    byte_changed, byte_inserted, byte_dropped, cut_off, cut_off_after_a_line, last_byte_dropped, letter_in_lower_case,
    line_doubled, line_dropped, line_inserted, lines_swapped, kind_changed, field_changed, header_changed, end_changed,
    bytes_behind_the_end, close_too_many, scope_left_open, record_too_high, class_unknown, many_classes,
]  # fmt: skip
LONG_DAMAGES = [many_scopes, many_bytes]


def damaged(dice, data):
    """The damage in words, and the bytes; now and then two damages at once."""
    told = []
    for _ in range(2 if dice.once_in(4) else 1):
        damage = dice.pick(LONG_DAMAGES if dice.once_in(40) else DAMAGES)
        told.append(damage.__name__.replace("_", " "))
        data = damage(dice, data)
        if not data:
            break
    return ", ".join(told), data


def trace_of(seed):
    """What the trace of this seed is, in words, and its bytes."""
    dice = Dice(seed)
    told, data = good_trace(dice)
    if seed % 2 == 0:
        return told, data
    harm, data = damaged(dice, data)
    return f"{told}; {harm}", data


def main():
    if len(sys.argv) != 2 or not sys.argv[1].isdecimal():
        print("usage: traces.py SEED", file=sys.stderr)
        return 2
    sys.stdout.buffer.write(trace_of(int(sys.argv[1]))[1])
    return 0


if __name__ == "__main__":
    sys.exit(main())
