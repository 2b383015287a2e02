#!/usr/bin/env python3
"""Checks a trace by searching the graph of its events.

    python3 tools/graph_check.py < trace

prints what plancheck, a program that is still to come, has to print for the same bytes, and ends with the same status:
0 when the trace was read to its end, 1 after a refusal. It shares no code with that program and goes about it another
way: it builds the arrows between events and searches them backwards at every access. That is slow, and short enough to
be believed.
"""

import sys

MOST_BYTES = 65_536
MOST_RECORDS = 256
SCOPE_NUMBERS = 1_024  # besides main
EVENT_LIMIT = 1_000_000
CLASSES_AT_A_RECORD = 8

DIGITS = b"0123456789ABCDEF"
LINE_END = b"\n"

HEADER, OPEN_TASK, OPEN_FINISH, CLOSE, ACCESS, END = "00", "01", "02", "03", "04", "0F"

# How many digits a line of each kind has, the two of the kind included.
LENGTHS = {HEADER: 8, OPEN_TASK: 2, OPEN_FINISH: 2, CLOSE: 2, ACCESS: 8, END: 10}

# Which part refuses by which number: 0 the program, 1 line, 2 frame, 3 check, 4 ordering.
LAYERS = {
    1: 1,
    2: 2, 3: 2, 4: 2, 5: 2, 6: 2, 7: 2, 8: 2,
    9: 3, 10: 3, 23: 3, 24: 3, 26: 3,
    21: 4, 22: 4,
    14: 0,
}  # fmt: skip


class Refused(Exception):
    """The trace is refused by this number."""

    def __init__(self, number):
        super().__init__(number)
        self.number = number


# Lines written


def clash_line(later, earlier, record):
    return f"C1{later:08X}{earlier:08X}{record:04X}"


def verdict_line(accesses, clashes):
    return f"CF{accesses:08X}{clashes:08X}"


def refusal_line(number, line):
    return f"EE{number:02X}{LAYERS[number]:02X}{line:08X}"


# Lines read


def digits_of_line(data, start):
    """The digits of the line that begins at start, and where the next line begins."""
    end = data.find(LINE_END, start)
    if end < 0:
        raise Refused(1)  # no byte 10 before the bytes end
    line = data[start:end]
    if not line or len(line) % 2 != 0 or any(byte not in DIGITS for byte in line):
        raise Refused(1)
    return line.decode("ascii"), end + 1


def frame_of_line(data, start):
    """Kind and fields of the line that begins at start, and where the next line begins."""
    digits, following = digits_of_line(data, start)
    kind, fields = digits[:2], digits[2:]
    if kind not in LENGTHS:
        raise Refused(2)
    if len(digits) != LENGTHS[kind]:
        raise Refused(3)
    return kind, fields, following


def header_of(data):
    """Rule and number of records, from the first line; and where the second begins."""
    if not data:
        raise Refused(8)
    kind, fields, following = frame_of_line(data, 0)
    if kind != HEADER:
        raise Refused(4)
    rule, records = int(fields[:2], 16), int(fields[2:], 16)
    if rule not in RULES or records == 0:
        raise Refused(5)
    return RULES[rule], records, following


# Rules: which classes are known, and which two of them clash

READ, WRITE, ADD = 0, 1, 2


def plain_knows(class_):
    return class_ in (READ, WRITE)


def plain_clash(one, other):
    return not (one == READ and other == READ)


def depot_knows(class_):
    return class_ in (READ, WRITE, ADD)


def depot_clash(one, other):
    return not (one == READ and other == READ) and not (one == ADD and other == ADD)


def field_knows(class_):
    return 0x01 <= class_ <= 0xFF


def field_clash(one, other):
    def reads(class_, field):
        return class_ >> field & 1 == 1

    def writes(class_, field):
        return class_ >> (field + 4) & 1 == 1

    def touches(class_, field):
        return reads(class_, field) or writes(class_, field)

    return any(
        writes(one, field) and touches(other, field) or writes(other, field) and touches(one, field)
        for field in range(4)
    )


RULES = {0: (plain_knows, plain_clash), 1: (depot_knows, depot_clash), 2: (field_knows, field_clash)}


# The graph


class Graph:
    """Events with the arrows that lead to them. An arrow always leads from a lower number to a higher one."""

    def __init__(self):
        self.arrows_from = []  # for each event, the events that an arrow leads from to it

    def add(self, arrows_from):
        self.arrows_from.append(arrows_from)
        return len(self.arrows_from) - 1

    def with_path_to(self, target, sought):
        """Those of the sought events that have a path to the target: one arrow or more, searched backwards."""
        if not sought:
            return set()
        lowest = min(sought)  # an event below it is not sought, and no sought event leads to it
        seen = set()
        to_do = [target]
        while to_do:
            for event in self.arrows_from[to_do.pop()]:
                if event >= lowest and event not in seen:
                    seen.add(event)
                    to_do.append(event)
        return seen & sought


class Scope:
    """An open task or finish."""

    def __init__(self, is_task, opened_by=None, finish=None):
        self.is_task = is_task
        self.last_event = opened_by  # a task's: its last event, or at first the event that opened it
        self.finish = finish  # a task's: the finish that was innermost when the task was opened, if any
        self.closes = []  # a finish's: the closes of the tasks that it waits for


class History:
    """The events so far, and the scopes that are open."""

    def __init__(self):
        self.graph = Graph()
        self.open = [Scope(is_task=True)]  # outermost first; the first is main
        self.opened = 0

    def events(self):
        return len(self.graph.arrows_from)

    def innermost_task(self):
        return next(scope for scope in reversed(self.open) if scope.is_task)

    def innermost_finish(self):
        return next((scope for scope in reversed(self.open) if not scope.is_task), None)

    def main_alone(self):
        return len(self.open) == 1

    def add_event(self, joins=()):
        """A new event of the innermost task, and its number.

        An arrow leads to it from the event of its task ahead of it (continue), or, if it is the first of its task, from
        the open of the task (spawn); and from each of the closes in joins (join).
        """
        task = self.innermost_task()
        ahead = [] if task.last_event is None else [task.last_event]
        task.last_event = self.graph.add(ahead + list(joins))
        return task.last_event

    def open_scope(self, is_task):
        if self.events() == EVENT_LIMIT:
            raise Refused(23)
        if self.opened == SCOPE_NUMBERS:
            raise Refused(21)
        finish = self.innermost_finish()
        event = self.add_event()
        self.opened += 1
        self.open.append(Scope(is_task, opened_by=event if is_task else None, finish=finish))

    def close_scope(self):
        if self.events() == EVENT_LIMIT:
            raise Refused(23)
        if self.main_alone():
            raise Refused(22)
        scope = self.open[-1]
        event = self.add_event(joins=scope.closes)
        self.open.pop()
        if scope.is_task and scope.finish is not None:
            scope.finish.closes.append(event)


# The check


class Record:
    """The accesses to one record."""

    def __init__(self):
        self.accesses = {}  # class: its events; the classes in the order in which they reached the record
        self.leaders = {}  # class: event of its leader; in the same order


class Check:
    def __init__(self, rule, records):
        self.knows, self.clash = rule
        self.history = History()
        self.records = [Record() for _ in range(records)]
        self.accesses = 0
        self.clashes = 0

    def access(self, class_, number):
        """Takes an access of this class to the record of this number; the line of its clash, or None."""
        if self.history.events() == EVENT_LIMIT:
            raise Refused(23)
        if number >= len(self.records):
            raise Refused(9)
        if not self.knows(class_):
            raise Refused(10)
        record = self.records[number]
        if class_ not in record.leaders and len(record.leaders) == CLASSES_AT_A_RECORD:
            raise Refused(24)

        event = self.history.add_event()
        clashing = {
            earlier for other, events in record.accesses.items() if self.clash(other, class_) for earlier in events
        }
        own_leader = {record.leaders[class_]} if class_ in record.leaders else set()
        before = self.history.graph.with_path_to(event, clashing | own_leader)
        shown = self.shown(record, class_, before)

        # By its definition a clash is about all earlier accesses; the leaders only say which one is shown.
        assert (shown is not None) == bool(clashing - before), "the leaders miss a clash"

        record.accesses.setdefault(class_, []).append(event)
        if own_leader <= before:  # the first of its class, or the leader has a path to it
            record.leaders[class_] = event
        self.accesses += 1
        if shown is None:
            return None
        self.clashes += 1
        return clash_line(event, shown, number)

    def shown(self, record, class_, before):
        """The first leader that clashes with an access of this class and is not among those before it."""
        for other, leader in record.leaders.items():
            if self.clash(other, class_) and leader not in before:
                return leader
        return None

    def end(self, events):
        """The verdict line, for an end line that says so many events."""
        if not self.history.main_alone():
            raise Refused(26)
        if events != self.history.events():
            raise Refused(6)
        return verdict_line(self.accesses, self.clashes)

    def take(self, kind, fields):
        """Takes one line that is not the first; the line to be printed for it, or None."""
        if kind == HEADER:
            raise Refused(4)
        if kind == ACCESS:
            return self.access(int(fields[:2], 16), int(fields[2:], 16))
        if kind == END:
            return self.end(int(fields, 16))
        if kind == CLOSE:
            self.history.close_scope()
        else:
            self.history.open_scope(is_task=kind == OPEN_TASK)
        return None


# A whole trace


def check(data):
    """The lines printed for a trace of these bytes, and the exit status."""
    if len(data) > MOST_BYTES:
        return [refusal_line(14, 0)], 1
    printed = []
    line = 1
    try:
        rule, records, start = header_of(data)
        if records > MOST_RECORDS:
            return [refusal_line(14, 0)], 1
        trace = Check(rule, records)
        kind = HEADER
        while kind != END:
            line += 1
            if start == len(data):
                raise Refused(8)
            kind, fields, start = frame_of_line(data, start)
            answer = trace.take(kind, fields)
            if answer is not None:
                printed.append(answer)
        line += 1
        if start != len(data):
            raise Refused(7)
    except Refused as refusal:
        return printed + [refusal_line(refusal.number, line)], 1
    return printed, 0


def output(data):
    """What is printed for a trace of these bytes, as bytes, and the exit status."""
    printed, status = check(data)
    return "".join(line + "\n" for line in printed).encode("ascii"), status


def main():
    printed, status = output(sys.stdin.buffer.read())
    sys.stdout.buffer.write(printed)
    sys.stdout.buffer.flush()
    return status


if __name__ == "__main__":
    sys.exit(main())
