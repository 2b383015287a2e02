#!/usr/bin/env python3
"""Lists the lines of src/ at which the older language may still show, point by point (docs/DESIGN-PASS.md says what the points are).

    python3 tools/places.py [POINT..]     from the top of the repository; with no point, all seven and their counts

A line listed is a place to be read, not yet a fault: the page says what each one is.
"""
import difflib
import itertools
import re
import sys
from collections import defaultdict
from pathlib import Path

HEAD = re.compile(r'^(?P<pad> *)(?:pub(?:\([a-z]+\))? )?fn (?P<name>\w+)')


class Function:
    """A function: where it stands, its parameters, its clauses and the tokens of its body."""

    def __init__(self, path, line, name, text):
        self.path, self.line, self.name = path, line, name
        head, _, self.body = text.partition('\n' + re.match(r' *', text).group() + '{\n')
        if not self.body:
            head, _, self.body = text.partition('{\n')
        cut = re.search(r'\n\s*(?:requires|ensures)\b', head)
        self.signature = head[:cut.start()] if cut else head
        self.clauses = re.findall(r'(?:requires|ensures)[ \w]*\{(.*?)\}\s*(?=requires|ensures|$)', head[cut.start():] if cut else '', re.S)
        inside = self.signature.partition('(')[2].rpartition(')')[0]
        self.parameters = [p.strip().replace('mut ', '').replace('&', '') for p in inside.split(',') if p.strip()]

    def where(self):
        return f'{self.path}:{self.line} {self.name}'

    def shape(self):
        """The body with each name and number made alike, so that twins look the same."""
        tokens = re.findall(r"'[^']*'|\"[^\"]*\"|\w+|[^\w\s]", re.sub(r'//.*', '', self.body))
        words = {'for', 'in', 'if', 'else', 'match', 'while', 'let', 'mut', 'return', 'Ok', 'Err', 'Some', 'None', 'self'}
        return [t if t in words or not re.match(r"[\w'\"]", t) else 'x' for t in tokens]


def sources():
    return sorted(p for p in Path('crates').glob('*/src/**/*.rt'))


def functions():
    for path in sources():
        lines = path.read_text().split('\n')
        for at, line in enumerate(lines):
            head = HEAD.match(line)
            if not head or lines[at].rstrip().endswith(';'):
                continue
            end = at
            while end < len(lines) and lines[end] != head['pad'] + '}':
                if lines[end].rstrip().endswith(';') and lines[end].startswith(head['pad'] + '    ensures'):
                    break
                end += 1
            else:
                yield Function(path, at + 1, head['name'], '\n'.join(lines[at:end + 1]))


def grep(pattern, tests=False):
    for path in sources():
        for at, line in enumerate(path.read_text().split('\n')):
            if re.search(pattern, line):
                yield f'{path}:{at + 1} {line.strip()}'


def point1():
    """own enums with values, pairs and numbers for kinds, arms that hand an answer on"""
    for path in sources():
        text = path.read_text()
        for enum in re.finditer(r'enum (\w+)[^{]*\{(.*?)\n\s*\}', text, re.S):
            if re.search(r'^\s*\w+\(', enum[2], re.M):
                yield f'{path}:{text[:enum.start()].count(chr(10)) + 1} enum {enum[1]}'
    yield from grep(r'\(u8, u8\)|\blayer: u8\b|^\s*(pub )?const [A-Z_]+: u(8|32) = 0x')
    yield from grep(r'^\s*(Ok|Err)\(\w+\) => (Ok|Err|[A-Z]\w+::\w+)\(')


def point2():
    """functions whose bodies are the same but for names and numbers"""
    all_functions = [f for f in functions() if len(f.shape()) >= 12]
    for one, other in itertools.combinations(all_functions, 2):
        if one.name == other.name and 'tests' in (one.path.stem, other.path.stem):
            continue
        if abs(len(one.shape()) - len(other.shape())) <= 4 and difflib.SequenceMatcher(None, one.shape(), other.shape()).ratio() > 0.93:
            yield f'{one.where()} = {other.where()}'


def point3():
    """loops over numbers, loops that count by hand"""
    yield from grep(r'^\s*for \w+ in .*\.\.|^\s*(while|loop)\b|^\s*\w+ \+= 1;')


def point4():
    """functions whose body is one match that answers a value for each case"""
    for f in functions():
        lines = [line.strip() for line in f.body.split('\n') if line.strip()]
        if len(lines) < 4 or not re.match(r'(let \w+ = )?(f\.write_str\()?match [^{]+\{$', lines[0]):
            continue
        arms = list(itertools.takewhile(lambda line: not line.startswith('}'), lines[1:]))
        if all(re.match(r'[^{]+=> [^{]+,$', arm) for arm in arms) and not lines[0].startswith('f.write'):
            yield f.where()


def point5():
    """clauses that stand in three functions or more, parameters that travel together in three or more"""
    clauses, pairs = defaultdict(set), defaultdict(set)
    for f in functions():
        for clause in f.clauses:
            clauses[' '.join(clause.replace('.now', '.old').split())].add(f.where())
        for pair in itertools.combinations(f.parameters, 2):
            if 'self' not in pair:
                pairs[pair].add(f.where())
    for kind, found in (('clause', clauses), ('parameters', pairs)):
        for what, where in found.items():
            if len(where) >= 3:
                yield f'{kind} {what}: {len(where)} functions: {"; ".join(sorted(where))}'


def point6():
    """counts beside buffers, places in a text, tables and arrays"""
    yield from grep(r'^\s*(pub(\(crate\))? )?(count|len|length): (usize|u32),|\bat: usize\b|: &(\'t )?mut \[|^\s*(pub(\(crate\))? )?\w+: \[\w+; ')


def point7():
    """a choice of which step to run"""
    yield from grep(r'^\s*match (request|call|action|kind|which|step)\b|: fn\(')


if __name__ == '__main__':
    points = sys.argv[1:] or [str(n) for n in range(1, 8)]
    for number in points:
        point = globals()[f'point{number}']
        found = list(point())
        print(f'point {number}, {point.__doc__}: {len(found)}')
        for line in found:
            print(f'  {line}')
