#!/usr/bin/env python3
"""A journal's calls through the C library: year.py LIBRARY [JOURNAL]

LIBRARY is the shared library that tools/clib makes; JOURNAL is examples/year.journal if not given. Prints the answers in the ledger's form, without
reports. The status is 0 if each answer is the one behind its line's `#=`, 1 if one isn't, 2 for wrong usage.
"""
import datetime
import os
import sys

sys.dont_write_bytecode = True

import guarantee

YEAR = os.path.join(os.path.dirname(os.path.dirname(os.path.abspath(__file__))), 'year.journal')
ROLES = ('supplier', 'self-supplied', 'trader', 'producer', 'res-aggregator', 'demand-response')


def number(word):
    """A number, a date as a day, a year and month as a month, a role's name."""
    if word in ROLES:
        return ROLES.index(word)
    if '-' not in word[1:]:
        return int(word)
    parts = [int(part) for part in word.split('-')]
    if len(parts) == 2:
        return 12 * (parts[0] - 2020) + parts[1] - 1
    return (datetime.date(*parts) - datetime.date(2020, 1, 1)).days


def lists(numbers):
    """Lists in a row, each its length and then its numbers."""
    while numbers:
        count, *numbers = numbers
        yield numbers[:count]
        numbers = numbers[count:]


def answer(book, name, *words):
    """What the library answers to a line's words, in the ledger's form."""
    if name == 'lodge':
        name = 'lodge_' + words[2]
        words = words[:2] + words[3:]
    if name == 'batch':
        found = book.batch(bytes.fromhex(''.join(words)))
        return f'refused {found.refusal} {found.pair}' if found.refusal else f'batch {found.parts}'
    numbers = [number(word) for word in words]
    if name == 'special':
        found = book.special(*lists(numbers))
    elif name == 'settle':
        found = book.settle(*numbers[:2], numbers[2:])
    else:
        found = getattr(book, {'annual': 'annual_run', 'calls': 'calls_made'}.get(name, name))(*numbers)
    refusal, *values = [found] if isinstance(found, int) else [getattr(found, field) for field, _ in found._fields_]
    if refusal:
        return f'refused {refusal}'
    if name == 'settle':
        kind, *values = values
        return ' '.join(map(str, [guarantee.KINDS[kind]] + values[:3 if kind == 1 else 1]))
    return ' '.join(map(str, [{'advance': 'opened', 'delete': 'deletion'}.get(name, name)] + values)) if values else 'done'


def main(arguments):
    if len(arguments) not in (1, 2):
        print(__doc__, file=sys.stderr)
        return 2
    book, status = guarantee.Book(arguments[0]), 0
    book.fresh(0)
    for line in open((arguments + [YEAR])[1], encoding='utf-8'):
        call, _, expected = line.partition('#=')
        words = call.partition('#')[0].split()
        if not words or words[0] == 'report':
            continue
        found = answer(book, *words)
        print(found)
        if expected and found != expected.partition(' | ')[0].strip():
            print(f'year.py: expected {expected.strip()}', file=sys.stderr)
            status = 1
    return status


if __name__ == '__main__':
    sys.exit(main(sys.argv[1:]))
