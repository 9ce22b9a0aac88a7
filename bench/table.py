#!/usr/bin/env python3
"""The tables of docs/PERFORMANCE.md from what the parts of bench/run printed: table.py TIMES INSTRUCTIONS, or table.py --emulated EMULATED"""
import re
import sys

SIZES = [130, 65536, 1048576]
SHEETS = {'trades': 'mostly trades', 'quotes': 'mostly quotes', 'twap': 'all by TWAP', 'vwap': 'all by VWAP', 'third': '3M is M3'}
SIDES = ['library', 'independent', 'plain', 'limit']
WORKS = ['judge', 'read', 'list', 'answers']
ON_TEXTS = ['to-sheet', 'to-tape']
MOVES = ['to-new', 'to-old']
TEXTS = {'trades': 'mostly trades', 'quotes': 'mostly quotes', 'widest': 'longest lines'}


def numbers(name):
    """By work, sheet and size: each side's nanoseconds or instructions, and from times the number of records."""
    found = {}
    with open(name, encoding='utf-8') as lines:
        for line in lines:
            words = re.match(r'(judge|read|list|answers|to-sheet|to-tape|to-new|to-old) +(\w+) +(\d+) (?: *(\d+) +\d+ )?', line)
            if words:
                work, sheet, size, records = words.groups()
                found[work, sheet, int(size)] = {side: float(number) for side, number in re.findall(r'([a-z]+) ([\d.]+) \(', line)}
                if records:
                    found[work, sheet, int(size)]['records'] = int(records)
    return found


def figure(number):
    return f'{number:.2f}' if number < 100 else f'{number:,.0f}'


def time(nanoseconds):
    for unit, size in [('ms', 1e6), ('µs', 1e3)]:
        if nanoseconds >= size:
            return f'{nanoseconds / size:.2f} {unit}'
    return f'{nanoseconds:.0f} ns'


def ratio(times, other):
    return figure(times['library'] / times[other]) if other in times else '–'


def instructions(counts, size, sides):
    """Of the one call at the least size, a byte at the others."""
    def one(side):
        if side not in counts:
            return '–'
        return f'{counts[side]:,.0f}' if size == SIZES[0] else figure(counts[side] / size)
    return ' / '.join(map(one, sides)) if counts else '–'


def by_size(what):
    return [f'{what}, {SIZES[0]} bytes'] + [f'{size:,}' for size in SIZES[1:]]


def counted(sides):
    return [f'instructions ({" / ".join(sides)}), {SIZES[0]} bytes'] + [f'a byte, {size:,}' for size in SIZES[1:]]


def table(found, heads, cells):
    """Markdown: a row for each work and sheet, its cells by the function."""
    print('| Work | Sheet | ' + ' | '.join(heads) + ' |')
    print('|---|---|' + '---:|' * len(heads))
    for work in dict.fromkeys(work for work, _, _ in found if work in WORKS):
        for sheet, name in SHEETS.items():
            print(f'| {work} | {name} | ' + ' | '.join(cells(work, sheet)) + ' |')
    print()


def more(found, sheet, size, records):
    """What the answers of each side take more than its judging, a record."""
    judging, answers = found.get(('judge', sheet, size)), found.get(('answers', sheet, size))
    return ' / '.join(figure((answers[side] - judging[side]) / records) for side in SIDES) if judging and answers else '–'


def record_table(times, counts):
    """Markdown: a row for each sheet and size, with what the answers take more than judging."""
    sides = ' / '.join(SIDES)
    print('| Sheet | Bytes | Records | library judges | library answers | '
          + f'answers less judging, ns a record ({sides}) | instructions a record ({sides}) |')
    print('|---|' + '---:|' * 6)
    for sheet, name in SHEETS.items():
        for size in SIZES:
            judging, answers = times['judge', sheet, size], times['answers', sheet, size]
            each = [more(found, sheet, size, judging['records']) for found in [times, counts]]
            print(f'| {name} | {size:,} | {judging["records"]:,} | {time(judging["library"])} | {time(answers["library"])} | '
                  + ' | '.join(each) + ' |')
    print()


def text_table(times, counts):
    """Markdown: a row for each work over a text, with instructions a byte of the text."""
    print('| Work | Text | Bytes of text | library | library / independent | instructions a byte (library / independent) |')
    print('|---|---|---:|---:|---:|---:|')
    for key, least in times.items():
        work, text, size = key
        if work in ON_TEXTS:
            each = ' / '.join(figure(counts[key][side] / size) if key in counts else '–' for side in SIDES[:2])
            print(f'| {work} | {TEXTS[text]} | {size:,} | {time(least["library"])} | {ratio(least, "independent")} | {each} |')
    print()


def move_table(times, counts):
    """Markdown: a row for each move, with instructions a byte of the sheet with the short header."""
    print('| Work | Sheet | Bytes | library | ' + ' | '.join(f'library / {other}' for other in SIDES[1:])
          + f' | instructions a byte ({" / ".join(SIDES)}) |')
    print('|---|---|---:|---:|' + '---:|' * len(SIDES))
    for key, least in times.items():
        work, sheet, size = key
        if work in MOVES:
            each = ' / '.join(figure(counts[key][side] / size) if key in counts else '–' for side in SIDES)
            print(f'| {work} | {SHEETS[sheet]} | {size:,} | {time(least["library"])} | '
                  + ' | '.join(ratio(least, other) for other in SIDES[1:]) + f' | {each} |')
    print()


def text_counts(counts):
    """The same without times."""
    print('| Work | Text | Bytes of text | instructions a byte (library / independent) | library / independent |')
    print('|---|---|---:|---:|---:|')
    for (work, text, size), each in counts.items():
        if work in ON_TEXTS:
            print(f'| {work} | {TEXTS[text]} | {size:,} | ' + ' / '.join(figure(each[side] / size) for side in SIDES[:2])
                  + f' | {ratio(each, "independent")} |')
    print()


def main():
    if sys.argv[1] == '--emulated':
        counts, sides = numbers(sys.argv[2]), [side for side in SIDES if side != 'independent']
        table(counts, counted(sides), lambda *key: [instructions(counts.get((*key, size), {}), size, sides) for size in SIZES])
        text_counts(counts)
        return
    times, counts = numbers(sys.argv[1]), numbers(sys.argv[2])

    def ratios(*key):
        return [ratio(times.get((*key, size), {}), other) for other in SIDES[1:] for size in SIZES]

    def own(*key):
        least = [times.get((*key, size), {}) for size in SIZES]
        return ([time(sides['library']) if sides else '–' for sides in least]
                + [instructions(counts.get((*key, size), {}), size, SIDES) for size in SIZES])

    table(times, [head for other in SIDES[1:] for head in by_size(f'library / {other}')], ratios)
    table(times, by_size('library') + counted(SIDES), own)
    record_table(times, counts)
    text_table(times, counts)
    move_table(times, counts)


main()
