"""Turns what tools/compare.sh prints (standard input) into the rows of the table in docs/DIFFERENCES.md."""
import re
import sys

LINE = re.compile(r'(.+?): (\d+) cases, (\d+) calls: (\d+) accepted \((\d+) not empty\)(.*?); (\d+) (\w+)(.*); 0 mismatches')
COUNTED = [r'(\d+) by the rules', r'(\d+) cases without a call, opening', r'(\d+) cases with an end', r'(\d+) cases without a call, a %',
           r'(\d+) cases without a call, the header', r'(\d+) appends not compared']


def row(name, cases, calls, accepted, filled, refused, count, what, rest):
    numbers = ', '.join(f'{k}: {int(v):,}' for v, k in re.findall(r'(\d+) refused (\d+)', refused))
    found = [re.search(pattern, rest) for pattern in COUNTED]
    cells = [name, f'{int(cases):,}', f'{int(calls):,}', f'{int(accepted):,} ({int(filled):,})', numbers, f'{int(count):,} {what}']
    return cells + [f'{int(m[1]):,}' if m else '0' for m in found]


HEAD = ['calls of', 'cases', 'calls', 'accepted (not empty)', 'refused, by number', 'handed over', 'by rule', 'no call', 'with an end line',
        'not compared: a % behind it', 'EVT2.1', "past EVT3's first loop"]
print(f'| {" | ".join(HEAD)} |')
print('|---' * len(HEAD) + '|')
for line in sys.stdin:
    matched = LINE.match(line)
    if matched:
        print(f'| {" | ".join(row(*matched.groups()))} |')
