#!/usr/bin/env python3
"""Holds the model to the vectors of crates/test_vectors and crates/test_vectors_index (docs/VECTORS.md).

Their answers are the Rust original's, but for files with a `%` behind the header's end line, everything of EVT 2.1, writers past the first loop of EVT3,
those that resume, and numbers: those came from the model, and are counted apart. Exit status 0: the model gives every answer; 1: it doesn't, and the cases are
printed. Commands that the model doesn't know are counted apart.
"""
import sys
from collections import Counter
from pathlib import Path

import answers
import header

CRATES = Path(__file__).resolve().parent.parent.parent / 'crates'
PROGRAMS = 'test_vectors', 'test_vectors_index'
RESUMING = 'resume', 'resumew', 'resumer', 'after'


def holds_no_last(sink):
    return sink.last is None and sink.high is not None


def goes_past(sink, appends, expected):
    """Whether a list of EVT3 has an append past the first loop that is accepted, or refused for its output alone."""
    told = expected.split(' | ')[1:]
    judged = [append for append, answer in zip(appends, told) if answer.startswith('refused 11 ') or not answer.startswith('refused')]
    return sink.encoding == 3 and any(t >= 2**24 for append in judged for t in answers.column_of(append.split(':')[4]))


def made_by_model(command, arguments, expected):
    """Why the model made the answer, if it did."""
    if command in RESUMING:
        return 'long'
    if command == 'number':
        return 'number'
    if command in answers.WITH_HEADER:
        data = answers.bytes_of(arguments[-1])
        return 'percent' if header.percent_behind_end(data) else 'evt21' if header.names_evt21(data) else None
    if command == 'write' and (holds_no_last(answers.sink_of(arguments[0])) or goes_past(answers.sink_of(arguments[0]), arguments[1:], expected)):
        return 'long'
    # ENC, STATE, SINK or SOURCE; and records of EVT 2.1 in the index of another encoding
    return 'evt21' if arguments[0].startswith('21') and command != 'lengths' or command == 'slice' and '/21:' in arguments[1] else None


def main():
    count, left, own, wrong = Counter(), Counter(), Counter(), 0
    for program in PROGRAMS:
        asked, told = ((CRATES / program / name).read_text().splitlines() for name in ('stdin', 'stdout'))
        assert len(asked) == len(told)
        for line, expected in zip(asked, told):
            name, case = line.split(' ', 1)
            command, *arguments = case.split()
            if command not in answers.COMMANDS:
                left[command] += 1
                continue
            count[command] += 1
            own[made_by_model(command, arguments, expected)] += 1
            if f'{name} {answers.answer(case)}' != expected:
                wrong += 1
                print(f'{line}\n  expected: {expected}\n  model:    {name} {answers.answer(case)}')
    print(f'{sum(count.values()):,} vectors ({", ".join(f"{c} {n:,}" for c, n in count.items())}), {wrong} answered otherwise by the model;'
          f' it made the answers of {own["percent"]:,} with a % behind the end line, of {own["evt21"]:,} of EVT 2.1, of {own["long"]:,} past a loop or'
          f' resumed and of {own["number"]:,} numbers;'
          f' left out: {", ".join(f"{c} {n:,}" for c, n in left.items()) or "none"}')
    sys.exit(wrong > 0)


if __name__ == '__main__':
    main()
