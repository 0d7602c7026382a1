#!/usr/bin/env python3
"""compare.py DRIVER [CASES [SEED [CASE]]]: asks the library and the model the same, first the list of cases.py, then random cases.

DRIVER is tools/model/driver.c, linked with the library's archive: tools/model.sh builds it and runs this. CASE: this random case alone.
Exit status 0: no difference; 1: one, with the smallest call found that shows it.
"""
import subprocess
import sys
import time
from collections import Counter

import calls
import cases
import header
import making
from refusal import Refused

BATCH = 500     # cases
TRIES = 4000    # calls made to find a smaller one


class Driver:
    def __init__(self, program):
        self.program = program
        self.start()

    def start(self):
        self.process = subprocess.Popen([self.program], stdin=subprocess.PIPE, stdout=subprocess.PIPE)

    def batch(self, requests):
        """The answers, each behind its length; None if the driver ended instead."""
        try:
            self.process.stdin.write(len(requests).to_bytes(4, 'little') + requests)
            self.process.stdin.flush()
            length = self.process.stdout.read(4)
            answers = self.process.stdout.read(int.from_bytes(length, 'little'))
            if len(length) == 4 and len(answers) == int.from_bytes(length, 'little'):
                return answers
        except BrokenPipeError:
            pass
        self.process.wait()
        self.start()
        return None

    def ask(self, call):
        """One answer, without its length; None if the driver ended instead."""
        answer = self.batch(calls.request(call))
        return answer and answer[4:]

    def differs(self, call):
        return self.ask(call) != calls.expected(call)


# ---- the smallest call

def shorter(data):
    """The bytes with a part left out, large parts first; then with bits cleared."""
    for step in sorted({len(data) >> n for n in range(len(data).bit_length())} | {8, 4, 2, 1}, reverse=True):
        for at in range(0, len(data) - step + 1, step if step > 8 else 1):
            yield data[:at] + data[at + step:]
    for at, byte in enumerate(data):
        for value in {0, byte & byte - 1, byte & 0xF0, byte & 0x0F} - {byte} if byte else ():
            yield data[:at] + bytes([value]) + data[at + 1:]


def lower(value):
    return [v for v in (0, value // 2, value - 1) if 0 <= v < value]


def lowered(values):
    """The numbers with one of them lower."""
    for at, value in enumerate(values):
        for v in lower(value):
            yield values[:at] + (v,) + values[at + 1:]


def smaller(call):
    for data in shorter(call.data):
        if call.zeros == 0:
            yield call._replace(data=data)
    for at in range(max(map(len, call.columns), default=0)):
        yield call._replace(columns=tuple(column[:at] + column[at + 1:] for column in call.columns))
    if call.records:
        yield call._replace(records=call.records[:-1])
    for name in 'sized', 'limited', 'width', 'height', 'max_events', 'fill', 'zeros':
        for value in lower(getattr(call, name)):
            if name != 'zeros' or value == 0:   # a recording that is read is held whole
                yield call._replace(**{name: value})
    for name in 'rooms', 'decoder', 'source', 'sink':
        for values in lowered(getattr(call, name)):
            yield call._replace(**{name: values})
    for name in 'records', 'columns':
        of = getattr(call, name)
        for at, values in enumerate(of):
            for some in lowered(values):
                yield call._replace(**{name: of[:at] + (some,) + of[at + 1:]})


def smallest(driver, call):
    tries, found = 0, True
    while found and tries < TRIES:
        found = False
        for candidate in smaller(call):
            tries += 1
            if driver.differs(candidate):
                call, found = candidate, True
                break
            if tries == TRIES:
                break
    return call


def show_difference(driver, what, call):
    call = smallest(driver, call)
    answer = driver.ask(call)
    print(f'{what}: a difference\n{calls.call_text(call)}')
    print(f'  model:   {calls.answer_text(call, calls.expected(call))}')
    print(f'  library: {"ended without an answer" if answer is None else calls.answer_text(call, answer)}')


# ---- what was compared

def meets_13(call, number):
    """Whether 13 would come if what a refusal 1 or 5 names were mended: the numbers that meet."""
    mended = call._replace(rooms=(10**9,) * 4 + call.rooms[4:])
    if number == 1:
        mended = mended._replace(sized=1, width=65536, height=65536)
    try:
        calls.model_reading(mended)
    except Refused as refused:
        return refused.number == 13
    return False


class Tally:
    def __init__(self):
        self.calls, self.refused, self.events, self.triggers, self.with_triggers, self.meetings, self.headers, self.encodings, self.writers, self.places = (
            Counter() for _ in range(10))

    def add(self, call, expected):
        name, number = calls.NAMES[call.call], calls.refusal_of(call, expected)
        self.calls[name] += 1
        if call.call in calls.WITH_HEADER:
            self.headers['end'] += header.has_end_line(call.data)
            self.headers['percent'] += header.percent_behind_end(call.data)
            self.headers['evt21'] += header.names_evt21(call.data)
        if call.call == calls.APPEND:
            self.add_writer(call, number)
        if number == 'place':
            self.add_place(call)
        if number:
            self.refused[name, number] += 1
            if number in (1, 5) and call.call in (calls.READ_RAW_TRIGGERS, calls.DECODE_WORDS_TRIGGERS) and meets_13(call, number):
                self.meetings[number] += 1
            return
        self.encodings[name, calls.encoding_of(call, expected)] += 1
        if call.call in calls.READINGS:
            count, triggers = calls.READING.unpack_from(expected)[5:]
            self.events[name] += count
            self.triggers[name] += triggers
            self.with_triggers[name] += triggers > 0
        elif call.call in calls.OPENINGS:
            self.events[name] += calls.SLICE.unpack_from(expected, calls.OPENING.size)[2]
        elif call.call in calls.SLICES:
            self.events[name] += calls.SLICE.unpack_from(expected)[2]
        elif call.call == calls.APPEND:
            self.events[name] += len(call.columns[0])
        elif call.call == calls.DECODE:
            self.events[name] += (len(expected) - calls.NO_EVENT) // calls.EVENT.size
        elif call.call == calls.WORD_TRIGGER:
            self.triggers[name] += expected[4]
            self.with_triggers[name] += expected[4]

    def add_writer(self, call, number):
        """Writers that hold a coarse time and no last time, and appends of EVT3 that go past its first loop."""
        has_last, has_high = call.sink[7:9]
        resumed = not has_last and has_high and number != 10
        self.writers['resumed'] += resumed and not number
        self.writers['below'] += resumed and number == 6 and len(call.columns[2]) > 0 and call.columns[2][0] < making.start_of(call.sink)
        if call.sink[5] == 3 and number in (0, 11) and call.columns[2] and call.columns[2][-1] >= making.LOOP:
            self.writers['long', number] += 1

    def add_place(self, call):
        """Where a text ends without a digit, at a digit, or at another byte."""
        at = calls.model_number(call).place
        self.places['end' if at == len(call.data) + call.zeros else 'digit' if call.data[at:at + 1].isdigit() else 'byte'] += 1

    def show(self):
        print('| calls of | calls | accepted (with a trigger) | of EVT2, EVT3, EVT2.1 | refused, by number | events | triggers |\n|' + '---|' * 7)
        for name in calls.NAMES:
            if self.calls[name]:
                numbers = sorted((number, n) for (of, number), n in self.refused.items() if of == name)
                accepted = self.calls[name] - sum(n for _, n in numbers)
                told = ', '.join(f'{number}: {n:,}' for number, n in numbers)
                each = ', '.join(f'{self.encodings[name, encoding]:,}' for encoding in (2, 3, 21))
                print(f'| {name} | {self.calls[name]:,} | {accepted:,} ({self.with_triggers[name]:,}) | {each} | {told} |'
                      f' {self.events[name]:,} | {self.triggers[name]:,} |')
        print(f'refusal 5 where 13 applies as well: {self.meetings[5]:,}; refusal 1 where it does: {self.meetings[1]:,}')
        print(f'calls with an end line in the header: {self.headers["end"]:,}, with a % behind it: {self.headers["percent"]:,};'
              f' with a header that names EVT2.1: {self.headers["evt21"]:,}')
        print(f'appends by a writer that holds a coarse time and no last time: {self.writers["resumed"]:,} accepted, {self.writers["below"]:,} with 6 for'
              f' an event below it; of EVT3 from 2^24 on: {self.writers["long", 0]:,} accepted, {self.writers["long", 11]:,} with 11')
        print(f'places of texts that are no numbers: {self.places["byte"]:,} at a byte that can\'t belong, {self.places["digit"]:,} at the digit that passes'
              f' 2^64 - 1, {self.places["end"]:,} at the end')


def framed(answers):
    return b''.join(len(answer).to_bytes(4, 'little') + answer for answer in answers)


def first_difference(driver, asked):
    """The first call of a batch whose answer differs, each asked alone."""
    return next((entry for entry in asked if driver.differs(entry[1])), asked[0])


def compare(driver, tally, asked):
    """A batch of calls, each with the name of its case; False if one differs."""
    expected = [calls.expected(call) for _, call in asked]
    if driver.batch(b''.join(calls.request(call) for _, call in asked)) != framed(expected):
        show_difference(driver, *first_difference(driver, asked))
        return False
    for (_, call), answer in zip(asked, expected):
        tally.add(call, answer)
    return True


def batches(count, seed, only):
    yield [(f'list, {name}', call) for name, call in cases.all_calls()]
    numbers = range(count) if only is None else [only]
    for start in range(0, len(numbers), BATCH):
        yield [(f'seed {seed}, case {n}', call) for n in numbers[start:start + BATCH] for call in making.case(seed, n)]


def main():
    if not 2 <= len(sys.argv) <= 5:
        sys.exit(__doc__)
    count, seed, only = [int(a) for a in sys.argv[2:]] + [200000, 1, None][len(sys.argv) - 2:]
    if cases.check():
        sys.exit('the model differs from its list: run tools/model/cases.py')
    driver, tally, began = Driver(sys.argv[1]), Tally(), time.time()
    if not all(compare(driver, tally, asked) for asked in batches(count, seed, only)):
        sys.exit(1)
    tally.show()
    print(f'{1 if only is not None else count:,} random cases of seed {seed}, {cases.told()},'
          f' {sum(tally.calls.values()):,} calls, {time.time() - began:.0f} s: no difference')


if __name__ == '__main__':
    main()
