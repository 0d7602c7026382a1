"""Small cases of shows past sixteen seconds and of writers that resume, with answers written by hand from request 4. cases.py takes them: it says how
an entry is read.

An event is at column 5, row 7, polarity 1 unless it says otherwise: of EVT3 the words 0007 2805, of EVT2 10002807 and the low time from bit 22 on, of
EVT 2.1 1000000700000020 and that from bit 54 on. A writer is `3:sent,count,last,high,low,row`; the high half has its loop: 4095 is FFF of loop 0, 4096
is 000 of loop 1.
"""
LOOP, BOUND = 2**24, 2**34
NEW = {2: '2:1,0,-,-,-,-', 3: '3:1,0,-,-,-,-', 21: '21:1,0,-,-,-,-'}
HEADS = {n: f'% format EVT{n}\n% geometry 64x48\n% generator eventcv\n% end\n' for n in NEW}
PASS = '8FFF 8000 '     # into the next loop
HUGE = 2**64 - 1


def at(*times, x=5, y=7, p=1):
    return ' '.join(f'{t},{x},{y},{p}' for t in times)


def held(half, encoding=3):
    """A writer that resumes at a coarse time."""
    return f'{encoding}:1,0,-,{half},-,-'


def sent(t, count=1):
    """A writer of EVT3 that has sent all of a time, and row 7."""
    return f'3:1,{count},{t},{t // 4096},{t % 4096},7'


# Appends: writer, events as t,x,y,p, bytes of the output, answer: the words, or the header's lines and the words, and the writer.
FRESH_EVT3 = [
    # around the border of the first loop: below 2^24 as ever, from there on FFF and 000; no type 6 behind a type 8 whose time it is
    (NEW[3], at(0), 6, f'8000 0007 2805 {sent(0)}'), (NEW[3], at(4095), 8, f'8000 6FFF 0007 2805 {sent(4095)}'),
    (NEW[3], at(LOOP - 4097), 8, f'8FFE 6FFF 0007 2805 {sent(LOOP - 4097)}'), (NEW[3], at(LOOP - 4096), 6, f'8FFF 0007 2805 {sent(LOOP - 4096)}'),
    (NEW[3], at(LOOP - 1), 8, f'8FFF 6FFF 0007 2805 {sent(LOOP - 1)}'), (NEW[3], at(LOOP - 1), 7, f'refused 11 8 {NEW[3]}'),
    (NEW[3], at(LOOP), 8, f'8FFF 8000 0007 2805 {sent(LOOP)}'), (NEW[3], at(LOOP), 9, f'8FFF 8000 0007 2805 {sent(LOOP)}'),
    (NEW[3], at(LOOP), 7, f'refused 11 8 {NEW[3]}'), (NEW[3], at(LOOP), 0, f'refused 11 8 {NEW[3]}'),
    (NEW[3], at(LOOP + 1), 10, f'8FFF 8000 6001 0007 2805 {sent(LOOP + 1)}'), (NEW[3], at(LOOP + 1), 9, f'refused 11 10 {NEW[3]}'),
    (NEW[3], at(LOOP + 4095), 10, f'8FFF 8000 6FFF 0007 2805 {sent(LOOP + 4095)}'),
    (NEW[3], at(LOOP + 4096), 10, f'8FFF 8000 8001 0007 2805 {sent(LOOP + 4096)}'),
    (NEW[3], at(LOOP + 4097), 12, f'8FFF 8000 8001 6001 0007 2805 {sent(LOOP + 4097)}'),
    (NEW[3], at(LOOP + 4097), 11, f'refused 11 12 {NEW[3]}'), (NEW[3], at(LOOP + 4097), 13, f'8FFF 8000 8001 6001 0007 2805 {sent(LOOP + 4097)}'),
    # FFF comes again for every loop, and for the wanted half itself
    (NEW[3], at(2 * LOOP - 4096), 10, f'8FFF 8000 8FFF 0007 2805 {sent(2 * LOOP - 4096)}'),
    (NEW[3], at(2 * LOOP - 1), 12, f'8FFF 8000 8FFF 6FFF 0007 2805 {sent(2 * LOOP - 1)}'),
    (NEW[3], at(2 * LOOP), 12, f'8FFF 8000 8FFF 8000 0007 2805 {sent(2 * LOOP)}'), (NEW[3], at(2 * LOOP), 11, f'refused 11 12 {NEW[3]}'),
    (NEW[3], at(3 * LOOP + 5 * 4096 + 6), 20, f'{3 * PASS}8005 6006 0007 2805 {sent(3 * LOOP + 5 * 4096 + 6)}'),
    (NEW[3], at(100 * LOOP + 4095), 406, f'{100 * PASS}6FFF 0007 2805 {sent(100 * LOOP + 4095)}'),
    # all loops at once: 2 * 1,023 time words more
    (NEW[3], at(1023 * LOOP), 4096, f'{1023 * PASS}0007 2805 {sent(1023 * LOOP)}'), (NEW[3], at(1023 * LOOP), 4095, f'refused 11 4096 {NEW[3]}'),
    (NEW[3], at(BOUND - 1), 4100, f'{1023 * PASS}8FFF 6FFF 0007 2805 {sent(BOUND - 1)}'), (NEW[3], at(BOUND - 1), 4099, f'refused 11 4100 {NEW[3]}'),
    (NEW[3], at(BOUND - 1), 4101, f'{1023 * PASS}8FFF 6FFF 0007 2805 {sent(BOUND - 1)}'), (NEW[3], at(BOUND - 1), 0, f'refused 11 4100 {NEW[3]}'),
    (NEW[3], at(BOUND - 1), 8, f'refused 11 4100 {NEW[3]}'), (NEW[3], at(BOUND - 1), 96 + 8, f'refused 11 4100 {NEW[3]}'),
    (NEW[3], at(BOUND), 9999, f'refused 7 {NEW[3]}'), (NEW[3], at(BOUND + 4096), 9999, f'refused 7 {NEW[3]}'),
    (NEW[3], at(2**63 - 1), 9999, f'refused 7 {NEW[3]}'),
    (NEW[3], at(-1), 9999, f'refused 7 {NEW[3]}'), (NEW[3], at(-2**63), 9999, f'refused 7 {NEW[3]}'),
    # with a header due
    ('3:0,0,-,-,-,-', at(LOOP), len(HEADS[3]) + 8, f'{HEADS[3]}8FFF 8000 0007 2805 {sent(LOOP)}'),
    ('3:0,0,-,-,-,-', at(LOOP), len(HEADS[3]) + 7, f'refused 11 {len(HEADS[3]) + 8} 3:0,0,-,-,-,-'),
    ('3:0,0,-,-,-,-', at(BOUND - 1), len(HEADS[3]) + 4100, f'{HEADS[3]}{1023 * PASS}8FFF 6FFF 0007 2805 {sent(BOUND - 1)}'),
    ('3:0,0,-,-,-,-', at(BOUND - 1), len(HEADS[3]) + 4099, f'refused 11 {len(HEADS[3]) + 4100} 3:0,0,-,-,-,-'),
    # many events in one append: over borders, several at one time, a vector behind a border, loops without any
    (NEW[3], at(LOOP - 1, LOOP), 12, f'8FFF 6FFF 0007 2805 8000 2805 {sent(LOOP, 2)}'), (NEW[3], at(LOOP - 1, LOOP), 11, f'refused 11 12 {NEW[3]}'),
    (NEW[3], at(LOOP - 4097, LOOP), 14, f'8FFE 6FFF 0007 2805 8FFF 8000 2805 {sent(LOOP, 2)}'),
    (NEW[3], at(0, LOOP, LOOP, LOOP + 4096), 18, f'8000 0007 2805 8FFF 8000 2805 2805 8001 2805 {sent(LOOP + 4096, 4)}'),
    (NEW[3], at(LOOP, 2 * LOOP, 4 * LOOP), 24, f'8FFF 8000 0007 2805 8FFF 8000 2805 {2 * PASS}2805 {sent(4 * LOOP, 3)}'),
    (NEW[3], at(LOOP - 1, 3 * LOOP - 1, 3 * LOOP), 26, f'8FFF 6FFF 0007 2805 8000 8FFF 8000 8FFF 6FFF 2805 8000 2805 {sent(3 * LOOP, 3)}'),
    (NEW[3], at(LOOP, x=10, p=0) + ' ' + at(LOOP, x=11, p=0) + ' ' + at(LOOP, x=13, p=0), 10, f'8FFF 8000 0007 300A 400B {sent(LOOP, 3)}'),
    (NEW[3], at(LOOP, LOOP - 1), 99, f'refused 6 {NEW[3]}'), (NEW[3], at(2 * LOOP, LOOP), 99, f'refused 6 {NEW[3]}'),
    (NEW[3], at(0, BOUND - 1), 4104, f'8000 0007 2805 {1023 * PASS}8FFF 6FFF 2805 {sent(BOUND - 1, 2)}'),
    (NEW[3], at(0, BOUND - 1), 4103, f'refused 11 4104 {NEW[3]}'),
    (NEW[3], at(0, BOUND), 9999, f'refused 7 {NEW[3]}'), (NEW[3], '', 0, NEW[3]),
]

HOLDING_EVT3 = [
    # FFF is held: it isn't sent again
    (sent(LOOP - 1), at(LOOP), 4, f'8000 2805 {sent(LOOP, 2)}'), (sent(LOOP - 1), at(LOOP), 3, f'refused 11 4 {sent(LOOP - 1)}'),
    (sent(LOOP - 4096), at(LOOP), 4, f'8000 2805 {sent(LOOP, 2)}'), (sent(LOOP - 1), at(LOOP + 1), 6, f'8000 6001 2805 {sent(LOOP + 1, 2)}'),
    (sent(LOOP - 1), at(LOOP + 4096), 6, f'8000 8001 2805 {sent(LOOP + 4096, 2)}'),
    (sent(LOOP - 1), at(2 * LOOP), 8, f'8000 8FFF 8000 2805 {sent(2 * LOOP, 2)}'),
    (sent(2 * LOOP - 1), at(2 * LOOP), 4, f'8000 2805 {sent(2 * LOOP, 2)}'), (sent(1023 * LOOP - 1), at(1023 * LOOP), 4, f'8000 2805 {sent(1023 * LOOP, 2)}'),
    (sent(LOOP - 1), at(BOUND - 1), 4096, f'8000 {1022 * PASS}8FFF 6FFF 2805 {sent(BOUND - 1, 2)}'),
    (sent(LOOP - 1), at(BOUND - 1), 4095, f'refused 11 4096 {sent(LOOP - 1)}'),
    # another half is held
    (sent(LOOP - 4097), at(LOOP), 6, f'8FFF 8000 2805 {sent(LOOP, 2)}'), (sent(0), at(LOOP), 6, f'8FFF 8000 2805 {sent(LOOP, 2)}'),
    (sent(LOOP), at(2 * LOOP), 6, f'8FFF 8000 2805 {sent(2 * LOOP, 2)}'), (sent(LOOP), at(3 * LOOP), 10, f'{2 * PASS}2805 {sent(3 * LOOP, 2)}'),
    (sent(0), at(BOUND - 1), 4098, f'{1023 * PASS}8FFF 6FFF 2805 {sent(BOUND - 1, 2)}'), (sent(0), at(BOUND - 1), 4097, f'refused 11 4098 {sent(0)}'),
    # within the loop that is held nothing is passed
    (sent(LOOP), at(LOOP), 2, f'2805 {sent(LOOP, 2)}'), (sent(LOOP), at(LOOP + 4095), 4, f'6FFF 2805 {sent(LOOP + 4095, 2)}'),
    (sent(LOOP), at(LOOP + 4096), 4, f'8001 2805 {sent(LOOP + 4096, 2)}'), (sent(LOOP), at(2 * LOOP - 1), 6, f'8FFF 6FFF 2805 {sent(2 * LOOP - 1, 2)}'),
    (sent(LOOP + 5), at(LOOP + 4096 + 5), 6, f'8001 6005 2805 {sent(LOOP + 4101, 2)}'), (sent(LOOP), at(LOOP - 1), 99, f'refused 6 {sent(LOOP)}'),
    (sent(LOOP + 5), at(LOOP + 4), 99, f'refused 6 {sent(LOOP + 5)}'), (sent(LOOP + 5), at(5), 99, f'refused 6 {sent(LOOP + 5)}'),
    (sent(BOUND - 1), at(BOUND - 1), 2, f'2805 {sent(BOUND - 1, 2)}'), (sent(BOUND - 1), at(BOUND), 9999, f'refused 7 {sent(BOUND - 1)}'),
    (sent(BOUND - 1), at(BOUND - 2), 9999, f'refused 6 {sent(BOUND - 1)}'), (sent(BOUND - 1), at(BOUND - 1), 1, f'refused 11 2 {sent(BOUND - 1)}'),
    # a last time without its half: from loop 0 on, as a fresh writer
    (f'3:1,1,{LOOP},-,-,-', at(LOOP), 8, f'8FFF 8000 0007 2805 {sent(LOOP, 2)}'), (f'3:1,1,{LOOP},-,0,7', at(LOOP), 6, f'8FFF 8000 2805 {sent(LOOP, 2)}'),
    (f'3:1,1,{LOOP + 5},-,5,7', at(LOOP + 5), 8, f'8FFF 8000 6005 2805 {sent(LOOP + 5, 2)}'),
    (f'3:1,1,{LOOP - 1},-,4095,7', at(LOOP), 6, f'8FFF 8000 2805 {sent(LOOP, 2)}'),
    (f'3:1,1,{LOOP},-,-,-', at(LOOP - 1), 99, f'refused 6 3:1,1,{LOOP},-,-,-'),
    (f'3:0,1,{LOOP},-,-,7', at(LOOP), len(HEADS[3]) + 6, f'{HEADS[3]}8FFF 8000 2805 {sent(LOOP, 2)}'),
    (f'3:1,1,{BOUND - 1},-,-,-', at(BOUND - 1), 4100, f'{1023 * PASS}8FFF 6FFF 0007 2805 {sent(BOUND - 1, 2)}'),
    # a half is held and the low half isn't: type 6, also 6000, unless a type 8 was just sent
    (f'3:1,1,{LOOP},4096,-,7', at(LOOP), 4, f'6000 2805 {sent(LOOP, 2)}'), (f'3:1,1,{LOOP},4096,-,7', at(LOOP + 4096), 4, f'8001 2805 {sent(LOOP + 4096, 2)}'),
    # 10: a half of another loop or of another time, a last time at the bound
    *[(sink, at(BOUND - 1), 0, f'refused 10 {sink}') for sink in (
        f'3:1,1,{LOOP},0,0,7', f'3:1,1,{LOOP},4095,0,7', f'3:1,1,{LOOP},4097,0,7', f'3:1,1,{LOOP},8192,0,7', f'3:1,1,{LOOP},4096,4095,7',
        f'3:1,1,{LOOP},4096,1,7',
        '3:1,1,0,4096,0,7', f'3:1,1,{BOUND},-,-,-', f'3:1,1,{BOUND},{2**22},0,7', f'3:1,1,{2**63 - 1},-,-,-', '3:1,1,-1,-,-,-',
        f'3:1,1,{LOOP},{4096 + 2**52},0,7')],
]

RESUMED_EVT3 = [
    # no type 8 for the coarse time that is held; the low half and the row are due, unless a type 8 was just sent
    (held(0), at(0), 6, f'6000 0007 2805 {sent(0)}'), (held(0), at(0), 5, f'refused 11 6 {held(0)}'), (held(0), at(0), 7, f'6000 0007 2805 {sent(0)}'),
    (held(0), at(4095), 6, f'6FFF 0007 2805 {sent(4095)}'), (held(0), at(4096), 6, f'8001 0007 2805 {sent(4096)}'),
    (held(0), at(4097), 8, f'8001 6001 0007 2805 {sent(4097)}'), (held(0), at(LOOP), 8, f'8FFF 8000 0007 2805 {sent(LOOP)}'),
    (held(0), at(5, x=5, y=0), 6, '6005 0000 2805 3:1,1,5,0,5,0'), (held(0), at(0, 0), 8, f'6000 0007 2805 2805 {sent(0, 2)}'),
    (held(1), at(4096), 6, f'6000 0007 2805 {sent(4096)}'), (held(1), at(4095), 99, f'refused 6 {held(1)}'),
    (held(4094), at(LOOP), 8, f'8FFF 8000 0007 2805 {sent(LOOP)}'), (held(4095), at(LOOP - 4096), 6, f'6000 0007 2805 {sent(LOOP - 4096)}'),
    (held(4095), at(LOOP - 1), 6, f'6FFF 0007 2805 {sent(LOOP - 1)}'), (held(4095), at(LOOP), 6, f'8000 0007 2805 {sent(LOOP)}'),
    (held(4095), at(LOOP + 1), 8, f'8000 6001 0007 2805 {sent(LOOP + 1)}'), (held(4095), at(LOOP + 4096), 8, f'8000 8001 0007 2805 {sent(LOOP + 4096)}'),
    (held(4095), at(2 * LOOP), 10, f'8000 8FFF 8000 0007 2805 {sent(2 * LOOP)}'), (held(4095), at(LOOP - 4097), 99, f'refused 6 {held(4095)}'),
    (held(4096), at(LOOP), 6, f'6000 0007 2805 {sent(LOOP)}'), (held(4096), at(LOOP + 4095), 6, f'6FFF 0007 2805 {sent(LOOP + 4095)}'),
    (held(4096), at(LOOP + 4096), 6, f'8001 0007 2805 {sent(LOOP + 4096)}'), (held(4096), at(LOOP - 1), 99, f'refused 6 {held(4096)}'),
    (held(4096), at(2 * LOOP), 8, f'8FFF 8000 0007 2805 {sent(2 * LOOP)}'), (held(8191), at(2 * LOOP), 6, f'8000 0007 2805 {sent(2 * LOOP)}'),
    (held(4096), at(LOOP, LOOP + 1, 2 * LOOP), 16, f'6000 0007 2805 6001 2805 8FFF 8000 2805 {sent(2 * LOOP, 3)}'),
    (held(0), at(BOUND - 1), 4100, f'{1023 * PASS}8FFF 6FFF 0007 2805 {sent(BOUND - 1)}'), (held(0), at(BOUND - 1), 4099, f'refused 11 4100 {held(0)}'),
    (held(4095), at(BOUND - 1), 4098, f'8000 {1022 * PASS}8FFF 6FFF 0007 2805 {sent(BOUND - 1)}'),
    (held(4095), at(BOUND - 1), 4097, f'refused 11 4098 {held(4095)}'),
    # at the bound
    (held(2**22 - 1), at(BOUND - 4096), 6, f'6000 0007 2805 {sent(BOUND - 4096)}'), (held(2**22 - 1), at(BOUND - 1), 6, f'6FFF 0007 2805 {sent(BOUND - 1)}'),
    (held(2**22 - 1), at(BOUND), 99, f'refused 7 {held(2**22 - 1)}'), (held(2**22 - 1), at(BOUND - 4097), 99, f'refused 6 {held(2**22 - 1)}'),
    (held(1023 * 4096), at(1023 * LOOP), 6, f'6000 0007 2805 {sent(1023 * LOOP)}'),
    (held(1023 * 4096 - 1), at(1023 * LOOP), 6, f'8000 0007 2805 {sent(1023 * LOOP)}'),
    # 6 below the coarse time, also for a negative time; a fresh writer gives 7 there
    (held(0), at(-1), 99, f'refused 6 {held(0)}'), (held(0), at(-2**63), 99, f'refused 6 {held(0)}'), (held(4096), at(-1), 99, f'refused 6 {held(4096)}'),
    (held(0), at(0, 5, 4), 99, f'refused 6 {held(0)}'), (held(0), at(-1, 5), 99, f'refused 6 {held(0)}'),
    (held(4096), at(0, LOOP), 99, f'refused 6 {held(4096)}'),
    # an empty append, and a header due beside a held half
    (held(0), '', 0, held(0)), (held(2**22 - 1), '', 0, held(2**22 - 1)), ('3:0,0,-,4096,-,-', '', 0, '3:0,0,-,4096,-,-'),
    ('3:0,0,-,4096,-,-', at(LOOP), len(HEADS[3]) + 6, f'{HEADS[3]}6000 0007 2805 {sent(LOOP)}'),
    ('3:0,0,-,4096,-,-', at(LOOP), len(HEADS[3]) + 5, f'refused 11 {len(HEADS[3]) + 6} 3:0,0,-,4096,-,-'),
    ('3:0,0,-,4096,-,-', at(LOOP - 1), 99, 'refused 6 3:0,0,-,4096,-,-'),
    # 10: a coarse time at the bound, or one that passes 2^64; a low half, a row or a count without a last time; before an empty append too
    *[(sink, events, 0, f'refused 10 {sink}') for events in (at(BOUND - 1), at(-1), '') for sink in (
        held(2**22), held(2**22 + 1), held(2**52), held(2**52 + 1), held(2**63), held(HUGE), '3:1,0,-,0,0,-', '3:1,0,-,0,-,0', '3:1,0,-,4096,-,7',
        '3:1,1,-,0,-,-',
        '3:1,1,-,4096,-,-', '3:1,0,-,-,0,-', '3:1,0,-,-,-,0', '3:1,1,-,-,-,-', '3:0,1,-,4096,-,-', f'3:0,0,-,{2**22},-,-', f'3:1,{2**62 + 1},-,0,-,-')],
]


def one2(low):
    return f'{1 << 28 | low << 22 | 5 << 11 | 7:08X}'


def one21(low):
    return f'{1 << 60 | low << 54 | 7 << 32 | 32:016X}'


def resumed_by_64(n, word, high):
    """EVT2 and EVT 2.1: `word` is an event's, `high` a time word's, by its half."""
    last, size = 2**28 - 1, len(word(0)) // 2
    after = lambda t: f'{n}:1,1,{t},{t // 64},-,-'
    return [
        (held(0, n), at(0), size, f'{word(0)} {after(0)}'), (held(0, n), at(0), size - 1, f'refused 11 {size} {held(0, n)}'),
        (held(0, n), at(63), size + 1, f'{word(63)} {after(63)}'), (held(0, n), at(64), 2 * size, f'{high(1)} {word(0)} {after(64)}'),
        (held(1, n), at(64), size, f'{word(0)} {after(64)}'), (held(1, n), at(63), 99, f'refused 6 {held(1, n)}'),
        (held(0, n), at(-1), 99, f'refused 6 {held(0, n)}'),
        (held(1, n), at(100, 128), 3 * size, f'{word(36)} {high(2)} {word(0)} {n}:1,2,128,2,-,-'),
        (NEW[n], at(-1), 99, f'refused 7 {NEW[n]}'), (held(0, n), at(BOUND - 1), 2 * size, f'{high(last)} {word(63)} {after(BOUND - 1)}'),
        (held(last, n), at(BOUND - 64), size, f'{word(0)} {after(BOUND - 64)}'), (held(last, n), at(BOUND - 1), size, f'{word(63)} {after(BOUND - 1)}'),
        (held(last, n), at(BOUND), 99, f'refused 7 {held(last, n)}'), (held(last, n), at(BOUND - 65), 99, f'refused 6 {held(last, n)}'),
        (held(2**18 - 1, n), at(LOOP), 2 * size, f'{high(2**18)} {word(0)} {after(LOOP)}'), (held(2**18, n), at(LOOP), size, f'{word(0)} {after(LOOP)}'),
        (held(5, n), '', 0, held(5, n)), (f'{n}:0,0,-,1,-,-', '', 0, f'{n}:0,0,-,1,-,-'),
        (f'{n}:0,0,-,1,-,-', at(64), len(HEADS[n]) + size, f'{HEADS[n]}{word(0)} {after(64)}'),
        (f'{n}:0,0,-,1,-,-', at(64), len(HEADS[n]) + size - 1, f'refused 11 {len(HEADS[n]) + size} {n}:0,0,-,1,-,-'),
        (f'{n}:0,0,-,1,-,-', at(63), 99, f'refused 6 {n}:0,0,-,1,-,-'),
        *[(sink, events, 0, f'refused 10 {sink}') for events in (at(BOUND - 1), '') for sink in (
            held(2**28, n), held(2**28 + 1, n), held(2**58, n), held(2**58 + 1, n), held(2**63, n), held(HUGE, n), f'{n}:1,0,-,0,0,-', f'{n}:1,0,-,0,-,0',
            f'{n}:1,1,-,0,-,-', f'{n}:0,1,-,5,-,-', f'{n}:1,0,-,-,0,-', f'{n}:1,1,-,-,-,-')],
    ]


APPENDS = FRESH_EVT3 + HOLDING_EVT3 + RESUMED_EVT3 + resumed_by_64(2, one2, lambda half: f'{8 << 28 | half:08X}') + resumed_by_64(
    21, one21, lambda half: f'{8 << 60 | half << 32:016X}') + [(sink, at(5), 99, f'refused 10 {sink}') for sink in ('7:1,0,-,0,-,-', '20:1,0,-,-,-,-')]

# Appends by their columns: every meeting of 10, 12, 6 below the coarse time, 7 and 11 of a writer that resumes. `7` is a time at the bound behind another.
RIGHT = {2: f'{one2(0)} {one2(0)} 2:1,2,64,1,-,-', 3: f'6000 0007 2805 2805 3:1,2,{LOOP},4096,0,7', 21: f'{one21(0)} {one21(0)} 21:1,2,64,1,-,-'}
NEEDED = {2: 8, 3: 8, 21: 16}
MEETINGS = [
    ('', None), ('10', 'refused 10'), ('12', 'refused 12'), ('6', 'refused 6'), ('7', 'refused 7'), ('11', 'refused 11'),
    ('10 12', 'refused 10'), ('10 6', 'refused 10'), ('10 7', 'refused 10'), ('10 11', 'refused 10'), ('12 6', 'refused 12'), ('12 7', 'refused 12'),
    ('12 11', 'refused 12'), ('6 7', 'refused 6'), ('6 11', 'refused 6'), ('7 11', 'refused 7'), ('10 12 6 7 11', 'refused 10'), ('12 6 7 11', 'refused 12'),
    ('6 7 11', 'refused 6'),
]


def meeting(n, wrong, answer):
    """The writer, four columns, the output and the answer."""
    has, coarse, half = wrong.split(), {3: LOOP}.get(n, 64), {3: 4096}.get(n, 1)
    sink = held(2**22 if n == 3 else 2**28, n) if '10' in has else held(half, n)
    times = (coarse - 1 if '6' in has else coarse, BOUND if '7' in has else coarse)
    columns = (5, 5), (7, 7), times, (1, 1, 1) if '12' in has else (1, 1)
    if answer == 'refused 11':
        answer += f' {NEEDED[n]}'
    return sink, columns, 0 if '11' in has else 99, f'{answer} {sink}' if answer else RIGHT[n]


BY_COLUMNS = [meeting(n, *entry) for n in NEW for entry in MEETINGS]

# Writers by a decoder: its numbers (coarse time, time, loops, encoding, row, base column, started, polarity), and the answer.
P52 = 2**52
DECODERS = [
    *[((0, 0, 0, n, 0, 0, 0, 0), NEW[n]) for n in NEW], *[((0, 0, 0, n, 0, 0, 1, 0), held(0, n)) for n in NEW],
    ((4096, 4101, 0, 3, 7, 10, 1, 1), held(1)), ((LOOP - 4096, LOOP - 1, 0, 3, 2047, 65535, 1, 1), held(4095)), ((LOOP, LOOP, 1, 3, 0, 0, 1, 0), held(4096)),
    ((LOOP + 4096, LOOP + 4097, 1, 3, 0, 0, 1, 0), held(4097)), ((1023 * LOOP, 1023 * LOOP, 1023, 3, 0, 0, 1, 0), held(1023 * 4096)),
    ((BOUND - 4096, BOUND - 4096, 1023, 3, 0, 0, 1, 0), held(2**22 - 1)), ((BOUND - 4096, BOUND - 1, 1023, 3, 2047, 65535, 1, 1), held(2**22 - 1)),
    ((64, 100, 0, 2, 0, 0, 1, 0), held(1, 2)), ((BOUND - 64, BOUND - 1, 0, 2, 0, 0, 1, 0), held(2**28 - 1, 2)),
    ((64, 100, 0, 21, 0, 0, 1, 0), held(1, 21)), ((BOUND - 64, BOUND - 64, 0, 21, 0, 0, 1, 0), held(2**28 - 1, 21)),
    # in range, and past the bound of 7
    *[(decoder, f'refused 10 {NEW[decoder[3]]}') for decoder in (
        (BOUND, BOUND, 1024, 3, 0, 0, 1, 0), (BOUND, BOUND + 4095, 1024, 3, 7, 0, 1, 0), (BOUND + 4096, BOUND + 4096, 1024, 3, 0, 0, 1, 0),
        (P52, P52, 2**28, 3, 0, 0, 1, 0),
        (BOUND, BOUND, 1, 2, 0, 0, 1, 0), (BOUND + 64, BOUND + 64, 1, 2, 0, 0, 1, 0), (2**61, 2**61, 2**27, 2, 0, 0, 1, 0),
        (BOUND, BOUND + 63, 1, 21, 0, 0, 1, 0),
        (2 * BOUND - 64, 2 * BOUND - 64, 1, 21, 0, 0, 1, 0),
        # out of range: coarse time, time, loops, row, an unstarted one with a number, what is no decoder's
        (1, 1, 0, 3, 0, 0, 1, 0), (64, 64, 0, 3, 0, 0, 1, 0), (4096, 4095, 0, 3, 0, 0, 1, 0), (4096, 8192, 0, 3, 0, 0, 1, 0), (LOOP, LOOP, 0, 3, 0, 0, 1, 0),
        (0, 0, 1, 3, 0, 0, 1, 0), (4096, 4096, 1, 3, 0, 0, 1, 0), (P52 + LOOP, P52 + LOOP, 2**28 + 1, 3, 0, 0, 1, 0), (4096, 4096, 0, 3, 2048, 0, 1, 0),
        (0, 0, 0, 3, 1, 0, 0, 0), (0, 0, 0, 3, 0, 1, 0, 0), (0, 0, 0, 3, 0, 0, 0, 1), (4096, 4096, 0, 3, 0, 0, 0, 0), (BOUND, BOUND, 1024, 3, 0, 0, 0, 0),
        (4096, 4096, 0, 3, 0, 0, 2, 0), (4096, 4096, 0, 3, 0, 0, 1, 2), (0, 0, 0, 3, 0, 0, 255, 0),
        (1, 1, 0, 2, 0, 0, 1, 0), (64, 128, 0, 2, 0, 0, 1, 0), (0, 0, 1, 2, 0, 0, 1, 0), (0, 5, 0, 2, 0, 0, 0, 0), (64, 64, 0, 2, 1, 0, 1, 0),
        (64, 64, 0, 2, 0, 1, 1, 0),
        (64, 64, 0, 2, 0, 0, 1, 1), (32, 32, 0, 21, 0, 0, 1, 0), (64, 63, 0, 21, 0, 0, 1, 0), (64, 64, 0, 21, 0, 0, 2, 0), (0, 0, 0, 21, 0, 0, 0, 1))],
    *[((0, 0, 0, n, 0, 0, started, 0), f'refused 10 {n}:1,0,-,-,-,-') for n in (0, 1, 4, 7, 20, 22, 2**32 - 1) for started in (0, 1)],
]

# Writers by words without a header: encoding, words, the answer, bytes 0 behind them.
TIME21, TOP21 = '8000000100000000', '8FFFFFFF00000000'
WORDS = [
    *[(n, '', NEW[n], 0) for n in NEW], (3, '0007 2805 6005 E000', NEW[3], 0), (2, '19002807 A0000101', NEW[2], 0), (21, '1900280700000001', NEW[21], 0),
    (3, '80', NEW[3], 0), (2, '000000', NEW[2], 0), (21, '00000000000000', NEW[21], 0),
    (3, '8000', held(0), 0), (3, '8001 6FFF 0007 2805', held(1), 0), (3, '8001 300A 4FFF 8002', held(2), 0), (3, '8FFF', held(4095), 0),
    # between FFF and 000, at each byte; FFF alone counts no loop, 000 does
    (3, '8FFF 00', held(4095), 0), (3, '8FFF 8000', held(4096), 0), (3, '8FFF 8000 FF', held(4096), 0), (3, '8FFF 8000 8FFF', held(8191), 0),
    (3, '8FFF 8000 8FFF 00', held(8191), 0), (3, '8FFF 8000 8FFF 8000', held(8192), 0), (3, '8FFF 8000 8000', held(4096), 0), (3, '8000 8FFF', held(4095), 0),
    (3, '8FFF 8000 0007 2805 8FFF', held(8191), 0), (3, '8FFF 800A', held(4106), 0), (3, '8FFF 800B', held(11), 0), (3, '8002 8001', held(1), 0),
    # up to the bound
    (3, PASS * 1023, held(1023 * 4096), 0), (3, PASS * 1023 + '8FFF', held(2**22 - 1), 0), (3, PASS * 1023 + '8FFF 6FFF 00', held(2**22 - 1), 0),
    (3, PASS * 1023 + '8FFF 8000', f'refused 10 {NEW[3]}', 0), (3, PASS * 1024 + '8001', f'refused 10 {NEW[3]}', 0),
    (3, PASS * 1030, f'refused 10 {NEW[3]}', 0),
    (2, '80000000', held(0, 2), 0), (2, '80000001 19002807', held(1, 2), 0), (2, '8FFFFFFF', held(2**28 - 1, 2), 0),
    (2, '8FFFFFFF 000000', held(2**28 - 1, 2), 0),
    (2, '8FFFFFFF 80000000', f'refused 10 {NEW[2]}', 0), (2, '8FFFFFFF 80FFFFFF', f'refused 10 {NEW[2]}', 0), (2, '8FFFFFFF 81000000', held(2**24, 2), 0),
    (21, TIME21, held(1, 21), 0), (21, f'{TIME21} 1900000700000020 00', held(1, 21), 0), (21, TOP21, held(2**28 - 1, 21), 0),
    (21, f'{TOP21} 8000000000000000', f'refused 10 {NEW[21]}', 0), (21, f'{TOP21} 8100000000000000', held(2**24, 21), 0),
    (21, f'{TOP21} 00000000000000', held(2**28 - 1, 21), 0),
    # a first byte `%` is no header
    (3, '8025 6001', held(0x25), 0), (2, '80000025', held(0x25, 2), 0),
    # 4 before 2 before 10
    *[(n, '8001', f'refused 2 {n}:1,0,-,-,-,-', 0) for n in (0, 1, 4, 7, 20, 22, 2**32 - 1)], (7, '', 'refused 2 7:1,0,-,-,-,-', 0),
    *[(n, '', f'refused 4 {n}:1,0,-,-,-,-', 2**30 + 1) for n in (2, 3, 21, 7)], (7, PASS * 1024, 'refused 4 7:1,0,-,-,-,-', 2**30),
    (3, PASS * 1024, f'refused 4 {NEW[3]}', 2**30 + 1 - 4096), (2, '8FFFFFFF 80000000', f'refused 4 {NEW[2]}', 2**30 - 7),
    (7, PASS * 1024, 'refused 2 7:1,0,-,-,-,-', 0),
]

# Writers and decoders by a recording: header, words, the decoder's numbers, the writer; refused, a writer of EVT2 and its fresh decoder. Bytes 0 behind.
FRESH2 = (0, 0, 0, 2, 0, 0, 0, 0)
NAME = {n: f'% format EVT{n}\n' for n in NEW}
RAWS = [
    *[(NAME[n], '', (0, 0, 0, n, 0, 0, 0, 0), NEW[n], 0) for n in NEW], *[(HEADS[n], '', (0, 0, 0, n, 0, 0, 0, 0), NEW[n], 0) for n in NEW],
    (HEADS[3], '8001 6005 0007 380A', (4096, 4101, 0, 3, 7, 10, 1, 1), held(1), 0), (HEADS[2], '80000001 19002807', (64, 100, 0, 2, 0, 0, 1, 0), held(1, 2), 0),
    (HEADS[21], f'{TIME21} 1900000700000020', (64, 100, 0, 21, 0, 0, 1, 0), held(1, 21), 0), (NAME[3], '0007 2805', (0, 0, 0, 3, 0, 0, 0, 0), NEW[3], 0),
    # cut between FFF and 000, at each byte
    (HEADS[3], '8FFF', (LOOP - 4096, LOOP - 4096, 0, 3, 0, 0, 1, 0), held(4095), 0),
    (HEADS[3], '8FFF 00', (LOOP - 4096, LOOP - 4096, 0, 3, 0, 0, 1, 0), held(4095), 0),
    (HEADS[3], '8FFF 8000', (LOOP, LOOP, 1, 3, 0, 0, 1, 0), held(4096), 0),
    (HEADS[3], '8FFF 8000 8FFF', (2 * LOOP - 4096, 2 * LOOP - 4096, 1, 3, 0, 0, 1, 0), held(8191), 0),
    # no size is asked for: a zero in the header's gets no 1
    (NAME[3] + '% geometry 0x48\n', '8001', (4096, 4096, 0, 3, 0, 0, 1, 0), held(1), 0),
    (NAME[2] + '% geometry 64x0\n', '80000001', (64, 64, 0, 2, 0, 0, 1, 0), held(1, 2), 0),
    (NAME[21] + '% geometry 0x0\n', '', (0, 0, 0, 21, 0, 0, 0, 0), NEW[21], 0),
    # the body begins behind the end line, with `%` too; without one such a byte is header
    (HEADS[3], '8025 6001', (0x25000, 0x25001, 0, 3, 0, 0, 1, 0), held(0x25), 0), ('% evt 3\n% end', '', (0, 0, 0, 3, 0, 0, 0, 0), NEW[3], 0),
    ('% evt 3\n% end\n% evt 2\n', '', (0, 0, 0, 3, 0, 0, 0, 0), NEW[3], 0), ('% evt 3\n% evt 2\n% end\n', '', FRESH2, NEW[2], 0),
    (NAME[3], '8025', FRESH2, 'refused 3', 0),
    # up to the bound and past it
    (HEADS[3], PASS * 1023 + '8FFF 6FFF', (BOUND - 4096, BOUND - 1, 1023, 3, 0, 0, 1, 0), held(2**22 - 1), 0),
    (HEADS[3], PASS * 1024, (BOUND, BOUND, 1024, 3, 0, 0, 1, 0), f'refused 10 {NEW[3]}', 0),
    (HEADS[2], '8FFFFFFF 80000000', (BOUND, BOUND, 1, 2, 0, 0, 1, 0), f'refused 10 {NEW[2]}', 0),
    (HEADS[21], f'{TOP21} 80FFFFFF00000000 1FC0000000000000', (BOUND + 2**30 - 64, BOUND + 2**30 - 1, 1, 21, 0, 0, 1, 0), f'refused 10 {NEW[21]}', 0),
    (HEADS[21], TOP21, (BOUND - 64, BOUND - 64, 0, 21, 0, 0, 1, 0), held(2**28 - 1, 21), 0),
    # 4, 3, 2, 10: alone and every two of them; 2 and 10 exclude each other
    ('', '', FRESH2, 'refused 2', 0), ('%', '', FRESH2, 'refused 2', 0), ('% format EVT4\n', '8001', FRESH2, 'refused 2', 0),
    ('% end\n' + NAME[3], '8001', FRESH2, 'refused 2', 0),
    ('% format EVT4\n% geometry 0x0\n', '', FRESH2, 'refused 2', 0), ('', '8001', FRESH2, 'refused 2', 0),
    ('%\x80', '', FRESH2, 'refused 3', 0), (NAME[3] + '% \x80\n', '8001', FRESH2, 'refused 3', 0), ('% \x80\n', '8001', FRESH2, 'refused 3', 0),
    (NAME[3] + '% \x80\n', PASS * 1024, FRESH2, 'refused 3', 0), (NAME[21] + '% \x80\n% geometry 0x0\n', TIME21, FRESH2, 'refused 3', 0),
    (NAME[3], '', FRESH2, 'refused 4', 2**30 + 1 - len(NAME[3])), (NAME[3] + '% \x80\n', '', FRESH2, 'refused 4', 2**30),
    ('', '', FRESH2, 'refused 4', 2**30 + 1),
    (HEADS[3], PASS * 1024, FRESH2, 'refused 4', 2**30), ('% \x80\n', '', FRESH2, 'refused 4', 2**30),
]
