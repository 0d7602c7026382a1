"""Small cases of EVT 2.1, with answers written by hand from request 3. cases.py takes them: it says how an entry is read.

The high half of a word is an EVT2 word, the low half its mask: 19002807 is t = coarse + 36, x = 5, y = 7, p = 1.
"""
NONE = None
TIME, NAMED = '8000000100000000', '% format EVT21\n'     # coarse time 64
ONE = TIME + ' 1900280700000001 A9001F0100000000'

# name, head, body, size, limit, rooms, trigger rooms, answer
READINGS = [
    # masks: the low bit first, x any, up to column 2047 + 31
    ('mask21', 21, TIME + ' 1900000780000061', NONE, NONE, 4, 0, 'ok EVT21 32 8 4 : 100,0,7,1 100,5,7,1 100,6,7,1 100,31,7,1 | 0 :'),
    ('mask21', 21, TIME + ' 0900000780000061', NONE, NONE, 4, 0, 'ok EVT21 32 8 4 : 100,0,7,0 100,5,7,0 100,6,7,0 100,31,7,0 | 0 :'),
    ('mask21', 21, TIME + ' 1900000700000001', NONE, NONE, 1, 0, 'ok EVT21 1 8 1 : 100,0,7,1 | 0 :'),
    ('mask21', 21, TIME + ' 1900000780000000', NONE, NONE, 1, 0, 'ok EVT21 32 8 1 : 100,31,7,1 | 0 :'),
    ('mask21', 21, TIME + ' 1900280700000003', NONE, NONE, 2, 0, 'ok EVT21 7 8 2 : 100,5,7,1 100,6,7,1 | 0 :'),
    ('mask21', 21, TIME + ' 13FFFFFF80000001', NONE, NONE, 2, 0, 'ok EVT21 2079 2048 2 : 79,2047,2047,1 79,2078,2047,1 | 0 :'),
    ('mask21', 21, TIME + ' 193F000780000001', (2048, 2048), NONE, 2, 0, 'ok EVT21 2048 2048 2 : 100,2016,7,1 100,2047,7,1 | 0 :'),
    ('full21', 21, TIME + ' 19010007FFFFFFFF', NONE, NONE, 32, 0,
     'ok EVT21 64 8 32 : ' + ' '.join(f'100,{x},7,1' for x in range(32, 64)) + ' | 0 :'),
    ('full21', 21, TIME + ' 19010007FFFFFFFF', NONE, NONE, 31, 0, 'refused 5 32'),
    ('full21', 21, TIME + ' 19010007FFFFFFFF', NONE, NONE, (32, 32, 31, 32), 0, 'refused 5 32'),
    # an empty mask gives no event, and neither a size
    ('empty21', 21, TIME + ' 1900280700000000', (64, 48), NONE, 0, 0, 'ok EVT21 64 48 0 : | 0 :'),
    ('empty21', 21, TIME + ' 1900280700000000', NONE, NONE, 0, 0, 'refused 1'),
    ('empty21', 21, TIME + ' 1900280700000000 A9001F0100000000 0900280700000000 0000000100000001', NONE, NONE, 1, 1,
     'ok EVT21 1 2 1 : 64,0,1,0 | 1 : 100,31,1'),
    # the sensor's edge within a mask: column 50 and bits 0, 13, 14, 31
    ('edge21', 21, TIME + ' 1901900780006001', (64, 48), NONE, 2, 0, 'ok EVT21 64 48 2 : 100,50,7,1 100,63,7,1 | 0 :'),
    ('edge21', 21, TIME + ' 1901900780006001', (65, 48), NONE, 3, 0, 'ok EVT21 65 48 3 : 100,50,7,1 100,63,7,1 100,64,7,1 | 0 :'),
    ('edge21', 21, TIME + ' 1901900780006001', (50, 48), NONE, 0, 0, 'ok EVT21 50 48 0 : | 0 :'),
    ('edge21', 21, TIME + ' 1901900780006001', (51, 8), NONE, 1, 0, 'ok EVT21 51 8 1 : 100,50,7,1 | 0 :'),
    ('edge21', 21, TIME + ' 1901900780006001', (64, 7), NONE, 0, 0, 'ok EVT21 64 7 0 : | 0 :'),
    ('edge21', 21, TIME + ' 13FFFFFF80000001', (2078, 2048), NONE, 1, 0, 'ok EVT21 2078 2048 1 : 79,2047,2047,1 | 0 :'),
    ('edge21', NAMED + '% geometry 64x48\n', TIME + ' 1901900780006001', NONE, NONE, 1, 0, 'refused 5 2'),
    # a limit within a mask, counted over what the sensor keeps, and the triggers before that word
    ('within21', 21, TIME + ' A000010100000000 1900280700000007 A000020100000000', NONE, 1, 1, 1, 'ok EVT21 6 8 1 : 100,5,7,1 | 1 : 64,1,1'),
    ('within21', 21, TIME + ' A000010100000000 1900280700000007 A000020100000000', NONE, 3, 3, 1,
     'ok EVT21 8 8 3 : 100,5,7,1 100,6,7,1 100,7,7,1 | 1 : 64,1,1'),
    ('within21', 21, TIME + ' A000010100000000 1900280700000007 A000020100000000', NONE, 4, 3, 2,
     'ok EVT21 8 8 3 : 100,5,7,1 100,6,7,1 100,7,7,1 | 2 : 64,1,1 64,2,1'),
    ('within21', 21, TIME + ' 1900280700000007 A000020100000000 1900280700000001', (6, 48), 2, 2, 1,
     'ok EVT21 6 48 2 : 100,5,7,1 100,5,7,1 | 1 : 64,2,1'),
    ('within21', 21, TIME + ' 1900280700000007', (64, 48), 0, 0, 0, 'ok EVT21 64 48 0 : | 0 :'),
    # triggers: time 59..54, id 44..40, value bit 32, and no other bit; the time of the decoder is left alone
    ('trigger21', 21, TIME + ' AFC01F0100000000 A000000000000000', (64, 48), NONE, 0, 2, 'ok EVT21 64 48 0 : | 2 : 127,31,1 64,0,0'),
    ('trigger21', 21, TIME + ' A03FE0FEFFFFFFFF AFFFFFFFFFFFFFFF A000200100000000', (64, 48), NONE, 0, 3,
     'ok EVT21 64 48 0 : | 3 : 64,0,0 127,31,1 64,0,1'),
    ('trigger21', 21, TIME + ' A0001001FFFFFFFE A0000F00FFFFFFFF', (64, 48), NONE, 0, 2, 'ok EVT21 64 48 0 : | 2 : 64,16,1 64,15,0'),
    ('trigger21', 21, 'A9001F0100000000 1900280700000001 ' + TIME + ' A000020000000000 1900280700000001', NONE, NONE, 1, 1,
     'ok EVT21 6 8 1 : 100,5,7,1 | 1 : 64,2,0'),
    # types that do nothing, and the low half of a time word
    ('other21', 21, TIME + ''.join(f' {kind}900280700000001' for kind in '2345679BCDEF'), (64, 48), NONE, 0, 0, 'ok EVT21 64 48 0 : | 0 :'),
    ('other21', 21, '80000001FFFFFFFF E900280700000001 F900280700000001 1900280700000001', NONE, NONE, 1, 0, 'ok EVT21 6 8 1 : 100,5,7,1 | 0 :'),
    # loops: the threshold, one unit beside it
    ('loop21', 21, '8FFFFFFF00000000 80FFFFFF00000000 1000000000000001', NONE, NONE, 1, 0, 'ok EVT21 1 1 1 : 18253610944,0,0,1 | 0 :'),
    ('loop21', 21, '8FFFFFFF00000000 8100000000000000 1000000000000001', NONE, NONE, 1, 0, 'ok EVT21 1 1 1 : 1073741824,0,0,1 | 0 :'),
    ('loop21', 21, '8FFFFFFF00000000 1FC0000000000001 8000000000000000 0000000000000001', NONE, NONE, 2, 0,
     'ok EVT21 1 1 2 : 17179869183,0,0,1 17179869184,0,0,0 | 0 :'),
    # broken last words, at every byte; the first word's low byte is `%`
    *[('cut21', 21, TIME + ' 1900280700000001 ' + '0100000007280019'[:2 * n], NONE, NONE, 1, 0, 'ok EVT21 6 8 1 : 100,5,7,1 | 0 :') for n in range(1, 8)],
    ('percent', 21, '8000000100000025 1900280700000001', NONE, NONE, 1, 0, 'ok EVT21 6 8 1 : 100,5,7,1 | 0 :'),
    ('end21', '% evt 2.1\n% end\n', '8000000100000025 1900280700000001', NONE, NONE, 1, 0, 'ok EVT21 6 8 1 : 100,5,7,1 | 0 :'),
    ('end21', '% format EVT2\n% end\n% evt 2.1\n', TIME, (64, 48), NONE, 9, 9, 'ok EVT2 64 48 0 : | 0 :'),
    # the numbers beside 21
    ('two', 20, ONE, (64, 48), NONE, 1, 1, 'refused 2'),
    ('two', 22, ONE, (64, 48), NONE, 1, 1, 'refused 2'),
    ('two', 2**32 - 21, ONE, (64, 48), NONE, 1, 1, 'refused 2'),
]

# Header lines, and the encoding that they name. A body follows: as EVT2.1 it has one event, as EVT2 two, as EVT3 one.
NAMES = [
    ('% format EVT21\n', 21), ('% evt 2.1\n', 21), ('% format EVT2.1\n', 2), ('% evt 21\n', 2), ('% evt 2.10\n', 21), ('% evt 2.1.0\n', 21),
    ('% format EVT2\n% evt 2.1\n', 21), ('% evt 2.1\n% format EVT2\n', 21), ('% format EVT21\n% evt 2\n', 21), ('% evt 2.0\n% format EVT21\n', 21),
    ('% format EVT2.1\n% evt 21\n', 2), ('% format EVT2.1\n% evt 2.1\n', 21),
    ('% format EVT21\n% evt 3\n', 3), ('% evt 2.1\n% format EVT3\n', 3), ('% format EVT3\n% evt 2.1\n', 3), ('% evt 3.0\n% format EVT21\n', 3),
    ('% format EVT21\n% format EVT2\n', 2), ('% format EVT2\n% format EVT21\n', 21), ('% format EVT3\n% format EVT21\n', 21),
    ('% evt 2.1\n% evt 2\n', 2), ('% evt 2\n% evt 2.1\n', 21), ('% evt 3\n% evt 2.1\n', 21), ('% evt 2.1\n% evt 3\n', 3),
    ('% format EVT21\n% format none\n', NONE), ('% format none\n% evt 2.1\n', 21), ('% evt none\n% format EVT21\n', 21), ('% evt 2.1\n% evt\n', NONE),
    ('% FORMAT evt21\r\n', 21), ('% Format eVt21 \t\n', 21), ('%EVT 2.1\n', 21), ('%%\tevt\v2.1 beta\n', 21), ('% format EVT210\n', 21),
    ('% format EVT21;height=720;width=1280\n', 21), ('% format evt21evt3\n', 21), ('% format EVT213\n', 21), ('% evt 2.13\n', 21),
    ('% format EVT 21\n', NONE), ('% format xEVT21\n', NONE), ('% format "EVT21"\n', NONE), ('% format 2.1\n', NONE), ('% format 21\n', NONE),
    ('% evt EVT21\n', NONE), ('% evt +2.1\n', NONE), ('% evt 02.1\n', NONE), ('% evt .21\n', NONE), ('% formats EVT21\n', NONE), ('% evt2.1\n', NONE),
    ('% evt 2,1\n', 2), ('% evt 2 .1\n', 2), ('% evt 2.\n', 2), ('% evt 2.01\n', 2), ('% format EVT2 1\n', 2), ('% format EVT2-1\n', 2),
    ('% date EVT21 2.1\n', NONE),
]

# Decoders by their numbers: coarse time, time, loops, encoding, row, base column, started, polarity. Name, decoder, words, trigger, decoder after.
FRESH, AT = (0, 0, 0, 21, 0, 0, 0, 0), (64, 100, 0, 21, 0, 0, 1, 0)
WORDS = [
    ('word21', AT, '1B00000700000000', '-', (64, 108, 0, 21, 0, 0, 1, 0)),  # an empty mask sets the time
    ('word21', AT, '0000000000000000', '-', (64, 64, 0, 21, 0, 0, 1, 0)),
    ('word21', AT, '1FFFFFFFFFFFFFFF', '-', (64, 127, 0, 21, 0, 0, 1, 0)),
    ('word21', FRESH, '1B00000700000000', '-', FRESH),
    ('word21', FRESH, '1B00000700000001', '-', FRESH),
    ('word21', FRESH, '80000001FFFFFFFF', '-', (64, 64, 0, 21, 0, 0, 1, 0)),
    ('word21', AT, 'AFC01F01FFFFFFFF', '127,31,1', AT),
    *[('word21', AT, f'{kind}B00000700000001', '-', AT) for kind in '2345679BCDEF'],
    ('word21', (64, 100, 0, 21, 0, 1, 1, 0), TIME, 'refused 10', NONE),
    ('word21', (64, 100, 0, 21, 0, 0, 1, 1), TIME, 'refused 10', NONE),
    ('word21', (64, 100, 0, 20, 0, 0, 1, 0), TIME, 'refused 10', NONE),
]

# Name, decoder, words, decoder after all of them.
AFTERS = [
    ('after21', FRESH, TIME + ' 1B00000700000000', (64, 108, 0, 21, 0, 0, 1, 0)),
    ('after21', FRESH, '1B00000700000000 ' + TIME, (64, 64, 0, 21, 0, 0, 1, 0)),
    ('after21', FRESH, TIME + ' 1B00000700000000 A9001F0100000000 E000000000000000', (64, 108, 0, 21, 0, 0, 1, 0)),
    ('after21', AT, '8000000200000000 0000000000000000 1040000000000000', (128, 129, 0, 21, 0, 0, 1, 0)),
    ('after21', (17179869120, 17179869183, 0, 21, 0, 0, 1, 0), '80FFFFFF00000000 1040000000000000', (18253610944, 18253610945, 1, 21, 0, 0, 1, 0)),
]

# Openings, and a slice: head or number, words, size, spacing, records lent, ends (`n:I0:I1` or `t:T0:T1`), columns, answer. The words have events at
# 100, 100, an empty mask at 108, and an event at 101; the answers are docs/VECTORS.md's for `open` and `slice`.
FOUR = TIME + ' 1900280700000003 1B00000700000000 1940280700000001'
EIGHT = ('ok 21:8,0,32,64,48,3 4 : 0/0/0/21:0,0,0,0 8/0/0/21:1,64,64,0 16/2/100/21:1,64,100,0 24/2/100/21:1,64,108,0 | ')
SIXTEEN = 'ok 21:16,0,32,64,48,3 2 : 0/0/0/21:0,0,0,0 16/2/100/21:1,64,100,0 | '
ALL, TWO = 'ok 3 : 100,5,7,1 100,6,7,1 101,5,7,1', 'ok 2 : 100,5,7,1 100,6,7,1'
OPENINGS = [
    (21, FOUR, (64, 48), 8, 4, 'n:0:3', 3, EIGHT + ALL), (21, FOUR, (64, 48), 8, 9, 'n:0:99', 9, EIGHT + ALL),
    (21, FOUR, (64, 48), 8, 4, 'n:1:3', 2, EIGHT + 'ok 2 : 100,6,7,1 101,5,7,1'), (21, FOUR, (64, 48), 8, 4, 'n:1:2', 1, EIGHT + 'ok 1 : 100,6,7,1'),
    (21, FOUR, (64, 48), 8, 4, 'n:2:3', 1, EIGHT + 'ok 1 : 101,5,7,1'), (21, FOUR, (64, 48), 8, 4, 'n:0:3', 2, EIGHT + 'refused 5 3'),
    # the empty mask brings the time to 108 and ends a slice up to 105, unless it starts behind it
    (21, FOUR, (64, 48), 8, 4, 't:0:105', 2, EIGHT + TWO), (21, FOUR, (64, 48), 16, 2, 't:0:105', 2, SIXTEEN + TWO),
    (21, FOUR, (64, 48), 8, 4, 't:101:105', 1, EIGHT + 'ok 1 : 101,5,7,1'), (21, FOUR, (64, 48), 16, 2, 't:101:105', 1, SIXTEEN + 'ok 0 :'),
    (21, FOUR, (64, 48), 16, 2, 't:101:109', 1, SIXTEEN + 'ok 1 : 101,5,7,1'), (21, FOUR, (64, 48), 8, 4, 't:0:109', 3, EIGHT + ALL),
    (21, FOUR, (64, 48), 8, 4, 't:0:108', 2, EIGHT + TWO), (21, FOUR, (64, 48), 8, 4, 't:100:101', 2, EIGHT + TWO),
    # the sensor's edge: of the first word one event is kept
    (21, FOUR, (6, 48), 16, 2, 'n:0:9', 2, 'ok 21:16,0,32,6,48,2 2 : 0/0/0/21:0,0,0,0 16/1/100/21:1,64,100,0 | ok 2 : 100,5,7,1 101,5,7,1'),
    (21, FOUR, NONE, 4194304, 1, 'n:0:3', 3, 'ok 21:4194304,0,32,7,8,3 1 : 0/0/0/21:0,0,0,0 | ' + ALL),
    # spacings: known after the header, and before records are counted
    *[(21, FOUR, (64, 48), spacing, 9, 'n:0:3', 3, 'refused 8') for spacing in (0, 1, 4, 6, 12, 20, 4194300, 4194308, 4194312, 2**64 - 8, 2**64 - 4)],
    (NAMED, FOUR, (64, 48), 4, 9, 'n:0:3', 3, 'refused 8'), (NAMED, FOUR, (64, 48), 12, 9, 'n:0:3', 3, 'refused 8'),
    ('% evt 2.1\n', FOUR, (64, 48), 4, 0, 'n:0:3', 3, 'refused 8'), ('% format EVT2\n% evt 2.1\n', FOUR, (64, 48), 4, 9, 'n:0:3', 3, 'refused 8'),
    ('% evt 21\n', '', (64, 48), 4, 1, 'n:0:3', 3, 'ok 2:4,9,9,64,48,0 1 : 9/0/0/2:0,0,0,0 | ok 0 :'),
    ('% format EVT2.1\n', '', (64, 48), 12, 1, 'n:0:3', 3, 'ok 2:12,16,16,64,48,0 1 : 16/0/0/2:0,0,0,0 | ok 0 :'),
    ('% format EVT21\n% evt 3\n', '', (64, 48), 4, 1, 'n:0:3', 3, 'ok 3:4,23,23,64,48,0 1 : 23/0/0/3:0,0,0,0,0,0,0 | ok 0 :'),
    (NAMED + '% end\n', '', (64, 48), 8, 1, 't:0:9', 0, 'ok 21:8,21,21,64,48,0 1 : 21/0/0/21:0,0,0,0 | ok 0 :'),
    ('% \x80\n' + NAMED, FOUR, (64, 48), 4, 0, 'n:0:3', 3, 'refused 3'), ('% evt 4\n', FOUR, (64, 48), 4, 0, 'n:0:3', 3, 'refused 2'),
    (20, FOUR, (64, 48), 4, 0, 'n:0:3', 3, 'refused 2'), (21, FOUR, (0, 48), 4, 0, 'n:0:3', 3, 'refused 1'),
    (NAMED + '% geometry 0x48\n', FOUR, NONE, 4, 0, 'n:0:3', 3, 'refused 1'), (21, TIME, NONE, 4, 0, 'n:0:3', 3, 'refused 8'),
    (21, FOUR, (64, 48), 8, 3, 'n:0:3', 3, 'refused 9 4'), (21, TIME, NONE, 8, 0, 'n:0:3', 3, 'refused 9 1'), (21, TIME, NONE, 8, 1, 'n:0:3', 3, 'refused 1'),
]

# Slices of an index that is given: source, records (docs/VECTORS.md), words, ends, columns, answer.
FRESH_RECORD, SECOND = '0/0/0/21:0,0,0,0', '8/0/0/21:1,64,64,0'
GIVEN = [
    ('21:8,0,32,64,48,3', f'{FRESH_RECORD}+{SECOND}', FOUR, 'n:0:3', 3, ALL),
    ('21:4,0,32,64,48,3', '0/0/0/21:0,0,0,0+4/0/0/21:0,0,0,0', FOUR, 'n:0:3', 3, 'refused 8'),
    ('21:12,0,32,64,48,3', FRESH_RECORD, FOUR, 't:0:9', 3, 'refused 8'), ('21:4,0,32,64,48,3', '-', FOUR, 't:0:9', 3, 'refused 8'),
    ('21:4,0,32,0,48,3', FRESH_RECORD, FOUR, 'n:0:3', 3, 'refused 1'), ('7:4,0,32,64,48,3', FRESH_RECORD, FOUR, 'n:0:3', 3, 'refused 10'),
    ('7:6,0,32,64,48,3', FRESH_RECORD, FOUR, 'n:0:3', 3, 'refused 8'), ('21:8,0,32,64,48,3', '-', FOUR, 'n:0:3', 3, 'refused 10'),
    # a record of another encoding: EVT3's coarse time is no multiple of 64 too many, its row and base column are no decoder's here
    ('21:8,0,32,64,48,3', f'{FRESH_RECORD}+8/0/0/3:1,4096,4101,7,0,0,0', FOUR, 'n:0:3', 3, 'refused 10'),
    ('21:8,0,32,64,48,3', f'{FRESH_RECORD}+8/0/0/3:1,4096,4101,0,7,0,0', FOUR, 'n:0:3', 3, 'refused 10'),
    ('21:8,0,32,64,48,3', f'{FRESH_RECORD}+8/0/0/3:1,4096,4101,0,0,1,0', FOUR, 't:0:9', 3, 'refused 10'),
    ('21:8,0,32,64,48,3', f'{FRESH_RECORD}+8/0/0/3:1,4096,8191,0,0,0,0', FOUR, 'n:0:3', 3, 'refused 10'),
    ('3:8,0,32,64,48,3', f'{FRESH_RECORD}+{SECOND}', FOUR, 'n:0:3', 3, 'refused 10'),
    # the range of a decoder
    ('21:8,0,32,64,48,3', '0/0/0/21:0,0,1,0', FOUR, 'n:0:3', 3, 'refused 10'), ('21:8,0,32,64,48,3', '0/0/0/21:1,32,32,0', FOUR, 'n:0:3', 3, 'refused 10'),
    ('21:8,0,32,64,48,3', '0/0/0/21:1,64,128,0', FOUR, 'n:0:3', 3, 'refused 10'),
    ('21:8,0,32,64,48,3', f'0/0/0/21:1,{2**61 + 2**34},{2**61 + 2**34},{2**27 + 1}', FOUR, 'n:0:3', 3, 'refused 10'),
    ('21:8,24,32,64,48,3', f'24/2/0/21:1,{2**61},{2**61 + 63},{2**27}', FOUR, 'n:2:3', 1, f'ok 1 : {2**61 + 37},5,7,1'),
    ('21:8,0,32,64,48,3', '0/0/0/21:1,0,63,0', '1900280700000003', 't:36:37', 2, 'ok 2 : 36,5,7,1 36,6,7,1'),
]

# Appends: writer, size, events as t,x,y,p, bytes of the output, answer: the words, or the header's lines and the words, and the writer.
NEW, SENT = '21:1,0,-,-,-,-', '21:1,1,100,1,-,-'
HEAD = '% format EVT21\n% geometry 64x48\n% generator eventcv\n% end\n'


def row(*columns, t=100, y=7, p=1):
    return ' '.join(f'{t},{x},{y},{p}' for x in columns)


APPENDS = [
    (NEW, row(5), 16, f'{TIME} 1900000700000020 {SENT}'), (NEW, row(5), 15, f'refused 11 16 {NEW}'), (NEW, row(5), 17, f'{TIME} 1900000700000020 {SENT}'),
    (NEW, row(0, 5, 31), 16, TIME + ' 1900000780000021 21:1,3,100,1,-,-'), (NEW, row(*range(32)), 16, TIME + ' 19000007FFFFFFFF 21:1,32,100,1,-,-'),
    # a border of a block of 32 columns, with neighbours on both sides
    (NEW, row(30, 31, 32, 33), 24, TIME + ' 19000007C0000000 1901000700000003 21:1,4,100,1,-,-'),
    (NEW, row(31, 32), 24, TIME + ' 1900000780000000 1901000700000001 21:1,2,100,1,-,-'),
    (NEW, row(*range(64)), 24, TIME + ' 19000007FFFFFFFF 19010007FFFFFFFF 21:1,64,100,1,-,-'),
    (NEW, row(63, 64, 2015, 2016, 2047), 40,
     TIME + ' 1901000780000000 1902000700000001 193E000780000000 193F000780000001 21:1,5,100,1,-,-'),
    # a repeat and a column that falls start a new word; the same block again too
    (NEW, row(5, 5), 24, TIME + ' 1900000700000020 1900000700000020 21:1,2,100,1,-,-'),
    (NEW, row(6, 5), 24, TIME + ' 1900000700000040 1900000700000020 21:1,2,100,1,-,-'),
    (NEW, row(5, 6, 6, 7), 24, TIME + ' 1900000700000060 19000007000000C0 21:1,4,100,1,-,-'),
    (NEW, row(5, 40, 6), 32, TIME + ' 1900000700000020 1901000700000100 1900000700000040 21:1,3,100,1,-,-'),
    # so do another row, polarity or time; the coarse half alone brings a time word
    (NEW, row(5) + ' ' + row(6, y=8), 24, TIME + ' 1900000700000020 1900000800000040 21:1,2,100,1,-,-'),
    (NEW, row(5) + ' ' + row(6, p=0), 24, TIME + ' 1900000700000020 0900000700000040 21:1,2,100,1,-,-'),
    (NEW, row(5) + ' ' + row(6, t=101), 24, TIME + ' 1900000700000020 1940000700000040 21:1,2,101,1,-,-'),
    (NEW, row(5) + ' ' + row(6, t=127), 24, TIME + ' 1900000700000020 1FC0000700000040 21:1,2,127,1,-,-'),
    (NEW, row(5) + ' ' + row(6, t=128), 32, TIME + ' 1900000700000020 8000000200000000 1000000700000040 21:1,2,128,2,-,-'),
    # what was sent before
    (SENT, row(6), 8, '1900000700000040 21:1,2,100,1,-,-'), (SENT, row(6), 7, f'refused 11 8 {SENT}'), (SENT, row(6, t=99), 99, f'refused 6 {SENT}'),
    ('21:1,1,100,-,-,-', row(6), 16, TIME + ' 1900000700000040 21:1,2,100,1,-,-'), (SENT, '', 0, SENT), ('21:0,0,-,-,-,-', '', 0, '21:0,0,-,-,-,-'),
    ('21:0,0,-,-,-,-', row(5), len(HEAD) + 16, f'{HEAD}{TIME} 1900000700000020 {SENT}'),
    ('21:0,0,-,-,-,-', row(5), len(HEAD) + 15, f'refused 11 {len(HEAD) + 16} 21:0,0,-,-,-,-'),
    # 7's bounds, EVT2's
    (NEW, row(0, t=0, y=0, p=0), 16, '8000000000000000 0000000000000001 21:1,1,0,0,-,-'),
    (NEW, row(2047, t=2**34 - 1, y=2047), 16, '8FFFFFFF00000000 1FFF07FF80000000 21:1,1,17179869183,268435455,-,-'),
    (NEW, row(5, t=2**34), 16, f'refused 7 {NEW}'), (NEW, row(5, t=-1), 16, f'refused 7 {NEW}'), (NEW, row(2048), 16, f'refused 7 {NEW}'),
    (NEW, row(5, y=2048), 16, f'refused 7 {NEW}'), (NEW, row(5, p=2), 16, f'refused 7 {NEW}'), (NEW, row(5, t=9) + ' ' + row(2048, t=8), 0, f'refused 6 {NEW}'),
    # 10: a low half or a row, a half of another time, a half past the bound without a time, a time past the bound, an unknown encoding
    *[(sink, row(5, t=2**34 - 1), 0, f'refused 10 {sink}') for sink in (
        '21:1,1,100,1,36,-', '21:1,1,100,1,-,7', '21:1,1,100,0,-,-', '21:1,1,100,2,-,-', f'21:1,0,-,{2**28},-,-', '21:1,1,-,-,-,-', f'21:1,1,{2**34},-,-,-',
        f'21:1,{2**62 + 1},100,1,-,-', '20:1,0,-,-,-,-', '22:1,0,-,-,-,-')],
    (f'21:1,{2**62},100,1,-,-', row(6), 8, f'1900000700000040 21:1,{2**62 + 1},100,1,-,-'),
]
