#!/usr/bin/env python3
"""Small cases of readings with triggers and of single words, with their answers. Run alone it holds the model to them.

The answers were written by hand from the rules and not by the model. `ok ENCODING WIDTH HEIGHT COUNT : events | COUNT : triggers` with an
event as t,x,y,p and a trigger as t,id,value, or `refused NUMBER`, and behind a 5 or a 13 the count that it tells. Readings stand in three
lists: LISTED, one by one, and asked as words and behind a header; MEETINGS, what is refused, alone and two at a time; LENGTHS, columns of
each length. cases21.py has those of EVT 2.1 alone, with header names, indexes and writers; and every case of EVT2 is asked of EVT 2.1 too, where
its words are the high halves. cases_long.py has writers past sixteen seconds, and those that resume; cases_number.py has numbers.
"""
from collections import Counter, namedtuple

import answers
import calls
import cases21
import cases_long
import cases_number
import header
import words
from refusal import Refused

NONE = None
HEADS = {encoding: f'% format EVT{encoding}\n' for encoding in (2, 3, 21)}
EVT3, EVT2 = HEADS[3], HEADS[2]
SIZED3, SIZED2 = EVT3 + '% geometry 64x48\n', EVT2 + '% geometry 64x48\n'
ONE3, ONE2 = '8001 6001 0007 2805 A301', '80000001 19002807 A9001F01'
TWO3 = '8001 0007 2805 A301 6002 A200'
LIMITED3, LIMITED2 = '8001 A100 2805 A201 2806 A300', '80000001 A0000101 19002807 A0000201 1900300A A0000301'
TWICE3 = '8001 300A 4003 A201 4003 A301'

# `head` is the text of a header, or the number of an encoding for words without one. `body`: words, as numbers; one with fewer digits than a
# word is a broken last word, its bytes as they stand. `rooms` and `trigger_rooms`: the length of all columns, or one for each.
Case = namedtuple('Case', 'name head body size limit rooms trigger_rooms answer zeros', defaults=(0,))

LISTED = [
    # 13: none, one short, exact, one more, each column as the shortest
    Case('one3', 3, ONE3, NONE, NONE, 1, 1, 'ok EVT3 6 8 1 : 4097,5,7,1 | 1 : 4097,3,1'),
    Case('one2', 2, ONE2, NONE, NONE, 1, 1, 'ok EVT2 6 8 1 : 100,5,7,1 | 1 : 100,31,1'),
    Case('room3', 3, ONE3, NONE, NONE, 1, 0, 'refused 13 1'),
    Case('room2', 2, ONE2, NONE, NONE, 1, 0, 'refused 13 1'),
    Case('room3', 3, TWO3, NONE, NONE, 1, 1, 'refused 13 2'),
    Case('room3', 3, TWO3, NONE, NONE, 1, 2, 'ok EVT3 6 8 1 : 4096,5,7,1 | 2 : 4096,3,1 4098,2,0'),
    Case('room3', 3, TWO3, NONE, NONE, 1, 3, 'ok EVT3 6 8 1 : 4096,5,7,1 | 2 : 4096,3,1 4098,2,0'),
    Case('room3', 3, TWO3, NONE, NONE, 4, (1, 2, 3), 'refused 13 2'),
    Case('room3', 3, TWO3, NONE, NONE, 4, (3, 1, 2), 'refused 13 2'),
    Case('room3', 3, TWO3, NONE, NONE, 4, (2, 3, 1), 'refused 13 2'),
    Case('room3', 3, TWO3, NONE, NONE, (1, 2, 3, 4), (4, 3, 2), 'ok EVT3 6 8 1 : 4096,5,7,1 | 2 : 4096,3,1 4098,2,0'),
    Case('none3', 3, '8001 6001 0007 2805', NONE, NONE, 1, 0, 'ok EVT3 6 8 1 : 4097,5,7,1 | 0 :'),
    Case('none2', 2, '80000001 19002807', NONE, NONE, 1, 0, 'ok EVT2 6 8 1 : 100,5,7,1 | 0 :'),
    Case('header3', SIZED3, ONE3, NONE, NONE, 1, 1, 'ok EVT3 64 48 1 : 4097,5,7,1 | 1 : 4097,3,1'),
    Case('header2', SIZED2, ONE2, (5, 8), NONE, 0, 1, 'ok EVT2 5 8 0 : | 1 : 100,31,1'),
    # meetings with 13
    Case('meet5', 3, ONE3, NONE, NONE, 0, 0, 'refused 5 1'),
    Case('meet5', 3, ONE3, NONE, NONE, 0, 1, 'refused 5 1'),
    Case('meet5', 2, ONE2, NONE, NONE, (1, 1, 0, 1), 0, 'refused 5 1'),
    Case('meet5', SIZED3, TWO3, NONE, NONE, 1, (2, 2, 0), 'refused 13 2'),
    Case('meet5', 3, '8001 300A 400B A301', NONE, 2, 1, 0, 'refused 5 2'),
    Case('meet1', 3, '8001 A301', NONE, NONE, 1, 0, 'refused 1'),
    Case('meet1', EVT2, '80000001 A0000101', NONE, NONE, 0, 0, 'refused 1'),
    Case('meet1', 3, ONE3, (0, 5), NONE, 1, 0, 'refused 1'),
    Case('meet1', 2, ONE2, (5, 0), NONE, 0, 0, 'refused 1'),
    Case('meet1', EVT3 + '% geometry 0x5\n', ONE3, NONE, NONE, 1, 0, 'refused 1'),
    Case('meet2', '% format EVT4\n', ONE3, NONE, NONE, 1, 0, 'refused 2'),
    Case('meet2', 7, ONE3, (0, 5), NONE, 0, 0, 'refused 2'),
    Case('meet3', '% format EVT3 \x80\n', ONE3, NONE, NONE, 1, 0, 'refused 3'),
    Case('meet3', '% format EVT4 \x80\n', ONE3, (0, 5), NONE, 0, 0, 'refused 3'),
    Case('meet4', '% format EVT3 \x80\n', ONE3, (0, 5), NONE, 0, 0, 'refused 4', 2**30),
    Case('meet4', 7, ONE3, (0, 5), NONE, 0, 0, 'refused 4', 2**30),
    # 2 and 1 in their other forms
    Case('two', '', '', NONE, NONE, 0, 0, 'refused 2'),
    Case('two', '%', '', (64, 48), NONE, 0, 0, 'refused 2'),
    Case('two', '% evt 4\n', ONE3, (64, 48), NONE, 1, 1, 'refused 2'),
    Case('two', 0, ONE3, (64, 48), NONE, 1, 1, 'refused 2'),
    Case('two', 4, ONE3, (64, 48), NONE, 1, 1, 'refused 2'),
    Case('two', 2**32 - 1, ONE2, (64, 48), NONE, 1, 1, 'refused 2'),
    Case('zero', 3, ONE3, (64, 0), NONE, 1, 1, 'refused 1'),
    Case('zero', 2, ONE2, (0, 0), NONE, 1, 1, 'refused 1'),
    Case('zero', EVT3 + '% geometry 64x0\n', ONE3, NONE, NONE, 1, 1, 'refused 1'),
    Case('zero', SIZED2, ONE2, (64, 0), NONE, 1, 1, 'refused 1'),
    Case('zero', EVT3 + '% geometry 64x0\n', ONE3, (64, 48), NONE, 1, 1, 'ok EVT3 64 48 1 : 4097,5,7,1 | 1 : 4097,3,1'),
    Case('nothing', 3, '', NONE, NONE, 0, 0, 'refused 1'),
    Case('nothing', 3, '', (64, 48), NONE, 0, 0, 'ok EVT3 64 48 0 : | 0 :'),
    Case('nothing', 2, '', (64, 48), 0, 0, 0, 'ok EVT2 64 48 0 : | 0 :'),
    # triggers alone
    Case('alone3', 3, '8001 A301 A300', (64, 48), NONE, 0, 2, 'ok EVT3 64 48 0 : | 2 : 4096,3,1 4096,3,0'),
    Case('alone3', 3, '8001 A301 A300', NONE, NONE, 0, 2, 'refused 1'),
    Case('alone3', 3, '8001 A301 A300', (64, 48), NONE, 0, 1, 'refused 13 2'),
    Case('alone3', 3, '8001 A301 A300', (64, 48), 1, 0, 2, 'ok EVT3 64 48 0 : | 2 : 4096,3,1 4096,3,0'),
    Case('alone3', 3, '8001 A301 A300', NONE, 1, 0, 2, 'refused 1'),
    Case('alone3', SIZED3, '8001 A301', NONE, NONE, 0, 1, 'ok EVT3 64 48 0 : | 1 : 4096,3,1'),
    Case('alone2', SIZED2, '80000002 A0000101', NONE, NONE, 0, 1, 'ok EVT2 64 48 0 : | 1 : 128,1,1'),
    Case('alone2', EVT2, '80000002 A0000101', NONE, NONE, 1, 1, 'refused 1'),
    Case('alone2', 2, '80000002 A0000101', NONE, NONE, 0, 1, 'refused 1'),
    Case('alone2', 2, '80000002 A0000101', (64, 48), NONE, 0, 1, 'ok EVT2 64 48 0 : | 1 : 128,1,1'),
    Case('alone2', 2, '80000002 A0000101', (64, 48), NONE, 0, 0, 'refused 13 1'),
    Case('alone2', 2, '80000002 A0000101', (64, 48), 1, 0, 1, 'ok EVT2 64 48 0 : | 1 : 128,1,1'),
    # before the first type 8
    Case('early3', 3, 'A301 6005 A301 8001 A200 2805', (64, 48), NONE, 1, 1, 'ok EVT3 64 48 1 : 4096,5,0,1 | 1 : 4096,2,0'),
    Case('early2', 2, 'A0000101 19002807 80000001 A0000200 19002807', NONE, NONE, 1, 1, 'ok EVT2 6 8 1 : 100,5,7,1 | 1 : 64,2,0'),
    Case('early3', 3, 'A301 6005 A301', (64, 48), NONE, 0, 0, 'ok EVT3 64 48 0 : | 0 :'),
    Case('early3', 3, 'A301 2805 A301 8001 2806', NONE, NONE, 1, 0, 'ok EVT3 7 1 1 : 4096,6,0,1 | 0 :'),
    Case('early2', 2, 'A0000101 19002807 A0000101', (64, 48), NONE, 0, 0, 'ok EVT2 64 48 0 : | 0 :'),
    Case('early2', 2, 'A0000101 80000001 19002807', NONE, NONE, 1, 0, 'ok EVT2 6 8 1 : 100,5,7,1 | 0 :'),
    Case('early2', 2, 'A0000101 80000001 19002807', NONE, 1, 1, 0, 'ok EVT2 6 8 1 : 100,5,7,1 | 0 :'),
    # limits
    Case('limit0', 3, '8001 A301 2805 A200', (64, 48), 0, 0, 0, 'ok EVT3 64 48 0 : | 0 :'),
    Case('limit0', 2, ONE2, (64, 48), 0, 0, 0, 'ok EVT2 64 48 0 : | 0 :'),
    Case('limit0', 3, '8001 A301', (64, 48), 0, 0, 0, 'ok EVT3 64 48 0 : | 0 :'),
    Case('limit0', 3, '8001 A301 2805', NONE, 0, 0, 0, 'refused 1'),
    Case('limit', 3, '8001 A301 2805 A200', NONE, 1, 1, 1, 'ok EVT3 6 1 1 : 4096,5,0,1 | 1 : 4096,3,1'),
    Case('limit', 3, '8001 2805 A301 2806 A200', NONE, 2, 2, 1, 'ok EVT3 7 1 2 : 4096,5,0,1 4096,6,0,1 | 1 : 4096,3,1'),
    Case('limit', 3, '8001 2805 A301 2806 A200', NONE, 3, 2, 2, 'ok EVT3 7 1 2 : 4096,5,0,1 4096,6,0,1 | 2 : 4096,3,1 4096,2,0'),
    Case('limit', 2, '80000001 A0000101 19002807 A0000201 19002807', NONE, 1, 1, 1, 'ok EVT2 6 8 1 : 100,5,7,1 | 1 : 64,1,1'),
    Case('limit', 3, '8001 A301 A300 2805 A301', NONE, 1, 1, 1, 'refused 13 2'),
    # 0, at each event, more than there are, with a trigger before, between and behind the events; 13 with the limit applied
    Case('limit3', 3, LIMITED3, (64, 48), 0, 0, 0, 'ok EVT3 64 48 0 : | 0 :'),
    Case('limit3', 3, LIMITED3, NONE, 0, 2, 3, 'refused 1'),
    Case('limit3', 3, LIMITED3, NONE, 1, 1, 1, 'ok EVT3 6 1 1 : 4096,5,0,1 | 1 : 4096,1,0'),
    Case('limit3', 3, LIMITED3, NONE, 1, 1, 0, 'refused 13 1'),
    Case('limit3', 3, LIMITED3, NONE, 2, 2, 2, 'ok EVT3 7 1 2 : 4096,5,0,1 4096,6,0,1 | 2 : 4096,1,0 4096,2,1'),
    Case('limit3', 3, LIMITED3, NONE, 2, 2, 1, 'refused 13 2'),
    Case('limit3', 3, LIMITED3, NONE, 2, 1, 1, 'refused 5 2'),
    Case('limit3', 3, LIMITED3, NONE, 3, 2, 3, 'ok EVT3 7 1 2 : 4096,5,0,1 4096,6,0,1 | 3 : 4096,1,0 4096,2,1 4096,3,0'),
    Case('limit3', 3, LIMITED3, NONE, 3, 2, 2, 'refused 13 3'),
    Case('limit3', 3, LIMITED3, NONE, 2**64 - 1, 2, 3, 'ok EVT3 7 1 2 : 4096,5,0,1 4096,6,0,1 | 3 : 4096,1,0 4096,2,1 4096,3,0'),
    Case('limit2', 2, LIMITED2, (64, 48), 0, 0, 0, 'ok EVT2 64 48 0 : | 0 :'),
    Case('limit2', 2, LIMITED2, NONE, 0, 2, 3, 'refused 1'),
    Case('limit2', 2, LIMITED2, NONE, 1, 1, 1, 'ok EVT2 6 8 1 : 100,5,7,1 | 1 : 64,1,1'),
    Case('limit2', 2, LIMITED2, NONE, 1, 1, 0, 'refused 13 1'),
    Case('limit2', 2, LIMITED2, NONE, 2, 2, 2, 'ok EVT2 7 11 2 : 100,5,7,1 100,6,10,1 | 2 : 64,1,1 64,2,1'),
    Case('limit2', 2, LIMITED2, NONE, 2, 2, 1, 'refused 13 2'),
    Case('limit2', 2, LIMITED2, NONE, 2, 1, 1, 'refused 5 2'),
    Case('limit2', 2, LIMITED2, NONE, 3, 2, 3, 'ok EVT2 7 11 2 : 100,5,7,1 100,6,10,1 | 3 : 64,1,1 64,2,1 64,3,1'),
    Case('limit2', 2, LIMITED2, NONE, 3, 2, 2, 'refused 13 3'),
    Case('limit2', 2, LIMITED2, NONE, 2**64 - 1, 2, 3, 'ok EVT2 7 11 2 : 100,5,7,1 100,6,10,1 | 3 : 64,1,1 64,2,1 64,3,1'),
    Case('within', 3, '8001 A100 300A 400B A301', NONE, 1, 1, 1, 'ok EVT3 11 1 1 : 4096,10,0,0 | 1 : 4096,1,0'),
    Case('within', 3, '8001 A100 300A 400B A301', NONE, 2, 2, 1, 'ok EVT3 12 1 2 : 4096,10,0,0 4096,11,0,0 | 1 : 4096,1,0'),
    Case('within', 3, '8001 A100 300A 400B A301', NONE, 3, 3, 1, 'ok EVT3 14 1 3 : 4096,10,0,0 4096,11,0,0 4096,13,0,0 | 1 : 4096,1,0'),
    Case('within', 3, '8001 A100 300A 400B A301', NONE, 4, 3, 2, 'ok EVT3 14 1 3 : 4096,10,0,0 4096,11,0,0 4096,13,0,0 | 2 : 4096,1,0 4096,3,1'),
    Case('within', 3, '8001 A100 300A 5003 A301', NONE, 1, 1, 1, 'ok EVT3 11 1 1 : 4096,10,0,0 | 1 : 4096,1,0'),
    Case('within', 3, TWICE3, NONE, 1, 1, 0, 'ok EVT3 11 1 1 : 4096,10,0,0 | 0 :'),
    Case('within', 3, TWICE3, NONE, 2, 2, 0, 'ok EVT3 12 1 2 : 4096,10,0,0 4096,11,0,0 | 0 :'),
    Case('within', 3, TWICE3, NONE, 3, 3, 1, 'ok EVT3 23 1 3 : 4096,10,0,0 4096,11,0,0 4096,22,0,0 | 1 : 4096,2,1'),
    Case('within', 3, TWICE3, NONE, 4, 4, 1, 'ok EVT3 24 1 4 : 4096,10,0,0 4096,11,0,0 4096,22,0,0 4096,23,0,0 | 1 : 4096,2,1'),
    Case('within', 3, TWICE3, NONE, 5, 4, 2, 'ok EVT3 24 1 4 : 4096,10,0,0 4096,11,0,0 4096,22,0,0 4096,23,0,0 | 2 : 4096,2,1 4096,3,1'),
    # a size drops events, which a limit then doesn't count, and no trigger
    Case('sensor', 3, '8001 2064 A301 2005 A200', (64, 48), 1, 1, 1, 'ok EVT3 64 48 1 : 4096,5,0,0 | 1 : 4096,3,1'),
    Case('sensor', 3, '8001 2064 A301', (64, 48), 1, 0, 1, 'ok EVT3 64 48 0 : | 1 : 4096,3,1'),
    Case('sensor', 3, '8001 300A 4007 A301 2005 A200', (12, 1), 2, 2, 0, 'ok EVT3 12 1 2 : 4096,10,0,0 4096,11,0,0 | 0 :'),
    Case('sensor', 3, '8001 300A 4007 A301 2005 A200', (12, 1), 3, 3, 1,
         'ok EVT3 12 1 3 : 4096,10,0,0 4096,11,0,0 4096,5,0,0 | 1 : 4096,3,1'),
    Case('sensor', 2, '80000001 19032007 A0000101 19002807 A0000201', (64, 48), 1, 1, 1, 'ok EVT2 64 48 1 : 100,5,7,1 | 1 : 64,1,1'),
    Case('sensor', 3, '8001 0007 2805 AF01 A000', (1, 1), NONE, 0, 2, 'ok EVT3 1 1 0 : | 2 : 4096,15,1 4096,0,0'),
    Case('sensor', 2, '80000001 19002807 AFC01F01 A0000000', (1, 1), NONE, 0, 2, 'ok EVT2 1 1 0 : | 2 : 127,31,1 64,0,0'),
    Case('sensor', SIZED3, '8001 0007 2805 AF01', (5, 2**64 - 1), 1, 0, 1, 'ok EVT3 5 18446744073709551615 0 : | 1 : 4096,15,1'),
    # times
    Case('time3', 3, '8001 6005 A301 8002 A300 6007 A201 2801', NONE, NONE, 1, 3, 'ok EVT3 2 1 1 : 8199,1,0,1 | 3 : 4101,3,1 8192,3,0 8199,2,1'),
    Case('time2', 2, '80000001 19002807 A0000301 19002807', NONE, NONE, 2, 1, 'ok EVT2 6 8 2 : 100,5,7,1 100,5,7,1 | 1 : 64,3,1'),
    Case('time2', 2, '80000001 10002807 AFC00300 80000002 AFC00301', NONE, NONE, 1, 2, 'ok EVT2 6 8 1 : 64,5,7,1 | 2 : 127,3,0 191,3,1'),
    Case('time3', 3, '8001 A300 6001 A301 0007 2805', NONE, NONE, 1, 2, 'ok EVT3 6 8 1 : 4097,5,7,1 | 2 : 4096,3,0 4097,3,1'),
    Case('time3', 3, '8001 6FFF A301 6000 A300 2805', NONE, NONE, 1, 2, 'ok EVT3 6 1 1 : 4096,5,0,1 | 2 : 8191,3,1 4096,3,0'),
    Case('time2', 2, '80000001 19002807 AFC00301 10002807', NONE, NONE, 2, 1, 'ok EVT2 6 8 2 : 100,5,7,1 64,5,7,1 | 1 : 127,3,1'),
    Case('time2', 2, '80000002 A9001F01 80000001 A9001F00 19002807', NONE, NONE, 1, 2, 'ok EVT2 6 8 1 : 100,5,7,1 | 2 : 164,31,1 100,31,0'),
    # across a loop, and one unit beside it
    Case('loop3', 3, '8FFF A100 800A A101', (64, 48), NONE, 0, 2, 'ok EVT3 64 48 0 : | 2 : 16773120,1,0 16818176,1,1'),
    Case('loop3', 3, '8FFF A100 800B A101', (64, 48), NONE, 0, 2, 'ok EVT3 64 48 0 : | 2 : 16773120,1,0 45056,1,1'),
    Case('loop3', 3, '8FFF 6FFF A100 800A A101 6001 A100', (64, 48), NONE, 0, 3,
         'ok EVT3 64 48 0 : | 3 : 16777215,1,0 16818176,1,1 16818177,1,0'),
    Case('loop3', 3, '8FFF 800A 8FFF A100 800A A101', (64, 48), NONE, 0, 2, 'ok EVT3 64 48 0 : | 2 : 33550336,1,0 33595392,1,1'),
    Case('loop3', 3, '8FFF 2801 A100 800A 2802 A101', NONE, NONE, 2, 2,
         'ok EVT3 3 1 2 : 16773120,1,0,1 16818176,2,0,1 | 2 : 16773120,1,0 16818176,1,1'),
    Case('loop2', 2, '8FFFFFFF A0000100 80FFFFFF AFC00101', (64, 48), NONE, 0, 2, 'ok EVT2 64 48 0 : | 2 : 17179869120,1,0 18253611007,1,1'),
    Case('loop2', 2, '8FFFFFFF A0000100 81000000 AFC00101', (64, 48), NONE, 0, 2, 'ok EVT2 64 48 0 : | 2 : 17179869120,1,0 1073741887,1,1'),
    Case('loop2', 2, '8FFFFFFF AFC00100 80000000 A0000101 10002807', NONE, NONE, 1, 2,
         'ok EVT2 6 8 1 : 17179869184,5,7,1 | 2 : 17179869183,1,0 17179869184,1,1'),
    # fields and states
    Case('unused3', 3, '8001 A3FF A3FE AF01 A000', (64, 48), NONE, 0, 4, 'ok EVT3 64 48 0 : | 4 : 4096,3,1 4096,3,0 4096,15,1 4096,0,0'),
    Case('unused2', 2, '80000001 AFFFFFFF AFFFE0FE A03FE1FE', (64, 48), NONE, 0, 3, 'ok EVT2 64 48 0 : | 3 : 127,31,1 127,0,0 64,1,0'),
    Case('id3', 3, '8001 A801 A701', (64, 48), NONE, 0, 2, 'ok EVT3 64 48 0 : | 2 : 4096,8,1 4096,7,1'),
    Case('id2', 2, '80000001 A0001001 A0000F00 A0002001', (64, 48), NONE, 0, 3, 'ok EVT2 64 48 0 : | 3 : 64,16,1 64,15,0 64,0,1'),
    Case('base3', 3, '8001 300A 4001 A301 5001', NONE, NONE, 2, 1, 'ok EVT3 23 1 2 : 4096,10,0,0 4096,22,0,0 | 1 : 4096,3,1'),
    Case('cut3', 3, '8001 A301 01', (64, 48), NONE, 0, 1, 'ok EVT3 64 48 0 : | 1 : 4096,3,1'),
    Case('cut2', 2, '80000001 A0000101 0102A0', (64, 48), NONE, 0, 1, 'ok EVT2 64 48 0 : | 1 : 64,1,1'),
    Case('cut3', 3, '8001 01', (64, 48), NONE, 0, 0, 'ok EVT3 64 48 0 : | 0 :'),
    Case('cut3', 3, '8001 2805 01', NONE, 1, 1, 0, 'ok EVT3 6 1 1 : 4096,5,0,1 | 0 :'),
    Case('cut2', 2, '80000001 01', (64, 48), NONE, 0, 0, 'ok EVT2 64 48 0 : | 0 :'),
    Case('cut2', 2, '80000001 0101', (64, 48), NONE, 0, 0, 'ok EVT2 64 48 0 : | 0 :'),
    Case('cut2', 2, '80000001 010100', (64, 48), NONE, 0, 0, 'ok EVT2 64 48 0 : | 0 :'),
    Case('cut2', 2, '80000001 A0000101 01', (64, 48), NONE, 0, 1, 'ok EVT2 64 48 0 : | 1 : 64,1,1'),
    Case('percent', 3, '8025 A301 2801', NONE, NONE, 1, 1, 'ok EVT3 2 1 1 : 151552,1,0,1 | 1 : 151552,3,1'),
    # many words that do nothing between time words and a trigger
    Case('far3', 3, '8001' + 63 * ' E000' + ' A301', (64, 48), NONE, 0, 1, 'ok EVT3 64 48 0 : | 1 : 4096,3,1'),
    Case('far3', 3, '8001' + 64 * ' E000' + ' A301', (64, 48), NONE, 0, 1, 'ok EVT3 64 48 0 : | 1 : 4096,3,1'),
    Case('far3', 3, '8001' + 65 * ' E000' + ' A301', (64, 48), NONE, 0, 1, 'ok EVT3 64 48 0 : | 1 : 4096,3,1'),
    Case('far3', 3, '8001 6005' + 200 * ' E000' + ' 8002' + 200 * ' E000' + ' A301', (64, 48), NONE, 0, 1, 'ok EVT3 64 48 0 : | 1 : 8192,3,1'),
    Case('far3', 3, '8001' + 200 * ' E000' + ' 6005' + 200 * ' E000' + ' A301', (64, 48), NONE, 0, 1, 'ok EVT3 64 48 0 : | 1 : 4101,3,1'),
    Case('far3', 3, '8FFF' + 200 * ' E000' + ' 800A' + 200 * ' E000' + ' A301', (64, 48), NONE, 0, 1, 'ok EVT3 64 48 0 : | 1 : 16818176,3,1'),
    Case('far3', 3, 200 * 'A301 ' + '8001' + 200 * ' A301' + ' 2805' + 200 * ' A301', NONE, 1, 1, 199, 'refused 13 200'),
    Case('far2', 2, '80000001' + 63 * ' E0000000' + ' A9001F01', (64, 48), NONE, 0, 1, 'ok EVT2 64 48 0 : | 1 : 100,31,1'),
    Case('far2', 2, '80000001' + 64 * ' E0000000' + ' A9001F01', (64, 48), NONE, 0, 1, 'ok EVT2 64 48 0 : | 1 : 100,31,1'),
    Case('far2', 2, '80000001' + 65 * ' E0000000' + ' A9001F01', (64, 48), NONE, 0, 1, 'ok EVT2 64 48 0 : | 1 : 100,31,1'),
    Case('far2', 2, '80000001' + 200 * ' E0000000' + ' 80000002' + 200 * ' E0000000' + ' A9001F01', (64, 48), NONE, 0, 1,
         'ok EVT2 64 48 0 : | 1 : 164,31,1'),
    Case('far2', 2, '8FFFFFFF' + 200 * ' E0000000' + ' 80FFFFFF' + 200 * ' E0000000' + ' A0000101', (64, 48), NONE, 0, 1,
         'ok EVT2 64 48 0 : | 1 : 18253610944,1,1'),
    Case('far2', 2, 200 * 'A0000101 ' + '80000001' + 200 * ' A0000101' + ' 19002807' + 200 * ' A0000101', NONE, 1, 1, 199, 'refused 13 200'),
    # the header's end line: the next byte opens the body, whatever it is
    Case('end3', '% evt 3\n% end\n', '8025 A301 2801', NONE, NONE, 1, 1, 'ok EVT3 2 1 1 : 151552,1,0,1 | 1 : 151552,3,1'),
    Case('end2', '% evt 2\n%end\n', '80000025 A0000101 19002807', NONE, NONE, 1, 1, 'ok EVT2 6 8 1 : 2404,5,7,1 | 1 : 2368,1,1'),
    Case('end3', '% evt 3\n%%  END \r\n', 'A325 8001 A301', (64, 48), NONE, 0, 1, 'ok EVT3 64 48 0 : | 1 : 4096,3,1'),
    Case('end3', '% evt 3\n% end\n% geometry 5x7\n', '8025 A301 2801', NONE, NONE, 1, 1, 'refused 1'),
    Case('end3', '% evt 3\n% end\n%\x80', '8025 A301 2801', NONE, NONE, 1, 1, 'ok EVT3 2 1 1 : 151552,1,0,1 | 1 : 151552,3,1'),
    Case('near3', '% evt 3\n% end x\n', '8025 A301 2801', NONE, NONE, 1, 1, 'refused 3'),
    Case('near3', '% evt 3\n% %end\n%geometry 9x8\n', '8001 A301 2801', NONE, NONE, 1, 1, 'ok EVT3 9 8 1 : 4096,1,0,1 | 1 : 4096,3,1'),
    Case('near3', '% evt 3\n% ending\n%geometry 9x8\n', '8001 A301 2801', NONE, NONE, 1, 1, 'ok EVT3 9 8 1 : 4096,1,0,1 | 1 : 4096,3,1'),
    Case('alone3', '% evt 3\n% end', '', (64, 48), NONE, 0, 0, 'ok EVT3 64 48 0 : | 0 :'),
    Case('first3', '% end\n% evt 3\n', '8025 A301 2801', (64, 48), NONE, 1, 1, 'refused 2'),
]

# What is refused, alone and two at a time, of one event and one trigger read with a limit of 1 and a size: `4` has bytes 0 behind the words, one
# more than 2^30 in all; `3` a header byte 128; `2` no encoding, or encoding 7; `zero` a size of 0 by 48; `none` no event, and no size unless
# that is 0; `5` and `13` have columns of 0. By docs/RULES.md: 4, 3, 2, 1 for a zero size, 1 for no event, 5, 13. `none` and `5` can't meet, and
# words have no `3`. The last four have all that can be wrong behind the first.
MEETINGS = [
    ('4', 'refused 4'), ('3', 'refused 3'), ('2', 'refused 2'), ('zero', 'refused 1'), ('none', 'refused 1'), ('5', 'refused 5 1'), ('13', 'refused 13 1'),
    ('4 3', 'refused 4'), ('4 2', 'refused 4'), ('4 zero', 'refused 4'), ('4 none', 'refused 4'), ('4 5', 'refused 4'), ('4 13', 'refused 4'),
    ('3 2', 'refused 3'), ('3 zero', 'refused 3'), ('3 none', 'refused 3'), ('3 5', 'refused 3'), ('3 13', 'refused 3'),
    ('2 zero', 'refused 2'), ('2 none', 'refused 2'), ('2 5', 'refused 2'), ('2 13', 'refused 2'),
    ('zero none', 'refused 1'), ('zero 5', 'refused 1'), ('zero 13', 'refused 1'), ('none 13', 'refused 1'), ('5 13', 'refused 5 1'),
    ('4 3 2 zero 5 13', 'refused 4'), ('3 2 zero 5 13', 'refused 3'), ('2 zero 5 13', 'refused 2'), ('zero 5 13', 'refused 1'),
]
TRIGGER, BEFORE = {3: 'A301', 2: 'A9001F01', 21: 'A9001F0100000000'}, {3: '8001 6001 0007', 2: '80000001', 21: '8000000100000000'}
EVENT = {3: '2805', 2: '19002807', 21: '1900000700000020'}
RIGHT = {3: 'ok EVT3 64 48 1 : 4097,5,7,1 | 1 : 4097,3,1', 2: 'ok EVT2 64 48 1 : 100,5,7,1 | 1 : 100,31,1',
         21: 'ok EVT21 64 48 1 : 100,5,7,1 | 1 : 100,31,1'}

# Two events and two triggers; one column is of this length and the others have four places. The first four are the events'.
LENGTHS = [(0, 'refused 5 2', 'refused 13 2'), (1, 'refused 5 2', 'refused 13 2'), (2, NONE, NONE), (3, NONE, NONE)]
PAIRS = {3: '8001 0007 2805 A301 6002 2006 A200', 2: '80000001 19002807 A9001F01 80000002 00003001 A0000100',
         21: '8000000100000000 A9001F0100000000 1900000700000060 80000002FFFFFFFF A000010000000000'}
ALL = {3: 'ok EVT3 7 8 2 : 4096,5,7,1 4098,6,7,0 | 2 : 4096,3,1 4098,2,0', 2: 'ok EVT2 7 8 2 : 100,5,7,1 128,6,1,0 | 2 : 100,31,1 128,1,0',
       21: 'ok EVT21 7 8 2 : 100,5,7,1 100,6,7,1 | 2 : 100,31,1 128,1,0'}

# The first word of some, from a decoder given by its numbers: coarse time, time, loops, encoding, row, base column, started, polarity. `trigger`
# as above, `-` for none. `after` is the decoder that the word leaves; None: the one that it found.
Word = namedtuple('Word', 'name decoder body trigger after', defaults=(None,))
FRESH2, FRESH3 = (0, 0, 0, 2, 0, 0, 0, 0), (0, 0, 0, 3, 0, 0, 0, 0)
AT2, AT3 = (64, 100, 0, 2, 0, 0, 1, 0), (4096, 4101, 0, 3, 7, 10, 1, 1)

WORDS = [
    Word('word2', AT2, 'AFC01F01', '127,31,1'),
    Word('word2', AT2, 'A0000000 A0000101', '64,0,0'),
    Word('word2', FRESH2, 'A0000101', '-'),
    Word('word2', AT2, '19002807', '-'),
    Word('word2', AT2, '80000002', '-', (128, 128, 0, 2, 0, 0, 1, 0)),
    Word('word2', AT2, '010000', '-'),
    Word('word2', (64, 128, 0, 2, 0, 0, 1, 0), 'A0000101', 'refused 10'),
    Word('word2', (64, 100, 0, 2, 1, 0, 1, 0), '', 'refused 10'),
    Word('word2', (65, 65, 0, 2, 0, 0, 1, 0), 'A0000101', 'refused 10'),
    Word('word2', (0, 5, 0, 2, 0, 0, 0, 0), 'A0000101', 'refused 10'),
    Word('word2', (2**61 + 2**34, 2**61 + 2**34, 2**27 + 1, 2, 0, 0, 1, 0), 'A0000101', 'refused 10'),
    Word('word2', (2**61, 2**61, 2**27, 2, 0, 0, 1, 0), 'AFC00001', '2305843009213694015,0,1'),
    Word('word2', (17179869248, 17179869284, 1, 2, 0, 0, 1, 0), 'A0400101', '17179869249,1,1'),
    Word('word2', AT2, 'A93FFFFF', '100,31,1'),
    Word('word2', AT2, 'A03FE0FE', '64,0,0'),
    Word('word2', AT2, 'A0001001', '64,16,1'),
    Word('word2', AT2, 'A0002001', '64,0,1'),
    Word('word2', AT2, '', '-'),
    Word('word2', AT2, '01', '-'),
    Word('word2', AT2, '0101', '-'),
    Word('word2', AT2, '01000301', '-', (64, 68, 0, 2, 0, 0, 1, 0)),
    Word('word2', AT2, '29000301', '-'),
    Word('word2', AT2, '99000301', '-'),
    Word('word2', AT2, 'B9000301', '-'),
    Word('word2', AT2, 'F9000301', '-'),
    Word('word3', AT3, 'AF01', '4101,15,1'),
    Word('word3', AT3, 'A0FE', '4101,0,0'),
    Word('word3', FRESH3, 'A301', '-'),
    Word('word3', AT3, '4FFF', '-', (4096, 4101, 0, 3, 7, 22, 1, 1)),
    Word('word3', AT3, 'A3', '-'),
    Word('word3', (4096, 4101, 0, 3, 2048, 10, 1, 1), 'A301', 'refused 10'),
    Word('word3', (4096, 4101, 0, 7, 0, 0, 1, 0), 'A301', 'refused 10'),
    Word('word3', (4096, 8192, 0, 3, 7, 10, 1, 1), 'A301', 'refused 10'),
    Word('word3', (0, 0, 0, 3, 1, 0, 0, 0), 'A301', 'refused 10'),
    Word('word3', (2**52 + 2**24, 2**52 + 2**24, 2**28 + 1, 3, 0, 0, 1, 0), 'A301', 'refused 10'),
    Word('word3', (2**52, 2**52 + 4095, 2**28, 3, 0, 0, 1, 0), 'AF01', '4503599627374591,15,1'),
    Word('word3', (16781312, 16781313, 1, 3, 0, 0, 1, 0), 'A301', '16781313,3,1'),
    Word('word3', AT3, 'A301 AF00', '4101,3,1'),
    Word('word3', AT3, 'A801', '4101,8,1'),
    Word('word3', AT3, 'A1FF', '4101,1,1'),
    Word('word3', AT3, '', '-'),
    Word('word3', AT3, '0009', '-', (4096, 4101, 0, 3, 9, 10, 1, 1)),
    Word('word3', AT3, '1301', '-'),
    Word('word3', AT3, '2301', '-'),
    Word('word3', AT3, '3301', '-', (4096, 4101, 0, 3, 7, 769, 1, 0)),
    Word('word3', AT3, '5301', '-', (4096, 4101, 0, 3, 7, 18, 1, 1)),
    Word('word3', AT3, '6301', '-', (4096, 4865, 0, 3, 7, 10, 1, 1)),
    Word('word3', AT3, '7301', '-'),
    Word('word3', AT3, '8301', '-', (3149824, 3149824, 0, 3, 7, 10, 1, 1)),
    Word('word3', AT3, '9301', '-'),
    Word('word3', AT3, 'B301', '-'),
    Word('word3', AT3, 'F301', '-'),
]

# The decoder after all of some words, triggers among them, which leave it as it was.
After = namedtuple('After', 'name decoder body after')
AFTERS = [
    After('after2', FRESH2, '80000001 19002807 AFC01F01', (64, 100, 0, 2, 0, 0, 1, 0)),
    After('after2', FRESH2, '80000001 AFC01F01', (64, 64, 0, 2, 0, 0, 1, 0)),
    After('after2', FRESH2, 'AFC01F01 A0000101', FRESH2),
    After('after2', AT2, 'AFC01F01 A0000101', AT2),
    After('after2', AT2, 'AFC01F01 10002807 A0400101', (64, 64, 0, 2, 0, 0, 1, 0)),
    After('after2', FRESH2, '8FFFFFFF AFC00101 80FFFFFF AFC00101', (18253610944, 18253610944, 1, 2, 0, 0, 1, 0)),
    After('after3', FRESH3, '8001 6005 0007 380A AF01', AT3),
    After('after3', FRESH3, 'A301 6005 A301', FRESH3),
    After('after3', AT3, 'A301 AF00', AT3),
    After('after3', FRESH3, '8001 A301 6005 A301', (4096, 4101, 0, 3, 0, 0, 1, 0)),
    After('after3', FRESH3, '8FFF 6FFF A301 800A A301', (16818176, 16818176, 1, 3, 0, 0, 1, 0)),
]


def body_bytes(text, size):
    """Words from their numbers; a broken last word as it stands."""
    return b''.join(bytes.fromhex(w)[::-1] if len(w) == 2 * size else bytes.fromhex(w) for w in text.split())


def word_size(body):
    return len(body.split()[0]) // 2 if body else 1


def all_of(rooms, columns):
    return (rooms,) * columns if isinstance(rooms, int) else rooms


def meeting(raw, encoding, wrong, answer):
    has = wrong.split()
    if 'none' not in has:
        body = f'{BEFORE[encoding]} {TRIGGER[encoding]} {EVENT[encoding]}'
    elif '4' not in has:
        body = f'{BEFORE[encoding]} {TRIGGER[encoding]}'
    else:
        body = TRIGGER[encoding]    # before the first time word: in EVT2 the bytes 0 behind another would be events
    size = (0, 48) if 'zero' in has else NONE if 'none' in has else (64, 48)
    head = 7 if '2' in has else encoding
    if raw:
        head = ('' if '2' in has else f'% format EVT{encoding}\n') + ('% geometry {}x{}\n'.format(*size) if size else '') + ('% \x80\n' if '3' in has else '')
        size = NONE
    bytes_given = len(head if raw else '') + len(body_bytes(body, word_size(body)))
    return Case(f'{"raw" if raw else "words"}{encoding} {wrong or "right"}', head, body, size, 1, 0 if '5' in has else 1, 0 if '13' in has else 1,
                answer, 2**30 + 1 - bytes_given if '4' in has else 0)


def lengths(head, encoding):
    for length, short, trigger_short in LENGTHS:
        for column in range(7):
            rooms = tuple(length if i == column else 4 for i in range(7))
            answer = (short if column < 4 else trigger_short) or ALL[encoding]
            yield Case(f'column{column} {head if isinstance(head, int) else "raw"} {length}', head, PAIRS[encoding], NONE, NONE, rooms[:4], rooms[4:], answer)


def behind_header(case):
    """The same words behind a header that names their encoding: the same answer. Not if their first byte is `%`."""
    return case._replace(name='raw ' + case.name, head=HEADS[case.head])


# ---- EVT2 as EVT 2.1: a word is the high half, a mask of the first bit alone the low half; low halves of other words mean nothing

def is_evt2(case):
    return case.head == 2 or isinstance(case.head, str) and ('EVT2' in case.head or '% evt 2\n' in case.head)


def widened(body, unused):
    return ' '.join(w if len(w) < 8 else w + ('00000001' if w[0] in '01' else unused) for w in body.split())


def widened_head(head):
    return 21 if head == 2 else head.replace('EVT2', 'EVT21').replace('% evt 2\n', '% evt 2.1\n')


def widened_decoder(decoder):
    return decoder and decoder[:3] + (21 if decoder[3] == 2 else decoder[3],) + decoder[4:]


def as_evt21(case, unused):
    return case._replace(name=case.name.replace('2', '21'), head=widened_head(case.head), body=widened(case.body, unused),
                         answer=case.answer.replace('EVT2', 'EVT21'))


def word_as_evt21(entry, unused):
    return entry._replace(name=entry.name.replace('2', '21'), decoder=widened_decoder(entry.decoder), body=widened(entry.body, unused),
                          after=widened_decoder(entry.after))


UNUSED = '00000000', 'FFFFFFFF'


def all_listed():
    yield from LISTED
    yield from (as_evt21(case, unused) for case in LISTED if is_evt2(case) for unused in UNUSED)
    yield from (Case(*entry) for entry in cases21.READINGS)


def all_cases():
    listed = list(all_listed())
    yield from listed
    yield from (behind_header(case) for case in listed if case.head in HEADS and case.name != 'percent')
    for encoding in HEADS:
        for raw in True, False:
            yield meeting(raw, encoding, '', RIGHT[encoding])
            yield from (meeting(raw, encoding, *entry) for entry in MEETINGS if raw or '3' not in entry[0].split())
        yield from lengths(encoding, encoding)
        yield from lengths(HEADS[encoding], encoding)


CASES = list(all_cases())
WORDS += [word_as_evt21(word, unused) for word in WORDS if word.decoder[3] == 2 for unused in UNUSED] + [Word(*entry) for entry in cases21.WORDS]
AFTERS += [word_as_evt21(after, unused) for after in AFTERS if after.decoder[3] == 2 for unused in UNUSED] + [After(*entry) for entry in cases21.AFTERS]


def call_of(case):
    raw = isinstance(case.head, str)
    data = (case.head.encode('latin-1') if raw else b'') + body_bytes(case.body, word_size(case.body))
    width, height = case.size or (0, 0)
    return calls.Call(calls.READ_RAW_TRIGGERS if raw else calls.DECODE_WORDS_TRIGGERS, data, 0 if raw else case.head, int(case.size is not None),
                      width, height, int(case.limit is not None), case.limit or 0, all_of(case.rooms, 4) + all_of(case.trigger_rooms, 3),
                      zeros=case.zeros, fill=0xEE)


def word_call(word, call=calls.WORD_TRIGGER):
    size = {2: 4, 3: 2}.get(word.decoder[3], 8)
    return calls.Call(call, body_bytes(word.body, size), decoder=word.decoder)


# ---- header names, indexes and writers: a call and its answer, as docs/VECTORS.md writes such

# what the body behind a header of NAMES is, by encoding: two words of EVT2.1 are four of EVT2 and eight of EVT3
NAMED_BODY = body_bytes('8000000100000000 1900280700000001', 8)
NAMED_ANSWERS = {21: 'ok EVT21 6 8 1 : 100,5,7,1 | 0 :', 2: 'ok EVT2 6 8 2 : 64,0,1,0 100,5,7,1 | 0 :', 3: 'ok EVT3 8 1 1 : 0,7,0,1 | 0 :'}


def names():
    for text, encoding in cases21.NAMES:
        yield calls.Call(calls.PARSE_HEADER, text.encode()), f'ok EVT{encoding} {len(text)} -' if encoding else 'refused 2'
        yield calls.Call(calls.PARSE_HEADER, text.encode(), sized=1, width=7, height=0), 'refused 1' if encoding else 'refused 2'
        yield calls.Call(calls.READ_RAW_TRIGGERS, text.encode() + NAMED_BODY, rooms=(2,) * 7), NAMED_ANSWERS.get(encoding, 'refused 2')


def ends_of(query):
    """Whether by time, and the ends as a call has them."""
    kind, start, end = query.split(':')
    return kind == 't', (int(start) % 2**64, int(end) % 2**64, 0, 0, 0, 0, 0, 0)


def openings():
    for head, body, size, spacing, records, query, rooms, answer in cases21.OPENINGS:
        raw, (by_time, ends) = isinstance(head, str), ends_of(query)
        kinds = (calls.OPEN_SLICE_INDEX, calls.OPEN_SLICE_TIME) if raw else (calls.OPEN_WORDS_SLICE_INDEX, calls.OPEN_WORDS_SLICE_TIME)
        data, (width, height) = (head.encode('latin-1') if raw else b'') + body_bytes(body, 8), size or (0, 0)
        yield calls.Call(kinds[by_time], data, 0 if raw else head, int(size is not None), width, height, max_events=spacing, decoder=ends,
                         rooms=(rooms,) * 4 + (10 * records, 0, 0), fill=0xEE), answer


def given_slices():
    """Records of another encoding are given by their numbers, which is all that the C interface has."""
    for source, records, body, query, rooms, answer in cases21.GIVEN:
        by_time, ends = ends_of(query)
        records = answers.records_of(records)
        yield calls.Call(calls.SLICE_TIME if by_time else calls.SLICE_INDEX, body_bytes(body, 8), decoder=ends, rooms=(rooms,) * 4 + (0, 0, 0),
                         source=calls.source_numbers(answers.source_of(source), len(records)), records=tuple(map(calls.record_numbers, records)),
                         fill=0xEE), answer


def columns_of(events):
    """The columns of events as t,x,y,p."""
    events = [tuple(map(int, event.split(','))) for event in events.split()]
    return tuple(calls.columns_of([(x, y, t, p) for t, x, y, p in events], 4))


def append_call(sink, columns, room):
    return calls.Call(calls.APPEND, width=64, height=48, sink=calls.sink_numbers(answers.sink_of(sink)), columns=columns, rooms=(0,) * 5 + (room, 0), fill=0xEE)


def appends(entries):
    for sink, events, room, answer in entries:
        yield append_call(sink, columns_of(events), room), answer


def meetings():
    for sink, columns, room, answer in cases_long.BY_COLUMNS:
        yield append_call(sink, columns, room), answer


def decoder_resumes():
    for decoder, answer in cases_long.DECODERS:
        yield calls.Call(calls.RESUME, decoder=decoder), answer


def words_resumes():
    for encoding, body, answer, zeros in cases_long.WORDS:
        yield calls.Call(calls.RESUME_WORDS, body_bytes(body, word_size(body)), encoding, zeros=zeros), answer


def raw_resumes():
    """The writer and the decoder behind a recording; a header that is refused leaves those of EVT2."""
    for head, body, decoder, answer, zeros in cases_long.RAWS:
        call = calls.Call(calls.RESUME_RAW, head.encode('latin-1') + body_bytes(body, word_size(body)), zeros=zeros)
        headless = answer in ('refused 4', 'refused 3', 'refused 2')
        yield call, f'{answer} {cases_long.NEW[2]}' if headless else answer
        yield call._replace(call=calls.DECODER_AFTER_RAW), f'{answer} {commas(decoder)}' if headless else commas(decoder)


def number_call(text, zeros=0, fill=1):
    return calls.Call(calls.READ_NUMBER, text.encode('latin-1'), zeros=zeros, fill=fill)


def numbers():
    for text, zeros, answer in cases_number.listed():
        yield number_call(text, zeros), answer


def further():
    """The name, the call and the answer of each."""
    lists = {'name21': names(), 'open21': openings(), 'slice21': given_slices(), 'append21': appends(cases21.APPENDS),
             'long': appends(cases_long.APPENDS), 'meet': meetings(), 'resume': decoder_resumes(), 'resume words': words_resumes(), 'resume raw': raw_resumes(),
             'number': numbers()}
    for name, entries in lists.items():
        for number, (call, answer) in enumerate(entries, 1):
            yield f'{name}.{number}', call, answer


def header_text(call):
    return 'ok ' + answers.header_of(header.parse_header(call.data, calls.size_of(call)))


def opening_text(call):
    source, records = calls.model_opening(call)
    return f'ok {answers.source_text(source, records)} | ' + answers.told(lambda: answers.slice_events(calls.model_slice(call, source, records)))


def append_text(call):
    """The header's lines as they are, the words as numbers, the writer."""
    sink = calls.sink_of(call.sink)
    try:
        out, after = calls.model_append(call)
    except Refused as refused:
        return f'{answers.refusal_text(refused)} {answers.sink_text(sink)}'
    start, size = header.header_lines(out)[1], words.DECODERS[sink.encoding].SIZE
    parts = [out[at:at + size][::-1].hex().upper() for at in range(start, len(out), size)]
    return out[:start].decode() + ' '.join(parts + [answers.sink_text(after)])


def resumed_text(call):
    return answers.resumed_text(calls.model_resumed(call)).removeprefix('ok ')


def after_raw_text(call):
    try:
        return commas(words.decoder_after_raw(call.data, call.zeros).fields())
    except Refused as refused:
        return f'{answers.refusal_text(refused)} {commas(calls.FRESH_EVT2)}'


FURTHER_TEXT = {calls.PARSE_HEADER: header_text, calls.APPEND: append_text, **dict.fromkeys(calls.OPENINGS, opening_text),
                **dict.fromkeys(calls.SLICES, lambda call: answers.slice_events(calls.given_slice(call))),
                **dict.fromkeys(calls.RESUMES, resumed_text), calls.DECODER_AFTER_RAW: after_raw_text,
                calls.READ_NUMBER: lambda call: answers.number_text(calls.model_number(call))}


def numbered(entries):
    """Each with its name and its number among those of that name."""
    count = Counter()
    for entry in entries:
        count[entry.name] += 1
        yield f'{entry.name}.{count[entry.name]}', entry


def all_calls():
    """The calls of all lists with their names: of each reading without triggers too, of each word its decoding too; and short texts for numbers."""
    for name, case in numbered(CASES):
        call = call_of(case)
        yield name, call
        without = calls.READ_RAW if call.call == calls.READ_RAW_TRIGGERS else calls.DECODE_WORDS
        yield name, call._replace(call=without, rooms=call.rooms[:4] + (0, 0, 0))
    for name, word in numbered(WORDS):
        call = word_call(word)
        yield name, call
        yield name, call._replace(call=calls.DECODE)
    for name, after in numbered(AFTERS):
        yield name, word_call(after, calls.DECODER_AFTER)
    for name, call, _ in further():
        yield name, call
    for encoding in 2, 3, 21, 0, 1, 20, 22, 2**32 - 1:
        yield f'fresh {encoding}', calls.Call(calls.NEW_DECODER, encoding=encoding)
        for flag in 0, 1, 255:
            yield f'fresh {encoding}', calls.Call(calls.WRITER, encoding=encoding, sized=flag)
    for text in cases_number.short_texts():
        yield f'short text {text!r}', number_call(text, fill=0)


def commas(values):
    return ','.join(map(str, values))


def word_answer(word):
    return word.trigger if word.trigger.startswith('refused') else f'{word.trigger} {commas(word.after or word.decoder)}'


def model_answer(call):
    """As the lists have it."""
    try:
        if call.call == calls.WORD_TRIGGER:
            decoder, _, trigger = words.first_word(call.decoder, call.data)
            return f'{commas(trigger) if trigger else "-"} {commas(decoder.fields())}'
        if call.call == calls.DECODER_AFTER:
            return commas(words.decoder_after(call.decoder, call.data).fields())
        if call.call in FURTHER_TEXT:
            return FURTHER_TEXT[call.call](call)
        r = calls.model_reading(call)
    except Refused as refused:
        return answers.refusal_text(refused)
    parts = [f'ok EVT{r.encoding} {r.width} {r.height} {len(r.events)} :'] + [commas((t, x, y, p)) for x, y, t, p in r.events]
    return ' '.join(parts + [f'| {len(r.triggers)} :'] + [commas(trigger) for trigger in r.triggers])


def check():
    """Every case for which the model's answer isn't the written one."""
    listed = [(case, call_of(case), case.answer) for case in CASES] + [(word, word_call(word), word_answer(word)) for word in WORDS]
    listed += [(after, word_call(after, calls.DECODER_AFTER), commas(after.after)) for after in AFTERS]
    listed += [(f'{name}\n{calls.call_text(call)}\n  written: {answer}', call, answer) for name, call, answer in further()]
    return [(entry, model_answer(call)) for entry, call, answer in listed if model_answer(call) != answer]


def told():
    numbers_ = len(cases_number.listed())
    return (f'{len(CASES)} listed readings, {len(WORDS)} words, {len(AFTERS)} lists of words, {len(list(further())) - numbers_} headers, indexes, appends and'
            f' writers that resume, {numbers_:,} numbers and {len(cases_number.short_texts()):,} short texts')


if __name__ == '__main__':
    wrong = check()
    for entry, answer in wrong:
        print(f'{entry}\n  the model: {answer}')
    print(f'{told()}, {len(wrong)} of them answered otherwise by the model')
    raise SystemExit(bool(wrong))
