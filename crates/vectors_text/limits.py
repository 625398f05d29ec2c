#!/usr/bin/env python3
"""limits.py prints what the requirement says to the records that the program makes, in its order.

Records of many levels are judged by the paper, calls.py of vectors_stream. A record of many bytes is a few bytes, a unit over and over, and a few
bytes more: the paper judges it with most of the units left out, and a fault behind them moves by as many bytes. Where no fault stands before
offset 16,777,216 and the record has a byte there, it is too long."""
import os, sys

sys.dont_write_bytecode = True
sys.path.insert(0, os.path.join(os.path.dirname(os.path.abspath(__file__)), '..', 'vectors_stream'))
import calls

LONGEST = 16777216
ARRAYS = calls.NAMES + (b'0 arr 0 - str 0\n0 arr 0 - num 0\n0 arr 0 - r0 0\n0 arr 0 - r1 0\n0 arr 0 - end -\n'
                        b'1 obj 0 a r0 1\n1 obj 0 a r1 1\n1 obj 0 - end -\n1 obj 1 - end -\n')
OBJECTS = calls.NAMES + b'0 obj 0 a r0 1\n0 obj 0 - end -\n0 obj 1 - end -\n'


def frames(size):
    return min(size // 96, 64)


# ---- records of many levels

def nested(shape, levels, closed):
    objects = [shape == 'objects' or shape == 'in-turn' and i % 2 == 1 for i in range(levels)]
    opens = [b'{"a":' if o else b'[' for o in objects]
    opens[-1] = b'{' if objects[-1] else b'['
    closes = [b'}' if o else b']' for o in reversed(objects)]
    return b''.join(opens + closes if closed else opens)


def buffers():
    for size, least in ((96, 1), (191, 1), (192, 1), (287, 1), (5952, 61), (6047, 61), (6048, 62), (6143, 62),
                        (6144, 63), (6239, 63), (6240, 63), (12288, 63)):
        for levels in range(least, least + 4):
            for shape in ('arrays', 'objects', 'in-turn'):
                for end in ('open', 'closed'):
                    book = OBJECTS if shape == 'objects' else ARRAYS
                    v = calls.verdict(False, nested(shape, levels, end == 'closed'), frames(size), book)
                    print('%s-%d-%s-%d' % (shape, levels, end, size), *v)


def texts():
    for text in ('[[', '[{', '{[', '{"a"[', '{"a":[', '[1[', '[]{'):
        print(text, *calls.verdict(False, text.encode(), 1, ARRAYS))


def pairs():
    sound = nested('arrays', 64, True)
    for label, levels in (('alone', 0), ('broken-off-then-sound', 64), ('too-deep-then-sound', 65), ('far-too-deep-then-sound', 1000)):
        if levels:
            print(label, *calls.verdict(False, nested('arrays', levels, False), 64, ARRAYS))
        print(label, *calls.verdict(False, sound, 64, ARRAYS))


# ---- records of many bytes

def long(size, first, unit, last):
    n = size - len(first) - len(last)
    few = n % len(unit) + 70 * len(unit)
    body = (unit * 71)[:few]
    word, number, place = calls.verdict(False, first + body + last, 64, ARRAYS)
    if number and place >= len(first) + few:
        place += n - few
    if size > LONGEST and (not number or place >= LONGEST):
        return ('refused', 13, LONGEST)
    return (word, number, place)


def longs():
    for label, beyond, first, unit, last in (
            ('string', (-1, 0, 1), b'["', b'a', b'"]'),
            ('blanks-before', (0, 1), b'', b' ', b'[]'),
            ('blanks-behind', (0, 1), b'[]', b'\n', b''),
            ('number', (0, 1), b'', b'1', b''),
            ('array', (-1, 0, 1), b'[', b'1,', b'1]'),
            ('malformed-last', (0, 1), b'[', b' ', b'x'),
            ('malformed-first', (0, 1), b'x', b' ', b''),
            ('too-deep-last', (0, 1), b'[' * 64, b' ', b'['),
            ('too-deep-first', (0, 1), b'', b'[', b''),
            ('broken-off', (0, 1), b'["', b'a', b'')):
        for more in beyond:
            print('%s-%d' % (label, LONGEST + more), *long(LONGEST + more, first, unit, last))
    sound = calls.verdict(False, b'["a",1]', 64, ARRAYS)
    print('too-long-then-sound', *long(LONGEST + 1, b'[', b'["a",1],', b''))
    print('too-long-then-sound', *sound)
    print('long-head-then-sound', *calls.verdict(True, b' ', 64, ARRAYS))
    print('long-head-then-sound', *sound)


if __name__ == '__main__':
    buffers()
    texts()
    pairs()
    longs()
