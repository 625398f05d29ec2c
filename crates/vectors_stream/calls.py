#!/usr/bin/env python3
"""The calls of data/calls, and what the requirement answers to them.

calls.py write   makes data/calls
calls.py answer  prints what each call must answer, by the paper alone: no frames, no tables, no states

A call is a letter, a number and a length, each in two bytes with the low one first, and as many bytes as the length says."""
import os, sys

if hasattr(sys, 'set_int_max_str_digits'):
    sys.set_int_max_str_digits(0)
RS = b'\x1e'
HERE = os.path.dirname(os.path.abspath(__file__))


# ---- a text, byte by byte (RFC 8259, RFC 3629)

class Fault(Exception):
    pass


class Deep(Exception):
    pass


class Ended(Exception):
    pass


class Text:
    def __init__(self, part, frames):
        self.part, self.frames, self.i, self.level = part, frames, 0, 0

    def byte(self):
        if self.i == len(self.part):
            raise Ended
        return self.part[self.i]

    def take(self, allowed):
        b = self.byte()
        if b not in allowed:
            raise Fault(self.i)
        self.i += 1
        return b

    def blanks(self):
        while self.i < len(self.part) and self.part[self.i] in b' \t\r\n':
            self.i += 1

    def whole(self):
        self.blanks()
        v = self.value()
        self.blanks()
        if self.i < len(self.part):
            raise Fault(self.i)
        return v

    def value(self):
        b = self.byte()
        for word in (b'true', b'false', b'null'):
            if b == word[0]:
                for w in word:
                    self.take([w])
                return ('word', word.decode())
        if b == 0x22:
            return ('str', self.string())
        if b == 0x2D or 0x30 <= b <= 0x39:
            return ('num', self.number())
        if b in b'[{':
            if self.level == self.frames:
                raise Deep(self.i)
            self.level += 1
            self.i += 1
            v = self.array() if b == 0x5B else self.object()
            self.level -= 1
            return v
        raise Fault(self.i)

    def array(self):
        vs = []
        self.blanks()
        if self.byte() == 0x5D:
            self.i += 1
            return ('arr', vs)
        while True:
            self.blanks()
            vs.append(self.value())
            self.blanks()
            if self.take(b',]') == 0x5D:
                return ('arr', vs)

    def object(self):
        ps = []
        self.blanks()
        if self.byte() == 0x7D:
            self.i += 1
            return ('obj', ps)
        while True:
            self.blanks()
            if self.byte() != 0x22:
                raise Fault(self.i)
            k = self.string()
            self.blanks()
            self.take(b':')
            self.blanks()
            ps.append((k, self.value()))
            self.blanks()
            if self.take(b',}') == 0x7D:
                return ('obj', ps)

    def digits(self):
        self.take(b'0123456789')
        while self.i < len(self.part) and self.part[self.i] in b'0123456789':
            self.i += 1

    def number(self):
        if self.byte() == 0x2D:
            self.i += 1
        begin = self.i
        if self.byte() == 0x30:
            self.i += 1
        else:
            self.digits()
        digits, places, exponent = self.part[begin:self.i], 0, 0
        if self.i < len(self.part) and self.part[self.i] == 0x2E:
            self.i += 1
            self.digits()
            fraction = self.part[begin + len(digits) + 1:self.i]
            digits, places = digits + fraction, len(fraction)
        if self.i < len(self.part) and self.part[self.i] in b'eE':
            self.i += 1
            begin = self.i
            if self.byte() in b'+-':
                self.i += 1
            self.digits()
            exponent = int(self.part[begin:self.i])
        return 'int' if whole(digits, places, exponent) else 'num'

    def unit(self, first):
        hexes = b'0123456789abcdefABCDEF'
        text = b''
        for allowed in first + [hexes] * (4 - len(first)):
            text += bytes([self.take(allowed)])
        return int(text, 16)

    def escape(self):
        self.i += 1
        b = self.take(b'"\\/bfnrtu')
        if b != 0x75:
            return {0x62: 8, 0x66: 12, 0x6E: 10, 0x72: 13, 0x74: 9}.get(b, b)
        hexes = b'0123456789abcdefABCDEF'
        if self.byte() in b'dD':
            self.i += 1
            d = self.take(hexes[:10] + b'abAB')
            u = 0xD000 + (int(chr(d), 16) << 8) + self.tail()
            if u < 0xD800:
                return u
            self.take(b'\\')
            self.take(b'u')
            low = self.unit([b'dD', b'cdefCDEF'])
            return 0x10000 + ((u - 0xD800) << 10) + (low - 0xDC00)
        return self.unit([])

    def tail(self):
        hexes = b'0123456789abcdefABCDEF'
        return int(bytes([self.take(hexes), self.take(hexes)]), 16)

    def string(self):
        self.i += 1
        out = []
        while True:
            b = self.byte()
            if b == 0x22:
                self.i += 1
                return out
            if b == 0x5C:
                out.append(self.escape())
            elif b < 0x20:
                raise Fault(self.i)
            else:
                out.append(self.character())

    def character(self):
        rows = [((0x00, 0x7F),), ((0xC2, 0xDF), (0x80, 0xBF)), ((0xE0, 0xE0), (0xA0, 0xBF), (0x80, 0xBF)),
                ((0xE1, 0xEC), (0x80, 0xBF), (0x80, 0xBF)), ((0xED, 0xED), (0x80, 0x9F), (0x80, 0xBF)),
                ((0xEE, 0xEF), (0x80, 0xBF), (0x80, 0xBF)), ((0xF0, 0xF0), (0x90, 0xBF), (0x80, 0xBF), (0x80, 0xBF)),
                ((0xF1, 0xF3), (0x80, 0xBF), (0x80, 0xBF), (0x80, 0xBF)), ((0xF4, 0xF4), (0x80, 0x8F), (0x80, 0xBF), (0x80, 0xBF))]
        first = self.byte()
        for row in rows:
            if row[0][0] <= first <= row[0][1]:
                begin = self.i
                for low, high in row:
                    self.take(range(low, high + 1))
                return ord(self.part[begin:self.i].decode('utf-8'))
        raise Fault(self.i)


# ---- numbers

def whole(digits, places, exponent):
    """the digits as one number, times ten to the power of the exponent less the places, have no fraction"""
    number, power = int(digits), places - exponent
    if power <= 0 or number == 0:
        return True
    # a power of ten with more digits than the number does not divide it, and may be too large to write down
    return power < len(digits) and number % 10 ** power == 0


# ---- runs of a rule, by searching for an order: one is given up at the first pair that no edge takes

def lines(book):
    return [l.split(' ') for l in book.decode().split('\n')[1:] if l]


def fits(book, kind, v):
    if kind in ('true', 'false', 'null'):
        return v == ('word', kind)
    if kind == 'str':
        return v[0] == 'str'
    if kind == 'num':
        return v[0] == 'num'
    if kind == 'int':
        return v == ('num', 'int')
    return accepts(book, kind[1:], v)


def accepts(book, rule, v):
    rows = [l for l in lines(book) if l[0] == rule]
    if v[0] == 'arr':
        return run(book, [l for l in rows if l[1] == 'arr'], '0', [(None, x) for x in v[1]], False)
    if v[0] == 'obj':
        return run(book, [l for l in rows if l[1] == 'obj'], '0', v[1], True)
    return False


def run(book, rows, state, items, any_order):
    """an accepting run from the state over the items, in their order or in some order"""
    if not items:
        return any(l[2] == state and l[4] == 'end' for l in rows)
    for i in range(len(items) if any_order else 1):
        (k, v), rest = items[i], items[:i] + items[i + 1:]
        for l in rows:
            if l[2] == state and l[4] != 'end' and (k is None or [ord(c) for c in l[3]] == k) and fits(book, l[4], v):
                if run(book, rows, l[5], rest, any_order):
                    return True
    return False


def twice(v):
    if v[0] == 'arr':
        return any(twice(x) for x in v[1])
    if v[0] == 'obj':
        keys = [tuple(k) for k, x in v[1]]
        return len(set(keys)) < len(keys) or any(twice(x) for k, x in v[1])
    return False


def verdict(head, part, frames, book):
    if head:
        return ('refused', 15, 0)
    try:
        v = Text(part, frames).whole()
    except Fault as e:
        return ('refused', 11, e.args[0])
    except Deep as e:
        return ('refused', 12, e.args[0])
    except Ended:
        return ('refused', 14, len(part))
    return ('valid' if not twice(v) and accepts(book, '0', v) else 'invalid', 0, 0)


# ---- the stream on paper

class Paper:
    def __init__(self):
        self.head, self.part, self.tally, self.frames, self.size, self.book, self.edges = True, b'', [0, 0, 0], 0, 0, None, 0
        self.said = []

    def say(self, count, word, number, place):
        self.said.append('%d %s %d %d' % (count, word, number, place))

    def judge(self):
        v = verdict(self.head, self.part, self.frames, self.book)
        self.tally[('valid', 'invalid', 'refused').index(v[0])] += 1
        self.part = b''
        return v

    def refused(self):
        if self.edges > 512 or not 1 <= self.frames <= 64:
            self.say(0, 'call', 23, 0)
        elif self.size < 96 * self.frames:
            self.say(0, 'call', 22, 0)
        else:
            return False
        return True

    def call(self, op, n, piece):
        """what is left of a piece"""
        if op == 'b':
            self.book, self.edges = piece, 0
        if op == 'e':
            self.edges = n
        if op == 'n':
            self.size = n
        if op == 's':
            self.head, self.part, self.tally, self.frames = True, b'', [0, 0, 0], 0
            if self.edges > 512:
                self.say(0, 'call', 23, 0)
            elif self.size < 96:
                self.say(0, 'call', 21, 0)
            else:
                self.frames = min(self.size // 96, 64)
                self.say(0, 'none', 0, 0)
        if op == 'f' and not self.refused():
            return self.feed(piece)
        if op == 'c':
            if not self.refused():
                v = self.judge() if self.part else ('none', 0, 0)
                self.say(0, *v)
                self.head = True
            self.said.append('tally %d %d %d' % tuple(self.tally))
        return b''

    def feed(self, piece):
        for i in range(len(piece)):
            if piece[i:i + 1] == RS:
                v = self.judge() if self.part else None
                self.head = False
                if v:
                    self.say(i + 1, *v)
                    return piece[i + 1:]
            else:
                self.part += piece[i:i + 1]
        self.say(len(piece), 'none', 0, 0)
        return b''


# ---- the calls

NAMES = b'rule form state key value next\n'
BOOK_B = NAMES + (b'0 obj 0 corners r1 1\n0 obj 1 name str 2\n0 obj 2 - end -\n1 arr 0 - r2 0\n1 arr 0 - end -\n'
                  b'2 arr 0 - int 1\n2 arr 1 - int 2\n2 arr 2 - end -\n')
# any tree of arrays of numbers and words
BOOK_ANY = NAMES + b'0 arr 0 - r0 0\n0 arr 0 - num 0\n0 arr 0 - true 1\n0 arr 1 - null 1\n0 arr 0 - end -\n0 arr 1 - end -\n'

DAY = RS + RS.join([b'{"name":"N","corners":[[1,2]]}\n', b'{"name":"N"}\n', b'{"name":', b'', b'[1,]\n'])
BROKEN = RS.join([b'z', b'{"corners":[[1,2],[3,', b'{"corners":[[1,2],[3,4]],"name":"a b"}', b'"ab', b'{"n\\u0061me":"a","corners":[]}', b'[[[[[[[[',
                  b'{"name":"a","name":"b","corners":[]}', b'{"corners":[[1.0,2]],"name":""}', b'01', b'"\\uDC00"', b'"\xe0\x80"', b'"\xed\xa0\x80"',
                  b'"\\ud83d\\ude00"', b'"\\ud83dx', b'nulx', b'{}x', b'\n', b'12', b'-', b'{"corners":[[-0,2e0]],"name":""}',
                  b' { "name" : "\xf0\x9f\x9a\x9c" , "corners" : [ [ 0 , -12 ] ] } ', b'\xef\xbb\xbf{}', b'{"name":"","corners":[],"x":1}', b'[1,2'])
# a number of any value, and then whole ones
BOOK_WHOLE = NAMES + b'0 arr 0 - num 1\n0 arr 1 - int 1\n0 arr 1 - end -\n'
WHOLE = ['1.0', '1e2', '1.50e1', '0e-5', '100e-2', '10e-1', '0.0e-1', '-0.0', '1e-0', '1E+2', '100.0e-2', '0.10e1', '5e-000', '10e-01',
         '1.5e18446744073709551616', '0e-99999999999999999999']
NOT_WHOLE = ['15e-1', '1.5', '1.05e1', '120e-2', '0.01e1', '10.50e0', '10e-02', '10e-65537', '10e-4294967297', '10e-18446744073709551617']
NUMBERS = RS + RS.join([b'[1e-1,%s]' % n.encode() for n in WHOLE + NOT_WHOLE] + [b'[2.5,100,1.0,30e-1]', b'[1,100,10e-2]', b'[1,1.0', b'[1,1.', b'1.0'])
NESTED = RS + RS.join([b'[[[[1],2],[true,null]]]', b'[[[[[[[[[[[[]]]]]]]]]]]]', b'[' * 66, b'[' * 30, b'[1,true,null,null]', b'[1,true,2]', b'[]',
                       b'[1e5,0.5,-0]', b'[01]', b'{"a":[]}', b'[' * 64 + b']' * 64])


class Calls:
    def __init__(self):
        self.paper, self.bytes = Paper(), b''

    def make(self, op, n=0, piece=b''):
        self.bytes += op.encode() + n.to_bytes(2, 'little') + len(piece).to_bytes(2, 'little') + piece
        return self.paper.call(op, n, piece)

    def stream(self, text, size, odd):
        """a text in pieces, the rest of each fed before the next; at every odd-th piece calls that are refused, and in the end a close"""
        n = self.paper.size
        for j in range(0, len(text), size):
            rest = text[j:j + size]
            if odd and (j // size) % odd == odd - 1:
                self.make('n', 96 * self.paper.frames - 1)
                self.make('f', 0, rest)
                self.make('c')
                self.make('n', n)
                book = self.paper.book
                self.make('e', 513)
                self.make('f', 0, rest)
                self.make('c')
                self.make('b', 0, book)
            while rest:
                rest = self.make('f', 0, rest)
        self.make('c')


def all_calls():
    c = Calls()
    c.make('b', 0, BOOK_B)
    for n in (0, 95):
        c.make('n', n)
        c.make('s')
        c.make('f', 0, DAY)
        c.make('c')
    c.make('e', 513)
    c.make('s')
    c.make('f', 0, DAY)
    c.make('b', 0, BOOK_B)
    c.make('n', 6144)
    c.make('s')
    for size in range(1, 41):
        c.make('w', 37 * size % 256)
        c.stream(DAY, size, 0)
    for size in (1, 2, 3, 5, 8, 13, 21, 34, 40):
        c.make('w', 255 - size)
        c.stream(BROKEN, size, 40 // size + 7)
    for n in (96, 191, 192, 287, 288, 480, 6143, 6144, 6240):
        c.make('n', n)
        c.make('w', n % 251)
        c.make('s')
        c.stream(BROKEN, 17, 0)
        c.make('b', 0, BOOK_ANY)
        c.stream(NESTED, 29, 11)
        c.make('c')
        c.stream(NESTED[:9], 4, 0)
        c.make('b', 0, BOOK_B)
        c.stream(DAY, 400, 0)
    c.make('n', 96)
    c.make('s')
    c.make('b', 0, BOOK_WHOLE)
    for size in (1, 2, 3, 4, 5, 7, 11, 19):
        c.make('w', 11 * size)
        c.stream(NUMBERS, size, 0)
    return c


if __name__ == '__main__':
    c = all_calls()
    if sys.argv[1:] == ['write']:
        open(os.path.join(HERE, 'data', 'calls'), 'wb').write(c.bytes)
    elif sys.argv[1:] == ['answer']:
        print('\n'.join(c.paper.said))
    else:
        sys.exit(__doc__)
