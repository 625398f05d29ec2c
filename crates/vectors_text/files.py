#!/usr/bin/env python3
"""What the requirement says to each file of data/, judged behind an RS under book.txt with 64 frames.

files.py names   writes data/names, one file name to a line
files.py answer  prints what the program must write: a line for each verdict of each file, then the summary

The verdicts are those of the paper, calls.py of vectors_stream: no pieces, no frames, no tables, no states."""
import os, sys

HERE = os.path.dirname(os.path.abspath(__file__))
DATA = os.path.join(HERE, 'data')
sys.dont_write_bytecode = True
sys.path.insert(0, os.path.join(HERE, '..', 'vectors_stream'))
import calls


def content(name):
    with open(os.path.join(DATA, name), 'rb') as f:
        return f.read()


def verdicts(text, book):
    """one for each nonempty part behind an RS"""
    return [calls.verdict(False, part, 64, book) for part in text.split(calls.RS) if part]


def is_json(vs):
    return len(vs) == 1 and vs[0][0] != 'refused'


def answer():
    book, found = content('book.txt'), {'y': [], 'n': [], 'i': []}
    for name in content('names').decode().split():
        vs = verdicts(content(name), book)
        for v in vs or [('none', 0, 0)]:
            print(name, *v)
        found[name[0]].append(is_json(vs))
    print('y_ JSON %d of %d' % (sum(found['y']), len(found['y'])))
    print('n_ not JSON %d of %d' % (found['n'].count(False), len(found['n'])))
    print('i_ JSON %d and not %d' % (sum(found['i']), found['i'].count(False)))


if __name__ == '__main__':
    if sys.argv[1:] == ['names']:
        names = sorted(n for n in os.listdir(DATA) if n.endswith('.json'))
        with open(os.path.join(DATA, 'names'), 'w') as f:
            f.write('\n'.join(names) + '\n')
    elif sys.argv[1:] == ['answer']:
        answer()
    else:
        sys.exit(__doc__)
