#!/usr/bin/env python3
"""Runs a program on small worked inputs whose output is known.

usage: worked.py PROGRAM
"""
import os
import subprocess
import sys

sys.path.insert(0, os.path.dirname(os.path.abspath(__file__)))
sys.dont_write_bytecode = True
from generate import *

L = [(0, 1, []), (5, 2, [(7, 3)]), (9, 2, [(7, None)]), (12, 3, [])]
L3 = [L[0], L[1], (9, 2, [(7, 3)]), L[3]]
L4 = [L[0], L[1], (9, 2, [(7, 4)]), L[3]]


def value_is_3(v):
    return [row(EQUAL), row(VALUE, v, 7), row(CONSTANT, number=3)]


A = [row(OCCURRENCE, 2, number=1)] + value_is_3(0)
B = [row(OCCURRENCE, 2, number=2)] + value_is_3(0)
C = [row(AFTER, 2, EACH), row(TRUE), row(OCCURRENCE, 3, number=1), row(TRUE)]
D = [row(AFTER, 2, LAST)] + value_is_3(0) + [row(ABSENCE, 2), row(TRUE)]


def within(d):
    return [row(AFTER, 1, FIRST, 0, d), row(TRUE), row(OCCURRENCE, 2, number=2), row(TRUE)]


def before_within(d):
    return [row(BEFORE, 3, EACH, 0, d), row(TRUE), row(OCCURRENCE, 2, number=2), row(TRUE)]


BEFORE_FIRST = [row(BEFORE, 3, FIRST), row(TRUE), row(ABSENCE, 1), row(TRUE)]
NONE_WANTED = [row(OCCURRENCE, 9, number=0), row(TRUE)]


def quotient(x, y, z):
    return [row(OCCURRENCE, 1, number=1), row(EQUAL), row(QUOTIENT), row(CONSTANT, number=x),
            row(CONSTANT, number=y), row(CONSTANT, number=z)]


# 0 times an unread value has no value.
ZERO_TIMES = [row(ABSENCE, 2), row(EQUAL), row(PRODUCT), row(CONSTANT), row(VALUE, 0, 7),
              row(CONSTANT, number=1)]
# The first 2 with value 7 below 3 may be place 2, if any is.
FIRST_OPEN = [row(AFTER, 2, FIRST), row(LESS), row(VALUE, 0, 7), row(CONSTANT, number=3),
              row(ABSENCE, 3), row(TRUE)]
ONE = [(0, 1, [(7, 3), (7, None), (8, 1)])]


def quantified(kind, number):
    return [row(GIVEN, 1, EACH), row(TRUE), row(kind, 0, 7), row(OCCURRENCE, 1, number=1),
            row(EQUAL), row(NUMBER, 1), row(CONSTANT, number=number)]


def one(rule, log):
    return sheet_bytes([rule]) + image_bytes(log)


CASES = [
    ('A on L', one(A, L), '0 holds'),
    ('B on L', one(B, L), '0 open 2 2 3'),
    ('B, place 2 filled with 3', one(B, L3), '0 holds'),
    ('B, place 2 filled with 4', one(B, L4), '0 fails'),
    ('C on L', one(C, L), '0 holds'),
    ('D on L', one(D, L), '0 open 2 2 3'),
    ('D, place 2 filled with 3', one(D, L3), '0 holds'),
    ('D, place 2 filled with 4', one(D, L4), '0 fails'),
    ('within 9 after first 1', one(within(9), L), '0 fails'),
    ('within 10 after first 1', one(within(10), L), '0 holds'),
    ('within 7 before each 3', one(before_within(7), L), '0 fails'),
    ('within 8 before each 3', one(before_within(8), L), '0 holds'),
    ('before first 3, absence of 1', one(BEFORE_FIRST, L), '0 fails'),
    ('C on the empty log', one(C, []), '0 holds'),
    ('occurrence 0 on the empty log', one(NONE_WANTED, []), '0 holds'),
    ('A on the empty log', one(A, []), '0 fails'),
    ('-7 / 2 is -3', one(quotient(-7, 2, -3), L), '0 holds'),
    ('-7 / 2 is not -4', one(quotient(-7, 2, -4), L), '0 fails'),
    ('lowest / -1', one(quotient(LOWEST, -1, 0), L), '0 open 2 0 4'),
    ('5 / 0', one(quotient(5, 0, 0), L), '0 open 2 0 5'),
    ('A then B on L', sheet_bytes([A, B]) + image_bytes(L), '0 holds\n1 open 6 2 3'),
    ('0 times unread', one(ZERO_TIMES, L), '0 open 4 2 3'),
    ('first may be an open one', one(FIRST_OPEN, L), '0 open 2 2 3'),
    ('forall, one unread', one(quantified(FORALL, 3), ONE), '0 open 5 0 3'),
    ('forall, one not equal', one(quantified(FORALL, 4), ONE), '0 fails'),
    ('exists, one equal', one(quantified(EXISTS, 3), ONE), '0 holds'),
    ('exists, one unread', one(quantified(EXISTS, 4), ONE), '0 open 5 0 3'),
    ('no value coded so', one([row(ABSENCE, 1)] + value_is_3(0), L), '0 open 2 0 1'),
    ('several values coded so', one([row(ABSENCE, 1)] + value_is_3(0), ONE), '0 open 2 0 2'),
    ('nothing at all', b'', 'refused 6 0'),
    ('no rules', sheet_bytes([A], count=0) + image_bytes(L), 'refused 6 0'),
    ('65 rows', sheet_bytes([A], rows=65) + bytes(600), 'refused 6 0'),
    ('rows run out', one(A[:3], L), 'refused 6 3'),
    ('a row left over', one(A + [row(TRUE)], L), 'refused 6 4'),
    ('unknown variable', one([row(OCCURRENCE, 2, number=1)] + value_is_3(1), L), 'refused 6 2'),
    ('a ninth binding row', one([row(GIVEN, 1, EACH), row(TRUE)] * 8
                                + [row(ABSENCE, 1), row(TRUE)], L), 'refused 6 16'),
    ('an eighth binding row', one([row(GIVEN, 1, EACH), row(TRUE)] * 7
                                  + [row(ABSENCE, 9), row(TRUE)], L), '0 holds'),
    ('no image', sheet_bytes([A]), 'refused 12 65535'),
    ('a byte too many', one(A, L) + b'\0', 'refused 12 65535'),
    ('times fall', one(A, [L[1], L[0], L[3]]), 'refused 12 1'),
    ('too long', one(A, L) + bytes(64520), 'refused 13'),
    ('the most that fits, and no sheet', bytes(64520), 'refused 6 0'),
]


def main():
    if len(sys.argv) != 2:
        sys.exit(__doc__)
    bad = 0
    for title, data, wanted in CASES:
        got = subprocess.run([sys.argv[1]], input=data, stdout=subprocess.PIPE).stdout
        if got != wanted.encode() + b'\n':
            bad += 1
            print('%s: wanted %r, got %r' % (title, wanted, got))
    print('%d worked inputs, %d wrong' % (len(CASES), bad))
    sys.exit(1 if bad else 0)


if __name__ == '__main__':
    main()
