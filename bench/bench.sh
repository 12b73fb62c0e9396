#!/bin/sh
# Times PROGRAM and the plain program on logs of 2,000 events, the most that fit.
#
# usage: bench.sh PROGRAM [REPETITIONS]
#
# One rule a sheet.  Each number is the best of the repetitions (30 unless said otherwise; fewer,
# at least 3, where a run takes long), in milliseconds, wall clock, the start of the process and
# the reading included.  The two are run in turn.  The first line, a rule over an empty log, shows
# how much of it that is.
# PLAIN may name a plain program already built.
set -eu
here=$(cd "$(dirname "$0")" && pwd)
[ $# -ge 1 ] || { sed -n '2,10s/^# \{0,1\}//p' "$0" >&2; exit 2; }
program=$1
repetitions=${2:-30}
[ -x "$program" ] || { echo "bench.sh: not an executable: $program" >&2; exit 2; }
program=$(cd "$(dirname "$program")" && pwd)/$(basename "$program")

work=$(mktemp -d)
trap 'rm -rf "$work"' EXIT
plain=${PLAIN:-$work/plain}
[ -n "${PLAIN:-}" ] || rustc --edition 2021 -O "$here/plain.rs" -o "$plain"

status=0
PYTHONDONTWRITEBYTECODE=1 PYTHONPATH=$here python3 - "$program" "$plain" "$work" "$repetitions" <<'PY' || status=$?
import os, subprocess, sys, time
from generate import *

program, plain, work, repetitions = sys.argv[1], sys.argv[2], sys.argv[3], int(sys.argv[4])
EVENTS = 2000


def events(at):
    """2,000 events: at(i) is (name, values); two milliseconds lie between neighbours."""
    return [(2 * i,) + at(i) for i in range(EVENTS)]


def in_turn(*names):
    return events(lambda i: (names[i % len(names)], []))


A, B, C = 1, 2, 3
SHAPES = [
    ('one rule, empty log', [row(ABSENCE, A), row(TRUE)], []),
    ('one rule that asks nothing', [row(OCCURRENCE, A), row(TRUE)], in_turn(A)),
    # half of the events pass the condition, one too few
    ('occurrence 1001 of a where value 7 < 5',
     [row(OCCURRENCE, A, number=1001), row(LESS), row(VALUE, 0, 7), row(CONSTANT, number=5)],
     events(lambda i: (A, [(6, i), (7, i % 10)]))),
    # call, something, reply, something
    ('within 10 after each call, occurrence 1 of reply',
     [row(AFTER, A, EACH, 0, 10), row(TRUE), row(OCCURRENCE, B, number=1), row(TRUE)],
     in_turn(A, C, B, C)),
    # each a holds two values coded 7; each is answered by the next b or the one after it
    ('after each a, forall values 7 of a, occurrence 1 of b with that value',
     [row(AFTER, A, EACH), row(TRUE), row(FORALL, 0, 7), row(OCCURRENCE, B, number=1),
      row(EQUAL), row(VALUE, 2, 7), row(NUMBER, 1)],
     events(lambda i: (A, [(7, 0), (7, 1)]) if i % 5 == 0 else (B, [(7, i % 2)]))),
    # a, something, b, c in turn: the c stands after the b
    ('after each a, before first b, absence of c',
     [row(AFTER, A, EACH), row(TRUE), row(BEFORE, B, FIRST), row(TRUE), row(ABSENCE, C), row(TRUE)],
     in_turn(A, 4, B, C)),
    # quadratic: every a looks through all that follows for its single b
    ('after each a, after each b, absence of c; one b, at the end',
     [row(AFTER, A, EACH), row(TRUE), row(AFTER, B, EACH), row(TRUE), row(ABSENCE, C), row(TRUE)],
     events(lambda i: (B if i == EVENTS - 1 else A, []))),
    # each pair of an a and a b looks through all that follows
    ('after each a, after each b, absence of c; 100 a, then 100 b',
     [row(AFTER, A, EACH), row(TRUE), row(AFTER, B, EACH), row(TRUE), row(ABSENCE, C), row(TRUE)],
     events(lambda i: (4 if i % 10 else A if i < EVENTS // 2 else B, []))),
]


def once(path, name):
    """Milliseconds of one run."""
    with open(name, 'rb') as stdin, open(os.devnull, 'wb') as out:
        moves = [(os.POSIX_SPAWN_DUP2, stdin.fileno(), 0), (os.POSIX_SPAWN_DUP2, out.fileno(), 1)]
        start = time.perf_counter()
        process = os.posix_spawn(path, [path], os.environ, file_actions=moves)
        os.waitpid(process, 0)
        return 1000 * (time.perf_counter() - start)


def best(name):
    """The best time of each of the two, run in turn."""
    mine, theirs = [], []
    while len(mine) < repetitions and (sum(mine) + sum(theirs) < 10000 or len(mine) < 3):
        mine.append(once(program, name))
        theirs.append(once(plain, name))
    return min(mine), min(theirs)


def says(path, name):
    with open(name, 'rb') as stdin:
        return subprocess.run([path], stdin=stdin, stdout=subprocess.PIPE).stdout


width = max(len(title) for title, _, _ in SHAPES)
print('%-*s  %-12s %10s %10s' % (width, 'milliseconds, best of %d' % repetitions, 'answer',
                                 'program', 'plain'))
differ = 0
for title, rule, log in SHAPES:
    name = os.path.join(work, 'input')
    with open(name, 'wb') as out:
        out.write(sheet_bytes([rule]) + image_bytes(log))
    wanted, got = says(plain, name), says(program, name)
    answer = wanted.decode().strip()
    if got != wanted:
        differ += 1
        answer += ' (program: %s)' % got.decode('utf-8', 'replace').strip()
    print('%-*s  %-12s %10.2f %10.2f' % ((width, title, answer) + best(name)), flush=True)
sys.exit(1 if differ else 0)
PY
exit $status
