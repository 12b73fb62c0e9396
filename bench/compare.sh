#!/bin/sh
# Runs PROGRAM and the plain program on random inputs and compares what they print.
#
# usage: compare.sh PROGRAM [NUMBER [SEED]]
#
# PROGRAM is an executable that reads standard input.  Exit 1 if any output differs.
# PLAIN may name a plain program already built; KEEP a folder for the inputs.
set -eu
here=$(cd "$(dirname "$0")" && pwd)
[ $# -ge 1 ] || { sed -n '2,7s/^# \{0,1\}//p' "$0" >&2; exit 2; }
program=$1
number=${2:-2000}
seed=${3:-1}
[ -x "$program" ] || { echo "compare.sh: not an executable: $program" >&2; exit 2; }
program=$(cd "$(dirname "$program")" && pwd)/$(basename "$program")

work=$(mktemp -d)
trap 'rm -rf "$work"' EXIT
plain=${PLAIN:-$work/plain}
[ -n "${PLAIN:-}" ] || rustc --edition 2021 -O "$here/plain.rs" -o "$plain"
cases=${KEEP:-$work/cases}
python3 "$here/generate.py" "$cases" "$number" "$seed"

exec_status=0
python3 - "$program" "$plain" "$cases" "$number" <<'PY' || exec_status=$?
import collections, os, subprocess, sys

program, plain, folder, number = sys.argv[1], sys.argv[2], sys.argv[3], int(sys.argv[4])


def run(path, name):
    """What the program prints, and how it ended if not well."""
    with open(name, 'rb') as stdin:
        try:
            done = subprocess.run([path], stdin=stdin, stdout=subprocess.PIPE,
                                  stderr=subprocess.PIPE, timeout=20)
        except subprocess.TimeoutExpired:
            return b'', 'no end within 20 s'
    note = '' if done.returncode == 0 else 'exit %d %s' % (
        done.returncode, done.stderr.decode('utf-8', 'replace').strip()[:300])
    return done.stdout, note


equal, differ, ended = 0, [], 0
kinds = collections.Counter()
for i in range(number):
    name = os.path.join(folder, '%05d.in' % i)
    wanted, _ = run(plain, name)
    got, note = run(program, name)
    for line in wanted.decode().splitlines():
        words = line.split()
        if words[0] == 'refused':
            kinds['refused ' + words[1]] += 1
        elif words[1] == 'open':
            kinds['open, cause ' + words[4]] += 1
        else:
            kinds[words[1]] += 1
    ended += note != ''
    if got == wanted:
        equal += 1
    else:
        differ.append((name, wanted, got, note))

print('%d inputs: %d outputs equal, %d differ' % (number, equal, len(differ)))
print('lines of the plain program: '
      + ', '.join('%s %d' % kind for kind in sorted(kinds.items())))
if ended:
    print('%d runs of the program did not end with exit code 0' % ended)
for name, wanted, got, note in differ[:5]:
    print('--- %s %s' % (os.path.basename(name), note))
    with open(name, 'rb') as f:
        data = f.read()
    print('input (%d bytes): %s%s' % (len(data), data[:400].hex(), '...' if len(data) > 400 else ''))
    print('plain:   %r' % wanted.decode())
    print('program: %r' % got.decode('utf-8', 'replace')[:1000])
sys.exit(1 if differ else 0)
PY
exit $exec_status
