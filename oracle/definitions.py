#!/usr/bin/env python3
"""Compares the definitions with the oracle: the checker computes them on random calls and runs.

  definitions.py [--calls N] [--runs N] [--edits K] [--seed S] [--keep DIRECTORY]

The oracle (built by check.sh) answers random calls; each becomes a theorem that the definitions give the same
refusal and details, or the same number, change set, ends, map file and running fold. Then whole runs of K edits, from
the opening: the map file, the fold's file and the tally at the end. Calls that are left out of the runs because
document 01 gives 9, 10 or 11, 2 where the Rust panics, or 7 with detail 4, are compared with what 01 gives by the
oracle's model. Left-out calls that 01 carries out (no line for a group with a line) are passed over.
Outside the gate: it takes some minutes. The theorems are a crate of their own, checked by `rt check` in a copy of the
crates below it, with what of them is built. A theorem that runs past the checker's step limit has no verdict and is
counted apart. Exit code 1 on a difference, or where fewer than N calls have a verdict.
"""
import argparse
import atexit
import os
import re
import shutil
import subprocess
import sys
import tempfile

HERE = os.path.dirname(os.path.abspath(__file__))
ROOT = os.path.dirname(HERE)
ORACLE = os.path.join(HERE, 'target', 'release', 'oracle')

HEAD = '''use Rattle.std.specs.Prelude.{ℕ, ◌≡◌, refl, true, List, [], ◌∷◌, ◌++◌, Float, None, Some}
use Rattle.std.specs.Float.{binary64}
use Rattle.std.specs.Float.Ieee.{of_bits, to_bits, neg}
use Rattle.refusal.specs.Answer.{Answer, refused, done}
use Rattle.rows.specs.Lists.{same_list}
use Rattle.geometry.specs.Point.{at3}
use Rattle.map.specs.declared.SignalKind.TheVariants.{Vehicle, Pedestrian}
use Rattle.map.specs.declared.BulbColor.TheVariants.{Red, Yellow, Green, White}
use Rattle.map.specs.declared.BulbArrow.TheVariants.{NoArrow, Up, Down, Left, Right, UpLeft, UpRight, DownLeft, DownRight}
use Rattle.map.specs.Record.{Map}
use Rattle.changes.specs.ChangeSet.{ChangeSet, no_changes, tally_of}
use Rattle.changes.specs.Running.{State, opening}
use Rattle.files.specs.Files.{read_map, read_changes}
use Rattle.place.specs.declared.Placement.TheVariants.{AtLaneEnd, AtStation, Given}
use Rattle.edit.specs.declared.StopRule.TheVariants.{StopSign, Marking, NoRule}
use Rattle.edit.specs.declared.StopLineChoice.TheVariants.{Automatic, Existing, New, NoLine}
use Rattle.run.specs.Run.{line, signal, links, run_one, run_all, open_all}
use Rattle.compare.proofs.Shown.{shown, shown_links, ending}

abbrev f : ℕ → Float
f n = of_bits binary64 n

abbrev state_of : Answer Map → Answer ChangeSet → State
state_of (done m) (done c) = record { map = m; fold = c; tally = tally_of c }
state_of (done m) (refused n ds) = opening m
state_of (refused n ds) b = opening (record { next = 0; lanes = []; boundaries = []; stop_lines = []; signals = []; crosswalks = []; rules = [] })

'''

# What is compared of an answer. A file of its own: sides and arrows have the same names.
SHOWN = '''use Rattle.std.specs.Prelude.{ℕ, [], ◌∷◌, ◌++◌, Option, None, Some}
use Rattle.refusal.specs.Answer.{Answer, refused, done}
use Rattle.codec.specs.Format
use Rattle.codec.specs.Format.{Bytes}
use Rattle.map.specs.MapFile.{map_file}
use Rattle.changes.specs.ChangeFile.{change_file}
use Rattle.changes.specs.Running.{State}
use Rattle.place.specs.declared.LaneSide.{LaneSide}
use Rattle.place.specs.declared.LaneSide.TheVariants.{Left, Right}
use Rattle.place.specs.declared.SectionNames.{SectionNames}
use Rattle.edit.specs.Edit.{Outcome}

abbrev side_number : LaneSide → ℕ
side_number Left = 0
side_number Right = 1

abbrev names_of : Option SectionNames → Bytes
names_of None = 0 ∷ []
names_of (Some x) = 1 ∷ x.left.lane ∷ side_number x.left.side ∷ x.right.lane ∷ side_number x.right.side ∷ []

abbrev left : Outcome → Bytes
left o = change_file.write o.changes ++ names_of o.ends ++ map_file.write o.state.map ++ change_file.write o.state.fold

abbrev pub shown : Answer Outcome → Bytes
shown (refused n ds) = 0 ∷ n ∷ ds
shown (done o) = 1 ∷ o.id ∷ left o

-- set_regulatory_links answers no number
abbrev pub shown_links : Answer Outcome → Bytes
shown_links (refused n ds) = 0 ∷ n ∷ ds
shown_links (done o) = 1 ∷ 0 ∷ left o

abbrev pub ending : State → Bytes
ending s = s.tally.created ∷ s.tally.modified ∷ s.tally.deleted ∷ map_file.write s.map ++ change_file.write s.fold
'''

# The crates that the theorems name.
COMPARED = 'refusal rows geometry codec map changes files place edit run'

KINDS = ['Vehicle', 'Pedestrian']
COLORS = ['Red', 'Yellow', 'Green', 'White']
ARROWS = ['NoArrow', 'Up', 'Down', 'Left', 'Right', 'UpLeft', 'UpRight', 'DownLeft', 'DownRight']
RULES = ['StopSign', 'Marking', 'NoRule']


def listed(items):
    return ' ∷ '.join(list(items) + ['[]']) if items else '[]'


def numbers(text):
    """Bytes in hexadecimal digits as a list."""
    text = '' if text == '-' else text
    return listed([str(int(text[i:i + 2], 16)) for i in range(0, len(text), 2)])


class Tokens:
    def __init__(self, line):
        self.words = line.split(' ')
        self.at = 0

    def word(self):
        self.at += 1
        return self.words[self.at - 1]

    def number(self):
        return int(self.word())

    def double(self):
        return 'f 0x%s' % self.word()

    def numbers(self):
        return '(%s)' % listed([str(self.number()) for _ in range(self.number())])

    def coordinates(self):
        return '(%s)' % listed([self.double() for _ in range(3 * self.number())])

    def placement(self):
        """The placement and the coordinates beside it."""
        kind = self.number()
        if kind == 0:
            return '(AtLaneEnd (%s))' % self.double(), '[]'
        if kind == 1:
            return '(AtStation (%s))' % self.double(), '[]'
        return 'Given', self.coordinates()

    def option(self, read):
        return 'None' if self.number() == 0 else '(Some (%s))' % read()

    def bulb(self):
        x, y, z = self.double(), self.double(), self.double()
        return 'record { position = at3 (%s) (%s) (%s); color = %s; arrow = %s }' % (
            x, y, z, COLORS[self.number()], ARROWS[self.number()])

    def bulbs(self):
        return listed(['(%s)' % self.bulb() for _ in range(self.number())])

    def choice(self):
        kind = self.number()
        if kind == 0:
            return 'Automatic', '[]'
        if kind == 1:
            return '(Existing %d)' % self.number(), '[]'
        if kind == 2:
            placement, points = self.placement()
            return '(New %s)' % placement, points
        return 'NoLine', '[]'

    def edit(self):
        name = self.word()
        if name == 'line':
            lanes = self.numbers()
            placement, points = self.placement()
            return 'line (record { lanes = %s; placement = %s; points = %s; rule = %s })' % (
                lanes, placement, points, RULES[self.number()])
        if name == 'light':
            lanes = self.numbers()
            choice, points = self.choice()
            housing = self.option(self.coordinates)
            height = self.option(self.double)
            kind = KINDS[self.number()]
            bulbs = self.option(self.bulbs)
            group = self.option(self.word)
            return ('signal (record { lanes = %s; choice = %s; points = %s; housing = %s; height = %s; kind = %s; '
                    'bulbs = %s; group = %s })' % (lanes, choice, points, housing, height, kind, bulbs, group))
        rule = self.number()
        return 'links (record { rule = %d; lanes = %s; crosswalks = %s; stop_lines = %s })' % (
            rule, self.numbers(), self.numbers(), self.numbers())


def requests(text):
    """Pairs of request and answer."""
    request = None
    for row in text.splitlines():
        if row.startswith('#'):
            continue
        if row.startswith('= '):
            yield request, row[2:]
        else:
            request = row


def asked(seed, runs, size):
    done = subprocess.run([ORACLE, 'generate', '--seed', str(seed), '--runs', str(runs), '--size', size, '--left-out'],
                          capture_output=True, text=True)
    if done.returncode:
        sys.exit('definitions.py: the oracle failed: ' + done.stderr[-2000:])
    return requests(done.stdout)


def named(words):
    """The words of ENDS as a list: 0, or 1 and the names."""
    return listed(['1'] + words[1:] if words[0] == '+' else ['0'])


def theorem(name, term, expected):
    return '%s : same_list (%s) (%s) ≡ true\nunfolding open_all neg to_bits\n%s = refl\n\n' % (name, term, expected, name)


def call_theorems(pairs, most):
    """A theorem for each call, on the state that the calls before it left."""
    here, fold, out, left = None, '00000000', [], {}
    for request, answer in pairs:
        word = request.split(' ')[0]
        if word == 'map':
            here, fold = request.split(' ')[1], '00000000'
            left = {'done': 5, 'refused': 2, 'out': 1}
        if word not in ('line', 'light', 'links'):
            continue
        parts = answer.split(' ')
        if parts[0] not in ('done', 'refused', 'out'):
            sys.exit('definitions.py: the oracle answered ' + answer[:200])
        if answer == 'out 0':
            continue
        # a long map file would not be computed within the step limit
        if len(here) <= 2400 and len(out) < most and left[parts[0]]:
            left[parts[0]] -= 1
            show = 'shown_links' if word == 'links' else 'shown'
            term = '%s (run_one (%s) (state_of (read_map (%s)) (read_changes (%s))))' % (
                show, Tokens(request).edit(), numbers(here), numbers(fold))
            if parts[0] == 'done':
                lists = [numbers(parts[2]), named(parts[3:-2]), numbers(parts[-2]), numbers(parts[-1])]
                expected = listed(['1', parts[1]]).replace('[]', '') + ' (' + ') ++ ('.join(lists) + ')'
            else:
                expected = listed(['0'] + parts[1:])
            out.append((term, expected, word + ' ' + answer[:60]))
        if parts[0] == 'done':
            here, fold = parts[-2], parts[-1]
    return out


def run_theorems(pairs, most, edits):
    """A theorem for each run of that many edits: where it ends. Runs with a call that is left out are passed over."""
    out, start, es, end = [], None, [], None

    def close():
        if start and len(es) == edits and len(start) <= 2400 and len(out) < most:
            here, fold, counts = end
            term = 'ending (run_all (%s) (state_of (read_map (%s)) (done no_changes)))' % (
                listed(['(%s)' % e for e in es]), numbers(start))
            expected = ' ∷ '.join(counts) + ' ∷ (%s) ++ (%s)' % (numbers(here), numbers(fold))
            out.append((term, expected, 'run of %d edits' % edits))

    for request, answer in pairs:
        word = request.split(' ')[0]
        if word == 'map':
            close()
            start, es, end = request.split(' ')[1], [], (request.split(' ')[1], '00000000', ['0', '0', '0'])
        if word in ('line', 'light', 'links') and start:
            parts = answer.split(' ')
            if len(es) == edits:
                continue
            if parts[0] == 'out':
                start = None
                continue
            es.append(Tokens(request).edit())
            if parts[0] == 'done':
                end = (parts[-2], parts[-1], counts_of(parts[-1]))
    close()
    return out


def counts_of(fold):
    """The three counts of a change set file."""
    data, at, counts = bytes.fromhex(fold), 0, []

    def number():
        nonlocal at
        value, shift = 0, 0
        while True:
            byte = data[at]
            at += 1
            value |= (byte % 128) << shift
            shift += 7
            if byte < 128:
                return value
    for _ in range(3):
        count = number()
        counts.append(str(count))
        for _ in range(2 * count):
            number()
    return counts


def copied(where):
    """Copies the crates below the theorems, with the libraries that are built, and lists them."""
    rows = [row.partition('#')[0].partition(':') for row in open(os.path.join(ROOT, 'crates.txt'))]
    needs = {head.strip(): below.split() for head, _, below in rows if head.strip()}
    ahead, below = COMPARED.split(), set()
    while ahead:
        name = ahead.pop()
        if name in needs and name not in below:
            below.add(name)
            ahead += needs[name]
    for name in below:
        shutil.copytree(os.path.join(ROOT, 'crates', name), os.path.join(where, 'crates', name), dirs_exist_ok=True,
                        ignore=shutil.ignore_patterns('incremental', 'must-fail'))
    with open(os.path.join(where, 'crates.txt'), 'w') as out:
        for name in sorted(below):
            out.write('%s: %s\n' % (name, ' '.join(needs[name])))
        out.write('compare: %s\n' % COMPARED)


def check(where, items, names):
    """Writes the theorems, ten a file, and has the checker compute them; answers the names that failed, and those without a verdict."""
    crate = os.path.join(where, 'crates', 'compare')
    shutil.rmtree(crate, ignore_errors=True)
    os.makedirs(os.path.join(crate, 'src'))
    os.makedirs(os.path.join(crate, 'proofs'))
    open(os.path.join(crate, 'src', 'lib.rt'), 'w').write('// Definitions against the oracle.\n#![tactic(auto)]\n')
    open(os.path.join(crate, 'proofs', 'Shown.antt'), 'w').write(SHOWN)
    modules = ['Shown']
    for i in range(0, len(items), 10):
        module = 'Some%d' % (i // 10)
        modules.append(module)
        with open(os.path.join(crate, 'proofs', module + '.antt'), 'w') as out:
            out.write(HEAD + ''.join(theorem(names[j], items[j][0], items[j][1]) for j in range(i, min(i + 10, len(items)))))
    open(os.path.join(crate, 'proofs', 'Lib.antt'), 'w').write(''.join('mod %s\n' % m for m in modules))
    done = subprocess.run(['rt', 'check'], cwd=crate, capture_output=True, text=True)
    text = done.stdout + done.stderr
    failed, silent = set(), set()
    for row in text.splitlines():
        fault = re.match(r'(?:\./)?proofs/\w+\.antt:\d+:\d+: error: (?:`((?:call|run)\d+)`: )?(.*)', row)
        if not fault:
            continue
        # no theorem's own fault: an import, or a definition that theorems stand on
        if not fault.group(1):
            sys.exit('definitions.py: ' + row[:300])
        # names in a printed term may hold the word step
        (silent if 'the step limit' in fault.group(2) or 'no verdict' in fault.group(2) else failed).add(fault.group(1))
    # 1: refused, 3: no verdict on some of them
    if done.returncode and (done.returncode not in (1, 3) or not failed and not silent):
        print('\n'.join(row[:300] for row in text.splitlines() if 'error' in row or 'step' in row)[:3000] or text[-3000:])
        sys.exit('definitions.py: the checker failed')
    return failed, silent


def main():
    parser = argparse.ArgumentParser()
    parser.add_argument('--calls', type=int, default=300)
    parser.add_argument('--runs', type=int, default=20)
    parser.add_argument('--edits', type=int, default=5)
    parser.add_argument('--seed', type=int, default=1)
    parser.add_argument('--keep')
    options = parser.parse_args()
    where = options.keep or tempfile.mkdtemp()
    if not options.keep:
        atexit.register(shutil.rmtree, where, ignore_errors=True)
    copied(where)
    # on lanes laid on one another several sides lie equally far out
    calls = call_theorems(asked(options.seed, 20 + options.calls, 'small'), options.calls) + call_theorems(
        asked(options.seed + 2, 20 + options.calls // 3, 'shared'), options.calls // 3)
    runs = run_theorems(asked(options.seed + 1, 40 * options.runs, 'small'), options.runs + options.runs // 5, options.edits)
    items = calls + runs
    names = ['call%d' % i for i in range(len(calls))] + ['run%d' % i for i in range(len(runs))]
    failed, silent = set(), set()
    # a hundred theorems at a time: memory stays small, and a stop at the step limit is found by halves
    stack = [list(range(i, min(i + 100, len(items)))) for i in range(0, len(items), 100)]
    while stack:
        part = stack.pop()
        try:
            f, s = check(where, [items[i] for i in part], [names[i] for i in part])
        except SystemExit:
            if len(part) == 1:
                silent.add(names[part[0]])
                continue
            half = len(part) // 2
            stack += [part[:half], part[half:]]
            continue
        failed |= f
        silent |= s
    for i, name in enumerate(names):
        if name in failed:
            print('DIFFERS', name, items[i][2])
    kinds = {}
    for i, name in enumerate(names):
        if name not in failed and name not in silent:
            kinds[items[i][2].split(' ')[0]] = kinds.get(items[i][2].split(' ')[0], 0) + 1
    good_calls = sum(1 for i, n in enumerate(names) if n.startswith('call') and n not in silent)
    good_runs = sum(1 for i, n in enumerate(names) if n.startswith('run') and n not in silent)
    print('%d calls, %d runs of %d edits compared, %d without a verdict; %s' % (
        good_calls, good_runs, options.edits, len(silent), ', '.join('%s %d' % p for p in sorted(kinds.items()))))
    print('%d differences' % len(failed))
    sys.exit(1 if failed or good_calls < options.calls or good_runs < options.runs else 0)


main()
