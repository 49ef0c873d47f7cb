#!/usr/bin/env python3
"""Checks random cases of the official conformance files against the definitions, as equations that hold by computation.

usage: official_cases.py classes|characters COUNT [--seed N] [--skip N] [--ucd FOLDER] [--batch N] [--print]

classes: cases of BidiTest.txt (a row under one of its directions): levels and order.
characters: rows of BidiCharacterTest.txt: the first paragraph's level, levels and order; classes and keys of brackets
come from DerivedBidiClass.txt and BidiBrackets.txt.

The script shuffles the cases with the seed, skips the first --skip of them and takes COUNT. So runs with one seed can
take different cases. Each batch becomes a file of equations in a copy of crates/units outside the repository, each
proved by `refl` alone. `rt check` then checks the copy. With --print the script prints the equations and checks
nothing. The files are those of Debian's package unicode-data (/usr/share/unicode)."""
import argparse
import bisect
import os
import random
import shutil
import subprocess
import sys
import tempfile
import time
import unicodedata

HEAD = """-- Cases of the official conformance files.
use Rattle.std.specs.Prelude.{Option, ℕ, ◌≡◌, List, [], ◌∷◌, Some, None, map, refl}
use Rattle.units.specs.Layout.{TextLayout, layout_of, all_orders}
use Rattle.units.specs.Limits.{standard}
use Rattle.units.specs.Rows.{plain, laid_out, layouts_compute}
use Rattle.units.specs.declared.class.Class.{Class}
use Rattle.units.specs.declared.class.Class.TheVariants.{\
L, R, AL, EN, ES, ET, AN, CS, NSM, BN, B, S, WS, ON, LRE, LRO, RLE, RLO, PDF, LRI, RLI, FSI, PDI}
use Rattle.units.specs.declared.bracket.Bracket.{Bracket}
use Rattle.units.specs.declared.bracket.Bracket.TheVariants.{No, Open, Close}
use Rattle.units.specs.declared.bracket.Unit.{Unit as BidiUnit}
use Rattle.units.specs.declared.level.Direction.{Direction}
use Rattle.units.specs.declared.level.Direction.TheVariants.{Auto, Ltr, Rtl}

abbrev pub with_bracket : Class → Bracket → BidiUnit
with_bracket c b = record { class = c; bracket = b }

abbrev pub first_of : List ℕ → Option ℕ
first_of [] = None
first_of (level ∷ levels) = Some level

abbrev pub claimed : TextLayout → Option ℕ × List (Option ℕ) × List ℕ
claimed layout = (first_of layout.paras, layout.levels, all_orders layout)

abbrev pub with_level : List BidiUnit → Direction → Option ℕ × List (Option ℕ) × List ℕ
with_level text direction = claimed (layout_of standard text direction [])
"""

OPENED = 'layouts_compute'

SHORT_NAMES = {
    'Left_To_Right': 'L',
    'Right_To_Left': 'R',
    'Arabic_Letter': 'AL',
    'European_Terminator': 'ET',
    'Boundary_Neutral': 'BN',
}
DIRECTIONS = {'0': 'Ltr', '1': 'Rtl', '2': 'Auto'}


def listed(items):
    return ' ∷ '.join(list(items) + ['[]'])


def levels_text(items):
    return listed('None' if x == 'x' else 'Some ' + x for x in items)


def equation(name, left, right):
    return 'pub %s : %s ≡ %s\nunfolding %s\n%s = refl\n' % (name, left, right, OPENED, name)


def data_lines(folder, name):
    """Returns the lines of a file with their numbers."""
    for place in (folder, folder + '/extracted'):
        if os.path.exists(place + '/' + name):
            with open(place + '/' + name, encoding='utf-8') as file:
                return list(enumerate(file, 1))
    sys.exit('no %s in %s' % (name, folder))


def class_cases(folder):
    found, level_items, order = [], None, None
    for number, line in data_lines(folder, 'BidiTest.txt'):
        line = line.split('#')[0].strip()
        if line.startswith('@Levels:'):
            level_items = line[8:].split()
        elif line.startswith('@Reorder:'):
            order = line[9:].split()
        elif line and not line.startswith('@'):
            classes, bits = line.split(';')
            for bit, direction in ((1, 'Auto'), (2, 'Ltr'), (4, 'Rtl')):
                if int(bits) & bit:
                    found.append((number, classes.split(), direction, level_items, order))
    return found


def class_equation(case):
    number, classes, direction, level_items, order = case
    return equation('line-%d-%s' % (number, direction.lower()),
                    'laid_out (map plain (%s)) %s' % (listed(classes), direction),
                    '(%s, %s)' % (levels_text(level_items), listed(order)))


def class_table(folder):
    """Returns the class of a code point: that of its data line, else of the last default line that has it, else L."""
    spans, defaults = [], []
    for _, line in data_lines(folder, 'DerivedBidiClass.txt'):
        default = line.startswith('# @missing:')
        line = line[len('# @missing:'):] if default else line.split('#')[0]
        if line.strip():
            points, name = [x.strip() for x in line.split(';')]
            first, _, last = points.partition('..')
            span = (int(first, 16), int(last or first, 16), SHORT_NAMES.get(name, name))
            (defaults if default else spans).append(span)
    spans.sort()
    starts = [span[0] for span in spans]

    def class_of(point):
        k = bisect.bisect(starts, point) - 1
        if k >= 0 and point <= spans[k][1]:
            return spans[k][2]
        return ([name for first, last, name in defaults if first <= point <= last] or ['L'])[-1]
    return class_of


def bracket_table(folder):
    keys, brackets = {}, {}

    def key(point):
        return keys.setdefault(unicodedata.normalize('NFD', chr(point)), len(keys) + 1)
    for _, line in data_lines(folder, 'BidiBrackets.txt'):
        line = line.split('#')[0].strip()
        if line:
            point, pair, kind = [x.strip() for x in line.split(';')]
            brackets[int(point, 16)] = ('Open', key(int(pair, 16))) if kind == 'o' else ('Close', key(int(point, 16)))
    return brackets


def character_cases(folder):
    found = []
    for number, line in data_lines(folder, 'BidiCharacterTest.txt'):
        line = line.split('#')[0].strip()
        if line:
            text, direction, para, level_items, order = line.split(';')
            points = [int(x, 16) for x in text.split()]
            found.append((number, points, direction, para, level_items.split(), order.split()))
    return found


def character_equation(class_of, brackets):
    def unit(point):
        if point in brackets:
            return 'with_bracket %s (%s (record { 0 = %d }))' % ((class_of(point),) + brackets[point])
        return 'plain ' + class_of(point)

    def of(case):
        number, points, direction, para, level_items, order = case
        return equation('line-%d' % number,
                        'with_level (%s) %s' % (listed(unit(p) for p in points), DIRECTIONS[direction]),
                        '(Some %s, %s, %s)' % (para, levels_text(level_items), listed(order)))
    return of


def check(workspace, equations):
    """Checks equations in the copy of units. Returns whether all hold."""
    specs = workspace + '/crates/units/specs'
    with open(specs + '/OfficialCases.antt', 'w', encoding='utf-8') as file:
        file.write(HEAD + '\n' + '\n'.join(equations))
    crate = workspace + '/crates/units'
    ran = subprocess.run(['rt', 'check', '--jobs', '1'], cwd=crate, capture_output=True, text=True)
    if 'logic=proved' in ran.stdout:
        return True
    lines = (ran.stdout + ran.stderr).splitlines()
    print('\n'.join(line for line in lines if 'OfficialCases' in line or 'error' in line)[:4000])
    return False


def main():
    parser = argparse.ArgumentParser(description=__doc__, formatter_class=argparse.RawDescriptionHelpFormatter)
    parser.add_argument('kind', choices=['classes', 'characters'])
    parser.add_argument('count', type=int)
    parser.add_argument('--seed', type=int, default=1)
    parser.add_argument('--skip', type=int, default=0)
    parser.add_argument('--ucd', default='/usr/share/unicode')
    parser.add_argument('--batch', type=int, default=1500)
    parser.add_argument('--print', action='store_true', dest='only_print')
    asked = parser.parse_args()
    if asked.kind == 'classes':
        cases, form = class_cases(asked.ucd), class_equation
    else:
        cases = character_cases(asked.ucd)
        form = character_equation(class_table(asked.ucd), bracket_table(asked.ucd))
    random.Random(asked.seed).shuffle(cases)
    equations = [form(case) for case in cases[asked.skip:asked.skip + asked.count]]
    if asked.only_print:
        print(HEAD + '\n' + '\n'.join(equations))
        return
    root = os.path.dirname(os.path.dirname(os.path.abspath(__file__)))
    with tempfile.TemporaryDirectory() as workspace:
        shutil.copytree(root + '/crates/units', workspace + '/crates/units', ignore=shutil.ignore_patterns('out'))
        with open(workspace + '/crates.txt', 'w') as file:
            file.write('units: memchr\n')
        with open(workspace + '/crates/units/specs/Lib.antt', 'a') as file:
            file.write('pub mod OfficialCases\n')
        started = time.time()
        for first in range(0, len(equations), asked.batch):
            batch = equations[first:first + asked.batch]
            if not check(workspace, batch):
                sys.exit('a case is not what the definitions compute')
            print('%d cases hold, %.0f s' % (first + len(batch), time.time() - started), flush=True)


if __name__ == '__main__':
    main()
