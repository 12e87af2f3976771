#!/usr/bin/env python3
"""One-place edits of the definitions, each of which the proof of the law of every run should refuse.

Run at the repository's root: python3 checks/mutate.py [WORDS], for all edits or those whose name holds WORDS.
What the law leans on (definitions, laws and the types that they name; no function, no worked crossing) is copied to a temporary
folder, so that the law stands alone, and for each edit `rt check` is asked in the crate run there. A line says REFUSED and the first proofs that broke, or PASSES, NOT FOUND where the
text to be edited is not there just once, BAD EDIT where it is no definition any more. The exit status is 1 for any but REFUSED.
A broken proof is not yet a false law: where the law stays true for all that, the edit says why.
"""
import os
import re
import shutil
import subprocess
import sys
import tempfile

# name, file under crates/, text, text in its place, and why the law stays true, where it does
EDITS = [
    # ---- change sets, the fold and the tally
    ('warning of no code', 'edit/specs/Light', 'lift_warning r gone = warning 4', 'lift_warning r gone = warning 5'),
    ('warnings said twice', 'edit/specs/Light',
     'warnings = d.warnings ++ joined (λ r. lift_warning r (lift s lanes r)) rs;',
     'warnings = d.warnings ++ joined (λ r. lift_warning r (lift s lanes r)) rs ++ joined (λ r. lift_warning r (lift s lanes r)) rs;'),
    ('empty change sets of a line', 'edit/specs/StopLine', 'created = d.changes.created ++ (entity 8 (fresh d.map) ∷ [])', 'created = []'),
    ('rule of a line not named', 'edit/specs/StopLine', 'created = d.changes.created ++ (entity 8 (fresh d.map) ∷ [])', 'created = d.changes.created'),
    ('links always named', 'edit/specs/Links', 'link_changes true n = no_changes', 'link_changes true n = record { created = []; modified = entity 8 n ∷ []; deleted = []; warnings = [] }'),
    ('links never named', 'edit/specs/Links', 'link_changes false n = record { created = []; modified = entity 8 n ∷ []; deleted = []; warnings = [] }', 'link_changes false n = no_changes'),
    ('links compared by lanes only', 'edit/specs/Links',
     'same_links r s = same_list r.lanes s.lanes && same_list r.controlled s.controlled && same_list (stop_lines_of r.body) (stop_lines_of s.body)',
     'same_links r s = same_list r.lanes s.lanes'),
    ('eased rule not named', 'edit/specs/Light', 'eased_ref r (eased ks) = entity 8 r.num ∷ []', 'eased_ref r (eased ks) = []'),
    ('gone rule not named', 'edit/specs/Light', 'gone_ref r gone = entity 8 r.num ∷ []', 'gone_ref r gone = []'),
    ('gone rule stays', 'edit/specs/Light', 'lifted r gone = []', 'lifted r gone = r ∷ []'),
    ('created and deleted stays in the fold', 'changes/specs/ChangeSet', 'deleted = without (sort_refs c.deleted) c.created;', 'deleted = sort_refs c.deleted;'),
    ('created stays modified', 'changes/specs/ChangeSet',
     'modified = without (without (sort_refs c.modified) c.created) c.deleted;', 'modified = without (sort_refs c.modified) c.deleted;'),
    ('fold keeps warnings', 'changes/specs/ChangeSet', 'deleted = f.deleted ++ c.deleted; warnings = [] })', 'deleted = f.deleted ++ c.deleted; warnings = c.warnings })'),
    ('fold unsorted', 'changes/specs/ChangeSet', 'created = without (sort_refs c.created) c.deleted;', 'created = without c.created c.deleted;'),
    ('tally of the set', 'edit/specs/Edit', 'tally = tally_of fold };', 'tally = tally_of set };'),
    ('fold is the last set', 'edit/specs/Edit', 'let fold = fold_step s.fold set', 'let fold = set'),
    ('group keeps no signal', 'edit/specs/Light',
     'extended (light signals line) n s = light (signals ++ (n ∷ [])) (or_else line s)', 'extended (light signals line) n s = light signals (or_else line s)'),
    ('map left alone', 'edit/specs/StopLine', 'map = with_rule d.map w a.lanes;', 'map = d.map;'),
    ('refused call clears the fold', 'run/specs/Run', 'state_after s (refused n ds) = s',
     'state_after s (refused n ds) = record { map = s.map; fold = Rattle.changes.specs.ChangeSet.no_changes; tally = s.tally }'),
    # ---- refusals
    ('11 not tested', 'edit/specs/Edit', '  refuse_when (leb (2 ^ 64) d.map.next) 11 []\n', ''),
    ('9 not tested', 'edit/specs/Edit', '  refuse_when (not (every point_on_map d.stored)) 9 []\n', ''),
    ('ceilings not tested', 'edit/specs/Edit', 'within_ceilings d.map && fold_fits fold', 'fold_fits fold'),
    ('fold ceiling not tested', 'edit/specs/Edit', 'within_ceilings d.map && fold_fits fold', 'within_ceilings d.map',
     'the fold of a run names at most the 480 records of a map, so this ceiling is never met'),
    ('unknown lane taken', 'place/specs/Place', '  refuse_found (unknown_in (λ l. l.num) m.lanes lanes) 1\n', ''),
    ('absent rule is 12', 'edit/specs/Links', 'r ← present (rule_of m a.rule) 2 (8 ∷ a.rule ∷ [])', 'r ← present (rule_of m a.rule) 12 (8 ∷ a.rule ∷ [])'),
    # ---- numbers
    ('numbers invented', 'edit/specs/StopLine', 'changes = record { created = entity 5 n ∷ []; modified', 'changes = record { created = entity 5 0 ∷ []; modified'),
    ('signal takes the line\'s number', 'edit/specs/Light', 'let n = fresh one.map in', 'let n = fresh m in'),
    ('line\'s number not used up', 'map/specs/Rows',
     'next = suc (fresh m);\n      lanes = m.lanes;\n      boundaries = m.boundaries;\n      stop_lines = m.stop_lines ++',
     'next = fresh m;\n      lanes = m.lanes;\n      boundaries = m.boundaries;\n      stop_lines = m.stop_lines ++'),
    ('rule takes the signal\'s number', 'map/specs/Rows',
     'next = suc (fresh m);\n      lanes = m.lanes;\n      boundaries = m.boundaries;\n      stop_lines = m.stop_lines;\n      signals = m.signals ++',
     'next = fresh m;\n      lanes = m.lanes;\n      boundaries = m.boundaries;\n      stop_lines = m.stop_lines;\n      signals = m.signals ++'),
    ('rule\'s number not used up', 'map/specs/Rows',
     'next = suc (fresh m);\n      lanes = m.lanes;\n      boundaries = m.boundaries;\n      stop_lines = m.stop_lines;\n      signals = m.signals;\n      crosswalks = m.crosswalks;\n      rules = m.rules ++',
     'next = fresh m;\n      lanes = m.lanes;\n      boundaries = m.boundaries;\n      stop_lines = m.stop_lines;\n      signals = m.signals;\n      crosswalks = m.crosswalks;\n      rules = m.rules ++'),
    ('line numbered 1', 'map/specs/Rows', 'stop_lines = m.stop_lines ++ (record { num = fresh m; geometry', 'stop_lines = m.stop_lines ++ (record { num = 1; geometry'),
    ('number skipped', 'map/specs/Rows', 'fresh m = max 1 m.next', 'fresh m = suc (max 1 m.next)'),
    # ---- records that no set names
    ('a line drops the signals', 'map/specs/Rows',
     'stop_lines = m.stop_lines ++ (record { num = fresh m; geometry = xs } ∷ []);\n      signals = m.signals;',
     'stop_lines = m.stop_lines ++ (record { num = fresh m; geometry = xs } ∷ []);\n      signals = [];'),
    ('a rule written over all rules', 'rows/specs/Table', 'replaced a (x ∷ xs) = cond (eqb (num x) (num a)) a x ∷ replaced a xs', 'replaced a (x ∷ xs) = a ∷ replaced a xs'),
    ('group not named', 'edit/specs/Light', 'modified = d.modified ++ (entity 8 r.num ∷ []);', 'modified = d.modified;'),
    # ---- the light's line and its stop rules
    ('lifts only under a line that stood', 'edit/specs/Light', 'lift_all a.lanes three one.line in',
     'lift_all a.lanes three (elim p.plan [ use_line s ↦ Some s | use_none ↦ None | draw x ↦ None ]) in'),
    ('signs of another type lifted', 'edit/specs/Light', 'is_stop_at s (sign type shape (Some line)) = eqb type 1 && eqb line s', 'is_stop_at s (sign type shape (Some line)) = eqb type 2 && eqb line s'),
    ('markings not lifted', 'edit/specs/Light', 'is_stop_at s (marking line) = eqb line s', 'is_stop_at s (marking line) = false'),
    ('lanes not taken off', 'edit/specs/Light', 'lifted r (eased ks) = rule_with r r.body ks r.controlled ∷ []', 'lifted r (eased ks) = r ∷ []'),
    ('crosswalk rule\'s line taken as the lane\'s', 'edit/specs/Light', 'stops_at (crossing c stop_lines) = None', 'stops_at (crossing c []) = None\nstops_at (crossing c (l ∷ ls)) = Some l'),
    ('only stop signs\' lines found', 'edit/specs/Light', 'stops_at (sign type shape line) = line', 'stops_at (sign type shape line) = cond (eqb type 1) line None'),
    ('line found on any lane', 'edit/specs/Light', 'existing_stop_line m n = first_of (λ r. cond (member n r.lanes) (stops_at r.body) None) m.rules', 'existing_stop_line m n = first_of (λ r. stops_at r.body) m.rules'),
    ('line sought on the second lane', 'edit/specs/Light', 'auto_plan m lanes (or_else group (existing_stop_line m (get_or lanes 0 0)))', 'auto_plan m lanes (or_else group (existing_stop_line m (get_or lanes 1 0)))'),
    ('group\'s line passed over', 'edit/specs/Light', 'auto_plan m lanes (or_else group (existing_stop_line m (get_or lanes 0 0)))', 'auto_plan m lanes (existing_stop_line m (get_or lanes 0 0))'),
    ('lane\'s line before the group\'s', 'edit/specs/Light', 'auto_plan m lanes (or_else group (existing_stop_line m (get_or lanes 0 0)))', 'auto_plan m lanes (or_else (existing_stop_line m (get_or lanes 0 0)) group)'),
    ('group\'s line is no line', 'edit/specs/Light', 'light_line (light signals line) = done line', 'light_line (light signals line) = done None'),
    ('automatic always draws', 'edit/specs/Light', 'auto_plan m lanes (Some s) = done (use_line s)', 'auto_plan m lanes (Some s) = draw_plan m lanes (AtLaneEnd f0) []'),
    ('existing line not taken', 'edit/specs/Light', 'plan_for m lanes group (Existing s) cs = done (use_line s)', 'plan_for m lanes group (Existing s) cs = done use_none'),
    ('no line though the group has one', 'edit/specs/Light', 'plan_for m lanes group NoLine cs = done (own_plan group)', 'plan_for m lanes group NoLine cs = done use_none'),
    ('no line lifts nothing', 'edit/specs/Light', 'lift_all a.lanes three one.line in',
     'lift_all a.lanes three (elim a.choice [ Automatic ↦ one.line | Existing s ↦ one.line | New how ↦ one.line | NoLine ↦ None ]) in'),
    ('a new line beside the group\'s', 'edit/specs/Light', 'check_choice m group (New how) = check_new group', 'check_choice m group (New how) = done tt'),
    ('group\'s line replaced by the light\'s', 'edit/specs/Light',
     'extended (light signals line) n s = light (signals ++ (n ∷ [])) (or_else line s)', 'extended (light signals line) n s = light (signals ++ (n ∷ [])) (or_else s line)',
     'where both are there they are the same line'),
    # ---- the law's own words, against the edit
    ('law: own line of a crosswalk rule', 'run/specs/Law', 'own_line (crossing c ls) = None', 'own_line (crossing c ls) = Some c'),
    ('law: line of a rule on no such lane', 'run/specs/Law', 'cond (member n r.lanes) (or_next (own_line r.body) rest) rest', 'or_next (own_line r.body) rest'),
    ('law: line of any rule as the group\'s', 'run/specs/Law', 'cond (eqb r.num n) (own_line r.body) rest', 'or_next (own_line r.body) rest'),
    ('law: group without a line', 'run/specs/Law', 'groups_line (Some g) rs = line_of_rule g rs', 'groups_line (Some g) rs = None'),
    ('law: line of the second lane', 'run/specs/Law', 'first_lanes_line (n ∷ ns) rs = line_on_lane n rs', 'first_lanes_line (n ∷ ns) rs = first_lanes_line ns rs'),
    ('law: new line numbered otherwise', 'run/specs/Law', '(max 1 m.next) (groups_line', '(m.next + 1) (groups_line'),
    ('law: automatic is new', 'run/specs/Law', 'chosen_line Automatic drawn own found = Some (found_or drawn (or_next own found))', 'chosen_line Automatic drawn own found = Some drawn'),
    ('law: halt line of every sign', 'run/specs/Law', 'halt_line (sign type shape l) = cond (eqb type 1) l None', 'halt_line (sign type shape l) = l'),
    ('law: a set names what it lists as created', 'run/specs/Law', 'names c a = listed c.created a || listed c.modified a || listed c.deleted a', 'names c a = listed c.created a'),
    ('law: numbers rise from 0 per call', 'run/specs/Law', 'handed c = map (λ a. a.num) c.created', 'handed c = 0 ∷ map (λ a. a.num) c.created'),
]


REFERENCE = re.compile(r'Rattle\.(\w+)\.(specs|proofs)\.(?:declared\.)?([A-Z]\w*)')
# a type of a crate's library, or of one of its source files
DECLARED = re.compile(r'Rattle\.(\w+)\.specs\.declared\.(?:([a-z]\w*)\.)?([A-Z]\w*)')
USE = re.compile(r'^use ([\w:]+)::\{([^{}]*)\};', re.M)
TYPE = re.compile(r'^pub (?:struct|enum) (\w+).*?^}\n', re.M | re.S)


def read(path):
    with open(path) as file:
        return file.read()


def each_use(text):
    """The text with a line for each name of a `use`."""
    return USE.sub(lambda m: '\n'.join('use %s::%s;' % (m.group(1), name.strip()) for name in m.group(2).split(',') if name.strip()), text)


def law_alone(here, root):
    """The definitions and laws that the law of every run leans on, with the types that they name and no function."""
    def source(module):
        return '%s/crates/%s/%s/%s.antt' % ((here,) + module)

    folder = here + '/crates/run/'
    ahead = [('run', kind, name[:-5]) for kind in ('specs', 'proofs') for name in os.listdir(folder + kind)
             if name.endswith('.antt') and name != 'Lib.antt']
    modules, types = set(), set()
    while ahead:
        module = ahead.pop()
        if module in modules or not os.path.exists(source(module)):
            continue
        modules.add(module)
        text = read(source(module))
        ahead += REFERENCE.findall(text)
        # the types of the library come with it
        types |= {(crate, file or 'lib', name) for crate, file, name in DECLARED.findall(text) if os.path.isdir('%s/crates/%s' % (here, crate))}
    crates = {crate for crate, _, _ in modules} | {crate for crate, _, _ in types}
    files = {(crate, 'lib') for crate in crates} | {(crate, file) for crate, file, _ in types}
    library = {(crate, file): each_use(read('%s/crates/%s/src/%s.rt' % (here, crate, file))) for crate, file in files}
    blocks = {at: {m.group(1): m.group(0) for m in TYPE.finditer(text)} for at, text in library.items()}
    grown = None
    while grown != types:
        grown = set(types)
        for crate, file, name in grown:
            words = set(re.findall(r'\w+', blocks[crate, file][name]))
            types |= {(other, 'lib', word) for other in crates for word in words & set(blocks[other, 'lib'])
                      if other == crate or re.search(r'\b%s::%s\b' % (other, word), library[crate, file])}
    for crate in crates:
        for kind in ('specs', 'proofs', 'src'):
            os.makedirs('%s/crates/%s/%s' % (root, crate, kind), exist_ok=True)
        for kind in ('specs', 'proofs'):
            kept = [name for c, k, name in sorted(modules) if (c, k) == (crate, kind)]
            for name in kept:
                shutil.copy(source((crate, kind, name)), '%s/crates/%s/%s/' % (root, crate, kind))
            with open('%s/crates/%s/%s/Lib.antt' % (root, crate, kind), 'w') as file:
                file.write(''.join('pub mod %s\n' % name for name in kept))
        inner = sorted({file for c, file, _ in types if c == crate and file != 'lib'})
        for name in ['lib'] + inner:
            kept = ''.join(blocks[crate, name][word] for c, file, word in sorted(types) if (c, file) == (crate, name))
            uses = [line for line in library[crate, name].splitlines()
                    if line.startswith('use ') and re.search(r'\b%s\b' % line.rstrip(';').split('::')[-1], kept)]
            heads = ['pub mod %s;' % file for file in inner] if name == 'lib' else []
            with open('%s/crates/%s/src/%s.rt' % (root, crate, name), 'w') as file:
                file.write('\n'.join(heads + uses + [kept]) if heads or kept else '// Definitions only.\n')
    with open(root + '/crates.txt', 'w') as file:
        for line in read(here + '/crates.txt').splitlines():
            name, _, needs = line.partition(':')
            if name in crates:
                file.write('%s: %s\n' % (name, ' '.join(need for need in needs.split() if need in crates)))


def broken(text):
    """The proofs that broke, of the crate that was being proved, and the definitions that did."""
    below = re.search(r'^rt: the library (\w+) did not build', text, re.M)
    crate = below.group(1) if below else 'run'
    at = re.findall(r'^(?:\./)?(specs|proofs)/([\w/]+)\.antt:\d+:\d+: error: `([^`]+)`(?!: `[^`]+` was not admitted)', text, re.M)
    names = list(dict.fromkeys('%s/%s.%s' % (crate, module, name) for kind, module, name in at if kind == 'proofs'))
    faults = [name for kind, _, name in at if kind == 'specs']
    return names, faults


def main(words):
    here = os.path.dirname(os.path.dirname(os.path.abspath(__file__)))
    unexpected = 0
    with tempfile.TemporaryDirectory() as made:
        root = made + '/copy'
        law_alone(here, root)
        first = subprocess.run(['rt', 'check'], cwd=root + '/crates/run', capture_output=True, text=True)
        if first.returncode:
            sys.exit('the law is not proved as it stands:\n' + first.stdout + first.stderr)
        for edit in EDITS:
            name, module, old, new = edit[:4]
            true_still = edit[4] if len(edit) > 4 else None
            if words and words not in name:
                continue
            path = '%s/crates/%s.antt' % (root, module)
            text = open(path).read()
            if text.count(old) != 1:
                print('NOT FOUND ', name, flush=True)
                unexpected += 1
                continue
            open(path, 'w').write(text.replace(old, new))
            done = subprocess.run(['rt', 'check'], cwd=root + '/crates/run', capture_output=True, text=True)
            open(path, 'w').write(text)
            names, faults = broken(done.stdout + done.stderr)
            if done.returncode and not faults and names:
                print('REFUSED   ', name, '|', ', '.join(names[:4]), '| the law stays true: ' + true_still if true_still else '', flush=True)
                continue
            unexpected += 1
            if done.returncode:
                print('BAD EDIT  ', name, '|', ', '.join(faults[:4]) or (done.stdout + done.stderr)[-300:], flush=True)
            else:
                print('PASSES    ', name, flush=True)
    return 1 if unexpected else 0


sys.exit(main(' '.join(sys.argv[1:])))
