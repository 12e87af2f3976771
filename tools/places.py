#!/usr/bin/env python3
"""Counts the places that the eight points of docs/DESIGN-PASS.md speak of.

usage, at the top of the repository:
    python3 tools/places.py          how many places each rule finds, in how many groups and crates
    python3 tools/places.py POINT    each place of a point (3), of one rule (3a) or of all (all): file, line, name, rule and what it is

The rules stand at the head of each section. They read the text alone, and rather list a place too many than one too few: whether a place is
to be changed is for the reader. Two rules of a point may list one line; the last line of the counts has the lines, each counted once.
"""
import collections
import glob
import re
import sys

# ---- Reading. Comments and the insides of strings are blanked, so that offsets stay; clauses are kept apart.

BLANK = re.compile(r'//[^\n]*|b?"(?:\\.|[^"\\])*"|b?\'(?:\\.[^\'\n]*|[^\'\\\n])\'|\bghost use [^;]*;', re.S)
CLAUSE = re.compile(r'\b(requires|ensures)\b(?:\s+\w+)?\s*(?=\{)|\bghost\s+\w+\s*[:=]\s*(?=\{)')
FUNCTION = re.compile(r'\bfn\s+(\w+)\s*(?:<(?:->|[^>(])*(?:\([^)]*\)[^>(]*)*>)?\s*(?=\()')
TYPE = re.compile(r'\b(struct|enum)\s+(\w+)(?:<[^{(;]*>)?\s*(?:where[^{(;]*)?(?=[{(])')
NUMBER = r'\d(?:\w|\.(?=\d))*'
# A function's members are its parameters with their types, a struct's its fields with theirs, an enum's its variants with a list of types.
Thing = collections.namedtuple('Thing', 'file at kind name members result clauses body code exported', defaults=('', (), 0, '', False))

def blanked(m):
    text, quote = m.group(), re.match(r'b?["\']', m.group())
    inside = re.sub(r'[^\n]', ' ', text)
    return quote.group() + inside[quote.end():-1] + text[-1] if quote else inside

def cut(text, angles=False):
    """The parts of a text between commas that stand in no brackets."""
    parts, depth, last = [], 0, 0
    for i, c in enumerate(text):
        if c in '([{' or angles and c == '<':
            depth += 1
        elif c in ')]}' or angles and c == '>' and text[i - 1] not in '-=':
            depth -= 1
        elif c == ',' and depth == 0:
            parts.append(text[last:i])
            last = i + 1
    return [p.strip() for p in parts + [text[last:]] if p.strip()]

def plain(kind):
    """A type without lifetimes."""
    return re.sub(r"<'\w+>|'\w+,?\s*", '', ' '.join(kind.split())).strip()

class Text:
    def __init__(self, path):
        self.path, self.crate = path, path.split('/')[1]
        self.text = open(path, encoding='utf-8').read()

    def line(self, at):
        return self.text.count('\n', 0, at) + 1

class Source(Text):
    def __init__(self, path):
        super().__init__(path)
        self.code, self.clauses = BLANK.sub(blanked, self.text), []
        while m := CLAUSE.search(self.code):
            depth, end = 1, m.end() + 1
            while depth:
                depth += {'{': 1, '}': -1}.get(self.code[end], 0)
                end += 1
            self.clauses.append((m.start(), m.group(1), self.text[m.end() + 1:end - 1]))
            self.code = self.code[:m.start()] + re.sub(r'[^\n]', ' ', self.code[m.start():end]) + self.code[end:]
        self.close, opened = {}, []
        for i, c in enumerate(self.code):
            if c in '([{':
                opened.append(i)
            elif c in ')]}':
                self.close[opened.pop()] = i
        self.things = [*self.functions(), *self.types()]

    def find(self, at, ends):
        """The first of some signs, from a place on, that stands in no round or square brackets."""
        while at < len(self.code) and self.code[at] not in ends:
            at = self.close[at] + 1 if self.code[at] in '([' else at + 1
        return at

    def inside(self, at):
        """What stands in the brackets that open at a place."""
        return self.code[at + 1:self.close[at]]

    def functions(self):
        for m in FUNCTION.finditer(self.code):
            params = [re.sub(r'^(mut|ref)\s+', '', p).split(':', 1) for p in cut(self.inside(m.end()), True)]
            end = self.close[m.end()]
            body = self.find(end + 1, '{;')
            if self.code[body:body + 1] == '{':
                result = re.split(r'\bwhere\b', self.code[end + 1:body])[0].replace('->', '')
                head = self.code[self.code.rfind('}', 0, m.start()) + 1:m.start()]
                yield Thing(self, m.start(), 'fn', m.group(1), [(p[0].strip(), plain(p[1])) for p in params if len(p) == 2], plain(result),
                            [t for at, k, t in self.clauses if end < at < body and k == 'requires'], body + 1, self.inside(body), 'no_mangle' in head)

    def types(self):
        for m in TYPE.finditer(self.code):
            members = []
            for part in cut(self.inside(m.end()), True):
                part = re.sub(r'^(?:#\[[^\]]*\]\s*)*(?:pub(?:\([^)]*\))?\s+)?', '', part)
                if m.group(1) == 'enum':
                    name = re.match(r'\w+', part).group()
                    fields = cut(re.sub(r'\s*=.*', '', part[len(name):]).strip()[1:-1], True)
                    members.append((name, [plain(re.split(r'(?<!:):(?!:)', x)[-1]) for x in fields]))
                else:
                    name, _, kind = part.partition(':') if self.code[m.end()] == '{' else ('', '', part)
                    members.append((name.strip(), plain(kind)))
            yield Thing(self, m.start(), m.group(1), m.group(2), members)

FILES = [Source(p) for p in sorted(glob.glob('crates/*/src/**/*.rt', recursive=True))]
CRATES = {f.crate for f in FILES}
THINGS = [t for file in FILES for t in file.things]
FUNCTIONS, STRUCTS, ENUMS = ([t for t in THINGS if t.kind == kind] for kind in ('fn', 'struct', 'enum'))
RULES = []

def rule(code, what, over=None):
    """Enters what yields places: file, offset, name, what it is, the number of its group. Over things, it yields what it is, or offset and what."""
    def enter(places):
        def spread():
            for t in over:
                for x in places(t):
                    at, told = (t.at, x) if isinstance(x, str) else x
                    yield t.file, at, t.name, told + (' (for C)' if t.exported else '')
        RULES.append((code, what, spread if over else places))
        return places
    return enter

def is_number(kind):
    return bool(re.fullmatch(r'[&\s]*(?:mut )?(?:[ui](?:8|16|32|64|128|size)|f(?:32|64))', kind))

def is_slice(kind):
    return bool(re.match(r'(?:&\s*(?:mut )?)?(?:\[|Vec\b)', kind))

def blocks(f, word):
    """Each `word test { .. }` of a function: its place, its test, and where its block begins."""
    for m in re.finditer(r'\b%s\b' % word, f.code):
        start = f.file.find(f.body + m.end(), '{')
        yield f.body + m.start(), f.file.code[f.body + m.end():start].strip(), start

def loops(f):
    return [(at, test, f.file.inside(start)) for at, test, start in blocks(f, 'while')]

def matches(f):
    """Each match of a function: its place, what is matched, and its arms: place, pattern, right side."""
    code = f.file.code
    for place, what, at in blocks(f, 'match'):
        arms, end, at = [], f.file.close[at], at + 1
        while (arrow := code.find('=>', at, end)) >= 0:
            start = arrow + 2 + len(code[arrow + 2:end]) - len(code[arrow + 2:end].lstrip())
            stop = f.file.close[start] + 1 if code[start] == '{' else start
            while code[start] != '{' and stop < end and code[stop] != ',':
                stop = f.file.close[stop] + 1 if code[stop] in '([{' else stop + 1
            pattern = code[at:arrow].strip(' ,\n')
            arms.append((code.index(pattern, at), pattern, code[start:stop].strip()))
            at = stop
        yield place, what, arms

def numbered(arms):
    return [p for _, p, _ in arms if re.fullmatch(r'%s(?:\s*\|\s*%s)*(?:\s+if .*)?' % (NUMBER, NUMBER), p)]

def groups(things, key, least=2):
    found = collections.defaultdict(list)
    for thing in things:
        if (k := key(thing)) is not None:
            found[k].append(thing)
    return [v for v in found.values() if len(v) >= least]

# ---- 1. Own forms of Option and Result, flags beside values, numbers for kinds and refusals.
# 1a  enums of at most two variants of which one has fields and one has none, or one holds a Refusal or an ..Error; enums whose name begins with
#     Maybe; enums with a variant Nothing, None, Fault, Missing or Refused.
# 1b  1 fields, and 2 parameters of bool or a number, that have others beside them and are named like a flag: there, given, checked, tested,
#     joins, drawn, late, lined, read, asked, flag, has_.., .._given; fields also why and fault.
# 1c  1 fields and parameters of a whole number that are named like a kind, a case or a detail (KIND below); rule beside a placement; k where a
#     clause says k < 6 or where it is a u64, and l beside it.
#     2 matches with a number among their patterns.
#     3 values so named that are tested against a number, and values that are tested for equality with two numbers or more; once for each value
#       of a function.
#     4 number fields of Refusal and of ..Error; calls of refusal::number; refusals made with a number for their detail.
#     5 numbers written in a call for a parameter of 1c.1.
#     6 functions that answer a number for nothing beside others: 0, 254, 255, 256 or NO_.. by return, else, an arm or at their end; or what a
#       loop has counted when it finds nothing.
# 1d  refusals and nothings handed on: let X(..) = .. else { return, continue or break }; if let ..Refused(..) = .. { return .. }; arms for
#     Refused, Nothing, None, Fault or Missing that make one, or return.

FLAG = re.compile(r'(there|given|checked|tested|joins|drawn|late|lined|read|asked|flag|has_\w+|\w+_given)$')
KIND = re.compile('(kind|of|what|detail|second|code|placement|choice|which|class|table|form|how|case|why|fault|due|want|past|colou?r|arrow|side'
                  r'|\w+_side|\w+_kind)$')
NOTHING = '(?:Nothing|None|Fault|Missing|Refused)'

def numbers_for_kinds(t):
    names = {n for n, _ in t.members}
    for name, kind in t.members:
        few = any(re.search(r'(?<!\S)\(?%s < 6\b' % name, clause) for clause in t.clauses)
        if is_number(kind) and kind[0] != 'f' and (KIND.match(name) or name == 'k' and (few or kind == 'u64') or
                                                   name == 'l' and 'k' in names and kind == 'u64' or name == 'rule' and 'placement' in names):
            yield name, kind

def tell_enum(t):
    return 'enum of ' + ', '.join(n + ('(%s)' % ', '.join(x) if x else '') for n, x in t.members)

@rule('1a', 'own enums of the shape of Option or Result', ENUMS)
def own_options(t):
    bare = sum(not fields for _, fields in t.members)
    two = len(t.members) <= 2 and (bare == 1 < len(t.members) or any(re.search('Refusal|Error$', x) for _, xs in t.members for x in xs))
    if two or t.name.startswith('Maybe') or any(re.fullmatch(NOTHING, n) for n, _ in t.members):
        yield tell_enum(t)

@rule('1b.1', 'fields that say whether the values beside them count', STRUCTS)
def flag_fields(t):
    return ('field %s: %s' % x for x in t.members if len(t.members) > 1 and (FLAG.match(x[0]) or x[0] in ('why', 'fault')))

@rule('1b.2', 'parameters that say whether those beside them count', FUNCTIONS)
def flag_parameters(f):
    return ('parameter %s: %s' % x for x in f.members if len(f.members) > 1 and FLAG.match(x[0]) and (x[1] == 'bool' or is_number(x[1])))

@rule('1c.1', 'fields and parameters that are numbers for kinds, cases or details', FUNCTIONS + STRUCTS)
def kind_numbers(t):
    return ('%s: %s' % x for x in numbers_for_kinds(t))

@rule('1c.2', 'matches on numbers that stand for cases', FUNCTIONS)
def number_matches(f):
    return ((at, 'match %s on %s' % (what, ', '.join(numbered(arms)))) for at, what, arms in matches(f) if numbered(arms))

@rule('1c.3', 'tests of numbers that stand for cases', FUNCTIONS)
def number_tests(f):
    tested = re.finditer(r'(?<![\w.\])])([a-z][\w.]*)\s*([=!<>]=|<|>)\s*(%s)\b' % NUMBER, f.code)
    for found in groups(tested, lambda m: m.group(1) if m.group(2) == '==' or KIND.match(m.group(1).split('.')[-1]) else None, 1):
        value, numbers = found[0].group(1), sorted({m.group(3) for m in found})
        if len(numbers) > 1 or KIND.match(value.split('.')[-1]):
            yield f.body + found[0].start(), '%s tested against %s' % (value, ', '.join(numbers))

@rule('1c.4', 'refusals and their details as numbers', THINGS)
def refusal_numbers(t):
    if t.kind == 'enum' and re.match('Refusal$|.*Error$', t.name):
        yield from ('variant %s(%s)' % (name, ', '.join(kinds)) for name, kinds in t.members if any(map(is_number, kinds)))
    yield from ((t.body + m.start(), m.group()) for m in re.finditer(r'\bRefusal::\w+\(%s\b|\brefusal::number\b(?=\()' % NUMBER, t.code))

WANTED = collections.defaultdict(set)
for g in FUNCTIONS:
    WANTED[g.name, len(g.members)] |= {(g.members.index(x), x[0]) for x in numbers_for_kinds(g)}

@rule('1c.5', 'numbers written where a call wants a kind', FUNCTIONS)
def kinds_written(f):
    for m in re.finditer(r'\b(\w+)(?=\()', f.code):
        args = cut(f.file.inside(f.body + m.end()))
        for i, name in sorted(WANTED.get((m.group(1), len(args)), ())):
            if re.fullmatch(NUMBER, args[i]):
                yield f.body + m.start(), '%s(.. %s = %s ..)' % (m.group(1), name, args[i])

@rule('1c.6', 'functions that answer a number for nothing', FUNCTIONS)
def number_for_nothing(f):
    none, end = r'(?:0(?:\.0)?|25[456]|NO_\w+)', re.search(r'[^;{}]*$', f.code).group().strip()
    found = re.findall(r'\breturn (%s);' % none, f.code)
    found += [m.group(2) for m in re.finditer(r'\{\s*([^{};]+?)\s*\} else \{\s*(%s)\s*\}' % none, f.code) if not re.fullmatch(NUMBER, m.group(1))]
    if re.fullmatch(none, end) and re.search(r'\breturn (?!%s;)' % NUMBER, f.code):
        found.append(end)
    for _, _, arms in matches(f):
        if any(not re.fullmatch(NUMBER + '|[A-Z_]+', r) or r.startswith('NO_') for *_, r in arms):
            found += [r for *_, r in arms if re.fullmatch(none, r)]
    if end.isidentifier() and any(re.search(r'\b%s\b' % end, test) and re.search(r'\breturn %s;' % end, inside) for _, test, inside in loops(f)):
        found.append('the count ' + end)
    if found and is_number(f.result):
        yield 'answers %s for nothing' % found[0]

@rule('1d', 'refusals and nothings that are handed on', FUNCTIONS)
def handed_on(f):
    for m in re.finditer(r'\blet ([\w:]+)\([^)]*\) = [^;{]*?\belse \{\s*(return\b[^;]*;|continue;|break;)', f.code):
        yield f.body + m.start(), 'let %s(..) = .. else %s' % m.groups()
    for m in re.finditer(r'\bif let ([\w:]*%s)(?:\([^)]*\))? = [^{]*\{\s*return\b' % NOTHING, f.code):
        yield f.body + m.start(), 'if let %s = .. return ..' % m.group(1)
    for at, pattern, right in (arm for _, _, arms in matches(f) for arm in arms):
        if re.search(r'\b%s\b' % NOTHING, pattern) and re.search(r'\b%s\b|\breturn\b|refus' % NOTHING, right):
            yield at, 'arm %s => %s' % (pattern, right[:60])

# ---- 2. Twins. A group has two or more; each of its members is a place.
# 2a  functions, of one crate or of several, whose bodies are the same when each name, path and type is one sign, each number one and each string
#     one (and a comma before a closing bracket none), and of which one at least has four lines or more in its body.
# 2b  the same where what stands in round and square brackets is one sign too, for bodies with a loop, a match or an if; not the groups of 2a.
# 2c  functions of one crate whose names are the same without the words f64, u64, u8, real(s), number(s), double(s), word(s), coord(s) and without
#     a 2 or 3 at a word's end.
# 2d  structs with the same names of fields, or, where one is an array, with the same types of fields, numbers left out; structs of one crate
#     whose names differ in a 2 or 3; enums of 1a whose variants have as many fields each.

TOKEN = re.compile(r"'\w+(?!')|b?\"[^\"]*\"|b?'.*?'|[A-Za-z_]\w*(?:::[A-Za-z_]\w*)*|\d(?:\w|\.(?=\d))*|->|=>|\.\.=?|::|<<|>>|[<>=!+\-*/%&|^]=|&&|\|\||\S")
KEPT = set('let mut if else match while for in loop return break continue as ref move true false'.split())
TYPE_WORDS = set('f64 u64 u8 real reals number numbers double doubles word words coord coords'.split())

def signs(code):
    """The code with a sign for each name, number and string."""
    out = []
    for t in TOKEN.findall(code):
        if t in ')]}' and out and out[-1] == ',':
            out.pop()
        quoted, named = t[-1] in '"\'' or t[0] == "'", t[0].isalpha() or t[0] == '_'
        out.append('S' if quoted else 'I' if named and t not in KEPT else 'N' if t[0].isdigit() else t)
    return ' '.join(out)

def shape(f):
    """A body with a sign for what stands in round and square brackets too."""
    text, before = signs(f.code), None
    while text != before:
        before, text = text, re.sub(r'\( [^(){};]*\)', '_', text)
    return re.sub(r'\[ [^\[\]{};]*\]', '@', text) if re.search(r'\b(while|for|match|if)\b', text) else None

def twins(key):
    return [g for g in groups(FUNCTIONS, key) if max(sum(1 for line in f.code.split('\n') if line.strip()) for f in g) >= 4]

def tell(found):
    for number, group in enumerate(found, 1):
        names = ', '.join('%s::%s' % (x.file.crate, x.name) for x in group)
        for x in group:
            yield x.file, x.at, x.name, 'group %d of %d: %s' % (number, len(group), names if len(names) < 200 else names[:200] + ' ..'), number

@rule('2a', 'functions that differ in names, types and numbers only')
def same_bodies():
    return tell(twins(lambda f: signs(f.code)))

@rule('2b', 'functions that differ in the arguments of their calls too')
def same_shapes():
    listed = {(f, at) for f, at, *_ in same_bodies()}
    return tell([g for g in twins(shape) if not all((f.file, f.at) in listed for f in g)])

@rule('2c', 'functions of a crate whose names differ in a word for a type or a size')
def same_names():
    def key(f):
        words = [re.sub(r'(?<=\D)[23]$', '', w) for w in f.name.split('_')]
        return f.file.crate, '_'.join(w for w in words if w not in TYPE_WORDS)
    return tell([g for g in groups(FUNCTIONS, key) if len({f.name for f in g}) > 1])

@rule('2d', 'types that differ in names, types and numbers only')
def same_types():
    def types(t):
        return tuple(sorted(signs(k) for _, k in t.members)) if any(k.startswith('[') for _, k in t.members) else None
    found = groups(STRUCTS, lambda t: tuple(n for n, _ in t.members) if t.members and t.members[0][0] else None) + groups(STRUCTS, types)
    found += groups(STRUCTS, lambda t: (t.file.crate, re.sub(r'[23]$', '', t.name)))
    found += groups([t for t in ENUMS if list(own_options(t))], lambda t: tuple(sorted(len(x) for _, x in t.members)))
    return tell({tuple((t.file, t.at) for t in g): g for g in found}.values())

# ---- 3. Loops that count by hand.
# 3a  each while whose test names a counter: a name to which the body adds or from which it takes (x += .., x -= .., x = x + .., x = x - ..,
#     x = wrapping_add(x, ..) and the like, or x = y where y was let so).
# 3b  each other while, with what its body does to the names of its test.

def names_in(test):
    return list(dict.fromkeys(re.findall(r'(?<![\w.:])[a-z_]\w*\b(?!\s*[(:])', test)))

def counter(test, inside):
    """The name that a loop counts by, and which way."""
    for name in names_in(test):
        step = r'(?:{0}\s*([+-])[^=]|(?:\w+::)*\w+_(add|sub)\w*\(\s*{0}\b|{0}\.\w+_(add|sub)\()'.format(name)
        found = re.search(r'(?<![\w.])%s\s*(?:([+-])=|=\s*%s)' % (name, step), inside)
        for m in re.finditer(r'\blet (\w+)\s*=\s*' + step, inside):
            found = found or re.search(r'(?<![\w.])%s\s*=\s*%s\s*;' % (name, m.group(1)), inside) and m
        if found:
            return name, 'up' if {'+', 'add'} & set(found.groups()) else 'down'

@rule('3a', 'loops that count by hand', FUNCTIONS)
def counting(f):
    for at, test, inside in loops(f):
        if c := counter(test, inside):
            more = (('indexes', r'\[[^\]]*\b%s\b' % c[0]), ('stores', r'\]\s*[-+|^]?=[^=]'), ('returns', r'\breturn\b'))
            yield at, ', '.join(['while %s: %s goes %s' % (test, *c)] + [w for w, p in more if re.search(p, inside)])

@rule('3b', 'other loops with while', FUNCTIONS)
def not_counting(f):
    for at, test, inside in loops(f):
        if not counter(test, inside):
            change = [m.group() for n in names_in(test) for m in re.finditer(r'(?<![\w.])%s\s*[-+*/%%|&<>^]*=(?!=)[^;]*' % n, inside)]
            yield at, 'while %s: no count, but %s' % (test, '; '.join(change) or 'what its test calls')

# ---- 4. Equality, order, copying, conversion and printing by hand.
# 4a  functions named same.., is_same.., equal.., compare(d).., ordered.., larger, lesser, smaller, both, either, follows, firsts, .._same, .._apart,
#     or that answer false in a loop at two elements that differ; enums of three bare variants of which one is Same or Equal.
# 4b  1 functions named copy.., copied.., and functions with a loop that stores an element of one slice in another as it is; 2 structs made with
#     three fields or more of one value, each under its own name.
# 4c  1 matches whose arms lead from variants to numbers, or from numbers to variants, or from each variant to one with the same fields, and
#     functions of one bool that answer 1 or 0; 2 functions of one parameter whose name ends in _of, _number(s), _words, _bits or _if.
# 4d  1 functions that call io::write_all or io::print_..; 2 functions without a result that call one of these, or one that does so.

ALIKE = re.compile(r'(is_)?(same|equal|compared?|ordered|larger|lesser|smaller|both|either|follows|firsts)(_\w+)?$|\w+_(same|apart)$')
WRITES = re.compile(r'\bio::(?:write_all|print_\w+)(?=\()')

@rule('4a', 'equality and order by hand', FUNCTIONS + ENUMS)
def equality(t):
    if t.kind == 'enum' and len(t.members) == 3 and not any(x for _, x in t.members) and {'Same', 'Equal'} & {n for n, _ in t.members}:
        yield tell_enum(t)
    if t.kind == 'fn' and (ALIKE.match(t.name) or any(re.search(r'\] != \w+\[[^{]*\{\s*return false', inside) for *_, inside in loops(t))):
        yield 'compares, answers ' + (t.result or 'nothing')

@rule('4b.1', 'copies of elements by hand', FUNCTIONS)
def copies(f):
    if re.match(r'cop(y|ied)(_\w+)?$', f.name) or any(re.search(r'\b(\w+)\[[^\]]*\] = (?!\1\b)\w+\[[^\]]*\];', inside) for *_, inside in loops(f)):
        yield 'copies'

@rule('4b.2', 'structs copied field by field', FUNCTIONS)
def field_copies(f):
    taken = dict(re.findall(r'\blet (\w+) = (\w+)\.\1;', f.code))
    for m in re.finditer(r'\b([A-Z]\w*) (?=\{)', f.code):
        fields = cut(f.file.inside(f.body + m.end()))
        direct = [re.fullmatch(r'(\w+): (\w+)\.\1', x) for x in fields]
        for source, count in collections.Counter([x.group(2) for x in direct if x] + [taken[x] for x in fields if x in taken]).items():
            if count >= 3:
                yield f.body + m.start(), '%s takes %d of %d fields from %s' % (m.group(1), count, len(fields), source)

@rule('4c.1', 'conversions by a match', FUNCTIONS)
def conversions(f):
    variant, number = r'(?:\w+::)+[A-Z]\w*(\([^()]*\))?', r'''(?:%s|b?'.'|"[^"]*")''' % NUMBER
    for at, what, arms in matches(f):
        arms = [(p, r) for _, p, r in arms if p != '_' or not re.fullmatch(r'[A-Z_]+|\{\s*\}', r)]
        both = [(re.fullmatch(variant, p), re.fullmatch(variant, r)) for p, r in arms]
        ways = {'to numbers': all(re.fullmatch(variant + '|_', p) and re.fullmatch(number, r) for p, r in arms),
                'from numbers': all(re.fullmatch(number + '|_', p) and re.fullmatch(variant, r) for p, r in arms),
                'from one enum to another': all(a and b and a.group(1) == b.group(1) for a, b in both)}
        if len(arms) > 1 and any(ways.values()):
            yield at, 'match %s: %s' % (what, next(way for way in ways if ways[way]))
    if [k for _, k in f.members] == ['bool'] and re.fullmatch(r'\s*if \w+ \{\s*(return )?1;?\s*\}( else \{)?\s*0\s*\}?\s*', f.code):
        yield 'a bool to 1 or 0'

@rule('4c.2', 'conversions by a function of one parameter', FUNCTIONS)
def converters(f):
    if len(f.members) == 1 and f.result and re.search(r'_(of|numbers?|words|bits|if)$', f.name):
        yield '%s to %s' % (f.members[0][1], f.result)

@rule('4d.1', 'functions that print', FUNCTIONS)
def printers(f):
    if found := sorted(set(WRITES.findall(f.code))):
        yield 'calls ' + ', '.join(found)

@rule('4d.2', 'functions that print through these')
def printers_through():
    def goal(f, path):
        words = path.split('::')
        used = re.search(r'\buse (\w+)(?:::\w+)*::(?:\{[^}]*\b%s\b[^}]*\}|%s);' % (words[0], words[0]), f.file.code)
        return words[0] if words[0] in CRATES else used.group(1) if used and used.group(1) in CRATES else f.file.crate, words[-1]
    called = [(f, {goal(f, p) for p in re.findall(r'(?<![\w.])([a-z_]\w*(?:::\w+)*)(?=\()', f.code)}) for f in FUNCTIONS if not f.result]
    known, before = {(f.file.crate, f.name) for f in FUNCTIONS if list(printers(f))}, None
    while before != known:
        before, known = known, known | {(f.file.crate, f.name) for f, calls in called if calls & known}
    for f, calls in called:
        if calls & known and not list(printers(f)):
            yield f.file, f.at, f.name, 'calls ' + ', '.join(sorted(name for _, name in calls & known))

# ---- 5. Facts and parameters that travel together. Each function is a place; the functions of one fact, or of one set, are a group.
# 5a  facts, the parts of a requires between ×, that stand in three functions or more; a function's parameters are named a, b, .. in their order,
#     and .old, .now and .new are left out.
# 5b  three parameters or more with the same names and types, mut left out, in three functions or more. A function is told once, with the set that
#     the most functions share, and of these the largest.
# 5c  two parameters or more so in ten functions or more.

def whole(text):
    """Whether a text is one round bracket."""
    depth = 0
    for i, c in enumerate(text):
        depth += (c in '([{') - (c in ')]}')
        if depth == 0:
            return i == len(text) - 1 and text[0] == '('

def factors(text):
    parts, depth = [''], 0
    for c in text:
        depth += (c in '([{') - (c in ')]}')
        parts = parts + [''] if c == '×' and depth == 0 else parts[:-1] + [parts[-1] + c]
    for part in (' '.join(p.split()) for p in parts):
        while part and whole(part):
            part = part[1:-1]
        yield part

@rule('5a', 'facts in the requires of three functions or more')
def facts():
    found = collections.defaultdict(list)
    for f in FUNCTIONS:
        for factor in (x for text in f.clauses for x in factors(text)):
            params, names = {name for name, _ in f.members}, {}
            fact = re.sub(r'(?<![\w.«-])([a-z_]\w*)(?:\.(?:old|now|new))?(?![\w-])',
                          lambda m: names.setdefault(m.group(1), chr(97 + len(names))) if m.group(1) in params else m.group(), factor)
            found[fact].append(f)
    found = sorted(((k, v) for k, v in found.items() if len(v) >= 3), key=lambda x: -len(x[1]))
    for number, (fact, members) in enumerate(found, 1):
        yield from ((f.file, f.at, f.name, 'fact %d in %d functions: %s' % (number, len(members), fact), number) for f in members)

def travelling(least, many):
    sets = [frozenset((n, k.replace('mut ', '')) for n, k in f.members) for f in FUNCTIONS]
    users = {s: {i for i, a in enumerate(sets) if s <= a} for s in {a & b for a in sets for b in sets} if len(s) >= least}
    left, number = set(range(len(sets))), 0
    while users:
        best = max(users, key=lambda s: (len(users[s] & left), len(s), sorted(s)))
        found = users.pop(best) & left
        if len(found) < many:
            return
        number, left = number + 1, left - found
        order = [n for n, _ in FUNCTIONS[min(found)].members]
        names = ', '.join('%s: %s' % p for p in sorted(best, key=lambda p: order.index(p[0])))
        for f in (FUNCTIONS[i] for i in sorted(found)):
            yield f.file, f.at, f.name, 'group %d of %d functions: %s%s' % (number, len(found), names, ' (for C)' if f.exported else ''), number

@rule('5b', 'three parameters or more that travel together through three functions or more')
def parameter_groups():
    return travelling(3, 3)

@rule('5c', 'two parameters or more that travel together through ten functions or more')
def parameter_pairs():
    return travelling(2, 10)

# ---- 6. Buffers with a length beside them, parallel arrays, searches by hand, fixed arrays, names as numbers, text as bytes.
# 6a  structs with an array and a number named count, len, n, size or used.
# 6b  a parameter that is a slice, and behind it a usize (or, where the slice is shared and not of bytes, any whole number) named n, m, count, end,
#     e, d, len, size, used or got: how much of it counts.
# 6c  a parameter that is a slice, and behind it a whole number or a Place named at, from, to, start, base, next, p, o or c: where in it to go on.
# 6d  structs with two arrays or more; two constant arrays of one length in a file; two local arrays of one length.
# 6e  loops that return at a test of an element; functions named find, member, contains, twice, insert.., sort.., union, unite, sift.
# 6f  local arrays [value; SIZE].
# 6g  hexadecimal numbers that spell text.
# 6h  functions that write text as strings of bytes.

def beside(f, names, allowed):
    last = None
    for name, kind in f.members:
        if is_slice(kind):
            last = name, kind
        elif last and re.fullmatch(names, name) and allowed(last[1], kind):
            yield '%s: %s, %s: %s' % (*last, name, kind)

def is_whole(kind):
    return is_number(kind) and kind[0] != 'f'

@rule('6a', 'structs with an array and its count', STRUCTS)
def counted_arrays(t):
    if any(re.match(r'(count|len|n|size|used)$', n) and is_number(k) for n, k in t.members) and any(k.startswith('[') for _, k in t.members):
        yield ', '.join('%s: %s' % x for x in t.members)

@rule('6b', 'parameters: a slice and how much of it counts', FUNCTIONS)
def counted_slices(f):
    return beside(f, 'n|m|count|end|e|d|len|size|used|got', lambda s, k: k == 'usize' or is_whole(k) and 'mut' not in s and '[u8]' not in s)

@rule('6c', 'parameters: a slice and where in it to go on', FUNCTIONS)
def placed_slices(f):
    return beside(f, 'at|from|to|start|base|next|p|o|c', lambda s, k: k == 'Place' or is_whole(k))

@rule('6d', 'parallel arrays')
def parallel_arrays():
    for t in STRUCTS:
        if len(arrays := [n for n, k in t.members if is_slice(k)]) > 1:
            yield t.file, t.at, t.name, 'fields ' + ', '.join(arrays)
    for file in FILES:
        for found in groups(re.finditer(r'\bconst (\w+): \[[^;\]]*; (\w+)\]', file.code), lambda m: m.group(2)):
            yield from ((file, m.start(), m.group(1), '%d constant arrays of %s' % (len(found), m.group(2))) for m in found)
    for f in FUNCTIONS:
        for found in groups(re.finditer(r'\blet (?:mut )?(\w+) = \[[^;\]]*; ([\w:]+)\];', f.code), lambda m: m.group(2)):
            yield f.file, f.body + found[0].start(), f.name, 'local arrays of %s: %s' % (found[0].group(2), ', '.join(m.group(1) for m in found))

@rule('6e', 'searches and sorts by hand', FUNCTIONS)
def searches(f):
    test = r'\bif (?:[^{]*\w\[[^\]]*\]\s*[=!<>]=?|[^{]*[=<>!]=? \w+\[[^\]]*\])[^{]*\{\s*return'
    if any(re.search(test, inside) for *_, inside in loops(f)):
        yield 'a loop that returns at an element'
    elif re.match(r'(find|member|contains|twice|insert\w*|sort\w*|union|unite|sift)$', f.name):
        yield 'named so'

@rule('6f', 'local arrays of a fixed size', FUNCTIONS)
def local_arrays(f):
    for m in re.finditer(r'\blet (?:mut )?(\w+)(?:: [^=;]*(?:; \w+\])?)? = (\[[^;\[\]]*; [\w:]+\]);', f.code):
        yield f.body + m.start(), '%s = %s' % m.groups()

@rule('6g', 'names packed into numbers', FUNCTIONS)
def packed_names(f):
    for m in re.finditer(r'\b0x((?:[0-9A-Fa-f]{2})+)\b', f.code):
        if all(32 < c < 127 for c in bytes.fromhex(m.group(1))):
            yield f.body + m.start(), "%s is '%s'" % (m.group(), bytes.fromhex(m.group(1)).decode())

@rule('6h', 'functions that hold text as bytes', FUNCTIONS)
def bytes_for_text(f):
    if found := re.findall(r'\bb"(?:\\n|[^"\\])*"', f.file.text[f.body:f.body + len(f.code)]):
        yield '%d strings of bytes, %s' % (len(found), found[0])

# ---- 7. Switches on which step to run. say and word, which print, are no steps.
# 7a  matches on numbers, or on variants without fields, of which two arms or more call different functions of ours.
# 7b  tests of one value for equality with two numbers or more, whose blocks call different functions of ours.

STEPS = {f.name for f in FUNCTIONS} - {'say', 'word'}

def chosen(at, what, rights):
    called = {frozenset(n for n in re.findall(r'(?<!\.)\b([a-z_]\w*)(?=\()', r) if n in STEPS) for r in rights} - {frozenset()}
    return [(at, '%s chooses among %s' % (what, ', '.join(sorted(frozenset().union(*called)))))] if len(called) > 1 else []

@rule('7a', 'matches that choose a step', FUNCTIONS)
def step_matches(f):
    for at, what, arms in matches(f):
        if numbered(arms) or all(re.fullmatch(r'(\w+::)+[A-Z]\w*|_', p) for _, p, _ in arms):
            yield from chosen(at, what, [r for *_, r in arms])

@rule('7b', 'tests in a row that choose a step', FUNCTIONS)
def step_tests(f):
    for found in groups(re.finditer(r'\bif ([\w.]+(?:\[[^\]]*\])?) == %s (?=\{)' % NUMBER, f.code), lambda m: m.group(1)):
        yield from chosen(f.body + found[0].start(), found[0].group(1), [f.file.inside(f.body + m.end()) for m in found])

# ---- 8. Proofs.
# 8a  files Answers.antt that answer goals. 8b the answers in them. 8c files Invariants.antt.
# 8d  1 answers that are search rules, omega arith, cc, refl or tt alone; 2 answers that name no lemma and no rules of this repository: only what
#     the goal gives (c..), tactics and names of the library.
# 8e  answers that are one search with one set of rules or one lemma: search (rules, X).
# 8f  answers, and 8g lets within proofs, whose text, white space left out, stands three times or more in one crate. A text is a group.
# 8h  lemmas in proofs/, outside a module with parameters, that state an equation, an order or a truth without a name that the file makes or takes
#     from a crate of this repository: the library may have them.
# 8i  lemmas with one statement, its variables named in order, in two files or more. A statement is a group.

LEMMA = re.compile(r'^( *)(?:(?:pub|abbrev|unfoldable) )*(?!(?:use|module|record|data|let)\b)([^\s:(){}]+) : ([^\n]*(?:\n(?!\1\S)[^\n]*\S[^\n]*)*)', re.M)
MADE = re.compile(r'^ *(?:(?:pub|abbrev|unfoldable|record|data|ruleset) )*([^\s:(){}]+)(?= [^\n]*[:=])', re.M)
TAKEN = re.compile(r'^use Rattle\.(\w+)\.(?!\S*\.Goals)[^\n{]*?(?:\{([^}]*)\}| as (\w+))', re.M)
LET = re.compile(r'\blet (\S+)( : (?:(?!\bin\b|\blet\b)[\s\S])*?)\s+in\b')

class Proof(Text):
    def __init__(self, path):
        super().__init__(path)
        self.code = re.sub(r'--[^\n]*', lambda m: ' ' * len(m.group()), self.text)
        self.own, self.answers, self.lemmas = set(MADE.findall(self.code)), [], []
        for crate, names, alias in TAKEN.findall(self.code):
            self.own |= {w.strip() for w in (names or alias).split(',')} if crate in CRATES else set()
        for m in LEMMA.finditer(self.code):
            end = re.compile(r'\n\n|\n(?=%s(?!\s|unfolding)\S+ : |%s(?:pub|abbrev|record|data|module|use)\b)' % (m.group(1), m.group(1)))
            stop = end.search(self.code, m.end())
            proof = self.code[m.end():stop.start() if stop else len(self.code)]
            value = re.search(r'^ *%s(?![^\s(){}])[^=\n]*=\s*(.*)' % re.escape(m.group(2)), proof, re.S | re.M)
            if m.group(3).startswith('goal.'):
                self.answers.append((self, m.start(), m.group(2), ' '.join(value.group(1).split()) if value else ''))
            elif value and not m.group(1):
                self.lemmas.append((self, m.start(), m.group(2), ' '.join(m.group(3).split())))

    def is_own(self, text):
        return any(w in self.own for w in re.findall(r'(?<![^\s(){},;\[\]])([^\s(){},;.\[\]λ]+)', text) if w != 'c')

PROOFS = [Proof(p) for p in sorted(glob.glob('crates/*/proofs/**/*.antt', recursive=True))]
ANSWERS = [a for p in PROOFS if p.path.endswith('/Answers.antt') for a in p.answers]
LEMMAS = [x for p in PROOFS for x in p.lemmas]

def repeated(texts, key, enough):
    found = sorted((g for g in groups(texts, key) if enough(g)), key=lambda g: -len(g))
    for number, group in enumerate(found, 1):
        yield from ((p, at, name, 'text %d, %d times: %s' % (number, len(group), text), number) for p, at, name, text in group)

def thrice(texts):
    return repeated(texts, lambda x: (x[0].crate, re.sub(r'\s', '', x[3])), lambda g: len(g) > 2)

@rule('8a', 'files of answers')
def answer_files():
    return ((p, 0, p.path.split('/')[-2], 'answers of a function') for p in dict.fromkeys(a[0] for a in ANSWERS))

@rule('8b', 'answers')
def answers():
    return iter(ANSWERS)

@rule('8c', 'files of invariants')
def invariants():
    return ((p, 0, p.path.split('/')[-2], 'invariants of a function') for p in PROOFS if p.path.endswith('/Invariants.antt'))

@rule('8d.1', 'answers that are one tactic alone')
def tactics():
    return (a for a in ANSWERS if re.fullmatch(r'\(?(search rules|omega arith|cc|refl|tt)\)?', a[3]))

@rule('8d.2', 'answers that name nothing of this repository')
def bare_answers():
    return (a for a in ANSWERS if not a[0].is_own(a[3]))

@rule('8e', 'answers that are one search with one set of rules or lemma')
def searched():
    return (a for a in ANSWERS if re.fullmatch(r'search \(rules, [^\s,()]+\)', a[3]))

@rule('8f', 'answers whose text stands three times or more in a crate')
def repeated_answers():
    return thrice(ANSWERS)

@rule('8g', 'lets whose text stands three times or more in a crate')
def repeated_lets():
    return thrice([(p, m.start(), m.group(1), m.group(1) + m.group(2)) for p in PROOFS for m in LET.finditer(p.code)])

@rule('8h', 'lemmas stated with names of the library alone')
def library_lemmas():
    return (x for x in LEMMAS if re.search(r'≡|≤|<|≢|\bT \(|IsTrue', x[3].split('→')[-1]) and not x[0].is_own(x[3]))

@rule('8i', 'lemmas with one statement in two files or more')
def lemma_twins():
    def statement(x):
        bound, names = {v for group in re.findall(r'[({λ]\s*([^(){}:]*?)\s*[:.]', x[3]) for v in group.split()}, {}
        return ' '.join(names.setdefault(w, 'v%d' % len(names)) if w in bound else w for w in re.findall(r'[^\s(){},;]+|[(){},;]', x[3]))
    return repeated([x for x in LEMMAS if len(x[3]) > 20], statement, lambda g: len({x[0].path for x in g}) > 1)

# ---- What is printed.

def main(asked=None):
    lines = collections.defaultdict(set)
    if asked is None:
        print('rule    places  groups  crates  what')
    for code, what, find in RULES:
        if asked in (None, 'all') or code.startswith(asked):
            found = list(find())
            lines[code[0]] |= {(x[0].path, x[0].line(x[1])) for x in found}
            if asked is None:
                numbers = len({x[4] for x in found if len(x) > 4})
                print('%-7s %6d  %6s  %6d  %s' % (code, len(found), numbers or '', len({x[0].crate for x in found}), what))
            else:
                for file, at, name, told, *_ in found:
                    print('%s:%d %s  %s %s' % (file.path, file.line(at), name, code, ' '.join(told.split())[:300]))
    if asked is None:
        print('lines, each counted once, by point: ' + ', '.join('%s %d' % (p, len(v)) for p, v in lines.items()))

if __name__ == '__main__':
    main(*sys.argv[1:2])
