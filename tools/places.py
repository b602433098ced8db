#!/usr/bin/env python3
"""Lists the places of the design pass (docs/DESIGN-PASS.md) in crates/*/src: python3 tools/places.py [COMMIT] [-q].

Without a commit it reads the files as they lie. -q prints the counts alone.
"""
import collections, glob, re, subprocess, sys


def sources(commit):
    if commit is None:
        for path in sorted(glob.glob('crates/*/src/**/*.rt', recursive=True)):
            yield path, open(path, encoding='utf-8').read()
        return
    names = subprocess.run(['git', 'ls-tree', '-r', '--name-only', commit, 'crates'], check=True, capture_output=True, text=True).stdout.split()
    for path in names:
        if re.match(r'crates/[^/]+/src/.*\.rt$', path):
            yield path, subprocess.run(['git', 'show', f'{commit}:{path}'], check=True, capture_output=True, text=True).stdout


def closing(text, at):
    """The place past the bracket that closes the one at `at`."""
    depth = 0
    for i in range(at, len(text)):
        depth += (text[i] in '({[') - (text[i] in ')}]')
        if depth == 0:
            return i + 1
    return len(text)


def past_generics(text, at):
    """The place past <..>, whose bounds may have brackets of their own, as FnOnce(u8) -> u8 has."""
    if text[at] != '<':
        return at
    depth = 0
    for i in range(at, len(text)):
        depth += (text[i] == '<') - (text[i] == '>' and text[i - 1] != '-')
        if depth == 0:
            return i + 1
    return len(text)


class Function:
    def __init__(self, path, text, match):
        self.path, self.name = path, match.group(1)
        self.line = text.count('\n', 0, match.start()) + 1
        open_args = text.index('(', past_generics(text, match.end()))
        close_args = closing(text, open_args)
        self.args = [' '.join(a.split()) for a in re.split(r',(?![^<(\[]*[>)\]])', text[open_args + 1:close_args - 1]) if a.strip()]
        # Clauses follow the head, each with its own braces; the body is the last pair.
        at = close_args
        head_end = None
        self.requires = []
        while True:
            brace = text.index('{', at)
            between = text[at:brace]
            if head_end is None:
                head_end = brace
                self.result = between.split('requires')[0].split('ensures')[0].strip()
            clause = re.search(r'(requires|ensures)\b[^{}]*$', between)
            end = closing(text, brace)
            if clause:
                if clause.group(1) == 'requires':
                    self.requires.append(text[brace + 1:end - 1])
                at = end
                continue
            self.body = text[brace:end]
            return

    def __str__(self):
        return f'{self.path}:{self.line}: {self.name}'


def functions(path, text):
    bare = re.sub(r'//[^\n]*', lambda m: ' ' * len(m.group(0)), text)
    for match in re.finditer(r'\bfn ([a-z_0-9]+)', bare):
        yield Function(path, bare, match)


def shape(function):
    """The body with numbers, types and names taken out, each name by its first appearance."""
    names = {}
    out = []
    for token in re.findall(r"b?'[^']*'|b?\"[^\"]*\"|\w+|[^\w\s]", ' '.join(function.args) + function.result + function.body):
        if re.fullmatch(r'\d\w*', token) or token[0] in '"\'' or token[:2] in ('b"', "b'"):
            out.append('0')
        elif re.fullmatch(r'[iu](8|16|32|64|size)', token):
            out.append('T')
        elif re.fullmatch(r'[A-Za-z_]\w*', token) and token not in KEYWORDS:
            out.append(names.setdefault(token, f'n{len(names)}'))
        else:
            out.append(token)
    return ' '.join(out)


KEYWORDS = set('fn let mut if else match while for in loop return break continue as self Self pub struct enum impl true false'.split())


def main():
    commit = next((a for a in sys.argv[1:] if not a.startswith('-')), None)
    quiet = '-q' in sys.argv
    files = list(sources(commit))
    found = collections.OrderedDict()

    def note(point, place):
        found.setdefault(point, []).append(place)

    everything = [f for path, text in files for f in functions(path, text) if not path.endswith('tests.rt')]
    library = [f for f in everything if not f.path.startswith('crates/cases/')]

    for path, text in files:
        for m in re.finditer(r'enum (\w+)[^{]*\{([^}]*)\}', text):
            variants = [v.strip() for v in re.sub(r'//[^\n]*|#\[[^\]]*\](?!\s*$)', '', m.group(2)).split(',') if v.strip()]
            if len(variants) == 2 and sum('(' in v for v in variants) == 1:
                note('1 enums of the shape of Option', f'{path}: {m.group(1)}')
        for m in re.finditer(r'struct (\w+)[^{;(]*\{([^}]*)\}', text):
            if re.search(r'^\s*(pub )?refusal: u', m.group(2), re.M):
                note('1 structs with the number of a refusal', f'{path}: {m.group(1)}')
            for flag in re.findall(r'^\s*(?:pub )?(begun|started|open|more|ranged|wrong|minus|failed|known): bool', m.group(2), re.M):
                note('1 flags with a value beside', f'{path}: {m.group(1)}.{flag}')
            array = re.search(r': \[[^;\]]*; [^\]]*\]', m.group(2))
            if array and re.search(r'^\s*(pub )?\w+: (u32|usize)', m.group(2), re.M):
                note('6 arrays with a length beside, in a struct', f'{path}: {m.group(1)}')
    for f in everything:
        if any(re.fullmatch(r'(edition|kind|mark|e|last): u8', a) for a in f.args) and '/cases/' not in f.path:
            note('1 numbers for a kind, a mark or an edition', f)
        if re.search(r'refusal|refused|rows|told|change|shape|sequence|^close', f.name) and re.search(r'-> u(8|32)', f.result):
            note('1 functions that answer the number of a refusal', f)
        for m in re.finditer(r'while (\w+) < [^{]*\{', f.body):
            inner = f.body[m.end() - 1:closing(f.body, m.end() - 1)]
            if re.search(rf'\b{m.group(1)} (\+= |= {m.group(1)} \+|= \w+(\.\w+)?;|= \w+ \+ 1)', inner):
                note('3 loops that count an index by hand', f)
        for m in re.finditer(r'while \d+ <= [^{]*\{|loop \{\s*if \w+ >=', f.body):
            note('3 loops that count an index by hand', f)
        for m in re.finditer(r'for (\w+) in [^{]*\.\.[^{]*\{', f.body):
            inner = f.body[m.end() - 1:closing(f.body, m.end() - 1)]
            if re.search(rf'\[[^\]]*\b{m.group(1)}\b[^\]]*\]', inner):
                note('3 ranges whose number is used as an index', f)
        if re.fullmatch(r'(lower|higher|same|same_long|apart|magnitude|age|size)', f.name):
            note('4 equality, order and distance by hand', f)
        if re.fullmatch(r'(wide|wide16|wide32|signed|signed_long|unsigned|unsigned_long|write_signed|write_signed_long|read16|read32|write16|write32|pass_mark|test_mark|copy|clear|all_zero)', f.name):
            note('4 conversions and copies by hand', f)
        if re.fullmatch(r'(text|number|flag|field|count|signed_field|end_line|put|put_number|put_place|put_flags|taken_line|refused_line|report_line)', f.name) and re.search(r'print|lines', f.path):
            note('4 printing by hand', f)
        joined = ', '.join(f.args)
        if re.search(r'\[\w+; \w+\], \w+: (u32|usize)', joined) or re.search(r'\w+: \[\w+; 30\], from: u32, n: u32', joined):
            note('6 arrays passed with a length beside', f)
        if re.search(r'&mut \[u8\], at: usize', joined) and '/reading/' in f.path:
            note('6 buffers passed with a place beside', f)
        if re.search(r'match c \{\s*Command::', f.body):
            note('7 switches on a step to run', f)

    groups = collections.defaultdict(list)
    for f in everything:
        if f.body.count('\n') > 1 and len(f.body) > 60:
            groups[shape(f)].append(f)
    for group in groups.values():
        if len(group) > 1:
            note('2 functions alike but for types, sizes, constants and names', ' = '.join(str(f) for f in group))

    facts = collections.defaultdict(list)
    for f in library:
        for clause in f.requires:
            for fact in re.split(r'×', clause):
                fact = ' '.join(fact.split()).strip()
                while fact.startswith('(') and closing(fact, 0) == len(fact):
                    fact = fact[1:-1].strip()
                facts[fact].append(f.name)
    for fact, where in sorted(facts.items(), key=lambda x: -len(x[1])):
        if len(where) > 2:
            note('5 facts in three contracts or more', f'{len(where)} times: {fact}')
    pairs = collections.Counter()
    for f in library:
        args = [a for a in f.args if ':' in a]
        for i in range(len(args) - 1):
            pairs[args[i], args[i + 1]] += 1
    for (a, b), n in pairs.most_common():
        if n > 2:
            note('5 parameters side by side in three functions or more', f'{n} times: {a}, {b}')

    for point in sorted(found):
        print(f'{point}: {len(found[point])}')
        if not quiet:
            for place in found[point]:
                print(f'    {place}')


main()
