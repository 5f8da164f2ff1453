"""The crates as the wrong answers meet them: their functions, the edits under must-fail/ and wrong/, and what each edit stands for."""
import os
import re

ROOT = os.path.dirname(os.path.dirname(os.path.abspath(__file__)))
PROGRAMS = ('calendar_check', 'plan_printer', 'replay', 'worked_sums')
TWICE = ('harpdapple', 'account', 'records', 'slots', 'running_ledger')
PROGRAM = 'src/main.rt'
HEAD = re.compile(r'^( *)(pub(?:\(\w+\))? )?(?:extern "C" )?fn (\w+)', re.M)
# a call, or a function that is named by its path: what stands before it, its path, its name
CALL = re.compile(r'(\.|>::)?((?:\w+::)*)\b(\w+)((?:::<[^>()]*>)?\()?')
OPERATORS = {' + ': 'add', ' - ': 'sub', ' * ': 'mul', '?': 'from', '.into()': 'from', '.try_into()': 'try_from'}
ANY = ('*', 'Self', 'crate', 'self', 'super', *'ABCDEFGHIJKLMNOPQRSTUVWXYZ')  # paths that tell nothing of an owner
BLOCK = re.compile(r'^(?:pub )?(?:trait (\w+).*|impl(<.*?>)? (.*)) \{$', re.M)


def read(crate, place):
    return open(os.path.join(ROOT, 'crates', crate, place), encoding='utf-8').read()


class Line:
    """A line of crates.txt: what a crate uses of the repository and of the kit, and whether it is a static library."""

    def __init__(self, text):
        head, _, uses = text.partition(':')
        self.name, self.is_static, self.uses, self.of_kit = head.split()[0], 'staticlib' in head.split()[1:], [], []
        for name in uses.split():
            (self.uses if os.path.isdir(os.path.join(ROOT, 'crates', name)) else self.of_kit).append(name)


def listed():
    lines = [line.split('#')[0] for line in open(os.path.join(ROOT, 'crates.txt'), encoding='utf-8')]
    return {line.name: line for line in (Line(text) for text in lines if ':' in text)}


LISTED = listed()


def below(name):
    """The crates of the repository that a crate stands on, each once."""
    found = []
    for dep in LISTED[name].uses:
        found += [it for it in below(dep) + [dep] if it not in found]
    return found


def owner_of(block):
    """The words of a trait, a type or a trait for a type, without lifetimes and parameters, and what the prover calls it: the words run together."""
    if block[1]:
        return [block[1]], block[1]
    trait, _, kind = block[3].split(' where ')[0].rpartition(' for ')
    taken = re.findall(r'[<,]\s*(?:const )?(\w+)', block[2] or '')
    words = [word for word in re.findall(r"(?<!')\b\w+", kind + ' ' + trait) if word not in taken]
    return words, ''.join(word[0].upper() + word[1:] for word in words) if trait else words[0]


def calls_in(text):
    """The paths and names of what a body calls. `*` is the path of a method, an operator or a conversion."""
    found = {('*', name) for sign, name in OPERATORS.items() if sign in text}
    for before, path, name, opened in CALL.findall(text):
        if opened or path:
            found.add(('*' if before else path.split('::')[-2] if path else '', name))
    return found


class Function:
    """A function of a crate: its name in the prover's log, its proof file, where its text, contract and body stand."""

    def __init__(self, crate, place, text, head):
        module = os.path.basename(place)[:-len('.rt')]
        block = [*BLOCK.finditer(text[:head.start()])][-1] if head.group(1) else None
        self.paths, owner = owner_of(block) if block else ([module], module)
        is_impl_of = bool(block) and ' for ' in (block[3] or '')
        at_home = block and module not in ('lib', 'main') and (is_impl_of or re.search(r'^(?:pub )?(?:struct|enum|trait) %s\b' % owner, text, re.M))
        # a type or an impl of a trait in a module has its name before its own
        self.is_free, owner = not block, [module, owner] if at_home else [owner]
        of_trait = bool(block) and (block[1] or ' for ' in block[3]) and 'ghost ' in text[block.start():head.start()]
        owner = [] if owner in (['lib'], ['main']) else owner
        self.name, self.place = '::'.join(owner + [head.group(3)]), place
        self.folder = '/'.join(['proofs'] + owner + [head.group(3)])
        of_cycle = '/'.join(['proofs'] + owner + ['+' + head.group(3)])  # of one that calls itself
        if os.path.isdir(os.path.join(ROOT, 'crates', crate, of_cycle)):
            self.folder = of_cycle
        self.begin, self.end = head.start(), text.find('\n' + head.group(1) + '}\n', head.end())
        stop = text.find(';\n', head.end())
        declared = '{\n' not in text[head.end():stop]
        if declared:
            self.end = stop  # a trait's function with no body, which its impls promise for
        opened = re.compile(r'^%s(?! ).*\{$' % head.group(1), re.M).search(text, head.start())  # at the function's own depth
        self.body = self.end if declared else opened.end()
        row = lambda at: text.count('\n', 0, at) + 1
        self.block = range(row(block.start()), row(text.find('\n}\n', block.start())) + 2) if block else range(0)
        rows, first = text.split('\n'), row(self.begin)
        while rows[first - 2].lstrip().startswith('#['):
            first -= 1  # the prover counts a function from its attributes on
        self.lines = range(first, row(self.end) + 2)
        self.public = head.group(2) == 'pub ' or of_trait
        self.promises = not declared and ('ensures' in text[self.begin:self.body] or of_trait)
        self.last, self.calls = head.group(3), calls_in(text[self.body:self.end])

    def is_met(self, call):
        """Whether a call may mean this function: by its name, and by the type, the trait or the module that its path names."""
        path, last = call
        return last == self.last and (path in ANY or path in self.paths or self.is_free and not path)


class Crate:
    """A crate: its functions, its edits, and who names a function."""

    def __init__(self, name):
        self.name, self.functions, self.texts, self.reach = name, [], {}, {}
        base = os.path.join(ROOT, 'crates', name)
        self.root = PROGRAM if os.path.exists(os.path.join(base, PROGRAM)) else 'src/lib.rt'
        for part in ('src', 'proofs'):
            for folder, _, files in os.walk(os.path.join(base, part)):
                for file in sorted(files):
                    place = os.path.relpath(os.path.join(folder, file), base)
                    self.texts[place] = read(name, place)
        for place, text in self.texts.items():
            if place.endswith('.rt'):
                self.functions += [Function(name, place, text, head) for head in HEAD.finditer(text)]
        self.edits = {kind: [Edit(self, kind, file) for file in sorted(os.listdir(os.path.join(base, kind))) if file.endswith('.edit')]
                      if os.path.isdir(os.path.join(base, kind)) else [] for kind in ('must-fail', 'wrong')}

    def uncalled(self, function):
        """Whether nothing else in the crate names the function."""
        word = re.compile(r'\b%s\b' % function.name.split('::')[-1])
        return not any(len(word.findall(text)) > (place == function.place)
                       for place, text in self.texts.items() if not place.startswith(function.folder + '/'))

    def reached(self, function):
        """What a function calls, and what that calls, in the crate."""
        if function not in self.reach:
            found, left = set(), [function]
            while left:
                calls = left.pop().calls
                more = {other for other in self.functions if other not in found and any(map(other.is_met, calls))}
                found |= more
                left += more
            self.reach[function] = found
        return self.reach[function]

    def named(self, name):
        found = [f for f in self.functions if f.name == name] or [f for f in self.functions if f.name.split('::')[-1] == name]
        return found[0] if len(found) == 1 else None


class Edit:
    """A file of replacements; `function` is the one that it can share a run by, `whole` what is wrong with it, if anything is."""

    def __init__(self, crate, kind, file):
        self.crate, self.kind, self.label = crate, kind, file[:-len('.edit')]
        self.pairs, self.whole, self.stands, self.goals = [], None, [], []
        place = old = None
        others = []
        for line in read(crate.name, kind + '/' + file).split('\n'):
            if line.startswith('file: '):
                place = line[len('file: '):]
            elif line.startswith('old: '):
                old = line[len('old: '):]
            elif line.startswith('new:'):
                self.pairs.append((place, old, line[len('new:'):].removeprefix(' ')))
            elif line.startswith('for: '):
                others += line[len('for: '):].split()
            elif line.startswith('goals: '):
                self.goals += line[len('goals: '):].split()
        touched = [self.touched(*pair) for pair in self.pairs if pair[1] in crate.texts.get(pair[0], '') or pair is self.pairs[0]]
        self.changed = {function for function, _ in touched if function}
        self.stands = list(self.changed)
        one = touched[0][0] if len({function for function, _ in touched}) == 1 else None
        self.function = one if one and ({part for _, part in touched} == {'body'} or crate.uncalled(one)) else None
        self.others = []
        for name in others:
            function = crate.named(name)
            self.whole = self.whole or ('BAD EDIT: it names %s, which is no function of the crate' % name if not function else None)
            self.others += [function] if function else []
        if self.goals and not self.function:
            self.whole = self.whole or 'BAD EDIT: it names goals, and is not of one body'
        self.stands += self.others

    def touched(self, place, old, new):
        """The function that a replacement stands in, and whether in its body (or its proof) or its contract."""
        at = self.crate.texts.get(place, '').find(old) + len(os.path.commonprefix([old, new]))
        for function in self.crate.functions:
            if place.startswith(function.folder + '/'):
                return function, 'body'
            if function.place == place and function.begin <= at <= function.end:
                return function, 'body' if at >= function.body else 'contract'
        return None, None


def edited(edits):
    """The texts of the files that the edits change, or None: each old text must stand in its file once."""
    texts = {}
    for edit in edits:
        for place, old, new in edit.pairs:
            text = texts[place] if place in texts else read(edit.crate.name, place)
            if text.count(old) != 1:
                return None
            texts[place] = text.replace(old, new)
    return texts


def lacking(crate):
    """A line for each public contract with too few wrong answers, and one for a crate that has none, or none that `rt ci` tries."""
    edits = crate.edits['must-fail'] + crate.edits['wrong']
    public = [function for function in crate.functions if function.public and function.promises]
    print('wrong %s: %d edits (%d under must-fail, %d under wrong), %d public contracts'
          % (crate.name, len(edits), len(crate.edits['must-fail']), len(crate.edits['wrong']), len(public)), flush=True)
    if not edits:
        return [] if crate.name in PROGRAMS else ['wrong %s: LOST: it has no wrong answer' % crate.name]
    wanted, out = 2 if crate.name in TWICE else 1, []
    if not crate.edits['must-fail']:
        out.append('wrong %s: TOO FEW: none of its wrong answers is under must-fail/' % crate.name)
    for function in public:
        have = sum(function in edit.stands for edit in edits)
        if have < wanted:
            out.append('wrong %s: TOO FEW: %s has %d wrong answers, and %d are wanted' % (crate.name, function.name, have, wanted))
    return out
