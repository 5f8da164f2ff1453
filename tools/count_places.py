#!/usr/bin/env python3
"""Counts the places of crates/*/src/*.rt where a plainer form may serve, by kind.

  tools/count_places.py [--list] [COMMIT]    in the repository; without COMMIT the files as they stand

A line for each kind says how many places there are; --list adds each of them, `file:line: text`. It reads tokens and knows no meaning, so
a reader judges the list: a place may be right as it is. Kinds 2 and 5 count groups; the list has the members of each. What it counts:

  1a enums with a variant that carries a value and one named as a refusal or as nothing: an Option or a Result under another name
  1b structs with a bool field named as presence (loaded, known, held ..) beside other fields
  1c refusals by a number: Refused(8), need(.., 15, ..), refused(23)
  1d constants of a number type that are an arm's pattern or its whole value, or one of three that count up from 0 or 1
  1e parameters and fields of a number type that are named as a kind: slot, kind, which, code, refusal, fault, shelf, verdict, answer
  1f matches with two or more number literals as patterns
  2a functions whose bodies, of two lines at least, are equal but for names, types and numbers
  2b structs with equal fields, and enums equal but for names and types
  2c three lines together that stand in three functions or more
  3a while and loop that count by `+= 1` or `-= 1`
  3b for over a range whose number is an index in the body
  4a functions named for what a derive, From, Ord or an operator says
  4b functions that compare two values field by field
  4c functions that copy themselves, write fields and hand the copy back: a struct with `..self`
  5a facts that three or more contracts require or ensure, parameters by their types
  5b two parameters, the same in three signatures or more
  6a a lent buffer beside its place or length, as parameters
  6b an array beside a count, as fields
  6c two arrays of one length in a struct
  6d two arrays read or written at one index
  7  a match, or ifs over one value, that picks a call by number or text constants
  8  the lines of proofs/, and of each crate's: answers, invariants, whole proofs, and files of lemmas
"""
import io
import os
import re
import subprocess
import sys
import tarfile
from collections import defaultdict
from itertools import combinations, groupby

sys.dont_write_bytecode = True
from places import File, NUMBER, Type, WORD, arms, calls, path, read_functions, shape, split

ROOT = os.path.dirname(os.path.dirname(os.path.abspath(__file__)))
TITLES = dict(re.findall(r'^  (\d\w?) +(.+(?:\n {5}\S.*)*)', __doc__, re.M))
LITERAL = re.compile(r'''-?\d\w*|b?['"].*|(\w+::)*[A-Z][A-Z0-9_]+''')
WHOLE = re.compile(r'[ui](8|16|32|64|size)')
REFUSING = re.compile(r'Refused|Refusal|Fault|Accepted|Sound|Wrong|Unknown|Missing|Absent|Empty|None|Nothing|No[A-Z]\w*')
PRESENT = re.compile(r'loaded|known|held|some|found|present|given|full|set|ok|accepted|valid|(is|has|with)_\w+|\w+_(loaded|known|held)')
KIND = re.compile(r'slot|kind|which|code|refusal|fault|shelf|verdict|answer')
BY_HAND = re.compile(r'same\w*|eq|equals?|is_equal|differs|later|earlier|least|greatest|lesser|greater|cmp|plus|minus|less|times|at_most|'
                     r'at_least|display|(to|into|from)_\w+|(verdict|reply)_of|\w+_reply|number|number_of|clone|copy|copied')
SOURCE = re.compile(r'crates/\w+/(src/.*\.rt|proofs/.*\.antt)$')
PROOFS = ['Answers', 'Invariants', 'Proof']
PLACE = re.compile(r'at|from|to|end|start|place|offset|n|len|length|count|size|used')


class Count:
    """The places found, by kind."""

    def __init__(self, sources):
        self.found = defaultdict(list)
        self.files = [File(place, text) for place, text in sources.items() if place.endswith('.rt')]
        self.functions = [function for file in self.files for function in read_functions(file)]
        self.types = [Type(file, i) for file in self.files for i, word in enumerate(file.words)
                      if word in ('struct', 'enum') and WORD.fullmatch(file.words[i + 1])]

    def add(self, kind, file, line, text=None):
        """Adds a place, by the text of its line where there is none."""
        self.found[kind].append(f'{file.path}:{line}: {text or file.rows[line - 1].strip()}')

    def groups(self, kind, pairs, least):
        """Adds each key with that many members or more as one place, its members below it."""
        members = defaultdict(list)
        for key, title, item, line in pairs:
            members[key].append((title, item, line))
        for found in sorted(members.values(), key=len, reverse=True):
            if len(found) >= least:
                rows = [f'    {file.path}:{line}: {file.rows[line - 1].strip()}' for _, file, line in found]
                self.found[kind].append('\n'.join([f'{len(found)} times: {found[0][0]}'] + rows))

    def numbers(self):
        """Options, Results and kinds that are written as enums, flags and numbers of their own."""
        for it in self.types:
            if any(REFUSING.fullmatch(name) for name in it.variants) and any('(' in part or '{' in part for part in it.parts):
                self.add('1a', it.file, it.line)
            for name, kind in it.fields:
                if kind == 'bool' and PRESENT.fullmatch(name) and len(it.fields) > 1:
                    self.add('1b', it.file, it.line, f'struct {it.name}: {name}')
                if WHOLE.fullmatch(kind) and KIND.fullmatch(name):
                    self.add('1e', it.file, it.line, f'struct {it.name}: {name}: {kind}')
        for it in self.functions:
            for name, kind in it.params:
                if WHOLE.fullmatch(kind) and KIND.fullmatch(name):
                    self.add('1e', it.file, it.line, f'fn {it.name}: {name}: {kind}')
        for file in self.files:
            for i, word in enumerate(file.words[:-1]):
                inner = split(file.words[i + 2:file.close(i + 1)]) if file.words[i + 1] == '(' and file.words[i - 1] != 'fn' else []
                if word in ('Refused', 'NoDay', 'refused', 'need') and any(len(part) == 1 and NUMBER.fullmatch(part[0]) for part in inner):
                    self.add('1c', file, file.lines[i])

    def constants(self):
        """Constants that number kinds."""
        crates = defaultdict(list)
        for file in self.files:
            crates[file.path.split('/')[1]].append(file)
        for files in crates.values():
            ends = {a for file in files for a, b in zip(file.words, file.words[1:]) if b == '=>'}
            for file in files:
                ends |= {file.words[file.find(i, ',') - 1] for i, word in enumerate(file.words) if word == '=>'}
            for file in files:
                found = re.findall(r'^ *(?:pub(?:\(\w+\))? )?const (\w+): [ui]\w+ = ([\dx_]\w*);', '\n'.join(file.rows), re.M)
                for _, run in groupby(enumerate(found), lambda it: int(it[1][1], 0) - it[0]):
                    run = [it for _, it in run]
                    counts = len(run) >= 3 and int(run[0][1], 0) < 2
                    for name in [name for name, _ in run if counts or name in ends]:
                        self.add('1d', file, next(n for n, row in enumerate(file.rows, 1) if f'const {name}:' in row))

    def twins(self):
        """Functions, types and lines that say one thing twice."""
        self.groups('2a', [(shape(it.body), f'body as of {it.name}', it.file, it.line)
                           for it in self.functions if it.rows >= 2 and len(it.body) >= 8], 2)
        rows = [(file.rows[n - 1:n + 2], it, n) for it in self.functions for file in [it.file]
                for n in range(file.lines[it.begin] + 1, file.lines[it.end] - 2)]
        self.groups('2c', [(' '.join(map(str.strip, three)), 'these lines', it.file, n) for three, it, n in rows
                           if sum(len(row.strip()) > 20 for row in three) >= 2], 3)
        self.groups('2b', [(it.kind + (shape(sum(it.parts, [])) if it.kind == 'enum' else str(it.fields)), f'{it.kind} as {it.name}',
                            it.file, it.line) for it in self.types if len(it.parts) >= 2], 2)

    def loops(self):
        """Indices counted by hand."""
        for it in self.functions:
            file, words = it.file, it.file.words
            for i in it.at('while') + it.at('loop'):
                start = file.find(i, '{')
                inner = ' '.join(words[start:file.close(start)])
                if re.search(r' [+-]= 1 ;', inner):
                    self.add('3a', file, file.lines[i])
            for i in it.at('for'):
                start = file.find(i, '{')
                inner = ' '.join(words[start:file.close(start)])
                if words[i + 1].isidentifier() and {'..', '..='} & set(words[i:start]) and re.search(rf'\[[^\]]*\b{words[i + 1]}\b', inner):
                    self.add('3b', file, file.lines[i])

    def by_hand(self):
        """Equality, order, conversions and copies by hand."""
        for it in self.functions:
            if BY_HAND.fullmatch(it.name):
                self.add('4a', it.file, it.line)
            if re.search(r'let mut (\w+) = self ; .*\b\1( }|$)', ' '.join(it.body)):
                self.add('4c', it.file, it.line)
            same = 0
            for i in it.at('=='):
                left = path(it.file.words[i - 1:it.begin:-1])[::-1]
                right = path(it.file.words[i + 1:it.end])
                same += len(left) > 2 and left[1:] == right[1:] and left[0] != right[0]
            if same >= 2:
                self.add('4b', it.file, it.line)

    def facts(self):
        """Facts and parameters that travel together."""
        clauses, pairs = [], []
        for it in self.functions:
            types = {name: re.sub(r'^& (mut )?', '', kind.replace('Self', it.owner)) for name, kind in it.params}
            for word, clause, line in it.clauses:
                for fact in split(clause, '×'):
                    fact = fact[1:-1] if fact[0] == '(' and fact[-1] == ')' else fact
                    text = f"{word} {' '.join(types.get(part, part) for part in fact)}"
                    clauses.append((text, text, it.file, line))
            own = sorted(f'{name}: {kind}' for name, kind in it.params if name != 'self')
            pairs += [(pair, ', '.join(pair), it.file, it.line) for pair in combinations(own, 2)]
        self.groups('5a', clauses, 3)
        self.groups('5b', pairs, 3)

    def buffers(self):
        """Arrays beside a place, a count or another array."""
        for it in self.functions:
            lent = any(kind.startswith('& mut [ u8') for _, kind in it.params)
            if lent and any(kind == 'usize' and PLACE.fullmatch(name) for name, kind in it.params):
                self.add('6a', it.file, it.line)
            at = defaultdict(set)
            for i in it.at('['):
                index = ' '.join(it.file.words[i + 1:it.file.close(i)])
                if WORD.fullmatch(it.file.words[i - 1]) and re.search(r'[a-z]', index) and '..' not in index:
                    at[index].add(''.join(path(it.file.words[i - 1:it.begin:-1])[::-1]))
            for index, arrays in at.items():
                if len(arrays) > 1:
                    self.add('6d', it.file, it.line, f"fn {it.name}: {', '.join(sorted(arrays))} at {index}")
        for it in self.types:
            arrays = [kind.split(';')[-1] for _, kind in it.fields if kind.startswith('[')]
            if arrays and any(WHOLE.fullmatch(kind) and PLACE.fullmatch(name) for name, kind in it.fields):
                self.add('6b', it.file, it.line)
            if len(set(arrays)) < len(arrays):
                self.add('6c', it.file, it.line)

    def choices(self):
        """Calls picked by constants."""
        for it in self.functions:
            for i in it.at('match'):
                fixed = [(pattern[0], value) for pattern, value in arms(it.file, i) if LITERAL.fullmatch(split(pattern, '|')[0][-1])]
                if sum(calls(value) for _, value in fixed) >= 2:
                    self.add('7', it.file, it.file.lines[i])
                elif sum(NUMBER.fullmatch(first) is not None for first, _ in fixed) >= 2:
                    self.add('1f', it.file, it.file.lines[i])
            tests = defaultdict(list)
            for i in it.at('if'):
                start = it.file.find(i, '{')
                test, value = it.file.words[i + 1:start], it.file.words[start:it.file.close(start)]
                fixed = [k for k, word in enumerate(test) if word[-1] in '"\'' or LITERAL.fullmatch(word) and test[k - 1] in ('==', '::')]
                if len(fixed) == 1 and calls(value):
                    tests[' '.join(test[:fixed[0]])].append(it.file.lines[i])
            for lines in tests.values():
                if len(lines) > 1:
                    self.add('7', it.file, lines[0])


def sources(commit):
    """The sources and proofs of a commit, or of the work tree, by their places."""
    found = {}
    if commit:
        packed = subprocess.run(['git', 'archive', commit, 'crates'], cwd=ROOT, capture_output=True, check=True).stdout
        with tarfile.open(fileobj=io.BytesIO(packed)) as archive:
            found = {it.name: archive.extractfile(it).read() for it in archive if it.isfile() and SOURCE.match(it.name)}
    else:
        places = [os.path.join(folder, name) for folder, _, names in os.walk(os.path.join(ROOT, 'crates')) for name in names]
        found = {name: open(place, 'rb').read() for place in places if SOURCE.match(name := os.path.relpath(place, ROOT))}
    return {name: found[name].decode() for name in sorted(found)}


def main():
    words = sys.argv[1:]
    files = sources(next((word for word in words if word != '--list'), None))
    count = Count(files)
    for part in (count.numbers, count.constants, count.twins, count.loops, count.by_hand, count.facts, count.buffers, count.choices):
        part()
    lines = defaultdict(lambda: [0, 0, 0, 0])
    for place, text in files.items():
        if place.endswith('.antt'):
            name = os.path.basename(place)[:-len('.antt')]
            lines[place.split('/')[1]][PROOFS.index(name) if name in PROOFS else 3] += len(text.splitlines())
    for kind, title in TITLES.items():
        number = sum(map(sum, lines.values())) if kind == '8' else len(count.found[kind])
        print(f"{kind:3}{number:5}  {' '.join(title.split())}")
        for place in count.found[kind] if '--list' in words else []:
            print('        ' + place.replace('\n', '\n        '))
    for crate, parts in lines.items():
        print(f"        {sum(parts):5}  {crate}: {', '.join(map(str, parts))}")


if __name__ == '__main__':
    main()
