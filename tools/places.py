"""The sources of a crate as tokens: its functions and types, for the counting of places (tools/count_places.py)."""
import re

TOKEN = re.compile(r'''//.*|b?"(?:\\.|[^"\\])*"|b?'(?:\\[^']+|[^\\'])'|'\w+|\d\w*|\w+|=>|->|::|[=!<>+-]=|&&|\|\||\.\.=?|\S''')
KEYWORDS = set('as break const continue else false fn for if in let loop match mut ref return true while'.split())
WORD, NUMBER = re.compile(r'[^\W\d]\w*'), re.compile(r'-?\d\w*')


class File:
    """A source file: its tokens without comments, attributes and imports of proofs, and the line of each."""

    def __init__(self, path, text):
        self.path, self.rows, self.words, self.lines = path, text.split('\n'), [], []
        for row, line in enumerate(self.rows, 1):
            words = [] if re.match(r'\s*(ghost use|#)', line) else [m[0] for m in TOKEN.finditer(line) if not m[0].startswith('//')]
            self.words += words
            self.lines += [row] * len(words)

    def close(self, i):
        """Where the bracket at token i closes."""
        depth = 0
        while True:
            depth += (self.words[i] in '([{') - (self.words[i] in ')]}')
            if depth == 0 or i + 1 == len(self.words):
                return i
            i += 1

    def find(self, i, marks):
        """The first of some marks from token i on, outside of the brackets between."""
        while i + 1 < len(self.words) and self.words[i] not in marks:
            i = self.close(i) + 1 if self.words[i] in '([{' else i + 1
        return i

    def generics(self, i):
        """The token behind the <..> at i, where one stands there."""
        depth = 0
        while self.words[i] == '<' or depth > 0:
            depth += (self.words[i] == '<') - (self.words[i] == '>')
            i += 1
        return i


def split(words, mark=','):
    """The parts between the commas, or other marks, of a list."""
    parts, depth = [[]], 0
    for word in words:
        depth += (word in '([{<') - (word in ')]}>')
        if word == mark and depth == 0:
            parts.append([])
        else:
            parts[-1].append(word)
    return [part for part in parts if part]


def named(part):
    """The name and the type of a field or a parameter."""
    if 'self' in part[:3]:
        return 'self', 'Self'
    mark = part.index(':') if ':' in part[:5] else 0
    return part[mark - 1] if mark else '', ' '.join(part[mark + 1:] if mark else part)


def shape(words):
    """The tokens with names by the order of their first use, paths by their last part, and literals alike."""
    names, out = {}, []
    for word, after in zip(words, words[1:] + ['']):
        if word == '::' or after == '::':
            continue
        if WORD.fullmatch(word) and word not in KEYWORDS:
            word = names.setdefault(word, f'x{len(names)}')
        out.append('0' if NUMBER.fullmatch(word) or word[-1] in '"\'' else word)
    return ' '.join(out)


class Function:
    """A function: its parameters, its contract, and the tokens of its body."""

    def __init__(self, file, i, owner):
        self.file, self.name, self.line, self.owner = file, file.words[i + 1], file.lines[i], owner
        i = file.generics(i + 2)
        end = file.close(i)
        self.params = [named(part) for part in split(file.words[i + 1:end])]
        self.clauses, i = [], end + 1
        while file.words[i] not in '{;':
            if file.words[i] in ('requires', 'ensures'):
                start = file.words.index('{', i)
                self.clauses.append((file.words[i], file.words[start + 1:file.close(start)], file.lines[i]))
                i = start
            i = file.close(i) + 1
        self.begin, self.end = i, file.close(i)
        self.body = file.words[i + 1:self.end]
        self.rows = file.lines[self.end] - file.lines[i] - 1

    def at(self, word):
        """The places of a word in the body."""
        return [self.begin + 1 + k for k, it in enumerate(self.body) if it == word]


class Type:
    """A struct or an enum with its fields or variants."""

    def __init__(self, file, i):
        self.file, self.kind, self.name, self.line = file, file.words[i], file.words[i + 1], file.lines[i]
        i = file.generics(i + 2)
        self.parts = split(file.words[i + 1:file.close(i)]) if file.words[i] == '{' else []
        self.parts = [part for part in self.parts if part[0] != 'ghost']
        self.fields = [named(part) for part in self.parts] if self.kind == 'struct' else []
        self.variants = [part[0] for part in self.parts] if self.kind == 'enum' else []


def read_functions(file):
    blocks = []
    for i, word in enumerate(file.words):
        if word == 'impl' and (i == 0 or file.words[i - 1] in '};'):
            body = file.find(i, '{')
            head = file.words[file.generics(i + 1):body]
            blocks.append((i, file.close(body), head[head.index('for') + 1] if 'for' in head else head[0]))
        if word == 'fn' and WORD.fullmatch(file.words[i + 1]):
            yield Function(file, i, next((name for start, end, name in blocks if start < i < end), ''))


def arms(file, i):
    """The arms of the match at token i, each its pattern and its value."""
    k = file.find(i + 1, '{') + 1
    end = file.close(k - 1)
    while k < end:
        mark = file.find(k, ['=>'])
        stop = file.close(mark + 1) + 1 if file.words[mark + 1] == '{' else min(file.find(mark + 1, ','), end)
        yield file.words[k:mark], file.words[mark + 1:stop]
        k = stop + 1 if stop < end and file.words[stop] == ',' else stop


def calls(words):
    return any(WORD.fullmatch(a) and a[0].islower() and a not in KEYWORDS and b == '(' for a, b in zip(words, words[1:]))


def path(words):
    """The path that some tokens begin with, as x.a.0."""
    end = 1
    while end + 1 < len(words) and words[end] == '.':
        end += 2
    return words[:end]
