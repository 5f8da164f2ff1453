"""What the proofs of a crate rest on, by the names in their texts, so that edits of definitions can share a check.

A block is a definition, a law or a record of specs/ or proofs/: its lines, and those of the module around it. It rests on each block
that defines a name in it, in its own file or one that this brings in, or that such a file brings in, and on what that rests on. A function
rests on what its text, its proof files, the contracts of what it calls and all that stands in src/ outside functions, traits and impls
name. A name that two blocks define stands for both.
"""
import os
import re

from edits import ROOT, read

WORD = re.compile(r'[^\s(){}\[\];:,.`"◌]+')
HEADER = re.compile(r'^ *(?:(?:pub|abbrev|unfoldable|record|data|ruleset) )*(\S+)')
FIELD = re.compile(r'^ +(?:pub )?(\S+)(?: \([^=]*\))* : ', re.M)
OWN = re.compile(r'use Rattle\.(\w+)\.((?:specs|proofs)(?:\.[^\s.{};]+)+)')  # a module of a crate of the repository
IMPORT = re.compile(r'^(?:ghost )?(?:pub )?use [^;\n{]*(?:\{[^}]*\})?;?', re.M)


class Block:
    def __init__(self, place, row, line, around):
        self.place, self.first, self.last, self.text, self.around = place, row, row, line, around
        self.name = HEADER.match(line)[1]
        marks = set(line[:HEADER.match(line).start(1)].split())
        self.is_shut, self.is_law = 'unfoldable' in marks, not marks & {'unfoldable', 'abbrev', 'record', 'data', 'ruleset'}

    def names(self):
        """What it defines: its name, and of a record or a type what stands in it; of an operator each part."""
        inner = FIELD.findall(self.text) if re.match(' *(pub )?(record|data) ', self.text) else []
        return set(WORD.findall(' '.join([self.name, *inner])))

    def words(self):
        return set(WORD.findall(self.text + self.around))


def imports_blank(text):
    return IMPORT.sub(lambda use: '\n' * use[0].count('\n'), text)


def blocks_in(place, text):
    found, modules = [], []  # a module: the depth of what stands in it, and its first line
    for row, line in enumerate(imports_blank(text).split('\n'), 1):
        depth = len(line) - len(line.lstrip())
        if not line.strip() or line.lstrip().startswith('--') or re.match('(pub )?mod ', line):
            continue
        while modules and depth < modules[-1][0]:
            modules.pop()
        if line.lstrip().startswith('module '):
            modules.append((depth + 2, line))
        elif depth == (modules[-1][0] if modules else 0) and line.lstrip()[0] not in '})' and (
                not found or HEADER.match(line)[1] not in ('unfolding', found[-1].name)):
            found.append(Block(place, row, line, ' '.join(line for _, line in modules)))
        elif found:
            found[-1].text, found[-1].last = found[-1].text + '\n' + line, row
    return found


class Rests:
    """The blocks and the functions of a crate, and which of them an edit may leave unproved."""

    def __init__(self, crate):
        self.crate, self.blocks, self.named, self.known, self.brought, self.scopes, self.by_block, self.ends = crate, [], {}, {}, {}, {}, {}, {}
        base = os.path.join(ROOT, 'crates', crate.name)
        files = [os.path.join(folder, file) for part in ('specs', 'proofs') for folder, _, them in os.walk(os.path.join(base, part)) for file in them]
        for place in (os.path.relpath(file, base) for file in files if file.endswith('.antt')):
            if not self.owner(place, 0):
                text = read(crate.name, place)
                self.blocks, self.brought[place] = self.blocks + blocks_in(place, text), self.brought_in(text)
        for block in self.blocks:
            for name in block.names():
                self.named.setdefault(name, set()).add(block)
        for edit in crate.edits['must-fail'] + crate.edits['wrong']:
            edit.blocks = set() if edit.function else self.changed(edit)
        self.common = set()
        for place, text in crate.texts.items():
            taken = {row for it in crate.functions if it.place == place for row in [*it.lines, *it.block]}
            rows = range(1, text.count('\n') + 2) if place.endswith('.rt') else ()
            self.common |= self.words_at(place, set(rows) - taken)

    def brought_in(self, text):
        """The files of the crate that a text brings in."""
        return {path.replace('.', '/') + '.antt' for name, path in OWN.findall(text) if name == self.crate.name}

    def scope(self, place):
        """The files that a file may rest on: itself, and what it brings in, and so on; None for all, as where one is made from src/."""
        if place not in self.scopes:
            found, left = {place}, {place}
            while left and left <= self.brought.keys():
                left = {other for it in left for other in self.brought[it]} - found
                found |= left
            self.scopes[place] = None if left else found
        return self.scopes[place]

    def words_at(self, place, rows):
        """The names in some rows of a file of src/, comments apart."""
        lines = imports_blank(self.crate.texts[place]).split('\n') if rows else ()
        return {word for row in rows for word in WORD.findall(lines[row - 1].partition('//')[0])}

    def promise(self, function):
        """The names in a function's contract, and in the clauses of the trait or the impl that it stands in."""
        inside = {row for it in self.crate.functions if it.place == function.place for row in it.lines}
        text = self.crate.texts[function.place][function.begin:function.body]
        return set(WORD.findall(text)) | self.words_at(function.place, set(function.block) - inside)

    def owner(self, place, row):
        """The function whose proof file or whose text a place is."""
        return next((it for it in self.crate.functions
                     if place.startswith(it.folder + '/') or place == it.place and row in it.lines), None)

    def at(self, place, row):
        """The function or the block at a place."""
        return self.owner(place, row) or next((it for it in self.blocks if it.place == place and it.first <= row <= it.last), None)

    def changed(self, edit):
        """The blocks of specs/ that an edit changes, if it changes nothing else."""
        found = set()
        for place, old, new in edit.pairs:
            text = read(self.crate.name, place)
            if old in text and old not in imports_blank(text):
                self.brought.setdefault(place, set()).update(self.brought_in(new))
                continue  # a name that is brought in
            at = text.find(old)
            block = self.at(place, text.count('\n', 0, at + len(os.path.commonprefix([old, new]))) + 1)
            if at < 0 or not place.startswith('specs/') or not block:
                return set()
            block.around += ' ' + new
            found.add(block)
        return found

    def words(self, key):
        if isinstance(key, Block):
            return key.words()
        found = self.common | self.words_at(key.place, key.lines)
        for place, text in self.crate.texts.items():
            found |= set(WORD.findall(text)) if place.startswith(key.folder + '/') else set()
        met = {key} | self.crate.reached(key)
        last = {it.last for it in met}  # a trait's clauses hold for each impl
        return found.union(*map(self.promise, met | {it for it in self.crate.functions if it.last in last and it.block}))

    def names(self, key):
        """The blocks that a block or a function names."""
        scope = self.scope(key.place) if isinstance(key, Block) else None
        return {block for word in self.words(key) for block in self.named.get(word, ()) if scope is None or block.place in scope}

    def below(self, key):
        """The blocks that a block or a function rests on."""
        if key not in self.known:
            found, left = set(), self.names(key)
            while left:
                found |= left
                left = {other for block in left for other in self.named_by(block)} - found
            self.known[key] = found
        return self.known[key]

    def named_by(self, block):
        """What a block names, found once."""
        if block not in self.by_block:
            self.by_block[block] = self.names(block)
        return self.by_block[block]

    def grown(self, found, by, passed_on):
        """`found`, and each block that names one of `by` or one that was found so, of those that pass it on."""
        found, by = set(found), set(by)
        while by:
            more = {block for block in self.blocks if block not in found and self.named_by(block) & by}
            found, by = found | more, {block for block in more if passed_on(block)}
        return found

    def broken(self, changed):
        """The blocks that a change of some definitions may leave refused or not checked. A definition that is unfoldable is opened only where
        it is named, so what names it, or names what is open and does, may be refused; and what names a law that is refused is not checked."""
        if not all(block.is_shut for block in changed):
            return self.grown(changed, changed, lambda block: True)
        found = self.grown(changed, changed, lambda block: not block.is_shut and not block.is_law)
        return self.grown(found, {block for block in found if block.is_law}, lambda block: True)

    def breaks(self, edit):
        """The functions and blocks in whose proof an edit may show an error: its function, or all that rests on the definitions it changes."""
        if edit.function:
            return {edit.function}
        if edit not in self.ends:
            self.ends[edit] = self.broken(edit.blocks) | {it for it in self.crate.functions if self.below(it) & edit.blocks}
        return self.ends[edit]

    def shows(self, edit):
        """Those that name what it changes, a record by its own name: where its error is looked for."""
        names = {name for it in edit.blocks for name in (WORD.findall(it.name) if it.text.lstrip().startswith(('record', 'pub record')) else it.names())}
        return {edit.function} if edit.function else {
            key for key in self.breaks(edit) if not key.place.startswith('specs/') and self.words(key) & names}

    def unproved(self, edit):
        """All functions that it may leave unproved: those that it breaks, and those that call them."""
        broken = self.breaks(edit)
        return {it for it in self.crate.functions if it in broken or self.crate.reached(it) & broken}

    def share(self, edits):
        """Whether a check tells these edits apart: each has a proof that it alone may break, and leaves unproved what it is for."""
        for edit in edits:
            others = [other for other in edits if other is not edit]
            if not self.shows(edit) - set().union(*map(self.breaks, others)):
                return False
            if set(edit.others) & set().union(*map(self.unproved, others)):
                return False
        return True
