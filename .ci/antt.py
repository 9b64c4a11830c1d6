"""How the gate's scripts read files of antt: tokens, what begins in a column, what a file brings, and which
files are reached. What cannot be read is a fault."""
import collections
import os
import re

faults = []


def fault(path, line, message):
    faults.append((path, line, message))


def read(path):
    try:
        with open(path, encoding='utf-8', newline='') as f:
            return f.read()
    except (UnicodeDecodeError, OSError) as e:
        fault(path, 1, f'cannot be read: {e}')
        return ''


class Unreadable(Exception):
    """What cannot be told apart is a fault of the file: nothing may hide behind it."""

    def __init__(self, at, message):
        super().__init__(message)
        self.at = at


# ---- tokens

# A name holds any character but these; a dot with a name right behind it goes on with the name.
NAME = r'(?:[^\s(){}.;,@"«»⟦⟧]+|«[^»\s]*»)'
ANTT = re.compile(rf'''
    (?P<skip> \s+ | --[^\n]* )
  | (?P<text> "(?:\\.|[^"\\])*" )
  | (?P<word> \.?{NAME}(?:\.{NAME})* )
  | (?P<mark> . )''', re.S | re.X)


def comment_end(text, at, opens, closes):
    depth, i = 0, at
    while i < len(text):
        if text.startswith(opens, i):
            depth, i = depth + 1, i + len(opens)
        elif text.startswith(closes, i):
            depth, i = depth - 1, i + len(closes)
            if depth == 0:
                return i
        else:
            i += 1
    raise Unreadable(at, 'a comment that does not end')


def antt(text, at=0, code=None):
    """Yields (place, token) of antt from a place on: no comment, no quoted text, and in a clause no code
    in ⟦ ⟧, which elsewhere are names like any other. Tokens of such code are matched by `code`."""
    while at < len(text):
        if text.startswith('{-', at):
            at = comment_end(text, at, '{-', '-}')
            continue
        if code and text[at] == '⟦':
            yield at, '⟦'
            inside = at
            while text[at] != '⟧':
                at = code.match(text, at).end()
                if at == len(text):
                    raise Unreadable(inside, 'a ⟦ with no ⟧')
        m = ANTT.match(text, at)
        if m.group() in ('"', '«', '»'):
            raise Unreadable(at, 'a quoted text that does not end')
        if m.lastgroup in ('word', 'mark'):
            yield at, m.group()
        at = m.end()


OPENS, CLOSES = ('(', '{'), (')', '}')


# ---- files


def brought(line):
    """What `use P`, `use P as N` or `use P.{x, y as z}` brings, as (whole path, name in this file): of `use P.*` the name is *."""
    # `«x»` and `x` are one name.
    m = re.fullmatch(r'use (\S+)(?: as (\S+)| \. { ([^{}]*) })?', re.sub('[«»]', '', line))
    if not m:
        return []
    path, alias, inside = m.groups()
    if inside is None:
        return [(path, alias or path.split('.')[-1])]
    leaves = [one.split() for one in inside.split(' , ')]
    return [(f'{path}.{words[0]}', words[-1].split('.')[-1]) for words in leaves]


Token = collections.namedtuple('Token', 'column text at')


def placed(text):
    """The tokens of a file, each with its column if a line begins with it outside of all brackets."""
    depth, found = 0, []
    for at, token in antt(text):
        start = text.rfind('\n', 0, at) + 1
        first = depth == 0 and not text[start:at].strip()
        found.append(Token(at - start if first else None, token, at))
        depth += (token in OPENS) - (token in CLOSES)
    return found


def blocks(tokens, column):
    """What begins in a column, up to the next that does."""
    found = []
    for token in tokens:
        if token.column == column or not found:
            found.append([])
        found[-1].append(token)
    return found


class Proofs:
    """A file of proofs/: what its `use` lines bring, its child modules, its theorems, and what else it holds."""

    def __init__(self, path):
        self.path, self.tokens, self.brings, self.children = path, [], [], []
        self.declared, self.defined, self.other = {}, set(), None
        text = read(path)
        try:
            for block in blocks(placed(text), 0):
                item = [token.text for token in block]
                self.tokens += item
                self.add(item)
        except Unreadable as e:
            fault(path, text.count('\n', 0, e.at) + 1, f'cannot be read: {e}')

    def add(self, item):
        brings = brought(' '.join(item))
        if brings:
            self.brings += brings
        elif item[:2] == ['pub', 'mod'] and len(item) == 3:
            self.children.append(item[2])
        elif item[0] == 'pub' and item[2:3] == [':']:
            self.declared[item[1]] = item[3:]
        elif item[0] in self.declared and '=' in item:
            self.defined.add(item[0])
        elif item[0] != 'unfolding' and self.other is None:
            self.other = ' '.join(item[:3])

    def unclear(self):
        """Why a statement in this file may not mean what it says. Where there is nothing but `use` lines and
        theorems, only a `use` line can give a name another meaning: a library's too, and a word's, which
        an operator with that word in it (`OneAnswer◌`) takes away. `use P.*` can give one to any."""
        names = [name for _, name in self.brings] + self.children
        for name in names:
            operator = '◌' in name and any(c.isalnum() for c in name)
            if names.count(name) > 1 or operator or name in ('tt', '*', 'Rattle'):
                return f'{name} stands for two things'
        return self.other and f'holds more than theorems on promises: {self.other}'


def reached(crate, part='proofs'):
    """The files of proofs/, or of specs/, that `pub mod` lines lead to from its Lib.antt."""
    top = f'crates/{crate}/{part}'
    todo, files = [(f'{top}/Lib.antt', top)], {}
    while todo:
        path, folder = todo.pop()
        if path in files or not os.path.isfile(path):
            continue
        files[path] = Proofs(path)
        todo += [(f'{folder}/{c}.antt', f'{folder}/{c}') for c in files[path].children]
    return files
