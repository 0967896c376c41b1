#!/usr/bin/env python3
"""Lists the places of crates/*/src that docs/DESIGN-PASS.md counts, point by point.

    tools/forms.py                the sums, in the working tree
    tools/forms.py COMMIT         the same in a commit
    tools/forms.py [COMMIT] N     the places of point N, one a line

It finds forms, and no reasons: which places stay, and why, is for the page and for the line beside the place.
"""
import collections
import re
import subprocess
import sys

HEAD = re.compile(r'^([ \t]*)(?:pub(?:\([a-z]+\))? )?(?:extern "C" )?fn (\w+)', re.M)
KEPT = set('if else while for in let mut match return loop as true false self Self Some None Ok Err '
           'break continue len iter min max'.split())


def git(*words):
    return subprocess.run(['git', *words], capture_output=True, text=True, check=True).stdout


def sources(commit):
    """Path and text of each source file, without comments; lines stay where they are."""
    if commit:
        paths = git('ls-tree', '-r', '--name-only', commit, 'crates').splitlines()
    else:
        paths = git('ls-files', '-co', '--exclude-standard', 'crates').splitlines()
    for path in sorted(paths):
        if re.fullmatch(r'crates/\w+/src/.*\.rt', path):
            text = git('show', f'{commit}:{path}') if commit else open(path, encoding='utf-8').read()
            yield path, re.sub(r'//[^\n]*', '', text)


def closing(text, start, opened, shut):
    depth, at = 1, start
    while depth:
        depth += (text[at] == opened) - (text[at] == shut)
        at += 1
    return at


def parts(text, mark=','):
    found, depth, now = [], 0, ''
    for c in text:
        depth += (c in '([{<') - (c in ')]}>')
        if c == mark and depth == 0:
            found.append(now)
            now = ''
        else:
            now += c
    return [' '.join(p.split()) for p in found + [now] if p.strip()]


class Function:
    def __init__(self, path, text, m):
        self.path, self.name = path, m.group(2)
        self.line = text.count('\n', 0, m.start(2)) + 1
        at = m.end()
        if text[at] == '<':
            at = closing(text.replace('->', '--'), at + 1, '<', '>')
        end = closing(text, at + 1, '(', ')')
        self.params = parts(text[at + 1:end - 1])
        self.requires, at = [], end
        while True:
            brace, semi = text.find('{', at), text.find(';', at)
            if brace < 0 or 0 <= semi < brace:
                self.body = ''
                return
            stop = closing(text, brace + 1, '{', '}')
            clause = re.search(r'\b(requires|ensures|decreases)\b', text[at:brace])
            if not clause:
                self.body = text[brace + 1:stop - 1]
                return
            if clause.group(1) == 'requires':
                self.requires += parts(text[brace + 1:stop - 1], '×')
            at = stop

    def place(self):
        return f'{self.path}:{self.line}: {self.name}'

    def shape(self):
        names = {}

        def one(m):
            word = m.group(0)
            if word in KEPT:
                return word
            return '0' if word[0].isdigit() else names.setdefault(word, f'v{len(names)}')
        body = re.sub(r"b?'[^']*'|b?\"[^\"]*\"", '0', self.body)
        return ' '.join(re.sub(r'[A-Za-z_]\w*|\d\w*', one, body).split())


def functions(files):
    return [Function(path, text, m) for path, text in files for m in HEAD.finditer(text)]


def lines(files, pattern):
    return [f'{path}:{n}: {line.strip()}' for path, text in files
            for n, line in enumerate(text.splitlines(), 1) for _ in re.finditer(pattern, line)]


def alike(made):
    groups = collections.defaultdict(list)
    for f in made:
        shape = f.shape()
        if len(shape) > 24:
            groups[shape].append(f.place())
    return [' | '.join(g) for g in groups.values() if len(g) > 1]


def repeated_facts(made):
    seen = collections.defaultdict(set)
    for f in made:
        for fact in f.requires:
            words = re.sub(r'[()]', '', re.sub(r'\b\w+\.(now|old)\b', r'_.\1', fact))
            seen[f.path.split('/')[1], words].add(f'{f.path}:{f.line}')
    return [f'{crate}: {fact} in {len(at)}: ' + ' '.join(sorted(at)) for (crate, fact), at in sorted(seen.items()) if len(at) > 2]


def together(made):
    """Three parameters or more of the same names and types in three functions or more of a crate."""
    runs = collections.defaultdict(set)
    for f in made:
        given = [re.sub(r'\bmut ', '', p) for p in f.params if ':' in p]
        for i in range(len(given)):
            for j in range(i + 3, len(given) + 1):
                runs[f.path.split('/')[1], ', '.join(given[i:j])].add(f'{f.path}:{f.line}')
    found = {k: v for k, v in runs.items() if len(v) > 2}
    return [f'{crate}: {run} in {len(at)}' for (crate, run), at in sorted(found.items())
            if not any(c == crate and run != other and run in other and at <= more for (c, other), more in found.items())]


def points(files):
    made = functions(files)
    numbers = r'\b(?:refusal|fault|what|table|kind|last|answer|mode): (?:&mut )?(?:u8|u32|u64|usize|isize)\b'
    return {
        1: [('enums', lines(files, r'^(?:pub(?:\([a-z]+\))? )?enum \w+')),
            ('flags that are fields', lines(files, r'^    (?:pub(?:\([a-z]+\))? )?\w+: bool,|\w+ \{.*\w+: bool.* \},$')),
            ('numbers for kinds', lines(files, numbers))],
        2: [('groups of functions that are alike', alike(made)),
            ('functions with a helper `_with`', [f.place() for f in made if f.name.endswith('_with')])],
        3: [('while', lines(files, r'^ *while ')),
            ('for over numbers', lines(files, r'^ *for \w+ in [^{]*\.\.'))],
        4: [('casts by as', lines(files, r' as (?:u8|u16|u32|u64|usize)\b')),
            ('std::num functions', lines(files, r'std::num::\w+\(')),
            ('derives of Drop alone', lines(files, r'derive\(Drop\)')),
            ('print functions', [f.place() for f in made if f.name.startswith('print_')])],
        5: [('functions of more than six parameters', [f.place() for f in made if len(f.params) > 6]),
            ('parameters that travel', together(made)),
            ('facts in three contracts or more', repeated_facts(made))],
        6: [('a slice and its length', [f.place() for f in made if re.search(
                r'&(?:mut )?\[\w+\](?:, \w+: \w+)?, (?:n|count|size|films|length): usize', ', '.join(f.params))]),
            ('arrays of their own', lines(files, r'= \[[^]]*; *\w+\]')),
            ('numbers packed by hand', lines(files, r'4_294_967_29[56]|65_?536|16_777_216|16777216|/ 256|% 256|<< 32|>> 32'))],
        7: [('flags that are parameters', [f.place() for f in made if any(p.endswith(': bool') for p in f.params)]),
            ('kinds of terms', lines(files, r'\bTerm::'))],
    }


def main(words):
    point = int(words.pop()) if words and words[-1].isdigit() and len(words[-1]) == 1 else None
    files = list(sources(words[0] if words else None))
    for n, rows in points(files).items():
        if point in (None, n):
            for what, places in rows:
                print(f'{n} {len(places):4} {what}')
                if point:
                    print(''.join(f'    {p}\n' for p in places), end='')


if __name__ == '__main__':
    main(sys.argv[1:])
