#!/usr/bin/env python3
"""Checks that what the pages claim names what the code has.

Usage: tools/claims.py        (at the top of the repository; it ends with 1 where a claim names nothing)

In a crate's README.md a claim is written `function`: `clause`, `clause`. The function has to stand in the crate's
src/, and each clause in its contract, or in that of the trait's call of this name. Every other word in backticks that looks like a name has to stand somewhere
in the crate, in a crate of this repository, or as a file. In the top README.md the same holds of the rows whose
first column is a crate, for that crate, and the names of the pages under docs/ have to stand somewhere.
"""
import pathlib
import re
import sys

TOP = pathlib.Path(__file__).resolve().parent.parent
CRATES = TOP / 'crates'
CODE = re.compile(r'```.*?```', re.S)
CLAIM = re.compile(r'`([A-Za-z_][\w:]*)`(?: of `\w+`)?: ((?:`[a-z_]\w*`(?!:)(?:,? and |, )?)+)')
NAME = re.compile(r'^[A-Za-z_][\w:.\-/′\']*$')
FUNCTION = re.compile(r'(?:^|\s)fn\s+(\w+)')


def read(path):
    return path.read_text(encoding='utf-8', errors='replace')


def texts(crate):
    files = [f for part in ('src', 'specs', 'proofs', 'must-fail') for f in sorted((CRATES / crate / part).rglob('*')) if f.is_file()]
    return '\n'.join([read(f) for f in files] + [f.stem for f in files])


def contracts(crate):
    """The contract texts of each function of the crate, by the function's name."""
    found = {}
    for path in sorted((CRATES / crate / 'src').rglob('*.rt')):
        text = read(path)
        starts = [m for m in FUNCTION.finditer(text)]
        for i, m in enumerate(starts):
            end = starts[i + 1].start() if i + 1 < len(starts) else len(text)
            found.setdefault(m.group(1), []).append(text[m.start():end])
    return found


def words(text):
    return set(re.findall(r"[A-Za-z_][\w\-′']*", text))


class Book:
    def __init__(self):
        self.known = {}
        self.contracts = {}
        self.everywhere = set()
        for folder in sorted(CRATES.iterdir()):
            if (folder / 'src').is_dir():
                name = folder.name
                self.known[name] = words(texts(name))
                self.contracts[name] = contracts(name)
                self.everywhere |= self.known[name] | {name}
        for extra in (TOP / 'bench', TOP / 'tools', TOP / 'examples', TOP / 'docs', TOP / '.ci'):
            if extra.is_dir():
                self.everywhere |= {f.name for f in extra.rglob('*')} | {f.stem for f in extra.rglob('*')}

    def claims(self, crate, text, where):
        for function, clauses in CLAIM.findall(text):
            name = function.split('::')[-1]
            bodies = self.contracts[crate].get(name)
            if bodies is None:
                if name not in self.known[crate]:
                    yield f'{where}: {crate} has no `{function}`'
                continue
            for clause in re.findall(r'`(\w+)`', clauses):
                named = re.compile(r'\b(?:ensures|requires)\s+' + clause + r'\b')
                bodies = [b for found in self.contracts.values() for b in found.get(name, [])]
                if not any(named.search(body) for body in bodies):
                    yield f'{where}: `{function}` of {crate} has no clause `{clause}`'

    def names(self, crate, text, where):
        for word in set(re.findall(r'`([^`\n]+)`', text)):
            if not NAME.match(word) or (TOP / word).exists() or (CRATES / (crate or '') / word).exists():
                continue
            for part in re.split(r'::|\.(?=\w)|/', word):
                if part and part not in self.known.get(crate, ()) and part not in self.everywhere:
                    yield f'{where}: nothing is named `{word}`'
                    break


def main():
    book = Book()
    found = []
    for crate in book.known:
        page = CRATES / crate / 'README.md'
        if not page.exists():
            found.append(f'crates/{crate}: has no README.md')
            continue
        text = CODE.sub('', read(page))
        where = f'crates/{crate}/README.md'
        found += list(book.claims(crate, text, where)) + list(book.names(crate, text, where))
    for line in CODE.sub('', read(TOP / 'README.md')).split('\n'):
        row = re.match(r'\| `(\w+)` \|', line)
        if row and row.group(1) in book.known:
            found += list(book.claims(row.group(1), line, 'README.md')) + list(book.names(row.group(1), line, 'README.md'))
    for page in sorted((TOP / 'docs').glob('*.md')):
        found += list(book.names(None, CODE.sub('', read(page)), f'docs/{page.name}'))
    for line in found:
        print(line)
    print(f'claims: {len(found)} findings')
    return 1 if found else 0


if __name__ == '__main__':
    sys.exit(main())
