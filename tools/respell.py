#!/usr/bin/env python3
"""Brings this repository's own definitions and lemmas to the library's spelling.

Words are in snake case, types and facts in camel case. Run once, at the top, after port.py. Names of the library, of source code
and of goals keep their spelling, and so do comments, strings and pages. A proof's name for a call of a function has that function's
spelling.
"""
import glob
import re

OWN = ('algebras', 'nets', 'listing', 'trials')
TOKEN = re.compile(r"[^\s(){}\[\];,.«»\"|]+")
LETTERS = re.compile(r"[A-Za-zℕ]")


def antt_files():
    for part in ('specs', 'proofs'):
        yield from sorted(glob.glob(f'crates/*/{part}/**/*.antt', recursive=True))


def conv(name):
    if name[0].isupper():
        return ''.join(p[:1].upper() + p[1:] for p in re.split(r'[-_]', name))
    return name.replace('-', '_')


def changes(name):
    return ('-' in name and LETTERS.search(name) is not None) or (name[0].isupper() and '_' in name)


def declared(text):
    names = set()
    fields = set()
    for m in re.finditer(r'^(?:(?:abbrev|unfoldable|pub|data|record) )*([^\s:(){}]+)(?=[^\n=]*? :)', text, re.M):
        names.add(m.group(1))
    for m in re.finditer(r'^  (?:pub )?([^\s:(){}]+) :', text, re.M):
        names.add(m.group(1))
        fields.add(m.group(1))
    return names, fields


def foreign(text):
    """The names that a file takes from elsewhere, or from what is generated."""
    names = set()
    for m in re.finditer(r'^\s*(?:ghost )?use ([^\s{;]+)\.\{([^}]*)\}', text, re.M):
        path = m.group(1).split('.')
        own = path[0] == 'Rattle' and path[1] in OWN and path[-1] not in ('Goals', 'Given') and 'declared' not in path and 'contracts' not in path
        if not own:
            for item in m.group(2).split(','):
                names.update(w for w in item.split() if w != 'as')
    return names


def goals(text):
    return set(re.findall(r'^(?:abbrev )?(?:pub )?(\S+) : goal\.', text, re.M))


def functions():
    names = set()
    for f in sorted(glob.glob('crates/*/src/**/*.rt', recursive=True)):
        names |= set(re.findall(r'\bfn (\w+)', open(f).read()))
    return {n.replace('_', '-'): n for n in names if '_' in n}


def step(name, calls):
    """A proof's name for a call, as the function is spelled, and what follows it."""
    for end in range(len(name), 0, -1):
        if name[:end] in calls and (end == len(name) or name[end] == '-'):
            return calls[name[:end]] + name[end:]
    return name


def code_spans(line, comment):
    """The parts of a line that are neither comment nor string."""
    at = 0
    out = []
    for m in re.finditer(r'"(?:[^"\\]|\\.)*"|' + re.escape(comment), line):
        if m.start() < at:
            continue
        if m.group(0) == comment:
            out.append((at, m.start()))
            return out
        out.append((at, m.start()))
        at = m.end()
    out.append((at, len(line)))
    return out


def main():
    own = set()
    fields = set()
    texts = {}
    calls = functions()
    for f in antt_files():
        texts[f] = open(f).read()
        names, here = declared(texts[f])
        own |= names
        fields |= here
    for f in sorted(glob.glob('crates/*/src/**/*.rt', recursive=True)):
        texts[f] = open(f).read()
    seen = {}
    for f, text in texts.items():
        rust = f.endswith('.rt')
        skip = foreign(text) | goals(text)
        lines = []
        for line in text.split('\n'):
            spans = code_spans(line, '//' if rust else '--')
            use = re.match(r'^\s*(?:ghost )?use ', line)
            for a, b in reversed(spans):
                part = line[a:b]

                def turn(m):
                    name = m.group(0)
                    if not changes(name) or name in skip:
                        return name
                    dotted = m.start() > 0 and part[m.start() - 1] == '.'
                    if dotted and name[0].isupper() and name in own:
                        return conv(name)
                    if dotted and name not in fields:
                        return step(name, calls) if not rust else name
                    if rust and name not in own:
                        return name
                    new = conv(name)
                    seen[name] = new
                    return new

                line = line[:a] + TOKEN.sub(turn, part) + line[b:]
            lines.append(line)
        new = '\n'.join(lines)
        if new != text:
            open(f, 'w').write(new)
    for name, new in sorted(seen.items()):
        print(name, new)


main()
