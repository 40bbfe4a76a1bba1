#!/usr/bin/env python3
"""tools/forms.py [POINT..] [DIR]: places in crates/*/src that have an older form than today's Rattle allows.

docs/DESIGN-PASS.md says what each point is. Without a POINT it prints how many places each has; with one, each place.
It goes by the text, so that it counts alike at every commit; lines that begin with `//` are left out."""
import collections
import glob
import re
import sys


def sources(root):
    for name in sorted(glob.glob(f'{root}/crates/*/src/*.rt')):
        text = re.sub(r'^\s*//.*\n', '', open(name, encoding='utf-8').read(), flags=re.M)
        yield name[len(root) + 1:], text


def block(text, start):
    """The text between the brace at `start` and the one that closes it."""
    depth = 0
    for i in range(start, len(text)):
        if text[i] == '{':
            depth += 1
        elif text[i] == '}':
            depth -= 1
            if depth == 0:
                return text[start + 1:i]
    return text[start + 1:]


def split_top(text):
    """The parts of a list, at the commas that stand in no bracket."""
    parts, depth, last = [], 0, 0
    for i, c in enumerate(text):
        depth += c in '([{<'
        depth -= c in ')]}>'
        if c == ',' and depth == 0:
            parts.append(text[last:i].strip())
            last = i + 1
    return [p for p in parts + [text[last:].strip()] if p]


def functions(text):
    """Each function: its name, its parameters, its clauses and its body."""
    for m in re.finditer(r'^[ \t]*(?:pub(?:\([a-z]+\))? )?fn (\w+)', text, re.M):
        at = text.find('(', m.end())
        depth = 0
        for i in range(at, len(text)):
            depth += text[i] == '('
            depth -= text[i] == ')'
            if depth == 0:
                break
        body = re.compile(r'^[ \t]*\{$|\{[ \t]*$', re.M)
        head, clauses = i + 1, []
        rest = text[head:]
        for c in re.finditer(r'^\s*(requires|ensures)(?: \w+)? (\{.*\})\s*$', rest, re.M):
            if re.search(r'^[ \t]*(pub(\([a-z]+\))? )?fn ', rest[:c.start()], re.M):
                break
            clauses.append((c.group(1), c.group(2)))
        b = body.search(text, head)
        yield m.group(1), split_top(text[at + 1:i]), clauses, block(text, b.end() - 1) if b else ''


def enums(root):
    """1. Own enums of the shape of Option or Result, or with a fault among their variants."""
    for name, text in sources(root):
        for m in re.finditer(r'^\s*(?:pub(?:\([a-z]+\))? )?enum (\w+)(?:<[^>]*>)? \{', text, re.M):
            variants = split_top(re.sub(r'#\[[^\]]*\]', '', block(text, m.end() - 1)))
            full = [v for v in variants if '(' in v or '{' in v]
            shape = None
            if len(variants) == 2 and len(full) == 1:
                shape = 'Option'
            elif len(variants) == 2 and len(full) == 2:
                shape = 'Result'
            elif any(re.match(r'(Bad|Stop|Lost|Fault|Failed)\b|.*\(DecodeError', v) for v in full):
                shape = 'Result with more than one good variant'
            if shape:
                yield f'{name} {m.group(1)}: {shape}'


def numbers(root):
    """1. Numbers for kinds or refusals: matches on numbers, and lists of three constants or more that number kinds."""
    for name, text in sources(root):
        for m in re.finditer(r'match [^{]*\{\s*((?:\d+ => [^\n]*\n\s*){3,})', text):
            if not re.match(r'crates/(squeezed/src/\w+_words|lookups)', name):
                yield f'{name} match on numbers: {m.group(1).split(chr(10))[0].strip()}'
        for m in re.finditer(r'((?:^(?:pub )?const [A-Z_0-9]+: u(?:8|32) = \d+;\n+){3,})', text, re.M):
            lines = m.group(1).split('\n')
            yield f'{name} {len([x for x in lines if x])} constants from {lines[0].strip()}'
        for m in re.finditer(r'^\s*(?:pub(?:\([a-z]+\))? )?fn (\w+)[^{;]*?\bcolour: (usize|u32)', text, re.M):
            yield f'{name} {m.group(1)}: a colour as {m.group(2)}'


def flags(root):
    """1. A flag with a value beside it: structs of at most three fields with a `bool` among them."""
    for name, text in sources(root):
        for m in re.finditer(r'^\s*(?:pub(?:\([a-z]+\))? )?struct (\w+) \{', text, re.M):
            fields = split_top(block(text, m.end() - 1))
            if 2 <= len(fields) <= 3 and any(f.endswith(': bool') for f in fields):
                yield f'{name} {m.group(1)}: {", ".join(fields)}'


def shape(body):
    words, out = {}, []
    keep = set('if else while loop for in match let mut fn return break continue as true false'.split())
    for t in re.findall(r'[A-Za-z_]\w*|\d\w*|\S', body):
        if re.match(r'\w', t) and t not in keep:
            t = words.setdefault(t, f'#{len(words)}')
        out.append(t)
    return ' '.join(out)


def twins(root):
    """2. Twins: functions of five lines or more whose bodies differ in names and numbers alone."""
    seen = collections.defaultdict(list)
    for name, text in sources(root):
        for f, _, _, body in functions(text):
            lines = [x for x in body.split('\n') if len(x.strip()) > 1]
            if len(lines) >= 5:
                seen[shape(body)].append(f'{name} {f}')
    for places in seen.values():
        if len(places) > 1:
            yield ' ~ '.join(places)


def loops(root):
    """3. Loops that count an index by hand."""
    for name, text in sources(root):
        for f, _, _, body in functions(text):
            for m in re.finditer(r'\b(?:while [^{]*|loop )\{', body):
                inner = block(body, m.end() - 1)
                if re.search(r'^\s*\w+ [+-]= ', inner, re.M) or re.search(r'\b(\w+) = \1 [+-] ', inner):
                    yield f'{name} {f}: {m.group(0)[:-1].strip()}'


def copies(root):
    """4. Structs copied field by field."""
    for name, text in sources(root):
        for m in re.finditer(r'\b([A-Z]\w+) \{([^{}]*)\}', text):
            n = len(re.findall(r'\b(\w+): \w+\.\1\b', m.group(2)))
            if n >= 2:
                yield f'{name} {m.group(1)}: {n} fields'


def conversions(root):
    """4. Functions of one line that convert, compare or choose as a method of the library does."""
    for name, text in sources(root):
        for f, params, _, body in functions(text):
            b = ' '.join(body.split())
            if re.fullmatch(r'\w+ as \w+', b) or re.fullmatch(r'if \w+ { 1 } else { 0 }', b) \
                    or re.fullmatch(r'if (\w+) <=? (\w+) { (\1|\2) } else { (\1|\2) }', b) \
                    or re.fullmatch(r'if (\w+) <=? (\w+) { return (\1|\2); } (\1|\2)', b):
                yield f'{name} {f}: {b}'


def cascades(root):
    """4. Tests written as returns of a truth value, in place of one expression."""
    for name, text in sources(root):
        for f, _, _, body in functions(text):
            n = len(re.findall(r'if [^{]*\{\s*return (?:true|false);\s*\}', body))
            if n:
                yield f'{name} {f}: {n}'


def facts(root):
    """5. A fact that stands in the clauses of three functions or more."""
    seen = collections.defaultdict(list)
    for name, text in sources(root):
        for f, _, clauses, _ in functions(text):
            for part in {p.strip(' ()') for kind, c in clauses if kind == 'requires' for p in c.strip('{} ').split(' × ')}:
                seen[part].append(f'{name} {f}')
    for part, places in sorted(seen.items(), key=lambda x: -len(x[1])):
        if len(places) >= 3:
            yield f'{len(places)} functions: {part}'


def together(root):
    """5. Three parameters or more that stand side by side in three functions or more."""
    seen = collections.defaultdict(set)
    for name, text in sources(root):
        for f, params, _, _ in functions(text):
            for i in range(len(params)):
                for j in range(i + 3, len(params) + 1):
                    seen[tuple(params[i:j])].add(f'{name} {f}')
    kept = []
    for key, places in sorted(seen.items(), key=lambda x: (-len(x[0]), x[0])):
        if len(places) >= 3 and not any(places <= p and ', '.join(key) in ', '.join(k) for k, p in kept):
            kept.append((key, places))
    for key, places in kept:
        yield f'{len(places)} functions: {", ".join(key)}'


def places_beside(root):
    """6. A slice that is lent with a place or a length beside it."""
    for name, text in sources(root):
        for f, params, _, _ in functions(text):
            for p, q in zip(params, params[1:]):
                if re.search(r': &(?:\'a )?(?:mut )?\[', p) and re.fullmatch(r'(at|from|len|count|length|room|i|place|base|start): usize', q):
                    yield f'{name} {f}: {p}, {q}'


def switches(root):
    """7. A truth value among the parameters that says which of two steps is run."""
    for name, text in sources(root):
        for f, params, _, body in functions(text):
            for p in params:
                m = re.fullmatch(r'(\w+): bool', p)
                if m and re.search(rf'\bif !?{m.group(1)} \{{[^}}]*\w+\(', body):
                    yield f'{name} {f}: {p}'


def answers(root):
    """8. Files of answers, and their lines."""
    for name in sorted(glob.glob(f'{root}/crates/*/proofs/**/Answers.antt', recursive=True)):
        if '/out/' not in name:
            yield f'{name[len(root) + 1:]}: {sum(1 for _ in open(name, encoding="utf-8"))}'


POINTS = [enums, numbers, flags, twins, loops, copies, conversions, cascades, facts, together, places_beside, switches, answers]


def main():
    words = sys.argv[1:]
    named = {p.__name__: p for p in POINTS}
    root = next((w for w in words if w not in named), '.').rstrip('/')
    chosen = [named[w] for w in words if w in named]
    for point in chosen or POINTS:
        found = list(point(root))
        if chosen:
            print('\n'.join(found))
        print(f'{len(found):5} {point.__name__.replace("_", " ")}: {point.__doc__}')


main()
