#!/usr/bin/env python3
"""Counts in src/ what docs/DESIGN-PASS.md speaks of, point by point: `python3 tools/design.py [POINT] [COMMIT]`.
Without a commit it reads the files as they stand. Each place is a line: file, function or type, what was seen."""
import re
import subprocess
import sys

KEYWORDS = set('fn pub let mut if else while for in return match true false as impl struct enum const use mod self Self'
               .split())


def sources(commit):
    if commit:
        names = subprocess.run(['git', 'ls-tree', '-r', '--name-only', commit, 'crates'], text=True,
                               capture_output=True, check=True).stdout.split()
    else:
        names = subprocess.run(['git', 'ls-files', '-co', '--exclude-standard', 'crates'], text=True,
                               capture_output=True, check=True).stdout.split()
    for name in sorted(names):
        if re.fullmatch(r'crates/\w+/src/\w+\.rt', name):
            if commit:
                text = subprocess.run(['git', 'show', f'{commit}:{name}'], text=True, capture_output=True,
                                      check=True).stdout
            else:
                with open(name) as file:
                    text = file.read()
            yield name, text


def without_comments(text):
    return re.sub(r'(?<!:)//[^\n]*', '', text)


def closing(text, start):
    """The place after the brace that closes the one at `start`."""
    depth = 0
    for place in range(start, len(text)):
        if text[place] == '{':
            depth += 1
        elif text[place] == '}':
            depth -= 1
            if depth == 0:
                return place + 1
    return len(text)


def functions(text):
    """Name, signature, clauses, body of each function."""
    for found in re.finditer(r'\bfn (\w+)', text):
        place = found.end()
        clauses = []
        while True:
            brace = text.index('{', place)
            head = text[place:brace]
            word = re.search(r'(requires|ensures)\*?(?:\s+(\w+))?\s*$', head)
            end = closing(text, brace)
            if not clauses and place == found.end():
                signature = head
            if not word:
                yield found.group(1), signature, clauses, text[brace:end]
                break
            clauses.append((word.group(1), ' '.join(text[brace + 1:end - 1].split())))
            place = end


def shape(body):
    """A body with names and numbers left out."""
    tokens = re.findall(r"b?'(?:\\.|[^'])'|b?\"[^\"]*\"|\w+|[^\w\s]", body)
    kept = []
    for token in tokens:
        if token in KEYWORDS:
            kept.append(token)
        elif re.match(r'[A-Za-z_]', token) and not token.startswith(("b'", 'b"')):
            kept.append('x')
        elif re.match(r"\d|b?'|b?\"", token):
            kept.append('n')
        else:
            kept.append(token)
    return kept


def types(text, kind):
    for found in re.finditer(r'\b%s (\w+)[^;{]*\{' % kind, text):
        yield found.group(1), text[found.end():closing(text, found.end() - 1) - 1]


def point_1(files):
    for name, text in files:
        for enum, body in types(text, 'enum'):
            variants = [v.strip() for v in re.sub(r'\([^)]*\)', '()', body).split(',') if v.strip()]
            if len(variants) == 2 and any(v.endswith(')') for v in variants):
                yield name, enum, 'an enum of two variants, one with a value'
            elif any(v in ('Nothing', 'Nowhere', 'Other', 'None', 'Done') for v in variants):
                yield name, enum, 'an enum with a variant for none, or for no refusal'
        for struct, body in types(text, 'struct'):
            fields = re.findall(r'(\w+): (\w+)', body)
            for field, of in fields:
                if of == 'bool' and len(fields) > 1:
                    yield name, f'{struct}.{field}', 'a flag in a struct'
                if of == 'u8' and field in ('kind', 'message'):
                    yield name, f'{struct}.{field}', 'a number for a kind or refusal'
        for const in re.findall(r'const (\w+): u8 = \d+;', text):
            yield name, const, 'a number that names a kind'
        for function, signature, _, body in functions(text):
            if re.search(r'-> u8\s*$', signature) and re.search(r'return [012];', body) and len(
                    re.findall(r'return \w+;', body)) > 1:
                yield name, function, 'a number for a refusal'
            for arms in re.findall(r'match \w+ \{', body):
                where = body.index(arms)
                inside = body[where:closing(body, body.index('{', where))]
                if len(re.findall(r"(?:^|[\s|])(?:0x[0-9A-F]+|\d+|b'.')\s*(?=[|=])", inside)) > 1:
                    yield name, function, 'no place: a match on numbers or bytes from outside'


def one_call(kept):
    """Whether a body is a single call, which hands on what it is given."""
    return re.fullmatch(r'\{ (?:x : : )*(?:x \. )?x \((?:(?! \) [^;}] )[^{}|;])*\) (?:; )?\}', kept) is not None


def point_2(files):
    groups = {}
    for name, text in files:
        for function, _, _, body in functions(text):
            kept = shape(body)
            if len(kept) >= 9:
                groups.setdefault(' '.join(kept), []).append((name, function))
        for struct, body in types(text, 'struct'):
            groups.setdefault('struct ' + struct + ' '.join(body.split()), []).append((name, struct))
    for shapes, group in groups.items():
        if len(group) > 1:
            same = ', '.join(f'{n.split("/")[1]}::{f}' for n, f in group)
            for name, function in group:
                yield name, function, ('no place: one call of what serves all: ' if one_call(shapes) else 'of one shape: ') + same


def point_3(files):
    for name, text in files:
        for function, _, _, body in functions(text):
            for test in re.findall(r'\n\s*while ([^{]*) \{', body):
                yield name, function, f'while {test}'


def point_4(files):
    for name, text in files:
        for function, signature, _, body in functions(text):
            kept = ' '.join(shape(body))
            if '-> bool' in signature and re.search(r'return (true|false);', body) and 'while' not in body:
                yield name, function, 'a test by returns of true and false'
            elif re.search(r'match \w+ \{', body) and len(re.findall(r'=> (?:true|false),', body)) > 1:
                yield name, function, 'a test by a match to true and false'
            elif re.fullmatch(r'\{ if x (?:< x )?\{ return [xn] ; \} [xn] \}', kept):
                yield name, function, 'a choice, a number of a flag, the larger or smaller'
            elif re.search(r'let mut (\w+) = self;', body):
                yield name, function, 'a copy with a part replaced'
            elif len(re.findall(r'(\w+): self\.\w+\.\1\b', body)) > 0:
                yield name, function, 'a copy field by field'
            elif re.search(r'% 256\) as u8', body):
                yield name, function, 'a number to bytes'
            elif re.search(r'(as u16|wide\(.*\)|as usize) \* 256|256 \* high', body):
                yield name, function, 'bytes to a number'
            elif len(re.findall(r'\w+::\w+ => \d+,', body)) > 1:
                yield name, function, 'a number of each variant'
            elif 'while' in body and re.search(r'\w+\[\w+\] != \w+\[\w+\]', body):
                yield name, function, 'equality by a loop'
            elif function == 'print':
                yield name, function, 'printing'


def point_5(files):
    clauses = {}
    for name, text in files:
        for function, signature, own, _ in functions(text):
            if re.search(r'characters: &', signature) and re.search(r'marks: &', signature):
                yield name, function, 'characters and marks lent side by side'
            elif re.search(r'(out|text|bytes): &mut \[u8\],\s+at: usize', signature):
                yield name, function, 'an output and the place in it'
            for word, clause in own:
                if word == 'requires':
                    for fact in clause.split(' × '):
                        clauses.setdefault(fact.strip('() '), []).append((name, function))
    for fact, where in clauses.items():
        if len(where) > 2:
            yield where[0][0], f'{len(where)} functions', 'requires ' + fact


def point_6(files):
    for name, text in files:
        for function, signature, _, _ in functions(text):
            if re.search(r'\[\w+; \d+\],\s+count: usize', signature):
                yield name, function, 'an array and how many of it count'
            elif re.search(r'(line|text): &(mut )?\[u8\],\s+digits: usize', signature):
                yield name, function, 'a line and how many of its bytes have come'
            elif re.search(r'(\w+): &\[\w+\],.*from: usize,\s+to: usize', signature, re.S):
                yield name, function, 'a slice and the bounds of a part of it'


def point_7(files):
    for name, text in files:
        for function, _, _, body in functions(text):
            for head in re.findall(r'match (\w+) \{', body):
                where = body.index(f'match {head} {{')
                inside = body[where:closing(body, body.index('{', where))]
                if len(re.findall(r'=> [\w:]+\(', inside)) > 3:
                    yield name, function, f'a choice of what to run by {head}'


def main():
    points = [int(a) for a in sys.argv[1:] if re.fullmatch(r'[1-7]', a)] or range(1, 8)
    commits = [a for a in sys.argv[1:] if not re.fullmatch(r'[1-7]', a)]
    files = [(n, without_comments(t)) for n, t in sources(commits[0] if commits else None)]
    for point in points:
        places = list(globals()[f'point_{point}'](files))
        apart = sum(seen.startswith('no place: ') for _, _, seen in places)
        print(f'point {point}: {len(places) - apart}' + (f', and {apart} that are none' if apart else ''))
        for name, what, seen in places:
            print(f'    {name.replace("crates/", "").replace("/src", "")} {what}: {seen}')


main()
