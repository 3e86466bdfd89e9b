#!/usr/bin/env python3
"""Counts the places that docs/DESIGN-PASS.md lists: python3 tools/places.py [FOLDER], at the top of the repository.

Each line is a point of the page, a pattern, and how many places of crates/*/src it fits. -v prints the places.
"""
import collections
import glob
import re
import sys

args = [a for a in sys.argv[1:] if a != '-v']
root = args[0] if args else '.'
verbose = '-v' in sys.argv

files = {}
for path in sorted(glob.glob(root + '/crates/*/src/**/*.rt', recursive=True)):
    with open(path, encoding='utf-8') as f:
        files[path[len(root) + 1:]] = f.read()


def code(text):
    """The text with comments and clauses blanked, its lines kept."""
    lines = []
    for line in text.split('\n'):
        bare = line.split('//')[0]
        if re.match(r'\s*(ghost use|requires|ensures|×)', bare):
            bare = ''
        lines.append(bare)
    return '\n'.join(lines)


def functions(text):
    for m in re.finditer(r'^( *)(?:pub(?:\([a-z]+\))? )?(?:extern "C" )?fn (\w+)(?:<[^(]*>)?\(', text, re.M):
        depth, i = 1, m.end()
        while depth:
            depth += {'(': 1, ')': -1}.get(text[i], 0)
            i += 1
        yield m.group(2), text[m.end():i - 1], text[i:].split('{')[0], text[:m.start()].count('\n') + 1


def show(point, what, places):
    print(f'{point}  {len(places):4}  {what}')
    if verbose:
        for place in places:
            print('        ' + place)


def grep(pattern, flags=re.M):
    found = []
    for path, text in files.items():
        bare = code(text)
        for m in re.finditer(pattern, bare, flags):
            found.append(f'{path}:{bare[:m.start()].count(chr(10)) + 1}')
    return found


def enums(variants):
    found = []
    for path, text in files.items():
        for m in re.finditer(r'^pub enum (\w+) \{\n(.*?)^\}', code(text), re.M | re.S):
            if re.search(variants, m.group(2)):
                found.append(f'{path} {m.group(1)}')
    return found


def parameters(test):
    found = []
    for path, text in files.items():
        for name, params, result, line in functions(code(text)):
            if test(name, params, result):
                found.append(f'{path}:{line} {name}')
    return found


show(1, 'own enums with a case for a refusal, a malformed input or no value', enums(r'\b(Refused|Malformed|Empty|Nowhere|End)\b'))
show(1, 'functions that answer the number of a refusal', parameters(lambda n, p, r: n.endswith('_refusal') and re.search(r'-> u(32|64)', r)))
show(1, 'structs with a flag beside a value', grep(r'^    pub \w+: bool,'))
show(1, 'parameters that are numbers for kinds (plane, shape, kind, operation)', parameters(lambda n, p, r: re.search(r'\b(plane|shape|kind|operation): &?(mut )?(u32|u64|usize)', p)))
show(3, 'loops that count by hand (while)', grep(r'\bwhile\b(?! let)'))
show(3, 'loops by while let or loop', grep(r'\bwhile let\b|\bloop \{'))
show(4, 'own functions for order, copying, bits, distance or magnitude', parameters(lambda n, p, r: n in (
    'larger', 'smaller', 'less', 'behind', 'copy', 'fill', 'bits', 'of_bits', 'sign', 'at_most', 'scaled_at_most', 'low', 'distance', 'magnitude', 'difference', 'is_digit', 'all_digits', 'value')))
show(4, 'printing by byte (write_all, out[k] = b)', grep(r"write_all\(|out\[\d\] = b'"))
show(5, 'functions that take size, f and g apart', parameters(lambda n, p, r: re.search(r'\bframe: Frame', p) and re.search(r"\bf: &(?:'\w+ )?\[i16\]", p) and re.search(r"\bg: &(?:'\w+ )?\[i16\]", p)))
show(5, 'functions that take a work area and a row, rooms or slopes apart (4 or more slices)', parameters(lambda n, p, r: len(re.findall(r': &(?:mut )?\[', p)) >= 4))
show(5, 'contracts that ask for a legal window, size or picture', [f'{path}:{k + 1}' for path, text in files.items() for k, l in enumerate(text.split('\n')) if re.match(r'\s*requires', l) and re.search(r'window_legal|frame_legal|Asked|Checked|Readable|Buildable', l)])
show(6, 'a place in an area passed beside it', parameters(lambda n, p, r: re.search(r'\b(at|start|from|lo): usize', p) and re.search(r': &(mut )?\[', p)))
show(6, 'fixed arrays as room', grep(r'^(?!const|pub const).*(= |^ +)\[[^\];]+; [^\]]+\]|-> \[\w+; [\w{}: ]+\]|^ +(pub )?\w+: \[\w+; \w+\],'))
show(7, 'chains of tests on a plane, a shape or a kind', [f'{p} {n}' for (p, n), k in collections.Counter((path, re.findall(r'\bfn (\w+)', code(text)[:m.start()])[-1]) for path, text in files.items() for m in re.finditer(r'\bif (\w+\.)*(plane|shape|kind) (==|!=|<=|>) ', code(text))).items()])
show(7, 'tests whether a window is a rectangle', grep(r'(?<!fn )\bis_rectangle\('))
lines = sum(text.count('\n') for text in files.values())
proofs = {p: open(p, encoding='utf-8').read() for p in glob.glob(root + '/crates/*/proofs/**/*.antt', recursive=True)}
show(8, 'answers', [k for t in proofs.values() for k in re.findall(r'^pub [\w-]+ : goal\.', t, re.M)])
show(8, 'facts that an answer gives to itself (let .. : .. =)', [k for p, t in proofs.items() if 'Answers' in p for k in re.findall(r'^\s+let [\w-]+ :', t, re.M)])
print(f'   {lines:5}  lines of code, {sum(t.count(chr(10)) for t in proofs.values())} of proofs')
