#!/usr/bin/env python3
# Counts in crates/*/src what docs/DESIGN-PASS.md speaks of, point by point; with a number, lists that point's places.
#   tools/places.py [POINT]
import collections, difflib, glob, re, sys

FN = re.compile(r'(?:^|\n)[ ]*(?:pub(?:\([a-z]+\))? )?(?:const )?(?:extern "C" )?fn (\w+)(.*?)(?=\n[ ]*\{\n)', re.S)
TEXT = {p: open(p).read() for p in sorted(glob.glob('crates/*/src/**/*.rt', recursive=True))}


def place(path, at):
    return f"{path[7:].replace('/src', '')}:{TEXT[path].count(chr(10), 0, at) + 1}"


def lines(pattern):
    found = []
    for path, text in TEXT.items():
        for m in re.finditer(pattern, text, re.M):
            found.append(f'{place(path, m.start())}: {m.group(0).strip()}')
    return found


# Every function as its path, name, parameters and body.
def functions():
    for path, text in TEXT.items():
        for m in FN.finditer(text):
            start = text.index('{\n', m.end())
            depth, i = 0, start
            while True:
                depth += {'{': 1, '}': -1}.get(text[i], 0)
                i += 1
                if depth == 0:
                    break
            head = m.group(2)
            inside = re.search(r'\((.*?)\)(?: ->| *\n|$)', head, re.S)
            names = re.findall(r'(\w+): ([^,()]*(?:\([^)]*\))?[^,()]*)', inside.group(1)) if inside else []
            yield path, m.start(1), m.group(1), [(a, ' '.join(b.split())) for a, b in names], text[start:i]


# Pairs of functions of three statements or more whose bodies differ in names and numbers alone.
def twins():
    shaped = []
    for path, at, name, _, body in functions():
        if path.split('/')[1].endswith('_c'):
            continue
        tokens = re.findall(r'\w+|[^\s\w]', body)
        shape = ['x' if re.match(r'\w', t) and t not in ('if', 'else', 'match', 'return', 'let', 'mut', 'while', 'for', 'in') else t for t in tokens]
        if len(shape) > 18:
            shaped.append((f'{place(path, at)}: {name}', path.split('/')[1], shape, tokens))
    found = []
    for i, (a, ca, sa, ta) in enumerate(shaped):
        for b, cb, sb, tb in shaped[i + 1:]:
            if abs(len(sa) - len(sb)) > len(sa) // 8 or len(set(ta) & set(tb)) * 2 < len(set(ta)):
                continue
            if difflib.SequenceMatcher(None, sa, sb, False).ratio() > 0.93:
                found.append(f'{a} = {b}')
    return found


# Parameters that three functions or more take together, the largest groups first.
def together():
    groups = collections.Counter()
    where = collections.defaultdict(list)
    for path, at, name, params, _ in functions():
        names = [f'{a}: {b}' for a, b in params if a != 'self']
        for n in range(2, len(names) + 1):
            for i in range(len(names) - n + 1):
                key = tuple(sorted(re.sub(r'^_', '', x.replace('&mut ', '&')) for x in names[i:i + n]))
                groups[key] += 1
                where[key].append(name)
    kept = []
    for key, n in sorted(groups.items(), key=lambda kv: (-len(kv[0]), -kv[1])):
        if n >= 3 and not any(set(key) <= set(k) and m >= n for k, m in kept):
            kept.append((key, n))
    return [f"{n} functions: {', '.join(k)}" for k, n in kept]


POINTS = {
    '1a own enums and structs': lambda: lines(r'^(?:pub )?(?:enum|struct) \w+'),
    '1b a number that says which or whether (kind, mark, cond, a count one too many)': lambda: lines(r'^.*\b(?:kind|mark|annul|form|end|number): u32\b.*$'),
    '2 pairs of functions alike but for names and numbers': twins,
    '3a loops by while': lambda: lines(r'^\s*while .*$'),
    '3b indices counted by hand': lambda: lines(r'^\s*[a-z] (?:\+|-)= 1;$'),
    '4a conversions by hand': lambda: lines(r'^\s*(?:pub )?fn (?:\w+_from|from_\w+|six_of|six_with|numbers_of|bit|one_bit|wide|narrow|low32|\w*_?op3|answer|plain_six)\b.*$'),
    '4b fields copied by hand before a value is made anew': lambda: lines(r'^\s*let \w+ = [a-z]\.\w+;$'),
    '4c minimum, equality, filling and copying by hand': lambda: lines(r'^\s*(?:pub )?fn (?:least|at_most_6|copy|put_bytes|clear_from|clear_eight|copy_eight|byte_or|is_place|is_going)\b.*$'),
    '5 parameters that three functions or more take together': together,
    '6 a position or a length beside a buffer': lambda: lines(r'^.*\[u(?:8|32|64)\], \w+: usize.*$|^\s+\w+: &(?:mut )?\[u8\],\n\s+(?:at|k|count|n|room): usize,'),
    '7 matches that choose a function to run': lambda: lines(r'^\s*(?:match )?(?:kind|core|op3) \{$|^\s*match (?:kind|core|op3) \{$'),
}


def answers():
    files = glob.glob('crates/*/proofs/**/Answers.antt', recursive=True)
    text = ''.join(open(f).read() for f in files)
    goals = len(re.findall(r'^pub \S+ : goal\.', text, re.M))
    lemmas = glob.glob('crates/*/proofs/*.antt')
    return f'{len(files)} files of answers with {goals} answers in {text.count(chr(10))} lines; ' \
        f'{len(lemmas)} lemma files of {sum(open(f).read().count(chr(10)) for f in lemmas)} lines'


for name, find in POINTS.items():
    found = find()
    if len(sys.argv) == 1 or name.startswith(sys.argv[1]):
        print(f'{name}: {len(found)}')
        if len(sys.argv) > 1:
            print(''.join(f'    {x}\n' for x in found), end='')
if len(sys.argv) == 1 or sys.argv[1] == '8':
    print(f'8 proofs: {answers()}')
