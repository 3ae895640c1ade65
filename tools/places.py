#!/usr/bin/env python3
"""Lists the lines of src/ at which docs/DESIGN-PASS.md looks, by point. Usage: tools/places.py [FOLDER], FOLDER a checkout.

A line that is listed is a place to look, and no verdict: the page says what each came to.
"""
import collections, difflib, glob, os, re, sys

ROOT = sys.argv[1] if len(sys.argv) > 1 else '.'
FILES = sorted(glob.glob(os.path.join(ROOT, 'crates', '*', 'src', '**', '*.rt'), recursive=True))
CLAUSE = re.compile(r'^\s*(requires|ensures|ghost)\b')


def lines():
    for path in FILES:
        for number, text in enumerate(open(path), 1):
            if not text.strip().startswith('//') and not CLAUSE.match(text):
                yield os.path.relpath(path, ROOT), number, text.rstrip()


def section(title, rows):
    rows = list(rows)
    print(f'## {title}: {len(rows)}')
    for row in rows:
        print('  ' + row)


def matching(pattern):
    found = re.compile(pattern)
    return (f'{path}:{number}: {text.strip()}' for path, number, text in lines() if found.search(text))


def functions():
    """Each function's path, name, parameters, clauses and body."""
    head = re.compile(r'^( *)(?:pub(?:\(crate\))? )?fn (\w+)')
    for path in FILES:
        text = open(path).read().split('\n')
        for start, line in enumerate(text):
            found = head.match(line)
            if not found:
                continue
            indent = found.group(1)
            end = start
            while end < len(text) and not (text[end] == indent + '}' or (text[end].startswith(indent) and text[end].rstrip().endswith('{}')) or text[end].rstrip().endswith('};') or (text[end].rstrip().endswith(';') and end == start)):
                end += 1
            whole = text[start:end + 1]
            clauses = [x.strip() for x in whole if CLAUSE.match(x)]
            code = '\n'.join(x for x in whole if not CLAUSE.match(x))
            opened = code.find('(')
            depth, close = 0, opened
            for close in range(opened, len(code)):
                depth += {'(': 1, ')': -1}.get(code[close], 0)
                if depth == 0:
                    break
            parameters = [p.strip() for p in re.split(r',(?![^(\[<]*[)\]>])', code[opened + 1:close]) if p.strip()]
            yield os.path.relpath(path, ROOT), start + 1, found.group(2), parameters, clauses, code[close + 1:]


def shape(body):
    words = re.findall(r'\w+|[^\w\s]', body)
    keywords = {'if', 'else', 'for', 'in', 'while', 'match', 'let', 'mut', 'return', 'self', 'Some', 'None', 'Ok', 'Err', 'break', 'as'}
    return [w if w in keywords or not w[0].isalnum() else 'x' for w in words]


def twins():
    """Pairs of functions whose bodies have the same shape, or nearly."""
    known = [(f'{path}:{number} {name}', shape(body)) for path, number, name, _, _, body in functions()]
    known = [k for k in known if len(k[1]) >= 20]
    for i, (name, one) in enumerate(known):
        for other, two in known[i + 1:]:
            if min(len(one), len(two)) * 10 >= max(len(one), len(two)) * 8:
                if difflib.SequenceMatcher(None, one, two, autojunk=False).ratio() >= 0.9:
                    yield f'{name} ~ {other}'


def repeated_facts(clause):
    count = collections.Counter()
    for _, _, _, _, clauses, _ in functions():
        for fact in {re.sub(rf'^{clause}s( \w+)? ', '', c) for c in clauses if c.startswith(clause)}:
            count[fact] += 1
    return (f'{n} functions {clause} {fact}' for fact, n in count.most_common() if n >= 3)


def main():
    section('1. enums', matching(r'^ *(pub )?enum '))
    section('1. flags in structs', matching(r'^ +(pub )?[a-z_]+: (bool|\[bool.*),$'))
    section('1. numbers and options that stand for another answer', matching(r'NOBODY|65535|Result<bool>|-> Option<Answer>|fn (number|code|said|seen_of_offer)\('))
    section('2. functions of one shape', twins())
    section('3. while loops and ranges', matching(r'\bwhile |\bfor \w+ in [^{]*\.\.'))
    section('4. equality, order, conversion and words by hand', matching(r'fn (less|before|is_below|cheaper|sooner|same_cost|same_pair|is_number|number|code|said|named_signal|\w+_words|seen_of_offer|word_at|long_at)\b'))
    section('5. facts that three or more functions require', repeated_facts('require'))
    section('5. facts that three or more functions ensure', repeated_facts('ensure'))
    section('5. functions of five or more parameters', (f'{p}:{n} {name}({", ".join(a)})' for p, n, name, a, _, _ in functions() if len(a) >= 5))
    section('6. tables, and lengths beside them', matching(r'^ +(pub )?\w+: (&(\'a )?(mut )?)?\[[^\]]+\],?$|^ +(pub )?(len|end|count|depth|links|next|standing): usize,?$|: &(mut )?\[\w+; \d+\]'))
    section('7. switches', matching(r'fn\(|&dyn|Box<dyn|match (choice|change|kind|letter|line\[0\])|if choice'))


main()
