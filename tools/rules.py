#!/usr/bin/env python3
"""Random rule sets, networks and labels, with the built program beside the plain one of
`rule_language.py`.

    python3 tools/rules.py ./pls [COUNT [SEED]]

First some fixed words and sets: those of `rules`, and sets at the limits of the language and one
beyond. Then COUNT sets are made (200 where none is given), each with a small network and labels,
and the texts and statuses of `code`, `judge` and `judge --json` are compared; nothing may stand on
standard error. Some have a fault: a name that is no field, `nb` outside of quantifiers, three
quantifiers inside one another, parentheses too deep, a byte changed, labels out of order or
unreadable. Every fifth set is a
built-in one, for which `verify` has to write what `judge` does. Where something differs, the seed
and the smallest such input that was found are written, and the status is 1.
"""
import itertools
import random
import re
import subprocess
import sys

sys.dont_write_bytecode = True
import edits  # noqa: E402
from rule_language import (BUILT_IN, MOST, PARTS, QUANTIFIERS, STATE, Refused,  # noqa: E402
                           built_in, labels_part, listing, part_of, read_rules, report)

# ---- what is random

def atom(rng, names, inside):
    number = rng.choice([0, 0, 1, 1, 2, 3, rng.randrange(MOST + 1), MOST])
    some = [str(number), rng.choice(STATE), f'my.{rng.choice(names)}', f'my.{rng.choice(names)}',
            f'up.{rng.choice([*names, "weight"])}']
    near = [f'nb.{rng.choice(names)}', f'nb.{rng.choice([*names, "weight", "up"])}']
    return rng.choice(some + 2 * near if inside else some)


def expression(rng, kind, height, names, most=2, loose=False, at=0):
    """A text of the kind so high, with at most so many quantifiers inside one another."""
    height = max(height, int(kind == 'B'))
    words = ['eq', 'lt', 'le'] if kind == 'B' and height == 1 else list(PARTS[kind])
    words = [word for word in words if at < most or word not in QUANTIFIERS]
    if kind == 'N' and height == 0:
        return atom(rng, names, at > 0 or loose)
    word = rng.choice(words)
    parts = PARTS[kind][word]
    heights = [rng.randrange(min(height, 3)) for _ in parts]
    heights[rng.randrange(len(parts))] = height - 1
    at += word in QUANTIFIERS
    inner = [expression(rng, part, high, names, most, loose, at)
             for part, high in zip(parts, heights)]
    return f'{word}({",".join(inner)})'


def wide(length):
    """A rule of so many characters, at least 21."""
    count, more = divmod(length + 7, 14)
    parts = ['eq(0,0)'] * (count - 1) + [f'eq(0,1{"0" * more})']
    while len(parts) > 1:
        parts = [f'both({pair[0]},{pair[1]})' if pair[1:] else pair[0]
                 for pair in (parts[i:i + 2] for i in range(0, len(parts), 2))]
    return parts[0]


def random_rules(rng):
    """The text of a rules part, with a fault now and then."""
    fault = rng.choice(FAULTS) if rng.random() < 0.35 else None
    names = rng.sample(NAMES, rng.choice([1, 1, 2, 2, 3, 8]))
    fields = [f'{name} {rng.choice(["num", "num", "bit"])}' for name in names]
    known = names + ['other'] * (fault == 'unknown')
    rules = [expression(rng, 'B', rng.choice([1, 2, 2, 3, 4, 6]), known, 2 + (fault == 'nested'),
                        fault == 'outside') for _ in range(rng.choice([0, 1, 1, 2, 3, 4]))]
    some = rng.randrange(len(rules) + 1)
    if fault == 'twice':
        fields.insert(rng.randrange(len(fields) + 1), f'{names[0]} num')
    elif fault == 'high':
        rules.insert(some, expression(rng, 'B', rng.choice([30, 31, 31, 32, 33]), known))
    elif fault == 'broken':
        rules.insert(some, rng.choice(['', ')))', 'eq(', 'id,']) + '(' * rng.choice([31, 32]))
    text = part_of(fields, rules)
    for _ in range(rng.choice([1, 1, 2]) if fault == 'byte' else 0):
        place = rng.randrange(len(text) + 1)
        text = text[:place] + rng.choice(['', *BYTES]) + text[place + rng.randrange(2):]
    return text


FAULTS = ['unknown', 'nested', 'outside', 'twice', 'high', 'broken', 'byte', 'byte', 'byte']
NAMES = ['a', 'b', 'id', 'num', 'my', 'bit', 'root', 'depth', 'x' * 16, 'sum', 'rule']
ATOMS = ['0', '00', '01', str(MOST), str(MOST + 1), '9' * 19, '1' + '0' * 19, '9' * 4000,
         'my.weight', 'my.up', 'up.up', 'up.weight', 'nb.up', 'nb.weight', 'my.' + 'y' * 16,
         'my.' + 'y' * 17, 'my.', 'my', 'nb', 'up', '.a', 'my.a.a', 'my.0', 'id', 'ids', 'not(id)',
         'eq(0,0)', 'add(0,0)', '']
BYTES = list('\n\r\0 \t(),.09azAZ_-\xe9\xff')


# rules of one fault each, of two at once, and of none
FAULTY_RULES = ['eq(my.b,0)', 'eq(nb.a,0)', 'any(all(any(eq(id,0))))', 'any(all(any(eq(my.b,0))))',
                'eq(my.b,nb.a)', 'eq(my.a', 'eq(my.a,0)', 'id', '']
FAULTY_FIELDS = ['a bit', 'up num', 'a word', 'b num']


def fixed_texts(rng):
    """The built-in sets, sets at the limits and one beyond, and all pairs of faulty lines."""
    for first, second in itertools.product(FAULTY_RULES, repeat=2):
        yield part_of(['a num'], [first, second])
    for field, rule in itertools.product(FAULTY_FIELDS, FAULTY_RULES):
        yield part_of(['a num', field], [rule])
    for fields in itertools.product(FAULTY_FIELDS, repeat=2):
        yield part_of(['a num', *fields], [])
    yield from map(built_in, BUILT_IN)
    for atom in ATOMS:
        yield part_of(['a num'], [f'eq({atom},0)'])
        yield part_of(['a num'], [f'any(le(0,{atom}))'])
    for length in (21, 4095, 4096, 4097):
        yield part_of(['a num'], [wide(length)])
    for height in (1, 30, 31, 32, 33):
        yield part_of(['a num'], [expression(rng, 'B', height, ['a'])])
    for many in (0, 1, 8, 9):
        yield part_of([f'{name} bit' for name in NAMES[:many]], ['eq(id,id)'])
    for many in (0, 31, 32, 33):
        yield part_of(['a num'], ['eq(my.a,0)'] * many)
    for field in ('up num', 'weight bit', 'ups bit', 'a' * 17 + ' num', 'a word', 'a  bit', 'a',
                  '_ bit', 'A num', 'a num '):
        yield part_of([field], [])


def random_network(rng):
    n = rng.choice([1, 2, 2, 3, 3, 4, 5, 6])
    pairs = [(rng.randrange(k), k) for k in range(1, n)][rng.random() < 0.2:]
    pairs += [sorted(rng.sample(range(n), 2)) for _ in range(rng.randrange(n))]
    net = edits.random_network(n, sorted(set(map(tuple, pairs))), rng)
    first = rng.choice([9, 2 ** 32 - 11])
    for i in range(first, first + 11 * (rng.random() < 0.07)):
        # more neighbours than a view holds without memory
        net[i] = {'id': i, 'up': rng.choice([None, 0]), 'mark': 0, 'num': n, 'ports': []}
        edits.link(net, min(net), i, rng.choice([0, 1, 2 ** 32 - 1]))
    changed = [{'mark': 0}, {'mark': 1}, {'mark': 2 ** 32 - 1}, {'num': 0}, {'num': 2 ** 62}]
    rng.choice(list(net.values())).update(rng.choice(changed))
    return net


def random_label(rng, kinds, ids, root):
    if rng.random() < 0.05:
        few = ''.join(rng.choices('01', k=rng.randrange(12)))
        return rng.choice(['', few, few, few, '0' * 63 + '1' + '0' * 63])
    bits = ''
    for _, kind in kinds:
        number = rng.choice([root, root, 0, 1, 1, 2, 3, len(ids), rng.choice(ids), MOST])
        bits += edits.code(number) if kind == 'num' else rng.choice('01')
    return bits + rng.choice(['', '', '', '0', '1']) * (rng.random() < 0.1)


def random_labels(rng, net, text, right):
    """Labels for the nodes, many of them of the fields, or these right ones."""
    try:
        kinds = read_rules(text, 0)[0].values()
    except Refused:
        kinds = [('a', 'num')]
    root = rng.choice(list(net))
    labels = [(i, right[i] if i in right and rng.random() < 0.9
               else random_label(rng, kinds, list(net), root)) for i in sorted(net)]
    if rng.random() < 0.03:
        rng.shuffle(labels)
    return dict(labels)


# ---- the two programs

def source_of(words, net, labels, text):
    above = [] if words == ['code'] else edits.text_of(net) + labels_part(labels)
    return ''.join(line + '\n' for line in above) + (text if words[0] != 'verify' else '')


def run(program, words, source=''):
    done = subprocess.run([program, *words], input=source.encode('latin-1'), capture_output=True)
    return (done.stdout + done.stderr).decode('latin-1'), done.returncode


def marked(program, name, net):
    """The labels that the program writes for a network, none where it lacks the property."""
    lines = run(program, ['mark', name], '\n'.join(edits.text_of(net)) + '\n')[0].split('\n')
    words = [line.split(' ')[1:] for line in lines if line.startswith('label ')]
    return {int(label[0]): edits.bits_of(label) for label in words}


def wanted(words, net, labels, text):
    try:
        return listing(text) if words == ['code'] else report(net, labels, text, '--json' in words)
    except Refused as refused:
        return f'refused {refused}\n', 3


def differs(program, words, case):
    return run(program, words, source_of(words, *case)) != wanted(words, *case)


def without(net, a, b):
    """The network without an edge."""
    net = edits.copied(net)
    edits.apply(net, {}, ['unlink', str(a), str(b)])
    return net


def smaller(net, labels, text):
    """Cases that have less in them."""
    lines = text.split('\n')
    for k in range(len(lines) - 1):
        yield net, labels, '\n'.join(lines[:k] + lines[k + 1:])
    for i in net:
        less = net
        for nbr, _ in net[i]['ports']:
            less = without(less, i, nbr)
        if len(net) > 1:
            yield ({k: node for k, node in less.items() if k != i},
                   {k: bits for k, bits in labels.items() if k != i}, text)
        for nbr, _ in net[i]['ports']:
            yield without(net, i, nbr), labels, text
    for found in re.finditer('[a-z]+[(]', text):
        # the whole from a word on, and its parts, each in the place of the whole
        deep, cuts = 0, [found.end()]
        for place in range(found.end(), len(text)):
            deep += (text[place] == '(') - (text[place] == ')')
            if deep < 0 or (deep == 0 and text[place] == ','):
                cuts.append(place + 1)
            if deep < 0:
                break
        for part in [text[a:b - 1] for a, b in zip(cuts, cuts[1:])] + ['eq(0,0)', '0']:
            if len(part) < cuts[-1] - found.start():
                yield net, labels, text[:found.start()] + part + text[cuts[-1]:]


def tell(words, source, answer, got):
    print(f'{" ".join(words)} differs on\n{source}\nwanted (text, status)\n{answer}\ngot\n{got}')
    return False


def tell_smallest(program, words, case):
    """Tells of the smallest case that is found in which the two differ."""
    smallest = False
    while not smallest:
        smallest = True
        for less in smaller(*case):
            if differs(program, words, less):
                case, smallest = less, False
                break
    source = source_of(words, *case)
    tell(words, source, wanted(words, *case), run(program, words, source))


def ask(program, words, answer, text):
    """Whether the program answers so."""
    got = run(program, words, text)
    return got == answer or tell(words, text, answer, got)


def ask_fixed(program, rng):
    """How many fixed runs there are, or nothing where one differs."""
    asked = [(['rules', name], (built_in(name), 0), '') for name in BUILT_IN]
    asked += [(words.split(), ('usage\n', 2), '') for words in (
        'rules', 'rules mst', 'rules tree --json', 'code --json', 'code tree', 'judge tree',
        'judge --json --json')]
    asked += [(['code'], wanted(['code'], None, None, text), text) for text in fixed_texts(rng)]
    return len(asked) if all(ask(program, *one) for one in asked) else 0


def main():
    program = sys.argv[1]
    count = int(sys.argv[2]) if len(sys.argv) > 2 else 200
    seed = int(sys.argv[3]) if len(sys.argv) > 3 else 1
    rng = random.Random(seed)
    runs, refused, rejecting = ask_fixed(program, rng), 0, 0
    if not runs:
        print(f'seed {seed}')
        return 1
    for number in range(count):
        name = list(BUILT_IN)[number // 5 % 7] if number % 5 == 0 else None
        text, net = built_in(name) if name else random_rules(rng), random_network(rng)
        right = marked(program, name, net) if name else {}
        case = net, random_labels(rng, net, text, right), text
        for words in [['code'], ['judge'], ['judge', '--json']] + [['verify', name]] * bool(name):
            runs += 1
            refused += wanted(words, *case)[1] == 3
            rejecting += wanted(words, *case)[1] == 1
            if differs(program, words, case):
                tell_smallest(program, words, case)
                print(f'seed {seed}')
                return 1
    print(f'seed {seed}: {count} sets, {runs} runs, of which {refused} are refused and {rejecting} '
          'have a node that rejects: none differs')
    return 0


if __name__ == '__main__':
    sys.exit(main())
