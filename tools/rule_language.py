"""A plain implementation of the rule language of `docs/RULES.md`: the reader of a rules part, the
code and its listing, the machine that runs it, the meaning of a set at a node, and the report of
`judge`. It shares nothing with the program but the texts; `tools/rules.py` compares the two.
"""
import json
import re

from plain_networks import components, label_words, text_of
from plain_schemes import take

MOST = 2 ** 63 - 2
PARTS = {'B': {'eq': 'NN', 'lt': 'NN', 'le': 'NN', 'same': 'BB', 'both': 'BB', 'either': 'BB',
               'not': 'B', 'all': 'B', 'any': 'B'},
         'N': {'add': 'NN', 'sum': 'BN'}}
QUANTIFIERS = ('all', 'any', 'sum')
STATE = ('id', 'mark', 'num', 'degree', 'pointed')
AT_PORTS = ('up.weight', 'nb.weight', 'nb.up')

BUILT_IN = {
    'leader': ('root depth', 'all(eq(nb.root,my.root))', 'same(eq(my.depth,0),eq(id,my.root))',
               'either(eq(my.depth,0),any(eq(add(nb.depth,1),my.depth)))',
               'same(eq(mark,1),eq(my.depth,0))'),
    'tree': ('root depth', 'all(eq(nb.root,my.root))',
             'either(eq(pointed,1),both(eq(my.depth,0),eq(id,my.root)))',
             'either(eq(pointed,0),eq(my.depth,add(up.depth,1)))'),
    'forest': ('depth', 'either(eq(pointed,1),eq(my.depth,0))',
               'either(eq(pointed,0),eq(my.depth,add(up.depth,1)))'),
    'spt': ('root depth dist', 'all(eq(nb.root,my.root))',
            'either(eq(pointed,1),both(both(eq(my.depth,0),eq(my.dist,0)),eq(id,my.root)))',
            'either(eq(pointed,0),both(eq(my.depth,add(up.depth,1)),'
            'eq(my.dist,add(up.dist,up.weight))))', 'all(le(my.dist,add(nb.dist,nb.weight)))'),
    'bipartite': ('colour', 'all(not(eq(nb.colour,my.colour)))'),
    'acyclic': ('depth', 'all(either(eq(nb.depth,add(my.depth,1)),eq(add(nb.depth,1),my.depth)))',
                'le(sum(eq(add(nb.depth,1),my.depth),1),1)'),
    'count': ('root own parent depth size total',
              'all(both(eq(nb.root,my.root),eq(nb.total,my.total)))',
              'both(eq(my.own,id),eq(my.total,num))', 'same(eq(my.depth,0),eq(my.root,id))',
              'either(lt(0,my.depth),both(eq(my.parent,id),eq(my.size,my.total)))',
              'either(eq(my.depth,0),any(both(eq(nb.own,my.parent),eq(add(nb.depth,1),my.depth))))',
              'eq(my.size,add(sum(eq(nb.parent,id),nb.size),1))'),
}


def part_of(fields, rules):
    """The rules part with these texts behind `field` and `rule`."""
    lines = ['rules', *[f'field {field}' for field in fields], *[f'rule {rule}' for rule in rules]]
    return '\n'.join(lines + ['end']) + '\n'


def built_in(name):
    fields, *rules = BUILT_IN[name]
    return part_of([f'{field} {"bit" if field == "colour" else "num"}' for field in fields.split()],
                   rules)


# ---- reading a rules part; a tree is a word with its parts

class Refused(Exception):
    """The input is refused, with this behind the word `refused`."""


def parse(text, place, kind):
    """The tree of a kind, B or N, whose text begins at a place, and the place behind it."""
    word = re.compile('[a-z0-9.]*').match(text, place)[0]
    place += len(word)
    if word in PARTS[kind]:
        tree = [word]
        for before, inner in zip('(,', PARTS[kind][word]):
            if text[place:place + 1] != before:
                raise ValueError
            part, place = parse(text, place + 1, inner)
            tree.append(part)
        if text[place:place + 1] != ')':
            raise ValueError
        return tuple(tree), place + 1
    named = re.fullmatch('(my|up|nb)[.]([a-z]{1,16})', word)
    if kind == 'N' and re.fullmatch('0|[1-9][0-9]{0,18}', word) and int(word) <= MOST:
        return ('number', int(word)), place
    if kind == 'N' and (word in STATE or word in AT_PORTS or named):
        return named.groups() if named and word not in AT_PORTS else (word,), place
    raise ValueError


def deepest(text):
    deep = most = 0
    for letter in text:
        deep = max(0, deep + (letter == '(') - (letter == ')'))
        most = max(most, deep)
    return most


def is_rule(text):
    try:
        return deepest(text) > 31 or parse(text, 0, 'B')[1] == len(text)
    except ValueError:
        return False


def read_rules(text, above):
    """The lines of the fields and of the rules, by their numbers; so many lines stand above."""
    fields, rules, lines = {}, {}, text.split('\n')
    for number, line in enumerate(lines[:-1]):
        field = re.fullmatch('field (?!weight |up )([a-z]{1,16}) (num|bit)', line)
        rule = re.fullmatch('rule ([a-z0-9.,()]{1,4096})', line)
        if number == 0 and line == 'rules':
            continue
        if field and number > 0 and not rules and len(fields) < 8:
            fields[above + number + 1] = field.groups()
        elif rule and fields and len(rules) < 32 and is_rule(rule[1]):
            rules[above + number + 1] = rule[1]
        elif line == 'end' and fields and lines[number + 1:] == ['']:
            return fields, rules
        else:
            number += line == 'end' and bool(fields)
            raise Refused(f'form at {above + number + 1}')
    raise Refused(f'form at {above + len(lines)}')


# ---- what is refused

def inner(tree):
    return [part for part in tree[1:] if isinstance(part, tuple)]


def nesting(tree):
    return max(map(nesting, inner(tree)), default=0) + (tree[0] in QUANTIFIERS)


def is_known(tree, names, inside=False):
    if tree[0][:2] == 'nb' and not inside:
        return False
    if tree[0] in ('my', 'up', 'nb'):
        return tree[1] in names
    return all(is_known(part, names, inside or tree[0] in QUANTIFIERS) for part in inner(tree))


def trees_of(fields, rules):
    """The trees of the rules."""
    names = []
    for line, (name, _) in fields.items():
        if name in names:
            raise Refused(f'50 at {line}')
        names.append(name)
    trees = []
    for line, text in rules.items():
        tree = None if deepest(text) > 31 else parse(text, 0, 'B')[0]
        if tree is None or nesting(tree) > 2:
            raise Refused(f'51 at {line}')
        if not is_known(tree, names):
            raise Refused(f'50 at {line}')
        trees.append(tree)
    return trees


# ---- the code and its listing

def compiled(tree, place, names):
    """The instructions of a tree, the first of which stands at a place."""
    word, *parts = tree
    if word == 'number':
        return [f'push {parts[0]}']
    if word in ('my', 'up', 'nb'):
        return [f'{word} {names.index(parts[0])}']
    loop = word in QUANTIFIERS
    found = [f'push {int(word == "all")}', 'begin', 'more'] if loop else []
    for part in parts:
        found += compiled(part, place + len(found), names)
    if not loop:
        return found + ['eq' if word == 'same' else word.replace('.', '')]
    found += {'all': ['both'], 'any': ['either'], 'sum': ['mask', 'add']}[word]
    found.append(f'next {place + 2}')
    found[2] = f'more {place + len(found)}'
    return found


def listing(text):
    """What `code` writes, and its status."""
    fields, rules = read_rules(text, 0)
    names, found = [name for name, _ in fields.values()], []
    for number, tree in enumerate(trees_of(fields, rules), 3):
        found += compiled(tree, len(found), names) + [f'rule {number}']
    lines = [f'{place} {words}' for place, words in enumerate(found + ['accept'])]
    return '\n'.join(['code', *lines, 'end']) + '\n', 0


# ---- meaning; a view is the node, its fields, and the weight and the fields at each port

OF_TWO = {'eq': lambda x, y: x == y, 'lt': lambda x, y: x < y, 'le': lambda x, y: x <= y,
          'same': lambda x, y: x == y, 'both': lambda x, y: x and y,
          'either': lambda x, y: x or y, 'add': lambda x, y: x + y}


def fields_of(kinds, bits):
    """The values of the fields by their names, or None where the bits are no such label."""
    values = {}
    for name, kind in kinds:
        first = take(bits) if kind == 'num' else bits and (int(bits[0]), bits[1:])
        if not first:
            return None
        values[name], bits = first
    return None if bits else values


def value(tree, view, at=()):
    """What a tree comes to, inside of quantifiers at these ports, the innermost last."""
    word, *parts = tree
    node, own, ports = view
    if word in QUANTIFIERS:
        each = [[value(part, view, (*at, port)) for part in parts] for port in range(len(ports))]
        if word == 'sum':
            return sum(number for holds, number in each if holds)
        return (all if word == 'all' else any)(holds for holds, in each)
    if word == 'not':
        return not value(parts[0], view, at)
    if word in OF_TWO:
        return OF_TWO[word](*[value(part, view, at) for part in parts])
    if word == 'number':
        return parts[0]
    if word == 'my':
        return own[parts[0]]
    if word == 'nb.up':
        return int(node['up'] == at[-1])
    if word[:2] in ('up', 'nb'):
        port = node['up'] if word[:2] == 'up' else at[-1]
        return 0 if port is None else ports[port][0] if '.' in word else ports[port][1][parts[0]]
    return {**node, 'degree': len(ports), 'pointed': int(node['up'] is not None)}[word]


def run(lines, node, own, ports):
    """The rule at which the code of a listing ends, or None where it accepts; a label is a list."""
    place, stack, at = 0, [], []
    while True:
        _, word, *number = lines[1 + place].split(' ')
        number = int(number[0]) if number else None
        place += 1
        if word == 'accept':
            return None
        if word == 'rule' and stack.pop() == 0:
            return number
        if word == 'begin':
            at.append(0)
        elif word == 'more' and at[-1] == len(ports):
            at.pop()
            place = number
        elif word == 'next':
            at[-1] += 1
            place = number
        elif word == 'not':
            stack.append(1 - stack.pop())
        elif word == 'mask':
            number, chosen = stack.pop(), stack.pop()
            stack.append(number if chosen else 0)
        elif word in OF_TWO:
            second, first = stack.pop(), stack.pop()
            stack.append(int(OF_TWO[word](first, second)))
        elif word not in ('rule', 'more'):
            word = {'push': 'number', 'upweight': 'up.weight', 'nbweight': 'nb.weight',
                    'nbup': 'nb.up'}.get(word, word)
            stack.append(value((word, number), (node, own, ports), at))
        assert len(stack) <= 40 and len(at) <= 2 and max(stack, default=0) < 2 ** 122


# ---- judging; a network and labels are those of `plain_networks.py`

def verdict(node, own, ports, trees, lines):
    """The number of the first rule that fails, or None. The code has to find the same."""
    if own is None or any(label is None for _, label in ports):
        return 1 if own is None else 2
    holds = [value(tree, (node, own, ports)) for tree in trees]
    found = None if all(holds) else 3 + holds.index(False)
    sides = [(weight, list(label.values())) for weight, label in ports]
    assert found == run(lines, node, list(own.values()), sides)
    return found


def labels_part(labels):
    return ['labels', *[f'label {i} {label_words(bits)}' for i, bits in labels.items()], 'end']


def report(net, labels, text, in_json):
    """What `judge` writes, and its status."""
    above = text_of(net) + labels_part(labels)
    fields, rules = read_rules(text, len(above))
    for line, (one, place) in enumerate(zip(labels, sorted(net)), len(text_of(net)) + 2):
        if one != place:
            raise Refused(f'20 at {line}')
    trees = trees_of(fields, rules)
    said = {i: fields_of(fields.values(), bits) for i, bits in labels.items()}
    seen = {i: [(weight, said[nbr]) for nbr, weight in net[i]['ports']] for i in net}
    lines = listing(text)[0].split('\n')
    rejects = {i: verdict(net[i], said[i], seen[i], trees, lines) for i in sorted(net)}
    many = sum(rule is not None for rule in rejects.values())
    parts = [{'id': min(part), 'nodes': len(part),
              'rejecting': sum(rejects[i] is not None for i in part), 'waiting': 0}
             for part in components(net)]
    if len(parts) == 1:
        parts = []
    if in_json:
        nodes = [{'id': i, 'verdict': 'accept'} if rule is None else
                 {'id': i, 'leaf': 1, 'rule': rule, 'verdict': 'reject'}
                 for i, rule in rejects.items()]
        whole = {'nodes': nodes, 'rejecting': many, 'waiting': 0}
        shown = json.dumps({'components': parts, **whole} if parts else whole, separators=(',', ':'))
        return shown + '\n', min(many, 1)
    lines = [f'node {i} accept' if rule is None else f'node {i} reject 1 {rule}'
             for i, rule in rejects.items()]
    lines += ['component %(id)d nodes %(nodes)d rejecting %(rejecting)d' % part for part in parts]
    return '\n'.join(lines + [f'rejecting {many}']) + '\n', min(many, 1)
