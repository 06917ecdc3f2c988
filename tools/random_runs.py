#!/usr/bin/env python3
"""Random runs of every command, with the built program beside the plain one of `plain_program.py`.

    python3 tools/random_runs.py ./pls [COUNT [SEED]]

COUNT runs are made (1,000 where none is given): random networks of one or more components with states
and weights, labels in both codes, right ones among them and some that nearly are, expressions, played
and watched events, edits, sets of rules and rings; a third of the inputs are changed in some bytes or
lines, and some words are none of a command. Texts and statuses are compared, and nothing may stand on
standard error. Where one differs, the seed and the smallest such input that was found are written,
and the status is 1.
"""
import collections
import random
import subprocess
import sys

sys.dont_write_bytecode = True
import edits  # noqa: E402
import rings  # noqa: E402
import rules  # noqa: E402
from plain_program import EXPRESSION, PARTS, answer, labels_part  # noqa: E402
from plain_networks import (apply, components, copied, holds, label_words, parts, said_of,  # noqa: E402
                            text_of)
from plain_schemes import CODES, MOST, RULES, marks, written  # noqa: E402
from watches import beside  # noqa: E402

BASIC = sorted(RULES)
GREAT = [0, 1, 2, 2 ** 16, 2 ** 32 - 1, 2 ** 62]


# ---- expressions and words

def random_property(rng, deep):
    kind = rng.random()
    if deep and kind < 0.3:
        return f'{rng.choice(["and", "or"])}({random_property(rng, deep - 1)},' \
               f'{random_property(rng, deep - 1)})'
    return rng.choice([*BASIC, 'bridgeless', f'diameter:{rng.choice([0, 1, 2, 3, 4, 32767])}'])


def random_expression(rng, deep=2):
    kind = rng.random()
    if deep and kind < 0.3:
        return f'{rng.choice(["and", "or"])}({random_expression(rng, deep - 1)},' \
               f'{random_expression(rng, deep - 1)})'
    if kind > 0.88:
        return f'map({random_property(rng, deep)})'
    return rng.choice(BASIC)


def random_words(rng, command, expression):
    words = [command] + [expression] * (expression is not None)
    if command == 'trial':
        words.append(f'{rng.choice([1, 2, 3, 5, 8, 12])}:{rng.randrange(1, 2147483647)}')
    if command == 'rules':
        words.append(rng.choice(list(rules.BUILT_IN)))
    if command in ('mark', 'bound') and rng.random() < 0.4:
        place = rng.randrange(len(words) + 1)
        words[place:place] = ['--code', rng.choice(['gamma', 'delta'])]
    if command in ('verify', 'simulate', 'judge') and rng.random() < 0.25:
        words.insert(rng.randrange(len(words) + 1), '--json')
    return words if rng.random() < 0.97 else other_words(rng, words)


ODD_WORDS = ['--json', '--code', 'gamma', 'delta', '--', '-', '', 'tree', 'map(map(tree))', 'tree(',
             'diameter:1', 'map(diameter:01)', 'map(diameter:32768)', '0:1', '1:0', '1:2147483647',
             '32769:1', 'and(tree,tree', 'and(tree)', '--help', 'verify',
             'and(' * 7 + 'tree' + ',tree)' * 7, 'and(' * 8 + 'tree' + ',tree)' * 8]


def other_words(rng, words):
    words = list(words)
    for _ in range(rng.choice([1, 1, 2])):
        place, kind = rng.randrange(len(words) + 1), rng.random()
        if kind < 0.6:
            words.insert(place, rng.choice(ODD_WORDS))
        elif kind < 0.8 and words:
            del words[place % len(words)]
        elif words:
            words[place % len(words)] += rng.choice(['', ' ', ')', 'x', '0'])
    return words


# ---- networks and labels

def random_network(rng):
    def one():
        n = rng.choice([1, 2, 2, 3, 3, 4, 4, 5, 6])
        ties = [(rng.randrange(k), k) for k in range(1, n)]
        ties += [sorted(rng.sample(range(n), 2)) for _ in range(rng.randrange(n)) if n > 1]
        return edits.random_network(n, sorted(set(map(tuple, ties))), rng)
    net = one()
    while rng.random() < 0.2 and len(net) < 9:
        net = beside(net, one())
    if rng.random() < 0.1:
        # more neighbours than a view holds without memory
        first = rng.choice([max(net) + 1, 2 ** 32 - 11])
        for i in range(first, first + 10):
            net[i] = {'id': i, 'up': rng.choice([None, 0]), 'mark': 0, 'num': 1, 'ports': []}
            edits.link(net, min(net), i, rng.choice([0, 1, 2 ** 32 - 1]))
    if rng.random() < 0.15:
        node = net[rng.choice(list(net))]
        node.update(rng.choice([{'mark': 1}, {'mark': 2 ** 32 - 1}, {'num': 2 ** 62}]))
    if rng.random() < 0.15:
        weigh(net, rng)
    if rng.random() < 0.3:
        for node in net.values():
            node['num'] = next(len(part) for part in components(net) if node['id'] in part)
    return net


def weigh(net, rng):
    """Gives an edge another weight."""
    i = rng.choice(list(net))
    if net[i]['ports']:
        apply(net, {}, ['weight', str(i), str(rng.choice(net[i]['ports'])[0]),
                        str(rng.choice(GREAT[:5]))])


def random_bits(rng):
    return ''.join(rng.choice('01') for _ in range(rng.choice([0, 1, 2, 3, 8, 16, 17, 64, 140])))


def changed_number(said, rng):
    """A label with one of its numbers changed; it is made of numbers in lists inside one another."""
    if isinstance(said, int):
        return max(0, rng.choice([said + 1, said - 1, 0, 1, 2, MOST, rng.choice(GREAT)]))
    if isinstance(said, str) or not said:
        return said
    kind, said, place = type(said), list(said), rng.randrange(len(said))
    if isinstance(said[place], list) and said[place] and rng.random() < 0.1:
        said[place] = said[place][:-1] if rng.random() < 0.5 else said[place] + said[place][-1:]
    else:
        said[place] = changed_number(said[place], rng)
    return kind(said)


def near_label(expression, net, node, name, rng):
    """A label that nearly is that of a node of a network, or of what the network might be."""
    word, one, two = parts(expression)
    if two is None:
        try:
            said = said_of(word, net)[node]
        except (StopIteration, TypeError, AttributeError, KeyError):
            # the network lacks the property
            said = {'leader': [1, 0], 'tree': [1, 1], 'forest': [1], 'spt': [1, 0, 0],
                    'mst': [1, node, 1, 1, [(node, 1, 1, 2)]],
                    'pathmax': [1, node, 1, 1, [(node, 0, 0)]]}[word]
        for _ in range(rng.choice([0, 0, 1, 1, 2])):
            said = changed_number(said, rng)
        return written(word, said, name)
    if word == 'and':
        first = near_label(one, net, node, name, rng)
        return CODES[name](len(first) + rng.choice([0] * 9 + [1])) + first + \
            near_label(two, net, node, name, rng)
    tag = rng.randrange(2)
    return str(tag) + near_label((one, two)[tag], net, node, name, rng)


def random_labels(expression, net, name, rng):
    """Labels, the marked ones where there are, and some others."""
    labels = {}
    for ids in components(net):
        part = {i: net[i] for i in ids}
        if holds(expression, part) and rng.random() < 0.8:
            labels.update(marks(expression, part, name))
        else:
            labels.update({i: near_label(expression, part, i, name, rng) for i in part})
    for i in net:
        kind = rng.random()
        if kind < 0.06:
            part = next({k: net[k] for k in some} for some in components(net) if i in some)
            labels[i] = near_label(expression, part, i, name, rng) if rng.random() < 0.8 \
                else random_bits(rng)
        elif kind < 0.1 and labels[i]:
            place = rng.randrange(len(labels[i]))
            labels[i] = labels[i][:place] + rng.choice('01') + labels[i][place + rng.randrange(2):]
        elif kind < 0.12:
            labels[i] = labels[rng.choice(list(net))]
    return labels


# ---- events and edits

def random_events(heading, net, labels, rng):
    found, ids, emits = [], list(net), 0
    all_ports = [(i, p) for i in net for p in range(len(net[i]['ports']))]
    if rng.random() < 0.6:
        found = [f'emit {i} {p}' for i, p in rng.sample(all_ports, len(all_ports))]
        emits = len(found)
        found += [f'arrive {k}' for k in rng.sample(range(1, emits + 1), emits)]
    for _ in range(rng.randrange(10)):
        kind = rng.random()
        if kind < 0.35 and all_ports:
            found.append('emit %d %d' % rng.choice(all_ports))
            emits += 1
        elif kind < 0.65 and emits:
            found.append(f'arrive {rng.randrange(1, emits + 1)}')
        elif kind < 0.75:
            found.append(f'restart {rng.choice(ids)}')
        elif kind < 0.77:
            found.append(rng.choice(['arrive 0', 'arrive 99', 'emit 77 0', f'emit {ids[0]} 99']))
        elif heading == 'watch' and kind < 0.85:
            found.append('look')
        elif heading == 'watch':
            i = rng.choice(ids)
            bits = labels[rng.choice(ids)] if rng.random() < 0.7 else random_bits(rng)
            found.append(f'relabel {i} {label_words(bits)}')
    return found + ['look'] * (heading == 'watch')


def random_edits(net, labels, rng):
    """Edits, most of which apply; now and then rounds."""
    now, said, found = copied(net), dict(labels), []
    for _ in range(rng.randrange(12)):
        if rng.random() < 0.3:
            found.append('round')
            continue
        for _ in range(4):
            edit = edits.random_edit('tree', now, labels, rng)
            after, labelled = copied(now), dict(said)
            if apply(after, labelled, edit.split(' ')) is not None or rng.random() < 0.02:
                found.append(edit)
                now, said = after, labelled
                break
    return found + ['round'] * (found != [] and found[-1] != 'round')


# ---- runs

def random_run(rng):
    """The words and the input of a run."""
    command = rng.choice([*EXPRESSION, 'mark', 'verify', 'recheck', 'simulate', 'watch', 'judge',
                          'code', 'rules', 'trial'])
    expression = random_expression(rng) if command in EXPRESSION else None
    if command == 'splice':
        expression = rng.choice([None, expression, *RING_EXPRESSIONS])
    text = random_input(rng, command, expression)
    return random_words(rng, command, expression), \
        changed(text, rng) if text and rng.random() < 0.3 else text


RING_EXPRESSIONS = ['bipartite', 'forest', 'acyclic', 'or(bipartite,forest)']


def random_input(rng, command, expression):
    if command in ('rules', 'trial'):
        return ''
    if command == 'code':
        return rules.random_rules(rng)
    net, ids = rings.random_ring(rng) if command == 'splice' else (random_network(rng), [])
    text = '\n'.join(text_of(net)) + '\n'
    if command in ('mark', 'bound'):
        return text
    name = 'delta' if rng.random() < 0.3 and command != 'convert' else 'gamma'
    if expression is None:
        return text + by_rules(rng, net, ids, name if rng.random() < 0.1 else 'gamma')
    if expression in RING_EXPRESSIONS and command == 'splice' and name == 'gamma':
        labels = rings.random_labels(expression, net, ids, rng)
    else:
        labels = random_labels(expression, net, name, rng)
    text += labels_part(labels, name)
    if command in PARTS:
        heading = PARTS[command]
        found = random_edits(net, labels, rng) if command == 'recheck' \
            else random_events(heading, net, labels, rng)
        text += '\n'.join([heading, *found, 'end']) + '\n'
    return text


def by_rules(rng, net, ids, name):
    """A part of labels and one of rules, which are those of a scheme now and then."""
    if ids and rng.random() < 0.5:
        return labels_part(rings.random_labels('bipartite', net, ids, rng), name) + \
            rules.built_in('bipartite')
    if rng.random() < 0.5:
        word = rng.choice(list(rules.BUILT_IN))
        return labels_part(random_labels(word, net, 'gamma', rng), name) + rules.built_in(word)
    text = rules.random_rules(rng)
    return labels_part(rules.random_labels(rng, net, text, {}), name) + text


PIECES = ['', '', ' ', '\n', '0', '1', '9', '-', 'a', 'end\n', 'round\n', 'node 1 - 0 0\n', '\r', '\0',
          '4294967296', '4611686018427387905', '\xff', '  ', 'look\n']


def changed(text, rng):
    """The text with a few bytes, lines or numbers changed."""
    for _ in range(rng.choice([1, 1, 1, 2, 3])):
        kind, place = rng.random(), rng.randrange(len(text) + 1)
        lines = text.split('\n')
        row = rng.randrange(len(lines))
        if kind < 0.45:
            text = text[:place] + rng.choice(PIECES) + text[place + rng.randrange(2):]
        elif kind < 0.55:
            text = text[:place]
        elif kind < 0.65:
            del lines[row]
            text = '\n'.join(lines)
        elif kind < 0.75:
            lines.insert(rng.randrange(len(lines)), lines[row])
            text = '\n'.join(lines)
        else:
            words = lines[row].split(' ')
            if len(words) > 1:
                words[rng.randrange(1, len(words))] = rng.choice(
                    ['0', '1', '2', '3', '-', '00', '7', '4294967295', '4294967296', '00000000'])
            lines[row] = ' '.join(words)
            text = '\n'.join(lines)
        if not text:
            break
    return text


def got(program, words, text):
    done = subprocess.run([program, *words], input=text.encode('latin-1'), capture_output=True)
    return (done.stdout + done.stderr).decode('latin-1'), done.returncode


def differs(program, words, text):
    return got(program, words, text) != answer(words, text)


def smaller(text):
    """Texts that have less in them."""
    lines = text.split('\n')
    for size in (8, 4, 2, 1):
        for place in range(len(lines) - size):
            yield '\n'.join(lines[:place] + lines[place + size:])
    for place in range(len(text)):
        yield text[:place] + text[place + 1:]


def tell(program, words, text, seed, number):
    """Tells of the smallest input that is found in which the two differ."""
    smallest = False
    while not smallest:
        smallest = True
        for less in smaller(text):
            if differs(program, words, less):
                text, smallest = less, False
                break
    print(f'seed {seed}, run {number}: {words} differs on\n{text}\nwanted (text, status)\n'
          f'{answer(words, text)}\ngot\n{got(program, words, text)}')


def main():
    program = sys.argv[1]
    count = int(sys.argv[2]) if len(sys.argv) > 2 else 1000
    seed = int(sys.argv[3]) if len(sys.argv) > 3 else 1
    kinds = collections.Counter()
    for number in range(count):
        rng = random.Random(f'{seed} {number}')
        words, text = random_run(rng)
        shown, status = wanted = answer(words, text)
        if got(program, words, text) != wanted:
            tell(program, words, text, seed, number)
            return 1
        kinds[' '.join(shown.split()[:2]) if status in (3, 7) else f'status {status}'] += 1
    told = ', '.join(f'{many} {kind}' for kind, many in sorted(kinds.items()))
    print(f'seed {seed}: {count} runs ({told}): none differs')
    return 0


if __name__ == '__main__':
    sys.exit(main())
