#!/usr/bin/env python3
"""Random lists of edits and rounds on all connected networks of up to four nodes, with the built
program beside a plain one that judges all nodes in every round.

    python3 tools/edits.py ./pls [LISTS [SEED]]

For each network and each of ten expressions LISTS lists are made (5 where none is given), with
random states, weights, identities and labels, right ones among them. In one list of ten the edits
are not tried before they are written, and most of these have one that does not apply. The text and
the status are compared, and nothing may stand on standard error. It ends with status 1 where one
differs.
"""
import itertools
import random
import subprocess
import sys

sys.dont_write_bytecode = True
from plain_networks import (apply, bits_of, components, copied, label_words, link,  # noqa: E402
                            number_of, parts, text_of)
from plain_schemes import code, round_lines  # noqa: E402

EXPRESSIONS = ['tree', 'forest', 'bipartite', 'acyclic', 'leader', 'count', 'spt', 'mst',
               'and(tree,bipartite)', 'or(leader,and(acyclic,forest))']


# ---- what is random

def networks():
    for n in range(1, 5):
        pairs = list(itertools.combinations(range(n), 2))
        for chosen in range(1 << len(pairs)):
            edges = [pair for k, pair in enumerate(pairs) if chosen >> k & 1]
            net = {i: {'id': i, 'ports': [[b if a == i else a, 0] for a, b in edges if i in (a, b)]}
                   for i in range(n)}
            if len(components(net)) == 1:
                yield n, edges


def random_network(n, edges, rng):
    ids = sorted(rng.sample(range(1, 8), n))
    net = {i: {'id': i, 'up': None, 'mark': rng.randrange(2), 'num': rng.choice([n, n, 2]),
               'ports': []} for i in ids}
    for a, b in rng.sample(edges, len(edges)):
        link(net, ids[a], ids[b], rng.randrange(3))
    if rng.random() < 0.6:
        # Pointers along a tree, from a search.
        found, ahead = [rng.choice(ids)], 0
        while ahead < len(found):
            for nbr, _ in net[found[ahead]]['ports']:
                if nbr not in found:
                    found.append(nbr)
                    net[nbr]['up'] = number_of(net, nbr, found[ahead])
            ahead += 1
        for i in ids:
            net[i]['mark'] = int(i == found[0])
    else:
        for node in net.values():
            if node['ports'] and rng.random() < 0.8:
                node['up'] = rng.randrange(len(node['ports']))
    return net


def random_label(expression, net, rng):
    word, one, two = parts(expression)
    if rng.random() < 0.1:
        return ''.join(rng.choice('01') for _ in range(rng.randrange(9)))
    if word == 'and':
        first = random_label(one, net, rng)
        return code(len(first)) + first + random_label(two, net, rng)
    if word == 'or':
        tag = rng.randrange(2)
        return str(tag) + random_label((one, two)[tag], net, rng)
    if word == 'bipartite':
        return rng.choice('01')
    ids = list(net)
    fields = {'tree': 'ix', 'forest': 'x', 'acyclic': 'x', 'leader': 'ix', 'count': 'iiixnn',
              'spt': 'ixx', 'mst': 'iiix'}[word]
    pick = {'i': lambda: rng.choice(ids), 'x': lambda: rng.randrange(4),
            'n': lambda: rng.randrange(5)}
    said = [pick[field]() for field in fields]
    if word == 'mst':
        levels = rng.randrange(3)
        said.append(levels)
        for _ in range(levels):
            a, b = sorted(rng.sample(range(1, 8), 2))
            said += [rng.choice(ids), rng.randrange(3), a, b]
    return ''.join(code(number) for number in said)


def random_edit(expression, net, right, rng):
    ids = list(net)
    kind = rng.choice(['state', 'weight', 'link', 'unlink', 'join', 'leave', 'label', 'label'])
    a, b = rng.choice(ids), rng.choice(ids)
    if kind == 'state':
        degree = len(net[a]['ports'])
        up = rng.randrange(degree) if degree and rng.random() < 0.8 else '-'
        return f'state {a} {up} {rng.randrange(2)} {rng.randrange(5)}'
    if kind in ('weight', 'unlink'):
        if net[a]['ports']:
            b = rng.choice(net[a]['ports'])[0]
        return f'weight {a} {b} {rng.randrange(3)}' if kind == 'weight' else f'unlink {a} {b}'
    if kind == 'link':
        return f'link {a} {b} {rng.randrange(3)}'
    if kind == 'join':
        return f'join {rng.randrange(10)} {rng.randrange(2)} {rng.randrange(5)}'
    if kind == 'leave':
        return f'leave {a}'
    bits = right[a] if a in right and rng.random() < 0.4 else random_label(expression, net, rng)
    return f'label {a} {label_words(bits)}'


def marked_labels(program, expression, net):
    """The bits of the labels that the program gives the nodes, none where it gives none."""
    marked = subprocess.run([program, 'mark', expression], input='\n'.join(text_of(net)) + '\n',
                            capture_output=True, text=True).stdout.split('\n')
    return {int(line.split()[1]): bits_of(line.split()[1:]) for line in marked
            if line.startswith('label ')}


def differs(program, words, source, answer, status):
    """Whether the program answers otherwise, which is told."""
    done = subprocess.run([program, *words], input=source, capture_output=True, text=True)
    if (done.stdout + done.stderr, done.returncode) == (answer, status):
        return False
    print(f'{" ".join(words)} differs, status {done.returncode} for {status}\n'
          f'{source}\nwanted\n{answer}\ngot\n{done.stdout}{done.stderr}')
    return True


def one_list(program, expression, net, rng):
    """The input of a run with what is to come of it."""
    right = marked_labels(program, expression, net)
    labels = {i: right.get(i) if i in right and rng.random() < 0.9
              else random_label(expression, net, rng) for i in net}
    lines = text_of(net) + ['labels'] + [f'label {i} {label_words(labels[i])}' for i in sorted(net)]
    lines += ['end', 'edits']
    now, touched, rounds = copied(net), set(), 1
    answer, well = round_lines(expression, now, labels, 0, len(net))
    wrong = rng.random() < 0.1
    refused = None
    for _ in range(rng.randrange(1, 12)):
        if rng.random() < 0.3:
            lines.append('round')
            more, well = round_lines(expression, now, labels, rounds, len(touched & set(now)))
            answer += more
            touched, rounds = set(), rounds + 1
            continue
        while True:
            edit = random_edit(expression, now, right, rng)
            before, said = copied(now), dict(labels)
            found = apply(before, said, edit.split())
            if found is not None or wrong:
                break
        lines.append(edit)
        if found is None:
            refused = len(lines)
            break
        now, labels = before, said
        touched = (touched | found) & set(now)
    lines.append('round')
    if refused is None:
        more, well = round_lines(expression, now, labels, rounds, len(touched))
        answer, status = answer + more, 0 if well else 1
    else:
        answer, status = [f'refused 30 at {refused}'], 3
    return '\n'.join(lines + ['end']) + '\n', '\n'.join(answer) + '\n', status


def main():
    program = sys.argv[1]
    lists = int(sys.argv[2]) if len(sys.argv) > 2 else 5
    rng = random.Random(int(sys.argv[3]) if len(sys.argv) > 3 else 1)
    runs = rounds = accepting = refusals = 0
    for n, edges in networks():
        for expression in EXPRESSIONS:
            for _ in range(lists):
                net = random_network(n, edges, rng)
                source, answer, status = one_list(program, expression, net, rng)
                if differs(program, ['recheck', expression], source, answer, status):
                    return 1
                runs += 1
                rounds += answer.count('round ')
                accepting += answer.count(' accept\n')
                refusals += answer.startswith('refused')
    print(f'{runs} lists, {rounds} rounds, {accepting} nodes that accept, {refusals} refusals: '
          'none differs')
    return 0


if __name__ == '__main__':
    sys.exit(main())
