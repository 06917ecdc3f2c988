#!/usr/bin/env python3
"""Random rings with labels, the built program beside a plain one that tries all pairs of edges.

    python3 tools/rings.py ./pls [RINGS [SEED]]

RINGS rings of 3 to 14 nodes are made (1,000 where none is given), some with two weights, some with
a marked node, and some networks that are none. Their labels are random, or such that nodes accept.
`splice E` and `splice` by a rule set are compared, text and status, and nothing may stand on standard
error. It ends with status 1 where one differs.
"""
import random
import sys

from edits import differs
from plain_networks import components, label_words, link, text_of
from plain_schemes import judge

# A rule set of a label of one bit that all labels pass.
ALL_ACCEPT = ['rules', 'field colour bit', 'end']


def order_of(net):
    """The nodes of a ring from the smallest on through its port 0, or the node that shows that it
    is none."""
    for i in sorted(net):
        if len(net[i]['ports']) != 2:
            return None, i
    parts = components(net)
    if len(parts) > 1:
        return None, min(parts[1])
    order = [min(net)]
    before, here = order[0], net[order[0]]['ports'][0][0]
    while here != order[0]:
        order.append(here)
        before, here = here, next(nbr for nbr, _ in net[here]['ports'] if nbr != before)
    return order, None


def first_pair(net, labels, order):
    n = len(order)

    def edge(i):
        tail, head = order[i], order[(i + 1) % n]
        return dict(net[tail]['ports'])[head], labels[tail], labels[head]
    for i in range(n):
        for j in range(i + 3, n):
            if n - (j - i) >= 3 and edge(i) == edge(j):
                return i, j
    return None


def crossed(net, order, i, j):
    n = len(order)
    tail, head = order[i], order[(i + 1) % n]
    other_tail, other_head = order[j], order[(j + 1) % n]
    names = {(tail, head): other_head, (other_tail, other_head): head,
             (head, tail): other_tail, (other_head, other_tail): tail}
    return {k: dict(node, ports=[[names.get((k, nbr), nbr), w] for nbr, w in node['ports']])
            for k, node in net.items()}


def answer_of(net, labels, verdicts, shown=None):
    """The text and the status; the part of the labels is shown as in these lines, if there are any."""
    order, wrong = order_of(net)
    if order is None:
        return f'refused 70 at {wrong}\n', 3
    for i in sorted(net):
        if verdicts[i] is not None:
            return f'refused 71 at {i}\n', 3
    pair = first_pair(net, labels, order)
    if pair is None:
        return 'none\n', 1
    lines = text_of(crossed(net, order, *pair)) + (shown or label_lines(labels))
    return '\n'.join(lines) + '\n', 0


def label_lines(labels):
    return ['labels'] + [f'label {i} {label_words(labels[i])}' for i in sorted(labels)] + ['end']


def random_ring(rng):
    n = rng.randrange(3, 15)
    ids = rng.sample(range(1, 40), n)
    net = {i: {'id': i, 'up': None, 'mark': 0, 'num': n, 'ports': []} for i in ids}
    weights = rng.choice([[1], [1], [1, 2]])
    edges = [(ids[k], ids[(k + 1) % n]) for k in range(n)]
    for a, b in rng.sample(edges, n):
        link(net, a, b, rng.choice(weights))
    if rng.random() < 0.5:
        net[rng.choice(ids)]['mark'] = 1
    if rng.random() < 0.1:
        spoil(net, ids, rng)
    return net, ids


def spoil(net, ids, rng):
    """No ring: an edge more, one less, or a second ring."""
    a, b = rng.sample(ids, 2)
    kind = rng.randrange(3)
    if kind == 0 and b not in dict(net[a]['ports']):
        link(net, a, b, 1)
    elif kind == 1:
        b = net[a]['ports'][0][0]
        net[a]['ports'] = [port for port in net[a]['ports'] if port[0] != b]
        net[b]['ports'] = [port for port in net[b]['ports'] if port[0] != a]
    else:
        more = [50, 51, 52]
        for i in more:
            net[i] = {'id': i, 'up': None, 'mark': 0, 'num': 3, 'ports': []}
        for k in range(3):
            link(net, more[k], more[(k + 1) % 3], 1)


def random_labels(expression, net, ids, rng):
    if expression == 'bipartite':
        odd = rng.random() < 0.2
        return {i: str((ids.index(i) if i in ids else i) % 2) if not odd else rng.choice('01')
                for i in net}
    if expression == 'or(bipartite,forest)':
        return {i: '11' for i in net} if rng.random() < 0.5 else \
            {i: '0' + str((ids.index(i) if i in ids else i) % 2) for i in net}
    return {i: rng.choice(['1', '1', '1', '010', '011']) for i in net}


def one_ring(program, rng):
    """The words, the input, and what is to come of it."""
    net, ids = random_ring(rng)
    expression = rng.choice(['bipartite', 'forest', 'acyclic', 'or(bipartite,forest)', 'rules'])
    if expression == 'rules':
        labels = {i: rng.choice('01') for i in net}
        verdicts = dict.fromkeys(net)
        source = text_of(net) + label_lines(labels) + ALL_ACCEPT
        return ['splice'], source, answer_of(net, labels, verdicts)
    labels = random_labels(expression, net, ids, rng)
    verdicts = {i: judge(expression, net[i], labels[i],
                         [(w, labels[nbr]) for nbr, w in net[i]['ports']]) for i in net}
    return ['splice', expression], text_of(net) + label_lines(labels), \
        answer_of(net, labels, verdicts)


def main():
    program = sys.argv[1]
    rings = int(sys.argv[2]) if len(sys.argv) > 2 else 1000
    rng = random.Random(int(sys.argv[3]) if len(sys.argv) > 3 else 1)
    counts = {}
    for _ in range(rings):
        words, source, (answer, status) = one_ring(program, rng)
        source = '\n'.join(source) + '\n'
        kind = answer.split()[1] if answer.startswith('refused') else answer.split()[0]
        counts[kind] = counts.get(kind, 0) + 1
        if differs(program, words, source, answer, status):
            return 1
    told = ', '.join(f'{counts[kind]} {kind}' for kind in sorted(counts))
    print(f'{rings} rings ({told}): none differs')
    return 0


if __name__ == '__main__':
    sys.exit(main())
