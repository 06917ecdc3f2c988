#!/usr/bin/env python3
"""Random events and looks on all connected networks of up to four nodes, and on two of one or two
nodes side by side, with the built program beside a plain one that goes through all arrivals since a
restart at each look.

    python3 tools/watches.py ./pls [LISTS [SEED]]

For each network and each of ten expressions LISTS lists are made (5 where none is given). In one list
of ten events may name nothing, and in most of these one does. The text and the status are compared,
and nothing may stand on standard error. It ends with status 1 where one differs.
"""
import random
import sys

from edits import (EXPRESSIONS, differs, marked_labels, networks, random_label,
                   random_network)
from plain_networks import bits_of, label_words, text_of
from plain_schemes import judge


class Watch:
    """The labels of each node from the first on, and the events so far."""

    def __init__(self, net, labels):
        self.net = net
        self.versions = {i: [labels[i]] for i in net}
        self.emits = []         # of each the node, the node at the other end, and the version
        self.arrivals = []      # of each its emit, or the node that restarted

    def take(self, words):
        """Whether the event names what is there; then it happens."""
        word, args = words[0], [int(arg) for arg in words[1:3]]
        if word == 'arrive':
            if not 1 <= args[0] <= len(self.emits):
                return False
            self.arrivals.append(self.emits[args[0] - 1])
            return True
        if args[0] not in self.net:
            return False
        if word == 'emit':
            ports = self.net[args[0]]['ports']
            if args[1] >= len(ports):
                return False
            self.emits.append((args[0], ports[args[1]][0], len(self.versions[args[0]]) - 1))
        elif word == 'restart':
            self.arrivals.append(args[0])
        else:
            self.versions[args[0]].append(bits_of(words[1:]))
        return True

    def held(self, node, nbr):
        """The greatest version that came since the node's last restart, or None."""
        since = 0
        for place, what in enumerate(self.arrivals):
            if what == node:
                since = place + 1
        came = [what[2] for what in self.arrivals[since:]
                if not isinstance(what, int) and what[:2] == (nbr, node)]
        return max(came) if came else None

    def look(self, expression, number, name='gamma'):
        lines, counts, well = [], [0, 0, 0], True
        for i in sorted(self.net):
            ports = self.net[i]['ports']
            held = [self.held(i, nbr) for nbr, _ in ports]
            unheard = [str(port) for port, version in enumerate(held) if version is None]
            if unheard:
                lines.append(f'node {i} waiting ' + ' '.join(unheard))
                counts[1] += 1
                well = False
                continue
            seen = [(weight, self.versions[nbr][version])
                    for (nbr, weight), version in zip(ports, held)]
            verdict = judge(expression, self.net[i], self.versions[i][-1], seen, name)
            stale = [str(port) for port, ((nbr, _), version) in enumerate(zip(ports, held))
                     if version != len(self.versions[nbr]) - 1]
            said = 'accept' if verdict is None else 'reject %d %d' % verdict
            lines.append(' '.join([f'node {i} {said}'] + (['stale'] + stale if stale else [])))
            counts[0] += verdict is not None
            counts[2] += bool(stale)
            well = well and verdict is None and not stale
        lines.append(f'look {number} rejecting %d waiting %d stale %d' % tuple(counts))
        return lines, well


def random_event(expression, watch, right, wrong, rng):
    ids = list(watch.net)
    node = rng.choice(ids + [8, 9]) if wrong else rng.choice(ids)
    kind = rng.random()
    if kind < 0.4:
        ports = len(watch.net[node]['ports']) if node in watch.net else 1
        return ['emit', str(node), str(rng.randrange(ports + wrong))] if ports + wrong else None
    if kind < 0.75:
        last = len(watch.emits) + wrong
        return ['arrive', str(rng.randrange(1 - wrong, last + 1))] if last else None
    if kind < 0.8:
        return ['restart', str(node)]
    bits = right[node] if node in right and rng.random() < 0.7 \
        else random_label(expression, watch.net, rng)
    return ['relabel', str(node), *label_words(bits).split()]


def one_list(program, expression, net, rng):
    """The input of a run with what is to come of it."""
    right = marked_labels(program, expression, net)
    labels = {i: right[i] if i in right and rng.random() < 0.8
              else random_label(expression, net, rng) for i in net}
    lines = text_of(net) + ['labels'] + [f'label {i} {label_words(labels[i])}' for i in sorted(net)]
    lines += ['end', 'watch']
    watch, answer, looks, well = Watch(net, labels), [], 0, True
    wrong, refused = int(rng.random() < 0.1), None
    events = []
    if rng.random() < 0.5:
        events = [['emit', str(i), str(p)] for i in net for p in range(len(net[i]['ports']))]
        events += [['arrive', str(k + 1)] for k in range(len(events))]
    for _ in range(rng.randrange(1, 25)):
        if events:
            event = events.pop(0)
        elif rng.random() < 0.15:
            event = ['look']
        else:
            event = random_event(expression, watch, right, wrong, rng)
        if event is None:
            continue
        lines.append(' '.join(event))
        if event == ['look']:
            looks += 1
            more, well = watch.look(expression, looks)
            answer += more
        elif not watch.take(event):
            refused = len(lines)
            break
    lines.append('look')
    if refused is not None:
        return '\n'.join(lines + ['end']) + '\n', f'refused 41 at {refused}\n', 3
    more, well = watch.look(expression, looks + 1)
    return ('\n'.join(lines + ['end']) + '\n', '\n'.join(answer + more) + '\n',
            0 if well else 1)


def beside(net, other):
    """Both networks as one, with the identities of the second behind those of the first."""
    last = max(net)
    moved = {i + last: dict(node, id=i + last, ports=[[nbr + last, w] for nbr, w in node['ports']])
             for i, node in other.items()}
    return {**net, **moved}


def main():
    program = sys.argv[1]
    lists = int(sys.argv[2]) if len(sys.argv) > 2 else 5
    rng = random.Random(int(sys.argv[3]) if len(sys.argv) > 3 else 1)
    runs = looks = accepting = stale = refusals = 0
    for n, edges in networks():
        for expression in EXPRESSIONS:
            for turn in range(lists):
                net = random_network(n, edges, rng)
                if turn % 4 == 3 and n < 3:
                    net = beside(net, random_network(n, edges, rng))
                source, answer, status = one_list(program, expression, net, rng)
                if differs(program, ['watch', expression], source, answer, status):
                    return 1
                runs += 1
                looks += answer.count('look ')
                accepting += answer.count(' accept')
                stale += answer.count(' stale ') - answer.count('look ')
                refusals += answer.startswith('refused')
    print(f'{runs} lists, {looks} looks, {accepting} nodes that accept, {stale} with stale ports, '
          f'{refusals} refusals: none differs')
    return 0


if __name__ == '__main__':
    sys.exit(main())
