"""Plain definitions of networks, edits and properties, and of what the labels of schemes say of a
network. They share nothing with the program.

A network is a dictionary from identities to nodes, each with its `id`, `up`, `mark`, `num` and `ports`,
a list of [neighbour, weight]. An expression is its text.
"""
WORD, NUM = 2 ** 32 - 1, 2 ** 62
NODES, PORTS = 32768, 2 ** 18


# ---- networks

def link(net, a, b, weight):
    net[a]['ports'].append([b, weight])
    net[b]['ports'].append([a, weight])


def number_of(net, a, b):
    return next((p for p, port in enumerate(net[a]['ports']) if port[0] == b), None)


def copied(net):
    return {i: dict(node, ports=[list(port) for port in node['ports']]) for i, node in net.items()}


def components(net):
    """The identities of the nodes that walks join, as sets, in the order of the smallest in each."""
    found_parts = []
    for start in sorted(net):
        if any(start in part for part in found_parts):
            continue
        found, ahead = set(), [start]
        while ahead:
            node = ahead.pop()
            if node not in found:
                found.add(node)
                ahead += [nbr for nbr, _ in net[node]['ports']]
        found_parts.append(found)
    return found_parts


def part_of(net, ids):
    return {i: net[i] for i in ids}


def refusal(net, order):
    """The number of what is wrong with a network and the node, or None; its identities are given in
    the order of its nodes, and are those of the network once each."""
    def first(test):
        return next((i for i in order if test(net[i])), None)

    def back(node, nbr):
        return next((port for port in net[nbr]['ports'] if port[0] == node['id']), None)
    tests = [
        (11, lambda node: any(nbr == node['id'] for nbr, _ in node['ports'])),
        (12, lambda node: len({nbr for nbr, _ in node['ports']}) < len(node['ports'])),
        (13, lambda node: any(nbr not in net for nbr, _ in node['ports'])),
        (14, lambda node: any(back(node, nbr) is None for nbr, _ in node['ports'])),
        (15, lambda node: any(back(node, nbr)[1] != w for nbr, w in node['ports'])),
        (16, lambda node: node['up'] is not None and node['up'] >= len(node['ports']))]
    for number, test in tests:
        found = first(test)
        if found is not None:
            return number, found
    return None


def text_of(net):
    lines = ['network']
    for i in sorted(net):
        node = net[i]
        up = '-' if node['up'] is None else node['up']
        lines.append(f'node {i} {up} {node["mark"]} {node["num"]}')
        lines += [f'port {nbr} {weight}' for nbr, weight in node['ports']]
    return lines + ['end']


def bits_of(args):
    if args[2] == '-':
        return ''
    return ''.join(f'{int(digit, 16):04b}' for digit in args[2])[:int(args[1])]


def label_words(bits):
    if not bits:
        return '0 -'
    whole = bits + '0' * (-len(bits) % 8)
    return f'{len(bits)} ' + ''.join(f'{int(whole[i:i + 4], 2):x}' for i in range(0, len(whole), 4))


def apply(net, labels, words):
    """Makes the edit and gives the identities that it touches, or None where it does not apply."""
    kind, args = words[0], words[1:]
    ids = [int(word) for word in args[:2] if word != '-']
    a = ids[0]
    if kind == 'join':
        if a in net:
            return None
        net[a] = {'id': a, 'up': None, 'mark': int(args[1]), 'num': int(args[2]), 'ports': []}
        labels[a] = ''
        return {a}
    if a not in net:
        return None
    if kind == 'state':
        up = None if args[1] == '-' else int(args[1])
        if up is not None and up >= len(net[a]['ports']):
            return None
        net[a].update(up=up, mark=int(args[2]), num=int(args[3]))
        return {a}
    if kind == 'label':
        labels[a] = bits_of(args)
        return {a} | {nbr for nbr, _ in net[a]['ports']}
    if kind == 'leave':
        if net[a]['ports'] or len(net) == 1:
            return None
        del net[a], labels[a]
        return set()
    b = ids[1]
    if b not in net:
        return None
    if kind == 'link':
        if a == b or number_of(net, a, b) is not None:
            return None
        link(net, a, b, int(args[2]))
        return {a, b}
    if number_of(net, a, b) is None:
        return None
    for one, other in ((a, b), (b, a)):
        p, node = number_of(net, one, other), net[one]
        if kind == 'weight':
            node['ports'][p][1] = int(args[2])
        else:
            del node['ports'][p]
            if node['up'] is not None and node['up'] >= p:
                node['up'] = None if node['up'] == p else node['up'] - 1
    return {a, b}


def network_of(rows):
    """The network of a map, or None where it is none that is connected."""
    ids = [row[0] for row, _ in rows]
    wide = any(id_ > WORD or mark > WORD or num > NUM for (id_, _, mark, num), _ in rows) or \
        any(max(port) > WORD for _, ports in rows for port in ports)
    if wide or not 1 <= len(rows) <= NODES or sum(len(ports) for _, ports in rows) > PORTS:
        return None
    if len(set(ids)) < len(ids):
        return None
    net = {id_: {'id': id_, 'up': up - 1 if up else None, 'mark': mark, 'num': num, 'ports': ports}
           for (id_, up, mark, num), ports in rows}
    if ids != sorted(ids) or refusal(net, ids) is not None or len(components(net)) > 1:
        return None
    return net


# ---- searches

def hops(net, start):
    """The fewest edges from a node to each that walks join to it."""
    far, ahead = {start: 0}, [start]
    for node in ahead:
        for nbr, _ in net[node]['ports']:
            if nbr not in far:
                far[nbr] = far[node] + 1
                ahead.append(nbr)
    return far


def chains(net):
    """The nodes on the chain of pointers of each node, or None where a chain returns."""
    found = {}
    for i in net:
        chain = [i]
        while net[chain[-1]]['up'] is not None:
            node = net[chain[-1]]
            chain.append(node['ports'][node['up']][0])
            if len(chain) > len(net):
                return None
        found[i] = chain
    return found


def weight_of(net, a, b):
    return net[a]['ports'][number_of(net, a, b)][1]


def edges_of(net):
    return sorted({(w, *sorted((i, nbr))) for i in net for nbr, w in net[i]['ports']})


def pointed(net):
    """The pairs of the ends of the edges that are pointed at."""
    return {tuple(sorted((i, node['ports'][node['up']][0])))
            for i, node in net.items() if node['up'] is not None}


def joined(ids, pairs):
    """Of each node the smallest that the pairs join to it."""
    name = {i: i for i in ids}
    for a, b in pairs:
        low, high = sorted((name[a], name[b]))
        name = {i: low if what == high else what for i, what in name.items()}
    return name


def distances(net, start):
    far = {start: 0}
    for _ in net:
        for i in list(far):
            for nbr, w in net[i]['ports']:
                far[nbr] = min(far.get(nbr, far[i] + w), far[i] + w)
    return far


# ---- properties of connected networks

def is_tree(net):
    ends = pointed(net)
    return sum(node['up'] is None for node in net.values()) == 1 and len(ends) == len(net) - 1 and \
        len(set(joined(net, ends).values())) == 1


def is_spt(net):
    if not is_tree(net):
        return False
    for i, chain in chains(net).items():
        if sum(weight_of(net, a, b) for a, b in zip(chain, chain[1:])) != distances(net, chain[-1])[i]:
            return False
    return True


def is_mst(net):
    if not is_tree(net):
        return False
    lightest, taken = 0, []
    for w, a, b in edges_of(net):
        name = joined(net, taken)
        if name[a] != name[b]:
            lightest += w
            taken.append((a, b))
    return sum(weight_of(net, a, b) for a, b in pointed(net)) == lightest


def has_no_bridge(net):
    pairs = [(a, b) for _, a, b in edges_of(net)]
    return all(len(set(joined(net, [p for p in pairs if p != pair]).values())) == 1 for pair in pairs)


HOLDS = {
    'leader': lambda net: sum(node['mark'] == 1 for node in net.values()) == 1,
    'tree': is_tree, 'forest': lambda net: chains(net) is not None, 'spt': is_spt,
    'bipartite': lambda net: all((far := hops(net, min(net)))[a] % 2 != far[b] % 2
                                 for _, a, b in edges_of(net)),
    'acyclic': lambda net: len(edges_of(net)) == len(net) - 1,
    'count': lambda net: all(node['num'] == len(net) for node in net.values()),
    'mst': is_mst, 'pathmax': is_mst, 'bridgeless': has_no_bridge,
}


def parts(expression):
    """The word of an expression and its two parts, or the name alone; `map` has one part."""
    if '(' not in expression:
        return expression, None, None
    word, inside = expression[:-1].split('(', 1)
    deep = 0
    for place, letter in enumerate(inside):
        deep += (letter == '(') - (letter == ')')
        if letter == ',' and deep == 0:
            return word, inside[:place], inside[place + 1:]
    return word, inside, None


def holds(expression, net):
    word, one, two = parts(expression)
    if word == 'map':
        return holds(one, net)
    if two is not None:
        return (all if word == 'and' else any)(holds(part, net) for part in (one, two))
    if word.startswith('diameter:'):
        return all(max(hops(net, i).values()) <= int(word[9:]) for i in net)
    return HOLDS[word](net)


# ---- what labels say of connected networks with the property

def chain_labels(net):
    found = chains(net)
    root = next((i for i in net if net[i]['up'] is None), None)
    return root, {i: len(chain) - 1 for i, chain in found.items()}, \
        {i: chain[1] if len(chain) > 1 else i for i, chain in found.items()}


def mark_count(net):
    root = min(net)
    far = hops(net, root)
    above = {i: root if i == root else min(nbr for nbr, _ in net[i]['ports'] if far[nbr] < far[i])
             for i in net}
    size = dict.fromkeys(net, 1)
    for i in sorted(net, key=lambda i: -far[i]):
        if i != root:
            size[above[i]] += size[i]
    return {i: [root, i, above[i], far[i], size[i], len(net)] for i in net}


def mark_mst(net):
    root, depth, above = chain_labels(net)
    inside = pointed(net)
    order = [(w, 0 if (a, b) in inside else 1, a, b) for w, a, b in edges_of(net)]
    chosen, levels = set(), {i: [] for i in net}
    while True:
        name = joined(net, [edge[2:] for edge in chosen])
        if len(set(name.values())) == 1:
            break
        least = {}
        for edge in sorted(order, reverse=True):
            for one, other in (edge[2:], edge[:1:-1]):
                if name[one] != name[other]:
                    least[name[one]] = edge
        for i in net:
            top = min((k for k in net if name[k] == name[i]), key=lambda k: depth[k])
            w, _, a, b = least[name[i]]
            levels[i].append((top, w, a, b))
        chosen |= set(least.values())
    return {i: [root, i, above[i], depth[i], levels[i]] for i in net}


def mark_pathmax(net):
    root, depth, above = chain_labels(net)
    levels = {i: [] for i in net}
    pieces = [set(net)]
    while pieces:
        piece = pieces.pop()
        pairs = [pair for pair in pointed(net) if set(pair) <= piece]

        def left_by(node):
            rest = piece - {node}
            name = joined(rest, [pair for pair in pairs if node not in pair])
            return [{i for i in rest if name[i] == what} for what in set(name.values())]
        centre = min(i for i in piece
                     if all(len(part) <= len(piece) // 2 for part in left_by(i)))
        far = {centre: (0, 0)}
        ahead = [centre]
        for node in ahead:
            for pair in pairs:
                if node in pair:
                    other = pair[0] if pair[1] == node else pair[1]
                    if other not in far:
                        far[other] = (far[node][0] + 1, max(far[node][1], weight_of(net, *pair)))
                        ahead.append(other)
        for i in piece:
            levels[i].append((centre, *far[i]))
        pieces += left_by(centre)
    return {i: [root, i, above[i], depth[i], levels[i]] for i in net}


def map_of(net):
    return [([i, 0 if net[i]['up'] is None else net[i]['up'] + 1, net[i]['mark'], net[i]['num']],
             [list(port) for port in net[i]['ports']]) for i in sorted(net)]


def said_of(word, net):
    """The labels that a scheme marks a network with, as they are read."""
    if word in ('leader', 'bipartite', 'acyclic'):
        start = next(i for i in net if net[i]['mark'] == 1) if word == 'leader' else min(net)
        far = hops(net, start)
        return {i: [start, far[i]] if word == 'leader' else
                str(far[i] % 2) if word == 'bipartite' else [far[i]] for i in net}
    if word in ('count', 'mst', 'pathmax'):
        return {'count': mark_count, 'mst': mark_mst, 'pathmax': mark_pathmax}[word](net)
    if word == 'map':
        return {i: [i, map_of(net)] for i in net}
    root, depth, _ = chain_labels(net)
    if word == 'forest':
        return {i: [depth[i]] for i in net}
    if word == 'tree':
        return {i: [root, depth[i]] for i in net}
    far = distances(net, root)
    return {i: [root, depth[i], far[i]] for i in net}
