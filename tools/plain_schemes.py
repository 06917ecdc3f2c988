"""Plain definitions of number codes, labels, rules, verdicts, marks and bounds, which share nothing with
the program. The random tests beside it compare the program with them.

Labels are strings of bits. An expression is its text.
"""
from plain_networks import components, holds, network_of, parts, said_of

MOST = 2 ** 63 - 2


# ---- numbers as strings of bits

def gamma(number):
    digits = bin(number + 1)[2:]
    return '0' * (len(digits) - 1) + digits


def delta(number):
    low = bin(number + 1)[3:]
    return gamma(len(low)) + low


CODES = {'gamma': gamma, 'delta': delta}
code = gamma


def take(bits, name='gamma'):
    """The number in front of the bits and what is behind it, or None."""
    if name == 'delta':
        first = take(bits)
        if first is None or first[0] > min(62, len(first[1])):
            return None
        return int('1' + first[1][:first[0]], 2) - 1, first[1][first[0]:]
    zeros = len(bits) - len(bits.lstrip('0'))
    end = 2 * zeros + 1
    if zeros > 62 or len(bits) < end or '1' not in bits:
        return None
    return int(bits[zeros:end], 2) - 1, bits[end:]


def take_many(bits, count, name):
    """So many numbers and what is behind them, or None."""
    found = []
    if count > len(bits):
        return None
    for _ in range(count):
        first = take(bits, name)
        if first is None:
            return None
        found.append(first[0])
        bits = first[1]
    return found, bits


def numbers(bits, count, name='gamma'):
    """So many numbers, which are all of the bits, or None."""
    found = take_many(bits, count, name)
    return found[0] if found and not found[1] else None


# ---- labels

FIELDS = {'leader': 2, 'tree': 2, 'forest': 1, 'spt': 3, 'acyclic': 1, 'count': 6}
WIDTHS = {'mst': 4, 'pathmax': 3}


def read_levels(bits, width, name):
    head = take_many(bits, 5, name)
    if head is None or head[0][4] > len(bits):
        return None
    said = numbers(head[1], width * head[0][4], name)
    if said is None:
        return None
    levels = [tuple(said[i:i + width]) for i in range(0, len(said), width)]
    if width == 4 and any(a >= b for _, _, a, b in levels):
        return None
    return head[0][:4] + [levels]


def read_map(bits, name):
    """The identity of a label and its map, a list of records with their ports."""
    head = take_many(bits, 2, name)
    if head is None or head[0][1] > len(bits):
        return None
    (own, count), bits = head
    rows = []
    for _ in range(count):
        record = take_many(bits, 5, name)
        ends = record and take_many(record[1], 2 * record[0][4], name)
        if not ends:
            return None
        said, bits = ends
        rows.append((record[0][:4], [said[i:i + 2] for i in range(0, len(said), 2)]))
    return None if bits else [own, rows]


def read_label(word, bits, name='gamma'):
    """The label of a basic scheme or of `map`, or None where the bits are none."""
    if word == 'bipartite':
        return bits if len(bits) == 1 else None
    if word == 'map':
        return read_map(bits, name)
    if word in WIDTHS:
        return read_levels(bits, WIDTHS[word], name)
    return numbers(bits, FIELDS[word], name)


def write_label(said, name):
    """The bits of numbers, in lists inside one another."""
    if isinstance(said, str):
        return said
    if isinstance(said, int):
        return CODES[name](said)
    return ''.join(write_label(part, name) for part in said)


def written(word, said, name):
    """The bits of a label as it is read."""
    if word in WIDTHS:
        return write_label(said[:4] + [len(said[4]), said[4]], name)
    if word == 'map':
        rows = [row + [len(ports)] + ports for row, ports in said[1]]
        return write_label([said[0], len(rows), rows], name)
    return write_label(said, name)


# ---- the rules from the third on: of a node with its own label and those at its ports

def tree(node, own, ports):
    up = node['up']
    return [all(label[0] == own[0] for _, label in ports),
            up is not None or (own[1] == 0 and own[0] == node['id']),
            up is None or own[1] == ports[up][1][1] + 1]


def forest(node, own, ports):
    up = node['up']
    return [up is not None or own[0] == 0, up is None or own[0] == ports[up][1][0] + 1]


def bipartite(node, own, ports):
    return [all(label != own for _, label in ports)]


def acyclic(node, own, ports):
    return [all(abs(label[0] - own[0]) == 1 for _, label in ports),
            sum(label[0] + 1 == own[0] for _, label in ports) <= 1]


def leader(node, own, ports):
    return [all(label[0] == own[0] for _, label in ports),
            (own[1] == 0) == (own[0] == node['id']),
            own[1] == 0 or any(label[1] + 1 == own[1] for _, label in ports),
            (node['mark'] == 1) == (own[1] == 0)]


def count(node, own, ports):
    root, name, parent, depth, size, total = own
    return [all(label[0] == root and label[5] == total for _, label in ports),
            name == node['id'] and total == node['num'],
            (depth == 0) == (root == node['id']),
            depth != 0 or (parent == name and size == total),
            depth == 0 or any(label[1] == parent and label[3] + 1 == depth for _, label in ports),
            size == 1 + sum(label[4] for _, label in ports if label[2] == name)]


def spt(node, own, ports):
    up = node['up']
    root, depth, dist = own
    return [all(label[0] == root for _, label in ports),
            up is not None or (root == node['id'] and depth == 0 and dist == 0),
            up is None or (depth == ports[up][1][1] + 1
                           and dist == ports[up][1][2] + ports[up][0]),
            all(dist <= label[2] + weight for weight, label in ports)]


def is_placed(node, own, ports):
    up = node['up']
    root, name, parent, depth, _ = own
    if up is None:
        return name == node['id'] == root and depth == 0 and parent == name
    target = ports[up][1]
    return name == node['id'] and depth == target[3] + 1 and parent == target[1]


def mst(node, own, ports):
    up = node['up']
    root, name, parent, depth, levels = own
    above = levels if up is None else ports[up][1][4]

    def is_least(number, weight, label):
        ends = sorted((name, label[1]))
        outside = 0 if number == up or label[2] == name else 1
        for (fragment, w, a, b), (other, v, c, d) in zip(levels, label[4]):
            if fragment == other and (w, a, b) != (v, c, d):
                return False
            if fragment != other and (w, 0, a, b) > (weight, outside, *ends):
                return False
        return True

    def is_chosen():
        ends = tuple(sorted((name, ports[up][1][1])))
        return any(mine[0] != theirs[0] and (ports[up][0], *ends) in (mine[1:], theirs[1:])
                   for mine, theirs in zip(levels, above))

    return [is_placed(node, own, ports),
            all(label[0] == root and len(label[4]) == len(levels) for _, label in ports),
            all(mine[0] == name or (up is not None and mine[0] == theirs[0])
                for mine, theirs in zip(levels, above)),
            all(is_least(number, *port) for number, port in enumerate(ports)),
            up is None or is_chosen()]


def pathmax(node, own, ports):
    name, levels = own[1], own[4]
    inside = [number == node['up'] or label[2] == name for number, (_, label) in enumerate(ports)]

    def is_led(number, level):
        centroid, hops, greatest = level
        if hops == 0:
            return centroid == node['id']
        return any(tied and weight <= greatest and number < len(label[4])
                   and label[4][number][:2] == (centroid, hops - 1)
                   and label[4][number][2] <= greatest
                   for tied, (weight, label) in zip(inside, ports))

    def is_heavy(weight, label):
        return any(mine[0] == theirs[0] and max(mine[2], theirs[2]) <= weight
                   for mine, theirs in zip(levels, label[4]))

    return [is_placed(node, own, ports),
            all(label[0] == own[0] for _, label in ports),
            all(is_led(number, level) for number, level in enumerate(levels)),
            all(tied or is_heavy(*port) for tied, port in zip(inside, ports))]


def map_rules(inner, node, own, ports):
    name, rows = own
    yield name == node['id']
    yield all(label[1] == rows for _, label in ports)
    net = network_of(rows)
    yield net is not None
    mine = net.get(node['id'])
    yield mine is not None and all(mine[key] == node[key] for key in ('up', 'mark', 'num')) and \
        [list(port) for port in mine['ports']] == [[label[0], weight] for weight, label in ports]
    yield holds(inner, net)


RULES = {f.__name__: f for f in (tree, forest, bipartite, acyclic, leader, count, spt, mst, pathmax)}


# ---- verdicts and labels of expressions


def leaves(expression):
    word, one, two = parts(expression)
    return leaves(one) + leaves(two) if word in ('and', 'or') else 1



def raised(verdict, by):
    return verdict if verdict is None or verdict[0] == 0 else (verdict[0] + by, verdict[1])


def cut(bits, name):
    """The two parts of a label of `and`, or None."""
    first = take(bits, name)
    if first is None or first[0] > len(first[1]):
        return None
    return first[1][:first[0]], first[1][first[0]:]


def judge(expression, node, own, ports, name='gamma'):
    """None where the node accepts, else the leaf and the rule."""
    word, one, two = parts(expression)
    labels = [bits for _, bits in ports]
    if two is None:
        mine = read_label(word, own, name)
        theirs = [read_label(word, bits, name) for bits in labels]
        if mine is None:
            return 1, 1
        if None in theirs:
            return 1, 2
        seen = [(weight, said) for (weight, _), said in zip(ports, theirs)]
        rules = map_rules(one, node, mine, seen) if word == 'map' else RULES[word](node, mine, seen)
        return next(((1, number) for number, well in enumerate(rules, 3) if not well), None)
    if word == 'and':
        mine, theirs = cut(own, name), [cut(bits, name) for bits in labels]
        if mine is None:
            return 0, 1
        if None in theirs:
            return 0, 2
        first, second = ([(weight, said[part]) for (weight, _), said in zip(ports, theirs)]
                         for part in (0, 1))
        found = judge(one, node, mine[0], first, name)
        if found is not None:
            return found
        return raised(judge(two, node, mine[1], second, name), leaves(one))
    if not own:
        return 0, 1
    if '' in labels:
        return 0, 2
    if any(bits[0] != own[0] for bits in labels):
        return 0, 3
    rests = [(weight, bits[1:]) for weight, bits in ports]
    if own[0] == '0':
        return judge(one, node, own[1:], rests, name)
    return raised(judge(two, node, own[1:], rests, name), leaves(one))


def converted(expression, bits):
    """The label in the delta code, or None where it is none."""
    word, one, two = parts(expression)
    if two is None:
        said = read_label(word, bits)
        return None if said is None else written(word, said, 'delta')
    if word == 'and':
        halves = cut(bits, 'gamma')
        first, second = halves and converted(one, halves[0]), halves and converted(two, halves[1])
        return None if first is None or second is None else delta(len(first)) + first + second
    rest = converted((one, two)[int(bits[0])], bits[1:]) if bits else None
    return None if rest is None else bits[0] + rest


# ---- marks and bounds of connected networks

def marks(expression, net, name='gamma'):
    """The labels of a connected network with the property."""
    word, one, two = parts(expression)
    if two is None:
        return {i: written(word, said, name) for i, said in said_of(word, net).items()}
    if word == 'and':
        first, second = marks(one, net, name), marks(two, net, name)
        return {i: CODES[name](len(first[i])) + first[i] + second[i] for i in net}
    tag, chosen = ('0', one) if holds(one, net) else ('1', two)
    return {i: tag + bits for i, bits in marks(chosen, net, name).items()}


def bound(expression, net, name='gamma'):
    word, one, two = parts(expression)

    def g(number):
        return len(CODES[name](number))
    n, p = len(net), sum(len(node['ports']) for node in net.values())
    top = g(max(net))
    widest = max([w for node in net.values() for _, w in node['ports']], default=0)
    level = n.bit_length() - 1
    if word == 'and':
        first = bound(one, net, name)
        return g(first) + first + bound(two, net, name)
    if word == 'or':
        return 1 + max(bound(one, net, name), bound(two, net, name))
    if word == 'map':
        degree = max(len(node['ports']) for node in net.values())
        state = g(max(node['mark'] for node in net.values())) + \
            g(max(node['num'] for node in net.values()))
        return top + g(n) + n * (top + 2 * g(degree) + state) + p * (top + g(widest))
    return {'leader': top + g(n), 'tree': top + g(n), 'forest': g(n), 'acyclic': g(n),
            'spt': top + g(n) + g(n * widest), 'bipartite': 1, 'count': 3 * top + 3 * g(n),
            'mst': 3 * top + g(n) + g(level) + level * (g(widest) + 3 * top),
            'pathmax': 3 * top + g(n) + g(level + 1) + (level + 1) * (top + g(n) + g(widest)),
            }[word]


# ---- verdicts and rounds

def verdicts(expression, net, labels, name):
    return {i: judge(expression, net[i], labels[i], [(w, labels[nbr]) for nbr, w in net[i]['ports']],
                     name) for i in net}


def node_line(i, outcome):
    if isinstance(outcome, list):
        return ' '.join([f'node {i} waiting'] + [str(port) for port in outcome])
    return f'node {i} accept' if outcome is None else f'node {i} reject %d %d' % outcome


def round_lines(expression, net, labels, number, checked, name='gamma'):
    """The report of a round, and whether all nodes accept."""
    found = verdicts(expression, net, labels, name)
    rejecting = sum(verdict is not None for verdict in found.values())
    connected = 'yes' if len(components(net)) == 1 else 'no'
    lines = [node_line(i, found[i]) for i in sorted(net)]
    lines.append(f'round {number} checked {checked} connected {connected} rejecting {rejecting}')
    return lines, rejecting == 0
