"""A plain program: what `pls` writes on words and an input, and its status, by the definitions in
`plain_networks.py`, `plain_schemes.py` and `rule_language.py`. It reads whole texts line by line and
keeps nothing small, so it takes small inputs alone; it knows no limit but those on rounds and looks.
"""
import json
import re

from plain_networks import (NUM, WORD, apply, bits_of, components, copied, holds, label_words, link,
                            part_of, refusal)
from plain_schemes import RULES, bound, converted, marks, node_line, round_lines, verdicts
from rings import answer_of
from rule_language import (BUILT_IN, Refused, built_in, fields_of, listing, read_rules, trees_of,
                           verdict)
from watches import Watch

ROUNDS = 128


# ---- words

def names_of(text, kind, deep):
    """How far an expression (E) or property (P) reaches in front of a text, or -1, and its names."""
    word = re.match('(and|or|map)[(]|[a-z]*(:(0|[1-9][0-9]{0,4}))?', text)[0]
    if not word.endswith('('):
        of_map = kind == 'P' and (word == 'bridgeless' or (
            word.startswith('diameter:') and int(word[9:]) < 32768))
        return (len(word), 1) if deep > 0 and (word in RULES or of_map) else (-1, 0)
    if word == 'map(' and kind == 'P':
        return -1, 0
    place, names = len(word), 0
    for end in ')' if word == 'map(' else ',)':
        size, more = names_of(text[place:], 'P' if word == 'map(' else kind, deep - 1)
        place, names = place + size + 1, names + more
        if size < 0 or text[place - 1:place] != end or names > 8:
            return -1, 0
    return place, names


EXPRESSION = ('mark', 'verify', 'simulate', 'recheck', 'bound', 'convert', 'watch', 'splice')


def form_of(words):
    """The command, its argument, the code and whether the report is in JSON, or None."""
    words = list(words)
    in_json = '--json' in words
    if in_json:
        words.remove('--json')
    name = None
    if '--code' in words:
        place = words.index('--code')
        name = words[place + 1] if place + 1 < len(words) else ''
        del words[place:place + 2]
        if name not in ('gamma', 'delta'):
            return None
    if not 1 <= len(words) <= 2 or any(word.startswith('-') for word in words):
        return None
    command, arg = words[0], words[1] if len(words) == 2 else None
    if in_json and command not in ('verify', 'simulate', 'judge'):
        return None
    if name and command not in ('mark', 'bound'):
        return None
    if arg is None:
        return (command, None, 'gamma', in_json) if command in ('judge', 'code', 'splice') else None
    known = command == 'rules' and arg in BUILT_IN or command == 'trial' and is_trial(arg) \
        or command in EXPRESSION and names_of(arg, 'E', 8)[0] == len(arg)
    return (command, arg, name or 'gamma', in_json) if known else None


def is_trial(arg):
    found = re.fullmatch('([1-9][0-9]{0,4}):([1-9][0-9]{0,9})', arg)
    return found and int(found[1]) <= 32768 and int(found[2]) <= 2147483646


# ---- reading parts

class Lines:
    def __init__(self, text):
        self.lines = text.split('\n')
        self.rest = self.lines.pop()
        self.place = 0

    def next(self, *forms):
        """The words of the next line, which is of one of the forms."""
        if self.place < len(self.lines):
            line = self.lines[self.place]
            if any(is_of_form(line, form) for form in forms):
                self.place += 1
                return line.split(' ')
        raise Refused(f'form at {self.place + 1}')

    def whole(self):
        """What is left as one text."""
        return '\n'.join(self.lines[self.place:] + [self.rest])


RANGES = {'ID': WORD, 'UP': WORD, 'NUM': NUM, 'LEN': 2 ** 28}


def is_of_form(line, form):
    words, wanted = line.split(' '), form.split(' ')
    if len(words) != len(wanted):
        return False
    for word, want in zip(words, wanted):
        if want in RANGES:
            number = re.fullmatch('0|[1-9][0-9]*', word)
            if not (number and int(word) <= RANGES[want]) and not (want == 'UP' and word == '-'):
                return False
        elif want == 'HEX':
            if not is_hex(int(words[-2]), word):
                return False
        elif word != want:
            return False
    return True


def is_hex(size, word):
    if size == 0 or word == '-':
        return size == 0 and word == '-'
    return len(word) == (size + 7) // 8 * 2 and re.fullmatch('[0-9a-f]*', word) is not None and \
        set(''.join(f'{int(digit, 16):04b}' for digit in word[-2:])[8 - -size % 8:]) <= {'0'}


FORMS = {
    'schedule': ('emit ID ID', 'arrive ID', 'restart ID'),
    'edits': ('state ID UP ID NUM', 'weight ID ID ID', 'link ID ID ID', 'unlink ID ID',
              'join ID ID NUM', 'leave ID', 'label ID LEN HEX', 'round'),
    'watch': ('emit ID ID', 'arrive ID', 'restart ID', 'relabel ID LEN HEX', 'look'),
}


def scan_network(lines):
    """The words of the nodes and ports."""
    lines.next('network')
    found = [lines.next('node ID UP ID NUM')]
    while found[-1] != ['end']:
        found.append(lines.next('node ID UP ID NUM', 'port ID ID', 'end'))
    return found[:-1]


def scan_labels(lines, takes_delta):
    """The code, and of each label its words and its line."""
    heading = lines.next('labels', *['labels delta'] * takes_delta)
    found = []
    while True:
        words = lines.next('label ID LEN HEX', 'end')
        found.append((lines.place, words))
        if words == ['end']:
            return heading[1] if heading[1:] else 'gamma', found


def scan_events(lines, heading):
    """Of each event its words and its line."""
    lines.next(heading)
    last = {'schedule': None, 'edits': 'round', 'watch': 'look'}[heading]
    found = []
    while True:
        may_end = last is None or (found[-1][1] == [last] if found else heading == 'edits')
        words = lines.next(*FORMS[heading], *['end'] * may_end)
        if words == ['end']:
            return found
        found.append((lines.place, words))


def sense_of_labels(net, said):
    labels = {}
    ids = sorted(net) + [None]
    for line, words in said:
        due = ids[len(labels)]
        if words == ['end']:
            if due is not None:
                raise Refused(f'20 at {line}')
        elif due is None or int(words[1]) != due:
            raise Refused(f'20 at {line}')
        else:
            labels[due] = bits_of(words[1:])
    return labels


# ---- reports

def node_json(i, outcome):
    if isinstance(outcome, list):
        return {'id': i, 'ports': outcome, 'verdict': 'waiting'}
    if outcome is None:
        return {'id': i, 'verdict': 'accept'}
    return {'id': i, 'leaf': outcome[0], 'rule': outcome[1], 'verdict': 'reject'}


def report(net, outcomes, simulated, in_json):
    """The report of outcomes: None, a leaf and a rule, or a list of ports not heard."""
    def tally(ids):
        return {'rejecting': sum(isinstance(outcomes[i], tuple) for i in ids),
                'waiting': sum(isinstance(outcomes[i], list) for i in ids)}
    rows = [{'id': min(part), 'nodes': len(part), **tally(part)} for part in components(net)]
    whole, status = tally(net), int(any(outcome is not None for outcome in outcomes.values()))
    if in_json:
        shown = {'nodes': [node_json(i, outcomes[i]) for i in sorted(net)], **whole}
        if len(rows) > 1:
            shown = {'components': rows, **shown}
        return json.dumps(shown, separators=(',', ':')) + '\n', status
    count = 'rejecting %(rejecting)d' + ' waiting %(waiting)d' * simulated
    lines = [node_line(i, outcomes[i]) for i in sorted(net)]
    if len(rows) > 1:
        lines += [('component %(id)d nodes %(nodes)d ' + count) % row for row in rows]
    return '\n'.join(lines + [count % whole]) + '\n', status


def labels_part(labels, name='gamma'):
    lines = ['labels' + ' delta' * (name == 'delta')]
    lines += [f'label {i} {label_words(labels[i])}' for i in sorted(labels)]
    return '\n'.join(lines + ['end']) + '\n'


# ---- commands

def mark(expression, net, name):
    labels, lacking = {}, []
    for ids in components(net):
        part = part_of(net, ids)
        if holds(expression, part):
            labels.update(marks(expression, part, name))
        else:
            lacking.append(min(ids))
    if lacking:
        named = lacking if len(components(net)) > 1 else []
        return ' '.join(['no'] + [str(i) for i in named]) + '\n', 1
    return labels_part(labels, name), 0


def simulate(expression, net, labels, events, name, in_json):
    emits, heard = [], {i: set() for i in net}
    for line, words in events:
        word, args = words[0], [int(arg) for arg in words[1:]]
        if word == 'arrive':
            if not 1 <= args[0] <= len(emits):
                raise Refused(f'40 at {line}')
            source, target = emits[args[0] - 1]
            heard[target].add(source)
        elif args[0] not in net or word == 'emit' and args[1] >= len(net[args[0]]['ports']):
            raise Refused(f'40 at {line}')
        elif word == 'emit':
            emits.append((args[0], net[args[0]]['ports'][args[1]][0]))
        else:
            heard[args[0]] = set()
    found = verdicts(expression, net, labels, name)
    unheard = {i: [p for p, (nbr, _) in enumerate(net[i]['ports']) if nbr not in heard[i]] for i in net}
    return report(net, {i: unheard[i] or found[i] for i in net}, True, in_json)


def recheck(expression, net, labels, edits, name):
    lines, well = round_lines(expression, net, labels, 0, len(net), name)
    touched, number = set(), 0
    net, labels = copied(net), dict(labels)
    for line, words in edits:
        if words == ['round']:
            number += 1
            more, well = round_lines(expression, net, labels, number, len(touched), name)
            lines += more
            touched = set()
            continue
        found = apply(net, labels, words)
        if found is None:
            raise Refused(f'30 at {line}')
        touched = (touched | found) & set(net)
    return '\n'.join(lines) + '\n', 0 if well else 1


def watch(expression, net, labels, events, name):
    seen, lines, looks, well = Watch(net, labels), [], 0, True
    for line, words in events:
        if words == ['look']:
            looks += 1
            more, well = seen.look(expression, looks, name)
            lines += more
        elif not seen.take(words):
            raise Refused(f'41 at {line}')
    return '\n'.join(lines) + '\n', 0 if well else 1


def convert(expression, net, labels):
    found = {i: converted(expression, labels[i]) for i in sorted(net)}
    for i, bits in found.items():
        if bits is None:
            raise Refused(f'60 at {i}')
    return labels_part(found, 'delta'), 0


def trial(arg):
    nodes, x = map(int, arg.split(':'))
    net = {i: {'id': i, 'up': None if i == 1 else 0, 'mark': 0, 'num': 0, 'ports': []}
           for i in range(1, nodes + 1)}

    def draw():
        nonlocal x
        x = x * 48271 % 2147483647
        return x
    for i in range(2, nodes + 1):
        d = draw()
        link(net, i, d % (i - 1) + 1, draw() % 1000)
    for _ in range(nodes):
        a, b, w = draw() % nodes + 1, draw() % nodes + 1, draw()
        if a != b and all(nbr != b for nbr, _ in net[a]['ports']):
            link(net, a, b, 999 + w % 1000)
    labels = marks('mst', net)
    rejecting = sum(verdict is not None for verdict in verdicts('mst', net, labels, 'gamma').values())
    edges = sum(len(node['ports']) for node in net.values()) // 2
    return (f'trial nodes {nodes} edges {edges} bound {bound("mst", net)} '
            f'longest {max(map(len, labels.values()))} rejecting {rejecting}\n'), 0


def by_rules(command, network, said, lines, in_json):
    """`judge`, and `splice` by a set of rules."""
    text = lines.whole()
    fields, rules = read_rules(text, lines.place)
    net = network_of_words(network)
    labels = sense_of_labels(net, said)
    trees = trees_of(fields, rules)
    instructions = listing(text)[0].split('\n')
    values = {i: fields_of(fields.values(), labels[i]) for i in net}
    found = {i: verdict(net[i], values[i], [(w, values[nbr]) for nbr, w in net[i]['ports']], trees,
                        instructions) for i in net}
    outcomes = {i: rule and (1, rule) for i, rule in found.items()}
    if command == 'judge':
        return report(net, outcomes, False, in_json)
    return answer_of(net, labels, outcomes)


def network_of_words(found):
    rows = []
    for words in found:
        if words[0] == 'node':
            up = None if words[2] == '-' else int(words[2])
            rows.append({'id': int(words[1]), 'up': up, 'mark': int(words[3]), 'num': int(words[4]),
                         'ports': []})
        else:
            rows[-1]['ports'].append([int(words[1]), int(words[2])])
    ids = [row['id'] for row in rows]
    for a, b in zip(ids, ids[1:]):
        if a >= b:
            raise Refused(f'10 at {b}')
    net = {row['id']: row for row in rows}
    found = refusal(net, ids)
    if found is not None:
        raise Refused('%d at %d' % found)
    return net


PARTS = {'simulate': 'schedule', 'recheck': 'edits', 'watch': 'watch'}


def answer(words, text):
    """The text and the status of a run."""
    form = form_of(words)
    if form is None:
        return 'usage\n', 2
    try:
        return answer_of_form(*form, text)
    except Refused as refused:
        shown = str(refused)
        return (f'{shown}\n', 7) if shown.startswith('limit') else (f'refused {shown}\n', 3)


def answer_of_form(command, arg, name, in_json, text):
    if command == 'rules':
        return built_in(arg), 0
    if command == 'trial':
        return trial(arg)
    if command == 'code':
        return listing(text)
    lines = Lines(text)
    found = scan_network(lines)
    events = []
    if command not in ('mark', 'bound'):
        name, said = scan_labels(lines, command not in ('judge', 'convert') and arg is not None)
    if command in PARTS:
        events = scan_events(lines, PARTS[command])
    if command == 'judge' or arg is None:
        return by_rules(command, found, said, lines, in_json)
    if lines.whole():
        raise Refused(f'form at {lines.place + 1}')
    if sum(words in (['round'], ['look']) for _, words in events) > ROUNDS:
        raise Refused('limit rounds')
    net = network_of_words(found)
    if command == 'mark':
        return mark(arg, net, name)
    if command == 'bound':
        return f'bound {max(bound(arg, part_of(net, ids), name) for ids in components(net))}\n', 0
    labels = sense_of_labels(net, said)
    if command == 'verify':
        return report(net, verdicts(arg, net, labels, name), False, in_json)
    if command == 'simulate':
        return simulate(arg, net, labels, events, name, in_json)
    if command == 'recheck':
        return recheck(arg, net, labels, events, name)
    if command == 'watch':
        return watch(arg, net, labels, events, name)
    if command == 'convert':
        return convert(arg, net, labels)
    return answer_of(net, labels, verdicts(arg, net, labels, name),
                     labels_part(labels, name).split('\n')[:-1])
