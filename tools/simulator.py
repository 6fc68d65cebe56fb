"""A plain simulator of the redundant computer, node by node: channels with message trees, tags, replicas and byte
frames over a scripted bus. It shares nothing with the definitions in crates/, so that the two can be compared.

Python 3 alone; worked_runs.py beside it writes the computed rows from it. Nothing of the gate needs either."""
import itertools

SLOTS = ['request', 'round1', 'round2', 'round3', 'tasks', 'vote', 'sweep', 'final', 'switch']
COUNT_CAP = 16777216
SWITCHBOARD = 7
ACTUATOR = 8


# ---- frames

def wrapped(number):
    """the number modulo 2 ** 64, as an i64"""
    number %= 1 << 64
    return number - (1 << 64) if number >= 1 << 63 else number


def i64(word):
    return (word % (1 << 64)).to_bytes(8, 'big')


def u32(number):
    return number.to_bytes(4, 'big')


def mask(channels):
    return sum(1 << q for q in channels)


def unmasked(byte):
    return tuple(q for q in range(7) if byte >> q & 1)


def words_bytes(words):
    return bytes([len(words)]) + b''.join(map(i64, words))


def value_bytes(word):
    """an item's value: a source word is (words, accused, codes)"""
    if word is None:
        return b'\0'
    words, accused, codes = word
    packed = sum(code << 2 * q for q, code in enumerate(codes))
    return b'\1' + words_bytes(words) + bytes([mask(accused)]) + packed.to_bytes(2, 'big')


def copies_bytes(copies):
    return bytes([len(copies)]) + b''.join(bytes([block]) + b''.join(map(i64, words)) for block, words in copies)


def control_bytes(version, control):
    law, active, fresh, counts = control
    named = bytes([law]) if version == 2 else b''
    return named + bytes([mask(active), mask(fresh)]) + b''.join(map(u32, counts))


def encoded(version, sender, cycle, body):
    kind, rest = body[0], body[1:]
    if kind == 'request':
        number, content = 1, b'\0' if rest[0] is None else b'\1' + u32(rest[0])
    elif kind == 'exchange':
        items = b''.join(bytes(path) + value_bytes(word) for path, word in rest[1])
        number, content = 2, bytes([rest[0], len(rest[1])]) + items
    elif kind == 'vote':
        number, content = 3, words_bytes(rest[0])
    elif kind == 'sweep':
        number, content = 4, bytes([rest[0]]) + u32(rest[1]) + copies_bytes(rest[2])
    elif kind == 'final':
        number, content = 5, bytes([rest[0]]) + u32(rest[1]) + copies_bytes(rest[2]) + control_bytes(version, rest[3])
    else:
        number, content = 6, bytes([mask(rest[0])])
    return bytes([0x47, version, number, sender]) + u32(cycle) + content


class Bad(Exception):
    """the bytes are no frame"""


class Reader:
    def __init__(self, data):
        self.data, self.place = data, 0

    def taken(self, count):
        want(self.place + count <= len(self.data))
        self.place += count
        return self.data[self.place - count:self.place]

    def number(self, count, low=0, high=1 << 64):
        number = int.from_bytes(self.taken(count), 'big')
        want(low <= number <= high)
        return number

    def i64(self):
        return int.from_bytes(self.taken(8), 'big', signed=True)

    def words(self, low, high):
        return tuple(self.i64() for _ in range(self.number(1, low, high)))

    def channels(self):
        return unmasked(self.number(1, 0, 127))

    def value(self):
        if not self.number(1, 0, 1):
            return None
        words, accused, packed = self.words(1, 4), self.channels(), self.number(2, 0, (1 << 14) - 1)
        codes = tuple(packed >> 2 * q & 3 for q in range(7))
        want(max(codes) <= 2)
        return words, accused, codes

    def copies(self, low):
        return [(self.number(1), tuple(self.i64() for _ in range(8))) for _ in range(self.number(1, low, 64))]

    def items(self, sender, labels):
        items = []
        for _ in range(self.number(1, 0, 30)):
            path = tuple(self.taken(labels))
            want(all(label <= 6 and label != sender for label in path) and len(set(path)) == labels)
            want(not items or items[-1][0] < path)
            items.append((path, self.value()))
        return items

    def control(self, version):
        law = self.number(1, 1, 2) if version == 2 else 1
        return law, self.channels(), self.channels(), tuple(self.number(4, 0, COUNT_CAP) for _ in range(7))

    def body(self, version, kind, sender):
        if kind == 1:
            return 'request', self.number(4) if self.number(1, 0, 1) else None
        if kind == 2:
            number = self.number(1, 1, 3)
            return 'exchange', number, self.items(sender, number - 1)
        if kind == 3:
            return 'vote', self.words(1, 8)
        if kind == 4:
            target, start, copies = self.number(1, 0, 6), self.number(4), self.copies(1)
            want(len({block for block, _ in copies}) == len(copies))
            return 'sweep', target, start, copies
        if kind == 5:
            target, start, copies = self.number(1, 0, 6), self.number(4), self.copies(0)
            want(all(a[0] < b[0] for a, b in zip(copies, copies[1:])))
            return 'final', target, start, copies, self.control(version)
        want(kind == 6)
        return 'switch', self.channels()


def want(holds):
    if not holds:
        raise Bad


def decoded(data):
    """(version, sender, cycle, body), or None where the bytes are no frame"""
    try:
        reader = Reader(data)
        reader.number(1, 0x47, 0x47)
        version, kind = reader.number(1, 1, 2), reader.number(1)
        sender, cycle = reader.number(1, 0, 6), reader.number(4)
        body = reader.body(version, kind, sender)
        want(reader.place == len(data))
        return version, sender, cycle, body
    except Bad:
        return None


# ---- votes and expressions

def majority(values, voters=None):
    """the value that strictly more than half hold"""
    voters = len(values) if voters is None else voters
    return next((v for v in values if 2 * sum(1 for w in values if w == v) > voters), None)


def value_of(expression, context, inputs, cycle):
    """an expression is a number, ('in', k), ('b', block, word), ('cycle',) or ('+', left, right)"""
    if isinstance(expression, int):
        return expression
    kind = expression[0]
    if kind == 'in':
        return inputs[expression[1]]
    if kind == 'b':
        return context[expression[1]][expression[2]]
    if kind == 'cycle':
        return cycle
    return wrapped(sum(value_of(part, context, inputs, cycle) for part in expression[1:]))


# ---- a channel

class Transfer:
    def __init__(self, targets, start, blocks):
        self.targets, self.start, self.tags, self.cursor = targets, start, [True] * blocks, 0

    def plan(self, sweep):
        blocks = len(self.tags)
        cyclic = [(self.cursor + k) % blocks for k in range(blocks)]
        return [block for block in cyclic if self.tags[block]][:sweep]

    def close(self, plan, written):
        for block in plan:
            self.tags[block] = False
        for block in written:
            self.tags[block] = True
        if plan:
            self.cursor = (plan[-1] + 1) % len(self.tags)
        return [block for block, remains in enumerate(self.tags) if remains]


class Node:
    def __init__(self, channel, mission):
        self.channel, self.mode, self.wait, self.damaged = channel, 'up', 0, False
        self.context = [list(block) for block in mission['initial']]
        self.active, self.fresh, self.counts = tuple(range(mission['channels'])), (), [0] * 7
        self.transfer, self.accused, self.codes = None, (), (0,) * 7
        self.have = self.replica = None

    def fall(self):
        self.mode, self.damaged, self.context, self.replica = 'down', False, None, None

    def join(self, blocks):
        self.mode, self.have, self.replica = 'joining', None, [[0] * 8 for _ in range(blocks)]

    def rest(self, cycles):
        self.mode, self.wait, self.damaged, self.context = 'waiting', cycles, False, None

    def rise(self, content):
        """takes a final content (target, start, copies, control)"""
        self.mode, self.damaged, self.context = 'up', False, self.replica
        for block, words in content[2]:
            self.context[block] = list(words)
        law, self.active, self.fresh, counts = content[3]
        self.counts, self.transfer, self.accused, self.codes = list(counts), None, (), (0,) * 7


# ---- a run

DEFAULTS = dict(version=1, law='multiply', keep=32768, decrement=32768, threshold=131072, return_after=2, sweep=16,
                final=8, returning=1)


class Run:
    """A run of a mission. Rules for the bus are (cycle, slot, from, to or None, None or the forged piece); other faults
    are ('crash', channel, cycle, slot), ('restart', channel, cycle), ('damage', channel, cycle, block, word, value)."""

    def __init__(self, mission, rules=(), faults=(), history='alternate'):
        self.mission = dict(DEFAULTS, **mission)
        self.mission.setdefault('initial', [[0] * 8 for _ in range(self.mission['blocks'])])
        self.rules, self.faults, self.history = list(rules), list(faults), history
        self.nodes = [Node(q, self.mission) for q in range(self.mission['channels'])]
        self.switches_on = tuple(range(self.mission['channels']))
        self.log, self.steps, self.joins, self.stop_at = [], {}, {}, None
        self.report, self.traced = [], []
        self.actuator = self.mission.get('actuator')
        self.out = list(self.actuator['start']) if self.actuator else []

    def run(self):
        self.say(f"guards channels {self.mission['channels']} cycles {self.mission['cycles']}")
        if all(self.cycle(c) for c in range(self.mission['cycles'])):
            self.say(f"done {self.mission['cycles']}")
        return self

    def say(self, line):
        self.report.append(line)
        self.traced.append(line)

    # ---- the bus

    def carry(self, c, slot, sender, to, body):
        sent = encoded(self.mission['version'], sender, c, body)
        arrived = sent
        for cycle, at, source, receiver, piece in self.rules:
            if (cycle, at, source) == (c, slot, sender) and receiver in (None, to):
                arrived = piece
                break
        self.log.append((c, slot, sender, to, sent, arrived))
        if arrived != sent:
            self.charged.add(sender)
        return self.counted(c, slot, sender, to, arrived)

    def counted(self, c, slot, sender, to, piece):
        """the body of a delivered piece, where it counts"""
        frame = decoded(piece) if piece is not None else None
        kind = 'exchange' if slot.startswith('round') else 'vote' if slot == 'output' else slot
        if frame is None or frame[:3] != (self.mission['version'], sender, c) or frame[3][0] != kind:
            return None
        body, mission = frame[3], self.mission
        law = 2 if mission['law'] == 'subtract' else 1
        is_mine = lambda: body[1] == to and all(block < mission['blocks'] for block, _ in body[3])
        fits = {
            'request': lambda: True,
            'exchange': lambda: body[1] == int(slot[5:]),
            'vote': lambda: len(body[1]) == len(mission['outputs']),
            'sweep': is_mine,
            'final': lambda: is_mine() and body[4][0] == law,
            'switch': lambda: True,
        }
        return body if fits[kind]() else None

    # ---- modes

    def start_slot(self, c, slot):
        for fault in self.faults:
            if fault[0] == 'crash' and fault[2:] == (c, slot):
                self.nodes[fault[1]].fall()

    def start_cycle(self, c):
        restarted = {f[1] for f in self.faults if f[0] == 'restart' and f[2] == c}
        for node in self.nodes:
            if node.mode == 'waiting' and node.wait > 0:
                node.wait -= 1
            elif node.mode == 'waiting' or node.mode == 'down' and node.channel in restarted:
                node.join(self.mission['blocks'])
        for fault in self.faults:
            if fault[0] == 'damage' and fault[2] == c and self.nodes[fault[1]].mode == 'up':
                _, channel, _, block, word, value = fault
                self.nodes[channel].context[block][word] = value
                self.nodes[channel].damaged = True

    def up(self):
        return [q for q in self.switches_on if self.nodes[q].mode == 'up']

    def stops(self, c, slot):
        active = self.switches_on
        set_ = tuple(q for q in active if self.nodes[q].mode != 'up' or self.nodes[q].damaged or q in self.charged)
        if 3 * len(set_) < len(active):
            return False
        self.stop_at = (c, slot)
        self.say(f'stop cycle {c} slot {slot} disturbed {listed(set_)} active {listed(active)}')
        return True

    # ---- one cycle

    def cycle(self, c):
        self.charged = set()
        self.start_cycle(c)
        parts = [self.request, self.first_round, self.second_round, self.third_round, self.tasks, self.vote, self.sweep,
                 self.final, self.switch]
        for slot, part in zip(SLOTS, parts):
            self.start_slot(c, slot)
            part(c)
            if self.stops(c, slot):
                return False
            if slot == 'round3':
                self.decide(c)
            if slot == 'sweep':
                self.close(c)
        if self.actuator and not self.drive(c):
            return False
        self.tell(c)
        if self.actuator:
            self.say(f'out {listed(self.out)}')
        self.end_cycle()
        return True

    def request(self, c):
        self.heard = {p: [0] * 7 for p in self.switches_on}
        for q, node in enumerate(self.nodes):
            if node.mode != 'joining':
                continue
            for p in self.switches_on:
                if p == q:
                    continue
                body = self.carry(c, 'request', q, p, ('request', node.have))
                transfer = self.nodes[p].transfer
                if body is not None and self.nodes[p].mode == 'up':
                    own = transfer and q in transfer.targets and body[1] == transfer.start
                    self.heard[p][q] = 2 if own else 1
        row = self.mission['sensors'][c % len(self.mission['sensors'])]
        self.own = {p: (tuple(row[p]), self.nodes[p].accused, tuple(self.nodes[p].codes)) for p in self.switches_on}
        self.tree = {p: {(): self.own[p]} for p in self.switches_on}

    def tolerated(self):
        return (len(self.switches_on) - 1) // 3

    def first_round(self, c):
        self.exchange(c, 1)

    def second_round(self, c):
        self.exchange(c, 2)

    def third_round(self, c):
        self.exchange(c, 3)

    def exchange(self, c, number):
        active = self.switches_on
        if number > self.tolerated() + 1:
            return
        received = {}
        for s in self.up():
            items = [(y, self.tree[s].get(y)) for y in itertools.permutations(active, number - 1) if s not in y]
            for p in active:
                if p != s:
                    body = self.carry(c, f'round{number}', s, p, ('exchange', number, items))
                    received[s, p] = dict(body[2]) if body else {}
        for p in active:
            for path in itertools.permutations(active, number):
                held, last = path[:-1], path[-1]
                word = self.tree[p][held] if last == p else received.get((last, p), {}).get(held)
                self.tree[p][path] = word if word and len(word[0]) == self.mission['width'] else None

    def resolved(self, p, path):
        if len(path) == self.tolerated() + 1:
            return self.tree[p][path]
        return majority([self.resolved(p, path + (j,)) for j in self.switches_on if j not in path])

    def decide(self, c):
        self.decided, self.inputs = {}, {}
        for p in self.up():
            agreed = {s: self.resolved(p, (s,)) for s in self.switches_on}
            words = [word for word in agreed.values() if word]
            self.inputs[p] = [lower_median([word[0][k] for word in words]) for k in range(self.mission['width'])]
            self.decided[p] = self.decision(c, self.nodes[p], agreed, words)

    def decision(self, c, node, agreed, words):
        mission, active = self.mission, self.switches_on
        enough = self.tolerated() + 1
        judged = tuple(q for q in active if agreed[q] is None or sum(q in word[1] for word in words) >= enough)
        counts = [self.stepped(node, q, q in judged) if q in active else 0 for q in range(7)]
        tell = lambda q, code: sum(word[2][q] >= code for word in words) >= enough
        asks = lambda q: tell(q, 1) and q not in node.fresh
        candidates = [q for q in active if counts[q] >= mission['threshold'] or asks(q)]
        transfer = node.transfer
        if transfer:
            stays = lambda q: tell(q, 2) or transfer.start == c - 1 and tell(q, 1)
            transfer.targets = tuple(q for q in transfer.targets if stays(q))
            transfer = transfer if transfer.targets else None
        if not transfer:
            asking = tuple(q for q in range(mission['channels']) if q not in active and asks(q))[:mission['returning']]
            transfer = Transfer(asking, c, mission['blocks']) if asking else None
        node.transfer, node.counts = transfer, counts
        plan = transfer.plan(mission['sweep']) if transfer else []
        return dict(judged=judged, removed=tuple(candidates[:len(active) - 3]), plan=plan, copies=[])

    def stepped(self, node, q, errant):
        count = 0 if q in node.fresh else node.counts[q]
        if errant:
            return min(count + 65536, COUNT_CAP)
        if self.mission['law'] == 'subtract':
            return max(count - self.mission['decrement'], 0)
        return count * self.mission['keep'] // 65536

    def writes(self, c):
        return self.mission['table'][c % len(self.mission['table'])]

    def tasks(self, c):
        self.trace_lines = []
        for p in self.up():
            writes, decision, node = list(self.writes(c)), self.decided[p], self.nodes[p]
            self.steps[c, p] = self.order(c, p, len(writes), len(decision['plan']))
            for step in self.steps[c, p]:
                if step == 'T':
                    block, sets = writes.pop(0)
                    new = {k: value_of(e, node.context, self.inputs[p], c) for k, e in sets.items()}
                    for k, word in new.items():
                        node.context[block][k] = word
                else:
                    block = decision['plan'][len(decision['copies'])]
                    decision['copies'].append((block, tuple(node.context[block])))
            self.trace_lines.append(f"trace {p} {self.steps[c, p] or '-'}")

    def order(self, c, p, writes, copies):
        """how a channel's writes and copies interleave, which is free"""
        if self.history == 'mixed':
            first = (c * 7 + p * 3 + 1) % (writes + 1)
            return 'T' * first + 'S' * copies + 'T' * (writes - first)
        pairs = itertools.zip_longest('T' * writes, 'S' * copies, fillvalue='')
        return ''.join(a + b for a, b in pairs)

    def outputs(self, node):
        return tuple(node.context[block][word] for block, word in self.mission['outputs'])

    def vote(self, c):
        active = self.switches_on
        ballots = {p: {} for p in active}
        for s in self.up():
            for p in active:
                if p != s:
                    body = self.carry(c, 'vote', s, p, ('vote', self.outputs(self.nodes[s])))
                    if body:
                        ballots[p][s] = body[1]
            ballots[s][s] = self.outputs(self.nodes[s])
        self.voted = {}
        for p in self.up():
            places = range(len(self.mission['outputs']))
            votes = [majority([ballot[k] for ballot in ballots[p].values()], len(active)) for k in places]
            wrong = lambda ballot: any(v is not None and v != w for v, w in zip(votes, ballot))
            self.voted[p] = votes
            self.nodes[p].accused = tuple(q for q in active if q not in ballots[p] or wrong(ballots[p][q]))
            self.nodes[p].codes = self.heard[p]

    def sweep(self, c):
        self.sweeps = {}
        for s in self.up():
            transfer = self.nodes[s].transfer
            for q in transfer.targets if transfer else ():
                body = self.carry(c, 'sweep', s, q, ('sweep', q, transfer.start, self.decided[s]['copies']))
                self.sweeps.setdefault(q, []).append(body)

    def fill(self, c):
        for q, frames in self.sweeps.items():
            node, frames = self.nodes[q], [frame for frame in frames if frame]
            start = majority([frame[2] for frame in frames])
            if node.mode != 'joining' or start is None:
                continue
            if start == c:
                node.join(self.mission['blocks'])
                node.have = c
            if node.have == start:
                copies = [(frame[2],) + copy for frame in frames for copy in frame[3]]
                for copy in set(copies):
                    if copy[0] == start and 2 * copies.count(copy) > len(frames):
                        node.replica[copy[1]] = list(copy[2])

    def close(self, c):
        self.fill(c)
        self.closed = {}
        written = [block for block, _ in self.writes(c)]
        for p in self.up():
            node, decision = self.nodes[p], self.decided[p]
            rest = node.transfer.close(decision['plan'], written) if node.transfer else None
            joined = node.transfer.targets if rest is not None and len(rest) <= self.mission['final'] else ()
            active = tuple(sorted(set(self.switches_on) - set(decision['removed']) | set(joined)))
            counts = tuple(node.counts[q] if q in active and q not in joined else 0 for q in range(7))
            self.closed[p] = dict(rest=rest, joined=joined, active=active, counts=counts)

    def final(self, c):
        self.finals = {}
        law = 2 if self.mission['law'] == 'subtract' else 1
        for p in self.up():
            node, closed = self.nodes[p], self.closed[p]
            for q in closed['joined']:
                copies = [(block, tuple(node.context[block])) for block in closed['rest']]
                control = (law, closed['active'], closed['joined'], closed['counts'])
                body = self.carry(c, 'final', p, q, ('final', q, node.transfer.start, copies, control))
                self.finals.setdefault(q, []).append(body)

    def switch(self, c):
        self.taken = {}
        for q, frames in self.finals.items():
            contents = [(f[1], f[2], tuple(f[3]), f[4]) for f in frames if f]
            content, node = majority(contents), self.nodes[q]
            if content and node.mode == 'joining' and content[1] == node.have:
                self.taken[q] = content
        self.sets = []
        for p in self.up():
            body = self.carry(c, 'switch', p, SWITCHBOARD, ('switch', self.closed[p]['active']))
            self.sets.extend([body[1]] if body else [])

    def tell(self, c):
        first, channels = self.up()[0], self.mission['channels']
        closed, decision, transfer = self.closed[first], self.decided[first], self.nodes[first].transfer
        of = f'{listed(transfer.targets)}@{transfer.start}' if transfer else '-'
        self.say(f'cycle {c} active {listed(self.switches_on)} transfer {of}')
        for p in self.up():
            votes = listed('none' if vote is None else vote for vote in self.voted[p])
            judged, counts = listed(self.decided[p]['judged']), listed(self.nodes[p].counts[:channels])
            self.say(f'ch {p} in {listed(self.inputs[p])} vote {votes} judged {judged} alpha {counts}')
        self.traced.extend(self.trace_lines)
        remaining = '-' if closed['rest'] is None else len(closed['rest'])
        self.say(f"end removed {listed(decision['removed'])} joined {listed(closed['joined'])} remaining {remaining}")
        for q, content in self.taken.items():
            if self.nodes[q].mode == 'joining':
                replica = [tuple(block) for block in self.nodes[q].replica]
                self.joins[c, q] = dict(have=self.nodes[q].have, replica=replica, content=content)

    def drive(self, c):
        """the slot output: the actuator takes the voted words of each line, and its own move towards the majority"""
        frames = []
        for p in self.up():
            body = self.carry(c, 'output', p, ACTUATOR, ('vote', tuple(self.voted[p])))
            frames += [body[1]] if body else []
        if self.stops(c, 'output'):
            return False
        for k, step in enumerate(self.actuator['steps']):
            wanted = majority([words[k] for words in frames])
            if wanted is not None:
                self.out[k] += max(-step, min(step, wanted - self.out[k]))
        return True

    def end_cycle(self):
        on = len(self.switches_on)
        self.switches_on = tuple(q for q in range(7) if 2 * sum(q in set_ for set_ in self.sets) > on)
        for p in self.up_before_the_switch():
            node, closed = self.nodes[p], self.closed[p]
            node.active, node.fresh, node.counts = closed['active'], closed['joined'], list(closed['counts'])
            node.transfer = None if closed['joined'] else node.transfer
            assert node.active == self.switches_on
        for q, content in self.taken.items():
            if self.nodes[q].mode == 'joining':
                self.nodes[q].rise(content)
        for node in self.nodes:
            if node.mode == 'up' and node.channel not in self.switches_on:
                node.rest(self.mission['return_after'])

    def up_before_the_switch(self):
        return [p for p in self.closed if self.nodes[p].mode == 'up']


def lower_median(words):
    return sorted(words)[(len(words) - 1) // 2] if words else 0


def listed(values):
    return ','.join(map(str, values)) or '-'
