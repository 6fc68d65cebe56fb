"""The rows and the summary of a campaign of the mission in crates/guards_campaign/stdin, as the simulator runs it; and the entries of
one run, as they stand in its mission's document.

  python3 tools/campaign_rows.py SEED RUNS CRASH DAMAGE LOSE FORGE
  python3 tools/campaign_rows.py mission STATE CRASH DAMAGE LOSE FORGE

The simulator has no product, so that a sum stands for it: no row tells a word. It shares nothing with the crates, so that the two can be compared; nothing of the gate needs it."""
import itertools
import sys

from simulator import Run, SLOTS, encoded

MISSION = dict(name='campaign', channels=5, cycles=60, blocks=24, width=1, threshold=131072, return_after=2, sweep=4, final=2,
               table=[[(0, {0: ('+', ('b', 0, 0), 1)}), (1, {0: ('+', ('b', 1, 0), ('*', ('in', 0), ('cycle',)))})]],
               outputs=[(0, 0), (1, 0)], sensors=[[[5]] * 5])
BOUND = 11
COLUMNS = ('run,state,end,cycles,slot,disturbed,why,crashes,restarts,damages,losses,forgeries,removals,false_removals,joins,'
           'not_whole,dropped,longest_transfer,bound')


class Draws:
    def __init__(self, state):
        self.x = state

    def below(self, k):
        self.x = (self.x * 6364136223846793005 + 1442695040888963407) % 2 ** 64
        return self.x // 2 ** 33 % k


def script(draws, crash, damage, lose, forge):
    """entries (kind, cycle, channel, rest) in the order of their draws"""
    n, cycles, out = MISSION['channels'], MISSION['cycles'], []
    for c, q in itertools.product(range(cycles), range(n)):
        if draws.below(1000000) < crash:
            slot, back = draws.below(9), c + 1 + draws.below(8)
            out.append(('crash', c, q, SLOTS[slot]))
            if back < cycles:
                out.append(('restart', back, q))
        if draws.below(1000000) < damage:
            out.append(('damage', c, q, draws.below(MISSION['blocks']), draws.below(8), draws.below(2 ** 31)))
        if draws.below(1000000) < lose:
            slot = ('round1', 'round2', 'vote', 'sweep', 'final')[draws.below(5)]
            out.append(('lose', c, q, slot, (q + 1 + draws.below(n - 1)) % n))
        if draws.below(1000000) < forge:
            words = tuple(draws.below(2 ** 31) for _ in MISSION['outputs'])
            out.append(('forge', c, q, (q + 1 + draws.below(n - 1)) % n, encoded(1, q, c, ('vote', words))))
    return out[:1024]


def simulated(entries):
    faults, rules = [], []
    for kind, c, q, *rest in entries:
        if kind == 'crash':
            faults.append(('crash', q, c, rest[0]))
        elif kind == 'restart':
            faults.append(('restart', q, c))
        elif kind == 'damage':
            faults.append(('damage', q, c, *rest))
        elif kind == 'lose':
            rules.append((c, rest[0], q, rest[1], None))
        else:
            rules.append((c, 'vote', q, rest[0], rest[1]))
    return Run(MISSION, rules, faults).run().report


def members(text):
    return () if text == '-' else tuple(map(int, text.split(',')))


def row(run, state, entries):
    cycles, stop, slot, disturbed = [], False, '', ()
    for line in simulated(entries):
        w = line.split(' ')
        if w[0] == 'cycle':
            targets, _, start = w[5].partition('@')
            cycles.append(dict(transfer=(members(targets), int(start)) if start else None, lines=set()))
        elif w[0] == 'ch':
            cycles[-1]['lines'].add(int(w[1]))
        elif w[0] == 'end':
            cycles[-1].update(removed=members(w[2]), joined=members(w[4]))
        elif w[0] == 'stop':
            stop, slot, disturbed = True, w[4], members(w[6])
    since, false, whole, dropped, longest = {}, 0, 0, 0, 0
    named = lambda q, first, last, kinds: {e[0] for e in entries if e[2] == q and first <= e[1] <= last and e[0] in kinds}
    for c, e in enumerate(cycles):
        false += sum(not named(q, since.get(q, 0), c, ('crash', 'restart', 'damage', 'lose', 'forge')) for q in e['removed'])
        if c:
            before = cycles[c - 1]
            whole += sum(q not in e['lines'] for q in before['joined'])
            if before['transfer'] and not before['joined']:
                targets, start = before['transfer']
                kept = e['transfer'][0] if e['transfer'] and e['transfer'][1] == start else ()
                dropped += sum(q not in kept for q in targets)
        if e['joined']:
            longest = max(longest, c + 1 - e['transfer'][1])
            since.update({q: e['transfer'][1] - 1 for q in e['joined']})
    done = len(cycles)
    why = '+'.join('/'.join(sorted(named(q, since.get(q, 0), done, ('crash', 'damage')) | named(q, done, done, ('lose', 'forge')))) or 'not whole'
                   for q in disturbed)
    counts = [sum(e[0] == kind and e[1] < done + stop for e in entries) for kind in ('crash', 'restart', 'damage', 'lose', 'forge')]
    return [run, state, 'stop' if stop else 'done', done, slot, '+'.join(map(str, disturbed)), why, *counts,
            sum(len(e['removed']) for e in cycles), false, sum(len(e['joined']) for e in cycles), whole, dropped, longest or '', BOUND]


def document(entries):
    """the entries as tables of the key `fault`, on a new line"""
    lines = ['']
    for kind, c, q, *rest in entries:
        lines += ['[[fault]]', f'kind = "{kind}"', f'cycle = {c}']
        if kind == 'crash':
            lines += [f'slot = "{rest[0]}"', f'channel = {q}']
        elif kind == 'restart':
            lines += [f'channel = {q}']
        elif kind == 'damage':
            lines += [f'channel = {q}'] + [f'{key} = {number}' for key, number in zip(('block', 'word', 'value'), rest)]
        elif kind == 'lose':
            lines += [f'slot = "{rest[0]}"', f'from = {q}', f'to = {rest[1]}']
        else:
            lines += ['slot = "vote"', f'from = {q}', f'to = {rest[0]}', f'bytes = "{bytes(rest[1]).hex()}"']
    return '\n'.join(lines)


def main():
    if sys.argv[1] == 'mission':
        state, *rates = map(int, sys.argv[2:])
        print(document(script(Draws(state), *rates)))
        return
    seed, runs, *rates = map(int, sys.argv[1:])
    draws = Draws(seed)
    print(COLUMNS)
    rows = []
    for run in range(runs):
        state = draws.x
        rows.append(row(run, state, script(draws, *rates)))
        print(','.join(map(str, rows[-1])))
    total = lambda name: sum(r[COLUMNS.split(',').index(name)] for r in rows)
    print(f'# runs {runs} stopped {sum(r[2] == "stop" for r in rows)}')
    print(f'# removals {total("removals")} false {total("false_removals")}')
    print(f'# joins {total("joins")} not whole {total("not_whole")}')
    print(f'# dropped {total("dropped")}')
    print(f'# longest transfer {max(r[-2] or 0 for r in rows)} bound {BOUND}')


main()
