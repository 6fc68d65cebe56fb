"""Writes the worked runs of the crate model_rows: missions with their logs and reports, as the simulator makes them, and one
function for each, whose contract says that the definitions compute just these.

    python3 tools/worked_runs.py             writes crates/model_rows, and runs of law_rows, from the top of the repository
    python3 tools/worked_runs.py --print    prints the reports alone

Run `rt fmt` in the crate afterwards. Nothing of the gate needs this script: what it writes is committed."""
import itertools
import os
import re
import sys

from simulator import Run, SLOTS, encoded, unmasked

CRATE = os.path.join('crates', 'model_rows')

ADD = ('+', ('b', 0, 0), ('in', 0))
COUNT = ('+', ('b', 0, 0), 1)


def sum_of(channels=4, cycles=2, sensors=None, **core):
    """a task that adds its input to word 0 of block 0"""
    sensors = sensors or [5] * channels
    return dict(dict(name='sum', channels=channels, cycles=cycles, blocks=1, width=1, table=[[(0, {0: ADD})]],
                     outputs=[(0, 0)], sensors=[[[word] for word in sensors]]), **core)


def count_of(channels=5, cycles=12, **core):
    """a task that counts cycles in word 0 of block 0 of eight"""
    return dict(dict(name='count', channels=channels, cycles=cycles, blocks=8, width=1, threshold=6553600, sweep=3,
                     final=2, table=[[(0, {0: COUNT})]], outputs=[(0, 0)], sensors=[[[5]] * channels]), **core)


def lost(cycle, slot, sender, to=None):
    return cycle, slot, sender, to, None


def round1(sender, word):
    """the frame of round 1 of cycle 0 with this word, as it is written on the bus"""
    return encoded(1, sender, 0, ('exchange', 1, [((), ((word,), (), (0,) * 7))]))


def returns(*channels):
    return [('crash', q, 0, 'request') for q in channels] + [('restart', q, 1) for q in channels]


# contents that tell blocks and words apart, with negative words among them
CONTENTS = [[0] * 8] + [[100 * b + k - 400 for k in range(8)] for b in range(1, 8)]

SILENT_5_AND_6 = ([lost(0, slot, 5) for slot in ('round1', 'round2', 'round3')]
                  + [(0, 'round1', 6, to, round1(6, 100)) for to in range(4)]
                  + [lost(0, slot, 6) for slot in ('round2', 'round3')])

# name, what it shows, and the run
RUNS = [
    ('two_cycles', 'Two cycles without faults.', Run(sum_of())),
    ('lower_median', 'The input is the lower median of the four sensors.', Run(sum_of(sensors=[1, 9, 5, 7]))),
    ('forged_word', 'A word that one source sends differently to one channel is settled alike by all.',
     Run(sum_of(cycles=1, sensors=[1, 9, 9, 7]), [(0, 'round1', 3, 2, round1(3, 9))])),
    ('missing_word', 'A word that no majority of the branches tells is missing, and its source is judged.',
     Run(sum_of(cycles=1, sensors=[1, 9, 9, 7]), [(0, 'round1', 3, 1, round1(3, 9)), lost(0, 'round1', 3, 2)])),
    ('one_accuser', 'A channel that one other accuses is not judged, since one accusation is not enough.',
     Run(sum_of(), [lost(0, 'vote', 1, 0)])),
    ('lost_relays', 'A channel whose relays are lost agrees with the others.',
     Run(sum_of(), [lost(0, 'round2', 1)])),
    ('seven_channels', 'Seven channels agree although two of them are disturbed.',
     Run(sum_of(channels=7, cycles=1, sensors=[10] * 7), SILENT_5_AND_6)),
    ('seven_stop', 'Seven channels of which three are disturbed stop in the slot of the third.',
     Run(sum_of(channels=7, cycles=1, sensors=[10] * 7), SILENT_5_AND_6 + [lost(0, 'vote', 4, 0)])),
    ('three_stop', 'Three channels stop where one is disturbed.',
     Run(sum_of(channels=3, cycles=2), [lost(0, 'vote', 2, 0)])),
    ('count_decays', 'An alpha-count rises, decays, is rounded down and reaches the threshold.',
     Run(count_of(cycles=5, keep=32767, threshold=131072), [lost(c, 'round1', 3) for c in (0, 3, 4)])),
    ('count_subtracts', 'An alpha-count under the law of subtraction, in frames of version 2.',
     Run(count_of(cycles=5, version=2, law='subtract', decrement=16384, keep=32767, threshold=131072),
         [lost(c, 'round1', 3) for c in (0, 3, 4)])),
    ('three_remain', 'Three channels stay active, whatever the counts.',
     Run(sum_of(cycles=3, threshold=65536), [lost(0, 'vote', 1), lost(1, 'round1', 0)])),
    ('restored', 'A channel crashes, asks, is restored while the tasks run, and votes with the others.',
     Run(count_of(), faults=returns(4), history='mixed')),
    ('restored_by_subtraction', 'A channel is restored in frames of version 2, whose control word names the law.',
     Run(count_of(cycles=7, version=2, law='subtract', initial=CONTENTS), faults=returns(4))),
    ('silent_sender', 'Lost sweep frames and a forged final frame of one channel change nothing.',
     Run(count_of(), [lost(4, 'sweep', 0), (5, 'final', 0, None, b'\0')], returns(4), history='mixed')),
    ('joined_at_once', 'Where two blocks remain at most, the first cycle of the transfer is its last.',
     Run(count_of(blocks=2, sweep=1), faults=returns(4))),
    ('crashed_target', 'A channel that crashes at the start of its transfer asks anew, and the next one restores it.',
     Run(count_of(), faults=returns(4) + [('crash', 4, 3, 'round1'), ('restart', 4, 4)], history='mixed')),
    ('not_whole', 'A channel that crashed during its transfer is declared joined, is not whole, and comes back later.',
     Run(count_of(cycles=11), faults=returns(4) + [('crash', 4, 4, 'round1'), ('restart', 4, 5)])),
    ('damage_found', 'A damaged context is found by its votes; the channel is removed and restored.',
     Run(count_of(cycles=11, threshold=131072), faults=[('damage', 2, 1, 0, 0, 100)])),
    ('two_return', 'One transfer restores two channels.',
     Run(count_of(channels=7, returning=2), faults=returns(5, 6))),
    ('one_dropped', 'One of two targets crashes; the transfer goes on for the other.',
     Run(count_of(channels=7, returning=2),
         faults=returns(5, 6) + [('crash', 6, 3, 'round1'), ('restart', 6, 8)])),
    ('one_by_one', 'Where a transfer restores one channel, two come back one after the other.',
     Run(count_of(channels=7), faults=returns(5, 6))),
    ('lost_requests',
     'A transfer is aborted since its requests are lost, and its target, still joining, names the old start.',
     Run(count_of(cycles=9, initial=CONTENTS), [lost(3, 'request', 4)], returns(4))),
    ('damaged_and_crashed', 'A channel is damaged and crashes in one cycle; the crash ends the mark of damage.',
     Run(count_of(cycles=9), faults=[('damage', 2, 1, 0, 0, 100), ('crash', 2, 1, 'vote'), ('restart', 2, 3)])),
    ('down_at_the_end', 'A channel that is declared joined is down, and stays so to the end of the run.',
     Run(count_of(cycles=8), faults=returns(4) + [('crash', 4, 4, 'round1')])),
]
BY_THREE = dict(steps=[3], start=[0])

# runs of a mission with an actuator, whose literals stand in specs/Outputs of model_rows: --print prints their logs too
OUTPUT_RUNS = [
    ('moves_by_steps', 'The word moves by 3 towards 5, and then by 3 towards 10.', Run(sum_of(actuator=BY_THREE))),
    ('loss_is_borne', 'So it does where one of four output frames is lost.',
     Run(sum_of(actuator=BY_THREE), [lost(0, 'output', 1)])),
    ('forgery_is_borne', 'So it does where one is forged.',
     Run(sum_of(actuator=BY_THREE), [(0, 'output', 1, None, encoded(1, 1, 0, ('vote', (9,))))])),
    ('loss_stops_three', 'One of three lost output frames stops the run in the output slot.',
     Run(sum_of(channels=3, actuator=BY_THREE), [lost(0, 'output', 2)])),
    ('damage_counts', 'A damaged channel counts as disturbed, and one lost output frame more stops five channels.',
     Run(count_of(cycles=11, threshold=131072, actuator=BY_THREE), [lost(1, 'output', 0)], [('damage', 2, 1, 0, 0, 100)])),
    ('crash_counts', 'A channel that crashed in the cycle sends nothing to the actuator.',
     Run(count_of(cycles=2, actuator=BY_THREE),
         faults=[('damage', 2, 1, 0, 0, 100), ('crash', 2, 1, 'vote'), ('restart', 2, 3)])),
]

# runs whose literals stand in specs/ of law_rows
DIAGNOSIS_RUNS = [
    ('judged_twice', 'One disturbed cycle costs a channel two judgements: its word is lost, and then its vote.',
     Run(count_of(cycles=2, threshold=131072), [lost(0, 'round1', 3), lost(0, 'vote', 3)])),
    ('gone_in_time', 'A channel crashes after its vote, is silent in two cycles, and is removed in the second one.',
     Run(count_of(cycles=3, threshold=131072), faults=[('crash', 4, 0, 'switch')])),
    ('too_few_accusers', 'A lost vote is not judged: of those who found it one is removed, one is lost, and a new channel is silent.',
     Run(count_of(blocks=2, sweep=1, cycles=4, threshold=65536),
         [lost(1, 'vote', 3), lost(2, 'vote', 1), lost(3, 'round1', 2)], returns(4))),
]

# of these the text with trace lines is computed too
TRACED = ['restored']

# what else is said of a run: a label, and a fact in which RUN stands for it
FURTHER = {
    'not_whole': [('not_whole', 'IsNotWhole RUN 4 5 joining')],
    'down_at_the_end': [
        ('not_whole', 'IsNotWhole RUN 4 5 down'),
        ('at_the_end', 'mode_after RUN.mission (all_of RUN) 4 ≡ down'),
    ],
    'damaged_and_crashed': [
        ('marked', 'is_damaged (cycle_of RUN 1) 2 Tasks ≡ true'),
        ('mark_ends', 'is_damaged (cycle_of RUN 1) 2 Vote ≡ false'),
    ],
    'lost_requests': [
        ('aborted', '(cycle_of RUN 4).transfer ≡ None'),
        ('names_old_start', 'held_start 4 (past_of RUN 5) ≡ Some 3'),
        ('stays_joining', 'joins_since 4 3 (past_of RUN 7) ≡ true'),
    ],
}


# ---- antt literals

def items(texts):
    return ''.join(text + ' ∷ ' for text in texts) + '[]'


def numbers(values):
    return items(map(str, values))


def integer(number):
    return f'pos {number}' if number >= 0 else f'negsuc {-number - 1}'


def hexadecimal(data):
    return f'hex (codes "{data.hex()}")'


def slot(name):
    return name.capitalize()


def expression(e):
    if isinstance(e, int):
        return f'number ({integer(e)})'
    if e[0] == 'in':
        return f'input {e[1]}'
    if e[0] == 'b':
        return f'block_word {e[1]} {e[2]}'
    return f'binary Add ({expression(e[1])}) ({expression(e[2])})'


def write(block, sets):
    last = max(sets)
    words = ''.join(f'Some ({expression(sets[k])}) ∷ ' if k in sets else 'None ∷ ' for k in range(last + 1))
    return f'record {{ block = {block}; set = {words}replicate {7 - last} None }}'


def fault(f):
    if f[0] == 'crash':
        return f'crash {f[1]} {f[2]} {slot(f[3])}'
    if f[0] == 'restart':
        return f'restart {f[1]} {f[2]}'
    return f'damage {f[1]} {f[2]} {f[3]} {f[4]} ({integer(f[5])})'


def rule(r):
    cycle, at, sender, to, piece = r
    receiver = 'None' if to is None else f'Some {to}'
    act = 'lose' if piece is None else f'forge ({hexadecimal(piece)})'
    return f'bus (record {{ cycle = {cycle}; slot = {slot(at)}; from = {sender}; to = {receiver}; act = {act} }})'


def rules(m):
    names = ('channels', 'blocks', 'version', 'law', 'keep', 'decrement', 'threshold', 'sweep', 'last', 'returning')
    values = dict(m, law=m['law'].capitalize(), last=m['final'])
    return ''.join(f'        {name} = {values[name]};\n' for name in names)


def actuator(drives):
    if drives is None:
        return 'None'
    steps, start = (items(map(integer, drives[key])) for key in ('steps', 'start'))
    return f'Some (record {{ steps = {steps}; start = {start} }})'


def mission(run):
    m = run.mission
    table = items('(record { name = codes "%s"; writes = %s } ∷ [])' % (m['name'], items(write(*w) for w in row))
                  for row in m['table'])
    sensors = items('(' + items('(' + items(map(integer, words)) + ')' for words in row) + ')' for row in m['sensors'])
    script = ' ∷\n          '.join([fault(f) for f in run.faults] + [rule(r) for r in run.rules] + ['[]'])
    return f"""record {{
      rules = record {{
{rules(m)}      }};
      cycles = {m['cycles']};
      width = {m['width']};
      return_after = {m['return_after']};
      initial = {context(m['initial'])};
      table = {table};
      outputs = {items('(%d, %d)' % o for o in m['outputs'])};
      sensors = {sensors};
      script = {script};
      actuator = {actuator(m.get('actuator'))};
    }}"""


def block(words):
    return '(' + items(map(integer, words)) + ')' if any(words) else 'zero_block'


def context(blocks):
    return items(map(block, blocks)) if any(map(any, blocks)) else f'zeroed {len(blocks)}'


def copy(c):
    return f'record {{ block = {c[0]}; words = {block(c[1])} }}'


# ---- a run's module

IMPORTS = """Rattle.std.specs.Prelude: ℕ List [] ◌∷◌ ◌++◌ Option Some None ℤ pos negsuc replicate codes
Rattle.guards_model.specs.declared.Slot.TheVariants: Request Round1 Round2 Round3 Tasks Vote Sweep Final Switch
Rattle.guards_model.specs.declared.Op.TheVariants: Add
Rattle.guards_model.specs.declared.Law.TheVariants: Multiply Subtract
Rattle.guards_model.specs.declared.Actor.TheVariants as step
Rattle.guards_model.specs.Contexts: zero_block zeroed
Rattle.guards_model.specs.Expressions: number input block_word binary
Rattle.guards_model.specs.Faults: crash restart damage bus
Rattle.guards_model.specs.BusRules: lose forge
Rattle.guards_model.specs.Missions: MissionValue
Rattle.guards_model.specs.Network: Log
Rattle.guards_model.specs.Rounds: Histories
Rattle.model_rows.specs.Worked: hex carried lost forged WorkedRun WorkedJoin"""


def imports(body):
    """the lines for what the body uses"""
    words = set(re.findall(r'[\w\u2115\u2124]+', re.sub(r'"[^"]*"', '', body))) | {'[]'}
    words |= {'◌∷◌'} if '∷' in body else set()
    words |= {'◌++◌'} if '++' in body else set()
    lines = []
    for line in IMPORTS.splitlines():
        module, _, names = line.partition(': ')
        used = [name for name in names.split() if name in words]
        if used:
            lines.append(f'use {module}.{{{", ".join(used)}}}')
        elif not names:
            lines.append(f'use {module}')
    return '\n'.join(lines) + '\n\n'



def entries(log):
    """a line for each sent piece, for the receivers that got the same of it"""
    lines = []
    for (c, at, sender, sent, arrived), group in itertools.groupby(log, key=lambda e: e[:3] + e[4:]):
        word = 'carried' if arrived == sent else 'lost' if arrived is None else 'forged'
        piece = '' if arrived in (sent, None) else f' ({hexadecimal(arrived)})'
        receivers = numbers(entry[3] for entry in group)
        lines.append(f'{word} {c} {slot(at)} {sender} ({receivers}) ({hexadecimal(sent)}){piece}')
    return lines


def text(lines):
    return '\n    ++ '.join('codes "%s\\n"' % line for line in lines)


def histories(run, cycles):
    steps = lambda c, q: items('step.Task' if s == 'T' else 'step.Sweep' for s in run.steps.get((c, q), ''))
    channels = range(run.mission['channels'])
    return ' ∷\n    '.join(['(' + items(f'({steps(c, q)})' for q in channels) + ')' for c in reversed(cycles)] + ['[]'])


def module(title, run, traced):
    out = f'abbrev pub mission : MissionValue\nmission =\n    {mission(run)}\n\n'
    cycles = sorted({e[0] for e in run.log})
    for c in cycles:
        lines = entries([e for e in run.log if e[0] == c])
        out += f'abbrev pub entries_{c} : Log\nentries_{c} =\n    ' + '\n    ++ '.join(lines) + '\n\n'
    out += 'abbrev pub log : Log\nlog = ' + ' ++ '.join(f'entries_{c}' for c in cycles) + '\n\n'
    out += f'-- the latest cycle stands first\nabbrev pub histories : Histories\nhistories =\n    {histories(run, cycles)}\n\n'
    out += f'abbrev pub text : List ℕ\ntext =\n    {text(run.report)}\n' + RUN
    if traced:
        out += f'\nabbrev pub traced_text : List ℕ\ntraced_text =\n    {text(run.traced)}\n'
    for (c, q), join in sorted(run.joins.items()):
        out += join_literals(c, q, join)
    return f'-- Written by tools/worked_runs.py.\n-- {title}\n{imports(out)}{out}'


RUN = """
abbrev pub run : WorkedRun
run = record { mission = mission; log = log; histories = histories; text = text }
"""


def join_literals(c, q, join):
    target, start, copies, (law, active, fresh, counts) = join['content']
    law_name = 'Subtract' if law == 2 else 'Multiply'
    joined = list(join['replica'])
    for number, words in copies:
        joined[number] = words
    return f"""
abbrev pub joined_{q} : WorkedJoin
joined_{q} =
    record {{
      channel = {q};
      cycle = {c};
      replica = record {{ have = Some {join['have']}; blocks = {context(join['replica'])} }};
      content = record {{
        target = {target};
        start = {start};
        copies = {items(map(copy, copies))};
        control = record {{
          law = {law_name};
          active = {numbers(active)};
          fresh = {numbers(fresh)};
          counts = {numbers(counts)};
        }};
      }};
      context = {context(joined)};
    }}
"""


# ---- the crate

LIB_HEAD = """//! Worked missions: whole runs that the definitions compute. Each function's contract says of one run that its
//! report, every piece on the bus, its switches and each join are just these, and that it is a run of which the main
//! theorem speaks. Missions, logs and texts come from tools/worked_runs.py, which shares nothing with the definitions.
#![tactic(auto)]

"""


def is_stopped(run):
    return run.stop_at is not None


def clauses(name, run):
    row = f'{name}_row'
    if is_stopped(run):
        cycle, at = run.stop_at
        return [('stopped', f'IsWorkedStop {row}.run {cycle} {slot(at)}')]
    found = [('run', f'IsWorked {row}.run')]
    if name in TRACED:
        found.append(('traces', f'traced {row}.mission {row}.log {row}.histories ≡ {row}.traced_text'))
    found += [(f'joined_{q}', f'Joins {row}.run {row}.joined_{q}') for _, q in sorted(run.joins)]
    return found + [(label, fact.replace('RUN', f'{row}.run')) for label, fact in FURTHER.get(name, [])]


LIB_USES = """pub mod frames;
pub mod held_nodes;
pub mod moved_outputs;
pub mod verdicts;

ghost use Rattle.std.specs.Prelude.{◌≡◌, true, false, Some, None};
ghost use Rattle.guards_model.specs.declared.Slot.TheVariants.{Tasks, Vote};
ghost use Rattle.guards_model.specs.Modes.{down, joining};
ghost use Rattle.guards_runs.specs.Cycles.{mode_after, is_damaged, held_start, joins_since};
ghost use Rattle.guards_runs.specs.Report.{traced};
ghost use Rattle.model_rows.specs.Worked.{IsWorked, IsWorkedStop, Joins, IsNotWhole, past_of, cycle_of, all_of};
"""


def library():
    uses = [f'ghost use Rattle.model_rows.specs.{module_name(name)} as {name}_row;' for name, _, _ in RUNS]
    out = LIB_HEAD + LIB_USES + '\n'.join(uses) + '\n'
    for name, title, run in RUNS:
        found = clauses(name, run)
        labels = [''] if len(found) == 1 else [label + ' ' for label, _ in found]
        lines = ''.join(f'    ensures {label}{{ {fact} }}\n' for label, (_, fact) in zip(labels, found))
        out += f'\n/// {title}\npub fn {name}()\n{lines}{{}}\n'
    return out


def module_name(name):
    return ''.join(part.capitalize() for part in name.split('_'))


ANSWERS = """use Rattle.std.proofs.Common.{{refl}}
use Rattle.guards_runs.proofs.RunsOnLiterals.{{run_on_literals}}
use Rattle.guards_runs.proofs.DueTest.{{{test}}}
{uses}use Rattle.model_rows.specs.{module} as row
use Rattle.model_rows.proofs.{name}.Goals as goal
"""


def computed(*fields):
    return '; '.join(f'{field} = refl' for field in fields)


MISSION = ('record { rules = refl; cycles = refl; width = refl; return_after = refl; initial = refl; table = refl; '
           'outputs = refl; sensors = refl; script = refl; actuator = refl }')
IS_RUN = 'run_if row.mission row.log row.histories row.mission.cycles refl refl refl'
VALUES = {
    'run': f'is_mission = {MISSION}; is_run = {IS_RUN}; ' + computed('reported', 'sent', 'delivered', 'switches'),
    'joined': computed('whole', 'filled', 'taken', 'joined', 'ideal', 'control'),
    'not_whole': computed('declared', 'whole', 'nothing', 'after'),
}


def answer(label, run):
    """the proof of a clause: every fact of it is computed"""
    if label == 'stopped':
        cycle, at = run.stop_at
        due = f'stopped_if row.mission row.log row.histories {cycle} {slot(at)} refl refl refl'
        return f'record {{ is_mission = {MISSION}; due = {due}; reported = refl; delivered = refl }}'
    kind = label.split('_')[0] if label.startswith('joined') else label
    return f'record {{ {VALUES[kind]} }}' if kind in VALUES else 'refl'


def answers(name, run):
    found = clauses(name, run)
    uses = ''
    if is_stopped(run):
        uses = f'use Rattle.guards_model.specs.declared.Slot.TheVariants.{{{slot(run.stop_at[1])}}}\n'
    test = 'stopped_if' if is_stopped(run) else 'run_if'
    out = ANSWERS.format(module=module_name(name), name=name, uses=uses, test=test)
    for label, _ in found:
        goal = 'returns' if len(found) == 1 else f'returns-clause-{label}'
        out += f'\npub {goal} : goal.{goal}\nunfolding run_on_literals\n{goal} c = {answer(label, run)}\n'
    return out


def put(path, content, crate=CRATE):
    path = os.path.join(crate, path)
    os.makedirs(os.path.dirname(path), exist_ok=True)
    with open(path, 'w') as file:
        file.write(content)


def main():
    for _, _, run in RUNS + OUTPUT_RUNS + DIAGNOSIS_RUNS:
        run.run()
    if '--print' in sys.argv:
        for name, title, run in RUNS:
            print(f'== {name}: {title} {len(run.log)} entries')
            print('\n'.join(run.report))
        for name, title, run in OUTPUT_RUNS:
            print(f'== {name}: {title} {len(run.log)} entries')
            print('\n'.join(run.report + entries([e for e in run.log if e[1] == 'output'])))
        return
    for name, title, run in RUNS:
        put(f'specs/{module_name(name)}.antt', module(title, run, name in TRACED))
        put(f'proofs/{name}/Answers.antt', answers(name, run))
    for name, title, run in DIAGNOSIS_RUNS:
        put(f'specs/{module_name(name)}.antt', module(title, run, False), os.path.join('crates', 'law_rows'))
    modules = ['Worked', 'KnownFrames'] + [module_name(name) for name, _, _ in RUNS] + ['Nodes', 'Outputs', 'Changed']
    put('specs/Lib.antt', ''.join(f'pub mod {module}\n' for module in modules))
    put('src/lib.rt', library())


if __name__ == '__main__':
    main()
