#!/usr/bin/env python3
"""Tests missions/mission.schema.json.

  tools/schema/test_schema.py PROGRAM [TRIES [SEED]]

PROGRAM is a built guards (crates/guards_cli/out/guards_cli); TRIES missions that the schema refuses are tried, 1,000 unless said.
Python 3.11 and its package jsonschema are needed; where that is missing nothing is tested, and the status is 0.

- The file is what make_schema.py writes.
- The missions of missions/ are accepted, and the program reads them.
- The pattern of an expression accepts drawn texts of the grammar, and is quick on bad ones.
- The documents of mission_rows: the program answers each as its row says, and reads none that the schema refuses.
- Missions changed at random: the program reads none that the schema refuses.
"""
import ast
import collections
import glob
import json
import os
import random
import re
import subprocess
import sys
import time
import tomllib

try:
    import jsonschema
except ImportError:
    sys.exit(print("test_schema: the Python package jsonschema is missing: nothing was tested"))

HERE = os.path.dirname(os.path.abspath(__file__))
ROOT = os.path.normpath(HERE + "/../..")
if len(sys.argv) < 2:
    sys.exit(__doc__)
PROGRAM = os.path.abspath(sys.argv[1])
TRIES = int(sys.argv[2]) if len(sys.argv) > 2 else 1000
SEED = int(sys.argv[3]) if len(sys.argv) > 3 else 1


def content(path):
    with open(path, encoding="utf-8") as it:
        return it.read()


SCHEMA = json.loads(content(ROOT + "/missions/mission.schema.json"))
jsonschema.Draft202012Validator.check_schema(SCHEMA)
VALIDATOR = jsonschema.Draft202012Validator(SCHEMA)
EXAMPLES = sorted(glob.glob(ROOT + "/missions/*.toml"))
wrong = 0


def fail(*why):
    global wrong
    wrong += 1
    print("WRONG", *why, sep=" | ")


def check(text):
    """The program's status and first line."""
    got = subprocess.run([PROGRAM, "check"], input=text.encode(), capture_output=True)
    return got.returncode, got.stdout.decode(errors="replace").split("\n")[0]


def complaint(text):
    """None where the schema accepts the text, 'toml' where Python's reader (TOML 1.0) refuses it, else the schema's first error."""
    try:
        document = tomllib.loads(text)
    except ValueError:
        return "toml"
    error = jsonschema.exceptions.best_match(VALIDATOR.iter_errors(document))
    return None if error is None else f"{error.json_path}: {error.message[:90]}"


def examples():
    for path in EXAMPLES:
        name, said, (status, line) = os.path.basename(path), complaint(content(path)), check(content(path))
        if said or status:
            fail("example", name, said, status, line)
        if not content(path).startswith("#:schema ./mission.schema.json\n"):
            fail("example", name, "its first line does not name the schema")
    print(f"{len(EXAMPLES)} missions accepted and read")


# Texts of the grammar of FORMATS.md, section 3.
def space():
    return " " * random.choice([0, 0, 0, 1, 3])


def atom(depth):
    kind = random.randrange(7 if depth else 4)
    if kind == 0:
        return random.choice(["0", "7", "10", "9223372036854775807"])
    if kind == 1:
        return "cycle"
    if kind == 2:
        return f"in{random.randrange(4)}"
    if kind == 3:
        return f"b{random.randrange(256)}.{random.randrange(8)}"
    if kind == 4:
        return "(" + space() + a_sum(depth - 1) + space() + ")"
    parts = ",".join(space() + a_sum(depth - 1) + space() for _ in range(3))
    return random.choice(["sat", "mid", "ramp", "pick"]) + space() + "(" + parts + ")"


def factor(depth):
    return "-" + space() + factor(depth) if random.randrange(4) == 0 else atom(depth)


def product(depth):
    return (space() + random.choice("*/%") + space()).join(factor(depth) for _ in range(random.choice([1, 1, 2, 3])))


def a_sum(depth):
    return (space() + random.choice("+-") + space()).join(product(depth) for _ in range(random.choice([1, 1, 2])))


BAD = ["1" * 1099 + "x", "(" * 1099, "- " * 549 + "x", "1 + " * 274 + "x", "sat(" * 274, "1" + " " * 1098 + "x", "1)" + " )" * 548 + "x"]


def expressions(count=50000):
    pattern = re.compile(SCHEMA["$defs"]["expression"]["pattern"])
    output = re.compile(SCHEMA["properties"]["outputs"]["items"]["pattern"])
    for _ in range(count):
        text = space() + a_sum(random.randrange(4)) + space()
        if not pattern.search(text):
            fail("expression", text)
    for k in range(256 * 8):
        if not output.search(f" (( b{k // 8}.{k % 8} ) )"):
            fail("output", k)
    worst = 0
    for bad in BAD:
        began = time.process_time()
        if pattern.search(bad):
            fail("accepted", bad)
        worst = max(worst, time.process_time() - began)
    print(f"{count} drawn expressions accepted; the slowest of {len(BAD)} bad texts of 1,100 bytes took {worst * 1000:.1f} ms")


def literal(text):
    return ast.literal_eval('"""' + text + '"""')


def documents():
    """The documents of mission_rows with the answer that its row wants: rows OLD|NEW|..|ANSWER, in length_rows OLD|FRONT|ONE|COUNT|BACK|ANSWER."""
    folder = ROOT + "/crates/mission_rows/src/"
    mission = literal(re.search(r'MISSION: &str = "((?:[^"\\]|\\.)*)"', content(folder + "answers.rt"))[1])
    # script_rows has entries of scripts, no documents.
    for name in sorted({os.path.basename(path)[:-3] for path in glob.glob(folder + "*_rows.rt")} - {"script_rows"}):
        for table in re.findall(r'const (?!HEAD)[A-Z_]+: &str =\s+"((?:[^"\\]|\\.)*)"', content(f"{folder}{name}.rt")):
            for row in literal(table).split("\n")[:-1]:
                *changes, want = row.replace("¶", "\n").split("|")
                if name == "length_rows":
                    old, front, one, count, back = changes
                    changes = [old, front + one * int(count) + back]
                text = mission
                for old, new in zip(changes[::2], changes[1::2], strict=True):
                    text = text.replace(old, new)
                yield text, want, row


def rows():
    seen = collections.Counter()
    for text, want, row in documents():
        said, (status, line) = complaint(text), check(text)
        if (status, line) != (3, "mission: " + want) and (status, want) != (0, "read"):
            fail("row", row, status, line)
        # Python reads TOML 1.0, the program 1.1: what only Python refuses tells nothing of the schema.
        if status == 0 and said and said != "toml":
            fail("the schema refuses what the program reads", row, said)
        how = "that the schema accepts" if said is None else "that Python's TOML 1.0 refuses" if said == "toml" else "that the schema refuses"
        seen["read" if status == 0 else "refused", how] += 1
    print(f"{sum(seen.values())} documents of mission_rows:", ", ".join(f"{n} {a} {b}" for (a, b), n in sorted(seen.items())))


NUMBERS = [0, 1, 2, 3, 4, 5, 6, 7, 8, 9, 64, 65, 255, 256, 257, 1999, 2000, 2001, 65535, 65536, 65537, 6553600, 6553601, -1]
PIECES = [" ", "(", ")", "b0.0", "in1", "-", '"', ",", "[", "]", "x", "a1"]
OLD_WORDS = r"\b(vote|round1|request|crash|restart|lose|forge|damage|in0|b0\.0)\b"
NEW_WORDS = ["vote", "round2", "tasks", "output", "switch", "crash", "restart", "lose", "damage", "in0", "in3", "b0.7", "b1.0", "((b0.0))", "sat(1,2,3)"]
KEYS = ["version = 2", 'decay = "subtract"', 'decay = "multiply"', "returning = 2", "keep = 0", "final = 0", "sweep = 64", "decrement = 6553600"]
TABLES = ["[actuator]\nstep = [1]\n", "[actuator]\nstep = [3, 0]\nstart = [-1, 5]\n", "[actuator]\nstart = [0]\n", "[[init]]\nblock = 0\nwords = [1, 2, 3, 4, 5, 6, 7, 8]\n"]


def at_random(text, found, new):
    if not found:
        return text
    it = random.choice(found)
    return text[: it.start()] + str(random.choice(new)) + text[it.end() :]


def changed(text):
    kind = random.randrange(7)
    if kind <= 1:
        return at_random(text, list(re.finditer(r"-?\d+", text)), NUMBERS)
    if kind == 2:
        lines = text.split("\n")
        lines.pop(random.randrange(len(lines)))
        return "\n".join(lines)
    if kind == 3:
        place = random.randrange(len(text))
        return text[:place] + random.choice(PIECES) + text[place:]
    if kind == 4:
        return at_random(text, list(re.finditer(OLD_WORDS, text)), NEW_WORDS)
    if kind == 5:
        return text.replace("[core]", random.choice(TABLES) + "[core]", 1)
    return text.replace("[core]", "[core]\n" + random.choice(KEYS), 1)


def mutated():
    texts = [content(path) for path in EXAMPLES]
    refused = accepted = 0
    alone = collections.Counter()
    while refused < TRIES:
        text = random.choice(texts)
        for _ in range(random.choice([1, 1, 2])):
            text = changed(text)
        said = complaint(text)
        if said == "toml":
            continue
        if said is None:
            accepted += 1
            if accepted % 5 == 0:
                status, line = check(text)
                alone["read" if status == 0 else re.sub(r"\d+", "N", line)] += 1
            continue
        refused += 1
        status, line = check(text)
        if status != 3:
            fail("the schema refuses what the program reads", said, status, line, text)
    print(f"{refused} changed missions that the schema refuses, each refused by the program")
    print(f"{accepted} that it accepts, of each fifth the program says:", ", ".join(f"{k} {line}" for line, k in alone.most_common()))


if subprocess.run([sys.executable, HERE + "/make_schema.py", "--check"]).returncode:
    wrong += 1
random.seed(SEED)
for test in examples, expressions, rows, mutated:
    test()
sys.exit(f"{wrong} wrong" if wrong else None)
