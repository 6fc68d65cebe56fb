#!/usr/bin/env python3
"""Writes missions/mission.schema.json, the JSON Schema (2020-12) of a mission's TOML document (docs/FORMATS.md, section 2).

  tools/schema/make_schema.py            writes the file
  tools/schema/make_schema.py --check    ends with 1 where the file is another

What the schema refuses, `guards check` refuses too; test_schema.py holds it against the program.
"""
import json
import os
import sys

# The key `actuator`: True where the program reads it.
ACTUATOR = True

I64 = {"type": "integer", "minimum": -2**63, "maximum": 2**63 - 1}
NAME = "^[a-z][a-z0-9_]*$"
BLOCK = r"(?:25[0-5]|2[0-4][0-9]|1[0-9][0-9]|[1-9][0-9]|[0-9])"
WORD = rf"b{BLOCK}\.[0-7]"
# An expression as far as a regular expression tells it: operands with signs between them. Which parentheses belong
# together, and that a call has three parts, is left to the reader. No text matches in two ways, so it is quick.
OPERAND = rf"(?:cycle|in[0-3]|{WORD}|0|[1-9][0-9]{{0,18}})"
FRONT = r"(?:[-( ]|(?:sat|mid|ramp|pick) *\()*"
EXPR = rf"^{FRONT}{OPERAND}[) ]*(?:[-+*/%,]{FRONT}{OPERAND}[) ]*)*$"
OUTPUT = rf"^[( ]*{WORD}[) ]*$"
SLOTS = ["request", "round1", "round2", "round3", "tasks", "vote", "sweep", "final", "switch"]

def integer(low, high, text, default=None):
    out = {"type": "integer", "minimum": low, "maximum": high, "description": text}
    if default is not None:
        out["default"] = default
        out["description"] += f" Default {default}."
    return out

core = {
    "channels": integer(3, 7, "Number of redundant channels. Each row of `sensors` has so many arrays. With 4 to 6, one may be disturbed at a time, with 7 two, with 3 none."),
    "cycles": integer(1, 2000, "How long the run is, in cycles."),
    "blocks": integer(1, 256, "Blocks of a context. A block has eight words (64-bit integers) `bI.0` to `bI.7`."),
    "width": integer(1, 4, "Sensor words of a channel in a cycle. Tasks read the agreed ones as `in0` to `in3`."),
    "keep": integer(0, 65536, "What is left of an error count after a cycle without an error, in units of 1/65536: 32768 halves it. Only under `decay = \"multiply\"`.", 32768),
    "threshold": integer(65536, 6553600, "Count at which a channel is removed, in units of 1/65536. Each errant cycle adds 65536, so 131072 is two errant cycles in a row.", 131072),
    "return_after": integer(0, 1000, "Cycles that a removed channel waits before it asks to be restored.", 2),
    "sweep": integer(1, 64, "The most blocks that are copied to a returning channel in a cycle. A join has a bound only if a table row writes fewer blocks than this.", 16),
    "final": integer(0, 64, "The most blocks of the last frame to a returning channel. A join has a bound only if no table row writes more blocks than this.", 8),
    "version": integer(1, 2, "Version of the frames.", 1),
    "decay": {"enum": ["multiply", "subtract"], "default": "multiply", "description": "How an error count falls: times `keep`/65536, or by `decrement` (this needs `version = 2`). Default \"multiply\"."},
    "decrement": integer(0, 6553600, "What a count falls by in a cycle without an error, in units of 1/65536. Only under `decay = \"subtract\"`.", 32768),
    "returning": integer(1, 2, "The most channels that one transfer restores.", 1),
}
expr = {"type": "string", "maxLength": 1100, "pattern": EXPR}
write = {
    "type": "object", "required": ["block"], "minProperties": 2, "additionalProperties": False,
    "description": "One write: all its expressions are valued on the context before it, then stored into the named words of the block.",
    "properties": {"block": integer(0, 255, "The block that is written, below `core.blocks`.")} | {
        f"w{k}": {"$ref": "#/$defs/expression", "description": f"Expression for word {k} of the block: + - * / %, sat(a,b,c), mid(a,b,c), ramp(a,b,c), pick(a,b,c), cycle, in0 to in3, bI.J."} for k in range(8)},
}
kinds = {
    "crash": ["cycle", "slot", "channel"],
    "restart": ["cycle", "channel"],
    "damage": ["cycle", "channel", "block", "word", "value"],
    "lose": ["cycle", "slot", "from", "to"],
    "forge": ["cycle", "slot", "from", "to", "bytes"],
}
fault = {
    "type": "object", "required": ["kind"],
    "properties": {
        "kind": {"enum": list(kinds), "description": "crash: the channel is down from the start of the slot. restart: a channel that is down asks to be restored. damage: one word of a context is set. lose: a piece on the bus is lost. forge: other bytes arrive in its place."},
        "cycle": integer(0, 1999, "The cycle, below `core.cycles`."),
        "slot": {"enum": SLOTS + ["output"], "description": "The slot of the cycle; `output`, the slot of the actuators, in lose and forge alone."},
        "channel": integer(0, 6, "The channel that it happens to, below `core.channels`."),
        "from": integer(0, 6, "The sender, below `core.channels`."),
        "to": integer(0, 8, "The receiver: a channel, 7 (the switchboard) or 8 (an actuator). Left out: every receiver."),
        "block": integer(0, 255, "The block, below `core.blocks`."),
        "word": integer(0, 7, "The word of the block."),
        "value": I64 | {"description": "What the word becomes."},
        "bytes": {"type": "string", "maxLength": 8600, "pattern": "^(?:[0-9a-f]{2})*$", "description": "The piece that arrives, as small hexadecimal digits, two for a byte, at most 4300 bytes."},
    },
    "allOf": [
        {"if": {"required": ["kind"], "properties": {"kind": {"const": kind}}},
         "then": {"required": ["kind"] + [f for f in fields if f != "to"], "propertyNames": {"enum": ["kind"] + fields}}}
        for kind, fields in kinds.items()
    ] + [
        {"if": {"required": ["kind"], "properties": {"kind": {"const": "crash"}}},
         "then": {"properties": {"slot": {"enum": SLOTS}}}}
    ] + [
        {"if": {"required": ["from"], "properties": {"from": {"const": k}}},
         "then": {"properties": {"to": {"not": {"const": k}}}}} for k in range(7)
    ],
}

def where_core(key, value, then):
    return {"if": {"required": ["core"], "properties": {"core": {"type": "object", "required": [key], "properties": {key: {"const": value}}}}},
            "then": {"properties": then}}

rules = []
for n in range(3, 8):
    then = {"sensors": {"items": {"minItems": n, "maxItems": n}}}
    if n < 7:
        then["fault"] = {"items": {"properties": {
            "channel": {"maximum": n - 1}, "from": {"maximum": n - 1}, "to": {"anyOf": [{"maximum": n - 1}, {"minimum": 7}]}}}}
    rules.append(where_core("channels", n, then))
for w in range(1, 5):
    then = {"sensors": {"items": {"items": {"minItems": w, "maxItems": w}}}}
    if w < 4:
        then["task"] = {"items": {"properties": {"writes": {"items": {"patternProperties": {"^w[0-7]$": {"not": {"pattern": f"in[{w}-3]"}}}}}}}}
    rules.append(where_core("width", w, then))
rules.append({"properties": {"core": {
    "if": {"required": ["decay"], "properties": {"decay": {"const": "subtract"}}},
    "then": {"required": ["version"], "properties": {"version": {"const": 2}}}}}})

actuator = {
    "type": "object", "required": ["step"], "additionalProperties": False,
    "description": "An actuator: it takes the channels' votes over the bus and moves words of its own towards their majority.",
    "properties": {
        "step": {"type": "array", "minItems": 1, "maxItems": 8, "items": {"type": "integer", "minimum": 0, "maximum": 2**63 - 1},
                 "description": "How far each of its words moves in a cycle at most: one integer for each output."},
        "start": {"type": "array", "minItems": 1, "maxItems": 8, "items": I64,
                  "description": "Its words before the first cycle: one integer for each output. Default all zero."},
    },
}
for k in range(1, 9) if ACTUATOR else ():
    as_many = {"minItems": k, "maxItems": k}
    rules.append({"if": {"required": ["outputs"], "properties": {"outputs": {"type": "array"} | as_many}},
                  "then": {"properties": {"actuator": {"properties": {"step": as_many, "start": as_many}}}}})

schema = {
    "$schema": "https://json-schema.org/draft/2020-12/schema",
    "title": "Mission of guards",
    "description": "A mission: the sizes of the core, the tasks, their table, the outputs, the sensors and the faults. What this schema accepts `guards check` may still refuse; what it refuses `guards check` refuses too.",
    "type": "object",
    "required": ["core", "task", "table", "outputs", "sensors"],
    "additionalProperties": False,
    "properties": {
        "core": {"type": "object", "required": ["channels", "cycles", "blocks", "width"], "additionalProperties": False, "properties": core,
                 "description": "The sizes of the core and the rules of removal and return."},
        "init": {"type": "array", "maxItems": 256, "description": "Blocks that do not begin with eight zeros, each named once.",
                 "items": {"type": "object", "required": ["block", "words"], "additionalProperties": False, "properties": {
                     "block": integer(0, 255, "The block, below `core.blocks`."),
                     "words": {"type": "array", "minItems": 8, "maxItems": 8, "items": I64, "description": "Its eight words."}}}},
        "task": {"type": "array", "minItems": 1, "maxItems": 64, "description": "The tasks, each with a name of its own.",
                 "items": {"type": "object", "required": ["name", "writes"], "additionalProperties": False, "properties": {
                     "name": {"type": "string", "minLength": 1, "maxLength": 32, "pattern": NAME, "description": "1 to 32 bytes: a small letter, then small letters, digits and _."},
                     "writes": {"type": "array", "minItems": 1, "maxItems": 16, "items": {"$ref": "#/$defs/write"}, "description": "1 to 16 writes, made one after the other."}}}},
        "table": {"type": "array", "minItems": 1, "maxItems": 16, "description": "Rows of task names. In cycle c the row c mod rows is worked off.",
                  "items": {"type": "array", "maxItems": 16, "items": {"type": "string", "maxLength": 32, "pattern": NAME, "description": "The name of a task."}}},
        "outputs": {"type": "array", "minItems": 1, "maxItems": 8, "description": "The words that the channels vote on.",
                    "items": {"type": "string", "maxLength": 1100, "pattern": OUTPUT, "description": "One word of a block, such as b0.0."}},
        "sensors": {"type": "array", "minItems": 1, "maxItems": 64, "description": "Sensor rows. In cycle c the row c mod rows is read: one array for each channel, in it `width` words.",
                    "items": {"type": "array", "minItems": 3, "maxItems": 7, "items": {"type": "array", "minItems": 1, "maxItems": 4, "items": I64}}},
        "fault": {"type": "array", "maxItems": 1024, "items": {"$ref": "#/$defs/fault"},
                  "description": "The script of faults. The first lose or forge that fits a piece decides about it."},
    },
    "allOf": rules,
    "$defs": {"expression": expr, "write": write, "fault": fault},
}
if ACTUATOR:
    schema["properties"]["actuator"] = actuator

text = json.dumps(schema, indent=1, ensure_ascii=False) + "\n"
path = os.path.join(os.path.dirname(os.path.abspath(__file__)), "../../missions/mission.schema.json")
if sys.argv[1:] == ["--check"]:
    with open(path) as it:
        sys.exit(0 if it.read() == text else "missions/mission.schema.json is not what tools/schema/make_schema.py writes")
with open(path, "w") as it:
    it.write(text)
