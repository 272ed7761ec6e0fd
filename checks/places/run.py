#!/usr/bin/env python3
"""Makes scripts at random with one fault each, and compares the line and the column that pt_run says with those of the fault.

    checks/places/run.py               3,000 scripts
    checks/places/run.py --count N     so many
    checks/places/run.py --seed S      other ones
    checks/places/run.py --show        also prints each kind of fault, with how many scripts had it

A script is made as a tree and written by this program, which notes where each value begins. Blanks, line feeds, escapes in
names and members that a later one of the same name replaces are put in at random. What they hold may look like the end of a
string, a list or an object. Then one value is made wrong, and the place that is to be said is that of this value; of the
object, if a member is missing. A text that is no JSON has a wrong byte in place of a value. The program is bin/pt_run, which
is built first if it is not up to date.
"""
from __future__ import annotations

import argparse
import random
import re
import subprocess
import sys
import tempfile
from collections import Counter
from collections.abc import Callable
from concurrent.futures import ThreadPoolExecutor
from dataclasses import dataclass, field
from pathlib import Path

ROOT = Path(__file__).resolve().parent.parent.parent
PROGRAM = ROOT / "bin" / "pt_run"
SAID = re.compile(rb"^script refused: (\d) \w+, [a-z0-9 ]+\n[\w, ]*?, line (\d+), column (\d+): [^\n]+\n$")
SYNTAX, FIELD, NAME, BOUNDS = 1, 2, 3, 4


@dataclass
class Value:
    """A value of a script: a text of JSON as it is, the items of a list, or the members of an object."""

    text: str | None = None
    items: list[Value] | None = None
    members: list[tuple[str, Value]] | None = None
    # where it begins, once it was written
    begin: int = -1

    def get(self, name: str) -> Value:
        """The member of this name."""
        return next(value for key, value in self.members or [] if key == name)

    def put(self, name: str, value: Value) -> Value:
        """Makes this the member of this name, and returns it."""
        self.drop(name)
        (self.members or []).append((name, value))
        return value

    def drop(self, name: str) -> None:
        """Takes the member of this name away."""
        self.members = [it for it in self.members or [] if it[0] != name]


def text(word: str) -> Value:
    """A string, without escapes."""
    return Value(text=f'"{word}"')


def number(it: int) -> Value:
    return Value(text=str(it))


@dataclass
class Process:
    """A process of a script, with what its operations can name."""

    value: Value
    operations: list[Value]
    names: list[str]
    depth: int
    tags: int = 0


@dataclass
class Script:
    """A script that is right, with its processes and the random numbers that it is made by."""

    chance: random.Random
    whole: Value
    processes: list[Process] = field(default_factory=list)

    def name(self, process: Process) -> Value:
        """The name of a process that is in scope."""
        return text(self.chance.choice(process.names))


def send(script: Script, process: Process) -> Value:
    members = [("to", script.name(process)), ("kind", number(script.chance.randrange(9))), ("num", number(script.chance.randrange(-9, 9)))]
    if script.chance.random() < 0.5:
        members.append(("who", script.name(process)))
    return operation("send", *members)


def operation(word: str, *members: tuple[str, Value]) -> Value:
    return Value(members=[("op", text(word)), *members])


def receive(script: Script, process: Process) -> Value:
    pick = script.chance.choice(["kind", "from", "exit"])
    held = number(script.chance.randrange(9)) if pick == "kind" else script.name(process)
    return operation("receive", ("pick", Value(members=[(pick, held)])))


def monitor(script: Script, process: Process) -> Value:
    process.tags += 1
    return operation("monitor", ("to", script.name(process)), ("tag", text(f"t{process.tags}")))


def some_operation(script: Script, process: Process) -> Value:
    """An operation that is right where it is."""
    makers: list[Callable[[Script, Process], Value]] = [
        send, receive, monitor,
        lambda s, p: operation("link", ("to", s.name(p))),
        lambda s, p: operation("trap", ("on", Value(text="true"))),
        lambda s, p: operation("signal", ("to", s.name(p)), ("reason", text("kill"))),
        lambda s, p: operation("exit", ("reason", text("other:7"))),
        lambda s, p: operation("pass"),
    ]
    return script.chance.choice(makers)(script, process)


def fill(script: Script, process: Process, names: list[str]) -> None:
    """Gives a process some operations, and spawns with theirs."""
    for _ in range(script.chance.randrange(1, 5)):
        if process.depth < 4 and script.chance.random() < 0.35:
            spawn(script, process, names)
        else:
            process.operations.append(some_operation(script, process))


def spawn(script: Script, process: Process, names: list[str]) -> None:
    """Gives a process a spawn. What it spawns is numbered before later ones, and can be named behind the spawn."""
    name = f"p{len(script.processes)}"
    operations: list[Value] = []
    value = operation("spawn", ("name", text(name)), ("ops", Value(items=operations)))
    process.operations.append(value)
    child = Process(value, operations, [*names, "parent"], process.depth + 1)
    script.processes.append(child)
    fill(script, child, names)
    process.names.append(name)


def some_script(chance: random.Random) -> Script:
    """A script that is right."""
    tops = [f"top{n}" for n in range(chance.randrange(1, 4))]
    whole = Value(members=[("format", number(1)), ("desks", number(2)), ("slots", number(1000))])
    script = Script(chance, whole)
    values = []
    for top in tops:
        operations: list[Value] = []
        value = Value(members=[("name", text(top)), ("desk", number(chance.randrange(2))), ("ops", Value(items=operations))])
        values.append(value)
        process = Process(value, operations, [*tops, "self"], 0)
        script.processes.append(process)
        fill(script, process, [*tops, "self"])
    whole.put("processes", Value(items=values))
    return script


# Each fault makes a script wrong, and returns what the fault is, and the value that is at fault.
Fault = Callable[[Script], "tuple[int, Value] | None"]


def wrong_kind(script: Script, value: Value, name: str) -> tuple[int, Value]:
    """A value of a type that this member never has."""
    held = script.chance.choice([Value(text="null"), Value(items=[number(1)]), Value(members=[("a", text("]},:"))]), Value(text="1.5")])
    if name in ("ops", "processes"):
        held = script.chance.choice([Value(text="null"), Value(members=[]), text("[")])
    return FIELD, value.put(name, held)


def setting_of_wrong_kind(script: Script) -> tuple[int, Value]:
    return wrong_kind(script, script.whole, script.chance.choice(["format", "desks", "slots", "top", "lane", "budget", "processes"]))


def setting_out_of_range(script: Script) -> tuple[int, Value]:
    name = script.chance.choice(["format", "desks", "slots", "top", "lane", "budget"])
    return BOUNDS, script.whole.put(name, number(script.chance.choice([0, -1, 4_294_967_296])))


def setting_is_missing(script: Script) -> tuple[int, Value]:
    script.whole.drop(script.chance.choice(["format", "desks", "processes"]))
    return FIELD, script.whole


def whole_is_no_object(script: Script) -> tuple[int, Value]:
    script.whole = script.chance.choice([Value(items=[script.whole]), number(7), text("{")])
    return FIELD, script.whole


def some_object(script: Script) -> Value:
    """The script, a process or an operation."""
    process = script.chance.choice(script.processes)
    return script.chance.choice([script.whole, process.value, script.chance.choice(process.operations)])


def member_is_unknown(script: Script) -> tuple[int, Value]:
    value = some_object(script)
    return FIELD, value.put("pogn", script.chance.choice([number(1), Value(members=[("op", text("spawn"))])]))


def member_without_name(script: Script) -> tuple[int, Value]:
    """An unknown member whose name has not the form of one: the line says that the object has it."""
    value = some_object(script)
    value.put(script.chance.choice(["", "a b", "1", "x-y", "[", "\\"]), number(1))
    return FIELD, value


def process_of_wrong_kind(script: Script) -> tuple[int, Value]:
    process = script.chance.choice(script.processes)
    return wrong_kind(script, process.value, script.chance.choice(["name", "trap", "ops"]))


def process_lacks_a_member(script: Script) -> tuple[int, Value]:
    process = script.chance.choice(script.processes)
    process.value.drop(script.chance.choice(["name", "ops"]))
    return FIELD, process.value


def process_has_no_name(script: Script) -> tuple[int, Value]:
    process = script.chance.choice(script.processes)
    return FIELD, process.value.put("name", text(script.chance.choice(["self", "parent", "", "1a", "a,b", "a" * 33])))


def name_is_taken(script: Script) -> tuple[int, Value] | None:
    """A name that a process of the top list has before."""
    later = script.processes[1:]
    return (NAME, script.chance.choice(later).value.put("name", text("top0"))) if later else None


def desk_out_of_range(script: Script) -> tuple[int, Value] | None:
    tops = [it for it in script.processes if it.depth == 0]
    return BOUNDS, script.chance.choice(tops).value.put("desk", number(script.chance.choice([2, -1])))


def process_is_no_object(script: Script) -> tuple[int, Value]:
    it = script.chance.choice([number(3), Value(items=[]), text("}")])
    items = script.whole.get("processes").items or []
    items[script.chance.randrange(len(items))] = it
    return FIELD, it


def no_slot_is_left(script: Script) -> tuple[int, Value] | None:
    """One process more than its desk has slots, which is counted for those of the top list alone."""
    tops = [it.value for it in script.processes if it.depth == 0]
    if len(tops) < 2:
        return None
    for top in tops:
        top.put("desk", number(0))
    script.whole.put("slots", number(1))
    return BOUNDS, tops[1]


def put_operation(script: Script, process: Process, value: Value) -> Value:
    """Puts an operation behind all that are there, and returns it."""
    process.operations.append(value)
    return value


def operation_at_fault(script: Script, word: str, *members: tuple[str, Value]) -> Value:
    return put_operation(script, script.chance.choice(script.processes), operation(word, *members))


def operation_is_none(script: Script) -> tuple[int, Value]:
    process = script.chance.choice(script.processes)
    it = script.chance.choice([number(3), Value(items=[]), text("spawn"), Value(text="null")])
    return FIELD, put_operation(script, process, it)


def operation_has_no_word(script: Script) -> tuple[int, Value]:
    return FIELD, put_operation(script, script.chance.choice(script.processes), Value(members=[("to", text("self"))]))


def operation_is_unknown(script: Script) -> tuple[int, Value]:
    value = operation_at_fault(script, "sned", ("to", text("self")))
    return FIELD, value.put("op", script.chance.choice([text("sned"), text("alive"), number(1), text("{")]))


def operation_lacks_a_member(script: Script) -> tuple[int, Value]:
    word, names = script.chance.choice([("send", ["to", "kind", "num"]), ("monitor", ["to", "tag"]), ("trap", ["on"]), ("exit", ["reason"])])
    right = {"to": text("self"), "kind": number(1), "num": number(1), "tag": text("new"), "on": Value(text="true"), "reason": text("kill")}
    value = operation_at_fault(script, word, *((name, right[name]) for name in names))
    value.drop(script.chance.choice(names))
    return FIELD, value


def member_of_wrong_kind(script: Script) -> tuple[int, Value]:
    value = operation_at_fault(script, "send", ("to", text("self")), ("kind", number(1)), ("num", number(1)), ("who", text("self")))
    return wrong_kind(script, value, script.chance.choice(["to", "kind", "num", "who"]))


def member_out_of_range(script: Script) -> tuple[int, Value]:
    value = operation_at_fault(script, "send", ("to", text("self")), ("kind", number(1)), ("num", number(1)))
    name, most = script.chance.choice([("kind", 4_294_967_295), ("num", 9_223_372_036_854_775_807)])
    return BOUNDS, value.put(name, number(most + 1))


def name_of_nobody(script: Script) -> tuple[int, Value]:
    word = script.chance.choice(["link", "unlink"])
    return NAME, operation_at_fault(script, word, ("to", text(script.chance.choice(["nobody", "a b", ""])))).get("to")


def tag_of_nothing(script: Script) -> tuple[int, Value]:
    return NAME, operation_at_fault(script, "demonitor", ("tag", text("none"))).get("tag")


def tag_is_taken(script: Script) -> tuple[int, Value]:
    process = script.chance.choice(script.processes)
    put_operation(script, process, operation("monitor", ("to", text("self")), ("tag", text("mine"))))
    return NAME, put_operation(script, process, operation("monitor", ("to", text("self")), ("tag", text("mine")))).get("tag")


def reason_is_none(script: Script) -> tuple[int, Value]:
    fault, word = script.chance.choice([(FIELD, "nomral"), (FIELD, "other:07"), (BOUNDS, "other:4294967296")])
    return fault, operation_at_fault(script, "exit", ("reason", text(word))).get("reason")


def pick_is_none(script: Script) -> tuple[int, Value]:
    pick = script.chance.choice([Value(members=[]), Value(members=[("knid", number(1))]), Value(text="null"), Value(items=[])])
    return FIELD, operation_at_fault(script, "receive", ("pick", pick)).get("pick")


def member_of_pick_is_wrong(script: Script) -> tuple[int, Value]:
    fault, name, held = script.chance.choice([
        (FIELD, "kind", text("1")), (BOUNDS, "kind", number(-1)), (NAME, "from", text("nobody")), (NAME, "exit", text("nobody")),
        (NAME, "down", text("none")), (FIELD, "down", number(1)),
    ])
    return fault, operation_at_fault(script, script.chance.choice(["receive", "check"]), ("pick", Value(members=[(name, held)]))).get("pick").get(name)


def number_of_format_three(script: Script) -> tuple[int, Value]:
    """The number of tries or of rounds, of a wrong type or out of its range."""
    script.whole.put("format", number(3))
    word, name, least = script.chance.choice([("receive", "after", 0), ("repeat", "times", 1)])
    value = operation_at_fault(script, word, (name, number(1)))
    if script.chance.random() < 0.5:
        return wrong_kind(script, value, name)
    return BOUNDS, value.put(name, number(script.chance.choice([least - 1, 65_537])))


def later_format(script: Script) -> tuple[int, Value]:
    """What only format 3 has."""
    word, name = script.chance.choice([("receive", "after"), ("if", "op"), ("repeat", "op"), ("end", "op")])
    members = [(name, number(1))] if name == "after" else []
    return FIELD, operation_at_fault(script, word, *members).get(name)


def block_is_wrong(script: Script) -> tuple[int, Value]:
    """A block that does not end, or an end of one that did not begin. The operation at fault has a mark here."""
    script.whole.put("format", number(3))
    process = script.chance.choice(script.processes)
    put_operation(script, process, operation("check"))
    words = script.chance.choice([["!if", "pass"], ["!repeat"], ["pass", "!if", "end"], ["!end"], ["!again"], ["if", "!again"], ["repeat", "!else"]])
    values = []
    for word in words:
        rounds = [("times", number(2))] if "repeat" in word else []
        values.append(put_operation(script, process, operation(word.strip("!"), *rounds)))
    return FIELD, next(value for word, value in zip(words, values) if word[0] == "!")


def spawns_too_deep(script: Script) -> tuple[int, Value]:
    """A spawn inside eight others."""
    process = script.chance.choice(script.processes)
    operations = process.operations
    for depth in range(process.depth, 9):
        inner: list[Value] = []
        value = operation("spawn", ("name", text(f"deep{depth}")), ("ops", Value(items=inner)))
        operations.append(value)
        operations = inner
    return BOUNDS, value


def byte_is_wrong(script: Script) -> tuple[int, Value]:
    """A byte with which no value begins, in place of a value."""
    value = script.chance.choice(script.chance.choice(script.processes).operations)
    value.text, value.members = "?", None
    return SYNTAX, value


FAULTS: list[Fault] = [
    setting_of_wrong_kind, setting_out_of_range, setting_is_missing, whole_is_no_object, member_is_unknown, member_without_name,
    process_of_wrong_kind, process_lacks_a_member, process_has_no_name, name_is_taken, desk_out_of_range, process_is_no_object,
    no_slot_is_left, operation_is_none, operation_has_no_word, operation_is_unknown, operation_lacks_a_member,
    member_of_wrong_kind, member_out_of_range, name_of_nobody, tag_of_nothing, tag_is_taken, reason_is_none, pick_is_none,
    member_of_pick_is_wrong, number_of_format_three, later_format, block_is_wrong, spawns_too_deep, byte_is_wrong,
]

# What a member that is replaced by a later one may hold.
DECOYS = ["0", "null", '"]"', '"}"', '"\\""', '"\\\\"', '",:"', '"\\u005d"', '[{"op":"spawn","ops":[{}]}]', '{"ops":[1,2],"a":{"b":[]}}', "[]", "{}",
          '"é,\\"}"', "-1.5e3"]


class Writer:
    """Writes a script, and notes where its values begin."""

    def __init__(self, chance: random.Random):
        self.chance = chance
        self.bytes = bytearray()

    def blank(self) -> None:
        """Some white space, or none."""
        self.bytes += self.chance.choices([b"", b" ", b"\n", b"\t", b"\r\n", b"\n\n  "], [12, 3, 2, 1, 1, 1])[0]

    def key(self, name: str) -> None:
        """A name, with some letters escaped."""
        self.bytes += b'"'
        for letter in name:
            escaped = letter in '"\\' or self.chance.random() < 0.05
            self.bytes += (f"\\u{ord(letter):04x}" if escaped else letter).encode()
        self.bytes += b'"'

    def member(self, name: str, value: Value | str) -> None:
        self.blank()
        self.key(name)
        self.blank()
        self.bytes += b":"
        self.blank()
        if isinstance(value, str):
            self.bytes += value.encode()
        else:
            self.value(value)
        self.blank()

    def object(self, members: list[tuple[str, Value]]) -> None:
        """An object, with members that later ones replace, in any order."""
        rows: list[tuple[str, Value | str]] = list(members)
        self.chance.shuffle(rows)
        for name, _ in members:
            if self.chance.random() < 0.06:
                at = next(n for n, row in enumerate(rows) if row[0] == name)
                rows.insert(self.chance.randrange(at + 1), (name, self.chance.choice(DECOYS)))
        self.bytes += b"{"
        for at, (name, value) in enumerate(rows):
            self.bytes += b"," if at else b""
            self.member(name, value)
        if not rows:
            self.blank()
        self.bytes += b"}"

    def list(self, items: list[Value]) -> None:
        self.bytes += b"["
        for at, item in enumerate(items):
            self.bytes += b"," if at else b""
            self.blank()
            self.value(item)
            self.blank()
        self.bytes += b"]"

    def value(self, value: Value) -> None:
        value.begin = len(self.bytes)
        if value.members is not None:
            self.object(value.members)
        elif value.items is not None:
            self.list(value.items)
        else:
            self.bytes += (value.text or "").encode()


@dataclass
class Case:
    """A script with a fault, and what is to be said of it."""

    kind: str
    script: bytes
    fault: int
    line: int
    column: int


def some_case(seed: str, make: Fault) -> Case | None:
    """A script with a fault of this kind, or none where the script has no place for it."""
    chance = random.Random(seed)
    script = some_script(chance)
    made = make(script)
    if made is None:
        return None
    fault, value = made
    writer = Writer(chance)
    writer.blank()
    writer.value(script.whole)
    writer.blank()
    before = bytes(writer.bytes[: value.begin])
    line, column = before.count(b"\n") + 1, len(before) - (before.rfind(b"\n") + 1) + 1
    return Case(getattr(make, "__name__", ""), bytes(writer.bytes), fault, line, column)


def wrong_with(case: Case) -> str | None:
    """What is wrong with what the program says of a case."""
    ran = subprocess.run([PROGRAM, "--explain"], input=case.script, capture_output=True, check=False)
    found = SAID.match(ran.stderr)
    wanted = (case.fault, case.line, case.column)
    if ran.returncode == 1 and not ran.stdout and found and tuple(int(it) for it in found.groups()) == wanted:
        return None
    return f"{case.kind}: fault {case.fault} at line {case.line}, column {case.column}; status {ran.returncode}, it says {ran.stderr!r}"


def main(words: list[str]) -> int:
    parser = argparse.ArgumentParser(description=__doc__, formatter_class=argparse.RawDescriptionHelpFormatter)
    parser.add_argument("--count", type=int, default=3000)
    parser.add_argument("--seed", default="places")
    parser.add_argument("--show", action="store_true")
    asked = parser.parse_args(words)
    subprocess.run([ROOT / ".ci" / "build", "pt_run"], check=True, stdout=subprocess.DEVNULL)
    made = (some_case(f"{asked.seed} {n}", FAULTS[n % len(FAULTS)]) for n in range(asked.count))
    cases = [case for case in made if case is not None]
    with ThreadPoolExecutor() as pool:
        said = list(pool.map(wrong_with, cases))
    for case, words_of_it in zip(cases, said, strict=True):
        if words_of_it:
            print(f"{words_of_it}\n    {case.script!r}")
    if asked.show:
        for kind, count in sorted(Counter(case.kind for case in cases).items()):
            print(f"{count:6} {kind}")
    failed = sum(it is not None for it in said)
    print(f"places: {len(cases) - failed} passed, {failed} failed")
    return 1 if failed else 0


if __name__ == "__main__":
    sys.exit(main(sys.argv[1:]))
