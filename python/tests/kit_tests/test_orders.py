"""`hinge check --model`: operations of clients against all of their orders, one by one, and against tables made by hand."""

import json
import random
import unittest
from itertools import chain, combinations, permutations
from typing import Any, Iterator, Optional, Union

from kit import folder, run

from hinge.checks.operations import MODELS, Operation, operations_of
from hinge.checks.orders import first_impossible, least

Row = dict[str, Any]
OPS = {
    "register": ("read", "write"),
    "cas": ("read", "write", "cas"),
    "set": ("read", "add"),
    "queue": ("put", "get"),
    "list": ("append", "read"),
    "lock": ("acquire", "release"),
}
EMPTY: dict[str, Any] = {"register": None, "cas": None, "set": [], "queue": [], "list": [], "lock": None}


def outcome(row: Row, state: Any) -> tuple[Any, Any]:
    """Returns an operation's result and next state, or None without a result: the models' meaning, with lists and `if`."""
    op, value = row["op"], row.get("value")
    if op == "read":
        return state, state
    if op == "cas":
        return (True, value) if state == row["from"] else (False, state)
    if op == "get":
        return (state[0], state[1:]) if state else (None, state)
    if op in ("put", "append"):
        return None, state + [value]
    if op == "acquire":
        return (True, row["client"]) if state is None else (False, state)
    if op == "release":
        return (True, None) if state == row["client"] else (False, state)
    return None, sorted({*state, value}) if op == "add" else value


def canonical(result: Any, model: str) -> Any:
    return sorted(result) if model == "set" else result


def is_order(rows: tuple[Row, ...], model: str) -> bool:
    state = EMPTY[model]
    for place, row in enumerate(rows):
        if any(later["end"] is not None and later["end"] < row["begin"] for later in rows[place + 1 :]):
            return False
        result, state = outcome(row, state)
        if row["end"] is not None and "result" in row and canonical(row["result"], model) != canonical(result, model):
            return False
    return True


def has_order(rows: list[Row], model: str) -> bool:
    """All orders of all that returned and of any of the rest."""
    must, rest = ([row for row in rows if (row["end"] is None) == is_open] for is_open in (False, True))
    chosen = chain.from_iterable(combinations(rest, count) for count in range(len(rest) + 1))
    return any(is_order(order, model) for some in chosen for order in permutations([*must, *some]))


def history(draw: random.Random, model: str, count: int) -> list[Row]:
    """Operations that took effect in some order, of which some never returned and one may have another result."""
    state, rows = EMPTY[model], list[Row]()
    for place in range(count):
        op = draw.choice(OPS[model])
        row: Row = {"client": place, "key": 0, "op": op}
        if model == "lock":
            row |= {"client": draw.randrange(2)}
            row["op"] = op = "release" if state == row["client"] else "acquire"
        if op in ("write", "cas", "add", "put", "append"):
            row["value"] = place if op in ("put", "append") and draw.random() < 0.8 else draw.randrange(3)
        if op == "cas":
            row["from"] = draw.choice([None, 0, 1, 2])
        result, state = outcome(row, state)
        if op in ("read", "cas", "get", "acquire", "release"):
            row["result"] = result
        row["begin"], row["end"] = place - draw.randrange(1, 6) / 4, place + draw.randrange(1, 6) / 4
        if draw.random() < 0.2:
            row["end"] = None
        rows.append(row)
    shown = [row for row in rows if "result" in row]
    for row in shown if draw.random() < 0.7 else ():
        if row["op"] == "release":
            row["client"] = draw.randrange(2)
            continue
        values: list[Any] = [False, True] if row["op"] in ("cas", "acquire") else [None, 0, 1, 2]
        row["result"] = draw.sample([0, 1, 2], draw.randrange(4)) if isinstance(row["result"], list) else draw.choice(values)
    return rows


def of_rows(rows: list[Row], model: str) -> list[Operation]:
    text = "\n".join(map(json.dumps, rows)).encode()
    return [one for key in operations_of("rows", text, MODELS[model])[0].values() for one in key]


def loosened(rows: list[Row], kept: set[int]) -> Iterator[Row]:
    """The rows of which only some count: the rest may have taken effect at any moment."""
    for line, row in enumerate(rows, 1):
        yield row if line in kept else {**row, "begin": -100, "end": None}


class Orders(unittest.TestCase):
    def judge(self, rows: list[Row], model: str) -> Optional[Operation]:
        last = first_impossible(of_rows(rows, model), MODELS[model])
        self.assertEqual(last is None, has_order(rows, model), (model, rows))
        return last

    def test_random_histories_against_all_orders(self) -> None:
        draw = random.Random(1)
        for model in MODELS:
            verdicts = [self.judge(history(draw, model, draw.randrange(2, 7)), model) is None for _ in range(400)]
            self.assertGreater(min(verdicts.count(True), verdicts.count(False)), 50, model)

    def test_the_fewest_have_no_order_and_without_one_of_them_there_is_one(self) -> None:
        draw, count = random.Random(2), 0
        while count < 40:
            model = draw.choice(("register", "cas", "set", "list", "lock"))
            rows = history(draw, model, 5)
            operations = of_rows(rows, model)
            if last := first_impossible(operations, MODELS[model]):
                lines = {one.line for one in least(operations, MODELS[model], last)}
                self.assertFalse(has_order(list(loosened(rows, lines)), model), (lines, rows))
                for line in lines:
                    self.assertTrue(has_order(list(loosened(rows, lines - {line})), model), (lines, line, rows))
                count += 1


def row(text: str) -> Row:
    """As `1 x write 5 from 0 to 2`, with the value or result behind the operation; `to never` is one that never returned."""
    client, key, op, value, _, begin, _, end = text.split()
    name = "result" if op in ("read", "get", "acquire") else "value"
    return {
        "client": client, "key": key, "op": op, name: json.loads(value), "begin": int(begin), "end": None if end == "never" else int(end)
    }  # fmt: skip


STALE = ["1 x write 1 from 0 to 1", "1 x write 2 from 2 to 3", "2 x read 2 from 2 to 4", "2 x read 1 from 5 to 6"]
TABLE = {  # a name: the model, operations, and the lines of the fewest that have no order
    "a stale read": ("register", STALE, [1, 2, 4]),
    "two keys": ("register", ["1 x write 1 from 0 to 1", "1 y write 2 from 2 to 3", "2 x read 1 from 5 to 6"], []),
    "a read while both are written": ("register", [*STALE[:2], "2 x read 1 from 1 to 3"], []),
    "a write that took effect late": ("register", ["1 x write 1 from 0 to never", "2 x read null from 2 to 3", "2 x read 1 from 8 to 9"], []),
    "and then not": ("register", ["1 x write 1 from 0 to never", "2 x read 1 from 2 to 3", "2 x read null from 8 to 9"], [2, 3]),
    "a lost value": ("set", ["1 x add 1 from 0 to 1", "1 x add 2 from 2 to 3", "2 x read [1] from 5 to 6"], [2, 3]),
    "a value that came and went": ("set", ["1 x add 1 from 0 to 9", "2 x read [1] from 2 to 3", "2 x read [] from 5 to 6"], [2, 3]),
    "an add that two reads part": ("set", ["1 x add 1 from 0 to 9", "2 x read [] from 2 to 3", "2 x read [1] from 5 to 6"], []),
    "out of turn": ("queue", ["1 x put 1 from 0 to 1", "1 x put 2 from 2 to 3", "2 x get 2 from 5 to 6", "2 x get 1 from 7 to 8"], [1, 2, 3, 4]),
    "a value for two": ("queue", ["1 x put 1 from 0 to 1", "2 x get 1 from 5 to 6", "3 x get 1 from 5 to 8"], [2, 3]),
    "an order that changed": (
        "list", ["1 x append 1 from 0 to 3", "2 x append 2 from 0 to 3", "3 x read [1,2] from 4 to 5", "3 x read [2,1] from 6 to 7"], [3, 4]
    ),
    "an append that was lost": ("list", ["1 x append 1 from 0 to 1", "2 x append 2 from 0 to 1", "3 x read [2] from 4 to 5"], [1, 3]),
    "an append that was done twice": ("list", ["1 x append 1 from 0 to 1", "3 x read [1,1] from 4 to 5"], [2]),
    "an append that came late": ("list", ["1 x append 1 from 0 to never", "3 x read [] from 4 to 5", "3 x read [1] from 6 to 7"], []),
    "a lock for two": ("lock", ["1 x acquire true from 0 to 1", "2 x acquire true from 2 to 3"], [1, 2]),
    "a lock that was released": ("lock", ["1 x acquire true from 0 to 1", "1 x release null from 2 to 4", "2 x acquire true from 3 to 5"], []),
    "a release that may be late": ("lock", ["1 x acquire true from 0 to 1", "1 x release null from 2 to never", "2 x acquire true from 8 to 9"], []),
    "a lock that nobody held": ("lock", ["1 x acquire true from 3 to 4", "2 x acquire false from 0 to 2"], [2, 1]),
    "a holder that does not release": ("lock", ["1 x acquire true from 0 to 1", "2 x release null from 2 to 3"], [2]),
    "a value that another may have got": (
        "queue", ["1 x put 1 from 0 to 1", "1 x put 2 from 2 to 3", "2 x get null from 4 to never", "3 x get 2 from 5 to 8"], []
    ),
}  # fmt: skip
BAD = {  # a line, and what is said of it
    "5": "not an object of JSON; write {",
    '{"client": 1, "key": 1, "op": "write", "value": 1}': "'begin' is missing; write {",
    '{"client": 1, "key": 1, "op": "add", "value": 1, "begin": 0}': "op 'add': write write, read, or another --model",
    '{"client": 1, "key": 1, "op": ["read"], "begin": 0}': "op ['read']: write write, read, or another --model",
    '{"client": 1, "key": 1, "op": "write", "begin": 0}': "'value' is missing: write has value",
    '{"client": 1, "key": 1, "op": "write", "value": 1, "begin": "now"}': "begin 'now': write a number",
    f'{{"client": 1, "key": 1, "op": "write", "value": 1, "begin": {10**400}}}': "begin 1000",
    '{"client": 1, "key": 1, "op": "write", "value": 1, "begin": 2, "end": 1}': "end 1 is before begin 2",
    '{"client": 1, "key": 1, "op": "read", "begin": 2, "end": 3}': "'result' is missing: read has result",
    '{"client": 1, "key": 1, "op": "read", "begin": 2, "end": 3, "ok": null}': "ok None: write false if it surely didn't take place",
}


def check(rows: Union[list[Row], str], model: str) -> tuple[int, str, str]:
    path = folder() / "ops.jsonl"
    path.write_text(rows if isinstance(rows, str) else "".join(json.dumps(one) + "\n" for one in rows))
    done = run("check", path, "--model", model)
    return done.returncode, done.stdout.replace(f"{path}:", ""), done.stderr


class Command(unittest.TestCase):
    def test_the_fewest_operations_are_told_by_their_lines(self) -> None:
        for name, (model, texts, lines) in TABLE.items():
            with self.subTest(name):
                status, out, _ = check(list(map(row, texts)), model)
                told = out.partition("by these alone:\n")[2].splitlines()
                self.assertEqual((status, [int(text.partition(":")[0]) for text in told]), (int(bool(lines)), lines), out)

    def test_what_surely_failed_did_not_take_place(self) -> None:
        self.assertEqual(check([row(STALE[0]), {**row(STALE[1]), "ok": False}, row(STALE[3])], "register")[:2], (0, ""))

    def test_each_bad_line(self) -> None:
        for text, said in BAD.items():
            with self.subTest(text):
                status, _, error = check(json.dumps(row(STALE[0])) + "\n\n" + text + "\n", "register")
                self.assertEqual(status, 4)
                self.assertIn(f":3: {said}", error)

    def test_a_swap_or_lock_took_place_or_not(self) -> None:
        for model, op in (("cas", {"op": "cas", "from": None, "value": 5}), ("lock", {"op": "acquire"})):
            status, _, error = check([{"client": 1, "key": 1, **op, "result": 1, "begin": 0, "end": 1}], model)
            self.assertEqual((status, f":1: result 1: write true if the {op['op']} took place" in error), (4, True), error)

    def test_names_in_a_value_have_no_order(self) -> None:
        written, read = row(STALE[0]), row(STALE[3])
        self.assertEqual(check([{**written, "value": {"a": 1, "b": 2}}, {**read, "result": {"b": 2, "a": 1}}], "register")[0], 0)

    def test_without_a_result_or_a_model_nothing_is_judged(self) -> None:
        files: list[Union[list[Row], str]] = ["", [row(STALE[0])], [row("1 x read 1 from 0 to never")]]
        for rows in files:
            status, out, _ = check(rows, "register")
            self.assertEqual((status, "nothing can be judged" in out), (4, True))
        done = run("check", folder() / "ops.jsonl")
        self.assertEqual((done.returncode, "--model" in done.stdout), (4, True))

    def test_many_operations_that_nobody_can_order_in_time(self) -> None:
        """A hundred writes at once of one value, each of which may be the one that a read shows, and twenty values put at once."""
        same = [row(f"{client} x write 1 from 0 to never") for client in range(100)]
        self.assertEqual(check([*same, row("1 x read 1 from 2 to 3"), row("1 x read 2 from 4 to 5")], "register")[0], 1)
        listed = json.dumps([*range(40, 80), *range(40)]).replace(" ", "")
        appends = [row(f"{client} x append {client} from 0 to 100") for client in range(90)]
        self.assertEqual(check([*appends, row(f"1 x read {listed} from 101 to 102")], "list")[0], 1)
        self.assertEqual(check([*appends[:80], row(f"1 x read {listed} from 50 to 102")], "list")[0], 0)
        puts = [row(f"{client} x put {client % 19} from 0 to 100") for client in range(20)]
        status, out, _ = check([*puts, row("1 x get 77 from 101 to 102")], "queue")
        self.assertEqual((status, "too many orders of 21 operations" in out), (4, True))

    def test_a_long_queue_of_values_that_are_each_put_once(self) -> None:
        """Eleven values are put or got at any moment, a client never hears which value it got, and one finds nothing."""
        for count, more, lines in (2000, [], []), (
            300,
            ["2 x put 300 from 1100 to 1101", "3 x get 299 from 1200 to 1201"],
            [300, 601, 603],
        ):
            rows = [row(f"{n} x put {n} from {n} to {n + 5}") for n in range(count)]
            rows += [row(f"{n} x get {n} from {n + 1} to {n + 6}") for n in range(count - 1)]
            rows += [row("0 x get null from 5 to never"), row(f"1 x get null from {count + 700} to {count + 701}"), *map(row, more)]
            status, out, _ = check(rows, "queue")
            told = out.partition("by these alone:\n")[2].splitlines()
            self.assertEqual((status, [int(text.partition(":")[0]) for text in told]), (int(bool(lines)), lines), out)
