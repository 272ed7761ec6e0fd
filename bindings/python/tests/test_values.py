"""Properties of the values: each field takes its range and nothing else. They need no library."""

from __future__ import annotations

import copy
import dataclasses
import enum
import pickle
import random
import unittest
from typing import Any, Callable, Iterator

import pundewo.values as v
from domains import SHAPES, Ints, Small, draw_fields

ROUNDS = 30
NAMES = {v.Reason: (*v.REASONS, "other"), v.Item: v.ITEMS, v.Pick: v.PICKS, v.Signal: v.SIGNALS, v.Event: v.EVENTS}


def value_types() -> list[type]:
    """All types of values that the module has."""
    return [kind for name, kind in vars(v).items() if isinstance(kind, type) and kind.__module__ == v.__name__
            and not name.startswith("_") and not issubclass(kind, enum.Enum)]


def fields_of(kind: Any) -> list[str]:
    return [field.name for field in dataclasses.fields(kind)] if dataclasses.is_dataclass(kind) else list(kind._fields)


def fields_in(value: Any) -> dict[str, Any]:
    return {field: getattr(value, field) for field in fields_of(type(value))}


def changed(value: Any, **fields: Any) -> Any:
    return dataclasses.replace(value, **fields) if dataclasses.is_dataclass(value) else value._replace(**fields)


def places() -> Iterator[tuple[type, str, Any, dict[str, Any]]]:
    """Each field of each shape, with its domain and fields that pass."""
    draw = random.Random(1)
    for kind, shapes in SHAPES.items():
        for shape in shapes:
            for field, domain in shape.items():
                yield kind, field, domain, draw_fields(draw, shape)


class Values(unittest.TestCase):
    def test_each_field_of_each_type_has_a_row(self) -> None:
        self.assertEqual(set(value_types()), set(SHAPES))
        for kind, shapes in SHAPES.items():
            for shape in shapes:
                self.assertEqual(list(shape), fields_of(kind), kind.__name__)
        for kind, names in NAMES.items():
            named = [name for shape in SHAPES[kind] for name in shape["name"].bounds()]
            self.assertEqual(sorted(named), sorted(names), kind.__name__)

    def test_what_is_in_range_is_kept(self) -> None:
        draw = random.Random(2)
        for kind, field, domain, fields in places():
            for value in domain.bounds() + [domain.good(draw) for _ in range(ROUNDS)]:
                wanted = {**fields, field: value}
                made = kind(**wanted)
                self.assertEqual(fields_in(made), wanted)
                for again in (changed(made), copy.deepcopy(made), pickle.loads(pickle.dumps(made)),
                              changed(kind(**fields), **wanted), kind(*wanted.values())):
                    self.assertEqual((again, type(again), hash(again), str(again)),
                                     (made, kind, hash(made), str(made)))

    def test_what_is_out_of_range_is_refused(self) -> None:
        draw, count = random.Random(3), 0
        for kind, field, domain, fields in places():
            made, name = kind(**fields), f"{kind.__name__}.{field}"
            for bad in domain.bad(draw):
                makes: list[Callable[[], object]] = [
                    lambda: kind(**{**fields, field: bad}), lambda: changed(made, **{field: bad})]
                for make in makes:
                    with self.assertRaises((TypeError, ValueError), msg=f"{name}: {type(bad)}") as caught:
                        make()
                    self.assertIn(name, str(caught.exception))
                count += 1
        self.assertGreater(count, 5_000)

    def test_an_error_names_the_value_and_the_range(self) -> None:
        for kind, field, domain, fields in places():
            if isinstance(domain, Ints):
                wanted = f"an int from {domain.low} to {domain.high}"
                for far in (domain.low - 1, domain.high + 1):
                    with self.assertRaises(ValueError) as out_of_range:
                        kind(**{**fields, field: far})
                    self.assertEqual(str(out_of_range.exception), f"{kind.__name__}.{field} is {far}, and must be {wanted}")
                for other in (True, 1.0, "1", None):
                    with self.assertRaises(TypeError) as of_another_type:
                        kind(**{**fields, field: other})
                    self.assertEqual(
                        str(of_another_type.exception), f"{kind.__name__}.{field} is {other!r}, and must be {wanted}")

    def test_an_enums_member_is_kept_as_a_plain_int(self) -> None:
        for kind, field, domain, fields in places():
            if isinstance(domain, Ints):
                made = getattr(kind(**{**fields, field: Small.ONE}), field)
                self.assertEqual((made, type(made)), (1, int))

    def test_a_tuple_of_words_is_checked(self) -> None:
        with self.assertRaises(ValueError):
            v.Pid._make((256, 0, 1))
        with self.assertRaises(TypeError):
            v.Pid._make((0, 1))

    def test_an_error_is_told_of_what_cannot_be_printed(self) -> None:
        class Silent:
            def __repr__(self) -> str:
                raise RuntimeError

        with self.assertRaisesRegex(TypeError, "Body.kind is a value of type Silent, and must be an int"):
            v.Body(Silent(), 1)  # type: ignore[arg-type]
        with self.assertRaisesRegex(ValueError, "Body.num is an int of 19932 bits, and must be an int"):
            v.Body(1, 10**6000)


if __name__ == "__main__":
    unittest.main()
