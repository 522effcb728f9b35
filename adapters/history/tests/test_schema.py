"""The JSON Schema of records accepts the same lines as the reader. It is checked if the package jsonschema is installed."""

import io
import json
import pathlib
import unittest

from esr_history.record import Note, Outcome, RecordError, lines, load

from .written import read, record, transaction, write

try:
    import jsonschema
except ImportError:
    jsonschema = None

SCHEMA = pathlib.Path(__file__).resolve().parents[2] / "record.schema.json"
HEAD = '{"record":"esr","format":2}\n{"item":"a","value":5,"version":"7"}\n'
DAMAGES = (
    {"item": "b", "value": 1.5, "version": "7"},
    {"item": "b", "value": 10**12 + 1, "version": "7"},
    {"item": "b", "value": 1, "version": None},
    {"item": "b", "value": 1, "version": "7", "weight": 0},
    {"item": "b", "value": 1, "version": "7", "wieght": 1},
    {"transaction": "t", "outcome": "lost", "began": 1, "ended": 2, "operations": []},
    {"transaction": "t", "outcome": "committed", "began": 1, "ended": 2, "operations": [["reads", "a", 5, "7"]]},
    {"transaction": "t", "outcome": "committed", "began": 1, "ended": 2, "operations": [["read", "a", 5]]},
    {"transaction": "t", "outcome": "committed", "began": 1, "ended": 2, "operations": [["write", "a", None, None]]},
    {"transaction": "t", "outcome": "committed", "began": 1, "ended": 2, "labels": [1], "operations": []},
    {"transaction": "t", "outcome": "committed", "began": 1, "operations": []},
    {"end": "a", "value": 1, "version": None},
    {"note": "gone", "gap": 1},
    {"itme": "b"},
)


@unittest.skipIf(jsonschema is None, "the package jsonschema is not installed")
class Schema(unittest.TestCase):
    def setUp(self):
        schema = json.loads(SCHEMA.read_text(encoding="utf-8"))
        jsonschema.Draft202012Validator.check_schema(schema)
        self.validator = jsonschema.Draft202012Validator(schema)

    def test_a_record_is_valid(self):
        made = record(
            {"a/1": 5, "a/2": None},
            transaction("u", 1, 2, read("a/1", 5, "opening"), write("a/2", 6, "8"), level="serializable", labels=("8",)),
            transaction("v", 1, 3, write("a/2", None, "9"), outcome=Outcome.LEFT_OUT, reason="a/3 is null"),
            transaction("r", 3, 3, read("a/2", None, None)),
            endings=[("a/1", 5, "opening"), ("a/2", None, None)],
        )
        made.notes.append(Note("a row was lost", is_gap=True))
        for line in lines(made):
            self.validator.validate(json.loads(line))
        self.assertEqual(load(io.StringIO("".join(lines(made)))), made)

    def test_the_reader_and_the_schema_refuse_the_same_lines(self):
        for damage in DAMAGES:
            with self.subTest(damage):
                self.assertFalse(self.validator.is_valid(damage))
                with self.assertRaises(RecordError):
                    load(io.StringIO(HEAD + json.dumps(damage) + "\n"))


if __name__ == "__main__":
    unittest.main()
