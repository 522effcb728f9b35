"""The format of records: a record survives writing and reading, and malformed lines are reported with their number."""

import io
import unittest

from esr_history.record import Item, Outcome, RecordError, lines, load

from .written import read, record, transaction, write

HEAD = '{"record":"esr","format":1,"system":"a test"}\n'
ITEM = '{"item":"a/1","value":5,"version":"7"}\n'


def loaded(*texts):
    return load(io.StringIO("".join(texts)))


class Reading(unittest.TestCase):
    def test_what_was_written_is_read_again(self):
        made = record(
            {"a/1": 5, "a/2": None},
            transaction("u", 1, 2, read("a/1", 5, "opening"), write("a/2", 6, "8"), level="serializable"),
            transaction("v", 1, 3, write("a/2", None, "9"), outcome=Outcome.ABORTED),
            transaction("r", 3, 3, read("a/2", None, None)),
            endings=[("a/1", 5, "opening"), ("a/2", 6, "8")],
        )
        made.items["a/3"] = Item("a/3", -3, "opening", 900, 2)
        again = loaded(*lines(made))
        self.assertEqual(again, made)

    def refused(self, text, *texts):
        with self.assertRaises(RecordError) as caught:
            loaded(*texts)
        self.assertEqual(str(caught.exception), text)

    def test_a_head_is_asked_for(self):
        self.refused('line 1: a record begins with {"record": "esr", "format": 2, "system": ...}', ITEM)
        self.refused('line 1: a record begins with {"record": "esr", "format": 2, "system": ...}')
        self.refused("line 1: the format is 3, and this program reads 1 and 2", HEAD.replace("1", "3"))

    def test_lines_that_are_no_objects(self):
        self.refused("line 2: not an object", HEAD, "[]\n")
        with self.assertRaisesRegex(RecordError, "^line 3: not JSON: "):
            loaded(HEAD, ITEM, "{\n")
        self.refused("line 2: a line has one of the keys item, transaction, end and note", HEAD, '{"itme":"a"}\n')

    def test_items(self):
        self.refused("line 3: the item a/1 is declared twice", HEAD, ITEM, ITEM)
        self.refused(
            "line 2: the key 'vlaue' is not one of item, value, version, weight, scale",
            HEAD,
            '{"item":"a","vlaue":5,"version":"7"}\n',
        )
        self.refused(
            "line 2: the value of a is 1.5, and has to be a whole number (scale it) or null",
            HEAD,
            '{"item":"a","value":1.5,"version":"7"}\n',
        )
        self.refused(
            "line 2: the value of a is 1000000000001, and has to be within 1000000000000 (use a smaller scale)",
            HEAD,
            '{"item":"a","value":1000000000001,"version":"7"}\n',
        )
        self.refused("line 2: the version of a has to be a text", HEAD, '{"item":"a","value":1,"version":7}\n')
        self.refused(
            "line 2: the weight of a has to be from 1 to 1000",
            HEAD,
            '{"item":"a","value":1,"version":"7","weight":0}\n',
        )

    def test_transactions(self):
        form = '{{"transaction":"u","outcome":"{}","began":{},"ended":2,"operations":{}}}\n'
        self.refused(
            "line 3: the outcome is 'lost', and has to be committed, aborted, unknown or left out",
            HEAD,
            ITEM,
            form.format("lost", 1, "[]"),
        )
        self.refused("line 3: 'began' is after 'ended'", HEAD, ITEM, form.format("committed", 3, "[]"))
        self.refused("line 3: 'began' has to be a whole number", HEAD, ITEM, form.format("committed", "true", "[]"))
        self.refused(
            "line 3: the item 'a/2' has no line of its own before this one",
            HEAD,
            ITEM,
            form.format("committed", 1, '[["read","a/2",1,"7"]]'),
        )
        self.refused(
            "line 3: an operation is 'read' or 'write', not 'reads'",
            HEAD,
            ITEM,
            form.format("committed", 1, '[["reads","a/1",1,"7"]]'),
        )
        self.refused(
            "line 3: the write of a/1 has no version",
            HEAD,
            ITEM,
            form.format("committed", 1, '[["write","a/1",null,null]]'),
        )
        good = form.format("committed", 1, "[]")
        self.refused("line 4: the transaction u is on line 3 already", HEAD, ITEM, good, good)
