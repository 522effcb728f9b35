"""Histories of registers: imported if the order of the writes is total, refused by name if it is not."""

import io
import unittest

from esr_history import edn
from esr_history.elle import Undetermined, load_registers
from esr_history.order import history_of
from esr_history.record import Outcome, RecordError
from esr_history.script import convert

from .written import answers, distances

# A transfer of 1 from x to y while a transaction reads x, and y afterwards.
HALF_SEEN = """\
{:type :invoke, :f :txn, :value [[:w :x 10] [:w :y 20]], :process 0, :time 1, :index 0}
{:type :ok, :f :txn, :value [[:w :x 10] [:w :y 20]], :process 0, :time 2, :index 1}
; a comment, and an operation of the nemesis
{:type :info, :f :start-partition, :value nil, :process :nemesis, :time 3, :index 2}
{:type :invoke, :f :txn, :value [[:r :x nil] [:r :y nil]], :process 1, :time 4, :index 3}
{:type :invoke, :f :txn, :value [[:r :x nil] [:r :y nil] [:w :x 9] [:w :y 21]], :process 0, :time 5, :index 4}
{:type :%s, :f :txn, :value [[:r :x 10] [:r :y 20] [:w :x 9] [:w :y 21]], :process 0, :time 6, :index 5}
{:type :ok, :f :txn, :value [[:r :x 10] [:r :y 21]], :process 1, :time 7, :index 6}
"""
BLIND = """\
{"type":"invoke","f":"txn","value":[["w","x",1]],"process":0,"time":1}
{"type":"ok","f":"txn","value":[["w","x",1]],"process":0,"time":2}
{"type":"invoke","f":"txn","value":[["w","x",2]],"process":0,"time":3}
{"type":"ok","f":"txn","value":[["w","x",2]],"process":0,"time":4}
"""


class Edn(unittest.TestCase):
    def test_values(self):
        text = '#jepsen.history.Op{:a [1 -2N 1.5], "b\\n" (nil true x/y)} #{:k} ; end'
        self.assertEqual(list(edn.values(text)), [{"a": [1, -2, 1.5], "b\n": [None, True, "x/y"]}, ["k"]])
        for text in ("[1", "}", "{:a (1]}"):
            with self.assertRaises(edn.EdnError):
                list(edn.values(text))


class Registers(unittest.TestCase):
    def test_a_transaction_that_saw_half_of_another(self):
        (script,) = convert(history_of(load_registers(io.StringIO(HALF_SEEN % "ok")))).scripts
        self.assertEqual(answers(script), script.answers)
        self.assertEqual(distances(script), {"t3": 1})

    def test_a_write_of_unknown_outcome_that_was_read(self):
        record = load_registers(io.StringIO("[" + HALF_SEEN % "info" + "]"), realtime=True)
        self.assertIs(record.transactions[1].outcome, Outcome.COMMITTED)
        self.assertEqual([each.value for each in record.transactions[1].operations], [9, 21])

    def test_an_order_that_is_not_determined(self):
        said = "the order of the writes of register x is not determined: t1 and t2 wrote it, and nothing orders them"
        with self.assertRaisesRegex(Undetermined, said):
            load_registers(io.StringIO(BLIND))
        history = history_of(load_registers(io.StringIO(BLIND), realtime=True))
        self.assertEqual(history.chains["x"].values, [None, 1, 2])
        with self.assertRaises(Undetermined):
            load_registers(io.StringIO(BLIND.replace('"time":3', '"time":1')), realtime=True)

    def test_registers_that_disagree(self):
        text = """
            [{:type :ok, :f :txn, :process 0, :value [[:r :x nil] [:w :x 1] [:r :y 2] [:w :y 1]]}
             {:type :ok, :f :txn, :process 1, :value [[:r :x 1] [:w :x 2] [:r :y nil] [:w :y 2]]}]"""
        with self.assertRaisesRegex(Undetermined, "the registers disagree about the order of the writes of t1, t2"):
            load_registers(io.StringIO(text))

    def test_histories_that_are_refused(self):
        for text, said in (
            ("{:type", "neither EDN nor JSON lines"),
            ("{:type :ok, :f :txn, :process 0, :value [[:append :x 1]]}", "a transaction of rw-register is a list of"),
            ("{:type :ok, :f :txn, :process 0, :value [[:w :x 1.5]]}", "the value 1.5 of register x is not an integer"),
            (BLIND.replace("2]", "1]"), "t1 and t2 both write 1 to register x"),
            ("7", "an operation is a map, not 7"),
        ):
            with self.assertRaisesRegex(RecordError, said):
                load_registers(io.StringIO(text))


if __name__ == "__main__":
    unittest.main()
