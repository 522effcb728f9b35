"""Lines of the log, the rows at snapshots, and the records of windows, without a server."""

import json
import pathlib
import random
import sys
import unittest

from esr_history.order import history_of
from esr_history.script import convert
from esr_postgresql.decoding import EVERY_ROW, PREFIX, Change, Commit, Decoder, Snapshot
from esr_postgresql.tables import RecordingError, Table
from esr_postgresql.versions_at import Versions
from esr_postgresql.window import load_line, report_of, window_record, windows_of

sys.path.insert(0, str(pathlib.Path(__file__).resolve().parents[3] / "checks"))

import reference  # noqa: E402

T = Table("t", ("id",), "v", 2)
ODD = Table('"Odd"', ("a", "b"), "v")
COMMIT = "COMMIT 7 (at 2026-11-27 20:00:00.5+00)"


def commits(decoder, *lines):
    return [commit for commit in map(decoder.feed, lines) if commit is not None]


class Decoding(unittest.TestCase):
    def setUp(self):
        self.decoder = Decoder({"public.t": T, 'public."Odd"': ODD, "public.t_1": T}, 2**32 + 5)

    def changes(self, *lines):
        (commit,) = commits(self.decoder, "BEGIN 7", *lines, COMMIT)
        self.assertEqual(commit.xid, 2**32 + 7)
        return [(change.item, change.value) for change in commit.changes]

    def test_rows(self):
        row = "id[integer]:1 note[text]:'it''s [x]:5' tags[text[]]:'{\"a b\",c}' gone[numeric]:null v[numeric]:"
        self.assertEqual(self.changes(f"table public.t: INSERT: {row}-7.25"), [("t/1", -725)])
        self.assertEqual(self.changes(f"table public.t_1: UPDATE: {row}3 t[timestamp with time zone]:'2026'"), [("t/1", 300)])
        self.assertEqual(self.changes("table public.t: DELETE: id[integer]:1"), [("t/1", None)])
        self.assertEqual(
            self.changes("table public.t: UPDATE: old-key: id[integer]:1 new-tuple: id[integer]:2 v[numeric]:4"),
            [("t/1", None), ("t/2", 400)],
        )
        self.assertEqual(
            self.changes("table public.\"Odd\": INSERT: a[text]:'x y' \"b\"[integer]:2 v[bigint]:5"), [('"Odd"/x y,2', 5)]
        )

    def test_transactions_without_watched_rows_and_rows_that_cannot_be_recorded(self):
        self.assertEqual(commits(self.decoder, "BEGIN 8", "table public.other: INSERT: id[integer]:1", COMMIT), [])
        (commit,) = commits(self.decoder, "BEGIN 9", "table public.t: INSERT: id[integer]:1 v[numeric]:null", COMMIT)
        self.assertEqual((commit.changes, commit.faults[0][:13]), ([], "t/1: v is nul"))
        (commit,) = commits(self.decoder, "BEGIN 9", "table public.t: DELETE: (no-tuple-data)", COMMIT)
        self.assertEqual(commit.faults, ["t: the log does not have the key of a row"])
        self.assertEqual(commit.time, 1795809600500000)

    def test_truncate_in_the_order_of_the_changes(self):
        truncate = "table public.t, public.t_1, public.o: TRUNCATE: (no-flags)"
        rows = [f"table public.t: INSERT: id[integer]:{number} v[numeric]:{number}" for number in (1, 2)]
        (commit,) = commits(self.decoder, "BEGIN 9", rows[0], truncate, rows[1], COMMIT)
        self.assertEqual([change.item for change in commit.changes], ["t/1", EVERY_ROW, "t/2"])
        self.assertEqual(commit.replaced, {"t": "TRUNCATE"})
        versions = Versions([T], {"t/3": (T, 300, "1")}, Snapshot(10, 10, frozenset()))
        versions.add(commit)
        self.assertEqual({item: value for item, value in versions.now.items() if value is not None}, {"t/2": 200})
        self.assertEqual(versions.totals[-1], {"t": (200, 1)})

    def test_truncate_of_a_partition(self):
        (commit,) = commits(self.decoder, "BEGIN 9", "table public.t_1: TRUNCATE: (no-flags)", COMMIT)
        self.assertEqual((commit.changes, commit.faults), ([], ["t: some of its partitions were truncated"]))

    def test_markers_and_times(self):
        self.decoder.feed(f"message: transactional: 1 prefix: {PREFIX}, sz: 3 content:1.2")
        self.assertEqual(self.decoder.markers, {"1.2"})
        row = "table public.t: DELETE: id[integer]:1"
        (commit,) = commits(self.decoder, "BEGIN 7", row, "COMMIT 7 (at 2026-11-27 20:00:00-03:30)")
        self.assertEqual(commit.time, 1795809600000000 + 12_600_000_000)

    def test_snapshots(self):
        snapshot = Snapshot.parse("10:14:11,13")
        self.assertEqual([xid for xid in range(8, 16) if snapshot.sees(xid)], [8, 9, 10, 12])
        for text in ("", "1:2", "a:b:c"):
            with self.assertRaises(ValueError):
                Snapshot.parse(text)


class Simulation:
    """A table whose rows come, go and change, and the rows that each set of commits leaves."""

    def __init__(self, seed):
        chosen = random.Random(seed)
        opening = {f"t/{number}": (T, 100, "1") for number in range(4)}
        self.versions = Versions([T], opening, Snapshot(10, 10, frozenset()))
        self.commits = []
        for xid in range(10, 40):
            changes = [
                Change(T, f"t/{chosen.randrange(6)}", chosen.choice((None, chosen.randrange(50))))
                for _ in range(chosen.randrange(1, 4))
            ]
            self.commits.append(Commit(xid, xid, changes))
        self.opening = {item: value for item, (_, value, _) in opening.items()}

    def rows(self, seen):
        rows = dict(self.opening)
        for commit in self.commits:
            if seen(commit.xid):
                rows.update((change.item, change.value) for change in commit.changes)
        return {item: value for item, value in rows.items() if value is not None}


class AtSnapshots(unittest.TestCase):
    def test_every_snapshot_has_the_rows_of_the_commits_that_it_sees(self):
        for seed in range(20):
            made = Simulation(seed)
            for place, commit in enumerate(made.commits):
                made.versions.add(commit)
                if place == 15:
                    made.versions.trim(10)
            for xmax in range(21, 41):
                snapshot = Snapshot(xmax, xmax, frozenset())
                view = made.versions.view(snapshot)
                rows = made.rows(snapshot.sees)
                found = {f"t/{number}": made.versions.version(f"t/{number}", view)[0] for number in range(6)}
                self.assertEqual({item: value for item, value in found.items() if value is not None}, rows)
                self.assertEqual(made.versions.total("t", view), (sum(rows.values()), len(rows)))

    def test_a_commit_that_is_not_seen_though_later_ones_are(self):
        versions = Versions([T], {"t/1": (T, 1, "1"), "t/2": (T, 2, "1")}, Snapshot(10, 10, frozenset()))
        versions.add(Commit(10, 1, [Change(T, "t/1", 5)]))
        versions.add(Commit(11, 2, [Change(T, "t/2", 7)]))
        view = versions.view(Snapshot(10, 12, frozenset({10})))
        self.assertEqual([versions.version(item, view)[0] for item in ("t/1", "t/2")], [1, 7])
        self.assertEqual((view.first, view.last, versions.total("t", view)), (0, 2, (8, 2)))

    def test_snapshots_that_are_too_old(self):
        made = Simulation(1)
        for commit in made.commits:
            made.versions.add(commit)
        made.versions.trim(10)
        for text in ("9:9:", "10:30:15", "12:12:"):
            with self.assertRaisesRegex(RecordingError, "is older than the watch, or than two windows"):
                made.versions.view(Snapshot.parse(text))


def line(name, *statements, **more):
    return json.dumps({"report": name, "began": 1, "ended": 90, "level": "x", "statements": statements, **more})


class Windows(unittest.TestCase):
    def setUp(self):
        self.versions = Versions([T], {"t/1": (T, 500, "1"), "t/2": (T, 700, "1")}, Snapshot(10, 10, frozenset()))
        for xid, changes in ((10, {1: 400, 2: 800}), (11, {3: 100}), (12, {1: None})):
            made = [Change(T, f"t/{number}", value) for number, value in changes.items()]
            self.versions.add(Commit(xid, xid, made))

    def distances(self, *lines):
        """The distances that the plain program finds of some reports."""
        reports = [report_of(load_line(text), self.versions) for text in lines]
        found = {}
        for first, last, group in windows_of(reports, self.versions):
            record = window_record(first, last, group, self.versions, "a test")
            self.assertFalse(record.has_update_reads)
            (script,) = convert(history_of(record)).scripts
            text = script.text().encode()
            self.assertEqual(reference.run(text)[0], script.answers)
            words = [each.split(" ") for each in reference.audit(text)[0] if each.startswith("audit ")]
            found.update({script.transactions.labels[name]: int(distance) for _, name, _, distance, *_ in words})
        return found

    def test_rows_and_sums(self):
        before, after = "10:10:", "11:11:"
        half = line("half", {"snapshot": before, "rows": [["t/1", "5.00"]]}, {"snapshot": after, "rows": [["t/2", 8]]})
        sums = line("sums", {"snapshot": before, "sums": {"t": "12"}}, {"snapshot": after, "sums": {"t": 12}})
        one = line("one", {"snapshot": after, "sums": {"t": 12}, "counts": {"t": 2}})
        self.assertEqual(self.distances(half, sums, one), {"half": 100, "sums": 200, "one": 0})

    def test_rows_that_were_absent(self):
        all_rows = {"snapshot": "11:11:", "rows": [["t/1", 4], ["t/2", 8]], "all": ["t"]}
        later = {"snapshot": "12:12:", "sums": {"t": 13}}
        self.assertEqual(self.distances(line("phantom", all_rows, later)), {"phantom": 100})
        self.assertEqual(self.distances(line("rows", {**all_rows, "all": []}, later)), {"rows": 0})

    def test_a_count_reads_no_values(self):
        first, later = {"snapshot": "10:10:", "counts": {"t": 2}}, {"snapshot": "12:12:", "counts": {"t": 3}}
        self.assertEqual(self.distances(line("count", first, {"snapshot": "11:11:", "counts": {"t": "2"}})), {"count": 0})
        self.assertEqual(self.distances(line("counts", first, later)), {"counts": 1})

    def test_reports_that_read_nothing_that_changes(self):
        versions = Versions([T], {"t/1": (T, 500, "1")}, Snapshot(10, 10, frozenset()))
        report = report_of(load_line(line("r", {"snapshot": "10:10:", "sums": {"t": 5}})), versions)
        (history,) = [history_of(window_record(0, 0, [report], versions, "a test"))]
        self.assertEqual([each.name for each in history.reports], ["r"])

    def test_reports_that_are_refused(self):
        snapshot = {"snapshot": "11:11:"}
        for statement, said in (
            ({**snapshot, "sums": {"t": "12.01"}}, "it got the sum 12.01 of t, which is 1200 units at its snapshot"),
            ({**snapshot, "counts": {"t": 3}}, "it counted 3 rows of t, which has 2 at its snapshot"),
            ({**snapshot, "rows": [["t/1", "5"]]}, "it read 500 of t/1, which is 400 at its snapshot"),
            ({**snapshot, "rows": [["o/1", "5"]]}, "o/1 is not a row of a watched table"),
            ({**snapshot, "sums": {"o": "5"}}, "o is not a watched table"),
            ({**snapshot, "rows": [["t/1", "five"]]}, "'five' is not a number"),
            ({"snapshot": "now"}, "'now' is not a snapshot"),
            ({**snapshot, "fault": "no sum"}, "no sum"),
        ):
            with self.assertRaisesRegex(RecordingError, said):
                report_of(load_line(line("r", statement)), self.versions)
        with self.assertRaisesRegex(RecordingError, "it also wrote"):
            report_of(load_line(line("r", snapshot, writes=True)), self.versions)
        self.versions.add(Commit(13, 13, [], faults=["t/9: v is null"]))
        with self.assertRaisesRegex(RecordingError, "a row of its snapshot cannot be recorded: t/9: v is null"):
            report_of(load_line(line("r", {"snapshot": "14:14:", "counts": {"t": 2}})), self.versions)
        report_of(load_line(line("r", {"snapshot": "13:13:", "counts": {"t": 2}})), self.versions)
        for text in ("", "[]", '{"report":"r"}', line("r", {})):
            with self.assertRaisesRegex(RecordingError, "not a line of a file of reports"):
                load_line(text)


class Replaced(unittest.TestCase):
    """A table that a commit gave a new file, which is empty for older snapshots."""

    def versions(self, *changes, **replaced):
        opening = {"t/1": (T, 500, "1"), "t/2": (T, 700, "1")}
        versions = Versions([T], opening, Snapshot(10, 10, frozenset()))
        versions.add(Commit(10, 50, [Change(T, *change) for change in changes], replaced=dict(replaced)))
        return versions

    def truncated(self):
        return self.versions((EVERY_ROW, None), ("t/1", 300, True), t="TRUNCATE")

    def refusal(self, versions, statement, **more):
        with self.assertRaises(RecordingError) as raised:
            report_of(load_line(line("r", {"snapshot": "10:10:", **statement}, **more)), versions)
        return str(raised.exception)

    def test_reads_after_a_command_that_their_snapshot_does_not_see(self):
        for statement in (
            {"sums": {"t": "0"}},
            {"counts": {"t": 0}},
            {"sums": {"t": "12"}, "counts": {"t": 0}},
            {"rows": [], "all": ["t"], "tables": ["t"]},
            {"rows": [], "all": [], "tables": ["t"]},
        ):
            with self.subTest(statement):
                said = self.refusal(self.truncated(), statement)
                self.assertIn("it read t without rows of its snapshot: x10 replaced the table by TRUNCATE after", said)
        rewritten = self.versions(("t/1", 1000, True), ("t/2", 1400, True))
        said = self.refusal(rewritten, {"sums": {"t": 0}})
        self.assertIn("x10 replaced the table by ALTER TABLE after", said)

    def test_other_differences(self):
        said = self.refusal(self.truncated(), {"sums": {"t": "0"}}, ended=49)
        self.assertEqual(said, "it got the sum 0 of t, which is 1200 units at its snapshot")
        updated = self.versions(("t/1", 1000), ("t/2", None), ("t/2", 1400, True))
        self.assertEqual(updated.commits[0].replaced, {})
        self.assertIn("it got the sum 0 of t, which is 1200 units", self.refusal(updated, {"sums": {"t": "0"}}))

    def test_reads_that_are_those_of_their_snapshot(self):
        for snapshot, statement in (
            ("10:10:", {"sums": {"t": "12"}, "counts": {"t": 2}}),
            ("10:10:", {"rows": [["t/2", 7]], "all": [], "tables": ["t"]}),
            ("10:10:", {"rows": [], "tables": []}),
            ("11:11:", {"sums": {"t": "3"}, "counts": {"t": 1}}),
            ("11:11:", {"rows": [["t/1", "3"]], "all": ["t"], "tables": ["t"]}),
        ):
            with self.subTest(statement, snapshot=snapshot):
                report_of(load_line(line("r", {"snapshot": snapshot, **statement})), self.truncated())

    def test_a_command_that_removes_no_row_is_not_a_report(self):
        versions = Versions([T], {}, Snapshot(10, 10, frozenset()))
        versions.add(Commit(10, 50, [Change(T, EVERY_ROW, None)], replaced={"t": "TRUNCATE"}))
        report = report_of(load_line(line("r", {"snapshot": "10:10:", "counts": {"t": 0}})), versions)
        record = window_record(0, 1, [report], versions, "a test")
        self.assertEqual([each.name for each in record.transactions], ["r"])
