"""From a record to a result: converts it, runs and audits the scripts, and writes the files of the result.

    script.esr      the script (script_1.esr, script_2.esr .. if there are several)
    legend.tsv      the originals of the names of the script
    audits.tsv      for each report its distance, the charge that the engine would have made, and the error of its sum
    worst/          for the worst reports NAME.txt, an explanation; NAME.svg, a picture; NAME.json, a bundle
    result.txt      the printed text

The invariant: each finding about a report is of a script whose every line had the reply that the record implies.
"""

from __future__ import annotations

import os
import pathlib
import shutil
from typing import Optional

from .order import History, history_of
from .placement import PlacedReport
from .program import Finding, Program, ProgramError, off_reads
from .record import Record
from .result import AuditedReport, ExplainedReport, Result
from .script import Conversion, Script, convert

MAX_WORKERS = 64


def write_scripts(conversion: Conversion, folder: pathlib.Path) -> list[str]:
    """Writes the scripts and the legend, and returns the paths of the scripts."""
    folder.mkdir(parents=True, exist_ok=True)
    for old in folder.glob("script*.esr"):
        old.unlink()
    paths = []
    legend = ["script\tkind\tname\tstands for\n"]
    for number, script in enumerate(conversion.scripts, 1):
        name = "script.esr" if len(conversion.scripts) == 1 else f"script_{number}.esr"
        (folder / name).write_text(script.text(), encoding="ascii")
        paths.append(str(folder / name))
        for kind, names in (("item", script.items), ("transaction", script.transactions)):
            legend += [f"{name}\t{kind}\t{short}\t{label}\n" for short, label in names.labels.items()]
    (folder / "legend.tsv").write_text("".join(legend), encoding="utf-8")
    return paths


def _write_audits(reports: list[AuditedReport], folder: pathlib.Path) -> None:
    lines = ["report\tlevel\treads\tdistance\tcharged\tsum error\tname in script\tscript\n"]
    for each in reports:
        finding, placed = each.finding, each.placed
        lines.append(
            f"{each.name}\t{placed.report.level}\t{len(placed.reads)}\t{finding.distance}\t{finding.charged}"
            f"\t{each.sum_error}\t{finding.name}\t{os.path.basename(each.path)}\n"
        )
    (folder / "audits.tsv").write_text("".join(lines), encoding="utf-8")


def _sum_error(history: History, script: Script, placed: PlacedReport, finding: Finding) -> int:
    """Returns by how much the sum of a report's reads exceeds their sum at the nearest placement. (Of the writers of an
    item, those before the placement are the first ones.)"""
    if not finding.distance:
        return 0
    error, names = 0, script.transactions.by_label
    for read in placed.reads:
        chain = history.chains[read.item]
        low, high = script.opening[read.item], len(chain.writers)
        while low < high:
            middle = (low + high + 1) // 2
            if names.get(history.updates[chain.writers[middle - 1]].name) in finding.before:
                low = middle
            else:
                high = middle - 1
        error += (chain.values[read.number] or 0) - (chain.values[low] or 0)
    return error


def _audited_script(
    history: History, script: Script, path: str, program: Program, workers: int
) -> list[AuditedReport]:
    """Returns the reports of a script, as the program audits them."""
    if not script.lines:
        return []
    program.check_answers(script, path)
    placed = {script.transactions[each.report.name]: each for each in script.window.reports}
    found = [
        AuditedReport(
            placed[finding.name], script, path, finding, _sum_error(history, script, placed[finding.name], finding)
        )
        for finding in program.audit(path, workers)
    ]
    if len(found) != len(placed):
        raise ProgramError(f"{path}: {len(found)} reports were audited, and not {len(placed)}")
    return found


def explained(report: AuditedReport, program: Program, folder: pathlib.Path) -> ExplainedReport:
    name = report.finding.name
    explanation = program.explanation(name, report.path)
    (folder / f"{name}.txt").write_text(explanation, encoding="ascii")
    (folder / f"{name}.svg").write_text(program.picture(name, report.path), encoding="ascii")
    (folder / f"{name}.json").write_text(program.bundle(name, report.path), encoding="ascii")
    return ExplainedReport(report, off_reads(explanation), str(folder / f"{name}.svg"))


def audited(record: Record, folder: str, program: Program, worst: int = 3, workers: Optional[int] = None) -> Result:
    """Converts a record, audits it, and writes the files of the result to a folder.

    # Errors
    IncompleteRecord, NotSerializable, TooLarge or ProgramError."""
    target = pathlib.Path(folder)
    history = history_of(record)
    conversion = convert(history)
    workers = workers or min(os.cpu_count() or 1, MAX_WORKERS)
    reports: list[AuditedReport] = []
    for script, path in zip(conversion.scripts, write_scripts(conversion, target)):
        reports += _audited_script(history, script, path, program, workers)
    _write_audits(reports, target)
    shutil.rmtree(target / "worst", ignore_errors=True)
    (target / "worst").mkdir()
    off = sorted((report for report in reports if report.distance), key=lambda report: -report.distance)
    result = Result(record, history, conversion, reports, [explained(each, program, target / "worst") for each in off[:worst]])
    (target / "result.txt").write_text(result.text(), encoding="utf-8")
    return result
