"""Asks the program under the word `judge`, and tells what it says of a report that follows its text."""

import subprocess
import sys
import tempfile
from pathlib import Path

from fabtools import fabric as fabrics
from fabtools import answered, answering, forms, judged, meanings, script

TRY = Path(__file__).resolve().parent.parent / "try"
TOO_LONG = 7
# So many lines of what was due are printed where not all are asked for.
FEW = 7


def ask(text):
    """The program's status and its one line; None where no program runs."""
    found = subprocess.run([TRY, "--program"], stdout=subprocess.PIPE, text=True)
    if found.returncode:
        return None
    # By a file, since a program that ends early would break a pipe.
    with tempfile.TemporaryFile() as file:
        file.write(text.encode("latin-1"))
        file.seek(0)
        ran = subprocess.run([found.stdout.strip(), "judge"], stdin=file, stdout=subprocess.PIPE)
    return ran.returncode, ran.stdout.decode("latin-1").split()


def judge(tool, name, text, report, how=()):
    """Judges a report after its text, which has this name, and tells the verdict: 0 for yes, 1 for no, 2 for neither. Of what
    was due it tells all with `--all`, and with `--json` for a program."""
    fault = script.first_fault(text)
    if fault and fault.kind in ("noend", "afterend"):
        # The program would take the report for more of the text, or what follows `end` for the report.
        print(f"{tool}: {name} is refused: {fault}", file=sys.stderr)
        return 2
    try:
        answer = ask(text + report)
    except OSError as error:
        answer = None
        print(f"{tool}: the program: {error.strerror}", file=sys.stderr)
    if not answer:
        return 2
    status, verdict = answer
    if verdict[:2] in (["judge", "yes"], ["judge", "no"]):
        found = list(findings(text, report, verdict))
        tell(found, "--all" in how) if "--json" not in how else answering.print_answer("judge", status_of(verdict), found)
        return status_of(verdict)
    print(f"{tool}: {unjudged(name, text, status, verdict)}", file=sys.stderr)
    return 2


def unjudged(name, text, status, verdict):
    """Why there is no verdict."""
    if verdict[:1] == ["refused"]:
        return f"{name} is refused: {refusal(text, *verdict[1:])}"
    if status == TOO_LONG:
        return f"the text and the report have more than {forms.LONGEST_TEXT:,} bytes together"
    return f"status {status}: {meanings.of_status(status)}"


def refusal(text, line, kind):
    """Why a text is refused at this line: it has a fault there, or a line after which no report is judged."""
    fault, other = script.first_fault(text), answered.unjudged(text)
    if other and other[0] == int(line) and (fault is None or fault.line >= other[0]):
        return f"line {line}: {kind}: a text with '{' '.join(other[1][:2])}' isn't judged"
    return fault or f"line {line}: {kind}"


def status_of(verdict):
    return 0 if verdict[1] == "yes" else 1


def findings(text, report, verdict):
    """What is wrong at a line of a report and what was due there; or what no judge looks at, and is wrong all the same."""
    fabric, lines = fabrics.read(text), report.split("\n")
    if verdict[1] == "yes":
        for line, it in judged.beside(fabric, report):
            yield {"kind": "not judged", "text": f"not judged: line {line}: {it}", "line": line}
        return
    line, why = int(verdict[2]) - text.count("\n"), verdict[3]
    found = lines[line - 1].strip() if line <= len(report.splitlines()) else None
    yield {"kind": why, "text": f"line {line}, {why}", "line": line, "found": found, "due": list(judged.due(fabric, report, line, why))}


def tell(found, is_whole):
    """The verdict in lines: what stands at the line that is wrong, and what was due."""
    wrong = [it for it in found if it["kind"] != "not judged"]
    print("\n".join(["yes", *(it["text"] for it in found)]) if not wrong else f"no: {wrong[0]['text']}")
    for it in wrong:
        print(f"  {'(the report ends before it)' if it['found'] is None else it['found']}")
        shown = it["due"] if is_whole else it["due"][:FEW]
        for due in shown:
            print(f"  {due}")
        if len(shown) < len(it["due"]):
            print(f"  and {len(it['due']) - len(shown):,} more: --all lists them")
