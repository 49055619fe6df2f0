"""What tools are given: texts and reports, read from their files, or refused in one sentence."""

from fabtools import damage, forms, script
from fabtools import fabric as fabrics
from fabtools.converting import excess
from fabtools.entry import Failure
from fabtools.report import Report
from fabtools.run import Run


def fabric(path=None, is_bound=True):
    """The fabric of a text, with its script as it stands there; unbound it may be larger than the program takes."""
    try:
        return fabrics.read(fabrics.load(path), is_bound)
    except forms.Fault as fault:
        raise Failure(f"{path or 'standard input'}: {fault}") from None


def accepted(path):
    """The fabric of a text that the program accepts."""
    text = fabrics.load(path)
    fault = script.first_fault(text)
    if fault:
        raise Failure(f"{path}: {fault}")
    return fabrics.read(text)


def report_alone(path=None):
    """A report whose text isn't known."""
    return damage.report_alone(fabrics.load(path), path or "standard input")


def run(text, report=None):
    """A text with its report, which must be that of its script; a fabric that is too large for the program has none."""
    if report is None and excess(fabric(text, is_bound=False)):
        return drawn(text)
    accepted_fabric = accepted(text)
    return Run(accepted_fabric, damage.report_of(accepted_fabric, fabrics.load(report), report or "standard input"))


def planned(plan, report=None):
    """A plan with the report of whatever was built: the last map there is one of that."""
    found = Run(fabric(plan), report_alone(report))
    if not found.shown or not found.shown.vertices:
        raise Failure(f"{report or 'standard input'}: the report has no map")
    return found


def drawn(text):
    """A text's fabric alone."""
    return Run(fabric(text, is_bound=False), Report(""))
