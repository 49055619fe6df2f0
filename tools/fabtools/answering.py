"""An answer for a program: one object of the same fields from each tool that answers yes or no."""

import json

ANSWERS = {0: "yes", 1: "no", 3: "undecided"}


def print_answer(tool, status, findings, **more):
    """Prints the answer: its status, what was found (each a kind and a sentence), and what only this tool knows."""
    answer = {"tool": tool, "answer": ANSWERS[status], "status": status, **more, "findings": list(findings)}
    print(json.dumps(answer, indent=1))
    return status


def end(end):
    """A port as an object."""
    return {"node": end[0], "port": end[1]}


def cable(ends):
    return [end(it) for it in sorted(ends)]
