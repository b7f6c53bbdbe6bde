"""What is raised at the first difference."""


class Difference(Exception):
    """Two answers that should be one, with what was asked, as a text to print whole."""

    def __init__(self, what, asked, **answers):
        parts = [what, f"asked:\n{asked}", *(f"{who}:\n{answer}" for who, answer in answers.items())]
        super().__init__("\n".join(parts))


def demand_equal(what, asked, **answers):
    """Raises a Difference unless all answers, named by who gave them, are equal."""
    given = list(answers.values())
    if any(answer != given[0] for answer in given[1:]):
        raise Difference(what, asked, **answers)
