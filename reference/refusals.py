"""RULES 3: a call gives its answer or a number from the table."""


class Refused(Exception):
    """An answer that is a number from the table."""

    def __init__(self, number):
        super().__init__(f"refused {number}")
        self.number = number


def fits(code, bits):
    """Number 8: a field wider than its bits."""
    if not 0 <= code < 1 << bits:
        raise Refused(8)


def answer(question, *arguments):
    """The text of an answer: what the question gives, or `refused N`."""
    try:
        given = question(*arguments)
    except Refused as refusal:
        return str(refusal)
    if isinstance(given, (tuple, list)):
        return " ".join(str(part) for part in given)
    return str(given)
