"""What can go wrong, each told in one line on standard error."""


class Fault(Exception):
    """Why there is no answer. The status is 1."""


class Misuse(Exception):
    """What is wrong with the words of the command line. The status is 2."""


class Quiet(Exception):
    """Whoever read the output has enough of it. There is no line, and the status is 1."""


class Ended(BaseException):
    """A signal ends the command. The status is 128 and the signal's number."""

    def __init__(self, number):
        super().__init__(number)
        self.number = number


def shown(name):
    """A file's name as a line can have it: one with line feeds or other signs that do not print is quoted."""
    if name == "-":
        return "standard input"
    return name if name.isprintable() and name.strip() == name and name else repr(name)


def reason(fault):
    """The system's words for why a call failed."""
    return fault.strerror or str(fault)
