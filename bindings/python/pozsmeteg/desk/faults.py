"""What can go wrong, each with the status that the command ends with. The text of a fault is one sentence: file, line, value."""


class Fault(Exception):
    status = 2


class Differs(Fault):
    """What was asked about is not so: a final entry moved, a record differs."""

    status = 1


class BadInput(Fault):
    """A file that is not what it should be, or a submission that the engine refuses."""

    status = 2


class NoAccess(Fault):
    """Something could not be read or written."""

    status = 3


def reason(error):
    """The system's words for an error, without the path, which the sentence has already."""
    return error.strerror or str(error)


def shown(value, most=60):
    """A value as a message quotes it: on one line, and not too long."""
    text = value.decode("ascii", "backslashreplace") if isinstance(value, bytes) else str(value)
    text = "".join(c if c.isprintable() else repr(c)[1:-1] for c in text[: most + 1])
    return f"'{text}'" if len(text) <= most else f"'{text[:most]}...'"
