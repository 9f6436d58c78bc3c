"""What goes wrong for reasons that a person can mend, and how foreign text is shown in a message."""

import difflib

LONGEST_SHOWN = 40


class Fault(Exception):
    """Told in one line on standard error; the command then ends with status 2."""


class InputFault(Fault):
    """A mesh, or bytes, that cannot be read."""


class OutputFault(Fault):
    """An answer that cannot be written."""


class LibraryFault(Fault):
    """The planner's library cannot be used here, or does not answer as it should."""


def hold_reply(holds, found):
    """The planner is proved, but the library that was found may be another one's: a reply is held against its mesh."""
    if not holds:
        raise LibraryFault(f"the library's reply does not fit this mesh (it has {found}): is it of another version?")


def clean(text):
    """Text without anything that a terminal would obey: what is not printable is written as \\xNN."""
    return "".join(c if c.isprintable() else f"\\x{ord(c):02x}" for c in text)


def quoted(word):
    """A word as a message shows it, cut where it is long."""
    return f'"{clean(word[:LONGEST_SHOWN])}{"..." if len(word) > LONGEST_SHOWN else ""}"'


def hint(name, known):
    """The known name that was most likely meant, as the end of a message; nothing where none is near."""
    alike = {one.casefold(): one for one in known}
    near = difflib.get_close_matches(name.casefold(), alike, 1)
    return f"; is {quoted(alike[near[0]])} meant?" if near else ""
