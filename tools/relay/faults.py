"""What is wrong, for the user: the text says where, and what was expected. The status is the command's."""


class Fault(Exception):
    """What ends the command, in words."""


class Wrong(Fault):
    """What was given is malformed or refused."""
    status = 1


class Missing(Fault):
    """A file, a program or a part of the machine is not there, or fails."""
    status = 2


class Misused(Fault):
    """The arguments do not go together."""
    status = 2


DIFFERENT = 3
STATUSES = (  # of every subcommand, for the help and the man page
    ("0", "done"),
    (f"{Wrong.status}", "the input is malformed or refused"),
    (f"{Missing.status}", "wrong use, or something cannot be read, written, found or built"),
    (f"{DIFFERENT}", "the air logs given to compare differ"),
    ("128 + s", "ended by signal s"),
)
