"""Why a script does not do what it was asked for."""


class Unusable(Exception):
    """A usage error, or why nothing can be checked: the script ends with status 2."""


class Unopened(Unusable):
    """Which file can't be opened, and why."""


class Damaged(Unusable):
    """Which packed file can't be unpacked, and why."""


class Fault(Exception):
    """What is wrong with what was asked about: the script ends with status 1."""
