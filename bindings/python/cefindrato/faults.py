"""Why there is no verdict."""


class Fault(Exception):
    """A text was rejected or could not be read; the message says which, and why."""


class OutOfMemory(Fault, MemoryError):
    """There was no memory; nothing is said of the formula or of the proof."""
