"""Receipts: lines that say what a checker verified of files, by their sums (SHA-256)."""

import re
from typing import List, Optional

# How many sums a receipt of each kind has.
SUMS = {"refuted": 1, "satisfied": 1, "carries": 2}


def receipt(kind: str, *sums: str) -> str:
    """Returns the text of a receipt."""
    return " ".join([kind, *(f"sha256 {it}" for it in sums)]) + "\n"


class Receipts:
    """Receipts of some kinds."""

    def __init__(self, *kinds: str) -> None:
        forms = (receipt(f"({kind})", *["([0-9a-f]{64})"] * SUMS[kind]) for kind in kinds)
        self.form = re.compile("|".join(forms))
        self.wholes = [receipt(kind, *["0" * 64] * SUMS[kind]) for kind in kinds]

    def parts_of(self, text: Optional[str]) -> Optional[List[str]]:
        """Returns the kind of a receipt and its sums, or None if the text is none."""
        found = self.form.fullmatch(text or "")
        return [it for it in found.groups() if it is not None] if found else None

    def is_cut_off(self, text: Optional[str]) -> bool:
        """Whether there is a text that is the beginning of a receipt: what is left of it where a
        machine stopped, or a copy did."""
        if text is None:
            return False
        wholes = [it for it in self.wholes if len(text) < len(it)]
        return any(self.parts_of(text + it[len(text) :]) is not None for it in wholes)
