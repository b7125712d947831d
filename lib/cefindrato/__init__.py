"""What the scripts around the programs share."""

VERSION = "0.4.0 (built from sources)"
