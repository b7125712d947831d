#!/usr/bin/env bash
# What the documents say of files: links, names, counts of lines, quotations, laws, clauses of contracts, crates, calls;
# that without FORMATS they have at most 24,500 words together (tests/documents/main.py says how these are counted); that the picture of
# times is that of its table, and that the page of definitions, and the one for Coq, are those of the files of definitions. In `crates.txt`
# each crate is below those that it uses.
set -euo pipefail
cd "$(dirname "$0")/.."
python3 -B docs/definitions_page.py --check
python3 -B docs/definitions_coq.py --check
python3 -B benches/picture.py --check
exec python3 -B tests/documents/main.py
