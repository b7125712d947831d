#!/usr/bin/env bash
# Tries the wrong bodies in crates/*/wrong-bodies/wrong-bodies.txt, each a paragraph there, many in one check, and notes that they were
# refused.
#
#   tests/wrong_bodies.sh [CRATE ..]    those of these crates, or of all: some 6 processor seconds each, RT_JOBS crates at a time
#   tests/wrong_bodies.sh --new [CRATE ..]    those of them that the record lacks, or all of a crate that has changed since
#   tests/wrong_bodies.sh --gated [CRATE ..]    the same right after `rt ci`, over the libraries that it has left: a function that they call
#                                              is not proved once more, but taken by its contract
#   tests/wrong_bodies.sh --stale [MINUTES]    those of the crates whose record is of something else by now, one crate after the
#                                              other; none is begun after this many minutes. The next call goes on from there
#   tests/wrong_bodies.sh --records     whether what was noted is still of what stands there; it tries nothing, and passes over the crates
#                                       that tests/wrong_bodies/waiting.txt names
#   tests/wrong_bodies.sh --asked       those that tests/wrong_bodies/always.txt names. The functions that they call are taken by their
#                                       contracts, so `rt ci` has to have proved them. Nothing is noted
#
# A record has those that a clause of the contract refuses apart from those that only a written proof refuses, which would perhaps
# refuse a right body of that shape too. It exits 1 if one is proved, if one was not judged, or if an unchanged copy of a function is not
# proved; --records also if one that is always tried is not there.
set -euo pipefail
exec python3 -B "$(dirname "$0")/wrong_bodies/main.py" "$@"
