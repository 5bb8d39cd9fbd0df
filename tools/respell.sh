#!/bin/sh
# Brings the names of specs/ and proofs/ to today's spelling: names that Rattle makes, then the repository's own.
# Run once on what the toolchain's port/port.py makes.   usage: tools/respell.sh TOP
set -eu
here="$(cd "$(dirname "$0")" && pwd)"
python3 "$here/generated_names.py" --write "$1"
# bit-or and bit-and are lemmas that would meet std's words bit_or and bit_and.
python3 "$here/own_names.py" --write "$1" bit-or=bit-bit_or bit-and=bit-bit_and
