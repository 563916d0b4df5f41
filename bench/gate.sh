#!/usr/bin/env bash
# Runs the gate, and then prints where its time went: for each crate the processor seconds of its proof, its tests and its
# must-fail edits, and when each was done. Words are handed to `rt ci`: with --anew nothing that was kept is used.
cd "$(dirname "$0")/.." || exit 1
exec python3 bench/gate.py rt ci "$@"
