#!/usr/bin/env bash
# Measures a link that carries 27 octets both ways in each of 3,000 events: instructions and peak memory, against idle
# turns and against a link that carries empty PDUs; then the instructions of a turn in short and in long runs, also with
# 251 octets both ways.
# Needs the toolchain, python3 and valgrind.
cd "$(dirname "$0")/.." || exit 1
(cd crates/ble && rt run -- pair data/advertiser.bin data/scanner.bin data/one-advertisement) >/dev/null 2>&1 || {
  echo "the program did not build" >&2
  exit 1
}
exec python3 bench/data.py crates/ble/out/ble
