#!/usr/bin/env bash
# Measures `ble make 7`: instructions and peak memory, against `ble pair` on the same load, and by turns.
# Needs the toolchain, python3 and valgrind.
cd "$(dirname "$0")/.." || exit 1
(cd crates/ble && rt run -- pair data/advertiser.bin data/scanner.bin data/one-advertisement) >/dev/null 2>&1 || {
  echo "the program did not build" >&2
  exit 1
}
exec python3 bench/loads.py crates/ble/out/ble
