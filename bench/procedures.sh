#!/usr/bin/env bash
# Measures a link on which both hosts ask for one control procedure after another: instructions and peak memory,
# against a link that carries empty PDUs.
# Needs the toolchain, python3 and valgrind.
cd "$(dirname "$0")/.." || exit 1
(cd crates/ble && rt run -- pair data/advertiser.bin data/scanner.bin data/one-advertisement) >/dev/null 2>&1 || {
  echo "the program did not build" >&2
  exit 1
}
exec python3 bench/procedures.py crates/ble/out/ble
