#!/usr/bin/env bash
# Compares a link that carries nothing but empty PDUs with idle turns: instructions and peak memory.
# Needs the toolchain, python3 and valgrind.
cd "$(dirname "$0")/.." || exit 1
(cd crates/ble && rt run -- pair data/advertiser.bin data/scanner.bin data/one-advertisement) >/dev/null 2>&1 || {
  echo "the program did not build" >&2
  exit 1
}
exec python3 bench/links.py crates/ble/out/ble
