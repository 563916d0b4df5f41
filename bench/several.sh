#!/usr/bin/env bash
# Compares three links that carry nothing but empty PDUs with one such link, and opens them from other cursors: instructions.
# Needs the toolchain, python3 and valgrind.
cd "$(dirname "$0")/.." || exit 1
(cd crates/ble && rt run -- pair data/advertiser.bin data/scanner.bin data/one-advertisement) >/dev/null 2>&1 || {
  echo "the program did not build" >&2
  exit 1
}
exec python3 bench/several.py crates/ble/out/ble
