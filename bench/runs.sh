#!/usr/bin/env bash
# Measures `ble pair` over host octets, the radio and a link: speed, and peak memory against the text of the journal.
# Needs the toolchain and python3.
cd "$(dirname "$0")/.." || exit 1
(cd crates/ble && rt run -- pair data/advertiser.bin data/scanner.bin data/one-advertisement) >/dev/null 2>&1 || {
  echo "the program did not build" >&2
  exit 1
}
exec python3 bench/runs.py crates/ble/out/ble
