#!/usr/bin/env bash
# Measures an encrypted link that carries 27, and then 251, octets both ways in each event: instructions and peak memory,
# against the same link in clear, and for each block of the cipher against the cipher alone; in short and in long runs.
# Needs the toolchain, python3 and valgrind.
cd "$(dirname "$0")/.." || exit 1
(cd crates/ble && rt run -- pair data/advertiser.bin data/scanner.bin data/one-advertisement) >/dev/null 2>&1 || {
  echo "the program did not build" >&2
  exit 1
}
exec bench/parts.sh bench/encryption.py crates/ble/out/ble
