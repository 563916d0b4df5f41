#!/usr/bin/env bash
# Captures every journal in examples/ and has tshark read the captures: a packet is malformed or has a wrong CRC only
# where the journal says that the radio damaged it, and commands and events are named.
# Needs the toolchain, python3 and tshark.
cd "$(dirname "$0")/.." || exit 1
(cd crates/ble_capture && rt run -- ../../examples/data/journal) >/dev/null 2>&1 || {
  echo "the program did not build" >&2
  exit 1
}
exec python3 bench/captures.py crates/ble_capture/out/ble_capture
