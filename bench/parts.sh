#!/usr/bin/env bash
# Measures parts on their own, those that the program does not call yet among them, at the whole load and at half of it.
# Needs the toolchain and python3. With words, the first is another script that is to measure them. The program that it measures is parts.txt, built in a folder of its own.
set -e
cd "$(dirname "$0")/.."
# The crates that parts.txt calls, and those that they depend on.
called="acl_banks aes_block ble_base ccm_link cell_pool chan_select data_pdu slot_plan"
below="wire_fields"
folder=$(mktemp -d)
trap 'rm -rf "$folder"' EXIT
mkdir -p "$folder/crates/parts_bench/src"
for crate in $called $below; do
  mkdir "$folder/crates/$crate"
  for part in src specs proofs; do
    if [ -d "crates/$crate/$part" ]; then cp -r "crates/$crate/$part" "$folder/crates/$crate/"; fi
  done
  grep "^$crate:" crates.txt >>"$folder/crates.txt"
done
cp bench/parts.txt "$folder/crates/parts_bench/src/main.rt"
echo "parts_bench: $called arrayvec" >>"$folder/crates.txt"
(cd "$folder/crates/parts_bench" && rt run -- blocks 1) >/dev/null 2>&1 || {
  echo "the program did not build" >&2
  exit 1
}
script=${1:-bench/parts.py}
python3 "$script" "$folder/crates/parts_bench/out/parts_bench" "${@:2}"
