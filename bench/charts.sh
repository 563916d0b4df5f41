#!/usr/bin/env bash
# Writes the chart of each example's journal beside it, as chart.svg: bench/charts.sh [PROGRAM]
# PROGRAM is crates/ble_chart/out/ble_chart if it is left out. With chromium, SCREENS=FOLDER makes a
# picture of each at its own size in that folder.
cd "$(dirname "$0")/.." || exit 1
program=${1:-crates/ble_chart/out/ble_chart}
if [ ! -x "$program" ]; then
  echo "there is no program $program; build it with rt run in crates/ble_chart" >&2
  exit 2
fi
for journal in examples/*/journal; do
  chart=${journal%journal}chart.svg
  "$program" "$journal" >"$chart" || exit 1
  python3 -c 'import sys, xml.dom.minidom; xml.dom.minidom.parse(sys.argv[1])' "$chart" || exit 1
  if [ -n "$SCREENS" ]; then
    name=$(basename "$(dirname "$journal")")
    height=$(sed -n '1s/.*height="\([0-9]*\)".*/\1/p' "$chart")
    chromium --headless --no-sandbox --disable-gpu --hide-scrollbars --window-size="1180,$height" \
      --screenshot="$SCREENS/$name.png" "file://$PWD/$chart" >/dev/null 2>&1 || exit 1
  fi
done
