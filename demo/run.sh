#!/usr/bin/env bash
# Equalizes demo/echoes.cf32 and draws the run. Results go to a new folder, or to the one that is named.
set -eu
root=$(cd "$(dirname "$0")/.." && pwd)
out=${1:-$(mktemp -d)}
mkdir -p "$out"
equalizer=$root/build/equalizer
if [ ! -x "$equalizer" ]; then
    make -C "$root" build/equalizer
fi
rm -f "$out"/{symbols.cf32,marks,curve.txt}{,.part}
"$equalizer" --in "$root/demo/echoes.cf32" --out "$out/symbols.cf32" --marks "$out/marks" --curve "$out/curve.txt" \
    --constellation qpsk --taps 11 --feedback 4 --mu-dd 0.1 --block 20
python3 "$root/demo/plot.py" "$root/demo/echoes.cf32" "$out/symbols.cf32" "$out/marks" "$out/curve.txt" "$out/demo.svg"
echo "the picture is $out/demo.svg"
