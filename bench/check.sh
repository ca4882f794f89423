#!/bin/bash
# Times the proved program's `check` on modules of several kinds that grow, and prints the time per byte as ratios in one run.
root=$(cd "$(dirname "$0")/.." && pwd)
program=$("$root/bits_cli" --program) || exit 70
exec python3 "$root/bench/check.py" "$program"
