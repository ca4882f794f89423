#!/bin/bash
# Times the proved program's `run` and `copy` on programs of several kinds that grow, and prints ratios in one run.
root=$(cd "$(dirname "$0")/.." && pwd)
program=$("$root/bits_cli" --program) || exit 70
exec python3 "$root/bench/run.py" "$program"
