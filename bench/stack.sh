#!/bin/bash
# Measures the stack that the proved program's `check` takes on the deepest texts.
root=$(cd "$(dirname "$0")/.." && pwd)
program=$("$root/bits_cli" --program) || exit 70
exec python3 "$root/bench/stack.py" "$program"
