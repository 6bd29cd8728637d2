#!/usr/bin/env bash
# Runs each benchmark in turn. Usage: all.sh [PROGRAM]
set -euo pipefail
cd "$(dirname "${BASH_SOURCE[0]}")"
for bench in check fate load lines roots run; do
    echo "== $bench"
    python3 "$bench.py" "$@"
done
