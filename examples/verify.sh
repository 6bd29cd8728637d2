#!/usr/bin/env bash
# Runs each example and compares what the program prints with what is kept here. Usage: verify.sh [PROGRAM]
set -u
here=$(cd "$(dirname "${BASH_SOURCE[0]}")" && pwd)
program=${1:-$here/../flow}
failed=0

compare() {
    local input=$1 wanted=$2
    shift 2
    if diff <("$program" "$@" < "$input") "$wanted" > /dev/null; then
        echo "same: $input"
    else
        echo "differs: $input"
        failed=1
    fi
}

compare "$here/fate/diamond.txt" "$here/fate/diamond.out" fate
for name in credit claim order; do
    compare "$here/$name/script.txt" "$here/$name/replies.txt" try
done
exit "$failed"
