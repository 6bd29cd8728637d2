#!/usr/bin/env bash
# All that a change has to pass: the proofs and the tests in the crates, then the scripts of this folder on the program
# that was built. Ends with the status of the first that failed.
set -uo pipefail
# No script here asks anybody anything.
exec < /dev/null
cd "$(dirname "${BASH_SOURCE[0]}")/.."

begin=$SECONDS
rt ci || exit
echo "rt ci took $((SECONDS - begin)) seconds"
# What needs no program comes first.
for script in tests/promises.py tests/widths.py tests/words.py; do
    python3 "$script" || exit
done
for script in tests/pages.py tests/clients.py tests/agreement.py tests/files/run.py; do
    python3 "$script" crates/flow_cli/out/flow_cli || exit
done
