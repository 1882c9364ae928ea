#!/bin/bash
# Times the check of a full packed sheet (416 entries), by a thousand lines through crates/sheet_cases/out/sheet_cases.
# Without its end byte the sheet is refused by reading at once, so that a line is little more than one check;
# with it a line is one reading and one check. Run `rt run` in crates/sheet_cases first.
set -euo pipefail
cd "$(dirname "$0")/.."
full=$(grep -m1 '^full-p ' crates/sheet_cases/stdin)
TIMEFORMAT='%R s'
lines() { for _ in $(seq 1000); do echo "$1"; done; }
lines "${full%FF}" > /tmp/lines.$$
echo -n '1000 checks: '; time crates/sheet_cases/out/sheet_cases < /tmp/lines.$$ > /dev/null
lines "$full" > /tmp/lines.$$
echo -n '1000 readings and checks: '; time crates/sheet_cases/out/sheet_cases < /tmp/lines.$$ > /dev/null
rm -f /tmp/lines.$$
