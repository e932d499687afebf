#!/bin/bash
# The gate: `rt ci` over the whole repository, on the checkout as it stands, and then the tests of the second
# implementation. It fails where one of them does, and also where a must-fail edit is bad, that is where it could not be
# applied, compiled or read. Its last line counts both.
cd "$(dirname "$0")/.." || exit 1
PATH="$PATH:$HOME/.cargo/bin"
log=$(mktemp) || exit 1
trap 'rm -f "$log"' EXIT

rt ci 2>&1 | tee "$log"
[ "${PIPESTATUS[0]}" -eq 0 ] || exit 1
if grep -Eq '^rt: ok.*, [1-9][0-9]* bad' "$log"; then
    echo "a must-fail edit is bad"
    exit 1
fi
proved=$(tail -n 1 "$log" | sed -nE 's/^([0-9]+) passed, 0 failed$/\1/p')
[ -n "$proved" ] || exit 1

make -s second 2>&1 | tee "$log"
status=${PIPESTATUS[0]}
read -r tested failed < <(awk '/^test result:/ { for (i = 2; i <= NF; i++) { if ($i == "passed;") passed += $(i - 1); if ($i == "failed;") failed += $(i - 1) } }
    END { print passed + 0, failed + 0 }' "$log")
if [ "$failed" -eq 0 ] && { [ "$status" -ne 0 ] || [ "$tested" -eq 0 ]; }; then
    failed=1
fi
echo "$((proved + tested)) passed, $failed failed"
[ "$failed" -eq 0 ]
