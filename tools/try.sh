# shellcheck shell=bash
# SPDX-License-Identifier: Apache-2.0
# How a script of tests counts, for those that source it: `try NAME COMMAND ..` for each test, and `ended` at the end.
passed=0 failed=0

# Runs a command whose last line counts what passed and what failed, or whose status is all that it says.
try() {
    local name=$1 said status
    shift
    said=$("$@" 2>&1)
    status=$?
    if [[ ${said##*$'\n'} =~ ^([0-9]+)\ passed,\ ([0-9]+)\ failed$ ]]; then
        passed=$((passed + BASH_REMATCH[1])) failed=$((failed + BASH_REMATCH[2]))
        if [ "$status" -ne 0 ] && [ "${BASH_REMATCH[2]}" -eq 0 ]; then failed=$((failed + 1)); fi
    elif [ "$status" -eq 0 ]; then
        passed=$((passed + 1))
    else
        failed=$((failed + 1))
    fi
    printf '%s: status %s: %s\n' "$name" "$status" "${said##*$'\n'}"
    if [ "$status" -ne 0 ]; then printf '%s\n' "$said"; fi
}

# Prints the count, leaves it where ./check looks for it, and answers whether all passed.
ended() {
    [ -z "${ROKDAUM_COUNT:-}" ] || printf '{"passed": %d, "failed": %d}\n' "$passed" "$failed" > "$ROKDAUM_COUNT"
    echo "$passed passed, $failed failed"
    [ "$failed" -eq 0 ] && [ "$passed" -gt 0 ]
}
