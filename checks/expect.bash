# What checks/scripts and checks/tools share: cases of a command, its status and all that it writes. `begin NAME` first, `finish` last.

# The last line of the usage of each script that isn't td-check, td-draw or td-image; for those that source this.
# shellcheck disable=SC2034
unproved="An unproved script: docs/tools.md says what it shows."

begin() {
    check=$1
    export TD=$PWD/crates/td/out/td
    export TDC=$PWD/crates/tdc/out/tdc
    for program in "$TD" "$TDC"; do
        [ -x "$program" ] || { echo "$check: $program isn't built"; exit 1; }
    done
    passed=0
    failed=0
    # shellcheck disable=SC2034
    top=$PWD
    work=$(mktemp -d)
    trap 'rm -rf "$work"' EXIT
}

# expect NAME STATUS COMMAND..: with this status it writes, to both its outputs, exactly what stands on standard input, but for line
# feeds at its end.
expect() {
    local name=$1 want=$2 status written
    shift 2
    written=$("$@" 2>&1 </dev/null)
    status=$?
    if [ "$status" = "$want" ] && [ "$written" = "$(cat)" ]; then
        passed=$((passed + 1))
    else
        failed=$((failed + 1))
        printf '%s: %s: status %s, wanted %s; what it wrote:\n%s\n' "$check" "$name" "$status" "$want" "$written"
    fi
}

# The parts of an input that a folder has: its module and its job.
part() {
    sed '/^%%$/,$d' "$1/input" >"$work/module.3d"
    sed '1,/^%%$/d' "$1/input" >"$work/job.json"
}

finish() {
    echo "$check: $passed passed, $failed failed"
    [ "$failed" = 0 ] && [ "$passed" -gt 0 ]
}
