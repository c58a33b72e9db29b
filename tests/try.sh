# shellcheck shell=sh
# try.sh: sourced by scripts that try and count; they say `work`, a folder for the log.
passed=0
failed=0

# Runs a command, and prints one line: its name, and the last line that it wrote, or that it failed and what it wrote.
try() { # NAME COMMAND..
    tried=$1
    shift
    # shellcheck disable=SC2154
    if "$@" >"$work/log" 2>&1; then
        passed=$((passed + 1))
        printf '%-30s %s\n' "$tried" "$(tail -n 1 "$work/log")"
    else
        failed=$((failed + 1))
        printf '%-30s FAILED\n' "$tried"
        head -n 20 "$work/log"
    fi
}

# Something that could not even be tried.
broken() { # WHAT
    failed=$((failed + 1))
    echo "$1: FAILED to build"
}

# The last line, and the script's status.
counted() { # NAME
    echo "$1: $passed passed, $failed failed"
    [ "$failed" -eq 0 ]
}
