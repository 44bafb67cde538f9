# What tests/launcher, tests/install and tests/examples share: one line a check, counted. To be sourced.
# shellcheck shell=bash
unset CDPATH DESTDIR
cd "$(dirname "${BASH_SOURCE[0]}")/.." || exit 2
repo=$(pwd -P)
room=$(mktemp -d) || exit 2
chmod 755 "$room" # some checks run as another user
trap 'rm -rf "$room"' EXIT
export repo room

passed=0 failed=0

# note WHAT COMMAND..: counts a check, which passes if the command does
note() {
    local what=$1
    shift
    if "$@"; then
        echo "ok      $what"
        passed=$((passed + 1))
    else
        echo "FAILED  $what"
        failed=$((failed + 1))
        return 1
    fi
}

# wrote FILE PATTERN: what a command wrote to FILE, without the last end of line, is like PATTERN
wrote() {
    # shellcheck disable=SC2053
    [[ "$(tr '\0' 0 < "$1")" == $2 ]]
}

is_like() { [ "$ended" -eq "$1" ] && wrote "$room/out" "$2" && wrote "$room/err" "$3"; }

# try WHAT STATUS OUT ERR COMMAND: runs a line of shell at the root of the repository, with nothing
# on standard input; its exit status, standard output and standard error must be these (the latter
# two are patterns)
try() {
    timeout 60 bash -c "$5" < /dev/null > "$room/out" 2> "$room/err"
    ended=$?
    note "$1" is_like "$2" "$3" "$4" && return
    printf '    %s\n    status %s and not %s; it wrote\n' "$5" "$ended" "$2"
    head -c 2000 "$room/out" "$room/err" | tr '\0' 0
}

skip() { echo "skipped $1"; }

# The last line, and the status of the whole.
finish() {
    echo "$passed ok, $failed failed"
    [ "$failed" -eq 0 ]
}
