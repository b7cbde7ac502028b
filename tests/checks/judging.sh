# What the checks in bash share; they source it first. Each prints a line 'ok: NAME' or 'FAILED: NAME' for each thing
# that it judges, and ends by `exit "$failed"`.
set -u
cd "$(dirname "${BASH_SOURCE[0]}")/../.." || exit 1
work=$(mktemp -d)
trap 'rm -rf "$work"' EXIT
failed=0

# A picture of two bookies, and nothing else.
picture='{"format":1,"grace":3,"bookies":[{"name":"b1:3181","up":true},{"name":"b2:3181","up":true}],"ledgers":[],"contents":[]}'

# One check is done: `judge NAME STATUS`, where STATUS 0 is a pass.
judge() {
    if [ "$2" -eq 0 ]; then
        echo "ok: $1"
    else
        failed=1
        echo "FAILED: $1"
    fi
}

# `need_program`: proves and builds the program first, where it is missing or older than its sources; or only compiles it,
# where UNPROVED is set. $program is its path then. Where that fails, so has the check.
need_program() {
    [ -n "${UNPROVED-}" ] || ./rehearse --prove || exit 1
    program=$(./rehearse --program) || exit 1
}

# `need_library NAME`: builds NAME.c of this folder, so that a program can be loaded with $work/NAME.so.
need_library() {
    local clang
    clang=$(dirname "$(readlink -f "$(command -v rt)")")/../toolchain/bin/clang
    "$clang" -shared -fPIC -nostdlib -fuse-ld=lld -o "$work/$1.so" "tests/checks/$1.c"
    judge "the library $1 is built" $?
}

# `run NAME STATUS FAULT`: the program ends with that status on what $work/input holds, and says just that line on
# standard error. What it writes must be $work/expected.
run() {
    ./rehearse < "$work/input" > "$work/output" 2> "$work/fault"
    local status=$?
    [ "$status" -eq "$2" ] && cmp -s "$work/output" "$work/expected" && [ "$(cat "$work/fault")" = "$3" ]
    judge "$1" $?
}
