# shellcheck shell=sh disable=SC2034
# What the checks share: they work in $room, run commands by `try`, and say by `ended` how a command was to end.
CDPATH=''
top=$(cd -- "$(dirname -- "$0")/.." && pwd)
room=$(mktemp -d)
trap 'rm -rf "$room"' EXIT
trap 'exit 130' INT TERM
# no check leaves a file behind in the clone
export PYTHONDONTWRITEBYTECODE=1
passed=0
failed=0

# Runs a command with nothing to read; its status, what it wrote and what it said stand in $status, $room/out, $room/err.
try() {
    status=0
    "$@" < /dev/null > "$room/out" 2> "$room/err" || status=$?
}

# Runs a line of the shell in the same way, with further words as $1, $2 and so on.
try_line() {
    line=$1
    shift
    try sh -c "$line" sh "$@"
}

# ended NAME STATUS: the command had this status. What it wrote and said is looked at by the calls below.
ended() {
    name=$1
    [ "$status" -eq "$2" ]
    judge $? "its status is $status, and not $2"
}

# wrote FILE, wrote_nothing: it wrote the octets of a file, or none.
wrote() {
    cmp -s "$1" "$room/out"
    judge $? "it wrote something else than $1"
}

wrote_nothing() {
    [ ! -s "$room/out" ]
    judge $? "it wrote something"
}

# said_line TEXT: what it said is this one line.
said_line() {
    echo "$1" | cmp -s - "$room/err"
    judge $? "it said: $(head -n 1 "$room/err")"
}

# said TEXT: the text is a part of what it said; said_nothing: it said nothing.
said() {
    case $(cat "$room/err") in
        *"$1"*) judge 0 ;;
        *) judge 1 "it did not say: $1" ;;
    esac
}

said_nothing() {
    [ ! -s "$room/err" ]
    judge $? "it said: $(head -n 1 "$room/err")"
}

# is NAME COMMAND..: the command succeeds.
is() {
    name=$1
    shift
    "$@" > /dev/null 2>&1
    judge $? "not so: $*"
}

judge() {
    if [ "$1" -eq 0 ]; then
        passed=$((passed + 1))
    else
        failed=$((failed + 1))
        echo "FAILED: $name: $2"
    fi
}

# The last line of a check.
tell() {
    echo "$1: $passed passed, $failed failed"
    [ "$failed" -eq 0 ]
}
