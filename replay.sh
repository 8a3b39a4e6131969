#!/bin/sh
# Composes the pictures of a conference file: ./replay.sh --help says how. It runs the program's command `replay`, and
# proves and builds the program first where a source is newer than it.
set -eu
top=$(CDPATH='' cd -- "$(dirname -- "$0")" && pwd)
program=$top/crates/bridge_cli/out/bridge_cli
log=$top/crates/bridge_cli/out/replay.log

help() {
    cat << END
Composes the pictures of a conference file and writes them as framed RTP packets. The program's line of notes goes to
standard error: how it ended, and its counts.

Usage: replay.sh [--NAME=VALUE ..] [CONFERENCE [OUTPUT]]

CONFERENCE      the conference file; else examples/four_faces.conf
OUTPUT          where the packets go; else composed.rtp. A device, a FIFO or a link is written through. A file gets its
                name at the end, and is left as it was where no packet came.
--NAME=VALUE    an option of the program's command replay: mtu, ssrc, seq or stamp

The program is proved and built first where that was not done yet or a source has changed. This needs the command rt of
the Rattle toolchain, and its log is crates/bridge_cli/out/replay.log.

Status: 0 done, 1 the program could not be built, 2 usage, 3 the input failed, 4 the output failed, 5 the input ends too
early, 6 an entry of the input is at fault, 7 the input is too long, 9 no memory, 10 the line of notes could not be
written. At 3, 5, 6 and 7 OUTPUT has the packets of each tick before that; at 10 it has all of them.
END
}

# where standard error is closed, the status alone tells
say() {
    echo "replay.sh: $1" >&2 || :
}

fail() {
    say "$2"
    exit "$1"
}

usage() {
    fail 2 "Usage: replay.sh [--NAME=VALUE ..] [CONFERENCE [OUTPUT]]"
}

is_built() {
    [ -x "$program" ] &&
        [ -z "$(find "$top/crates" "$top/crates.txt" -name out -prune -o \
            \( -name '*.rt' -o -name '*.antt' -o -name crates.txt \) -newer "$program" -print)" ]
}

build() {
    command -v rt > /dev/null ||
        fail 1 "the program is not built, and rt is not on the path: it is in bin/ of the Rattle toolchain (README.md)"
    mkdir -p "$(dirname "$log")"
    : > "$log" || fail 1 "cannot write $log"
    say "proving and building the program, which takes 10 to 20 minutes the first time; its log is $log"
    began=$(date +%s)
    touch "$log.began"
    (cd "$top/crates/bridge_cli" && rt run -- --version) < /dev/null > "$log" 2>&1 ||
        fail 1 "the program could not be built; why is in $log"
    # a source that has changed since the build began is newer than the program
    touch -r "$log.began" "$program"
    say "built after $(($(date +%s) - began)) seconds"
}

meaning() {
    case $1 in
        2) echo "the words ask for no job" ;;
        3) echo "the input failed" ;;
        4) echo "the output failed" ;;
        5) echo "the input ends too early" ;;
        6) echo "an entry of the input is at fault" ;;
        7) echo "the input is too long" ;;
        9) echo "no memory" ;;
        10) echo "the line of notes could not be written" ;;
        *) echo "not a status of the program" ;;
    esac
}

# Runs the program into a file beside the output, which takes the output's name at the end where packets are in it.
write_whole() {
    part=$output.$$.part
    trap 'rm -f -- "$part"' EXIT
    (set -C && : > "$part") 2> /dev/null || fail 4 "cannot write $output"
    status=0
    "$program" replay "$@" < "$conference" > "$part" || status=$?
    case $status in
        0 | 10) ;;
        3 | 5 | 6 | 7) [ -s "$part" ] || ended "$status" "; $output was not written" ;;
        *) ended "$status" "; $output was not written" ;;
    esac
    octets=$(wc -c < "$part")
    mv -f -- "$part" "$output" || fail 4 "cannot write $output"
    say "wrote $((octets)) octets of framed RTP packets to $output"
    [ "$status" -eq 0 ] || ended "$status" ""
}

write_through() {
    { command exec 3> "$output"; } 2> /dev/null || fail 4 "cannot write $output"
    "$program" replay "$@" < "$conference" >&3 3>&- || ended "$?" ""
    say "wrote framed RTP packets to $output"
}

ended() {
    fail "$1" "status $1, $(meaning "$1")$2"
}

if [ $# -eq 1 ] && [ "$1" = --help ]; then
    help || exit 4
    exit 0
fi
conference=
output=
names=0
# the options stay in "$@", and the names go
for word; do
    shift
    case $word in
        --?*=*) set -- "$@" "$word" ;;
        -*) usage ;;
        *)
            names=$((names + 1))
            case $names in
                1) conference=$word ;;
                2) output=$word ;;
                *) usage ;;
            esac
            ;;
    esac
done
[ "$names" -ge 1 ] || conference=$top/examples/four_faces.conf
[ "$names" -ge 2 ] || output=composed.rtp

if [ ! -r "$conference" ] || [ -d "$conference" ]; then
    fail 3 "cannot read $conference"
fi
[ ! -d "$output" ] || fail 4 "cannot write $output: it is a directory"
if [ -z "$output" ] || [ ! -d "$(dirname -- "$output")" ]; then
    fail 4 "cannot write $output: there is no such folder"
elif [ -e "$output" ]; then
    [ -w "$output" ] || fail 4 "cannot write $output"
    # shellcheck disable=SC3013 # dash, bash and busybox have -ef, and POSIX since 2024
    [ ! "$output" -ef "$conference" ] || fail 4 "cannot write $output: it is the conference file"
fi
trap 'exit 129' HUP
trap 'exit 130' INT
trap 'exit 143' TERM
is_built || build
say "reading $conference"
if [ -L "$output" ] || { [ -e "$output" ] && [ ! -f "$output" ]; }; then
    write_through "$@"
else
    write_whole "$@"
fi
