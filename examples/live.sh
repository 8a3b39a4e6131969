#!/bin/sh
# A live conference of recorded lanes, as if they came now: examples/live.sh OUTPUT LANE..
#
# Each LANE, up to 16 of them, holds framed RTP packets with QCIF video (udp_lane.py), and comes through a FIFO at the pace at
# which it was recorded. The chair's FIFO places the first four. A timer asks for a picture at each picture time, as long as a
# lane sends and half a second more. OUTPUT gets the framed packets, and standard error the line of notes. At an interrupt,
# SIGHUP or SIGTERM the timer and the senders stop, and the conference ends in order. The status is the program's.
set -eu
here=$(CDPATH='' cd -- "$(dirname -- "$0")" && pwd)
program=${PROGRAM:-$here/../crates/bridge_cli/out/bridge_cli}
help() {
    sed -n '2,7s/^# \{0,1\}//p' "$0"
}
if [ $# -eq 1 ] && [ "$1" = --help ]; then
    help
    exit 0
elif [ $# -lt 2 ] || [ $# -gt 17 ]; then
    help >&2
    exit 2
fi
output=$1
shift
room=$(mktemp -d)
senders=
timer=
live=
# what is started in the background is not interrupted itself
stop() {
    # shellcheck disable=SC2086
    kill $timer $senders 2> /dev/null || :
}
clean() {
    stop
    # shellcheck disable=SC2086
    kill $live 2> /dev/null || :
    rm -rf "$room"
}
trap clean EXIT
trap stop HUP INT TERM

chair() {
    for place in 1 2 3 4; do
        [ $place -gt "$1" ] || echo "place $place $((place - 1))"
    done > "$2"
}

# Whether one of these processes is there.
is_one_there() {
    for process; do
        ! kill -0 "$process" 2> /dev/null || return 0
    done
    return 1
}

# The program opens the lanes in the order of their names, and then the chair. Each waits for its writer, and each writer for
# the program: so all of them are started first, side by side.
mkfifo "$room/chair" "$room/steps"
chair $# "$room/chair" &
senders=$!
names=
for lane; do
    fifo=$room/lane$#
    shift
    mkfifo "$fifo"
    "$here/send_lane.py" "$lane" > "$fifo" &
    senders="$senders $!"
    names=$names${names:+,}$fifo
done
"$here/timer.py" > "$room/steps" &
timer=$!
"$program" live --lanes="$names" --chair="$room/chair" < "$room/steps" > "$output" &
live=$!

# shellcheck disable=SC2086
while is_one_there $senders && is_one_there "$live"; do
    sleep 0.1 || :
done
! is_one_there "$timer" || ! is_one_there "$live" || sleep 0.5 || :
stop
# a signal ends a wait, and not what is waited for
status=0
wait "$live" || status=$?
while is_one_there "$live"; do
    status=0
    wait "$live" || status=$?
done
live=
exit "$status"
