#!/bin/sh
# The ways of five users through the program, with tools of others where these are installed: checks/ways.sh PROGRAM
#
# A first picture; an archive of captures and bare video; a live conference with two senders of ffmpeg over UDP; every wrong
# word; and a conference file made from the formats' page. No part of the gate, since it sends over ports and takes its time.
. "$(dirname "$0")/lib.sh"
program=$(realpath "$1")
examples=$top/examples
cd "$room" || exit 1

has() {
    command -v "$1" > /dev/null && return
    echo "checks/ways.sh: $1 is not installed, so $2 is left out"
    return 1
}

# frames_in NAME COUNT FILE: ffmpeg decodes so many pictures of a bare stream.
frames_in() {
    try ffmpeg -nostdin -v error -f h261 -i "$3" -vsync passthrough -f rawvideo -pix_fmt yuv420p frames.yuv
    ended "$1: ffmpeg reads it" 0
    is "$1: $2 pictures" [ "$(wc -c < frames.yuv)" -eq $(($2 * 152064)) ]
    rm -f frames.yuv
}

# ---- a first picture

try_line '"$1" replay < "$2/four_faces.conf"' "$program" "$examples"
ended "a first picture: replay" 0
said "done ticks 40 pictures "
cp out composed.rtp
try_line '"$1/h261_of_frames.py" < composed.rtp' "$examples"
ended "a first picture: its bare video" 0
cp out composed.h261
if has ffmpeg "its decoding"; then
    frames_in "a first picture" 40 composed.h261
fi
try_line '"$1" decode < composed.rtp' "$program"
ended "a first picture: its samples" 0
said "done pictures 40 gaps 0 octets 6082560"

# ---- a writer that has read the formats' page alone

python3 "$top/checks/writer.py" > written.conf
try_line '"$1" replay < written.conf' "$program"
ended "a writer from the formats' page" 0
said_line "done ticks 3 pictures 3 gaps 2 commands 3 refused 1 taken 3 packets 4 octets 1811"

# ---- every wrong word

if [ -x "$top/checks/words.sh" ]; then
    try "$top/checks/words.sh" "$program"
    ended "every wrong word" 0
fi

# ---- an archive of captures and of bare video

try "$examples/pcap_of_frames.py" "$examples/bars_lane.rtp"
ended "an archive: a capture of a lane" 0
cp out call.pcap
try "$examples/lanes_of_pcap.py" call.pcap call
ended "an archive: lanes of a capture" 0
is "an archive: the lane is the one that was captured" cmp call-*.rtp "$examples/bars_lane.rtp"
cp call-*.rtp first.rtp
cp first.rtp second.rtp
if has ffmpeg "bare video"; then
    ffmpeg -nostdin -v error -f lavfi -i smptebars=size=176x144:rate=30000/1001 -frames:v 60 -c:v h261 -q:v 31 -f h261 bars.h261
    try_line '"$1/lane_of_h261.py" < bars.h261' "$examples"
    ended "an archive: a lane of bare video" 0
    cp out second.rtp
    try_line '"$1" check < second.rtp' "$program"
    ended "an archive: its check" 0
    said "done pictures 60 gaps 0"
fi
try "$examples/conference_of_lanes.py" first.rtp second.rtp
ended "an archive: a conference of both" 0
cp out archive.conf
try_line '"$1" replay < archive.conf' "$program"
ended "an archive: its replay" 0
said " gaps 0 commands 2 refused 0 taken "
cp out archive.rtp
try_line '"$1" check --format=cif < archive.rtp' "$program"
ended "an archive: what was written" 0
said " gaps 0"

# ---- a live conference with two senders of ffmpeg

# send PORT PATTERN: four seconds of video
send() {
    ffmpeg -nostdin -v quiet -re -f lavfi -i "$2=size=176x144:rate=30000/1001" -frames:v 120 -g 30 -c:v h261 -q:v 31 \
        -strict experimental -f rtp "rtp://127.0.0.1:$1" > /dev/null
}

# until_said FILE TEXT: waits until a file says the text, at most ten seconds
until_said() {
    for _ in $(seq 100); do
        grep -q "$2" "$1" 2> /dev/null && return
        sleep 0.1
    done
    return 1
}

if has ffmpeg "the live conference"; then
    mkfifo lane0 lane1 chair
    for lane in 0 1; do
        "$examples/udp_lane.py" --silence=2 $((15104 + 2 * lane)) lane$lane 2> listens$lane &
    done
    (echo place 1 0; echo place 4 1) > chair &
    "$examples/timer.py" --seconds=8 2> /dev/null \
        | "$program" live --lanes=lane0,lane1 --chair=chair > live.rtp 2> live.err &
    live=$!
    is "a live conference: both ports are listened to" until_said listens1 .
    until_said listens0 .
    send 15104 smptebars &
    send 15106 testsrc2 &
    wait "$live"
    judge $? "live ended with another status"
    cp live.err err
    name="a live conference: its notes"
    said " gaps 0 commands 2 refused 0 taken "
    taken=$(sed 's/.* taken \([0-9]*\) .*/\1/' live.err)
    is "a live conference: most pictures were taken" [ "${taken:-0}" -ge 180 ]
    try_line '"$1" check --format=cif < live.rtp' "$program"
    ended "a live conference: what was written" 0
    said " gaps 0"
    "$examples/h261_of_frames.py" < live.rtp > live.h261
    frames_in "a live conference" "$(sed 's/^done ticks \([0-9]*\) .*/\1/' live.err)" live.h261
    wait
fi
tell checks/ways.sh
