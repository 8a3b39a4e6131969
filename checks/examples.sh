#!/bin/sh
# checks/examples.sh PROGRAM: the scripts of examples/ beside the program, and that the files there are what they write.
. "$(dirname -- "$0")/lib.sh"
program=$1
examples=$top/examples
cd "$room" || exit

# the conference files are those of their description
cp -r "$examples" again
rm again/*.conf
is "make_examples.py" python3 again/make_examples.py
for file in "$examples"/*.conf; do
    is "$(basename "$file") is written again" cmp "$file" "again/$(basename "$file")"
done

# from packets to bare video
"$program" replay < "$examples/striped_top_right.conf" > composed.rtp 2> composed.notes
tail -c +19 composed.rtp > by_tail.h261
try_line '"$1" < "$2"' "$examples/h261_of_frames.py" composed.rtp
ended "h261_of_frames.py" 0
wrote by_tail.h261
said "h261_of_frames.py: 1 picture"
try_line '"$1" < "$2"' "$examples/h261_of_frames.py" "$examples/bars_lane.rtp"
ended "h261_of_frames.py of a lane" 0
said "h261_of_frames.py: 15 pictures"
for case in many cut short; do
    python3 "$top/checks/lanes.py" $case > $case.rtp
done
python3 "$top/checks/lanes.py" bare > bare.h261
try_line '"$1" < "$2"' "$examples/h261_of_frames.py" many.rtp
ended "h261_of_frames.py of pictures that are cut at any bit" 0
wrote bare.h261
said "h261_of_frames.py: 3 pictures"
try_line '"$1" < "$2"' "$examples/h261_of_frames.py" cut.rtp
ended "h261_of_frames.py of a stream that is cut" 1
said "after 2 pictures: the stream ends inside a frame"
try_line '"$1" < "$2"' "$examples/h261_of_frames.py" short.rtp
ended "h261_of_frames.py of what is no RTP" 0
said "h261_of_frames.py: 0 pictures"
# of three pictures the first one is not whole
python3 - > two.h261 << END
import sys
sys.path.insert(0, "$top/checks")
import lanes
sys.stdout.buffer.write(b"".join(map(lanes.octets_of, lanes.PICTURES[1:])))
END
for case in lost unusable; do
    python3 "$top/checks/lanes.py" $case > $case.rtp
    try_line '"$1" < "$2"' "$examples/h261_of_frames.py" $case.rtp
    ended "h261_of_frames.py, a packet $case" 0
    wrote two.h261
    said "h261_of_frames.py: 2 pictures"
done
try "$examples/h261_of_frames.py" composed.rtp
ended "h261_of_frames.py with a word" 2
said "h261_of_frames.py < PACKETS > VIDEO.h261"

# from bare video to a lane, cut before groups where a picture is longer than a packet
for case in bare noisy; do
    python3 "$top/checks/lanes.py" $case > $case.h261
    try_line '"$1" --mtu=1000 < "$2"' "$examples/lane_of_h261.py" $case.h261
    ended "lane_of_h261.py of $case video" 0
    cp out $case.rtp
    try_line '"$1" < "$2"' "$examples/h261_of_frames.py" $case.rtp
    wrote $case.h261
    try_line '"$1" check < "$2"' "$program" $case.rtp
    ended "its lane" 0
done
said "done pictures 4 gaps 0"
is "a group has a packet" test "$(python3 -c 'import sys
sys.path.insert(0, sys.argv[1])
from rtp_frames import frames
print(len(list(frames(open("noisy.rtp", "rb")))))' "$examples")" -eq 12
is "TR says the time" test "$(python3 -c 'import sys
sys.path.insert(0, sys.argv[1])
from rtp_frames import frames, stamp_of
print(*sorted({stamp_of(it) for it in frames(open("noisy.rtp", "rb"))}))' "$examples")" = "0 3003 15015 108108"
python3 "$top/checks/lanes.py" cif > cif.h261
try_line '"$1" < "$2"' "$examples/lane_of_h261.py" cif.h261
ended "lane_of_h261.py of CIF" 1
said "picture 1 is CIF, and a lane has QCIF"
try "$examples/lane_of_h261.py"
ended "lane_of_h261.py of nothing" 1
said "there is no picture"
try "$examples/lane_of_h261.py" --mtu=999
ended "lane_of_h261.py with packets that are too short" 2

# from lanes to a capture and back, and from a capture of another kind
try "$examples/pcap_of_frames.py" --port=5010 "$examples/bars_lane.rtp"
ended "pcap_of_frames.py" 0
cp out bars.pcap
try "$examples/lanes_of_pcap.py" bars.pcap bars
ended "lanes_of_pcap.py" 0
wrote_nothing
said "lanes_of_pcap.py: bars-5010-043f65b3.rtp: 15 packets, 0.5 seconds"
is "its lane" cmp bars-5010-043f65b3.rtp "$examples/bars_lane.rtp"
is "its times" test "$(sed -n 2p bars-5010-043f65b3.rtp.times)" = 0.033367
try "$examples/pcap_of_frames.py" --port=5010 bars-5010-043f65b3.rtp
ended "pcap_of_frames.py by times" 0
wrote bars.pcap
python3 "$top/checks/lanes.py" pcapng > two.pcapng
python3 "$top/checks/lanes.py" frames > frames.rtp
try "$examples/lanes_of_pcap.py" two.pcapng two
ended "lanes_of_pcap.py of a pcapng file" 0
said "two-5004-6c616e65.rtp: 2 packets, 1.0 seconds"
said "two-5006-6c616e65.rtp: 1 packets, 0.0 seconds"
is "its packets" cmp two-5004-6c616e65.rtp frames.rtp
is "its times, to a microsecond" test "$(tr '\n' ' ' < two-5004-6c616e65.rtp.times)" = "1500000000.000000 1500000001.000002 "
is "the times of the other one" test "$(cat two-5006-6c616e65.rtp.times)" = 1500000000.250000
head -c 200 two.pcapng > cut.pcapng
try "$examples/lanes_of_pcap.py" cut.pcapng cut
ended "lanes_of_pcap.py of a capture that is cut" 1
said " is not whole"
try "$examples/lanes_of_pcap.py" "$examples/bars_lane.rtp" none
ended "lanes_of_pcap.py of what is no capture" 1
said "this is no capture"
try "$examples/lanes_of_pcap.py" --type=96 two.pcapng none
ended "lanes_of_pcap.py of a type that is not there" 1
said "no RTP packet has payload type 96"

# from lanes to a conference file, and through the program
lanes() {
    try "$examples/conference_of_lanes.py" "$@"
}
bars=$examples/bars_lane.rtp
for place in 1 2 3 4; do
    echo "0 place $place 0" > chair
    lanes --chair=chair "$bars"
    ended "conference_of_lanes.py, place $place" 0
    cp out bars.conf
    try_line '"$1" replay < bars.conf' "$program"
    ended "its file" 0
    said "done ticks 15 pictures 15 gaps 0 commands 1 refused 0 taken 15 packets 15 octets "
    python3 "$top/checks/composed.py" "$place" < "$bars" > first.rtp
    is "its first packet" cmp -n "$(wc -c < first.rtp)" out first.rtp
done
lanes "$bars" "$bars" "$bars" "$bars" "$bars"
ended "conference_of_lanes.py of five lanes" 0
said "conference_of_lanes.py: 5 lanes, 79 packets and commands, 15 ticks, 0.5 seconds"
cp out five.conf
try_line '"$1" replay < five.conf' "$program"
ended "its file" 0
said "done ticks 15 pictures 75 gaps 0 commands 4 refused 0 taken 60 "
lanes --step=3 many.rtp
ended "conference_of_lanes.py of pictures in many packets" 0
cp out many.conf
try_line '"$1" replay < many.conf' "$program"
ended "its file" 0
said "done ticks 2 pictures 3 gaps 0 commands 1 refused 0 taken 2 packets 2 octets 1880"
seq -f '%.1f' 100 0.5 107 > timed.rtp.times
cp "$bars" timed.rtp
lanes --step=15 timed.rtp
ended "conference_of_lanes.py by recorded times" 0
cp out timed.conf
try_line '"$1" replay < timed.conf' "$program"
said "done ticks 14 pictures 15 "
echo 1 > timed.rtp.times
lanes timed.rtp
ended "conference_of_lanes.py of too few times" 1
said "timed.rtp.times has 1 times, and the lane has 15 packets"
for case in jumping junk; do
    python3 "$top/checks/lanes.py" $case > $case.rtp
done
lanes --step=31 jumping.rtp
ended "conference_of_lanes.py of timestamps that jump" 0
said "jumping.rtp: the timestamp of packet 3 jumps by 10000.0 seconds"
said "jumping.rtp: another sender begins with packet 5"
said "1 lanes, 6 packets and commands, 9668 ticks, "
lanes --step=3 junk.rtp
ended "conference_of_lanes.py of packets that are no RTP" 0
said "junk.rtp: 3 packets are no RTP, and are passed over"
is "its file is the one without them" cmp out many.conf
printf '0 place 1 0\n\n1.5 speaker 16\n' > chair
lanes --chair=chair "$bars"
ended "conference_of_lanes.py of a line that says no command" 1
wrote_nothing
said "chair, line 3: no second with a command behind it: 1.5 speaker 16"
printf 'soon place 1 0\n' > chair
lanes --chair=chair "$bars"
ended "conference_of_lanes.py of a second that is none" 1
said "chair, line 1: soon is no number of seconds"
lanes nothing.rtp
ended "conference_of_lanes.py of a lane that is not there" 1
said "No such file"
lanes --step=0 "$bars"
ended "conference_of_lanes.py with a step that is none" 2
said "conference_of_lanes.py [--step=N] [--chair=FILE] LANE.. > CONFERENCE"

# live, through FIFOs: what it writes is what its replay writes; and two lanes at their own pace
try "$examples/live_and_replay.py" "$program" "$examples/four_faces.conf"
ended "live_and_replay.py" 0
said "the replay has the same octets"
try_line 'PROGRAM=$1 "$2" live.rtp "$3" "$3"' "$program" "$examples/live.sh" "$bars"
ended "live.sh" 0
said " pictures 30 gaps 0 commands 2 refused 0 taken "
try_line '"$1" check --format=cif < live.rtp' "$program"
ended "its pictures" 0
is "none is lost" grep -q " gaps 0$" "$room/err"
try "$examples/live.sh" live.rtp
ended "live.sh without a lane" 2
said "A live conference of recorded lanes"
# at a signal the timer and the senders stop, the conference ends in order, and nothing is left
seq 0 1 14 > slow.rtp.times
cp "$bars" slow.rtp
mkdir left
for signal in HUP TERM; do
    rm -f live.rtp
    TMPDIR=$room/left PROGRAM=$program "$examples/live.sh" live.rtp slow.rtp slow.rtp 2> live.notes &
    process=$!
    for _ in $(seq 50); do
        [ ! -s live.rtp ] || break
        sleep 0.1
    done
    kill -s $signal $process
    is "live.sh at a signal" wait $process
    is "its line" grep -q "^done ticks " live.notes
    is "its folder is gone" test -z "$(ls left)"
    is "its pictures are frames" "$program" check --format=cif < live.rtp
done
try "$examples/timer.py" --step=2 --seconds=0.3
ended "timer.py" 0
is "lines that tell of eight picture times or more" test "$(awk '{ sum += $1 } END { print sum }' out)" -ge 8
try_line '"$1" | head -n 2' "$examples/timer.py"
ended "timer.py that nobody reads any more" 0
try "$examples/timer.py" --step=32
ended "timer.py with a step that is none" 2
try "$examples/send_lane.py" "$bars"
ended "send_lane.py" 0
wrote "$bars"
try "$examples/send_lane.py" none.rtp
ended "send_lane.py of a lane that is not there" 1

# from planes to a picture: a grey one, and one that is not there
head -c 152064 /dev/zero | tr '\000' '\200' > grey.yuv
try_line '"$1" 1 < grey.yuv' "$examples/png_of_planes.py"
ended "png_of_planes.py" 0
is "it is a PNG" test "$(od -An -c -N8 out | tr -d ' ')" = '211PNG\r\n032\n'
try_line '"$1" 2 < grey.yuv' "$examples/png_of_planes.py"
ended "png_of_planes.py of a picture that is not there" 1

# datagrams: what comes to a port, to the end by a signal
for case in frames renumbered; do
    python3 "$top/checks/lanes.py" $case > $case.rtp
done
port=$(python3 "$top/checks/lanes.py" port)
for signal in INT TERM; do
    "$examples/udp_lane.py" "$port" udp.rtp 2> udp.notes &
    process=$!
    for _ in $(seq 100); do
        ! grep -q "listening on port $port" udp.notes || break
        sleep 0.1
    done
    python3 "$top/checks/lanes.py" sent "$port"
    for _ in $(seq 100); do
        ! cmp -s udp.rtp frames.rtp || break
        sleep 0.1
    done
    try "$examples/udp_lane.py" "$port" udp.rtp
    ended "udp_lane.py at a port that is taken" 1
    said "in use"
    kill -s $signal $process
    is "udp_lane.py at SIG$signal" wait $process
    is "its frames" cmp udp.rtp frames.rtp
    is "its line" grep -qx "udp_lane.py: RTP packets: 2; left out: 3; senders: 1" udp.notes
    is "its times" test "$(wc -l < udp.rtp.times)" -eq 2
done
try_line '{ sleep 1; python3 "$2" sent "$3"; } & "$1" --silence=0.5 "$3" -' "$examples/udp_lane.py" "$top/checks/lanes.py" "$port"
ended "udp_lane.py that ends with the packets" 0
wrote frames.rtp
try python3 "$top/checks/lanes.py" numbered
ended "udp_lane.py's numbers" 0
wrote renumbered.rtp
said "packets: 8; left out: 1; senders: 3; times: 0.000000 0.100000 0.200000 0.300000 0.400000 0.600000 1.700000 1.800000"
for word in 0 65536 port; do
    try "$examples/udp_lane.py" $word udp.rtp
    ended "udp_lane.py with the port $word" 2
done

# each script tells what it is for
for script in "$examples"/*.sh "$examples"/*.py; do
    [ -x "$script" ] || continue
    try "$script" --help
    ended "$(basename "$script") --help" 0
    said_nothing
    is "it says something" test -s out
done

tell "checks/examples.sh"
