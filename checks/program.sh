#!/bin/sh
# checks/program.sh PROGRAM: the ends of the built program as a shell sees them, each with its status, what was written
# and what was said. What is written for a file is the work of the proof; here it is compared for the examples alone.
. "$(dirname -- "$0")/lib.sh"
cp "$1" "$room/ballastkiwi"
program=$room/ballastkiwi
striped=$top/examples/striped_top_right.conf

for example in grey_top_left:866 grey_bottom_right:866 striped_top_right:1014; do
    name=${example%:*}
    python3 "$top/checks/composed.py" "$name" > "$room/$name.rtp"
    try_line '"$1" replay < "$2"' "$program" "$top/examples/$name.conf"
    ended "$name" 0
    wrote "$room/$name.rtp"
    said_line "done ticks 1 pictures 1 gaps 0 commands 1 refused 0 taken 1 packets 1 octets ${example#*:}"
done

# Whole conferences: the octets by a digest that another implementation gave.
is_conference() {
    try_line '"$1" replay < "$2"' "$program" "$top/examples/$1.conf"
    ended "$1" 0
    said_line "$2"
    is "the octets of $1" test "$(sha256sum < "$room/out" | cut -c1-64)" = "$3"
}
is_conference ordinary_call \
    "done ticks 60 pictures 179 gaps 1 commands 3 refused 0 taken 124 packets 63 octets 9523" \
    7dee157fa26f869542ea8e7edff1636554ee5067336874364dc0817d4cd0dae3
is_conference four_faces \
    "done ticks 40 pictures 160 gaps 0 commands 6 refused 0 taken 110 packets 45 octets 12285" \
    2dc8ea51b4843b7d0b3be2d1cb1f5238fe36f30d8766862903fe8f3874cda3bb

# A made conference, replayed, reported and decoded, each command over what the one before wrote: the octets by digests
# that another implementation gave.
gives() {
    try_line '"$1" $2 < "$3"' "$program" "$1" "$2"
    ended "$1" 0
    said_line "$3"
    is "the octets of $1" test "$(sha256sum < "$room/out" | cut -c1-64)" = "$4"
    mv "$room/out" "$room/$5"
}
gives "make --seed=1 --ticks=1000 --lanes=4" /dev/null \
    "done ticks 1000 records 4965 octets 311383" \
    34104aec1fc17b6719eee009106bdcb1b5e198cc37d6b66eb7def07cb2822b1c made.conf
gives "replay" "$room/made.conf" \
    "done ticks 1000 pictures 3920 gaps 80 commands 44 refused 0 taken 3154 packets 1002 octets 233115" \
    90296bdd235d7796b36435518330c09f5d1ee3d82dd79d9f4d41799acea69145 made.rtp
gives "check --format=cif" "$room/made.rtp" "done pictures 1000 gaps 0" \
    73b33ee64a4815b567d1d36a29d09d3ca784fb2b3d6d0429090efaf831ec4b86 made.txt
gives "decode" "$room/made.rtp" "done pictures 1000 gaps 0 octets 152064000" \
    8fefbccdf0529d0f410a309633232ef4ef3f7173cb7444d747b1a26170792ed4 made.yuv
rm "$room/made.yuv"

# The history of a conference file: each line is right, by a reader that was made from the pages alone, and all are counted.
tells_history() {
    try_line '"$1" history < "$2"' "$program" "$1"
    ended "the history of $1" 0
    said_line "done lines $(wc -l < "$room/out") octets $(wc -c < "$room/out")"
    mv "$room/out" "$room/history"
    is "the lines of $1" python3 -B "$top/checks/history.py" "$1" "$room/history"
}
for example in grey_top_left grey_bottom_right striped_top_right ordinary_call four_faces; do
    tells_history "$top/examples/$example.conf"
done
tells_history "$room/made.conf"

# is_usage NAME LINE WORDS..: the line asks for no job. The line of notes is on standard error, with more behind it
# (words.sh), and nothing on standard output.
is_usage() {
    case_name=$1
    shift
    try_line "$@"
    ended "$case_name" 2
    wrote_nothing
    is "its first line" test "$(head -n 1 "$room/err")" = "fault usage"
    is "it says more" test "$(wc -l < "$room/err")" -gt 2
}
is_usage "no words" '"$1" < "$2"' "$program" "$striped"
is_usage "an unknown word" '"$1" Replay < "$2"' "$program" "$striped"
is_usage "a word too many" '"$1" replay replay < "$2"' "$program" "$striped"
is_usage "a number out of range" '"$1" replay --mtu=999 < "$2"' "$program" "$striped"
is_usage "an option in two words" '"$1" replay --mtu 1000 < "$2"' "$program" "$striped"
is_usage "an option twice" '"$1" replay --seq=1 --seq=1 < "$2"' "$program" "$striped"
is_usage "an option of another command" '"$1" check --mtu=1000 < "$2"' "$program" "$striped"
is_usage "a format in capitals" '"$1" decode --format=CIF < "$2"' "$program" "$striped"
is_usage "a lane too many" '"$1" make --lanes=17' "$program"
is_usage "live without lanes" '"$1" live --chair=/dev/null' "$program"
is_usage "live without a chair" '"$1" live --lanes=/dev/null' "$program"
is_usage "a lane without a name" '"$1" live --lanes=/dev/null,,/dev/null --chair=/dev/null' "$program"
is_usage "17 lanes" '"$1" live --lanes="$2" --chair=/dev/null' "$program" "$(printf '/dev/null,%.0s' $(seq 16))/dev/null"
is_usage "no turns" '"$1" live --lanes=/dev/null --chair=/dev/null --turns=0' "$program"
is_usage "two options" '"$1" --help --version' "$program"
is_usage "an empty word" '"$1" ""' "$program"
is_usage "a word that is not UTF-8" '"$1" "$2"' "$program" "$(printf 'replay\377')"
try_line '"$1" none 2>&-' "$program"
ended "bad words, standard error closed" 2
try_line '"$1" none 2> /dev/full' "$program"
ended "bad words, standard error full" 2
try_line '("$1" none; cat) < "$2"' "$program" "$striped"
ended "bad words leave the input" 0
wrote "$striped"

# The options, by the octets that they change.
try_line '"$1" replay --seq=258 --stamp=1 --ssrc=16909060 < "$2"' "$program" "$striped"
ended "the options of replay" 0
is "they are in the packet" test "$(od -An -tx1 -j4 -N10 "$room/out")" = " 01 02 00 00 23 32 01 02 03 04"
try_line '"$1" replay --mtu=1000 < "$2"' "$program" "$striped"
ended "shorter packets" 0
is "there are two of them" grep -q "packets 2 octets " "$room/err"

# --help and --version, each as the only word.
try "$program" --help
ended "--help" 0
said_nothing
cp "$room/out" "$room/help"
for number in 0 2 3 4 5 6 7 8 9 10; do
    is "--help names status $number" grep -Eq "^ +$number  +[a-z]" "$room/help"
done
for option in mtu ssrc seq stamp format seed ticks lanes chair turns; do
    is "--help names the option $option" grep -q -e "--$option=" "$room/help"
done
is "--help names the command history" grep -q "ballastkiwi history < " "$room/help"
for case in replay:mtu check:format decode:format make:ticks live:turns; do
    command=${case%:*}
    is "--help names the command $command" grep -q "ballastkiwi $command " "$room/help"
    try "$program" "$command" --help
    ended "$command --help" 0
    is "it names its options" grep -q -e "--${case#*:}=" "$room/out"
    is "it has an example" grep -q -e "ballastkiwi $command" "$room/out"
done
try "$program" --version
ended "--version" 0
said_nothing
echo "ballastkiwi 0.1.0" > "$room/version"
wrote "$room/version"
for word in --help --version; do
    try_line '"$1" "$2" > /dev/full' "$program" "$word"
    ended "$word, output full" 4
    said_line "fault write"
    try_line '"$1" "$2" >&-' "$program" "$word"
    ended "$word, output closed" 4
    said_line "fault write"
done

# The example of --help, word for word, at the top of the repository.
mkdir "$room/top"
cp -r "$top/examples" "$room/top"
sed -n '/^Example/,/^$/s/^ \{1,\}//p' "$room/help" > "$room/example"
try_line 'cd "$1/top" && PATH=$1:$PATH && set -e && . "$1/example"' "$room"
ended "the example of --help" 0
is "it has two commands" test "$(wc -l < "$room/example")" -eq 2
is "its video begins with a picture" test "$(od -An -tx1 -N3 "$room/top/composed.h261")" = " 00 01 01"

# The example of live --help, word for word: it shows something.
if command -v bash > /dev/null; then
    sed -n '/examples\/timer/,$s/^ *example: \(.*\)  (.*/\1/p' "$room/help" > "$room/example"
    is "live has an example" test -s "$room/example"
    try bash -c 'cd "$1/top" && PATH=$1:$PATH && . "$1/example"' bash "$room"
    ended "the example of live --help" 0
    is "it shows pictures of the lane: $(cat "$room/err")" grep -q ' taken [1-9]' "$room/err"
fi

# fails NAME STATUS LINE_OF_NOTES LINE WORDS..: the line ends so, writes nothing, and says this.
fails() {
    case_name=$1
    wanted=$2
    notes=$3
    shift 3
    try_line "$@"
    ended "$case_name" "$wanted"
    wrote_nothing
    said_line "$notes"
}
fails "input is a directory" 3 "fault read" '"$1" replay < /' "$program"
fails "input is closed" 3 "fault read" '"$1" replay <&-' "$program"
fails "input is empty" 5 "fault cut at 0" '"$1" replay < /dev/null' "$program"
fails "input is a program" 6 "fault record at 0: header" '"$1" replay < "$1"' "$program"
head -c 900 "$striped" > "$room/cut"
fails "input is cut" 5 "fault cut at 900" '"$1" replay < "$2"' "$program" "$room/cut"
printf 'H261CONF\001\001T\001T\001Z' > "$room/kind"
try_line '"$1" replay < "$2"' "$program" "$room/kind"
ended "a faulty entry behind two ticks" 6
said_line "fault record at 14: kind"
is "what the ticks wrote is there" test "$(wc -c < "$room/out")" -eq 122

fails "a frame is cut" 5 "fault cut at 1" 'printf "\0" | "$1" check' "$program"
fails "no frames to decode" 0 "done pictures 0 gaps 0 octets 0" '"$1" decode < /dev/null' "$program"
fails "decode of a directory" 3 "fault read" '"$1" decode < /' "$program"
fails "make, output full" 4 "fault write" '"$1" make > /dev/full' "$program"
# a line of a report is there as soon as its packet is
try_line '{ head -c 1183 "$2"; sleep 2; } | "$1" check > "$3/report" & sleep 1; wc -l < "$3/report"; wait' \
    "$program" "$top/examples/bars_lane.rtp" "$room"
ended "a lane that pauses" 0
is "its first picture is told meanwhile" test "$(cat "$room/out")" -eq 1

# How far long work has come is told where standard error is a terminal, and taken away before the line.
try_line '{ head -c 1183 "$2"; sleep 1; } | python3 -B "$3/terminal.py" "$1" decode --format=qcif' \
    "$program" "$top/examples/bars_lane.rtp" "$top/checks"
ended "decode at a terminal" 0
printf '\rread 0 MB\r\033[Kdone pictures 1 gaps 0 octets 38016\n' | cmp -s - "$room/err"
judge $? "it said: $(cat -v "$room/err")"
try_line 'python3 -B "$3/terminal.py" "$1" replay < "$2"' "$program" "$striped" "$top/checks"
ended "short work at a terminal" 0
is "it tells its end alone" test "$(cut -c1-5 "$room/err")" = "done "

# A live conference whose standard input is closed, which no file that it opens stands for.
printf '1\n' > "$room/step"
fails "live, input closed" 3 "fault read" '"$1" live --lanes="$2/step" --chair=/dev/null <&-' "$program" "$room"
fails "live, input and output closed" 3 "fault read" \
    '"$1" live --lanes="$2/step" --chair=/dev/null <&- >&-' "$program" "$room"
fails "live, input a directory" 3 "fault read" '"$1" live --lanes=none --chair=none < /' "$program"
is_usage "live without a chair, input closed" '"$1" live --lanes=/dev/null <&-' "$program"

# A live conference of one lane that sends nothing, but for the steps on standard input.
silent="live --lanes=/dev/null --chair=/dev/null"
fails "a live conference without steps" 0 \
    "done ticks 0 pictures 0 gaps 0 commands 0 refused 0 taken 0 packets 0 octets 0" '"$1" $2' "$program" "$silent"
try_line 'printf "1\n31" | "$1" $2' "$program" "$silent"
ended "two steps" 0
said_line "done ticks 2 pictures 0 gaps 0 commands 0 refused 0 taken 0 packets 2 octets 122"
is "they are two pictures" test "$(wc -c < "$room/out")" -eq 122
cp "$room/out" "$room/two"
try_line 'printf "1\n32\n1\n" | "$1" $2' "$program" "$silent"
ended "a step that is none" 3
said_line "fault read"
head -c 61 "$room/two" > "$room/one"
wrote "$room/one"
try_line 'printf "1\n1\n" | "$1" $2 --turns=1' "$program" "$silent"
ended "turns too few" 7
said_line "fault limit"
wrote "$room/one"
fails "live, output full" 4 "fault write" 'echo 1 | "$1" $2 > /dev/full' "$program" "$silent"
head -c 100 "$top/examples/bars_lane.rtp" > "$room/cut_lane"
fails "lanes that are cut or no files, and lines that say nothing" 0 \
    "done ticks 0 pictures 0 gaps 2 commands 0 refused 0 taken 0 packets 0 octets 0" \
    'sleep 2 | "$1" live --lanes="$2/cut_lane,/" --chair="$3"' \
    "$program" "$room" "$top/README.md"

# What is written is in the buffer until the flush at the end. Where that fails the line tells of it, whatever the run would
# have ended with.
mkfifo "$room/pipe"
printf 'H261CONF\001\001T\001T\001T' > "$room/two_ticks"
(cat "$room/striped_top_right.rtp" && printf '\0') > "$room/cut.rtp"
loses() {
    lost="$1 of $(basename -- "$2")"
    fails "$lost, output full" 4 "fault write" '"$1" $2 < "$3" > /dev/full' "$program" "$1" "$2"
    fails "$lost, output closed" 4 "fault write" '"$1" $2 < "$3" >&-' "$program" "$1" "$2"
    fails "$lost, output a pipe that nobody reads" 4 "fault write" \
        'exec 3<> "$4" > "$4" 3<&-; exec "$1" $2 < "$3"' "$program" "$1" "$2" "$room/pipe"
}
for file in "$striped" "$room/two_ticks" "$room/kind"; do
    loses "replay" "$file"
    loses "history" "$file"
done
for command in "check --format=cif" "decode"; do
    loses "$command" "$room/striped_top_right.rtp"
    loses "$command" "$room/cut.rtp"
done
loses "make" /dev/null

# A run that wrote nothing has lost nothing.
fails "no conference file for history, output full" 6 "fault record at 0: header" \
    '"$1" history < "$1" > /dev/full' "$program"
fails "history of a front of a header" 5 "fault cut at 8" 'head -c 8 "$2" | "$1" history' "$program" "$striped"
fails "no conference file, output full" 6 "fault record at 0: header" '"$1" replay < "$1" > /dev/full' "$program"
fails "input is empty, output full" 5 "fault cut at 0" '"$1" replay < /dev/null > /dev/full' "$program"
fails "input is a directory, output closed" 3 "fault read" '"$1" replay < / >&-' "$program"
try_line '"$1" live --lanes=none --chair=none > /dev/full' "$program"
ended "a lane that is not there, output full" 8
try_line '"$1" replay --mtu=999 < "$2" > /dev/full' "$program" "$striped"
ended "words that ask for no job, output full" 2

# A line that cannot be written.
for error in "2> /dev/full" "2>&-"; do
    try_line "\"\$1\" replay < \"\$2\" $error" "$program" "$striped"
    ended "done, with standard error $error" 10
    wrote "$room/striped_top_right.rtp"
    try_line "\"\$1\" replay < \"\$2\" $error" "$program" "$room/cut"
    ended "cut, with standard error $error" 5
done

# Under a limit of memory the program does its work, ends with 9, or cannot be loaded; under some limit it ends with 9.
met=0
for limit in 160 240 320 400 480 560 640 800 1000 1200 1400 1600; do
    try_line 'ulimit -d "$3" && exec "$1" replay < "$2"' "$program" "$striped" "$limit"
    name="$limit KB of memory"
    case $status in
        0) wrote "$room/striped_top_right.rtp" ;;
        9)
            met=$((met + 1))
            wrote_nothing
            said_line "fault memory"
            ;;
    esac
done
is "want of memory was met" test "$met" -gt 0

tell "checks/program.sh"
