#!/bin/sh
# checks/faults.sh PROGRAM: what a machine does to the built program: inputs that end or fail, outputs that are full or whose
# reader leaves, streams that are closed, want of memory and of threads. Each has its status and its line, and what was
# written is a front of what is written without the fault: it ends between two ticks, or where the output failed.
. "$(dirname -- "$0")/lib.sh"
cp "$1" "$room/bridge_cli"
program=$room/bridge_cli
outside=$top/checks/outside.py
chmod a+rx "$program"

# wrote_front FILE OCTETS: it wrote the first octets of a file, so many.
wrote_front() {
    head -c "$2" "$1" | cmp -s - "$room/out"
    judge $? "it wrote something else than the first $2 octets of $1"
}

# fault NAME STATUS LINE: the run ended so, and said this line.
fault() {
    ended "$1" "$2"
    said_line "$3"
}

# What the commands give where nothing fails: of a conference of nine ticks, and of one with more octets than a pipe holds.
short=$room/short
long=$room/long
try "$program" make --seed=7 --ticks=9 --lanes=2
ended "a short conference" 0
mv "$room/out" "$short.conf"
try "$program" make --seed=1 --ticks=1000 --lanes=4
ended "a long conference" 0
mv "$room/out" "$long.conf"
for conference in "$short" "$long"; do
    try_line '"$1" replay < "$2"' "$program" "$conference.conf"
    ended "the packets of $conference.conf" 0
    mv "$room/out" "$conference.rtp"
done
try_line '"$1" history < "$2"' "$program" "$short.conf"
ended "the history of $short.conf" 0
mv "$room/out" "$short.history"
for command in check decode; do
    try_line '"$1" "$2" < "$3"' "$program" "$command" "$short.rtp"
    ended "$command of its packets" 0
    mv "$room/out" "$short.$command"
done
size=$(wc -c < "$short.conf")
packets=$(wc -c < "$short.rtp")

# ---- inputs: a source that ends after so many octets, or fails. The ticks before that are written; where the output cannot
# take them, that is told.

for octets in $(seq 0 131 "$((size - 1))") "$((size - 1))"; do
    given=$("$outside" ticks "$short.conf" "$short.rtp" "$octets")
    try_line 'head -c "$3" "$2" | "$1" replay' "$program" "$short.conf" "$octets"
    fault "an input of $octets octets" 5 "fault cut at $octets"
    wrote_front "$short.rtp" "$given"
    try_line '"$4" source "$2" "$3" "$1" replay' "$program" "$short.conf" "$octets" "$outside"
    fault "an input that fails after $octets octets" 3 "fault read"
    wrote_front "$short.rtp" "$given"
    for lost in '> /dev/full' '>&-'; do
        try_line "head -c \"\$3\" \"\$2\" | \"\$1\" replay $lost" "$program" "$short.conf" "$octets"
        if [ "$given" -eq 0 ]; then
            fault "an input of $octets octets, output as by $lost" 5 "fault cut at $octets"
        else
            fault "an input of $octets octets, output as by $lost" 4 "fault write"
        fi
    done
    try_line '"$4" source "$2" "$3" "$1" replay > /dev/full' "$program" "$short.conf" "$octets" "$outside"
    if [ "$given" -eq 0 ]; then
        fault "an input that fails after $octets octets, output full" 3 "fault read"
    else
        fault "an input that fails after $octets octets, output full" 4 "fault write"
    fi
done
for command in check decode; do
    try_line '"$4" source "$2" 900 "$1" "$3"' "$program" "$short.rtp" "$command" "$outside"
    fault "$command of an input that fails" 3 "fault read"
    wrote_front "$short.$command" "$(wc -c < "$room/out")"
done

# ---- outputs: a file that takes so many octets, and a pipe whose reader leaves after so many

for octets in $(seq 0 131 "$((packets - 1))") "$((packets - 1))"; do
    try_line '"$4" room "$3" "$1" replay < "$2"' "$program" "$short.conf" "$octets" "$outside"
    fault "an output of $octets octets" 4 "fault write"
    wrote_front "$short.rtp" "$octets"
done
try_line '"$4" room "$3" "$1" replay < "$2"' "$program" "$short.conf" "$packets" "$outside"
ended "an output of as many octets as come" 0
wrote "$short.rtp"
for octets in 0 1 65536 65537 200000; do
    try_line '"$3" room "$2" "$1" make --seed=1 --ticks=1000 --lanes=4' "$program" "$octets" "$outside"
    fault "make into $octets octets" 4 "fault write"
    wrote_front "$long.conf" "$octets"
    try_line '"$4" room "$3" "$1" replay < "$2"' "$program" "$long.conf" "$octets" "$outside"
    fault "replay into $octets octets" 4 "fault write"
    wrote_front "$long.rtp" "$octets"
    try_line '"$4" room "$3" "$1" decode < "$2"' "$program" "$short.rtp" "$octets" "$outside"
    fault "decode into $octets octets" 4 "fault write"
    wrote_front "$short.decode" "$octets"
done
for octets in 0 1 20 "$(($(wc -c < "$short.history") - 1))"; do
    try_line '"$4" room "$3" "$1" history < "$2"' "$program" "$short.conf" "$octets" "$outside"
    fault "history into $octets octets" 4 "fault write"
    wrote_front "$short.history" "$octets"
done
for octets in 0 1 20; do
    try_line '"$4" room "$3" "$1" check < "$2"' "$program" "$short.rtp" "$octets" "$outside"
    fault "check into $octets octets" 4 "fault write"
    wrote_front "$short.check" "$octets"
done

# leaves NAME OCTETS FILE LINE..: the line writes into a pipe whose reader leaves after so many octets.
leaves() {
    case_name=$1
    octets=$2
    file=$3
    shift 3
    job=$1
    shift
    try_line "{ $job; echo \$? > \"\$1.status\"; } | head -c \"\$2\"" "$program" "$octets" "$@"
    status=$(cat "$program.status")
    fault "$case_name, whose reader leaves after $octets octets" 4 "fault write"
    wrote_front "$file" "$octets"
}
for octets in 0 1 100 4096 65536 65537 100000; do
    leaves "replay" "$octets" "$long.rtp" '"$1" replay < "$3"' "$long.conf"
    leaves "make" "$octets" "$long.conf" '"$1" make --seed=1 --ticks=1000 --lanes=4'
    leaves "decode" "$octets" "$short.decode" '"$1" decode < "$3"' "$short.rtp"
done

# A live conference hands each packet on as it is written.
silent="live --lanes=/dev/null --chair=/dev/null"
printf '1\n1\n1\n' > "$room/steps"
try_line '"$1" $2 < "$3"' "$program" "$silent" "$room/steps"
ended "three steps of a silent conference" 0
mv "$room/out" "$room/silent.rtp"
for octets in 0 1 60 61 62 100 122 182; do
    try_line '"$5" room "$4" "$1" $2 < "$3"' "$program" "$silent" "$room/steps" "$octets" "$outside"
    fault "live into $octets octets" 4 "fault write"
    wrote_front "$room/silent.rtp" "$octets"
done
for octets in 0 1 2 3 4; do
    try_line '"$5" source "$3" "$4" "$1" $2' "$program" "$silent" "$room/steps" "$octets" "$outside"
    fault "live, whose steps fail after $octets octets" 3 "fault read"
    wrote_front "$room/silent.rtp" "$((octets / 2 * 61))"
done

# ---- streams that are closed

for command in replay history check decode; do
    try_line '"$1" "$2" <&-' "$program" "$command"
    fault "$command, input closed" 3 "fault read"
    try_line '"$1" "$2" <&- >&-' "$program" "$command"
    fault "$command, input and output closed" 3 "fault read"
    try_line '"$1" "$2" <&- >&- 2>&-' "$program" "$command"
    ended "$command, all streams closed" 3
    said_nothing
done
try_line '"$1" make <&- >&-' "$program"
fault "make, input and output closed" 4 "fault write"
try_line '"$1" replay < "$2" >&- 2>&-' "$program" "$short.conf"
ended "replay, output and standard error closed" 4
said_nothing

# ---- want of memory: under a limit of the address space the program cannot be loaded, or ends with 9, or does its work

# starves NAME FILE LINE..: under a limit that grows, the line at last gives the file, and before that there was no memory.
starves() {
    command=$1
    file=$2
    shift 2
    job=$1
    shift
    met=0
    limit=2000
    status=9
    while [ "$status" -ne 0 ] && [ "$limit" -lt 20000 ]; do
        try_line "ulimit -v \"\$2\" && exec $job" "$program" "$limit" "$@"
        name="$command in $limit KB"
        if [ "$status" -eq 9 ]; then
            met=$((met + 1))
            wrote_nothing
            said_line "fault memory"
        fi
        limit=$((limit + 50))
    done
    ended "$command in enough memory" 0
    wrote "$file"
    is "$command met want of memory" test "$met" -gt 0
}
starves replay "$short.rtp" '"$1" replay < "$3"' "$short.conf"
starves check "$short.check" '"$1" check < "$3"' "$short.rtp"
starves decode "$short.decode" '"$1" decode < "$3"' "$short.rtp"
starves make "$short.conf" '"$1" make --seed=7 --ticks=9 --lanes=2'
starves live "$room/silent.rtp" '"$1" $3 < "$4"' "$silent" "$room/steps"

# ---- no thread can be started: the work is done by the one that there is

try_line '"$4" threads "$1" $2 < "$3"' "$program" "$silent" "$room/steps" "$outside"
fault "live without threads" 0 "done ticks 3 pictures 0 gaps 0 commands 0 refused 0 taken 0 packets 3 octets 183"
wrote "$room/silent.rtp"

tell "checks/faults.sh"
