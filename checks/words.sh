#!/bin/sh
# checks/words.sh PROGRAM: words that ask for no job are answered by the first line, by the word that is the matter and what is
# the matter with it, and by the words that would do. Words that ask for help get it. Behind the line of a fault stands what a
# person can do something with: the name that was not opened and why, and what kind of file an input looks like.
. "$(dirname -- "$0")/lib.sh"
program=$1
lane=$top/examples/bars_lane.rtp
conference=$top/examples/striped_top_right.conf

# wrong MATTER WORDS..: the words ask for no job, and this is the matter with them. Behind it stands the usage text, or the help
# of the command that they begin with.
wrong() {
    matter=$1
    shift
    try "$program" "$@"
    ended "the words <$*>" 2
    wrote_nothing
    is "the first line of <$*>" test "$(sed -n 1p "$room/err")" = "fault usage"
    is "the matter with <$*>: $(sed -n 2p "$room/err")" test "$(sed -n 2p "$room/err")" = "$matter"
    case ${1-} in
        replay | history | check | decode | make | live) said "$("$program" "$1" --help)" ;;
        *) said "Usage: ballastkiwi replay " ;;
    esac
}
wrong 'a command is missing'
wrong 'there is no command ""' ""
wrong 'there is no command "Replay"; the nearest is replay' Replay
wrong 'there is no command "replay "; the nearest is replay' "replay "
wrong 'there is no command "rplay"; the nearest is replay' rplay
wrong 'there is no command "chekc"; the nearest is check' chekc
wrong 'there is no command "decoder"; the nearest is decode' decoder "--format=cif"
wrong 'there is no command "compose"' compose
wrong 'there is no command "--mtu=1000"' --mtu=1000 replay
wrong 'there is no command "--help"' --help --version
wrong 'there is no command "call.conf"' call.conf
wrong 'there is no command "a\tb"' "$(printf 'a\tb')"
wrong '"replay" is not --NAME=VALUE' replay replay
wrong '"" is not --NAME=VALUE' replay ""
wrong '"--" is not --NAME=VALUE' replay --
wrong '"--mtu" is not --NAME=VALUE' replay --mtu 1000
wrong '"-mtu=1000" is not --NAME=VALUE' replay -mtu=1000
wrong '"mtu=1000" is not --NAME=VALUE' replay mtu=1000
wrong '"--version" is not --NAME=VALUE' make --version
wrong 'replay has no option "--mt=1000"; the nearest is --mtu=' replay --mt=1000
wrong 'replay has no option "--MTU=1000"' replay --MTU=1000
wrong 'replay has no option "--=1"' replay --=1
wrong 'check has no option "--mtu=1000"' check --mtu=1000
wrong 'check has no option "--fromat=cif"; the nearest is --format=' check --fromat=cif
wrong 'make has no option "--lane=4"; the nearest is --lanes=' make --lane=4
wrong 'live has no option "--lane=a"; the nearest is --lanes=' live --lane=a --chair=b
wrong 'history has no option "--format=cif"' history --format=cif
wrong '--seq= is given twice' replay --seq=1 --seq=1
wrong '--format= is given twice' check --format=cif --format=qcif
wrong '--lanes= is given twice' live --lanes=a --chair=b --lanes=c
wrong '--mtu= takes a number from 1000 to 9000, and not "999"' replay --mtu=999
wrong '--mtu= takes a number from 1000 to 9000, and not "9001"' replay --seq=0 --mtu=9001
wrong '--mtu= takes a number from 1000 to 9000, and not ""' replay --mtu=
wrong '--mtu= takes a number from 1000 to 9000, and not "+1000"' replay --mtu=+1000
wrong '--mtu= takes a number from 1000 to 9000, and not "1e3"' replay --mtu=1e3
wrong '--mtu= takes a number from 1000 to 9000, and not "1000=1"' replay --mtu=1000=1
wrong '--mtu= takes a number from 1000 to 9000, and not "00000000001000"' replay --mtu=00000000001000
wrong '--ssrc= takes a number from 0 to 4294967295, and not "0x10"' replay --ssrc=0x10
wrong '--seq= takes a number from 0 to 65535, and not "65536"' replay --seq=65536
wrong '--stamp= takes a number from 0 to 4294967295, and not "4294967296"' live --lanes=a --chair=b --stamp=4294967296
wrong '--seed= takes a number from 0 to 4294967295, and not "-1"' make --seed=-1
wrong '--ticks= takes a number from 0 to 1000000, and not "1000001"' make --ticks=1000001
wrong '--lanes= takes a number from 1 to 16, and not "0"' make --lanes=0
wrong '--lanes= takes a number from 1 to 16, and not "17"' make --lanes=17
wrong '--format= takes qcif or cif, and not "CIF"' decode --format=CIF
wrong '--format= takes qcif or cif, and not ""' check --format=
wrong '--lanes= is missing' live
wrong '--lanes= is missing' live --chair=b
wrong '--chair= is missing' live --lanes=a
wrong '--chair= takes a name, and not ""' live --lanes=a --chair=
wrong '--lanes= takes 1 to 16 names with commas between, and not ""' live --lanes= --chair=b
wrong '--lanes= takes 1 to 16 names with commas between, and not "a,,b"' live --lanes=a,,b --chair=c
wrong '--lanes= takes 1 to 16 names with commas between, and not "a,b,c,d,e,f,g,h,i,j,k,l,m,n,o,p,q"' \
    live --lanes=a,b,c,d,e,f,g,h,i,j,k,l,m,n,o,p,q --chair=b
wrong '--turns= takes a number from 1 to 1099511627776, and not "0"' live --lanes=a --chair=b --turns=0
wrong 'there is no command "repla"; the nearest is replay' help repla
wrong 'there is no command "liv"; the nearest is live' liv --help
wrong 'there is no command "none"' none -h
wrong 'a word is not UTF-8' "$(printf 'replay\377')"

# help HELP WORDS..: the words get the help that stands in a file
gets() {
    file=$1
    shift
    try "$program" "$@"
    ended "the words <$*>" 0
    said_nothing
    wrote "$file"
}
"$program" --help > "$room/help"
"$program" --version > "$room/version"
gets "$room/help" -h
gets "$room/help" help
gets "$room/version" -V
for command in replay history check decode make live; do
    "$program" "$command" --help > "$room/$command"
    is "--help has the help of $command" python3 -c 'import sys
sys.exit(open(sys.argv[2]).read() not in open(sys.argv[1]).read())' "$room/help" "$room/$command"
    gets "$room/$command" "$command" -h
    gets "$room/$command" help "$command"
done

# behind NAME STATUS FIRST SECOND LINE WORDS..: the line of the shell ends so; what it said is these two lines, or the first one
# alone where the second is empty
behind() {
    case_name=$1
    wanted=$2
    printf '%s\n' "$3" > "$room/lines"
    [ -z "$4" ] || printf '%s\n' "$4" >> "$room/lines"
    shift 4
    try_line "$@"
    ended "$case_name" "$wanted"
    wrote_nothing
    cmp -s "$room/lines" "$room/err"
    judge $? "it said: $(cat "$room/err")"
}
missing="No such file or directory (os error 2)"
behind "a lane that is not there" 8 "fault open 1" "none: $missing" \
    '"$1" live --lanes=/dev/null,none --chair=none' "$program"
behind "a chair that is not there" 8 "fault open 16" "$room/none: $missing" \
    '"$1" live --lanes=/dev/null --chair="$2/none"' "$program" "$room"
behind "a lane below a file" 8 "fault open 0" "/dev/null/a: Not a directory (os error 20)" \
    '"$1" live --lanes=/dev/null/a --chair=none' "$program"
: > "$room/secret"
chmod 000 "$room/secret"
if [ ! -r "$room/secret" ]; then
    behind "a lane that may not be read" 8 "fault open 0" "$room/secret: Permission denied (os error 13)" \
        '"$1" live --lanes="$2/secret" --chair=none' "$program" "$room"
fi

packets="the input looks like framed RTP packets, which check and decode read"
file="the input looks like a conference file, which replay and history read"
video="the input looks like H.261 video without packets, of which examples/lane_of_h261.py makes a lane"
capture="the input looks like a capture of a network, of which examples/lanes_of_pcap.py makes lanes"
tail -c +19 "$lane" > "$room/bare.h261"
behind "a lane for a conference" 6 "fault record at 0: header" "$packets" '"$1" replay < "$2"' "$program" "$lane"
behind "video for a conference" 6 "fault record at 0: header" "$video" \
    '"$1" replay < "$2/bare.h261"' "$program" "$room"
for magic in '\324\303\262\241' '\241\262\303\324' '\115\074\262\241' '\241\262\074\115' '\n\r\r\n'; do
    printf "$magic\002\000\004\000\000\000\000\000" > "$room/capture"
    behind "a capture that begins with $magic" 6 "fault record at 0: header" "$capture" \
        '"$1" replay < "$2/capture"' "$program" "$room"
    behind "a capture of packets that begins with $magic" 5 "fault cut at 12" "$capture" \
        '"$1" check < "$2/capture"' "$program" "$room"
done
behind "a text for a conference" 6 "fault record at 0: header" "" '"$1" replay < "$2"' "$program" "$top/README.md"
behind "no conference" 5 "fault cut at 0" "" '"$1" replay < /dev/null' "$program"
size=$(wc -c < "$conference")
behind "a conference for packets" 5 "fault cut at $size" "$file" '"$1" check < "$2"' "$program" "$conference"
behind "a conference for packets, whose input is a pipe" 5 "fault cut at $size" "$file" \
    'cat "$2" | "$1" decode' "$program" "$conference"
head -c 9 "$room/bare.h261" > "$room/front.h261"
behind "video for packets" 5 "fault cut at 9" "$video" '"$1" decode < "$2/front.h261"' "$program" "$room"
head -c 1000 "$lane" > "$room/cut.rtp"
try_line '"$1" check < "$2/cut.rtp"' "$program" "$room"
ended "packets that are cut" 5
said_line "fault cut at 1000"
head -c 100 "$conference" > "$room/cut.conf"
try_line '"$1" replay < "$2/cut.conf"' "$program" "$room"
ended "a conference that is cut" 5
said_line "fault cut at 100"

tell "checks/words.sh"
