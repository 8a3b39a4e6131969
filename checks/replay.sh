#!/bin/sh
# checks/replay.sh PROGRAM [SHELL]: the script replay.sh, in a clone without sources and with a stand-in for rt that
# builds nothing: it says much, and puts PROGRAM where a build would, or fails.
. "$(dirname -- "$0")/lib.sh"
built=$(cd -- "$(dirname -- "$1")" && pwd)/$(basename -- "$1")
shell=${2-sh}
here=$room/here
clone=$room/clone
out=$clone/crates/bridge_cli/out
mkdir -p "$here" "$clone/crates/bridge_cli/src" "$room/tools" "$room/with_rt"
cp "$top/replay.sh" "$clone"
cp -r "$top/examples" "$clone"
touch "$clone/crates.txt" "$clone/crates/bridge_cli/src/main.rt"
striped=$clone/examples/striped_top_right.conf
grey=$clone/examples/grey_top_left.conf
for example in grey_top_left striped_top_right; do
    python3 "$top/checks/composed.py" "$example" > "$room/$example.rtp"
done
# the digest of the default example's packets, from another implementation
faces=2dc8ea51b4843b7d0b3be2d1cb1f5238fe36f30d8766862903fe8f3874cda3bb
is_faces() {
    is "$1" test "$(sha256sum < "$here/composed.rtp" | cut -c1-64)" = "$faces"
}

# a path without rt, whatever stands beside the tools on this machine
for tool in "$shell" cat cp date dirname find mkdir mv rm sh sleep touch wc; do
    ln -sf "$(command -v "$tool")" "$room/tools/$tool"
done
cat > "$room/with_rt/rt" << END
#!/bin/sh
[ "\$*" = "run -- --version" ] || exit 9
i=0; while [ \$i -lt 200 ]; do echo "line \$i of the build"; i=\$((i + 1)); done
[ ! -e "$room/slow" ] || { sleep 0.1; touch "$clone/crates/bridge_cli/src/main.rt"; sleep 0.1; }
[ ! -e "$room/broken" ] || { echo "the proof failed"; exit 1; }
mkdir -p out && cp "$built" out/bridge_cli
END
chmod +x "$room/with_rt/rt"

# Runs the script where the outputs go; rt is on the path, or not.
replay() {
    try_line 'cd "$1" && shift && PATH=$1 && shift && exec "$@"' "$here" "$room/with_rt:$room/tools" "$shell" "$clone/replay.sh" "$@"
}
replay_without_rt() {
    try_line 'cd "$1" && shift && PATH=$1 && shift && exec "$@"' "$here" "$room/tools" "$shell" "$clone/replay.sh" "$@"
}
# the same with the redirections that the line's first word names
replay_in() {
    line=$1
    shift
    try_line 'cd "$1" && shift && PATH=$1 && shift && '"$line" "$here" "$room/with_rt:$room/tools" "$shell" "$clone/replay.sh" "$@"
}
is_all_told() {
    name=$1
    [ "$(ls -A "$here")" = "$2" ]
    judge $? "the folder has: $(ls -A "$here")"
    rm -rf "$here"
    mkdir "$here"
}

# ---- the build

replay_without_rt
ended "no program and no rt" 1
wrote_nothing
said "rt is not on the path"
said "the Rattle toolchain"
is_all_told "no program and no rt: nothing is left" ""

touch "$room/broken"
replay
ended "a build that fails" 1
said "proving and building the program, which takes 10 to 20 minutes the first time"
said "could not be built; why is in $out/replay.log"
is "its lines are not shown" test "$(wc -l < "$room/err")" -eq 2
is "its lines are in the log" grep -q "the proof failed" "$out/replay.log"
is_all_told "a build that fails: nothing is left" ""
rm "$room/broken"

replay
ended "a build, and the default example" 0
wrote_nothing
said "proving and building the program, which takes 10 to 20 minutes the first time"
said "built after "
said "reading $clone/examples/four_faces.conf"
said "done ticks 40 pictures 160 gaps 0 commands 6 refused 0 taken 110 packets 45 octets 12285"
said "wrote 12285 octets of framed RTP packets to composed.rtp"
is "five lines are shown" test "$(wc -l < "$room/err")" -eq 5
is "the log has the others" test "$(wc -l < "$out/replay.log")" -eq 200
is_faces "the packets"
is_all_told "the default output" "composed.rtp"

replay_without_rt "$grey" out.rtp
ended "a program that is there needs no rt" 0
is "three lines are shown" test "$(wc -l < "$room/err")" -eq 3
is "the packets of the other example" cmp "$here/out.rtp" "$room/grey_top_left.rtp"
is_all_told "the output that was named" "out.rtp"

touch -d '5 seconds' "$clone/crates/bridge_cli/src/main.rt"
replay_without_rt
ended "a source newer than the program" 1
said "rt is not on the path"
touch -d '1 hour ago' "$clone/crates/bridge_cli/src/main.rt"
touch "$room/slow"
rm "$out/bridge_cli"
replay
ended "a source that changes during the build" 0
rm "$room/slow"
replay_without_rt
ended "is newer than what was built" 1
touch -d '1 hour ago' "$clone/crates/bridge_cli/src/main.rt"
rm -f "$here"/*

# ---- words

for words in "a b c" "--help more" "-x" "--mtu" "--=1" "a -x"; do
    # shellcheck disable=SC2086
    replay $words
    ended "the words $words" 2
    wrote_nothing
    is "one line of usage" grep -qx "replay.sh: Usage: replay.sh \[--NAME=VALUE ..\] \[CONFERENCE \[OUTPUT\]\]" "$room/err"
    is "and no more" test "$(wc -l < "$room/err")" -eq 1
done
replay --help
ended "--help" 0
said_nothing
for number in 0 1 2 3 4 5 6 7 9 10; do
    is "--help names status $number" grep -Eq "(^|[ :])$number [a-z]" "$room/out"
done
is_all_told "bad words leave nothing" ""
replay --mtu=1000 --seq=9 "$striped" out.rtp
ended "options of the program" 0
said "packets 2 octets "
is "they are in the packets" test "$(od -An -tx1 -j4 -N2 "$here/out.rtp")" = " 00 09"
replay "$striped" --mtu=999 out.rtp
ended "an option that the program refuses" 2
said "fault usage"
said "status 2, the words ask for no job; out.rtp was not written"
rm "$here/out.rtp"

# ---- input

replay missing.conf
ended "a conference file that is not there" 3
said "cannot read missing.conf"
replay "$here"
ended "a conference file that is a directory" 3
replay ""
ended "a conference file without a name" 3
echo before > "$here/kept.rtp"
echo before > "$room/before"
replay "$clone/replay.sh" kept.rtp
ended "what is no conference file" 6
said "fault record at 0: header"
said "status 6, an entry of the input is at fault; kept.rtp was not written"
is "the output stays as it was" cmp "$here/kept.rtp" "$room/before"
is_all_told "no part of an output is left" "kept.rtp"
printf 'H261CONF\001\001T\001T\001T' > "$room/cut"
replay "$room/cut" kept.rtp
ended "a file that is cut behind two ticks" 5
said "fault cut at 15"
said "wrote 122 octets of framed RTP packets to kept.rtp"
said "status 5, the input ends too early"
is_all_told "what the ticks gave is kept" "kept.rtp"
(head -c -1 "$striped" && printf 'T\001T\001') > "$room/cut"
echo before > "$here/kept.rtp"
# the limit of a file's size stands for a device that gets full
replay_in 'trap "" XFSZ; ulimit -f 1; exec "$@"' "$room/cut" kept.rtp
ended "a file that is cut, and an output with no room for its ticks" 4
said "fault write"
said "status 4, the output failed; kept.rtp was not written"
is "the output stays as it was there" cmp "$here/kept.rtp" "$room/before"
is_all_told "no front of an output is left" "kept.rtp"

# ---- output

mkdir "$here/folder"
replay "$striped" folder
ended "a directory as output" 4
said "cannot write folder: it is a directory"
is "nothing is put into it" test -z "$(ls -A "$here/folder")"
replay "$striped" none/out.rtp
ended "an output in a folder that is not there" 4
said "cannot write none/out.rtp"
replay "$striped" ""
ended "an output without a name" 4
is_all_told "no output is made elsewhere" "folder"

cp "$striped" "$here/in.conf"
replay in.conf in.conf
ended "the conference file as output" 4
ln -s in.conf "$here/link"
replay in.conf link
ended "a link to the conference file as output" 4
is "the conference file stays as it was" cmp "$here/in.conf" "$striped"
rm -f "$here"/*

echo before > "$here/file"
ln -s file "$here/link"
replay "$striped" link
ended "a link as output" 0
is "the link stays" test -L "$here/link"
is "its file is written" cmp "$here/file" "$room/striped_top_right.rtp"
rm "$here/file"
replay "$striped" link
ended "a link to no file as output" 0
is "the link stays there" test -L "$here/link"
is "its file is made" cmp "$here/file" "$room/striped_top_right.rtp"
is_all_told "no other file is made" "file
link"

mkfifo "$here/fifo"
replay_in '{ cat fifo > got & exec "$@"; }' "$striped" fifo
ended "a FIFO as output" 0
for _ in 1 2 3 4 5 6 7 8 9 10; do
    if cmp -s "$here/got" "$room/striped_top_right.rtp"; then
        break
    fi
    sleep 0.2
done
is "the FIFO stays" test -p "$here/fifo"
is "its reader got the packets" cmp "$here/got" "$room/striped_top_right.rtp"
rm -f "$here"/*

# devices by links of our own: a script that replaced its output, run as root, would replace those of the machine
ln -s /dev/null "$here/null"
ln -s /dev/full "$here/full"
ln -s /dev/stdout "$here/stdout"
replay "$striped" null
ended "a device as output" 0
is "the link to it stays" test -L "$here/null"
replay "$striped" full
ended "a device that is full as output" 4
said "status 4, the output failed"
is "the link to it stays, too" test -L "$here/full"
if mknod "$room/device" c 1 3 2> "$room/err"; then
    replay "$striped" "$room/device"
    ended "a device by its own name" 0
    is "the device stays" test -c "$room/device"
fi
replay_in '"$@" | cat' "$striped" stdout
ended "standard output as output" 0
wrote "$room/striped_top_right.rtp"
rm -f "$here"/*

# ---- standard error

for error in '2>&-' '2> /dev/full'; do
    replay_in "\"\$@\" $error" "$striped" out.rtp
    ended "standard error as by $error: the line cannot be told" 10
    is "the output is there" cmp "$here/out.rtp" "$room/striped_top_right.rtp"
    rm -f "$here/out.rtp"
done
replay_in '"$@" 2>&-' "$clone/replay.sh" out.rtp
ended "standard error is closed, no conference file" 6
replay_in '"$@" 2>&-' a b c
ended "standard error is closed, words too many" 2

tell "checks/replay.sh ($shell)"
