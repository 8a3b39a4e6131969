#!/bin/sh
# Puts the program, its manual page and its completion where they belong: ./install.sh --help says how.
set -eu
top=$(CDPATH='' cd -- "$(dirname -- "$0")" && pwd)
program=$top/crates/bridge_cli/out/bridge_cli

help() {
    cat << END
Installs the built program as ballastkiwi, with its manual page and the completion of its words in bash.

Usage: install.sh [--remove] PREFIX

PREFIX      the folder below which they go, such as /usr/local or \$HOME/.local:
            PREFIX/bin/ballastkiwi
            PREFIX/share/man/man1/ballastkiwi.1
            PREFIX/share/bash-completion/completions/ballastkiwi
--remove    takes these three away again, and nothing else

Where DESTDIR is set, it stands before PREFIX, as who makes a package wants it. The program has to be built: by ./replay.sh,
or by the gate, .ci/run.

Status: 0 done, 1 the program is not built, 2 usage, 4 a file cannot be written or taken away.
END
}

fail() {
    echo "install.sh: $2" >&2 || :
    exit "$1"
}

# put MODE FILE NAME: the file under a name below the folder
put() {
    install -D -m "$1" -- "$2" "$folder/$3" || fail 4 "cannot write $folder/$3"
}

if [ $# -eq 1 ] && [ "$1" = --help ]; then
    help || exit 4
    exit 0
fi
remove=
if [ $# -eq 2 ] && [ "$1" = --remove ]; then
    remove=yes
    shift
fi
case $# in
    1) ;;
    *) fail 2 "Usage: install.sh [--remove] PREFIX" ;;
esac
case $1 in
    '' | -*) fail 2 "Usage: install.sh [--remove] PREFIX" ;;
esac
folder=${DESTDIR:-}$1
page=share/man/man1/ballastkiwi.1
words=share/bash-completion/completions/ballastkiwi

if [ -n "$remove" ]; then
    for name in bin/ballastkiwi "$page" "$words"; do
        rm -f -- "$folder/$name" || fail 4 "cannot take $folder/$name away"
    done
    exit 0
fi
[ -x "$program" ] || fail 1 "the program is not built: ./replay.sh builds it"
put 755 "$program" bin/ballastkiwi
put 644 "$top/man/ballastkiwi.1" "$page"
put 644 "$top/completion/ballastkiwi.bash" "$words"
