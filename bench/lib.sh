# shellcheck shell=sh
# What the measurements share: they work in $work, the scripts stand in $here, and programs are built by `build_c` and `build`.
here=$(cd "$(dirname "$0")" && pwd)
top=$(dirname "$here")
export PYTHONDONTWRITEBYTECODE=1
work=$(mktemp -d "${TMPDIR:-/tmp}/bench.XXXXXX")
trap 'rm -rf "$work"' EXIT
trap 'exit 130' INT
trap 'exit 143' TERM

say() {
    echo "$(basename "$0"): $1" >&2
}

# the crates of the repository that are named or that those stand on
crates() {
    awk -F: -v names="$*" '
        /^[a-z]/ { split($1, words, " "); below[words[1]] = $2 }
        END {
            last = split(names, queue, " ")
            for (i = 1; i <= last; i++) {
                name = queue[i]
                if (!(name in below) || (name in seen)) continue
                seen[name] = 1
                print name
                count = split(below[name], deps, " ")
                for (k = 1; k <= count; k++) queue[++last] = deps[k]
            }
        }' "$top/crates.txt"
}

# build_c NAME: a C program of this folder, for the processor for which rt builds
build_c() {
    say "building $1.c"
    "${CC:-cc}" -std=c11 -Wall -Wextra -O2 -march=x86-64-v2 -I"$work" -o "$work/$1" "$here/$1.c"
}

# build NAME CRATE..: proves and builds NAME.rattle over copies of these crates, into the program $work/NAME
build() {
    name=$1
    shift
    say "proving and building $name.rattle; with nothing in crates/*/out this takes as long as the crates' first check"
    copy=$work/top/crates/${name}_bench
    mkdir -p "$copy/src"
    for crate in $(crates "$@"); do
        [ ! -d "$work/top/crates/$crate" ] || continue
        cp -R "$top/crates/$crate" "$work/top/crates/"
        grep "^${crate}[ :]" "$top/crates.txt" >> "$work/top/crates.txt"
    done
    cp "$top/HANDLES" "$work/top/"
    # they have other names here, since the gate takes no .rt file outside crates/
    cp "$here/$name.rattle" "$copy/src/main.rt"
    cp "$here/input.rattle" "$copy/src/input.rt"
    echo "${name}_bench: $*" >> "$work/top/crates.txt"
    if ! (cd "$copy" && rt run < /dev/null) > "$work/log" 2>&1; then
        tail -n 40 "$work/log" >&2
        say "$name.rattle was not built"
        exit 1
    fi
    cp "$copy/out/${name}_bench" "$work/$name"
}

# what every measurement of composed pictures begins with: the pictures, and the programs that parse, compose and move them
prepare_composing() {
    say "making the pictures"
    python3 "$here/pictures.py" qcif 1000 3 0 ten_kbit > "$work/ten_kbit"
    python3 "$here/pictures.py" qcif 200 4 0 limit > "$work/limit"
    build_c mover
    build parse pel_bits pel_model h261_pic
    build compose pel_bits pel_model h261_pic cif_mix
}

# build_program: PROGRAM is the program that it names already, or that of the repository, proved and built where need be
build_program() {
    [ -z "${PROGRAM:-}" ] || return 0
    say "proving and building the program; with nothing in crates/*/out this takes as long as the crates' first check"
    if ! (cd "$top/crates/bridge_cli" && rt run -- --version) < /dev/null > "$work/log" 2>&1; then
        tail -n 40 "$work/log" >&2
        say "the program was not built"
        exit 1
    fi
    PROGRAM=$top/crates/bridge_cli/out/bridge_cli
}
