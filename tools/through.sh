# What ./sitelog and ./arbiter have in common; both source it, with `root` the top of the repository and `help` what --help
# prints.
#
#     through NAME [--run | --log] [FILE]
#
# Runs FILE, or standard input, through the program of the crate NAME; target/tools/desk does what is asked with it. Builds
# the program first if it is not built, or if a source is newer than the last build; where a proof fails there is no
# program, and nothing is run. It ends with 0 where all went well, 1 where the log or the run is not as it should be, and 2
# where nothing was run.

newer() { # newer MARK: a source, or a folder of sources, that was changed since then
    local folders=("$root"/crates/*/src "$root"/crates/*/specs "$root"/crates/*/proofs)   # out/ beside them is the build's own
    find "$root/crates.txt" "$root/crates" -maxdepth 0 -newer "$1" -print
    find "${folders[@]}" -newer "$1" \( -name '*.rt' -o -name '*.antt' -o -type d \) -print -quit 2>/dev/null
}

build() { # build NAME PROGRAM
    local built=$root/target/$1-built   # made when a check of the program, and of all that is below it, has passed
    if [ -x "$2" ] && [ -e "$built" ] && [ -z "$(newer "$built")" ]; then
        return
    fi
    if ! command -v rt >/dev/null; then
        echo "$1: rt, the Rattle toolchain's command, is not on the PATH, and the program is not built from the sources as they are" >&2
        exit 2
    fi
    echo "$1: building the program from the sources as they are, which proves every crate below it first: some minutes from nothing" >&2
    begun=$(mktemp)
    trap 'rm -f "$begun"' EXIT
    if ! "$root/tools/program" "$1" >&2; then
        echo "$1: the check did not pass, so there is no program to run" >&2
        exit 2
    fi
    touch -r "$begun" "$built"
    rm -f "$begun"
}

through() {
    local name=$1 mode=lines
    shift
    case ${1:-} in
        -h | --help) printf '%s\n' "$help"; exit 0 ;;
        --run | --log) mode=${1#--}; shift ;;
    esac
    local wrong=""
    case ${1:-} in -?*) wrong="no option is called $1" ;; esac
    [ $# -le 1 ] || wrong="one file at a time"
    [ $# -gt 0 ] || [ ! -t 0 ] || wrong="a FILE was expected, or a log on standard input, which is a terminal"
    if [ -n "$wrong" ]; then
        echo "$name: $wrong; ./$name --help says more" >&2
        exit 2
    fi
    local file=${1:--} desk=$root/target/tools/desk
    (cd "$root" && tools/build) || exit 2
    "$desk" "$name" look "$file"   # what is wrong with it is told before anything is built
    if [ "$mode" = log ]; then
        exec "$desk" "$name" log "$file"
    fi
    local program=$root/target/bin/$name emulator
    build "$name" "$program"
    emulator=$("$root/tools/emulator")   # on a processor that is not x86-64
    exec "$desk" "$name" "$mode" "$file" $emulator "$program"
}
