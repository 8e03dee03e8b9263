# What the scripts share: sourced, with `root` the repository and `script` the name that its lines begin with.

say() { printf '%s: %s\n' "$script" "$*" >&2; }

stop() { # STATUS WORDS..
    local status=$1
    shift
    say "$@"
    exit "$status"
}

# Prints the head comment of a script where its first word asks for help, and ends.
help() { # SCRIPT [WORD]
    case ${2-} in
    -h | --help)
        sed -n '2,/^[^#]/{s/^# \{0,1\}//;t print;d;:print;p}' "$1"
        exit 0
        ;;
    esac
}

# A command that has to be there, else the packages that bring it are installed, which is said first.
need() { # COMMAND PACKAGE..
    local command=$1
    shift
    ! command -v "$command" >/dev/null || return 0
    say "installing $* (the command $command is missing)"
    apt-get install -y --no-install-recommends "$@" >/dev/null 2>&1 || stop 1 "apt-get could not install $*; install them and run again"
}

# One at a time in this repository: whoever proves or builds below target/ waits for the other, and says so.
lock() {
    { mkdir -p "$root/target/log" && : >>"$root/target/log/run.lock"; } 2>/dev/null || stop 1 "$root/target cannot be written"
    exec 9>>"$root/target/log/run.lock"
    if ! flock -n 9; then
        say "another run is proving here; this one waits for it"
        flock 9
    fi
}

# Of what rt says in a crate's folder, a line for each crate as it is proved.
told_of() { # CRATE
    local line crate=$1 began=$SECONDS
    while IFS= read -r line; do
        case $line in
        'rt: chose --jobs '*) crate=${line##* } began=$SECONDS ;;
        'logic=proved '*) say "$crate proved ($((SECONDS - began)) s)" ;;
        esac
    done
}

# Whether a file is there, newer than every source and than the kit.
is_new() { # FILE
    [ -f "$1" ] && [ -z "$(find "$root/crates" "$root/crates.txt" "$(dirname "$(rt doc)")/KIT-ID" -name out -prune -o -newer "$1" -print -quit)" ]
}

# SARPUKTEN_LIB: the folder of a libsarpukten.a, proved and built here if none is named, with a line for each crate as it is proved.
library() {
    local log=$root/target/log/staticlib crate=$root/crates/sarpukten_c made=$root/target/staticlib began
    if [ -z "${SARPUKTEN_LIB:-}" ]; then
        command -v rt >/dev/null || stop 1 "the command rt of the Rattle toolchain is needed, and is not on the path"
        lock
        if ! is_new "$made/libsarpukten.a"; then
            say "proving and building libsarpukten.a: minutes the first time, and a line for each crate"
            # a folder out/ that is made later would make its crate look newer than the library
            mkdir -p "$made" "$root/crates"/*/out || stop 1 "$made cannot be written"
            began=$(date +%s.%N)
            if ! (
                set -o pipefail
                cd "$crate" && rt lib </dev/null 2>&1 | tee "$log" | told_of sarpukten_c
            ); then
                tail -20 "$log" >&2
                stop 1 "the library was not built (what rt said last stands above)"
            fi
            # under the name that C and Rust link
            cp "$crate/out/libsarpukten_c.a" "$made/libsarpukten.a" && touch -d "@$began" "$made/libsarpukten.a" || stop 1 "$made cannot be written"
        fi
        exec 9>&-
        SARPUKTEN_LIB=$made
    fi
    [ -f "$SARPUKTEN_LIB/libsarpukten.a" ] || stop 1 "no libsarpukten.a in $SARPUKTEN_LIB"
    SARPUKTEN_LIB=$(cd "$SARPUKTEN_LIB" && pwd -P)
    export SARPUKTEN_LIB
}

# What counts x86-64 instructions on any machine: the compilers, QEMU's user emulator, the library, and the plugin as made/count.so.
counting() {
    made=$root/target/instructions cross=gcc
    need qemu-x86_64 qemu-user
    need gcc gcc libc6-dev
    if [ "$(uname -m)" != x86_64 ]; then
        cross=x86_64-linux-gnu-gcc
        need "$cross" gcc-x86-64-linux-gnu libc6-dev-amd64-cross
    fi
    library
    mkdir -p "$made"
    gcc -O2 -Wall -Wextra -shared -fPIC -o "$made/count.so" "$root/bench/count.c"
}
