# Compiles, links and runs C programs with the kit of rt alone, as rt does with
# its own: for x86-64, and under the kit's emulator on another machine. Read by
# the scripts beside it, which set $here, the folder of the sources.

say() { printf 'host: %s\n' "$*"; }
die() { printf 'host: %s\n' "$*" >&2; exit 2; }

root=$(dirname "$here")
made=$root/target/host

# the kit: RATTLE_HOME, or where rt stands
find_kit() {
    rt=$(command -v rt) || die "no rt on the PATH"
    rt=$(readlink -f "$rt")
    home=${RATTLE_HOME:-$(dirname "$(dirname "$rt")")}
    tools=$home/toolchain
    [ -x "$tools/bin/clang" ] || die "the kit at $home has no compiler for this machine, $(uname -m)"
    emulator=$tools/bin/qemu-x86_64
    [ -x "$emulator" ] || emulator=''
    mkdir -p "$made"
}

# The library: the archive that BF_ARCHIVE names, or the one that rt makes, made
# again where a file of the crates is newer.
find_archive() {
    if [ -n "${BF_ARCHIVE:-}" ]; then
        archive=$(readlink -f "$BF_ARCHIVE") && [ -f "$archive" ] || die "no archive $BF_ARCHIVE"
        return 0
    fi
    archive=$root/crates/exports/out/libexports.a
    [ ! -f "$archive" ] || [ -n "$(find "$root/crates" "$root/crates.txt" -name out -prune -o -newer "$archive" -print)" ] || return 0
    (cd "$root/crates/exports" && "$rt" lib) >"$made/exports.log" 2>&1 && [ -f "$archive" ] && return 0
    tail -n 20 "$made/exports.log" >&2
    die "rt lib failed in crates/exports"
}

# The kit has no C headers: include/ stands in for the standard ones.
compile() { # SOURCE OBJECT [WORDS...]
    source=$1 object=$2
    shift 2
    "$tools/bin/clang" --target=x86_64-unknown-linux-gnu -std=c11 -O2 -Wall -Wextra -Werror -nostdinc \
        -isystem "$here/include" -I "$here" "$@" -c "$source" -o "$object" || die "$source does not compile"
}

# The objects of the sources NAME.c, in $objects.
compile_all() { # NAME...
    objects=''
    for name in "$@"; do
        compile "$here/$name.c" "$made/$name.o"
        objects="$objects $name.o"
    done
}

# The program of $objects and an archive.
link() { # PROGRAM ARCHIVE
    # shellcheck disable=SC2086
    (cd "$made" && "$home/bin/rattle-link" --target x86_64-unknown-linux-gnu --toolchain "$tools" -o "$1" \
        $objects "$2") >"$made/link.log" 2>&1 || { cat "$made/link.log" >&2; die "$1 does not link"; }
}

# Runs a program that was compiled for x86-64, here or under the emulator.
load() { # FILE [WORDS...]
    for word in $(env | sed -n 's/^\(QEMU_[A-Za-z0-9_]*\)=.*/\1/p'); do unset "$word"; done
    ${emulator:+"$emulator"} "$tools/lib/ld-linux-x86-64.so.2" --library-path "$tools/lib" "$@"
}

run() { # PROGRAM [WORDS...]
    program=$made/$1
    shift
    load "$program" "$@"
}

differential='diff volumes compare shrink sample net gen build damage bytes bare twin twin_check twin_search'
benchmark='race net gen build bare twin twin_check twin_search'
