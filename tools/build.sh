# How the run scripts build a program; they source this file, with `root` and `script`, their own name, set.
#
# A program is built where it is missing or older than a source. Any number of calls may run at the same time: each builds in a folder of
# its own and renames what it built, so that no call runs half a program; where flock is there, the others wait for the first.
# Programs are built in target/, or in the folder that YEZSDOLAK_BUILD names.
# shellcheck shell=sh disable=SC2154

# SENTENCE: ends the script, with this line on standard error
stop() {
    printf '%s: %s\n' "$script" "$1" >&2
    exit 2
}

# GROUP: the folder for the programs of a group
build_folder() {
    printf '%s\n' "${YEZSDOLAK_BUILD:-$root/target}/$1"
}

# Ends the script where there is no compiler of C: the one that CC names, with words for it behind its name, or what is there
need_c() {
    if [ -n "${CC:-}" ]; then
        command -v "${CC%% *}" >/dev/null || command -v "$CC" >/dev/null || stop "the C compiler that CC names is not here: $CC"
        return
    fi
    CC=$(command -v clang || command -v gcc || command -v cc) ||
        stop "no C compiler is here: install clang or gcc, which builds this program, or name one in CC"
}

# WORDS...: compiles a program in C, with these words for the compiler
compile_c() {
    need_c
    if command -v "$CC" >/dev/null; then
        "$CC" "$@"
    else
        # shellcheck disable=SC2086 # its words
        $CC "$@"
    fi
}

# Ends the script where there is no compiler of Rust
need_rust() {
    command -v rustc >/dev/null || stop "rustc is not here: install Rust's compiler, rustc, which builds this program"
}

# WORDS...: compiles a program in Rust, with these words for the compiler
compile_rust() {
    need_rust
    rustc --edition 2021 -O "$@" && return
    command -v cc >/dev/null || stop "rustc links by cc, which is not here: install a C compiler"
    return 1
}

# PROGRAM SOURCE...: whether the program is missing or older than a source
is_stale() {
    [ -x "$1" ] || return 0
    built=$1
    shift
    [ -n "$(find "$@" -newer "$built")" ]
}

# PROGRAM SOURCE...: builds the program where it is stale, by the script's own `compile FILE`, which makes it under that name
build() {
    is_stale "$@" || return 0
    folder=$(dirname "$1")
    { mkdir -p "$folder" && [ -w "$folder" ]; } 2>/dev/null ||
        stop "cannot write to $folder: name a folder that can be written to in YEZSDOLAK_BUILD"
    aside=$(mktemp -d "$folder/aside.XXXXXX")
    trap 'rm -rf "$aside"' EXIT
    trap 'exit 1' HUP INT TERM
    exec 9>"$folder/lock"
    flock 9 2>/dev/null || true
    if is_stale "$@"; then
        # Its time is that before it was built: a source that is changed meanwhile is newer.
        touch "$aside/began"
        compile "$aside/program" || stop "$(basename "$1") could not be built"
        touch -r "$aside/began" "$aside/program"
        mv -f "$aside/program" "$1"
    fi
    exec 9>&-
    rm -rf "$aside"
    trap - EXIT HUP INT TERM
}
