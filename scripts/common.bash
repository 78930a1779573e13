# What the scripts of this repository share: arguments, the tools that are needed, and files built of proved crates. A
# script reads this file in the repository's root; its function `usage` prints what --help answers.
# shellcheck shell=bash

script=$(basename "$0")
command -v cargo > /dev/null || export PATH="$PATH:${HOME:-}/.cargo/bin"
read -ra cc <<< "${CC:-cc}"
read -ra cxx <<< "${CXX:-c++}"

# Says something on standard error, under the script's name.
say() { echo "$script: $*" >&2; }

# Says what is wrong, and ends the script.
fail() {
    say "$@"
    exit 1
}

# Says what is wrong with the arguments, and how the script is used.
refuse_arguments() {
    say "$@"
    usage >&2
    exit 2
}

# Answers --help, and refuses every word but the options, each of which has a number after it.
check_arguments() { # OPTIONS WORDS...
    local options=" $1 "
    shift
    while [ $# -gt 0 ]; do
        if [ "$1" = --help ] || [ "$1" = -h ]; then
            usage
            exit 0
        elif [[ ! $1 =~ ^--[a-z]+$ || $options != *" $1 "* ]]; then
            refuse_arguments "unknown argument: $1"
        elif [[ ! ${2-} =~ ^[0-9]+$ ]]; then
            refuse_arguments "$1 needs a number"
        fi
        shift 2
    done
}

# ---- tools

# Ends the script if a tool is missing, once each that is missing is named, with how to get it.
need() { # TOOLS...
    local tool missing=
    for tool in "$@"; do
        "need_$tool" || missing=yes
    done
    [ -z "$missing" ] || exit 1
}

# The Rattle toolchain, of the logic that rattle-version names.
need_rt() {
    local pinned found
    if ! command -v rt > /dev/null; then
        say "rt is missing: it is the command of the Rattle toolchain, whose folder bin must be on the PATH"
        return 1
    fi
    pinned=$(sed -n 's/^logic //p' rattle-version)
    found=$(rt version)
    if [ "${found##* logic }" != "$pinned" ]; then
        say "rt is of another logic: rt version prints '$found', and the proofs are for logic $pinned (rattle-version)"
        say "use a toolchain of that logic, or write the other into rattle-version and see whether ./test passes"
        return 1
    fi
}

# Rust, as new as the second implementation's calls of the standard library.
need_cargo() {
    if [[ ! $(cargo --version 2> /dev/null) =~ ^cargo\ 1\.([0-9]+)\. ]] || ((BASH_REMATCH[1] < 87)); then
        say "cargo of Rust 1.87 or newer is missing: https://rustup.rs, or Debian's packages cargo and rustc if as new"
        return 1
    fi
}

# A C compiler, which cargo links with too.
need_cc() {
    command -v "${cc[0]}" > /dev/null && return
    say "${cc[0]}, the C compiler, is missing: Debian's package gcc"
    return 1
}

# A C++ compiler.
need_cxx() {
    command -v "${cxx[0]}" > /dev/null && return
    say "${cxx[0]}, the C++ compiler, is missing: Debian's package g++"
    return 1
}

# ---- what a file is built from

# The crates that are proved for NAME, each after those that it stands on, as crates.txt has them.
crates_of() { # NAME
    awk -v wanted="$1" '
        function visit(name,    parts, count, at) {
            if (!(name in below) || visited[name]++) return
            count = split(below[name], parts, " ")
            for (at = 1; at <= count; at++) visit(parts[at])
            print name
        }
        { sub(/#.*/, "") }
        split($0, line, ":") == 2 { split(line[1], words, " "); below[words[1]] = line[2] }
        END { visit(wanted) }' crates.txt
}

# One checksum over the names and the contents of all files in the paths but those that rt makes, crates/*/out.
checksum() { # PATHS...
    find "$@" -regex 'crates/[^/]*/out' -prune -o ! -type d -print0 | LC_ALL=C sort -z | xargs -0 sha256sum |
        sha256sum | cut -d ' ' -f 1
}

# What a build of NAME depends on: the toolchain, and the checksum of all that rt reads of the crates. Where rt is not
# on the PATH, nothing could be built anew, and the toolchain is the one that is recorded beside FILE.
sources_of() { # NAME FILE
    local crate part paths=(crates.txt rattle-version)
    for crate in $(crates_of "$1"); do
        for part in src specs proofs stdin stdout args status data; do
            [ ! -e "crates/$crate/$part" ] || paths+=("crates/$crate/$part")
        done
    done
    if command -v rt > /dev/null; then rt version; else head -n 1 "$2.built-from"; fi
    checksum "${paths[@]}"
}

# Whether FILE is what a build of NAME would make now: FILE.built-from has the toolchain and the checksums of the
# sources and of FILE itself.
is_current() { # NAME FILE
    [ -f "$2" ] && [ -f "$2.built-from" ] &&
        [ "$(cat "$2.built-from")" = "$(sources_of "$1" "$2" && sha256sum < "$2")" ]
}

# ---- proving and building

# Waits until no other run proves in this repository, since they share crates/*/out. The lock ends with this shell.
lock_crates() {
    mkdir -p out
    exec 9> out/lock
    flock -n 9 && return
    say "waiting for another run that proves here; one that was interrupted ends with the crates that it has begun"
    flock 9
}

# Hands on what rt says while it proves NAME and the crates below it, and says which crate of how many is proved. One
# that has not changed since it was proved is not named.
show_proving() { # NAME
    local line crate='' count=0 began=$SECONDS
    local begins='^crate ([a-z0-9_]+): '
    local -A place=()
    for crate in $(crates_of "$1"); do
        count=$((count + 1))
        place[$crate]=$count
    done
    while IFS= read -r line || [ -n "$line" ]; do
        if [[ $line =~ $begins ]]; then
            crate=${BASH_REMATCH[1]}
        elif [[ $line == 'logic=proved '* ]]; then
            say "${place[$crate]-} of $count proved: $crate ($((SECONDS - began)) s)"
            began=$SECONDS
        fi
        printf '%s\n' "$line"
    done
}

# Has rt prove and build the program, which it then runs: on no input.
prove_shelfrun() { (cd crates/shelfrun && rt run); }

# Has rt prove and build the library.
prove_bandsawpink() { (cd crates/bandsawpink && rt lib); }

# What of a log says why not all is proved: the last lines but those that say what was read or proved.
show_failure() { # LOG
    { grep -vE '^(crate|library|statements|axioms|logic|note:) |^(logic|only)=|: proved$' "$1" || true; } | tail -n 20
}

# Proves NAME, and keeps MADE, which rt makes of it, as FILE. In a shell of its own, whose end gives the lock back.
prove_and_keep() ( # NAME FILE MADE
    need rt
    lock_crates
    is_current "$1" "$2" && exit
    log=out/$1.log
    crates=$(crates_of "$1" | wc -l)
    sources=$(sources_of "$1" "$2") || fail "$2 is not built: not all sources can be read"
    say "$2 is to be built: proving $crates crates, which takes about four minutes on two cores if all are new; log: $log"
    if ! "prove_$1" < /dev/null 2>&1 | show_proving "$1" > "$log"; then
        show_failure "$log" >&2
        fail "$2 is not built: not all is proved; log: $log"
    fi
    [ "$(sources_of "$1" "$2")" = "$sources" ] || fail "$2 is not built: the sources changed meanwhile; run this again"
    [ -f "$3" ] || fail "$2 is not built: rt has proved all and made no $3; remove ${3%/*} and run this again"
    mkdir -p "${2%/*}"
    cp -f "$3" "$2.new"
    { echo "$sources" && sha256sum < "$2.new"; } > "$2.built-from.new"
    mv -f "$2.new" "$2"
    mv -f "$2.built-from.new" "$2.built-from"
)

# Sees to it that out/shelfrun is built from the sources as they are.
build_program() {
    is_current shelfrun out/shelfrun || prove_and_keep shelfrun out/shelfrun crates/shelfrun/out/shelfrun
}

# Sees to it that lib/libbandsawpink.a is built from the sources as they are.
build_library() {
    local library=lib/libbandsawpink.a
    is_current bandsawpink "$library" || prove_and_keep bandsawpink "$library" crates/bandsawpink/out/libbandsawpink.a
}
