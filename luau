#!/bin/sh
# Runs the proved program with the given words, and builds it first where it is missing or older than its sources.
set -u
here=$(CDPATH= cd -- "$(dirname -- "$0")" && pwd) || exit 70
program=$here/out/luau

is_stale() {
    [ ! -x "$program" ] || [ -n "$(find "$here/crates" "$here/crates.txt" -name out -prune -o -type f -newer "$program" -print | head -n 1)" ]
}

# A copy of the crates without what was built.
copy_crates() {
    mkdir -p "$1/crates" && cp "$here/crates.txt" "$here/HANDLES" "$1" || return 1
    for crate in "$here"/crates/*; do
        mkdir "$1/crates/${crate##*/}" || return 1
        for part in src specs proofs; do
            [ ! -d "$crate/$part" ] || cp -R "$crate/$part" "$1/crates/${crate##*/}" || return 1
        done
    done
}

# Proves crates one after another, each with those below it that are not proved yet, and notes each that is done.
prove() {
    for crate; do
        (cd "crates/$crate" && rt lib) && : >"../done/$crate" || return 1
    done
}

# Waits until another chain has proved a crate, or one has failed.
await() {
    while [ ! -e "../done/$1" ]; do
        [ ! -e ../done/failed ] || return 1
        sleep 1
    done
}

# Three chains of proofs side by side, each in a copy of its own, since runs in one copy wait for one another. What the one has proved
# the others take over. The longest way leads through the syntax tree and the parser.
first_chain() {
    prove whole_num byte_text syntax_tree expression_parser && await node_numbers && prove luau_parser \
        && await scopes && await script_compiler && (cd crates/luau_cli && rt run -- run /dev/null)
}

second_chain() {
    prove outside_io && await syntax_tree && prove node_numbers luau_lexer scopes
}

third_chain() {
    await byte_text && prove built_vm code_link chunk_file chunk_check && await syntax_tree \
        && prove built_emitter unbuilt_nodes script_compiler
}

# Runs a chain in a copy of its own.
in_copy() {
    (cd "$1/$2" && "$2_chain" || : >../done/failed)
}

build() {
    mkdir "$1/done" && copy_crates "$1/first" && copy_crates "$1/second" && copy_crates "$1/third" || return 1
    in_copy "$1" second &
    in_copy "$1" third &
    in_copy "$1" first
    wait
    [ ! -e "$1/done/failed" ] && mkdir -p "$here/out" && cp "$1/first/crates/luau_cli/out/luau_cli" "$program"
}

if is_stale; then
    command -v rt >/dev/null || { echo "luau: the program is not built, and the kit's command rt is not on the path" >&2; exit 70; }
    echo "luau: proving and building the program; from nothing this takes a quarter of an hour and more" >&2
    copies=$(mktemp -d) || exit 70
    trap 'rm -rf "$copies"; exit 70' INT TERM
    build "$copies" >&2 </dev/null
    built=$?
    rm -rf "$copies"
    [ "$built" = 0 ] || { echo "luau: the program was not built" >&2; exit 70; }
fi
exec "$program" "$@"
