# shellcheck shell=bash
# What the scripts of bin/ and bench/run share: each builds its product where that is missing or older than its
# sources. They source this file, which nobody runs, and are then in the project's folder. It speaks on standard error, since standard
# output is theirs.
script=$(realpath "$0")
caller=$PWD
cd "$(dirname "$script")/.."
script=$(basename "$(dirname "$script")")/$(basename "$script")

say() {
    echo "$script: $1" >&2
}

fail() {
    say "$1"
    exit 1
}

# Whether a product is missing, or older than a source, a folder of sources (a source came or went) or the list of crates. What rt makes
# stands in a crate's out/, and is no source; nor is the crate's own folder, in which rt makes and removes that one.
stale() {
    local newer
    [ -f "$1" ] || return 0
    newer=$(find crates crates.txt -regex 'crates/[^/]*/out' -prune -o ! -regex 'crates/[^/]*' -newer "$1" -print -quit) ||
        fail "the sources of $1 cannot be looked through"
    [ -n "$newer" ]
}

# bring_up_to_date PRODUCT CRATE MADE WORD...: builds the product where it is stale. rt, called with the words in the crate's folder, leaves
# the file MADE there, in out/; the product is that file or a copy of it.
bring_up_to_date() {
    local product=$1 crate=crates/$2 made=crates/$2/out/$3 started said
    shift 3
    stale "$product" || return 0
    command -v rt >/dev/null || fail "$product has to be built, and rt is not on the path.
Put the Rattle kit's rt on the path; README.md, \"Try it\", says which kit was used."
    say "building $product, which takes some minutes"
    started=$(date +%s.%N)
    # standard input is the program's, so rt gets none of it, nor does the program, which rt runs once it is built
    if ! said=$(cd "$crate" && rt "$@" </dev/null 2>&1); then
        printf '%s\n' "$said" >&2
        fail "rt $* in $crate failed"
    fi
    [ -f "$made" ] || fail "rt $* left no $made; remove $crate/out and try again"
    if [ "$made" != "$product" ]; then
        # under another name first, so that a copy that was cut short is never taken for the product
        mkdir -p "$(dirname "$product")"
        cp "$made" "$product.new"
        mv "$product.new" "$product"
    fi
    # The time of the start: a source that was changed meanwhile is newer, and a product that rt left as it was is up to date.
    touch -d "@$started" "$product"
}

# no_argument WHAT USE ARGUMENT...: for a program that only reads what it is given from standard input.
no_argument() {
    [ $# -eq 2 ] || fail "takes no argument, $1 comes on standard input: $2"
}

# start_program: starts the program that the script is named after, once it is up to date. It takes no argument.
start_program() {
    local name=${script#bin/}
    bring_up_to_date "crates/$name/out/$name" "$name" "$name" run
    exec "crates/$name/out/$name"
}

# start_filter ARGUMENT...: the same, for a filter, whose arguments may name files: it starts in the folder in which the script was called. rt
# also runs what it builds: its usage is then all that is asked of it.
start_filter() {
    local name=${script#bin/} program=$PWD/crates/${script#bin/}/out/${script#bin/}
    bring_up_to_date "crates/$name/out/$name" "$name" "$name" run -- --help
    cd "$caller"
    exec "$program" "$@"
}
