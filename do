#!/usr/bin/env bash
# What a user or a developer types every day. `./do` alone lists it.
set -euo pipefail
from=$PWD
cd "$(dirname "${BASH_SOURCE[0]}")"
repository=$PWD

# The lines below that carry a comment, as a list.
words() { sed -n -e 's/^\([a-z]*\)).*# \([A-Z][][A-Z ]*: .*\)$/.\/do \1 \2/p;t' -e 's/^\([a-z]*\)).*# \(.*\)$/.\/do \1: \2/p' ./do; }

# Proves and builds the program, and runs it once on no input; what that says is shown only where it fails.
program=$repository/crates/tariff/out/tariff
build_program() {
    [ -e "$program" ] || echo "proving and building the program; the first time takes some minutes" >&2
    mkdir -p target
    (cd crates/tariff && rt run) </dev/null >target/tariff.log 2>&1 || { cat target/tariff.log >&2 && exit 2; }
}

# The program always ends with status 0. This has: 0 for a sheet, 1 for a refusal, 2 where something was not read or written. It runs in a folder, whose share.bin counts.
print_sheet() { # FILE FOLDER
    said=$made/said faults=$made/faults
    (cd "$2" && "$repository/clients/x86" run "$program") <"$1" >"$said" 2>"$faults" || echo "do: the program ended with status $?" >>"$faults"
    cat "$faults" >&2
    cat "$said" || exit 2
    [ ! -s "$faults" ] || exit 2
    ! grep -q '^refused' "$said" || exit 1
}

# A folder for what is made here, and in it an empty one for the program.
make_folder() {
    made=$(mktemp -d) && mkdir "$made/empty"
    trap 'rm -rf "$made"' EXIT
}

# The whole name of a file that can be read, from where the user stands.
readable() { # FILE
    case "$1" in /*) whole=$1 ;; *) whole=$from/$1 ;; esac
    [ -r "$whole" ] || { echo "do: no such file to read: $1" >&2 && exit 2; }
    echo "$whole"
}

# A command in a crate's folder, where most of rt's commands work.
in_crate() { # NAME COMMAND..
    [ -d "crates/$1" ] || { echo "do: no such crate: $1" >&2 && exit 2; }
    (cd "crates/$1" && "${@:2}")
}

# Words that take nothing behind them.
alone() { [ $# -eq 0 ] || { echo "do: nothing goes behind $word: $*" >&2 && exit 2; }; }

word=${1:-help}
[ $# -eq 0 ] || shift
case "$word" in
sheet)                                                  # FILE [SHARE]: print the sheet of a case file, or why there is none (status 1); by SHARE, else by a share.bin where you stand
    [ $# -eq 1 ] || [ $# -eq 2 ] || { echo "usage: ./do sheet FILE [SHARE]: without SHARE a share.bin in the folder where you stand counts" >&2 && exit 2; }
    make_folder
    file=$(readable "$1")
    folder=$from
    if [ $# -eq 2 ]; then
        folder=$made/empty
        share=$(readable "$2")
        cp "$share" "$folder/share.bin" || exit 2
    fi
    build_program
    print_sheet "$file" "$folder"
    ;;
kiln)                                                   # print the sheet of case KILN
    alone "$@" && make_folder
    build_program
    print_sheet crates/tariff/stdin "$made/empty"
    ;;
case)                                                   # make, show, solve and compare case files; alone it says how
    # From where the user stands, for the names of files.
    cd "$from"
    exec cargo run --offline --quiet --release --manifest-path "$repository/reference/Cargo.toml" --bin case -- "$@"
    ;;
gate) alone "$@" && exec .ci/run ;;                     # the verdict, from nothing
check)                                                  # NAMES: prove these crates and what they depend on; all of them where none is named
    [ $# -gt 0 ] || exec rt all check
    for crate; do in_crate "$crate" rt check; done
    ;;
dev)                                                    # NAME FLAGS: the edit loop on one crate, in seconds, with flags of `rt check`, as --only F or --allow-holes
    [ $# -gt 0 ] || { echo "usage: ./do dev NAME [a flag of rt check ..]" >&2 && exit 2; }
    in_crate "$1" rt check "${@:2}"
    ;;
edits) exec rt must-fail "$@" ;;                        # try the must-fail edits of these crates
library) alone "$@" && exec clients/run ;;              # the static library; build and run the C and Rust clients
fuzz) alone "$@" && exec outside/fuzz/run ;;            # coverage-guided fuzzing of the library, FUZZ_SECONDS long
compare) exec outside/run "$@" ;;                       # library and program against the reference: short, or `compare long`; `--seed N`
bench) exec bench/run "$@" ;;                           # time the library beside a Rust twin and a textbook Rust
fmt)                                                    # lay every file out
    alone "$@"
    for crate in crates/*/; do in_crate "$(basename "$crate")" rt fmt; done
    ;;
help) alone "$@" && words ;;                            # this list
*)
    echo "do: no such word: $word" >&2
    words >&2
    exit 2
    ;;
esac
