#!/usr/bin/env bash
# Checks in two minutes, without root and without a proof, that the sources are consistent. CONTRIBUTING.md has the commands
# that test a change further.
#
# Usage: tools/check.sh [--only PART]..
#        tools/check.sh --missing
#
#   documents  the pages agree with the sources
#   edits      each edit of tests/edits still applies
#   numbers    the numbers and structs of the bindings are those of the header for C
#   shell      shellcheck accepts the scripts
#   rattle     the format of Rattle's files, by `rt fmt` on a copy
#   rust       the format of Rust's files, by rustfmt
#   python     pyflakes accepts Python's files
#   c          each C file compiles without a warning, and so do the examples of manual pages
#   format     the format of C's files, by clang-format
#   codec      the tests in C of the libraries for C, which are built without a proof
#   crate      the tests of bindings/rust over that library
#
# A part that fails does not stop the parts after it. A part whose programs are not installed is skipped, and the packages of
# these programs are printed; --missing prints only the packages. Nothing is installed.
# Exit status 0: all passed; 1: a part failed; 2: it could not start; 3: no part failed, but one was skipped.
set -euo pipefail
. "$(dirname "$0")/lib/usage.sh"
. "$(dirname "$0")/lib/transport.sh"
. "$(dirname "$0")/lib/man.sh"
cd "$here"

parts=(documents edits numbers shell rattle rust python c format codec crate)
# The commands of each part. The toolchain is not a package of Debian.
declare -A wanted=(
    [documents]="rt python3" [edits]="bash" [numbers]="python3 cc" [shell]="shellcheck" [rattle]="rt"
    [rust]="rustfmt" [python]="pyflakes3"
    [c]="cc make python3" [format]="clang-format" [codec]="rt cc pytest-3" [crate]="cargo rt cc"
)
# (other commands are in the package of the same name)
declare -A package=([cc]="gcc libc6-dev" [pytest-3]="python3-pytest" [rt]="")

# Prints the commands of a part that are not installed.
missing_of() {
    local program
    for program in ${wanted[$1]}; do
        command -v "$program" > /dev/null || echo "$program"
    done
}

# Prints the packages of Debian that these parts lack.
packages_for() {
    local part
    for part in "$@"; do
        missing_of "$part"
    done | while IFS= read -r program; do
        printf '%s\n' "${package[$program]-$program}"
    done | tr ' ' '\n' | sed '/^$/d' | sort -u
}

chosen=()
while [ $# -gt 0 ]; do
    case $1 in
        --only)
            if [ -z "${wanted[${2:-none}]-}" ]; then
                echo "check.sh: --only must be one of ${parts[*]}, not '${2-}'" >&2
                exit 2
            fi
            chosen+=("$2")
            shift 2
            ;;
        --missing)
            packages_for "${parts[@]}"
            exit
            ;;
        *)
            echo "Usage: tools/check.sh [--only PART].. | --missing" >&2
            exit 2
            ;;
    esac
done
[ ${#chosen[@]} = 0 ] || parts=("${chosen[@]}")
folder=$(mktemp -d)
trap 'rm -rf "$folder"' EXIT

# Prints existing files that git tracks or that are new, by patterns.
files() {
    git ls-files --cached --others --exclude-standard -z -- "$@" | xargs -0r ls -d -- 2> /dev/null || true
}

# Runs a command for parts of a list of files, in as many processes as there are processors.
each() {
    # (the list has a file in each line)
    tr '\n' '\0' | xargs -0r -n 8 -P "$(nproc)" "$@"
}

scripts() { files '*.sh' .ci/run packaging/nizwarf-decode packaging/nizwarf-demo; }
c_files() { files '*.c' '*.h'; }

# ---- The parts. A part is called in a condition, so `set -e` has no effect in it, and a step that may fail must return.

check_documents() { tools/dev/documents.sh; }
check_edits() { tests/edits/run.sh --texts; }
check_numbers() { tools/dev/numbers.py; }
check_shell() { scripts | each shellcheck; }
# (one file at a time from standard input, because some name modules that are elsewhere; and in its directory, for
# rustfmt.toml)
# shellcheck disable=SC2016
check_rust() { files '*.rs' | each -n 1 bash -c 'cd "${0%/*}" && rustfmt --check --color never < "${0##*/}" || { echo "$0" && exit 1; }'; }
check_python() { files '*.py' | each pyflakes3; }
check_codec() { pytest-3 -q -m "not slow" tests/c; }

check_rattle() {
    mkdir "$folder/copy"
    files crates.txt 'crates/*.rt' 'crates/*.antt' | tar -cT - | tar -xC "$folder/copy"
    cp -R "$folder/copy" "$folder/formatted"
    # shellcheck disable=SC2016
    (cd "$folder/formatted/crates" && printf '%s\n' * | each -n 1 bash -c 'cd "$0" && rt fmt > /dev/null') || return
    diff -ru "$folder/copy" "$folder/formatted"
}

check_format() { c_files | each clang-format --dry-run -Werror; }

check_c() {
    local known
    known=$(files '*.c')
    # (files that need a missing header are compiled where it is installed)
    [ -e /usr/include/fuse3/fuse_lowlevel.h ] || known=$(xargs grep -LE '#include [<"]fuse_lowlevel' <<< "$known")
    # shellcheck disable=SC2016
    each -n 1 bash -c '
        case $0 in *share_sandbox.c) ! echo "#include <seccomp.h>" | cc -fsyntax-only -x c - 2> /dev/null || set -- -DWITH_SECCOMP ;; esac
        cc -std=c11 -O1 -Wall -Wextra -Werror -I include -I programs/transport -I /usr/include/fuse3 \
            -fsyntax-only "$@" "$0"' <<< "$known" || return
    packaging/man.py "$folder/man" && hold_pages "$folder/man"
}

check_crate() {
    export NIZWARF_LIB_DIR=$here/out/rust/lib
    find_library nizwarf_codec
    mkdir -p "$NIZWARF_LIB_DIR"
    # (otherwise an older library there would be tested)
    cp -u "$archive" "$heap" "$NIZWARF_LIB_DIR" || return
    (cd bindings/rust && cargo test --quiet --offline)
}

# The libraries are built while the first parts run.
if [[ " ${parts[*]} " =~ \ (codec|crate)\  ]] && [ -z "$(missing_of codec)" ]; then
    (find_library nizwarf_codec && find_library nizwarf_tree) > "$folder/libraries" 2>&1 &
fi
failed=() skipped=() times=() number=0
for part in "${parts[@]}"; do
    number=$((number + 1))
    # (paste prints an empty line too, so that read has one)
    read -ra missing < <(missing_of "$part" | paste -sd ' ')
    if [ ${#missing[@]} != 0 ]; then
        echo "$number of ${#parts[@]}: $part is skipped, because these are missing: ${missing[*]}"
        skipped+=("$part")
        continue
    fi
    echo "$number of ${#parts[@]}: $part .."
    begun=$SECONDS
    # (the libraries must be finished)
    case $part in codec | crate) wait ;; esac
    if ! "check_$part" > "$folder/said" 2>&1 < /dev/null; then
        cat "$folder/said"
        echo "FAILED: $part"
        failed+=("$part")
    fi
    times+=("$part $((SECONDS - begun)) s")
done
wait
echo "Seconds: $(printf '%s, ' "${times[@]}" | sed 's/ s, /, /g; s/, $//'); together $SECONDS."
command -v rt > /dev/null || echo "The directory bin of the Rattle toolchain is not in PATH."
if [ ${#skipped[@]} != 0 ]; then
    echo "Skipped: ${skipped[*]}. To install what is missing: apt-get install $(packages_for "${skipped[@]}" | paste -sd ' ')"
fi
[ ${#failed[@]} = 0 ] || { echo "FAILED: ${failed[*]}" && exit 1; }
[ ${#skipped[@]} = 0 ] || exit 3
echo "All ${#parts[@]} parts passed."
