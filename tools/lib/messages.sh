# For the scripts beside it that run vfs_demo and decode what it reads and writes; they source usage.sh
# first.
# shellcheck shell=bash
. "$(dirname "${BASH_SOURCE[0]}")/program.sh"

# Builds those of these programs without a proof, at once, that are not proved or have a newer source;
# tools/lib/unproved.sh keeps them. It says which are which.
build_programs() {
    local name job jobs=()
    for name in "$@"; do
        if is_built "$name"; then
            echo "The program $name is proved." >&2
            continue
        fi
        echo "The program $name is built without a proof: \`rt run < stdin\` in crates/$name proves it." >&2
        "$here/tools/lib/unproved.sh" "$name" &
        jobs+=($!)
    done
    for job in ${jobs[@]+"${jobs[@]}"}; do
        # (one after another: `wait` with several tells of the last alone)
        wait "$job" || exit 2
    done
}

# Prints where a program is that was built.
path_of() {
    if is_built "$1"; then
        echo "$here/crates/$1/out/$1"
    else
        echo "$here/out/unproved/$1"
    fi
}

# Prints each request of a file and its answer in another, a line each in turn, up to the first that is
# not answered; a first line that sets the limit is alone before them.
in_turn() {
    awk -v answers="$2" '
        NR == 1 && /^limit / { limit = $0 "\n"; next }
        (getline answer < answers) <= 0 || answer !~ /^(ok|err) / { exit }
        { printf "%s%s\n%s\n", limit, $0, answer; limit = "" }
    ' "$1"
}

# Prints the same with what each message says below it, by the program vfs_decode: show LINES ANSWERS. An
# empty line is before each request, and what vfs_demo wrote after its last answer ends it.
show() {
    in_turn "$1" "$2" | "$(path_of vfs_decode)" | sed 's/^[0-9]/\n&/'
    tail -n 1 "$2" | grep -Ev '^(ok|err) ' || true
}
