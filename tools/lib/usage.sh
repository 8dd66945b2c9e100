# Sourced by the tools. With --help a tool prints the comment at the head of its file.
# shellcheck shell=bash
case ${1:-} in
    -h | --help)
        # (from the second line to the first line that is not a comment)
        sed -n '2,${/^#/!q;s/^# \{0,1\}//p}' "$0"
        exit 0
        ;;
esac

# Exits if a command is not installed: need COMMAND "WHAT TO DO".
need() {
    if ! command -v "$1" > /dev/null; then
        echo "${0##*/}: '$1' is not installed. $2" >&2
        exit 2
    fi
}

# Exits if commands are not installed, and prints the packages of all of them: need_packages "COMMAND PACKAGE.."..
need_packages() {
    local it words missing=() having=()
    for it in "$@"; do
        read -ra words <<< "$it"
        command -v "${words[0]}" > /dev/null || { missing+=("${words[0]}") && having+=("${words[@]:1}"); }
    done
    [ ${#missing[@]} = 0 ] || { echo "${0##*/}: not installed: ${missing[*]}. To install them: apt-get install ${having[*]}" >&2 && exit 2; }
}

# Exits unless it is run by root: need_root "WHY", such as "mounting requires root".
need_root() {
    if [ "$(id -u)" != 0 ]; then
        echo "${0##*/}: $1" >&2
        exit 2
    fi
}

# Exits if no file system can be mounted over FUSE.
need_fuse() {
    if [ ! -e /dev/fuse ]; then
        echo "${0##*/}: /dev/fuse is missing: load the kernel module with \`modprobe fuse\`" >&2
        exit 2
    fi
}

# Exits unless the processor is one that the libraries are built for.
need_x86_64() {
    if [ "$(uname -m)" != x86_64 ]; then
        echo "${0##*/}: only x86-64 is supported" >&2
        exit 2
    fi
}

# Exits if a tool that has no arguments was given some: take_none "$@".
take_none() {
    if [ $# != 0 ]; then
        echo "Usage: $0" >&2
        exit 2
    fi
}

# Prints that a part of the script begins, and how many parts there are: part "NAME". Their number is `part_count`, or else
# how often the script calls this function.
part_number=0
part_script=$(realpath "$0")
part() {
    part_number=$((part_number + 1))
    echo "$part_number of ${part_count:=$(grep -cE '^ *part "' "$part_script")}: $1" >&2
}
