# For the scripts that build virtiofsd: they must source usage.sh and transport.sh first, and define a function `refuse`,
# which prints a message and exits.
# shellcheck shell=bash

# Sets `folder` to the only argument that is not an option: take_folder ARGUMENT.
take_folder() {
    case $1 in
        -* | '') refuse "unrecognized option '$1'" ;;
    esac
    [ -z "$folder" ] || refuse "unexpected argument '$1'"
    folder=$1
}

# Creates `folder`, in which the daemons are built: out/virtiofsd, unless one was given.
make_folder() {
    folder=${folder:-$here/out/virtiofsd}
    mkdir -p "$folder" || refuse "cannot create directory '$folder'"
    folder=$(cd "$folder" && pwd)
}
