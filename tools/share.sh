#!/usr/bin/env bash
# Shares a directory of the host: mounts it over /dev/fuse, or serves it to a virtual machine over vhost-user. The protocol is
# that of the library nizwarf_codec; the program, programs/share, is not proved.
#
# Usage: tools/share.sh DIRECTORY MOUNTPOINT [OPTION]..
#        tools/share.sh DIRECTORY --socket-path=SOCKET [OPTION]..
#        tools/share.sh --options
#        tools/share.sh --check
#        tools/share.sh --load MINUTES
#
# The options are those of nizwarf-share, such as --cache=always, --xattr or --thread-pool-size=4; --options lists them.
# `umount MOUNTPOINT` or Ctrl-C ends it. --check tests it by tests/share/check.sh, and --load puts it under load for MINUTES by
# tests/share/load.sh.
#
# It requires root, for a mount /dev/fuse, a C compiler and the Rattle toolchain, and libseccomp-dev for the filter of system
# calls. It links the proved library if that is built and no source is newer; otherwise tools/lib/unproved.sh builds it without
# a proof, which takes a minute.
# Exit status 0: it was served and ended, or all tests passed; 1: it failed; 2: it could not start.
set -euo pipefail
. "$(dirname "$0")/lib/usage.sh"
. "$(dirname "$0")/lib/transport.sh"

# (all other arguments are for the program, which checks them)
case $#:${1:-} in
    1:--options) set -- --help ;;
    1:--check) exec "$here/tests/share/check.sh" ;;
    2:--load) exec "$here/tests/share/load.sh" "$2" ;;
    0:* | *:--check | *:--options | *:--load)
        echo "Usage: tools/share.sh DIRECTORY MOUNTPOINT [OPTION].., or tools/share.sh --options, --check or --load MINUTES" >&2
        exit 2
        ;;
esac
build_transport share nizwarf_codec
# (exec, so that signals are sent to the program)
exec "$transport" "$@"
