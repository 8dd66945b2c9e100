#!/bin/sh
# Of the package nizwarf, which has units of systemd.
set -e
# (a socket would listen on, with no program that serves who connects)
if [ "$1" = remove ] && [ -d /run/systemd/system ]; then
    deb-systemd-invoke stop 'nizwarf-share@*.socket' 'nizwarf-share@*.service' > /dev/null || true
fi
