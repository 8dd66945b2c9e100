#!/bin/sh
# Of the package nizwarf, which has units of systemd.
set -e
# (what systemd knows of a unit stays as it was read, also where an upgrade closes it off more)
if [ "$1" = configure ] && [ -d /run/systemd/system ]; then
    systemctl --system daemon-reload > /dev/null || true
fi
