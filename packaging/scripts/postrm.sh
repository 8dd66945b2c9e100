#!/bin/sh
# Of the package nizwarf, which has units of systemd.
set -e
if [ "$1" = remove ] && [ -d /run/systemd/system ]; then
    systemctl --system daemon-reload > /dev/null || true
fi
# (`systemctl enable` made these: they are how the machine was set up, and so stay until all of that goes)
if [ "$1" = purge ]; then
    rm -f /etc/systemd/system/sockets.target.wants/nizwarf-share@*.socket
fi
