#!/usr/bin/env bash
# Upgrades the package nizwarf, removes it and purges it where systemd listens for a folder, for test_system_package.py.
#
# Usage: tests/programs/system/removed.sh FOLDER
# The folder has the package, or its out/packages does.
# Status 0: each came to what it must; 1: not so.
set -euo pipefail
. "$(dirname "$0")/../../../tools/lib/usage.sh"
[ $# = 1 ] || { echo "Usage: tests/programs/system/removed.sh FOLDER" >&2 && exit 2; }
cd "$1"
trap 'echo "FAILED: line $LINENO: $BASH_COMMAND" >&2; tail -n 20 came 2> /dev/null >&2' ERR

package=$(find . -name 'nizwarf_*.deb' | sed -n 1p)
of=/usr/lib/systemd/system/nizwarf-share@.service
unit=nizwarf-share@srv.socket
link=/etc/systemd/system/sockets.target.wants/$unit
# (as if it were an earlier version's, which has an earlier time)
echo "# earlier" >> "$of"
touch -d @1000000000 "$of"
systemctl enable --now "$unit" > came 2>&1
[ -S /run/nizwarf-share/srv.sock ]
# (with this a container, which may be what was copied, says that packages start and stop nothing)
rm -f /usr/sbin/policy-rc.d

dpkg -i "$package" > came 2>&1
[ "$(systemctl show -P NeedDaemonReload nizwarf-share@srv.service)" = no ]
[ "$(systemctl is-active "$unit")" = active ]
dpkg -r nizwarf > came 2>&1
[ "$(systemctl is-active "$unit" || true)" = inactive ]
test ! -e /run/nizwarf-share/srv.sock
# (how the machine was set up)
[ -L "$link" ]
dpkg -P nizwarf > came 2>&1
test ! -L "$link"
echo "The package is upgraded, removed and purged: what systemd has of it goes with it."
