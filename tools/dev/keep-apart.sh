#!/usr/bin/env bash
# Keeps the checks of the gate on processors of their own, while it runs.
#
# Usage: tools/dev/keep-apart.sh PID
# Each thread of the process PID but its first, and so what that thread starts from then on, stays on one
# processor, until the process ends. A check reads its libraries by as many threads as it may use processors.
# With several checks side by side these wait for each other: the whole gate took a tenth more of the
# processors' time without this. .ci/run starts it beside `rt ci`, and all works without it too.
set -euo pipefail
. "$(dirname "$0")/../lib/usage.sh"
[[ $# == 1 && $1 =~ ^[0-9]+$ ]] || { echo "Usage: tools/dev/keep-apart.sh PID" >&2 && exit 2; }
need taskset "Install util-linux."

at=0
while [ -d "/proc/$1" ]; do
    for folder in "/proc/$1/task"/*; do
        thread=${folder##*/}
        # (one with a program running was started by another of these, and is where that is)
        if [ "$thread" != "$1" ] && [ -z "$(cat "$folder/children")" ] &&
            # (a list as 0-3 or 0,2: it may run on several yet)
            taskset -pc "$thread" | grep -q '[-,][0-9]*$'; then
            taskset -pc $((at++ % $(nproc))) "$thread" || true
        fi
    done
    # (a check takes minutes, so a second at its beginning is little)
    sleep 1
done > /dev/null 2>&1
