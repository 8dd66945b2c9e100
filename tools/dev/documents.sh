#!/usr/bin/env bash
# Checks the Markdown pages of the repository against its sources, as far as a script can.
#
# Usage: tools/dev/documents.sh
# It prints each fault with its file and line, and ends with their count. Status 0: there is none.
#
#   links              the file exists, and so does the heading after a `#`
#   files              exist; the end of a path suffices, as `Ask.antt`
#   names of code      are in the sources, except in pages about other projects and earlier versions
#   blocks             each line is in the file that the comment above the block names, <!-- FILE -->
#   commands           a path that begins an indented line can be run
#   the toolchain      has the logic that README.md names
#   the promise        README.md and PROMISE.md state its size as tools/measure/statement.py counts it
#   the version        is one in CHANGELOG.md, the header, the library, its newest symbols, and the packages
set -eu
. "$(dirname "$0")/../lib/usage.sh"
take_none "$@"
need rt "Put the folder bin of the Rattle toolchain on the PATH."
need python3 "To install it: apt-get install python3"
cd "$(dirname "$0")/../.."

# (documents.py holds README.md's toolchain against it)
kit=$(rt version) exec python3 -B tools/dev/documents.py
