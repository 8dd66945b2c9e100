# For the scripts that look at the manual pages: they know where they are by `here`.
# shellcheck shell=bash disable=SC2154

# Compares the pages of functions, which packaging/man.py put into a folder, with the headers: each shows functions as
# they are declared, and an example that compiles as `make NAME` of programs/Makefile compiles a program, because that is
# what a reader of the page does. It prints each difference: hold_pages FOLDER.
hold_pages() {
    local page example=$1/example.c status=0
    # (declared again after the header, where C refuses another form)
    awk -f "$here/packaging/prototypes.awk" "$1"/*.3 \
        | cc -fsyntax-only -Werror -I "$here/include" -include nizwarf_fuse.h -include nizwarf_tree.h -x c - || {
        echo "A manual page shows a function with another prototype than the headers." >&2
        status=1
    }
    for page in "$1"/*.3; do
        awk -f "$here/packaging/examples.awk" "$page" > "$example"
        # (`LIBRARY` stops make from asking pkg-config, and nothing is linked)
        if [ ! -s "$example" ] ||
            ! make -s -B -C "$1" -f "$here/programs/Makefile" example CFLAGS="-Wall -Wextra -Werror -fsyntax-only" \
                LIBRARY=-lnizwarf INCLUDE="$here/include"; then
            echo "The example of ${page##*/} is missing or does not compile." >&2
            status=1
        fi
    done
    rm "$example"
    return $status
}
