#!/usr/bin/env bash
# Analyses C that is between a guest and the proved library by Frama-C: what walks a guest's queues
# (programs/transport/vhost_queue.c, later.c), the C files of the library (lib), and ids (passthrough_ids.c).
#
# Usage: tests/analyse/run.sh
# WP proves of functions, for requests, reply buffers and lists of any length, that they read and write nothing but
# the memory that they are passed, come to an end, and keep to their contracts. Of the queues these are mark,
# copy_up_to, add_request, add_piece and take_chain (contracts.h). Of the library they are those with loops over
# pieces, and all that make a table's calls: names and data that they pass to these lie in the request, texts of an
# answer in the reply buffer (codec.acsl, tree.acsl, table.acsl). Eva looks for undefined behaviour: in a worker that
# serves a queue three turns long (entry.c), with any regions and rings, any number that the guest writes, and any
# answer, now or later; in all of codec.c, messages.c and server.c, with any bytes in up to three pieces, and with
# each pointer NULL (codecs, of headers-entry.c); in a table whose functions return anything, or are NULL, for calls
# with any fields (tables, the same); in ids by any rules (ids-entry.c). An alarm, or a goal that isn't proved, is an
# error if known.txt doesn't have it with a reason; so is one of those that is gone.
#
# Assumed: the contracts of the proved library, as specifications.h, the three .acsl and headers-entry.c say them
# again by hand; what Frama-C says of the C library, and specifications.h of Linux; and that vhost_user.c maps regions
# as entry.c says. One thread runs, no kernel: a guest that writes meanwhile is any value at each atomic read, and any
# step of a chain. Frama-C refuses _Atomic(T) and _Alignas, so they are left out, and it does not look at pointers
# that are compared. WP's memory has types, by the hypotheses that it prints: it reads copies of the sources in which
# bytes are kept apart from records, and a table's function is called by its name (annotations.txt). Eva takes from
# the contract of take_chain in which memory its reply buffer lies, which WP does not prove. That a name's record is
# as long as the name is assumed of record_size.
#
# Not analysed is the rest of programs/. vhost_user.c uses numbers of messages that the proved library has read. Of a
# guest's requests the proved codec reads names and numbers: passthrough.c cuts data at pieces of a request or a reply
# buffer, passthrough_*.c passes names and offsets to Linux, the latter below 2^63, and looks numbers of nodes and
# handles up in tables, which test_hostile.py tests under sanitizers; Frama-C lacks headers for them. fuse_device.c
# and fuse_ring.c use lengths of the host's kernel, which is trusted.
#
# It requires Frama-C, Why3, Z3, CVC4 and Python 3. Status 0: all alarms are known; 1: they are not; 2: it could not
# start.
set -euo pipefail
. "$(dirname "$0")/../../tools/lib/usage.sh"
. "$(dirname "$0")/../../tools/lib/program.sh"
take_none "$@"
need frama-c "To install it: apt-get install frama-c-base"
need why3 "To install it: apt-get install why3"
need z3 "To install it: apt-get install z3"
need cvc4 "To install it: apt-get install cvc4"
need python3 "To install it: apt-get install python3"
# (other versions word the same alarms differently)
if [[ $(frama-c -version) != 25.* ]]; then
    echo "Missing: Frama-C 25, as Debian 12 has it; here it is $(frama-c -version)." >&2
    exit 2
fi

out=$here/out/analyse
rm -rf "$out"
mkdir -p "$out/annotated" "$out/found"
cd "$here/tests/analyse"
export WHY3CONFIG=$out/why3.conf
why3 config detect -C "$WHY3CONFIG" > "$out/said" 2>&1
python3 annotate.py annotations.txt "$out/annotated" "$here"/programs/transport/vhost_queue.c "$here"/include/nizwarf*.h \
    "$here"/lib/{internal.h,codec.c,convert.c,ops.c,server.c}

linux="-idirafter /usr/include -idirafter /usr/include/$(cc -print-multiarch)"
queue="-include specifications.h -I headers"
queue_here="-I $here/include -I $here/programs/transport"
flags=(-c11 -machdep gcc_x86_64 -kernel-warn-key annot:missing-spec=inactive
    -kernel-warn-key typing:implicit-conv-void-ptr=inactive)

# As many parts run at once as there are processors.
count=$(grep -cE '^(only=[^ ]* )?run ' run.sh)
: > "$out/done"
run() {
    while [ "$(jobs -rp | wc -l)" -ge "$(nproc)" ]; do
        wait -n || true
    done
    report "$@" &
}

# Runs a part, and reports its result: report NAME HOW WORDS..
report() {
    local name=$1 begun=$SECONDS said
    shift
    if ! said=$("$@"); then
        echo "$name: it came to no end" > "$out/found/$name"
        said="it came to no end: $out/$name"
    fi
    sed -i "s/^/$name: /" "$out/found/$name"
    echo "$name" >> "$out/done"
    echo "$(wc -l < "$out/done") of $count: $name: $said, $((SECONDS - begun)) s" >&2
}

# What WP doesn't prove of functions of a file: prove NAME FILE PROVERS FLAGS FUNCTION.. Of `only` some clauses, if that is
# set: CVC4 comes to no end with all at once.
prove() {
    local name=$1 file=$2 provers=$3 includes=$4
    shift 4
    local functions
    functions=$(printf '%s,' "$@")
    frama-c "${flags[@]}" "-cpp-extra-args=$includes $linux" "$file" -wp -wp-model Typed+Cast -wp-rte \
        -wp-fct "${functions%,}" ${only:+"-wp-prop=$only"} -wp-prover "$provers" -wp-timeout 240 -wp-par 2 \
        > "$out/$name" 2>&1 || return
    sed -n 's/^\[wp\] \[\(Failed\|Timeout\|Unknown\|Stepout\)\] Goal \(\S*\).*/WP: \2/p
        s/^\[wp\] \[CVC4[^]]*\] Goal \(\S*\) : \(Failed\|Timeout\|Unknown\).*/WP: \1/p' "$out/$name" > "$out/found/$name"
    awk '/^\[wp\] Proved goals:/ && $4 != $6 { print "WP: " $4 " of " $6 " goals are proved" }' "$out/$name" \
        >> "$out/found/$name"
    [ "$(grep -c '^\[rte:annot\] annotating function' "$out/$name")" = $# ] || return
    sed -n 's/^\[wp\] Proved goals: *\(.*\)/\1 goals of '"$#"' functions are proved/p' "$out/$name" | grep .
}

# What Eva can't show from an entry on: evaluate NAME FILE FLAGS WORDS..
evaluate() {
    local name=$1 file=$2 includes=$3
    shift 3
    frama-c "${flags[@]}" "-cpp-extra-args=$includes $linux" "$file" -eva "$@" \
        -eva-warn-undefined-pointer-comparison none \
        -then -report-no-proven -report-csv "$out/$name.csv" > "$out/$name" 2>&1 || return
    # (the contract of take_chain is what WP proves)
    awk -F '\t' '$6 ~ /^(Unknown|Invalid)/ && $5 != "precondition" && !($4 == "take_chain" && $5 == "postcondition") {
        print "Eva: " $4 ": " $5 ": " $7 }' "$out/$name.csv" | sort -u > "$out/found/$name"
    sed -n 's/^ *\([0-9]*\) functions analyzed.*/\1 functions are analysed/p' "$out/$name" | grep .
}

# (those that take longest come first)
headers="-I headers -I $out/annotated -I ."
run filled prove filled headers.c cvc4 "$headers" do_data do_record do_written \
    do_init do_others do_release
run chain prove chain chains.c z3,cvc4 "$queue -I $out/annotated $queue_here" take_chain
run pieces prove pieces headers.c cvc4 "$headers" add_up put_reply copy_front has_one_part begin_decode \
    is_wrong is_cut put_changed nizwarf_take_interrupt nizwarf_server_handle nizwarf_server_handle_take
run made prove made headers.c cvc4 "$headers" do_forgets do_quiet do_lock do_done \
    do_entry do_attr do_open
run copies prove copies chains.c z3,cvc4 "$queue -I $out/annotated $queue_here" mark copy_up_to add_request add_piece
only=-same,-names run items prove items headers.c cvc4 "$headers" do_directory add_item \
    nizwarf_add_direntry
only=same,names run added prove added headers.c cvc4 "$headers" add_item nizwarf_add_direntry
read_fields=$(sed -n '/-- fields of a call/,/-- the C files/s/^.*\b\(nizwarf_\w*\)(const nizwarf_call \*call);/\1/p' table.acsl)
# shellcheck disable=SC2086
run fields prove fields headers.c cvc4 "$headers" $read_fields nizwarf_answer_options nizwarf_answer_backing \
    nizwarf_answer_offset nizwarf_keep_interrupt nizwarf_served seconds_of nanoseconds_of \
    entry_of has_open_flags file_of error_of
run worker evaluate worker entry.c "$queue $queue_here" -eva-precision 2 -eva-plevel 5000 -eva-partition-history 2 \
    -eva-mlevel 8 -eva-auto-loop-unroll 16 -eva-use-spec take_chain,mark
run codecs evaluate codecs headers-entry.c "-I headers -I $here/include -I $here/lib" -main codecs -eva-precision 1 \
    -eva-auto-loop-unroll 10 -eva-slevel 20 -eva-split-return auto
run tables evaluate tables headers-entry.c "-I headers -I $here/include -I $here/lib" -main ops -eva-precision 0 \
    -eva-auto-loop-unroll 10 -eva-slevel 5 -eva-split-return auto
run ids evaluate ids ids-entry.c "-I $here/programs/share" -eva-precision 1
wait

cat "$out"/found/* | sort -u > "$out/all"
grep -v '^#\|^$\|^    ' known.txt | sort -u > "$out/known"
if ! diff "$out/known" "$out/all" > "$out/differs"; then
    sed -n 's/^> /Not known: /p; s/^< /Known, but not there: /p' "$out/differs" >&2
    exit 1
fi
echo "$(wc -l < "$out/all") of $(wc -l < "$out/known") alarms are known."
