#!/bin/sh
# What a person does with the mounted file system in memory, with what must come of it.
#
# Usage: tests/programs/session.sh [--shared] [--acl] FOLDER
# FOLDER is a mount that nothing was done with. test_mount_files.py runs it, and tools/guest.sh in the guest, by
# busybox. With --shared it is a mount of a folder of the host, as tools/share.sh makes, where names are not
# counted. What must come is written by hand, from what POSIX says, and of what that leaves open from what Linux
# does on a tmpfs; but access control lists are refused without --acl. If git is there, a repository is cloned into it
# too.
# What the machine has no command for is skipped, and so is what another user does if root alone may use the
# mount. Status 0: each step came to what it must.
# shellcheck disable=SC2016,SC2034
case ${1:-} in
    -h | --help)
        sed -n '2,${/^#/!q;s/^# \{0,1\}//p}' "$0"
        exit 0
        ;;
esac
shared=
if [ "${1:-}" = --shared ]; then
    shared=yes
    shift
fi
lists=
if [ "${1:-}" = --acl ]; then
    lists=yes
    shift
fi
if [ $# != 1 ] || [ ! -d "$1" ]; then
    echo "Usage: tests/programs/session.sh [--shared] [--acl] FOLDER, which is there" >&2
    exit 2
fi
export LC_ALL=C
steps=0
wrong=0

# Tells of a step that it was right, or what came instead.
judge() {
    steps=$((steps + 1))
    if [ "$1" = "$2" ]; then
        printf '  ok     %s\n' "$3"
    else
        wrong=$((wrong + 1))
        printf '  WRONG  %s\n         wanted: %s\n         came:   %s\n' "$3" "$1" "$2"
    fi
}

# works OUTPUT COMMAND: the command succeeds, and prints this.
works() {
    if said=$(eval "$2" 2>&1); then
        judge "$1" "$said" "$2"
    else
        judge "$1" "a failure: $said" "$2"
    fi
}

# fails ERROR COMMAND: the command fails, and says this error.
fails() {
    if said=$(eval "$2" 2>&1); then
        judge "$1" "no failure: $said" "$2"
    else
        case $said in *"$1"*) said=$1 ;; esac
        judge "$1" "$said" "$2"
    fi
}

# skipped WHY: tells what is not tried.
skipped() {
    printf '  --     skipped: %s\n' "$1"
}

# Bytes and nodes in use, as `df` shows them.
used() {
    stat -f -c '%b %f %S %c %d' . | {
        read -r blocks free size nodes left
        echo $(((blocks - free) * size)) $((nodes - left))
    }
}

# Who may not write what root has: sets `other_user` to the words that run a shell's line as such a one.
find_other_user() {
    if setpriv --reuid 65534 --regid 65534 --clear-groups true 2> /dev/null; then
        other_user='setpriv --reuid 65534 --regid 65534 --clear-groups sh -c'
    elif chroot --userspec=65534:65534 / true 2> /dev/null; then
        other_user="chroot --userspec=65534:65534 / sh -c"
    elif su nobody -s /bin/sh -c true 2> /dev/null; then
        other_user='su nobody -s /bin/sh -c'
    else
        return 1
    fi
}

cd "$1" || exit 2
here=$(pwd -P)
other=$(mktemp -d)
trap 'rm -rf "$other"' EXIT

# An empty directory, and files in it: written, written to their end, written over.
works '' 'ls'
works 'drwxr-xr-x 2' 'stat -c "%A %h" .'
works 'today' 'for t in $(stat -c "%X %Y %Z" .); do [ $(($(date +%s) - t)) -lt 86400 ] || exit 1; done; echo today'
works '' 'umask 022; echo hello > a'
works '-rw-r--r-- 6 1' 'stat -c "%A %s %h" a'
works 'hello' 'cat a'
works '' 'echo more >> a'
works 'hello
more' 'cat a'
works '' 'printf J | dd of=a conv=notrunc 2> /dev/null'
works 'Jello
more' 'cat a'
works '' ': > a'
works '0' 'stat -c %s a'

# Sizes, permissions, owners and times.
works '' 'echo hello > a && truncate -s 2 a && truncate -s 4 a'
works '68 65 00 00' 'od -An -tx1 a | sed "s/^ *//;s/ *$//"'
works '-rw------- 7 8' 'chmod 600 a && chown 7:8 a && stat -c "%A %u %g" a'
works '1577836800 946684800' 'touch -m -d "2020-01-01 00:00:00" a && touch -a -d "2000-01-01 00:00:00" a && TZ=UTC stat -c "%Y %X" a'
works 'now' 'touch a; d=$(( $(date +%s) - $(stat -c %Y a) )); [ "$d" -ge -1 ] && [ "$d" -le 5 ] && echo now'

# Bytes become zeros, up to beyond the end, and have a place on the disk; a tmpfs that is shared has no call for it.
if [ -n "$shared" ] || ! fallocate --help 2>&1 | grep -q zero-range; then
    skipped 'zeros in place of bytes, of a shared folder or without the fallocate of util-linux'
else
    works '68 00 00 00 00 00 00 8' 'echo hello > z && fallocate -z -o 1 -l 6 z && echo $(od -An -tx1 z) $(stat -c %b z)'
    works '7' 'fallocate -z -n -o 4 -l 60 z && stat -c %s z && rm z'
fi

# A reading moves the time of access of what was changed since, and a second one does not. What lies apart in a file
# is asked for by itself.
if [ -n "$shared" ]; then
    skipped 'a time of access, which not each host moves'
else
    works 'moved once' 'truncate -s 4000000 r && touch -a -d "2000-01-01 00:00:00" r && head -c 1 r > "$other/r" &&
        t=$(stat -c %X r) && [ $(($(date +%s) - t)) -lt 3600 ] && sleep 1 && tail -c 1 r > "$other/r" &&
        [ "$(stat -c %X r)" = "$t" ] && rm r && echo moved once'
fi

# Modes are kept by what copies them: what may not be set is refused, and then the bits are.
works '644 644' 'cd "$other" && echo p > p && chmod 644 p && cd "$here" && cp -p "$other/p" p && cp -a "$other/p" q &&
    echo $(stat -c %a p q) && rm p q'
acl=0x0200000001000600ffffffff04000400ffffffff20000400ffffffff
set_list=
if command -v setfattr > /dev/null; then
    set_list="setfattr -n system.posix_acl_access -v $acl a"
elif command -v python3 > /dev/null; then
    set_list="python3 -c 'import os
os.setxattr(\"a\", \"system.posix_acl_access\", int(\"$acl\", 16).to_bytes(28, \"big\"))'"
fi
if [ -z "$set_list" ]; then
    skipped 'an access control list, without setfattr and python3'
elif [ -n "$lists" ]; then
    works '-rw-r--r--' "$set_list && stat -c %A a"
else
    fails 'Operation not supported' "$set_list"
fi

# Who truncates a file of another user takes the set-user-ID bit from it.
if ! grep -qE " $here (virtiofs|fuse.* [^ ]*allow_other)" /proc/mounts; then
    skipped 'another user, who may not use this mount'
elif ! find_other_user; then
    skipped 'another user, without setpriv, chroot --userspec and su'
else
    works '-rwxrwxrwx 0' 'echo u > u && chmod 4777 u && $other_user ": > $here/u" && stat -c "%A %s" u && rm u'
    fails 'Permission denied' 'echo u > u && chmod 644 u && $other_user "echo v > $here/u"'
    works '' 'rm u'
    # What is trusted is listed to root alone.
    if [ -n "$shared" ] || ! command -v python3 > /dev/null; then
        skipped 'names of what is trusted, of a shared folder or without python3'
    else
        works "['trusted.t', 'user.u']" 'echo u > u && python3 -c "import os
for name in (\"trusted.t\", \"user.u\"):
    os.setxattr(\"u\", name, b\"\")
print(os.listxattr(\"u\"))"'
        works "['user.u']" '$other_user "python3 -c \"import os; print(os.listxattr(\\\"$here/u\\\"))\"" && rm u'
    fi
fi

# Directories.
works '' 'mkdir d d/e && echo in > d/f'
works '3' 'stat -c %h d'
works 'in' 'cat d/e/../f'
fails 'Directory not empty' 'rmdir d'
fails 'File exists' 'mkdir d'
fails 'Not a directory' 'ls a/x'
fails 'No such file or directory' 'cat d/x'
fails 'File name too long' 'cat $(printf "%0256d" 0)'
works '0' 'cat $(printf "%0255d" 0) 2> /dev/null; echo $(( $? - 1 ))'

# What is made in a set-group-ID directory is of its group, and a directory is one itself.
works '' 'umask 022; mkdir g && chown 7:8 g && chmod 2755 g'
works '0 8 -rw-r--r--
0 8 drwxr-sr-x
0 8 lrwxrwxrwx' 'umask 022; echo f > g/f; mkdir g/d && ln -s f g/l && stat -c "%u %g %A" g/f g/d g/l'
works '0 8 drwxr-sr-x' 'umask 022; mkdir g/d/d && stat -c "%u %g %A" g/d/d && rm -r g'

# Names: moved, replaced, a second one, a symbolic link.
works '' 'mv d/f g && mv g d/e/h'
works 'in' 'cat d/e/h'
works '' 'echo one > x && echo two > y && mv -f x y'
works 'one' 'cat y'
fails '' 'mv d d/e/d'
works '2' 'ln y z && stat -c %h y'
works 'one' 'rm y && cat z'
works 'd/e/h' 'ln -s d/e/h s && readlink s'
works 'in' 'cat s'
works '' 'rm s'
works 'in' 'cat d/e/h'

# A file that is open and has no name is there until it is closed.
works 'late' 'exec 3<> z && rm z && echo late >&3 && exec 3>&- 3< /dev/null && echo late'
fails 'No such file or directory' 'cat z'

# Copied, in pieces of many sizes too, and compared.
works '' 'dd if=/dev/urandom of="$other/full" bs=4096 count=500 2> /dev/null'
works '' 'cp "$other/full" full && cmp "$other/full" full'
works '2048000' 'stat -c %s full'
works '' 'cp full "$other/back" && cmp "$other/full" "$other/back" &&
    for n in 4095 65535 70001 131072 524288 1000003; do
        dd if="$other/full" of=full bs=$n 2> /dev/null && cmp "$other/full" full &&
        dd if=full of="$other/back" bs=$n 2> /dev/null && cmp "$other/full" "$other/back" &&
        dd if="$other/full" bs=$n 2> /dev/null >> full && tail -c 2048000 full | cmp - "$other/full" && rm full || exit 1
    done'
works '' 'sync'
works '' 'mkdir t && cp -R d t/ && tar cf t.tar t && rm -r t && tar xf t.tar && diff -r d t/d'
works '' 'rm -r t t.tar'

# A directory in several pieces, whose names go while it is read.
works '' 'mkdir many && for i in $(seq 500); do echo $i > many/n$i || exit 1; done'
works '500' 'ls many | wc -l'
works '150' 'cat many/n150'
works './d/e/h' 'find . -name h'
works '' 'rm -r many'

# A directory in which names are made while it is read: the reading ends. The timeout of busybox stays in its
# folder for a second.
works '' 'mkdir loop && for i in $(seq 300); do echo $i > loop/n$i || exit 1; done'
works '300' 'for i in loop/*; do mv $i loop/x${i#loop/} || exit 1; done; ls loop | wc -l'
works '300' '(cd / && timeout 600 find "$here/loop" -type f -exec mv {} {}x \;) && ls loop | wc -l'
if command -v python3 > /dev/null; then
    works '300' 'timeout 60 python3 -c "import os
for e in os.scandir(\"loop\"):
    os.rename(e.path, \"loop/y\" + e.name)" && ls loop | wc -l'
else
    skipped 'a directory that is read name by name, without python3'
fi
works '' 'rm -r loop'

# Each further name of a file counts as an inode.
if [ -n "$shared" ]; then
    skipped 'a hundred thousand names, which a host does not count'
elif command -v python3 > /dev/null; then
    before=$(used)
    works '100001' 'mkdir links && python3 -c "import os
for i in range(100000):
    i % 50000 or open(\"links/%d\" % i, \"w\").close()
    i % 50000 and os.link(\"links/%d\" % (i - i % 50000), \"links/%d\" % i)" &&
    after=$(used) && echo $((${after#* } - ${before#* }))'
    works '100000 50000' 'echo $(ls links | wc -l) $(stat -c %h links/0)'
    works 'as before' 'rm -r links && sleep 1 && [ "$(used)" = "$before" ] && echo as before'
else
    skipped 'a hundred thousand names, without python3'
fi

# RENAME_WHITEOUT leaves a device in place of the old name, as overlayfs wants it.
if [ -n "$shared" ]; then
    skipped 'a whiteout, which not each host has'
elif command -v python3 > /dev/null; then
    works '0' 'echo w > w && python3 -c "import ctypes
print(ctypes.CDLL(None).renameat2(-100, b\"w\", -100, b\"v\", 4))"'
    works 'w
character special file 0 0 0 1' 'cat v && stat -c "%F %t %T %a %h" w && rm v w'
else
    skipped 'a whiteout, without python3'
fi

# A repository, where there is git.
if command -v git > /dev/null; then
    works '' 'git init -q "$other/from" && cd "$other/from" && seq 5000 > file && git add file &&
        git -c user.name=n -c user.email=e commit -qm one'
    works '' 'git clone -q "$other/from" clone && cd clone && git fsck 2> /dev/null'
    works '' 'cd clone && git status --short && cmp file "$other/from/file"'
    works '' 'rm -rf clone'
fi

# Nothing is left but what has a name.
works 'a
d' 'ls'
works '' 'rm -r a d && ls'

cd / || exit 2
echo "$steps steps, $wrong wrong"
[ "$wrong" = 0 ]
