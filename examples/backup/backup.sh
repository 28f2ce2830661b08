#!/bin/sh
# Copies a hub's database file, and the log beside it, while the program that has them is halted:
#
#     sh backup.sh PID FILE FOLDER [KEEP]
#
# Run it as the user that owns FILE. The copy is a new folder in FOLDER, named for the moment; its name is printed. With KEEP, a number,
# that many copies are kept and older ones deleted. With any other status than 0 there is no new copy and no older one was deleted, so
# try again. Give each hub a FOLDER of its own.
set -eu
# names sort by their bytes, so by their moment
export LC_ALL=C
# the copy has every key: only this user can read it
umask 077

fail() {
    echo "backup.sh: $*" >&2
    exit 1
}

if test $# -lt 3 || test $# -gt 4; then
    echo "usage: sh backup.sh PID FILE FOLDER [KEEP]" >&2
    exit 2
fi
pid=$1
file=$2
folder=$3
keep=${4-}
halt=
made=$folder/$(date -u +%Y%m%dT%H%M%S.%NZ)

# Removes what is unfinished, and only then lets the process go on: on a full disk it needs the room.
clean() {
    rm -rf "$made.part" "$made.check" "$made"
    if test -n "$halt"; then kill -CONT "$pid" || true; fi
}

has_file() {
    test -n "$(find -L "/proc/$pid/fd" -maxdepth 1 -samefile "$file" 2>/dev/null)"
}

# Prints when the process began and how often it has run, if it is halted. Neither changes until it goes on.
mark_of_halted() {
    grep -q '^State:[[:space:]]*T' "/proc/$pid/status" 2>/dev/null || return 1
    sed 's/.*) //' "/proc/$pid/stat" | cut -d ' ' -f 20
    grep ctxt_switches "/proc/$pid/status"
}

# Whether the rows of a copy are a sound start. The program reads them all, and may write beside them, so it gets a copy of the copy.
is_sound() {
    cp -R "$1" "$made.check" || return 1
    answer=$(edihub verify --db "$made.check/${file##*/}") || {
        test -z "$answer" || echo "backup.sh: $answer" >&2
        return 1
    }
    rm -r "$made.check"
    case $answer in ok*) ;; *) return 1 ;; esac
}

# Deletes the oldest copies until KEEP are left, but never the new one, which is first if the clock was set back.
delete_oldest() {
    set -- "$folder"/20*Z
    while test $# -gt "$keep" && test "$1" != "$made"; do
        rm -r "$1" || return 1
        shift
    done
}

case $pid in '' | 0* | 1 | *[!0-9]*) fail "$pid is not the number of a process" ;; esac
case $keep in 0* | *[!0-9]*) fail "$keep is not a number of copies" ;; esac
test -d "$folder" || fail "$folder is not a folder"
command -v edihub >/dev/null || fail "the program edihub, which verifies the copy, is not in PATH"
set -- "$file"
if test -e "$file-wal" || test -L "$file-wal"; then set -- "$file" "$file-wal"; fi
for one; do
    if test -L "$one" || ! test -f "$one"; then fail "$one is not a file"; fi
    test "$(stat -c %u "$one")" = "$(id -u)" || fail "$one is another user's: run this as that user"
done
home=$(dirname "$file")
test "$(stat -c %d:%i "$folder")" != "$(stat -c %d:%i "$home")" || fail "$folder has the database file: copies need a folder of their own"

# one backup at a time, of one file and into one folder: another would let the process go on while this one copies
exec 8<"$folder" 9<"$home"
if ! flock -w 60 8 || ! flock -w 60 9; then fail "another backup is running"; fi
trap clean EXIT
trap 'exit 1' HUP INT TERM
# what a run left that was killed
rm -rf "$folder"/20*Z.part "$folder"/20*Z.check

# room for the copy and for the copy that is_sound opens, and a tenth more
needed=$(stat -c %s "$@" | awk '{ bytes += $1 } END { print int(bytes / 1024 * 2.2) + 1024 }')
free=$(df -Pk "$folder" | awk 'NR == 2 { print $4 }')
test "$free" -ge "$needed" || fail "$folder has $free KiB free, but needs $needed"
if test "$(stat -c %d "$folder")" = "$(stat -c %d "$file")"; then
    echo "backup.sh: warning: $folder is on the same file system as $file, and is lost with it" >&2
fi

has_file || fail "process $pid does not have $file open, or is another user's"
mkdir "$made.part"
halt=yes
kill -STOP "$pid"
# A write that has begun ends before the process halts. Two marks that are the same show that it has.
tries=0
mark=
until before=$mark && mark=$(mark_of_halted) && test "$mark" = "$before"; do
    tries=$((tries + 1))
    if ! has_file || test $tries -gt 500; then fail "process $pid has ended, or does not halt"; fi
    sleep 0.02
done
# the log may be new since
set -- "$file"
if test -e "$file-wal"; then set -- "$file" "$file-wal"; fi
# nobody is answered meanwhile, so it may not take longer than clients wait
timeout 40 cp -P "$@" "$made.part/" || fail "no copy of $file"
# if it ran in between, the copy can be of two moments
if ! has_file || test "$(mark_of_halted)" != "$mark"; then fail "process $pid did not stay halted"; fi
kill -CONT "$pid"
halt=

sync "$made.part"/* "$made.part"
is_sound "$made.part" || fail "the copy is not sound: look at $file, and keep the older copies"
mv "$made.part" "$made"
sync "$folder"
trap - EXIT
echo "$made"
if test -n "$keep"; then
    delete_oldest || echo "backup.sh: warning: an older copy could not be deleted" >&2
fi
