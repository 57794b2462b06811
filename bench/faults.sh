#!/bin/sh
# The built program where the system fails: prints the status and the line of each case. Measured, not promised.
#
#     bench/faults.sh PROGRAM
#
# A full disk (a small tmpfs, for root alone), a closed pipe, a directory in place of a file, a file without permission,
# and a file that shrinks while it is read. Status 1 where a case ends in another way than said.
set -u
program=$(realpath "$1")
folder=$(mktemp -d)
trap 'umount "$folder/small" 2>/dev/null; rm -rf "$folder"' EXIT
cd "$folder" || exit 1
printf '<urn:a> <urn:p> <urn:b> .\n<urn:b> <urn:p> <urn:c> .\n' > d
printf 'SELECT * { ?x <urn:p> ?y . ?y <urn:p> ?z }' > q
bad=0

# told CASE STATUS LINE: compares the status in `status` and the file `line` with those that are wanted
told() {
    case_name=$1 wanted=$2 text=$3
    printf '%-28s status %s, line: %s\n' "$case_name" "$status" "$(cat line)"
    if [ "$status" != "$wanted" ] || [ "$(cat line)" != "$text" ]; then
        printf '    wanted status %s, line: %s\n' "$wanted" "$text"
        bad=1
    fi
}

# a disk of 16 pages, which the index of a thousand triples doesn't fit
mkdir small
if mount -t tmpfs -o size=16k tmpfs small 2>/dev/null; then
    seq 1000 | sed 's|.*|<urn:a&> <urn:p> <urn:b> .|' > many
    "$program" load many small/i > out 2> line; status=$?
    told 'full disk' 6 'write fault'
else
    echo 'full disk: not tried, no tmpfs may be mounted'
fi

# standard output that nobody reads, and one that is full
mkfifo pipe
(exec 3< pipe; exec 3<&-) &
exec 4> pipe; wait $!
"$program" ask d q tsv >&4 2> line; status=$?
exec 4>&-
if [ "$status" -gt 128 ]; then
    printf '%-28s ended by the signal %s\n' 'closed pipe' $((status - 128)); bad=1
else
    told 'closed pipe' 6 'write fault'
fi
"$program" ask d q tsv > /dev/full 2> line; status=$?
told 'full standard output' 6 'write fault'

mkdir folder
"$program" ask folder q tsv > out 2> line; status=$?
told 'a directory as the data' 5 'read fault: folder'
"$program" ask d folder tsv > out 2> line; status=$?
told 'a directory as the query' 5 'read fault: folder'
"$program" load d folder > out 2> line; status=$?
told 'a directory as the index' 6 'write fault'

cp d locked; chmod 000 locked
if [ "$(id -u)" = 0 ]; then
    # root may read all files: another user tries
    chmod 755 .; cp "$program" program
    setpriv --reuid=65534 --regid=65534 --clear-groups ./program ask locked q tsv > out 2> line; status=$?
else
    "$program" ask locked q tsv > out 2> line; status=$?
fi
told 'a file without permission' 5 'read fault: locked'

# the file is cut while it is read: what has come stands, and the status is one of those that the data may have
seq 2000000 | sed 's|.*|<urn:a&> <urn:p> <urn:b> .|' > large
"$program" ask large q tsv > out 2> line & running=$!
sleep 0.1; : > large
wait $running; status=$?
printf '%-28s status %s, line: %s\n' 'a file that shrinks' "$status" "$(cat line)"
case $status in 0 | 2 | 5 | 7) ;; *) bad=1 ;; esac
exit $bad
