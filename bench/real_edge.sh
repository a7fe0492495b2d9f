#!/usr/bin/env bash
# Runs the program over files, streams and limits of the system that fail, and looks whether it ends as it should: by a status and its line, never by
# a signal, and with nothing half true left behind.
#
# usage: bench/real_edge.sh PROGRAM
#
# PROGRAM is the built program (crates/subgraph/out/subgraph). Needs Linux, bash and coreutils. As root it mounts small file systems that fill up, and
# takes permissions away by running as nobody; without root those rows say so and are left out. Prints a row for each case; the status is 1 where one is not as
# it should be.
set -u
[ $# = 1 ] || { sed -n '5s/^# //p' "$0" >&2; exit 2; }
formats=$(cd "$(dirname "$0")/../examples/formats" && pwd)
work=$(mktemp -d)
chmod 755 "$work"
cp "$1" "$work/subgraph" || exit 2
cd "$work" || exit 2
mounted=()
trap 'for it in "${mounted[@]}"; do umount "$it"; done; cd /; rm -rf "$work"' EXIT
# Pipes that nobody reads are to send their signal, whatever this script was started by.
program=(env --default-signal=PIPE "$work/subgraph")
wrong=0 rows=0
deepest=$(printf 'a/%.0s' {1..2047})a   # 4,095 bytes
long_part=$(printf 'a%.0s' {1..300})    # more than a part of a path may have

# A cycle of $1 vertices, and a random graph of two sides of $1 vertices each.
cycle() { awk -v n="$1" 'BEGIN { print n; for (a = 0; a < n; a++) print 2, (a + n - 1) % n, (a + 1) % n }'; }
two_sides() {
    awk -v n="$1" 'BEGIN {
        srand(7); print 2 * n
        for (a = 0; a < n; a++) { line = ""; d = 0; for (b = n; b < 2 * n; b++) if (rand() < 0.5) { line = line " " b; d++ } print d line }
        for (b = n; b < 2 * n; b++) print 0
    }'
}
cycle 3 >triangle; cycle 4 >square; cycle 5 >pentagon; two_sides 20 >sides
printf 'yes\n0 -> 0\n1 -> 1\n2 -> 2\n3 -> 3\n' >map
"${program[@]}" encode triangle square >opb
"${program[@]}" encode pentagon sides >whole.opb
"${program[@]}" solve pentagon sides --prove whole.e --log whole.l >/dev/null
cp "$formats/triangle-in-four-cycle.proof" proof
mkdir folder

# row NAME STATUS LINE COMMAND..: runs the command, and holds its status and its line on the error stream against these.
row() {
    local name=$1 status=$2 line=$3 came said
    shift 3
    rm -f e l said
    "$@" >out 2>said
    came=$?
    said=$(head -c 200 said | tr '\n' '~')
    [ -z "$line" ] || line="$line~"
    tell "$name" "status $status ${line%\~}" "status $came ${said%\~}" "$([ "$came $said" = "$status $line" ] && echo as it should be)"
}

# tell NAME WANTED CAME GOOD: a row of the table, not as it should be where GOOD is empty.
tell() {
    rows=$((rows + 1))
    [ -n "$4" ] || wrong=$((wrong + 1))
    printf '| %s | %s | %s | %s |\n' "$1" "$2" "$3" "${4:-NOT AS IT SHOULD BE}"
}

# left NAME TEST..: a row for what a run has left in its files.
left() {
    local name=$1
    shift
    if "$@"; then tell "$name" "so it is" "so it is" "as it should be"; else tell "$name" "so it is" "it is not" ""; fi
}

is_front() { [ -e "$1" ] && cmp -s -n "$(stat -c %s "$1")" "$1" "$2"; }
is_shorter_front() { is_front "$1" "$2" && [ "$(stat -c %s "$1")" -lt "$(stat -c %s "$2")" ]; }
is_absent() { [ ! -e "$1" ]; }

# Ways to run a command
into() { local where=$1; shift; "$@" >"$where"; }
errors_into() { local where=$1; shift; "$@" 2>"$where"; }
closed_out() { "$@" >&-; }
closed_in_out() { "$@" <&- >&-; }
closed_streams() { "$@" <&- >&- 2>&-; }
full_out_closed_err() { "$@" >/dev/full 2>&-; }
full_out_closed_others() { "$@" <&- >/dev/full 2>&-; }
limited() { (ulimit "$1" "$2" && shift 2 && exec "$@"); }
# The reader is gone before the first byte is written.
reader_gone() {
    local status
    mkfifo pipe
    sleep 0.01 <pipe & exec 3>pipe
    wait $!
    "$@" >&3
    status=$?
    exec 3>&-
    rm pipe
    return $status
}
as_nobody() { setpriv --reuid=65534 --regid=65534 --clear-groups "$@"; }
# A full file system gives EFBIG under a limit too, once its signal is ignored.
files_up_to() { local blocks=$1; shift; (ulimit -f "$blocks" && exec env --ignore-signal=XFSZ "$@"); }

echo '| case | wanted | came | |'
echo '|---|---|---|---|'

for command in "solve triangle square" "solve square square" "encode triangle square" "verify square square map" "check opb proof" "demo 7"; do
    # shellcheck disable=SC2086  # the words of a command
    set -- "${program[@]}" $command
    row "$command, full device as output" 5 "output: fault" into /dev/full "$@"
    row "$command, nobody reads the output" 5 "output: fault" reader_gone "$@"
    row "$command, output closed" 5 "output: fault" closed_out "$@"
done
row "a refusal, error stream full" 4 "" errors_into /dev/full "${program[@]}" solve opb square
row "no command, error stream full" 3 "" errors_into /dev/full "${program[@]}"
row "all streams closed" 5 "" closed_streams "${program[@]}" solve triangle square

# A file that is opened while a stream is closed can get the stream's number, and what is written to the stream would go there.
proof=(solve pentagon sides --prove e --log l)
for how in closed_out closed_in_out closed_streams full_out_closed_err full_out_closed_others; do
    case $how in closed_out | closed_in_out) line="output: fault" ;; *) line="" ;; esac
    row "proof, ${how//_/ }" 5 "$line" $how "${program[@]}" "${proof[@]}"
    left "the encoding is whole" cmp -s e whole.e
    left "the log is whole" cmp -s l whole.l
done

for command in "solve folder square" "solve square folder" "encode folder square" "verify square square folder" "check folder proof" "check opb folder"; do
    # shellcheck disable=SC2086
    row "$command, a folder" 5 "files: fault" "${program[@]}" $command
done
row "a file that is not there" 5 "files: fault" "${program[@]}" solve nothing square
row "the empty name" 5 "files: fault" "${program[@]}" solve "" square
row "a file taken for a folder" 5 "files: fault" "${program[@]}" solve map/x square
ln -s ring ring
row "a link to itself" 5 "files: fault" "${program[@]}" solve ring square
row "a name of 4,095 bytes" 5 "files: fault" "${program[@]}" solve "$deepest" square
row "a name of 4,096 bytes" 3 "words: not a command" "${program[@]}" solve "${deepest}a" square
row "a part of 300 bytes" 5 "files: fault" "${program[@]}" solve "$long_part" square
row "a name that is no UTF-8" 3 "words: not a command" "${program[@]}" solve $'\xff' square
row "memory of a process, not to be read" 5 "files: fault" "${program[@]}" solve /proc/self/mem square
row "a device without end" 4 "pattern: too long" "${program[@]}" solve /dev/zero square
row "an empty device" 4 "pattern: word 1: EndsEarly" "${program[@]}" solve /dev/null square
head -c 20000000 /dev/zero | tr '\0' ' ' >blanks
row "no memory for a file" 6 "memory: refused" limited -v 20000 "$work/subgraph" solve blanks square
rm blanks

# What a text states takes no memory before it is there: each of these has no more than the row above.
narrow=(limited -v 20000 "$work/subgraph")
echo 0 >nothing.lad
echo 1 4294967295 0 >near
echo 8192 4294967295 1 >near.target
echo 1 0 4294967295 0 >near.labelled
echo '* #variable= 4294967295 #constraint= 0' >variables
echo '* #variable= 1 #constraint= 9223372036854775807' >constraints
printf 'embedding proof 1\nm 0\nq\n' >claims
printf 'embedding proof 2\nm 9223372036854775807\nq\n' >claims.more
row "a pattern of 2^32 - 1 neighbours, of which one is there" 4 "pattern: word 4: EndsEarly" "${narrow[@]}" solve near square
row "a target of 8,192 vertices and as many neighbours" 4 "target: word 4: EndsEarly" "${narrow[@]}" solve nothing.lad near.target
row "as many neighbours with labels" 4 "pattern: word 5: EndsEarly" "${narrow[@]}" verify --format labelledlad near.labelled square map
row "an encoding of 2^32 - 1 variables" 0 "" "${narrow[@]}" check variables claims
row "one of 2^63 - 1 constraints" 4 "encoding: line 2: Count" "${narrow[@]}" check constraints claims
row "a log over 2^63 - 1 constraints" 7 "log: line 2: Form" "${narrow[@]}" check variables claims.more

row "encoding to a folder" 5 "files: fault" "${program[@]}" solve pentagon sides --prove folder --log l
left "the log is not begun" is_absent l
row "encoding to a full device" 5 "files: fault" "${program[@]}" solve pentagon sides --prove /dev/full --log l
left "the log is not begun" is_absent l
row "log to a folder" 5 "files: fault" "${program[@]}" solve pentagon sides --prove e --log folder
left "the encoding is whole" cmp -s e whole.e
row "log to a full device" 5 "files: fault" "${program[@]}" solve pentagon sides --prove e --log /dev/full
left "the encoding is whole" cmp -s e whole.e
row "log without hints to a full device" 5 "files: fault" "${program[@]}" solve pentagon sides --prove e --log /dev/full --profile 2
left "the encoding is whole" cmp -s e whole.e
row "log into a folder that is not there" 5 "files: fault" "${program[@]}" solve pentagon sides --prove e --log nowhere/l
left "the encoding is whole" cmp -s e whole.e
row "encoding longer than files may be" 5 "files: fault" files_up_to 4 "$work/subgraph" "${proof[@]}"
left "it holds a front" is_shorter_front e whole.e
left "the log is not begun" is_absent l

if [ "$(id -u)" != 0 ]; then
    echo '| full file systems, permissions | | | left out: not root |'
else
    cp square hidden; chmod 000 hidden
    mkdir shut open; chmod 555 shut; chmod 777 open
    row "a file not to be read" 5 "files: fault" as_nobody "${program[@]}" solve hidden square
    row "encoding into a folder not to be written" 5 "files: fault" as_nobody "${program[@]}" solve pentagon sides --prove shut/e --log open/l
    left "the log is not begun" is_absent open/l
    row "log over a file not to be written" 5 "files: fault" as_nobody "${program[@]}" solve pentagon sides --prove open/e --log map
    left "the encoding is whole" cmp -s open/e whole.e
    row "no thread may be made" 1 "" as_nobody bash -c 'ulimit -u 1; exec "$@"' - "$work/subgraph" solve triangle square --threads 8
    mkdir small
    for pages in 1 2 3; do
        if ! mount -t tmpfs -o "size=$((pages * 4096))" tmpfs small 2>/dev/null; then
            echo '| full file systems | | | left out: no leave to mount |'
            break
        fi
        mounted=(small)
        row "output on a file system of $pages pages" 5 "output: fault" into small/out "${program[@]}" encode pentagon sides
        left "it holds a front" is_shorter_front small/out whole.opb
        rm -f small/*
        row "encoding on a file system of $pages pages" 5 "files: fault" "${program[@]}" solve pentagon sides --prove small/e --log l
        left "it holds a front" is_shorter_front small/e whole.e
        left "the log is not begun" is_absent l
        rm -f small/*
        row "log on a file system of $pages pages" 5 "files: fault" "${program[@]}" solve pentagon sides --prove e --log small/l
        left "the encoding is whole" cmp -s e whole.e
        left "the log holds a front" is_shorter_front small/l whole.l
        cp small/l cut
        row "the log that was cut" 7 "log: line $(($(wc -l <cut) + 1)): EndsEarly" "${program[@]}" check whole.e cut
        umount small
        mounted=()
    done
fi
echo
echo "$rows rows, $wrong not as they should be"
[ "$wrong" = 0 ]
