#!/bin/sh
# What `replay` costs: a run without lines, a line and a request on the standard device and on the small one, beside
# other queues, beside descriptors and beside processes that wait, a save beside what has not changed, and a tick with many
# connections, in processor time; the peak memory; and what a commit and a save write. The status is 1 if those that wait
# add more than they may.
#
#     sh bench/replay.sh PROGRAM [GROUPS]
#
# A script is short, and is run many times, so that no save of the state falls among its commits; but not those of
# processes that wait, in which ten do, and of saves.
# Runs of a script and of its first lines alone take turns, in so many groups, and a row tells the difference. On the
# standard device a run's lines take a hundredth to a tenth of what it takes without them, so those rows are rough.
# Every run is compared with the output that the protocol asks for: bench/scripts.awk writes both.
#
# It needs a POSIX shell and awk. The peak is what Linux says in /proc, or else not known. Processor time is what the
# shell's `times` says of its children, mostly in hundredths of a second.

set -eu
# numbers with a point, whatever the locale
LC_ALL=C
export LC_ALL

program=${1:?usage: sh bench/replay.sh PROGRAM [GROUPS]}
groups=${2:-20}
folder=${TMPDIR:-/tmp}/ipcd-bench.$$
scripts=$(dirname "$0")/scripts.awk

# Runs in a group on each device: one without lines takes some 110 milliseconds on the standard device, and less than one
# on the small one. Groups are small, so that both scripts meet the same load of the machine.
many_standard=12
many_small=150

fail() {
	echo "bench: $1" >&2
	exit 1
}

# Writes a script, and the output that it is to have. The words after its name are variables of the generator.
generate() {
	script=$folder/$1.script
	wanted=$folder/$1.wanted
	shift
	for word in "$@"; do
		set -- "$@" -v "$word"
		shift
	done
	awk "$@" -v script="$script" -v wanted="$wanted" -f "$scripts"
}

# The device of the next runs: the program's flag, and how many runs are in a group.
device() {
	case $1 in
	standard)
		flag=
		many=$many_standard
		;;
	small)
		flag=--small
		many=$many_small
		;;
	esac
}

# The processor time of the children, in microseconds, between two outputs of `times`.
spent() {
	awk '
		function seconds(word,    part) {
			split(word, part, "m")
			return 60 * part[1] + part[2]
		}
		FNR == 2 { total[FILENAME] = seconds($1) + seconds($2) }
		END { printf "%d\n", 1000000 * (total[ARGV[2]] - total[ARGV[1]]) }' "$1" "$2"
}

# Runs the script of this name `many` times. Sets `taken` to the processor time of all, in microseconds. The outputs are
# compared when the time is taken.
process() {
	times > "$folder/before"
	number=0
	while [ "$number" -lt "$many" ]; do
		number=$((number + 1))
		"$program" replay $flag < "$folder/$1.script" > "$folder/output.$number" ||
			fail "the program ended with status $?"
	done
	times > "$folder/after"
	while [ "$number" -gt 0 ]; do
		cmp -s "$folder/output.$number" "$folder/$1.wanted" ||
			fail "the lines printed are not those that the script asks for"
		rm "$folder/output.$number"
		number=$((number - 1))
	done
	taken=$(spent "$folder/before" "$folder/after")
}

# Adds a time in microseconds, shared among so many in each of the runs, to those of this name.
share() {
	awk -v taken="$1" -v shares="$2" -v many="$many" 'BEGIN { print taken / shares / many }' >> "$folder/${3:-each}"
}

# Of the numbers of all groups the middle half: its mean, its least and its greatest.
middle() {
	sort -n "$folder/$1" | awk '
		{ each[NR] = $1 }
		END {
			first = int(NR / 4) + 1
			last = NR + 1 - first
			for (k = first; k <= last; k++)
				sum += each[k]
			print sum / (last - first + 1), each[first], each[last]
		}'
}

# Prints a row: what, and of the numbers of all groups the middle half, its mean and its range; then one more column, if
# there is one. Sets `mean`.
print_row() {
	set -- "$1" "${2:+ $2 |}" $(middle "${3:-each}")
	mean=$3
	awk -v what="$1" -v more="$2" -v mean="$3" -v least="$4" -v greatest="$5" '
		function short(number) {
			return sprintf(number < 10 ? "%.2f" : "%.0f", number)
		}
		BEGIN { print "| " what " | " short(mean) " | " short(least) " to " short(greatest) " |" more }'
}

# Prints the row of what the script `whole` has more than `first`, shared among so many.
difference() {
	: > "$folder/each"
	group=0
	while [ "$group" -lt "$groups" ]; do
		group=$((group + 1))
		process first
		less=$taken
		process whole
		share $((taken - less)) "$2"
	done
	print_row "$1"
}

# The peak in kB of a run that waits for its first line, and so has made its device; nothing where it is not known.
peak() {
	mkfifo "$folder/lines"
	"$program" replay $flag < "$folder/lines" > "$folder/output" &
	exec 3> "$folder/lines"
	sleep 1
	awk '$1 == "VmHWM:" { print $2 }' "/proc/$!/status" 2> /dev/null || :
	exec 3>&-
	wait $!
	rm "$folder/lines"
}

# A run without lines on a device.
nothing() {
	device "$1"
	: > "$folder/first.script"
	: > "$folder/first.wanted"
	: > "$folder/each"
	group=0
	while [ "$group" -lt "$groups" ]; do
		group=$((group + 1))
		process first
		share "$taken" 1
	done
	kilobytes=$(peak)
	print_row "$1" "${kilobytes:-not known}"
}

# Requests on a device: so many in a line, and so many lines. Prints the time of a line.
lines() {
	device "$1"
	generate first kind=calls count=0 size="$2" together="$3"
	generate whole kind=calls count=$(($3 * $4)) size="$2" together="$3"
	difference "$1 | $2 | $3 | $4" "$4"
}

# The same on the standard device, with so many other queues: sends and receives, or gets by key. The fourth word is 1 if
# the other keys are chosen to make a look-up slow.
beside() {
	device standard
	generate first kind="$1" count=0 size=0 together=16 others="$2" alike="${4:-0}"
	generate whole kind="$1" count=$((16 * 120)) size=0 together=16 others="$2" alike="${4:-0}"
	difference "$3 | $2" 120
}

# Lines of 16 lists on the standard device, on a set of so many semaphores, beside so many other sets, with so many other
# processes that have an adjustment at each semaphore.
lists() {
	device standard
	many=4
	generate first kind=lists count=0 together=16 size="$1" others="$2" adjusting="$3"
	generate whole kind=lists count=$((16 * 120)) together=16 size="$1" others="$2" adjusting="$3"
	difference "$1 | $2 | $3" 120
}

# Lines of 16 requests on a POSIX queue on the standard device: of this kind, which the row names so, beside so many
# other queues, with so many other processes that have 32 descriptors each.
mqs() {
	device standard
	many=4
	generate first kind="$1" count=0 size=0 together=16 others="$3" holding="$4"
	generate whole kind="$1" count=$((16 * 120)) size=0 together=16 others="$3" holding="$4"
	difference "$2 | $3 | $((32 * $4))" 120
}

# Lines of 16 requests on the standard device beside 31 other queues: with nobody who waits, with 63 processes that wait on
# these, and with 63 that wait on the queue for other types. They take turns. Sets `ratio` to what the second is of the
# first.
waits() {
	device standard
	many=4
	lines=1200
	ways="none others same"
	for way in $ways; do
		set -- kind=calls size=0 together=16 others=31 waiting=63 same=0
		[ "$way" != none ] || set -- "$@" waiting=0
		[ "$way" != same ] || set -- "$@" same=1
		generate "first_$way" count=0 "$@"
		generate "whole_$way" count=$((16 * lines)) "$@"
	done
	group=0
	while [ "$group" -lt "$groups" ]; do
		group=$((group + 1))
		for way in $ways; do
			process "first_$way"
			less=$taken
			process "whole_$way"
			share $((taken - less)) "$lines" "each_$way"
		done
	done
	print_row "none" "" each_none
	none=$mean
	print_row "63, on other queues" "" each_others
	ratio=$(awk -v others="$mean" -v none="$none" 'BEGIN { printf "%.2f", others / none }')
	print_row "63, on the queue, for other types" "" each_same
}

# Lines of a request of two bytes, a send and a receive in turn, each with a save, on the standard device: beside so many
# other queues of eight messages of 2000 bytes and, with a second word of 2, a segment of 1 MiB.
saves() {
	device standard
	many=4
	generate first kind=calls count=0 size=2 together=1 others="$1" saving="$2"
	generate whole kind=calls count=120 size=2 together=1 others="$1" saving="$2"
	difference "$1 | $(($2 - 1))" 120
}

# Ticks on the small device with so many connections open, and so many runs in a group.
ticks() {
	device small
	many=$2
	generate first kind=ticks count=0 opened="$1"
	generate whole kind=ticks count=250 opened="$1"
	difference "$1" 250
}

# What the commit of a tick makes, and of so many sends and receives of texts of so many bytes. The length of the batch
# takes 4 bytes, and their records the others. They fill sectors of 512 bytes, which are written once each, and so is
# the header. There is a sync after the sectors, and one after the header.
commit() {
	awk -v what="$1" -v sends="$2" -v receives="$3" -v size="$4" 'BEGIN {
		batch = 4 + 13 + sends * (38 + size) + receives * 42
		sectors = int((batch + 511) / 512)
		printf "| %s | %d | %d | 2 | %d |\n", what, batch, sectors + 1, 512 * (sectors + 1)
	}'
}

# What a save makes after a request of two bytes on a queue, beside so many others of eight messages of 2000 bytes and so
# many segments of 1 MiB: the objects that have changed are the four of each state and the queue, a sector each. The table
# has of each object 16 bytes, and four for each of its sectors; a sector of the table has 508 bytes of it.
saved() {
	awk -v what="$1" -v others="$2" -v segments="$3" '
	function sectors(bytes, each) {
		return int((bytes + each - 1) / each)
	}
	BEGIN {
		all = 5 + others * sectors(64 + 8 * 2012, 512) + segments * sectors(24 + length("/full") + 1048576, 512)
		table = sectors(4 + 16 * (5 + others + segments) + 4 * all, 508)
		printf "| %s | %d | %d | %d | 2 | %d |\n", what, all, table, 5 + table + 1, 512 * (5 + table + 1)
	}'
}

[ -x "$program" ] || fail "there is no program $program"
mkdir "$folder"
trap 'rm -rf "$folder"' EXIT
trap 'exit 1' INT TERM
load="not known"
if [ -r /proc/loadavg ]; then
	read -r load _ < /proc/loadavg
fi
echo "Microseconds of processor time: of $groups groups of runs the middle half, its mean and its range. A group has" \
	"$many_standard runs on the standard device, and mostly $many_small on the small one. The machine's load before" \
	"them is $load."
echo
echo "| a run without lines, on the device | microseconds | range | peak memory, kB |"
echo "|---|---|---|---|"
nothing standard
nothing small
echo
echo "| a line that sends and receives, on the device | bytes of a text | requests in it | lines in a run" \
	"| microseconds | range |"
echo "|---|---|---|---|---|---|"
lines small 0 1 252
lines small 0 16 120
lines small 0 100 28
lines standard 0 1 252
lines standard 8192 1 28
echo
echo "| a line of 16 requests on the standard device | other queues | microseconds | range |"
echo "|---|---|---|---|"
beside calls 0 "sends and receives, no byte"
beside calls 31 "sends and receives, no byte"
beside gets 0 "gets by a key"
beside gets 31 "gets by a key"
beside gets 31 "gets by a key, of queues whose keys were chosen alike" 1
echo
echo "| a line of 16 lists of two operations on the standard device, on a set of so many semaphores | other sets" \
	"| other processes with adjustments | microseconds | range |"
echo "|---|---|---|---|---|"
lists 1 0 0
lists 64 0 0
lists 64 31 0
lists 64 31 63
echo
echo "| a line of 16 requests on a POSIX queue on the standard device | other queues, of names that differ in the last" \
	"byte | descriptors of other processes | microseconds | range |"
echo "|---|---|---|---|---|"
mqs mqs "sends and receives, no byte" 0 0
mqs mqs "sends and receives, no byte" 31 0
mqs mqs "sends and receives, no byte" 31 63
mqs opens "opens and closes" 0 0
mqs opens "opens and closes" 31 0
mqs opens "opens and closes" 31 63
echo
echo "| a line of 16 requests on the standard device, no byte, processes that wait | microseconds | range |"
echo "|---|---|---|"
waits
echo
echo "| a request of two bytes and a save, on the standard device beside other queues of 16,000 bytes | segments of 1 MiB" \
	"| microseconds | range |"
echo "|---|---|---|---|"
saves 0 1
saves 31 2
echo
echo "| a tick on the small device, open connections | microseconds | range |"
echo "|---|---|---|"
ticks 1 "$many_small"
ticks 64 "$many_small"
ticks 1000 25
echo
echo "What a commit makes follows from the bytes of its batch, as the contract of \`Store::commit\` says (\`counts\`)."
echo
echo "| the commit of | bytes of the batch | writes | syncs | bytes written |"
echo "|---|---|---|---|---|"
commit "a tick" 0 0 0
commit "a line of a send, no byte" 1 0 0
commit "a line of a receive" 0 1 0
commit "a line of 16 requests, no byte" 8 8 0
commit "a line of 100 requests, no byte" 50 50 0
commit "a line of a send, 8192 bytes" 1 0 8192
echo
echo "What a save makes follows from the objects that have changed and from the table, as the contract of \`Store::save\`" \
	"says (\`writes\`)."
echo
echo "| the save after a request of two bytes | sectors of all objects | of the table | writes | syncs | bytes written |"
echo "|---|---|---|---|---|---|"
saved "beside nothing" 0 0
saved "beside 31 queues of 16,000 bytes and a segment of 1 MiB" 31 1
echo
echo "63 processes that wait on other queues: a line takes $ratio of the time, and at most 1.2 is wanted."
awk -v ratio="$ratio" 'BEGIN { exit ratio > 1.2 }'
