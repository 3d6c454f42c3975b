#!/bin/sh
# What a request on a POSIX queue costs in instructions, which no load of the machine changes: alone, beside other
# queues whose names differ in the last byte, and beside the descriptors of other processes.
#
#     sh bench/instructions.sh PROGRAM [REQUESTS]
#
# Of each script and of its first lines alone the instructions are counted in one run, and a row tells the difference,
# for each of the requests. They come sixteen in a line, so a sixteenth of a commit is part of each. Outputs are
# compared with those that the protocol asks for: bench/scripts.awk writes both.
#
# It needs awk, and valgrind, which can run no program that was built with the address sanitizer, and may not be able to
# read one with debug information: `strip -g` takes that off.

set -eu

program=${1:?usage: sh bench/instructions.sh PROGRAM [REQUESTS]}
requests=${2:-1600}
folder=${TMPDIR:-/tmp}/ipcd-instructions.$$
scripts=$(dirname "$0")/scripts.awk

fail() {
	echo "instructions: $1" >&2
	exit 1
}

# Sets `counted` to the instructions of a run of so many requests; the words after them are variables of the generator.
count() {
	many=$1
	shift
	for word in "$@"; do
		set -- "$@" -v "$word"
		shift
	done
	awk "$@" -v count="$many" -v together=16 -v script="$folder/script" -v wanted="$folder/wanted" -f "$scripts"
	valgrind -q --tool=callgrind --trace-children=yes --callgrind-out-file="$folder/counts.%p" \
		"$program" replay < "$folder/script" > "$folder/output" 2> "$folder/said" || fail "$(cat "$folder/said")"
	cmp -s "$folder/output" "$folder/wanted" || fail "the lines printed are not those that the script asks for"
	counted=$(cat "$folder"/counts.* | awk '$1 == "totals:" { sum += $2 } END { printf "%d", sum }')
	rm "$folder"/counts.*
}

# A row: a kind of script, what it is, other queues, other processes with 32 descriptors each, and bytes of a text.
row() {
	set -- "$1" "$2" "$3" "$4" "${5:-0}"
	count 0 kind="$1" others="$3" holding="$4" size="$5"
	less=$counted
	count "$requests" kind="$1" others="$3" holding="$4" size="$5"
	echo "| $2 | $3 | $((32 * $4)) | $(((counted - less) / requests)) |"
}

mkdir "$folder"
trap 'rm -rf "$folder"' EXIT
trap 'exit 1' INT TERM
echo "| requests on a POSIX queue | other queues | descriptors of other processes | instructions a request |"
echo "|---|---|---|---|"
for kind in mqs opens; do
	what="sends and receives, no byte"
	[ "$kind" = mqs ] || what="opens and closes"
	for beside in "0 0" "31 0" "0 63" "31 63"; do
		row "$kind" "$what" $beside
	done
done
row mqs "sends and receives, 8192 bytes" 0 0 8192
