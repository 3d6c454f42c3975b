#!/bin/sh
# Commits a second on a device in a file, beside the same writes and syncs done bare, in turns: each line of the script
# is a tick, and its commit one sector of the journal, the header, and two syncs. Every 256th commit saves the state too.
#
#     sh bench/commits.sh PROGRAM [COMMITS [TURNS]]
#
# It needs a POSIX shell, awk, a C compiler, and a `date` that knows %N. The file is in TMPDIR, or in /tmp: on a disk in
# memory a sync costs nothing, and the row says little.

set -eu
LC_ALL=C
export LC_ALL

program=${1:?usage: sh bench/commits.sh PROGRAM [COMMITS [TURNS]]}
commits=${2:-3000}
turns=${3:-5}
folder=$(mktemp -d)
trap 'rm -r "$folder"' EXIT

if ! command -v cc > /dev/null; then
	echo "commits on a file: not measured, since there is no C compiler"
	exit 0
fi
cc -O2 -o "$folder/bare" "$(dirname "$0")/bare.c"
awk -v many="$commits" 'BEGIN { for (k = 1; k <= many; k++) print k " tick" }' > "$folder/script"

now() { date +%s%N; }

turn=0
while [ "$turn" -lt "$turns" ]; do
	rm -f "$folder/device"
	"$program" format "$folder/device" > "$folder/said"
	begin=$(now)
	"$program" run "$folder/device" < "$folder/script"
	middle=$(now)
	"$folder/bare" "$folder/device" "$commits"
	end=$(now)
	echo "$begin $middle $end"
	turn=$((turn + 1))
done | awk -v many="$commits" '
	{ served = $2 - $1; bare = $3 - $2
	  printf "commits on a file: %.0f a second, bare %.0f, ratio %.2f\n", many * 1e9 / served, many * 1e9 / bare, bare / served }'
