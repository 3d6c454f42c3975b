#!/bin/sh
# The built program, run from end to end: what it prints, what standard error says, and its exit status.
#
#     sh tests/scripts/runs.sh IPCD
#
# Each run has a script, what standard output and standard error are to have, and the status. These were reckoned from
# docs/PROTOCOL.md and docs/DEVICE.md, and never taken from the program. It takes some seconds.
#
# It needs a POSIX shell and awk.

set -eu

ipcd=${1:?usage: sh tests/scripts/runs.sh IPCD}
folder=${TMPDIR:-/tmp}/ipcd-runs.$$
generator=$(dirname "$0")/../../bench/scripts.awk
runs=0

fail() {
	echo "runs: $name: $1" >&2
	exit 1
}

# A new run: an empty script, nothing to be printed and nothing to be said.
name() {
	name=$1
	: > "$folder/script"
	: > "$folder/wanted"
	: > "$folder/said"
}

# More lines of the script, and of what is to be printed.
script() { cat >> "$folder/script"; }
wanted() { cat >> "$folder/wanted"; }

# A line that standard error is to have.
says() { echo "$1" >> "$folder/said"; }

# So many bytes of text, as hexadecimal digits.
text() { awk -v many="$1" 'BEGIN { for (k = 0; k < many; k++) printf "5a" }'; }

# The next run is to end with this status. Sets `status`; the program's words follow.
start() {
	runs=$((runs + 1))
	status=0
	"$ipcd" "$@" < "$folder/script" > "$folder/output" 2> "$folder/errors" || status=$?
}

# What was said, and the status.
ends() {
	[ "$status" -eq "$1" ] || fail "status $status, not $1"
	diff "$folder/said" "$folder/errors" >&2 || fail "standard error differs"
}

# Runs the program with these words on the script, and compares all of it with what is wanted.
run() {
	ending=$1
	shift
	start "$@"
	ends "$ending"
	cmp -s "$folder/wanted" "$folder/output" || fail "standard output differs"
}

# Words that are refused: the parser's fault, and how the command is used.
refused() {
	says "error: $1"
	says ""
	says "Usage: $2"
	says ""
	says "For more information, try '--help'."
	shift 2
	run 2 "$@"
}

# Words that ask for help or the version, which the output is to name.
tells() {
	named=$1
	shift
	start "$@"
	ends 0
	grep -q -e "$named" "$folder/output" || fail "standard output does not have: $named"
}

mkdir "$folder"
trap 'rm -rf "$folder"' EXIT
trap 'exit 1' INT TERM

name "an empty script"
run 0 replay

# Five connections say HELLO; four processes are the small limit, and ENFILE is 23.
name "five processes under standard limits"
for conn in 1 2 3 4 5; do
	echo "0 open $conn" | script
	echo "0 data $conn 0000000d0000000101000003e800000064" | script
	echo "$conn 0000000a0000000100000000000$conn" | wanted
done
run 0 replay
name "five processes under small limits"
for conn in 1 2 3 4; do
	echo "0 open $conn" | script
	echo "0 data $conn 0000000d0000000101000003e800000064" | script
	echo "$conn 0000000a0000000100000000000$conn" | wanted
done
script << 'END'
0 open 5
0 data 5 0000000d0000000101000003e800000064
END
wanted << 'END'
5 00000006000000010017
END
run 0 replay --small

# 65 connections say HELLO; 64 processes are the standard limit.
name "as many processes as there may be"
conn=1
while [ "$conn" -le 65 ]; do
	echo "0 open $conn"
	echo "0 data $conn 0000000d0000000101000003e800000064"
	conn=$((conn + 1))
done | script
conn=1
while [ "$conn" -le 64 ]; do
	printf '%d 0000000a000000010000%08x\n' "$conn" "$conn"
	conn=$((conn + 1))
done | wanted
wanted << 'END'
65 00000006000000010017
END
run 0 replay

# Texts of 64 and of 65 bytes: 21 bytes of a request come before the text, and 14 of a reply. EINVAL is 22.
for small in "" --small; do
	name "texts of 64 and 65 bytes ${small:-under standard limits}"
	script << END
0 open 1
0 data 1 0000000d0000000101000003e800000064
0 data 1 0000000d000000020a000004d200000380
0 data 1 00000055000000030b00000001000008000000000000000005$(text 64)
0 data 1 00000056000000040b00000001000008000000000000000005$(text 65)
0 data 1 00000019000000050c0000000100000800000000400000000000000000
END
	wanted << END
1 0000000a00000001000000000001
1 0000000a00000002000000000001
1 00000006000000030000
1 000000060000000400$([ -n "$small" ] && echo 16 || echo 00)
1 0000004e0000000500000000000000000005$(text 64)
END
	run 0 replay $small
done

# Texts of 4097 bytes, of 65537, one too many, and of 65536, the longest, which needs the whole queue. A size of 4096 is
# too small for the first: E2BIG is 7. ENOMSG, 42, is left.
name "texts of more than 4096 bytes"
script << END
0 open 1
0 data 1 0000000d0000000101000003e800000064
0 data 1 0000000d000000020a000004d200000380
0 data 1 00001016000000030b00000001000008000000000000000005$(text 4097)
0 data 1 00010016000000040b00000001000008000000000000000007$(text 65537)
0 data 1 00000019000000050c0000000100000800000010000000000000000000
0 data 1 00000019000000060c0000000100000800000100000000000000000000
0 data 1 00010015000000070b00000001000008000000000000000006$(text 65536)
0 data 1 00000019000000080c0000000100000800000100000000000000000000
0 data 1 00000019000000090c0000000100000800000100000000000000000000
END
wanted << END
1 0000000a00000001000000000001
1 0000000a00000002000000000001
1 00000006000000030000
1 00000006000000040016
1 00000006000000050007
1 0000100f0000000600000000000000000005$(text 4097)
1 00000006000000070000
1 0001000e0000000800000000000000000006$(text 65536)
1 0000000600000009002a
END
run 0 replay

# A thousand sends and as many receives on one connection, 20 requests in a line, after its HELLO and msgget: 103 lines,
# of which 102 accept events. Their commits fill 202 sectors of the journal. Before them 1900 more connections are
# opened. The generator has the protocol's rows, and writes what is to be printed beside the script.
long_script() {
	awk 'BEGIN { for (conn = 2; conn <= 1901; conn++) print "0 open " conn }' | script
	awk -v kind=calls -v count=2000 -v size=4 -v together=20 \
		-v script="$folder/calls" -v wanted="$folder/wanted" -f "$generator"
	script < "$folder/calls"
	[ "$(awk 'END { print NR }' "$folder/script")" -eq 2003 ] || fail "it has not 2003 lines"
}
name "a script of more than 1000 lines"
long_script
run 0 replay
name "a script whose line 2004 is bad"
long_script
echo "0 data 1 0" | script
says "ipcd: line 2004: bad line"
run 2 replay

# Connection 1 says HELLO, and then gets its queue again and again: 600 lines that each accept events. The journal has 256
# sectors, and each of these lines takes one, so it is full twice, and is emptied.
lines_of_600() {
	script << 'END'
0 open 3
0 open 1
0 data 1 0000000d0000000101000003e800000064
END
	echo "1 0000000a00000001000000000001" | wanted
	serial=2
	while [ "$serial" -le 600 ]; do
		printf '0 data 1 0000000d%08x0a000004d200000380\n' "$serial" >> "$folder/script"
		printf '1 0000000a%08x000000000001\n' "$serial" >> "$folder/wanted"
		serial=$((serial + 1))
	done
}
name "more lines than a journal has sectors"
lines_of_600
run 0 replay --small
name "more lines than a journal has sectors, on a large device"
lines_of_600
run 0 replay

# A length of 4 is a fault of the stream: EPROTO, 71, and the connection ends.
name "a fault of the stream, and then a bad line"
script << 'END'
0 open 7
0 data 7 00000004
0 data 7 00
0 closed 7
0 tick
END
wanted << 'END'
7 00000006000000000047
7 end
END
says "ipcd: line 4: bad line"
run 2 replay --small

name "a connection in use"
script << 'END'
0 open 1
0 open 1
END
says "ipcd: line 2: connection in use"
run 2 replay

name "no such connection"
script << 'END'
0 tick
0 open 1
0 end 2
END
says "ipcd: line 3: no such connection"
run 2 replay

# 16777216 bytes may be read, and these are one bad line; one byte more is too long.
name "a script as long as it may be"
dd if=/dev/zero of="$folder/script" bs=4096 count=4096 2> "$folder/dd"
says "ipcd: line 1: bad line"
run 2 replay
name "a script too long"
{
	dd if=/dev/zero bs=4096 count=4096 2> "$folder/dd"
	echo
} > "$folder/script"
says "ipcd: script too long"
run 2 replay

# A folder is opened as a file is, and cannot be read; a full device cannot be written.
name "input that cannot be read"
rm "$folder/script"
mkdir "$folder/script"
says "ipcd: input fault"
run 1 replay
rmdir "$folder/script"
if [ -c /dev/full ]; then
	name "output that cannot be written"
	script << 'END'
0 open 1
0 data 1 0000000d0000000101000003e800000064
END
	says "ipcd: output fault"
	runs=$((runs + 1))
	status=0
	"$ipcd" replay < "$folder/script" > /dev/full 2> "$folder/errors" || status=$?
	ends 1
fi

name "no command"
says "error: 'ipcd' requires a subcommand but one was not provided"
says "  [subcommands: replay, format, upgrade, run, dump, list, backup, check, serve, help]"
says ""
says "Usage: ipcd <COMMAND>"
says ""
says "For more information, try '--help'."
run 2
name "a command that is not there"
refused "unrecognized subcommand 'watch'" "ipcd <COMMAND>" watch
name "a flag that is not there"
refused "unexpected argument '--big' found" "ipcd replay [OPTIONS]" replay --big
name "a word too many"
refused "unexpected argument 'script' found" "ipcd replay [OPTIONS]" replay script
name "an argument that is not UTF-8"
says "ipcd: an argument is not valid UTF-8"
run 2 replay "$(printf '\377')"

# ---- devices in files

device=$folder/device

# HELLO, msgget of key 1234 with mode 0600, and a msgsnd of "hi".
first_queue() {
	script << 'END'
0 open 1
0 data 1 0000000d0000000101000003e800000064
0 data 1 0000000d000000020a000004d200000380
0 data 1 00000017000000030b000000010000080000000000000000056869
END
}

# A device under standard limits needs 252440 sectors, and one under small limits 1366.
name "a device of as many sectors as it needs"
echo "formatted 252440 sectors" | wanted
run 0 format "$device"
[ "$(wc -c < "$device")" -eq 129249280 ] || fail "the file has not 252440 sectors"
name "a device of fewer sectors than it needs"
says "ipcd: too small, 252440 sectors needed"
run 1 format "$device" --sectors 252439
[ "$(wc -c < "$device")" -eq 129249280 ] || fail "the file was touched"
name "a device that is cut"
echo "formatted 1366 sectors" | wanted
run 0 format "$device" --small
[ "$(wc -c < "$device")" -eq 699392 ] || fail "the file has not 1366 sectors"
name "a device of more sectors than it needs"
echo "formatted 1500 sectors" | wanted
run 0 format --sectors 1500 --small "$device"
[ "$(wc -c < "$device")" -eq 768000 ] || fail "the file has not 1500 sectors"

name "an empty listing"
run 0 dump "$device"
name "a script on a device"
first_queue
wanted << 'END'
1 0000000a00000001000000000001
1 0000000a00000002000000000001
1 00000006000000030000
END
run 0 run "$device"
name "a listing"
echo "msg          1        1234 0600       1000        100          2          1" | wanted
run 0 dump "$device"

# The second run finds the queue of the first, and its message. Process 1 has left at the restart: this is process 2.
name "a second script on a device"
script << 'END'
0 open 1
0 data 1 0000000d0000000101000003e800000064
0 data 1 00000019000000020c0000000100000800000000400000000000000000
END
wanted << 'END'
1 0000000a00000001000000000002
1 0000001000000002000000000000000000056869
END
run 0 run "$device"
name "a listing without messages"
echo "msg          1        1234 0600       1000        100          0          0" | wanted
run 0 dump "$device"

if [ -c /dev/full ]; then
	name "a listing that cannot be written"
	says "ipcd: output fault"
	runs=$((runs + 1))
	status=0
	"$ipcd" dump "$device" > /dev/full 2> "$folder/errors" || status=$?
	ends 1
fi

# A run holds its device until its script ends. It has it when the restart stands in the file.
mkfifo "$folder/fifo"

# Starts a run on a device, whose script is to be written to file descriptor 3, and waits until it has the device.
hold() {
	before=$(cksum < "$1")
	"$ipcd" run "$1" < "$folder/fifo" > "$folder/held" 2> "$folder/held_errors" &
	held=$!
	exec 3> "$folder/fifo"
	tries=0
	while [ "$(cksum < "$1")" = "$before" ]; do
		[ "$tries" -lt 30 ] || fail "it was not opened"
		tries=$((tries + 1))
		sleep 1
	done
}

# The run that was started gets its script, and is to end with this status.
let_go() {
	runs=$((runs + 1))
	cat "$folder/script" >&3
	exec 3>&-
	status=0
	wait "$held" || status=$?
	mv "$folder/held" "$folder/output"
	mv "$folder/held_errors" "$folder/errors"
	ends "$1"
	cmp -s "$folder/wanted" "$folder/output" || fail "standard output differs"
}

name "a device in use"
hold "$device"
for command in run dump "format --small"; do
	name "a device in use: $command"
	says "ipcd: device fault"
	run 1 $command "$device"
done
name "a run that held its device"
let_go 0
name "a device that is free again"
echo "msg          1        1234 0600       1000        100          0          0" | wanted
run 0 dump "$device"

# A program that is killed in the midst of 1200 sends, each with a reply. After each reply its message is on the device; the
# send after the last reply may be too. The first two replies are of HELLO and msgget.
name "a program that is killed"
"$ipcd" format "$folder/killed" > "$folder/output"
script << 'END'
0 open 1
0 data 1 0000000d0000000101000003e800000064
0 data 1 0000000d000000020a000004d200000380
END
serial=3
while [ "$serial" -le 1202 ]; do
	printf '0 data 1 00000016%08x0b0000000100000800000000000000000561\n' "$serial" >> "$folder/script"
	serial=$((serial + 1))
done
"$ipcd" run "$folder/killed" < "$folder/script" > "$folder/output" &
victim=$!
while [ "$(wc -l < "$folder/output")" -lt 200 ]; do :; done
kill -9 "$victim"
wait "$victim" 2> "$folder/ended" || :
replies=$(wc -l < "$folder/output")
"$ipcd" dump "$folder/killed" > "$folder/listed" || fail "it is not opened again"
kept=$(awk '{ print $NF }' "$folder/listed")
[ "$kept" -ge $((replies - 2)) ] || fail "$replies replies, and $kept messages kept"
[ "$kept" -le $((replies - 1)) ] || fail "$replies replies, and $kept messages kept"
runs=$((runs + 2))

# ---- a full disk, and a file that is cut

# The same as `run`, on a disk that has room for no more than so many sectors of a file. What lies behind them is refused.
run_on_full() {
	room=$1
	shift
	(
		trap '' XFSZ
		ulimit -f "$room"
		run "$@"
	)
	runs=$((runs + 1))
}

name "a new device on a full disk"
says "ipcd: device fault"
run_on_full 1365 1 format --small "$folder/full"
name "a new device that was not made"
says "ipcd: not formatted"
run 1 dump "$folder/full"
name "the same when there is room"
echo "formatted 1366 sectors" | wanted
run 0 format --small "$folder/full"

# An open takes the first sector of the journal, sector 4, and so there is none for it, and then none for its first commit.
# The lines after HELLO take a sector each: the third commit would be in sector 7.
name "an open on a full disk"
says "ipcd: device fault"
run_on_full 4 1 run "$folder/full"
name "a first commit on a full disk"
first_queue
wanted << 'END'
1 00000006000000000005
1 end
END
says "ipcd: device fault"
run_on_full 5 1 run "$folder/full"
name "a device on which nothing was answered"
run 0 dump "$folder/full"
"$ipcd" format --small "$folder/full" > "$folder/output"
name "a commit on a full disk"
first_queue
wanted << 'END'
1 0000000a00000001000000000001
1 0000000a00000002000000000001
1 00000006000000000005
1 end
END
says "ipcd: device fault"
run_on_full 7 1 run "$folder/full"
name "what was answered before a commit was refused"
echo "msg          1        1234 0600       1000        100          0          0" | wanted
run 0 dump "$folder/full"

# The journal ends with sector 259, so it has room for all commits, and a save has none.
name "a save on a full disk"
"$ipcd" format --small "$folder/full" > "$folder/output"
first_queue
echo "save" | script
wanted << 'END'
1 0000000a00000001000000000001
1 0000000a00000002000000000001
1 00000006000000030000
1 00000006000000000005
1 end
END
says "ipcd: device fault"
run_on_full 260 1 run "$folder/full"
name "what was answered before a save was refused"
echo "msg          1        1234 0600       1000        100          2          1" | wanted
run 0 dump "$folder/full"

# The open takes one of the 256 sectors of the journal, and each line with a reply another.
name "a full journal on a full disk"
"$ipcd" format --small "$folder/full" > "$folder/output"
lines_of_600
head -n 255 "$folder/wanted" > "$folder/first"
cat "$folder/first" - > "$folder/wanted" << 'END'
1 00000006000000000005
1 end
3 00000006000000000005
3 end
END
says "ipcd: device fault"
run_on_full 260 1 run "$folder/full"
name "what was answered before the journal was full"
echo "msg          1        1234 0600       1000        100          0          0" | wanted
run 0 dump "$folder/full"

# Process 1 has left. The queue is there, and the journal goes on in new sectors.
name "a device when there is room again"
first_queue
wanted << 'END'
1 0000000a00000001000000000002
1 0000000a00000002000000000001
1 00000006000000030000
END
run 0 run "$folder/full"
name "a device that cannot grow on a full disk"
before=$(cksum < "$folder/full")
says "ipcd: device fault"
run_on_full 1366 1 format --small --sectors 1500 "$folder/full"
[ "$(cksum < "$folder/full")" = "$before" ] || fail "the file was touched"
name "a device that did not grow"
echo "msg          1        1234 0600       1000        100          2          1" | wanted
run 0 dump "$folder/full"

# A file that is cut from outside while a run has it as its device. The server reads no device while it goes on, so clients
# are answered from what it knows; an open is the first to see that bytes are gone. Line `stop` is one.
receive_and_stop() {
	script << 'END'
0 open 1
0 data 1 0000000d0000000101000003e800000064
0 data 1 00000019000000020c0000000100000800000000400000000000000000
stop
END
	wanted << 'END'
1 0000000a00000001000000000003
1 0000001000000002000000000000000000056869
END
}

# The first 260 sectors have no objects. The superblock names more sectors than there are then.
name "a file that loses its objects during a run"
cp "$folder/full" "$folder/cut"
hold "$folder/cut"
dd if=/dev/null of="$folder/cut" bs=512 seek=260 2> "$folder/dd"
receive_and_stop
says "ipcd: device fault"
let_go 1
name "a file that has lost its objects"
says "ipcd: damaged sector 0"
run 1 dump "$folder/cut"

# Of an empty file the next commit makes one that has zeros for a superblock.
name "a file that loses all during a run"
cp "$folder/full" "$folder/cut"
hold "$folder/cut"
: > "$folder/cut"
receive_and_stop
says "ipcd: not formatted"
let_go 1
name "a file that has lost all"
says "ipcd: not formatted"
run 1 dump "$folder/cut"

for command in run dump; do
	name "no file: $command"
	says "ipcd: device fault"
	run 1 $command "$folder/nothing"
done
[ ! -e "$folder/nothing" ] || fail "a file was made"
for command in run dump format; do
	name "a folder: $command"
	says "ipcd: device fault"
	run 1 $command "$folder"
	name "a file in no folder: $command"
	says "ipcd: device fault"
	run 1 $command "$folder/nowhere/device"
done

# Less than one sector, and none at all: no device begins there.
: > "$folder/empty"
dd if=/dev/zero of="$folder/short" bs=511 count=1 2> "$folder/dd"
for file in empty short; do
	for command in run dump; do
		name "a file that is $file: $command"
		says "ipcd: not formatted"
		run 1 $command "$folder/$file"
	done
done

# Nobody but root may read such a file.
if [ "$(id -u)" -ne 0 ]; then
	chmod 000 "$folder/empty"
	for command in run dump format; do
		name "a file that may not be read: $command"
		says "ipcd: device fault"
		run 1 $command "$folder/empty"
	done
fi

name "no device"
says "error: the following required arguments were not provided:"
says "  <DEVICE>"
says ""
says "Usage: ipcd run <DEVICE>"
says ""
says "For more information, try '--help'."
run 2 run
name "a number that does not fit"
says "error: invalid value '4294967296' for '--sectors <N>': 4294967296 is not in 0..=4294967295"
says ""
says "For more information, try '--help'."
run 2 format "$device" --sectors 4294967296

name "help"
tells "^Usage: ipcd <COMMAND>$" --help
name "help of a command"
tells "^ *--small " replay --help
name "help of format"
tells "^ *--sectors <N> " format --help
tells "^ *--journal <N> " format --help
name "help of upgrade"
tells "^ *--sectors <N> " upgrade --help
name "the version"
tells "^ipcd [0-9]*\.[0-9]*\.[0-9]*, devices of versions 2 and 3$" --version

echo "runs: $runs runs of the program, each as it should be"
