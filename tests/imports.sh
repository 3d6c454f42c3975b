#!/bin/sh
# What the files of one crate may name of another's: fails, and says where, if a line names what it may not.
#
#     sh tests/imports.sh [TOP]
#
# A crate's proofs are its own but for CallerLemmas, which holds the lemmas that it offers to its callers. And the crates
# that carry requests name no call, so that a new call needs no change there; their tests may, which are the modules that
# the root file declares under cfg(test).
#
# It needs a POSIX shell, find and awk.

set -eu

cd "${1:-.}"
carriers="ipc_hub ipc_script ipc_server"
calls="msgget msgsnd msgrcv msgctl semget semop semctl mq_open mq_unlink mq_send mq_receive mq_notify mq_getattr
	mq_setattr sem_open sem_unlink sem_post sem_wait sem_trywait sem_getvalue shm_open shm_unlink ftruncate fstat
	shmget shmat shmdt shmctl attached_read attached_write"

fail() {
	echo "imports: $1" >&2
	exit 1
}

# The crates of crates.txt, a line for each.
crates() {
	awk '{ sub(/#.*/, "") } match($0, /^[a-z0-9_]+/) { print substr($0, 1, RLENGTH) }' crates.txt
}

# The files of a crate that a check reads.
sources() {
	for part in src specs proofs; do
		[ ! -d "crates/$1/$part" ] || find "crates/$1/$part" -type f \( -name '*.rt' -o -name '*.antt' \)
	done
}

# The modules that a root file has for its tests alone.
test_modules() {
	awk '
		/^ *#\[cfg\(test\)\]/ { tested = 1; sub(/^[^]]*]/, "") }
		tested && match($0, /mod [a-z0-9_]+;/) { print substr($0, RSTART + 4, RLENGTH - 5) }
		!/^ *$/ { tested = 0 }' "crates/$1/src/lib.rt"
}

# Prints each line of the files that names another crate's proofs. Names are parted by dots, or in code by ::, and
# some may stand in braces, so what follows proofs must be CallerLemmas itself.
foreign_proofs() {
	awk -v own="$1" -v crates="$all" '
		BEGIN { many = split(crates, crate, " ") }
		{
			line = $0
			gsub(/::/, ".", line)
			for (k = 1; k <= many; k++) {
				if (crate[k] == own)
					continue
				rest = line
				while (match(rest, "(^|[^A-Za-z0-9_])" crate[k] "[.]([{][^}]*)?proofs([^A-Za-z0-9_]|$)")) {
					rest = substr(rest, RSTART + RLENGTH - 1)
					if (rest !~ /^[.]CallerLemmas([^A-Za-z0-9_]|$)/) {
						print FILENAME ":" FNR ": " $0
						next
					}
				}
			}
		}' $2
}

# Prints each line of the files that names a call, in capitals or not, alone or within a longer name.
named_calls() {
	awk -v calls="$calls" '
		BEGIN { gsub(/[ \n\t]+/, "|", calls) }
		tolower($0) ~ calls { print FILENAME ":" FNR ": " $0 }' $1
}

[ -r crates.txt ] || fail "there is no crates.txt here"
all=$(crates | tr '\n' ' ')
count=0
found=
for name in $all; do
	files=$(sources "$name")
	[ -n "$files" ] || fail "crates/$name has no sources"
	count=$((count + $(echo "$files" | wc -l)))
	lines=$(foreign_proofs "$name" "$files")
	[ -z "$lines" ] || found="$found$lines
"
done
[ -z "$found" ] || fail "another crate's proofs, other than CallerLemmas, are named:
$found"

for name in $carriers; do
	files=$(sources "$name")
	for module in $(test_modules "$name"); do
		files=$(echo "$files" | awk -v top="crates/$name" -v module="$module" '
			$0 != top "/src/" module ".rt" && index($0, top "/src/" module "/") != 1 &&
				index($0, top "/proofs/" module "/") != 1')
	done
	lines=$(named_calls "$files")
	[ -z "$lines" ] || found="$found$lines
"
done
[ -z "$found" ] || fail "a crate that carries requests names a call:
$found"
echo "imports: $count files, none names what it may not"
