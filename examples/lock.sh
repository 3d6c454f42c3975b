# Two job runners share a lock, a semaphore of value 1, and the one that holds it is killed: SEM_UNDO gives it back, and
# the other continues. Then the server is killed too, and the lock is free when it is there again. The one argument is the
# program. The client is examples/client.py, which needs Python.
#
# Making a set and giving it a value are two requests. If its creator, or the server, ended between them, a lock whose
# value its creator alone sets would be shut for ever. So semaphore 1 says whether semaphore 0, the lock, was given its
# value, and each client gives it by one list: the first list that is done sets both, and each one after it is refused
# (EAGAIN).
set -eu
. "$(dirname "$0")/server.sh"
"$ipcd" format device --small > formatted
serve

# What a client does: these lines of Python, on a connection that is a process and knows the lock.
does() {
	echo "
from client import *
with Connection('socket') as server:
    server.hello(uid=1000, gid=100)
    lock = server.semget(7, 2, IPC_CREAT | 0o600)
    try:
        server.semop(lock, [(1, 0, IPC_NOWAIT), (1, 1, IPC_NOWAIT), (0, 1, IPC_NOWAIT)])
    except BlockingIOError:
        pass
$1"
}

client() {
	python3 -c "$(does "$1")"
}

# A runner of this name: it takes the lock, says so in a file of its name, and holds it until it is killed.
run() {
	: > "$1"
	python3 -c "$(does "
    print('$1 waits', flush=True)
    server.semop(lock, [(0, -1, SEM_UNDO)])
    print('$1 holds the lock', flush=True)
    server.receive()")" > "$1" 2> ended &
	runner=$!
}

# What a line of Python says has to be this.
shows() {
	said=$(client "    print(($1))")
	echo ">>> $1"
	echo "$said"
	if [ "$said" != "$2" ]; then
		echo "lock: that is not $2" >&2
		exit 1
	fi
}

run anna
anna=$runner
trap 'kill "$anna" "$runner" 2> ended || :; [ -z "$server" ] || crash; rm -r "$folder"' EXIT
until_it_says anna "holds the lock"
run berta
until_it_says berta waits
tries=0
until [ "$(client "    print(server.semctl_getncnt(lock, 0))")" = 1 ]; do
	tries=$((tries + 1))
	[ "$tries" -le 100 ] || { echo "lock: berta does not wait" >&2; exit 1; }
	sleep 0.1
done
shows "server.semctl_getval(lock, 0), server.semctl_getncnt(lock, 0)" "(0, 1)"
echo "\$ kill -9 anna"
kill -9 "$anna"
wait "$anna" 2> ended || :
until_it_says berta "holds the lock"
cat anna berta
shows "server.semctl_getval(lock, 0), server.semctl_getncnt(lock, 0)" "(0, 0)"

echo "\$ kill -9 $server"
crash
rm socket
wait "$runner" 2> ended || :
serve
shows "server.semctl_getval(lock, 0)" 1
