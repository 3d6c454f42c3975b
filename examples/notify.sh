# A process is notified that a message has come to an empty POSIX queue, and receives it. A later message survives a kill
# of the server, under the name of the queue. The one argument is the program. The client is examples/client.py, which
# needs Python.
set -eu
. "$(dirname "$0")/server.sh"
"$ipcd" format device --small > formatted
serve

# What a client does: these lines of Python, on a connection that is a process and has opened the queue.
does() {
	echo "
from client import *
with Connection('socket', timeout=10) as server:
    server.hello(uid=1000, gid=100)
    jobs = server.mq_open('/jobs', O_CREAT | O_RDWR, 0o600)
$1"
}

# What a line of Python says has to be this.
shows() {
	said=$(python3 -c "$(does "    print(($1))")")
	echo ">>> $1"
	echo "$said"
	if [ "$said" != "$2" ]; then
		echo "notify: that is not $2" >&2
		exit 1
	fi
}

: > anna
python3 -c "$(does "
    server.mq_notify(jobs, NOTIFY_FRAME, cookie=7)
    print('anna registers', flush=True)
    descriptor, cookie = server.notification()
    print('anna is notified by', cookie, flush=True)
    print('anna receives', *server.mq_receive(descriptor, 64), flush=True)")" > anna &
anna=$!
trap 'kill "$anna" 2> ended || :; [ -z "$server" ] || crash; rm -r "$folder"' EXIT
until_it_says anna registers
shows "server.mq_send(jobs, b'sweep', priority=5)" None
until_it_says anna "is notified by 7"
until_it_says anna "receives 5 b'sweep'"
cat anna
wait "$anna"
trap '[ -z "$server" ] || crash; rm -r "$folder"' EXIT

# Nobody is notified of this message, so it stays in the queue.
shows "server.mq_send(jobs, b'wash', priority=3)" None
echo "\$ kill -9 $server"
crash
rm socket
serve
shows "server.mq_getattr(jobs).curmsgs, server.mq_receive(jobs, 64)" "(1, (3, b'wash'))"
