# Keeps a message over a crash of the server: sends it, kills the server, starts it again, and receives it there.
# The one argument is the program. The client is examples/client.py, which needs Python.
set -eu
. "$(dirname "$0")/server.sh"

# Runs a line of Python on a connection that is a process.
client() {
	python3 -c "
from client import *
with Connection('socket', timeout=10) as server:
    server.hello(uid=1000, gid=100)
    $1"
}

echo "\$ ipcd format device --small"
"$ipcd" format device --small
echo "\$ ipcd serve device socket &"
serve
cat said
echo ">>> queue = server.msgget(1234, IPC_CREAT | 0o600)"
echo ">>> server.msgsnd(queue, 5, b'kept over a crash')"
client "server.msgsnd(server.msgget(1234, IPC_CREAT | 0o600), 5, b'kept over a crash')"
echo "\$ kill -9 $server"
crash
echo "\$ rm socket"
rm socket
echo "\$ ipcd serve device socket &"
serve
cat said
echo ">>> queue = server.msgget(1234, 0)"
echo ">>> server.msgrcv(queue, 64)"
received=$(client "print(server.msgrcv(server.msgget(1234, 0), 64))")
echo "$received"
if [ "$received" != "(5, b'kept over a crash')" ]; then
	echo "serve: the message is not there" >&2
	exit 1
fi
