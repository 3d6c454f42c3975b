# Two workers wait for jobs, and one of them is killed while it waits: no job goes with it. The one argument is the program.
# The client is examples/client.py, which needs Python.
set -eu
. "$(dirname "$0")/server.sh"
"$ipcd" format device --small > formatted
serve

# A worker of this name: it does jobs until it is killed, and says so in a file of its name.
work() {
	: > "$1"
	python3 -c "
from client import *
with Connection('socket') as server:
    server.hello(uid=1000, gid=100)
    jobs = server.msgget(7, IPC_CREAT | 0o600)
    print('$1 waits', flush=True)
    while True:
        print('$1 does', server.msgrcv(jobs, 64)[1].decode(), flush=True)" > "$1" &
	worker=$!
}

# Sends jobs. Once the server has answered this client's HELLO it has seen who had gone before.
send() {
	echo "\$ send $*"
	python3 - "$@" <<'SENDER'
import sys
from client import *

with Connection("socket", timeout=10) as server:
    server.hello(uid=1000, gid=100)
    jobs = server.msgget(7, 0)
    for job in sys.argv[1:]:
        server.msgsnd(jobs, 1, job.encode())
SENDER
}

work anna
anna=$worker
trap 'kill "$worker" 2> ended || :; crash; rm -r "$folder"' EXIT
until_it_says anna waits
send sweep
until_it_says anna "does sweep"

# anna waits again, and then berta, so the next job would be anna's.
work berta
until_it_says berta waits
sleep 0.5
echo "\$ kill -9 anna"
kill -9 "$anna"
wait "$anna" 2> ended || :
send wash iron
until_it_says berta "does iron"

cat anna berta
cat > wanted <<'WANTED'
anna waits
anna does sweep
berta waits
berta does wash
berta does iron
WANTED
if ! cat anna berta | cmp -s - wanted; then
	echo "worker: the jobs were done otherwise" >&2
	exit 1
fi
