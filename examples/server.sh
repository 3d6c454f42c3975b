# A server for an example, which names the program as its one argument and reads this file first: a folder of its own
# as the working directory, `serve`, and `until_it_says`. The client is client.py, which needs Python and finds itself by
# PYTHONPATH.
ipcd=$(realpath "$1")
example=$(basename "$0" .sh)
PYTHONPATH=$(realpath "$(dirname "$0")")
PYTHONDONTWRITEBYTECODE=1
export PYTHONPATH PYTHONDONTWRITEBYTECODE
folder=$(mktemp -d)
cd "$folder"
server=

# Kills the server, as a crash would.
crash() {
	kill -9 "$server"
	wait "$server" 2> ended || :
	server=
}
trap '[ -z "$server" ] || crash; rm -r "$folder"' EXIT

# Starts the server, and waits until it says that it serves.
serve() {
	: > said
	"$ipcd" serve device socket > said &
	server=$!
	tries=0
	until grep -q "^serving" said; do
		tries=$((tries + 1))
		if [ "$tries" -gt 100 ] || ! kill -0 "$server"; then
			echo "$example: the server does not start" >&2
			exit 1
		fi
		sleep 0.1
	done
}

# Waits until a client of this name has said this, in a file of its name.
until_it_says() {
	tries=0
	until grep -qx "$1 $2" "$1"; do
		tries=$((tries + 1))
		if [ "$tries" -gt 100 ]; then
			echo "$example: '$1 $2' is not said" >&2
			exit 1
		fi
		sleep 0.1
	done
}
