# A first look: runs the program as its sources stand, before any proof, on crash.script, in which a message outlives a
# crash. It needs rt, tells frames in words if there is Python, and keeps nothing.
set -eu
here=$(realpath "$(dirname "$0")")
folder=$(mktemp -d)
trap 'rm -r "$folder"' EXIT

echo "compiling the sources with checks, and without a proof: about 90 seconds"
echo "\$ ipcd replay --small < crash.script"
cd "$here/../crates/ipcd"
if ! rt try -- replay --small < "$here/crash.script" > "$folder/printed" 2> "$folder/said"; then
	cat "$folder/said" >&2
	exit 1
fi
if command -v python3 > "$folder/python"; then
	python3 "$here/frames.py" "$here/crash.script" < "$folder/printed"
else
	cat "$folder/printed"
	echo "These are the replies in bytes: with Python they would be told in words."
fi
echo "A message was sent, the machine stopped, and the message was received after that. This was a device in memory, of"
echo "sources with checks: nothing was proved, and it was slow. 'make run' proves the program and builds it."
