# The tests of the Python package on a built program, which is the one argument: that it compiles, its types where
# mypy is installed, and then the scripts of `tests`, side by side, since most of their time they wait. Nothing is
# installed, and nothing is left.
set -eu
program=$(realpath "$1")
cd "$(dirname "$0")"
folder=$(mktemp -d)
trap 'rm -r "$folder"' EXIT
PYTHONPYCACHEPREFIX=$folder
export PYTHONPYCACHEPREFIX

python3 -m compileall -q ipcd tests
if command -v mypy > "$folder/mypy"; then
	mypy --cache-dir "$folder/types" ipcd
else
	echo "clients: there is no mypy, so types are not checked"
fi

tests="asynchronous false_server modules packaged shell vectors work_trial"
for test in $tests; do
	(python3 "tests/$test.py" "$program" > "$folder/$test.said" 2>&1 && touch "$folder/$test.passed") &
done
wait
failed=
for test in $tests; do
	cat "$folder/$test.said"
	[ -e "$folder/$test.passed" ] || failed="$failed $test"
done
[ -z "$failed" ] || { echo "clients in Python: failed:$failed" >&2; exit 1; }
