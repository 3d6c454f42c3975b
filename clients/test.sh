# The tests of the clients in Go, Rust, Node and Java on a built program, which is the one argument: each as far as its
# toolchain is here and new enough, and else a line says so. They compile in clients/*/out, and need no network.
set -u
program=$(realpath "$1")
cd "$(dirname "$0")"
export IPCD_PROGRAM="$program"
failed=

# Whether a toolchain is here and has this version at the least; what it prints has the version first.
has() {
	language=$1 least=$2
	shift 2
	if ! command -v "$1" > /dev/null; then
		echo "clients in $language: there is no $1, so they were not tested"
		return 1
	fi
	found=$("$@" 2> /dev/null | sed 's/^[^0-9]*\([0-9][0-9]*\(\.[0-9][0-9]*\)*\).*/\1/; q')
	if [ "$(printf '%s\n' "$least" "${found:-0}" | sort -V | head -n 1)" != "$least" ]; then
		echo "clients in $language: $1 has version ${found:-0}, and $least is needed, so they were not tested"
		return 1
	fi
}

# Runs what tests one language, in its folder. What it prints is shown only if it fails.
tested() {
	language=$1 folder=$2
	shift 2
	mkdir -p "$folder/out"
	if (cd "$folder" && "$@") > "$folder/out/said" 2>&1; then
		echo "clients in $language: each test as it should be"
	else
		cat "$folder/out/said"
		failed="$failed $language"
	fi
}

in_go() {
	GOCACHE=$PWD/out/cache GOPATH=$PWD/out/path GOFLAGS=-mod=mod GOPROXY=off GOTOOLCHAIN=local
	export GOCACHE GOPATH GOFLAGS GOPROXY GOTOOLCHAIN
	[ -z "$(gofmt -l .)" ] && go vet ./... && go test -count=1 -race=false ./...
}

in_rust() {
	CARGO_TARGET_DIR=out RUSTFLAGS="-D warnings" cargo test --offline --quiet
}

in_node() {
	node --test tests
}

in_java() {
	javac -Xlint:all -Werror -d out ipcd/*.java tests/*.java &&
		java -cp out Vectors ../../docs/vectors.json && java -cp out ServerTrial "$program"
}

if has Go 1.18 go version; then tested Go go in_go; fi
if has Rust 1.63 cargo --version; then tested Rust rust in_rust; fi
if has Node 18 node --version; then tested Node node in_node; fi
if has Java 17 javac -version; then tested Java java in_java; fi
[ -z "$failed" ] || { echo "clients: failed:$failed" >&2; exit 1; }
