#!/bin/sh
# Programs of other people, on the kernel's objects first and then through ipcd-run: each must answer the same, and the
# server is asked whether it came.
#
#     sh peers/run.sh PROGRAM [installed]
#
# As uid 0 with apt-get it installs what is missing, which needs a network; what it prints is kept in peers/peers.log.
# With `installed` it does neither. What is not there is skipped with a word; if nothing is there, that is an error,
# without `installed`.

here=$(cd "$(dirname "$0")" && pwd)
program=$(realpath "$1")
only_installed=$2
run=$here/../out/ipcd-run
work=$(mktemp -d)
packages="perl fakeroot python3-sysv-ipc stress-ng php-cli util-linux dmsetup libipc-sharelite-perl
    libipc-shareable-perl python3-pyqt5 python3-numpy python3-svipc libmm14 lua5.3 lua-posix rt-tests bonnie++ jackd2
    uwsgi-core uwsgi-plugin-python3 libpython3.11-testsuite"
passed=0 failed=0 skipped=0
server='' apart='' options='' patience=120

finish() {
    [ -z "$server" ] || kill "$server" 2>/dev/null
    rm -rf "$work"
}
trap finish EXIT

install_all() {
    [ -z "$only_installed" ] && [ "$(id -u)" = 0 ] && command -v apt-get >/dev/null || return 0
    dpkg -s $packages >/dev/null 2>&1 && return 0
    DEBIAN_FRONTEND=noninteractive apt-get install -y --no-install-recommends $packages >"$work/apt" 2>&1 ||
        echo "peers: apt-get has not installed all of: $packages"
}

start_server() {
    "$program" format "$work/device" >/dev/null || exit 1
    "$program" serve "$work/device" "$work/socket" >"$work/said" 2>&1 &
    server=$!
    for _ in 1 2 3 4 5 6 7 8 9 10; do
        grep -q serving "$work/said" 2>/dev/null && return
        sleep 0.5
    done
    echo "peers: the server does not start: $(cat "$work/said")"
    exit 1
}

# The version of a Debian package.
version() {
    dpkg-query -W -f '${Package} ${Version}' "$1" 2>/dev/null || echo "$1, not a package"
}

# The number that the server gives to the next process that comes.
next_process() {
    python3 -c 'import sys; sys.path.insert(0, sys.argv[1]); from client import Connection
print(Connection(sys.argv[2]).hello(0, 0))' "$here/../../../examples" "$work/socket"
}

# compare NAME PACKAGE PROBE KNOWN COMMAND...: what it prints, and its status, on the kernel and on the server, if the
# program is there: if PROBE is so. Lines of the pattern KNOWN are differences that docs/COMPATIBILITY.md has: they are
# shown, and the others have to be the same.
compare() {
    name=$1 package=$2 probe=$3 known=$4
    shift 4
    if ! sh -c "$probe" >/dev/null 2>&1; then
        echo "peers: $name: skipped, it is not installed"
        skipped=$((skipped + 1))
        return
    fi
    (cd "$work" && timeout "$patience" $apart "$@"; echo "status $?") >"$work/kernel" 2>&1
    before=$(next_process)
    (cd "$work" && timeout "$patience" $apart "$run" --socket "$work/socket" $options "$@"; echo "status $?") >"$work/ipcd" 2>&1
    came=$(($(next_process) - before - 1))
    : >"$work/differs"
    if [ -n "$known" ]; then
        grep -E "$known" "$work/ipcd" | sort | uniq -c >"$work/differs"
        sed -i -E "/$known/d" "$work/kernel"
        sed -i -E "/$known/d" "$work/ipcd"
    fi
    if [ "$came" -le 0 ]; then
        failed=$((failed + 1))
        echo "peers: $name ($(version "$package")): no process came to the server"
    elif cmp -s "$work/kernel" "$work/ipcd" && grep -q '^status 0$' "$work/kernel"; then
        passed=$((passed + 1))
        echo "peers: $name ($(version "$package")): the same, $(wc -l <"$work/ipcd") lines"
        sed -e 's/^/    but as COMPATIBILITY.md has it: /' "$work/differs"
    else
        failed=$((failed + 1))
        echo "peers: $name ($(version "$package")): differs"
        diff "$work/kernel" "$work/ipcd" || true
    fi
}

# CPython's own tests: they take some half an hour together, so with `installed` they are not run.
suites() {
    if [ -n "$only_installed" ]; then
        echo "peers: CPython's suites of multiprocessing and concurrent.futures: skipped, they take half an hour"
        skipped=$((skipped + 1))
        return
    fi
    patience=1200 options=--segments
    for suite in multiprocessing_fork multiprocessing_spawn multiprocessing_forkserver concurrent_futures; do
        compare "test_$suite, with --segments" libpython3.11-testsuite "/usr/bin/python3 -c 'import test.test_$suite'" \
            "" /usr/bin/python3 "$here/suite.py" "test.test_$suite"
    done
    patience=120 options=''
}

# A daemon that keeps what a chown would have done, and talks to each program by message queues.
fakeroot_words='touch f && chown 12:34 f && chmod 4711 f && stat -c "%u:%g %a" f && mkdir -p d && chown 56 d &&
    mv f d && stat -c "%u" d && tar -cf - d | tar -tvf - | cut -c 1-24 && id -u && rm -r d'

ipcrm_words='queue=$(ipcmk -Q -p 600 | sed "s/.*: //") set=$(ipcmk -S 3 | sed "s/.*: //")
    ipcrm -q "$queue" -s "$set" && echo removed; ipcrm -q "$queue" 2>&1 | sed "s/[0-9][0-9]*/N/"
    ipcrm -Q 0x69706365 -S 0x69706365 2>&1; echo "$?"'

# Its times differ from run to run, and so do its numbers of processes.
stress_words='stress-ng --verify --oomable --no-rand-seed --metrics-brief "$@" 2>&1 |
    grep -E -i "fail|error|unexpected|passed|successful" |
    sed -e "s/^stress-ng: //; s/\[[0-9]*\]//; s/in .*//; s/  */ /g"'

# What it measures differs from run to run.
measured='"$@" 2>&1 | sed -e "s/[0-9][0-9]*/N/g; s/  */ /g"'

# Two programs wait for each other by a semaphore, before each kind of work.
bonnie_words='user=$(id -un) && mkdir files && bonnie++ -u "$user" -p 2 2>/dev/null
    works() { bonnie++ -u "$user" -q -d files -s 0 -n 1:0:0:1 -m m -y s 2>/dev/null | cut -d, -f 1-3; }
    works & works; wait; bonnie++ -u "$user" -p -1 2>/dev/null; rm -r files'

# A server without a sound card, and its clients. It says much that differs from run to run.
jack_words='HOME=$PWD; export HOME; jackd --no-realtime -d dummy -r 8000 -p 256 >jackd 2>&1 & jackd=$!
    tries=50; until jack_lsp >/dev/null 2>&1 || [ "$((tries -= 1))" = 0 ]; do sleep 0.2; done
    jack_lsp -c -p && kill "$jackd" && wait "$jackd"; echo "$?"; grep -c "JACK server starting" jackd'

all() {
    install_all
    # The kernel's objects of a namespace of their own, where that may be made.
    unshare --ipc true 2>/dev/null && apart="unshare --ipc"
    start_server
    compare "IPC::SysV, IPC::Msg, IPC::Semaphore" perl "perl -MIPC::Msg -MIPC::Semaphore -e 1" "^new qbytes" \
        perl "$here/sysv.pl"
    options=--segments
    compare "IPC::SharedMem, with --segments" perl "perl -MIPC::SharedMem -e 1" "" perl "$here/shared.pl"
    compare "IPC::ShareLite, with --segments" libipc-sharelite-perl "perl -MIPC::ShareLite -e 1" "" \
        perl "$here/sharelite.pl"
    compare "IPC::Shareable, with --segments" libipc-shareable-perl "perl -MIPC::Shareable -e 1" "" \
        perl "$here/shareable.pl"
    compare "QSharedMemory, with --segments" python3-pyqt5 "/usr/bin/python3 -c 'import PyQt5.QtCore'" "" \
        /usr/bin/python3 "$here/qshared.py"
    compare "multiprocessing.shared_memory, with --segments" python3 \
        "python3 -c 'import multiprocessing.shared_memory'" "" python3 "$here/shared_memory.py"
    compare "OSSP mm, with --segments" libmm14 "python3 -c 'import ctypes; ctypes.CDLL(\"libmm.so.14\")'" "" \
        python3 "$here/mm.py"
    compare "svipc, with --segments" python3-svipc "/usr/bin/python3 -c 'import numpy, svipc'" "" \
        /usr/bin/python3 "$here/svipc.py"
    compare "svsematest --fork, with --segments" rt-tests "command -v svsematest" "" \
        sh -c "$measured" sh svsematest --fork -q -l 20 -i 2000
    compare "stress-ng --shm, with --segments" stress-ng "command -v stress-ng" "" \
        sh -c "$stress_words" sh --shm 1 --shm-objs 1 --shm-bytes 1M --shm-ops 3
    options=''
    compare "sysv_ipc" python3-sysv-ipc "/usr/bin/python3 -c 'import sysv_ipc'" "^new qbytes" \
        /usr/bin/python3 "$here/sysv.py"
    compare "calls by name of ctypes" python3 "python3 -c 'import ctypes'" "" python3 "$here/by_name.py"
    compare "sysvmsg, sysvsem" php8.2-cli "php -r 'exit(function_exists(\"msg_get_queue\") ? 0 : 1);'" "^new qbytes" \
        php "$here/sysv.php"
    compare "fakeroot-sysv" fakeroot "command -v fakeroot-sysv" "" fakeroot-sysv sh -c "$fakeroot_words"
    compare "ipcmk, ipcrm" util-linux "command -v ipcmk && command -v ipcrm" "" sh -c "$ipcrm_words"
    compare "dmsetup udevcookies" dmsetup "command -v dmsetup" "no call lists" dmsetup udevcookies
    compare "multiprocessing" python3 "python3 -c 'import multiprocessing.synchronize'" "" python3 "$here/forked.py"
    compare "posix.sys.msg of Lua" lua-posix "lua5.3 -e 'require \"posix.sys.msg\"'" "" lua5.3 "$here/queue.lua"
    compare "svsematest" rt-tests "command -v svsematest" "" sh -c "$measured" sh svsematest -q -l 20 -i 2000
    compare "pmqtest" rt-tests "command -v pmqtest" "" sh -c "$measured" sh pmqtest -q -l 20 -i 2000
    compare "pmqtest with a limit of time" rt-tests "command -v pmqtest" "" \
        sh -c "$measured" sh pmqtest -q -l 20 -i 2000 -T 1
    compare "bonnie++ -p, -y" bonnie++ "command -v bonnie++" "" sh -c "$bonnie_words"
    compare "jackd -d dummy, jack_lsp" jackd2 "command -v jackd && command -v jack_lsp" "stays the kernel's" \
        sh -c "$jack_words"
    compare "uWSGI with its locks" uwsgi-core "command -v uwsgi_python3" "" /usr/bin/python3 "$here/counted.py"
    suites
    has_stress="command -v stress-ng"
    compare "stress-ng --msg" stress-ng "$has_stress" "" sh -c "$stress_words" sh --msg 1 --msg-ops 1000
    compare "stress-ng --sem-sysv" stress-ng "$has_stress" "" sh -c "$stress_words" sh --sem-sysv 1 --sem-sysv-ops 500
    compare "stress-ng --mq" stress-ng "$has_stress" "" sh -c "$stress_words" sh --mq 1 --mq-ops 500
    echo "peers: not run: PostgreSQL, which maps its segments, and stress-ng --sem, whose semaphores are unnamed"
    echo "peers: $passed the same, $failed differ, $skipped skipped"
    [ "$failed" = 0 ] && { [ "$passed" -gt 0 ] || [ -n "$only_installed" ]; }
}

if [ -n "$only_installed" ]; then
    all
    exit
fi
all >"$work/log"
status=$?
tee "$here/peers.log" <"$work/log"
exit $status
