"""What `make try` shows: examples/try.sh, and examples/frames.py, which tells the frames of a script in words.

    python3 tests/system/first_look.py PROGRAM

An `rt` of this test's own stands in for the toolchain's: `rt try -- WORD...` runs the built program, as it is to run the
sources. What is told was reckoned from docs/PROTOCOL.md. It takes a second.
"""

from __future__ import annotations

import os
import shutil
import subprocess
import sys
import tempfile
from pathlib import Path

PROGRAM = os.path.realpath(sys.argv[1])
EXAMPLES = Path(__file__).resolve().parents[2] / "examples"

# The replies to the six requests of examples/crash.script.
REPLIES = """1 0000000a00000001000000000001
1 0000000a00000002000000000001
1 00000006000000030000
1 0000000a00000001000000000002
1 0000000a00000002000000000001
1 0000001000000003000000000000000000056869
"""

IN_WORDS = """HELLO uid 1000, gid 100 -> process 1
    0000000d0000000101000003e800000064 -> 0000000a00000001000000000001
msgget key 1234, flags 01600 -> queue 1
    0000000d000000020a000004d200000380 -> 0000000a00000002000000000001
msgsnd queue 1, flags 04000, type 5, "hi" -> done
    00000017000000030b000000010000080000000000000000056869 -> 00000006000000030000
-- crash --
HELLO uid 1000, gid 100 -> process 2
    0000000d0000000101000003e800000064 -> 0000000a00000001000000000002
msgget key 1234 -> queue 1
    0000000d000000020a000004d200000000 -> 0000000a00000002000000000001
msgrcv queue 1, flags 04000, size 64, type 0 -> type 5, "hi"
    00000019000000030c0000000100000800000000400000000000000000 -> 0000001000000003000000000000000000056869
"""

# A script of two clients, of which the second waits for what the first sends, and then for ever; and one is told of a
# message, is refused, and makes a fault of the stream.
SCRIPT = """0 open 1
0 open 2
0 data 1 0000000d00000001010000000000000000
0 data 2 0000000d000000010100000000000000070000000d000000020a0000000700000200
0 data 2 00000019000000030c0000000100000000000000400000000000000000
1 data 1 00000018000000020b0000000100000000000000000000000361a90a
1 data 2 000000110000000414000000070000000200000200
2 data 2 00000019000000050c0000000100000000000000400000000000000000
2 data 1 00000018000000032800000042000001800000000000000000002f71
2 data 1 00000011000000042c00000000000000020000004d
2 data 1 00000016000000052a00000000ffffffffffffffff0000000078
3 data 1 0000000900000006ff00000000
"""


def check(holds: bool, text: str) -> None:
    if not holds:
        raise AssertionError(text)


def printed(*words: str, given: str = "", path: str = os.environ["PATH"]) -> str:
    ended = subprocess.run(words, input=given, capture_output=True, text=True, env={**os.environ, "PATH": path})
    check((ended.returncode, ended.stderr) == (0, ""), f"{words}: {ended}")
    return ended.stdout


def first_look() -> None:
    """The message comes back after the crash, in words and bytes, or in bytes where there is no Python."""
    os.mkdir("rt only")
    os.mkdir("with python")
    for folder in ("rt only", "with python"):
        with open(f"{folder}/rt", "w") as file:
            file.write(f'#!/bin/sh\n[ "$1 $2" = "try --" ] || exit 3\nshift 2\nexec "{PROGRAM}" "$@"\n')
        os.chmod(f"{folder}/rt", 0o755)
        for tool in ("sh", "cat", "dirname", "mktemp", "realpath", "rm"):
            os.symlink(shutil.which(tool) or "", f"{folder}/{tool}")
    os.symlink(sys.executable, "with python/python3")
    for folder, wanted in (("with python", IN_WORDS), ("rt only", REPLIES)):
        found = printed("sh", str(EXAMPLES / "try.sh"), path=f"{os.getcwd()}/{folder}")
        check(f"$ ipcd replay --small < crash.script\n{wanted}" in found, f"{folder}: {found!r}")


def faults() -> None:
    """What the toolchain says of a program that does not compile is said, and that is its status."""
    os.mkdir("broken")
    with open("broken/rt", "w") as file:
        file.write("#!/bin/sh\necho it does not compile >&2\nexit 7\n")
    os.chmod("broken/rt", 0o755)
    path = f"{os.getcwd()}/broken:{os.environ['PATH']}"
    words = ["sh", str(EXAMPLES / "try.sh")]
    ended = subprocess.run(words, capture_output=True, text=True, env={**os.environ, "PATH": path})
    check((ended.returncode, ended.stderr) == (1, "it does not compile\n"), f"{ended}")


def told() -> None:
    """Of several clients each line says whose it is; what waits is told at the end."""
    with open("script", "w") as file:
        file.write(SCRIPT)
    found = printed(sys.executable, str(EXAMPLES / "frames.py"), "script", given=printed(PROGRAM, "replay", given=SCRIPT))
    words = [line for line in found.splitlines() if not line.startswith("    ")]
    wanted = [
        "1: HELLO uid 0, gid 0 -> process 1",
        "2: HELLO uid 0, gid 7 -> process 2",
        "2: msgget key 7, flags 01000 -> queue 1",
        '1: msgsnd queue 1, type 3, "a\\u00a9\\n" -> done',
        '2: msgrcv queue 1, size 64, type 0 -> type 3, "a\\u00a9\\n"',
        "2: semget key 7, semaphores 2, flags 01000 -> set 1",
        '1: mq_open flags 0102, mode 0600, attributes 0, maxmsg 0, msgsize 0, "/q" -> descriptor 0',
        "1: mq_notify descriptor 0, kind 2, cookie 77 -> done",
        '1: mq_send descriptor 0, deadline none, priority 0, "x" -> done',
        "1: notification: descriptor 0, cookie 77",
        "1: opcode ff body 00000000 -> EPROTO",
        "1: the server ends the connection",
        "2: msgrcv queue 1, size 64, type 0 -> no reply",
    ]
    check(words == wanted, f"{words}")


def told_of_version_3() -> None:
    """HELLO is answered the version too, on a device of version 3."""
    script = "".join(SCRIPT.splitlines(keepends=True)[:4])
    with open("script", "w") as file:
        file.write(script)
    printed(PROGRAM, "format", "--small", "--journal", "257", "device")
    replies = printed(PROGRAM, "run", "device", given=script)
    found = printed(sys.executable, str(EXAMPLES / "frames.py"), "script", given=replies)
    words = [line for line in found.splitlines() if not line.startswith("    ")]
    wanted = [
        "1: HELLO uid 0, gid 0 -> process 1, version 3",
        "2: HELLO uid 0, gid 7 -> process 2, version 3",
        "2: msgget key 7, flags 01000 -> queue 1",
    ]
    check(words == wanted, f"{words}")


def every_call_is_told() -> None:
    """Each script of examples/ is told whole: no request without words, and as many replies as were printed."""
    count = 0
    for script in sorted(EXAMPLES.glob("*.script")):
        replies = printed(PROGRAM, "replay", given=script.read_text())
        found = printed(sys.executable, str(EXAMPLES / "frames.py"), str(script), given=replies)
        check("opcode" not in found, f"{script}: {found}")
        check(found.count(" -> 0000") == len(replies.splitlines()), f"{script}: {found} of {replies}")
        count += len(replies.splitlines())
    check(count > 60, f"{count} replies are few")


def main() -> None:
    tests = [first_look, faults, told, told_of_version_3, every_call_is_told]
    for test in tests:
        test()
    print(f"first_look: {len(tests)} tests")


if __name__ == "__main__":
    with tempfile.TemporaryDirectory() as folder:
        os.chdir(folder)
        main()
