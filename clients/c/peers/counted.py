"""A page of uWSGI that four processes count up by a lock, and who asks for it, as `python3 counted.py`: in the end each of
100 requests has another number. Between the reading and the writing of the count another process would come in."""

import socket
import subprocess
import sys
import threading
import time
from collections.abc import Callable
from pathlib import Path

COUNT = Path("count")
ANSWERS: list[int] = []


def application(_: dict[str, object], start: Callable[[str, list[tuple[str, str]]], object]) -> list[bytes]:
    import uwsgi  # type: ignore[import-not-found]

    uwsgi.lock()
    try:
        count = int(COUNT.read_text()) + 1
        time.sleep(0.002)
        COUNT.write_text(str(count))
    finally:
        uwsgi.unlock()
    start("200 OK", [("Content-Type", "text/plain")])
    return [str(count).encode()]


def ask(times: int) -> None:
    for _ in range(times):
        with socket.socket(socket.AF_UNIX) as it:
            it.connect("http")
            it.sendall(b"GET / HTTP/1.0\r\n\r\n")
            answer = b"".join(iter(lambda: it.recv(4096), b""))
        ANSWERS.append(int(answer.split(b"\r\n\r\n")[1]))


def main() -> None:
    COUNT.write_text("0")
    Path("http").unlink(missing_ok=True)
    words = "uwsgi_python3 --master --processes 4 --lock-engine ipcsem --http-socket http --die-on-term --wsgi-file"
    with open("uwsgi.log", "w") as log:
        server = subprocess.Popen([*words.split(), __file__], stdout=log, stderr=log)
    try:
        for _ in range(100):
            if "spawned uWSGI worker 4" in Path("uwsgi.log").read_text():
                break
            time.sleep(0.1)
        threads = [threading.Thread(target=ask, args=[25]) for _ in range(4)]
        for it in threads:
            it.start()
        for it in threads:
            it.join()
    finally:
        server.terminate()
        print("ended", server.wait())
    engine = [line for line in Path("uwsgi.log").read_text().splitlines() if "lock engine" in line]
    print(*engine, len(ANSWERS), sorted(ANSWERS) == list(range(1, 101)), COUNT.read_text())


if __name__ == "__main__":
    main()
