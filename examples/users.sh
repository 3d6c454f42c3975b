# Two users of one queue: who may read it, write to it, change it and remove it. The one argument is the program. The
# client is examples/client.py, which needs Python.
set -eu
. "$(dirname "$0")/server.sh"
"$ipcd" format device --small > formatted
serve

python3 - <<'SESSION'
from client import *

# Evaluates a line, prints it with its value, and checks the value.
def shows(line, wanted):
    try:
        value = eval(line, globals())
    except PermissionError as error:
        value = error.strerror
    print(f">>> {line}\n{value}")
    if value != wanted:
        raise SystemExit(f"users: that is not {wanted!r}")

def owner():
    queue = anna.msgctl_stat(jobs)
    return queue.uid, queue.gid, oct(queue.mode)

anna = Connection("socket", timeout=10)
berta = Connection("socket", timeout=10)
shows("anna.hello(uid=1000, gid=100)", 1)
shows("berta.hello(uid=2000, gid=100)", 2)
print(">>> jobs = anna.msgget(7, IPC_CREAT | 0o640)")
jobs = anna.msgget(7, IPC_CREAT | 0o640)
shows("anna.msgsnd(jobs, 1, b'first')", None)
# The group may read the queue, and no more.
shows("berta.msgrcv(jobs, 64)", (1, b"first"))
shows("berta.msgsnd(jobs, 1, b'second')", "Permission denied")
shows("berta.msgget(7, 0o600)", "Permission denied")
shows("berta.msgctl_rmid(jobs)", "Operation not permitted")
# The owner may give it away, and the one who made it stays one who may take it back.
shows("anna.msgctl_set(jobs, uid=2000, gid=100, mode=0o600, qbytes=64)", None)
shows("berta.msgsnd(jobs, 1, b'second')", None)
shows("owner()", (2000, 100, "0o600"))
shows("anna.msgrcv(jobs, 3, msgflg=MSG_NOERROR)", (1, b"sec"))
shows("anna.msgctl_rmid(jobs)", None)
SESSION
