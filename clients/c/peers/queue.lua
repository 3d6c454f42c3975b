-- posix.sys.msg of lua-posix: what a queue of System V takes, gives and refuses.
local msg = require "posix.sys.msg"

local KEY = 0x69706374
local old = msg.msgget(KEY)
local id = msg.msgget(KEY, msg.IPC_CREAT + msg.IPC_EXCL + 384)
print("made", old, id ~= nil)
print("twice", select(2, msg.msgget(KEY, msg.IPC_CREAT + msg.IPC_EXCL + 384)))
print("sent", msg.msgsnd(id, 5, "first"), msg.msgsnd(id, 3, "second"), msg.msgsnd(id, 5, ("x"):rep(1000)))
print("by type", msg.msgrcv(id, 100, 3))
print("too short", select(2, msg.msgrcv(id, 2, 5)))
print("the first", msg.msgrcv(id, 100))
local kind, text = msg.msgrcv(id, 10, 0, msg.MSG_NOERROR)
print("cut", kind, text)
print("none", select(2, msg.msgrcv(id, 10, 0, msg.IPC_NOWAIT)))
print("no type", select(2, msg.msgsnd(id, 0, "x")))
os.execute(("ipcrm -q %d"):format(id))
print("removed", select(2, msg.msgsnd(id, 1, "x")))
