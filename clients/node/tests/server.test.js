// Calls on a server: each family, a wait that is woken, deadlines, an interrupt, requests sent ahead, and kills of the
// server. IPCD_PROGRAM names the program.
import assert from 'node:assert/strict'
import { spawn, spawnSync } from 'node:child_process'
import { once } from 'node:events'
import fs from 'node:fs'
import os from 'node:os'
import path from 'node:path'
import test from 'node:test'

import * as ipcd from '../index.js'

const { IPC_CREAT, IPC_NOWAIT, O_CREAT, O_RDWR, SEM_UNDO } = ipcd
const PROGRAM = process.env.IPCD_PROGRAM
assert.ok(PROGRAM, 'IPCD_PROGRAM names the program')

// A server of a small device, in a folder of its own. The device is of version 2, if `format` gets no other words.
class Server {
  constructor(words) {
    this.folder = fs.mkdtempSync(path.join(os.tmpdir(), 'ipcd-node-'))
    const format = spawnSync(PROGRAM, ['format', '--small', 'device', ...words], { cwd: this.folder })
    assert.equal(format.status, 0, String(format.stderr))
  }
  async serve() {
    const stdio = ['ignore', 'pipe', 'ignore']
    this.process = spawn(PROGRAM, ['serve', 'device', 'socket'], { cwd: this.folder, stdio })
    await once(this.process.stdout, 'data')
  }
  async connect() {
    const connection = await ipcd.Connection.connect(path.join(this.folder, 'socket'))
    await connection.hello(1000, 100)
    return connection
  }
  async kill() {
    const exited = once(this.process, 'exit')
    this.process.kill('SIGKILL')
    await exited
    fs.rmSync(path.join(this.folder, 'socket'))
  }
}

async function served(tried, ...words) {
  const server = new Server(words)
  await server.serve()
  try {
    await tried(server)
  } finally {
    await server.kill()
    fs.rmSync(server.folder, { recursive: true })
  }
}

const refused = (promise, code) => assert.rejects(promise, { code })
// A call of this connection waits: the next one is EALREADY.
const waits = (connection) => refused(connection.msgctlStat(1), 'EALREADY')

test('each family', { timeout: 100000 }, () => served(async (server) => {
  const c = await server.connect()
  assert.equal(c.version, null)
  const queue = await c.msgget(1234, IPC_CREAT | 0o600)
  await c.msgsnd(queue, 5, 'hi')
  assert.deepEqual(await c.msgrcv(queue, 64), { type: 5n, text: Buffer.from('hi') })
  await refused(c.msgrcv(queue, 64, 0, IPC_NOWAIT), 'ENOMSG')
  const set = await c.semget(5, 2, IPC_CREAT | 0o600)
  await c.semctlSetall(set, [1, 5])
  await c.semop(set, [[0, -1, SEM_UNDO], [1, -2]])
  assert.deepEqual(await c.semctlGetall(set), [0, 3])
  const jobs = await c.mqOpen('/jobs', O_CREAT | O_RDWR, 0o600, { maxmsg: 2, msgsize: 64 })
  await c.mqNotify(jobs, ipcd.NOTIFY_FRAME, 7)
  const told = once(c, 'notification')
  await c.mqSend(jobs, 'sweep', 9)
  assert.deepEqual((await told)[0], { fd: jobs, cookie: 7 })
  assert.deepEqual(await c.mqReceive(jobs, 64), { priority: 9, text: Buffer.from('sweep') })
  const ready = await c.semOpen('/ready', O_CREAT, 0o600, 0)
  await c.semPost(ready)
  await c.semWait(ready)
  assert.equal(await c.semGetvalue(ready), 0)
  const table = await c.shmOpen('/table', O_CREAT | O_RDWR, 0o600)
  await c.ftruncate(table, 64)
  await c.shmWrite(table, 8, new Uint8Array([114, 111, 119]))
  assert.deepEqual(await c.shmRead(table, 7, 4), Buffer.from('\0row'))
  const shared = await c.shmat(await c.shmget(9, 64, IPC_CREAT | 0o600))
  await c.attachedWrite(shared, 8, 'old')
  assert.deepEqual(await c.attachedRead(shared, 8, 3), Buffer.from('old'))
  await c.shmdt(shared)
  await refused(c.shmStat(9), 'EBADF')
  // The longest request that a server reads, and one that would end the connection.
  await refused(c.msgsnd(queue, 1, Buffer.alloc(65792 - 21)), 'EINVAL')
  await refused(c.msgsnd(queue, 1, Buffer.alloc(65793 - 21)), 'EINVAL')
  c.close()
}))

// The server tells its version, and the calls are as ever.
test('a device of version 3', { timeout: 100000 }, () => served(async (server) => {
  const c = await ipcd.Connection.connect(path.join(server.folder, 'socket'))
  assert.equal(c.version, null)
  assert.equal(await c.hello(1000, 100), 1)
  assert.equal(c.version, 3)
  const queue = await c.msgget(1234, IPC_CREAT | 0o600)
  await c.msgsnd(queue, 5, 'hi')
  assert.deepEqual(await c.msgrcv(queue, 64), { type: 5n, text: Buffer.from('hi') })
  c.close()
}, '--journal', '257'))

test('waits and deadlines', { timeout: 100000 }, () => served(async (server) => {
  const [c, other] = [await server.connect(), await server.connect()]
  const queue = await c.msgget(1, IPC_CREAT | 0o600)
  let waiting = c.msgrcv(queue, 64, 3)
  await waits(c)
  await other.msgsnd(queue, 3, 'go')
  assert.deepEqual(await waiting, { type: 3n, text: Buffer.from('go') })

  // A signal that aborts interrupts the call. What came first is answered all the same.
  const cancel = new AbortController()
  waiting = c.msgrcv(queue, 64, 0, 0, { signal: cancel.signal })
  await waits(c)
  cancel.abort(new Error('cancelled'))
  await assert.rejects(waiting, { message: 'cancelled' })
  const late = new AbortController()
  waiting = c.msgrcv(queue, 64, 0, 0, { signal: late.signal })
  await waits(c)
  await other.msgsnd(queue, 4, 'first')
  late.abort()
  assert.equal(String((await waiting).text), 'first')
  waiting = c.msgrcv(queue, 64)
  await waits(c)
  await Promise.all([refused(waiting, 'EINTR'), c.interrupt()])

  // The server itself ends a call at its deadline, and a list of operations after its timeout.
  const jobs = await c.mqOpen('/jobs', O_CREAT | O_RDWR, 0o600)
  const begin = performance.now()
  await refused(c.mqReceive(jobs, 64, new Date(Date.now() + 200)), 'ETIMEDOUT')
  const set = await c.semget(1, 1, IPC_CREAT | 0o600)
  await refused(c.semop(set, [[0, -1]], 200), 'EAGAIN')
  const took = performance.now() - begin
  assert.ok(took >= 390, `two waits of 200 ms took ${took} ms`)
  waiting = c.msgrcv(queue, 64)
  await waits(c)
  await Promise.all([refused(waiting, 'EIDRM'), other.msgctlRmid(queue)])
  c.close()
  other.close()
}))

// After each kill all that was answered is there, in its order, and at most what was sent.
test('kills', { timeout: 100000 }, () => served(async (server) => {
  for (const [round, kill] of [1, 7, 30, 60, 99].entries()) {
    let c = await server.connect()
    let queue = await c.msgget(round + 1, IPC_CREAT | 0o600)
    const sent = []
    for (let type = 1; type <= 100; type++) sent.push(c.msgsnd(queue, type, '', IPC_NOWAIT))
    const settled = Promise.allSettled(sent)
    await sent[kill - 1]
    await server.kill()
    const replies = await settled
    const lost = replies.filter((it) => it.status === 'rejected')
    assert.ok(lost.every((it) => it.reason instanceof ipcd.ConnectionEnded), `${lost[0]?.reason}`)
    await assert.rejects(c.interrupt(), ipcd.ConnectionEnded)
    const answered = replies.length - lost.length
    assert.ok(answered >= kill, `${answered} were answered, and ${kill} were seen`)
    await server.serve()
    c = await server.connect()
    queue = await c.msgget(round + 1, 0)
    let found = 0
    try {
      for (;;) {
        const { type } = await c.msgrcv(queue, 64, 0, IPC_NOWAIT)
        found++
        assert.equal(type, BigInt(found))
      }
    } catch (error) {
      assert.equal(error.code, 'ENOMSG')
    }
    assert.ok(answered <= found && found <= 100, `${answered} were answered, and ${found} are there`)
    await c.msgctlRmid(queue)
    c.close()
  }
}))
