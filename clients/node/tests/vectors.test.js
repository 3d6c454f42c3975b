// The vectors of the protocol: each method sends the bytes of its request, and reads its reply. A false server at a
// socket compares and answers.
import assert from 'node:assert/strict'
import { once } from 'node:events'
import fs from 'node:fs'
import net from 'node:net'
import os from 'node:os'
import path from 'node:path'
import test from 'node:test'

import * as ipcd from '../index.js'

const rows = JSON.parse(fs.readFileSync(new URL('../../../docs/vectors.json', import.meta.url), 'utf8'))

const number = (text) => text.split('|').reduce((total, part) => total | one(part), 0n)
const one = (part) => {
  if (/^[A-Z]/.test(part)) {
    assert.equal(typeof ipcd[part], 'number', part)
    return BigInt(ipcd[part])
  }
  return /^0\d/.test(part) ? BigInt(`0o${part.slice(1)}`) : BigInt(part)
}
// A text with `%HH` for some bytes.
const byte = (_, digits) => String.fromCharCode(parseInt(digits, 16))
const plain = (text) => Buffer.from(text.replace(/%(..)/g, byte), 'latin1')
const list = (text) => text.split(',').filter(Boolean).map((it) => it.split(':').map((part) => Number(number(part))))

function wordsOf(request) {
  const found = Object.fromEntries(request.split(' ').slice(1).map((it) => it.split(/=(.*)/s)))
  return new Proxy(found, { get: (of, name) => { assert.ok(name in of, `no field ${name}`); return of[name] } })
}

// The fields of a reply: numbers as BigInt, texts as hexadecimal digits.
function said(reply) {
  if (reply === 'ok') return undefined
  const fields = reply.split(' ').filter((it) => it.includes('=')).map((it) => it.split(/=(.*)/s))
  return Object.fromEntries(fields.map(([name, value]) => [name, valueOf(name, value)]))
}
function valueOf(name, value) {
  if (name === 'text' || name === 'bytes') return plain(value).toString('hex')
  return name === 'values' ? list(value).map(([it]) => BigInt(it)) : number(value)
}
function shown(value, name) {
  const of = (it) => (Buffer.isBuffer(it) ? it.toString('hex') : Array.isArray(it) ? it.map(of) : BigInt(it))
  if (value === undefined) return undefined
  const isRecord = typeof value === 'object' && !Buffer.isBuffer(value) && !Array.isArray(value)
  return isRecord ? Object.fromEntries(Object.entries(value).map(([key, it]) => [key, of(it)])) : { [name]: of(value) }
}

// Of each call, how its method is called with the words of a request. `n` reads a number of at most 32 bits.
const calls = {
  hello: async (c, w, n) => {
    const pid = await c.hello(n.uid, n.gid)
    return c.version === null ? pid : { pid, version: c.version }
  },
  interrupt: (c) => c.interrupt(),
  close: (c, w, n) => c.closeFd(n.fd),
  msgget: (c, w, n) => c.msgget(n.key, n.flags),
  msgsnd: (c, w, n) => c.msgsnd(n.id, number(w.type), plain(w.text), n.flags),
  msgrcv: (c, w, n) => c.msgrcv(n.id, n.size, number(w.type), n.flags),
  msgctl_stat: (c, w, n) => c.msgctlStat(n.id),
  msgctl_set: (c, w, n) => c.msgctlSet(n.id, n.uid, n.gid, n.mode, n.qbytes),
  msgctl_rmid: (c, w, n) => c.msgctlRmid(n.id),
  semget: (c, w, n) => c.semget(n.key, n.nsems, n.flags),
  semop: (c, w, n) => c.semop(n.id, list(w.operations), time(w.timeout)),
  semctl_getval: (c, w, n) => c.semctlGetval(n.id, n.num),
  semctl_getpid: (c, w, n) => c.semctlGetpid(n.id, n.num),
  semctl_getncnt: (c, w, n) => c.semctlGetncnt(n.id, n.num),
  semctl_getzcnt: (c, w, n) => c.semctlGetzcnt(n.id, n.num),
  semctl_setval: (c, w, n) => c.semctlSetval(n.id, n.num, n.value),
  semctl_getall: (c, w, n) => c.semctlGetall(n.id),
  semctl_setall: (c, w, n) => c.semctlSetall(n.id, list(w.values).map(([it]) => it)),
  semctl_stat: (c, w, n) => c.semctlStat(n.id),
  semctl_set: (c, w, n) => c.semctlSet(n.id, n.uid, n.gid, n.mode),
  semctl_rmid: (c, w, n) => c.semctlRmid(n.id),
  mq_open: (c, w, n) => {
    const limits = n.attr ? { maxmsg: n.maxmsg, msgsize: n.msgsize } : null
    return c.mqOpen(plain(w.name), n.flags, n.mode, limits)
  },
  mq_unlink: (c, w) => c.mqUnlink(plain(w.name)),
  mq_send: (c, w, n) => c.mqSend(n.fd, plain(w.text), n.priority, time(w.deadline)),
  mq_receive: (c, w, n) => c.mqReceive(n.fd, n.size, time(w.deadline)),
  mq_notify: (c, w, n) => c.mqNotify(n.fd, n.kind, n.cookie),
  mq_getattr: (c, w, n) => c.mqGetattr(n.fd),
  mq_setattr: (c, w, n) => c.mqSetattr(n.fd, n.flags),
  sem_open: (c, w, n) => c.semOpen(plain(w.name), n.flags, n.mode, n.value),
  sem_unlink: (c, w) => c.semUnlink(plain(w.name)),
  sem_post: (c, w, n) => c.semPost(n.fd),
  sem_wait: (c, w, n) => c.semWait(n.fd, time(w.deadline)),
  sem_trywait: (c, w, n) => c.semTrywait(n.fd),
  sem_getvalue: (c, w, n) => c.semGetvalue(n.fd),
  shm_open: (c, w, n) => c.shmOpen(plain(w.name), n.flags, n.mode),
  shm_unlink: (c, w) => c.shmUnlink(plain(w.name)),
  ftruncate: (c, w, n) => c.ftruncate(n.fd, number(w.length)),
  shm_read: (c, w, n) => c.shmRead(n.fd, number(w.offset), n.length),
  shm_write: (c, w, n) => c.shmWrite(n.fd, number(w.offset), plain(w.bytes)),
  shm_stat: (c, w, n) => c.shmStat(n.fd),
  shmget: (c, w, n) => c.shmget(n.key, number(w.size), n.flags),
  shmat: (c, w, n) => c.shmat(n.id, n.flags),
  shmdt: (c, w, n) => c.shmdt(n.attachment),
  shmctl_stat: (c, w, n) => c.shmctlStat(n.id),
  shmctl_set: (c, w, n) => c.shmctlSet(n.id, n.uid, n.gid, n.mode),
  shmctl_rmid: (c, w, n) => c.shmctlRmid(n.id),
  attached_read: (c, w, n) => c.attachedRead(n.attachment, number(w.offset), n.length),
  attached_write: (c, w, n) => c.attachedWrite(n.attachment, number(w.offset), plain(w.bytes)),
}
const time = (text) => (text === 'none' ? null : Number(text))

// Reads one request, compares all of it but its serial, and writes a reply with that serial.
async function answer(socket, wanted, reply) {
  let request = Buffer.alloc(0)
  while (request.length < 4 || request.length < 4 + request.readUInt32BE(0)) {
    request = Buffer.concat([request, (await once(socket, 'data'))[0]])
  }
  const parts = (it) => [it.subarray(0, 4), it.subarray(8)]
  if (wanted) assert.deepEqual(parts(request), parts(wanted))
  if (reply.readUInt32BE(4) !== 0) request.copy(reply, 4, 4, 8)
  socket.write(reply)
}

async function tryRow(row, c, socket) {
  const reply = Buffer.from(row.reply_bytes, 'hex')
  if (row.request === '') {
    const told = once(c, 'notification')
    socket.write(reply)
    assert.deepEqual(shown((await told)[0]), said(row.reply))
    return
  }
  const name = row.request.split(' ')[0]
  // No client sends what is no request: another one is answered so.
  const isFrame = name === 'frame'
  const words = wordsOf(isFrame ? 'interrupt' : row.request)
  const numbers = new Proxy(words, { get: (of, field) => Number(number(of[field])) })
  const served = answer(socket, isFrame ? null : Buffer.from(row.bytes, 'hex'), reply)
  const sent = calls[isFrame ? 'interrupt' : name](c, words, numbers)
  const call = sent.then((value) => ({ value }), (error) => ({ error }))
  await served
  const { value, error } = await call
  if (!error) {
    assert.deepEqual(shown(value, row.reply.split('=')[0]), said(row.reply))
  } else {
    const kind = ['EPROTO', 'EIO'].includes(row.reply) ? ipcd.ConnectionEnded : ipcd.IpcdError
    assert.ok(error instanceof kind, `${error}`)
    assert.equal(error.code, row.reply)
    if (kind === ipcd.IpcdError) assert.equal(error.errno, -reply.readUInt16BE(8))
  }
}

test('vectors', { timeout: 100000 }, async () => {
  assert.ok(rows.length >= 150, `${rows.length} rows are few`)
  const folder = fs.mkdtempSync(path.join(os.tmpdir(), 'ipcd-node-'))
  const server = net.createServer().listen(path.join(folder, 'socket'))
  try {
    for (const [at, row] of rows.entries()) {
      const accepted = once(server, 'connection')
      const c = await ipcd.Connection.connect(path.join(folder, 'socket'))
      const [socket] = await accepted
      try {
        await tryRow(row, c, socket)
      } catch (error) {
        error.message = `row ${at}, ${row.request}: ${error.message}`
        throw error
      } finally {
        c.close()
        socket.destroy()
      }
    }
  } finally {
    server.close()
    fs.rmSync(folder, { recursive: true })
  }
})

// The bodies of replies to HELLO, and the pid and the version that each has; one without a pid is none. Nobody knows
// yet what comes after the version.
const GREETINGS = [['', null], ['000007', null], ['00000007', [7, null]], ['0000000700', [7, null]],
  ['00000007000000', [7, null]], ['0000000700000003', [7, 3]], ['00000007000000040a0b0c0d0e', [7, 4]]]

test('replies to HELLO', { timeout: 100000 }, async () => {
  const folder = fs.mkdtempSync(path.join(os.tmpdir(), 'ipcd-node-'))
  const server = net.createServer((socket) => {
    const body = Buffer.from(GREETINGS[server.at][0], 'hex')
    const head = Buffer.from('00000000000000010000', 'hex')
    head.writeUInt32BE(6 + body.length, 0)
    socket.once('data', () => socket.write(Buffer.concat([head, body])))
  }).listen(path.join(folder, 'socket'))
  try {
    for (server.at = 0; server.at < GREETINGS.length; server.at++) {
      const [body, wanted] = GREETINGS[server.at]
      const c = await ipcd.Connection.connect(path.join(folder, 'socket'))
      const late = setTimeout(() => c.close(), 20000)
      if (wanted === null) await assert.rejects(c.hello(1000, 100), { code: 'ERR_PROTOCOL' }, body)
      else assert.deepEqual([await c.hello(1000, 100), c.version], wanted, body)
      clearTimeout(late)
      c.close()
    }
  } finally {
    server.close()
    fs.rmSync(folder, { recursive: true })
  }
})

// What no server sends: the client ends the connection. Each is the answer to a msgget of serial 1.
const STRANGE = ['0000000a0000000200000000000001', '000000090000000100000000ff', '0000000b00000001000000000001ff',
  '0000000a0000000100110000000b', '00000005000000010000', '00010101000000010000', '000000070000000000000000']

test('strange replies', { timeout: 100000 }, async () => {
  const folder = fs.mkdtempSync(path.join(os.tmpdir(), 'ipcd-node-'))
  const server = net.createServer((socket) => {
    socket.on('error', () => {})
    socket.once('data', () => socket.write(Buffer.from(STRANGE[server.at], 'hex')))
  }).listen(path.join(folder, 'socket'))
  try {
    for (server.at = 0; server.at < STRANGE.length; server.at++) {
      const c = await ipcd.Connection.connect(path.join(folder, 'socket'))
      const late = setTimeout(() => c.close(), 20000)
      await assert.rejects(c.msgget(1, 0), { code: 'ERR_PROTOCOL' }, STRANGE[server.at])
      await assert.rejects(c.interrupt(), { code: 'ERR_PROTOCOL' }, STRANGE[server.at])
      clearTimeout(late)
    }
  } finally {
    server.close()
    fs.rmSync(folder, { recursive: true })
  }
})
