// The frames of a connection: how requests are sent, and replies and notifications received.
import { EventEmitter } from 'node:events'
import net from 'node:net'
import os from 'node:os'

const LONGEST_FRAME = 65792
const NO_TIME = 2n ** 64n - 1n

/** How long, in milliseconds, the reply to an interrupted call may take. */
export const PATIENCE = 30000

const NAMES = Object.fromEntries(Object.entries(os.constants.errno).map(([name, number]) => [number, name]))
// Two names of one number: the manual pages of the calls have this one.
NAMES[os.constants.errno.EAGAIN] = 'EAGAIN'

/** A refused call, as Node's own system errors are: `code` is the name of the error, `errno` its number below 0, and
 * `syscall` the call. */
export class IpcdError extends Error {
  constructor(syscall, number) {
    const code = NAMES[number] ?? `E${number}`
    super(`${code}: ${syscall}`)
    Object.assign(this, { name: 'IpcdError', code, errno: -number, syscall })
  }
}

/** The end of a connection. A request without a reply was maybe done, and maybe not. `code` is ECONNRESET; or EPROTO or
 * EIO, if that was the server's last frame; or ERR_PROTOCOL, if the server has sent what is no frame. */
export class ConnectionEnded extends Error {
  constructor(code, message) {
    super(message)
    Object.assign(this, { name: 'ConnectionEnded', code })
  }
}

/** A reader of a body, which is as a whole what the fields say. */
export class Body {
  constructor(bytes) {
    Object.assign(this, { bytes, at: 0 })
  }
  take(size) {
    if (this.at + size > this.bytes.length) throw new RangeError('a body ends early')
    this.at += size
    return this.at - size
  }
  u16() { return this.bytes.readUInt16BE(this.take(2)) }
  u32() { return this.bytes.readUInt32BE(this.take(4)) }
  i32() { return this.bytes.readInt32BE(this.take(4)) }
  i64() { return this.bytes.readBigInt64BE(this.take(8)) }
  /** Times and sizes of the server are below 2 ** 53. */
  u64() { return Number(this.bytes.readBigUInt64BE(this.take(8))) }
  rest() { return this.bytes.subarray(this.take(this.bytes.length - this.at)) }
  left() { return this.bytes.length - this.at }
}

/** Fields of a request. A number out of its range is a RangeError of Node's. */
export const u8 = (it) => { const b = Buffer.alloc(1); b.writeUInt8(it); return b }
export const u16 = (it) => { const b = Buffer.alloc(2); b.writeUInt16BE(it); return b }
export const i16 = (it) => { const b = Buffer.alloc(2); b.writeInt16BE(it); return b }
export const u32 = (it) => { const b = Buffer.alloc(4); b.writeUInt32BE(it); return b }
export const i32 = (it) => { const b = Buffer.alloc(4); b.writeInt32BE(it); return b }
export const i64 = (it) => { const b = Buffer.alloc(8); b.writeBigInt64BE(BigInt(it)); return b }
export const u64 = (it) => { const b = Buffer.alloc(8); b.writeBigUInt64BE(BigInt(it)); return b }
/** Milliseconds, rounded up, so that no call ends before its time; null is none. */
export const time = (it) => u64(it === null || it === undefined ? NO_TIME : BigInt(Math.ceil(Number(it))))
/** Text as UTF-8, or bytes as they are. */
export const bytes = (it) => {
  return typeof it === 'string' ? Buffer.from(it) : Buffer.from(it.buffer ?? it, it.byteOffset, it.byteLength)
}

// What a request that no frame can carry is refused, as its manual page has it.
const TOO_LONG = { 0x0b: 'EINVAL', 0x15: 'E2BIG', 0x1c: 'EINVAL', 0x2a: 'EMSGSIZE', 0x40: 'EINVAL', 0x4d: 'EINVAL' }

/** A stream of frames in each direction. It emits `notification` with { fd, cookie }, `end` with a ConnectionEnded. */
export class Stream extends EventEmitter {
  #socket
  #serial = 0
  #asked = new Map()
  #read = Buffer.alloc(0)
  #ended = null

  constructor(socket) {
    super()
    this.#socket = socket
    socket.on('data', (data) => this.#take(data))
    socket.on('error', (error) => this.#end(new ConnectionEnded('ECONNRESET', error.message)))
    socket.on('close', () => this.#end(new ConnectionEnded('ECONNRESET', 'the server has ended the connection')))
  }

  /** Connects to the socket of a server. `hello` comes next. */
  static connect(path) {
    return new Promise((resolve, reject) => {
      const socket = net.connect(path)
      socket.once('error', reject)
      socket.once('connect', () => {
        socket.removeListener('error', reject)
        resolve(new this(socket))
      })
    })
  }

  /** Ends the process: its waiting call is gone, its adjustments are added, its descriptors are closed. */
  close() {
    this.#end(new ConnectionEnded('ECONNRESET', 'the connection is closed'))
  }

  /** Sends a request at once, and answers a promise of what `read` reads of the reply's body. If the signal of the
   * options aborts, the call that waits is interrupted; the promise rejects with the signal's reason, unless the reply
   * came first: no message is lost. */
  call(syscall, opcode, fields, read, { signal } = {}) {
    if (signal?.aborted) return Promise.reject(signal.reason)
    const rest = Buffer.concat([Buffer.from([opcode]), ...fields])
    if (rest.length + 4 > LONGEST_FRAME) {
      return Promise.reject(new IpcdError(syscall, os.constants.errno[TOO_LONG[opcode] ?? 'ENAMETOOLONG']))
    }
    if (this.#ended) return Promise.reject(this.#ended)
    this.#serial = this.#serial === 0xffffffff ? 1 : this.#serial + 1
    const serial = this.#serial
    return new Promise((resolve, reject) => {
      const asked = { syscall, read, resolve, reject, signal, forget: () => {} }
      this.#asked.set(serial, asked)
      if (signal) {
        const interrupt = () => this.#interrupt(asked)
        signal.addEventListener('abort', interrupt, { once: true })
        asked.forget = () => signal.removeEventListener('abort', interrupt)
      }
      this.#socket.write(Buffer.concat([u32(rest.length + 4), u32(serial), rest]))
    })
  }

  #interrupt(asked) {
    const limit = setTimeout(() => this.#end(new ConnectionEnded('ECONNRESET', 'the server does not answer')), PATIENCE)
    const forget = asked.forget
    asked.forget = () => {
      clearTimeout(limit)
      forget()
    }
    this.call('interrupt', 0x02, [], () => {}).catch(() => {})
  }

  /** Takes the frames that have come whole. */
  #take(data) {
    this.#read = Buffer.concat([this.#read, data])
    while (!this.#ended && this.#read.length >= 4) {
      const size = this.#read.readUInt32BE(0)
      if (size < 6 || size > LONGEST_FRAME) return this.#breaks()
      if (this.#read.length < 4 + size) return
      const frame = this.#read.subarray(4, 4 + size)
      this.#read = this.#read.subarray(4 + size)
      this.#frame(frame.readUInt32BE(0), frame.readUInt16BE(4), frame.subarray(6))
    }
  }

  #frame(serial, number, body) {
    if (number === os.constants.errno.EPROTO || (serial === 0 && number !== 0)) {
      return this.#end(new ConnectionEnded(NAMES[number], `${NAMES[number]}: the server's last frame`))
    }
    if (serial === 0) {
      if (body.length !== 8) return this.#breaks()
      return this.emit('notification', { fd: body.readUInt32BE(0), cookie: body.readUInt32BE(4) })
    }
    const asked = this.#asked.get(serial)
    if (!asked || (number !== 0 && body.length > 0)) return this.#breaks()
    let value
    try {
      const reader = new Body(body)
      if (number === 0) value = asked.read(reader)
      if (reader.left() > 0) return this.#breaks()
    } catch {
      return this.#breaks()
    }
    this.#asked.delete(serial)
    asked.forget()
    if (number === 0) return asked.resolve(value)
    const isInterrupted = number === os.constants.errno.EINTR && asked.signal?.aborted
    asked.reject(isInterrupted ? asked.signal.reason : new IpcdError(asked.syscall, number))
  }

  #breaks() {
    this.#end(new ConnectionEnded('ERR_PROTOCOL', 'the server has sent what is no reply'))
  }

  #end(how) {
    if (this.#ended) return
    this.#ended = how
    this.#socket.destroy()
    for (const asked of this.#asked.values()) {
      asked.forget()
      asked.reject(how)
    }
    this.#asked.clear()
    this.emit('end', how)
  }
}
