// The worker of the page: runs a program over files that stay files, so that a proof need not fit into memory.
const PIECE = 1 << 20
const modules = {}

// A file that is read from its beginning to its end, a piece at a time.
class Opened {
  constructor(file, tell) {
    Object.assign(this, { file, tell, from: 0, at: 0, piece: new Uint8Array(0) })
  }

  read(to) {
    if (this.at === this.from + this.piece.length) {
      const part = this.file.slice(this.at, this.at + PIECE)
      this.piece = new Uint8Array(new FileReaderSync().readAsArrayBuffer(part))
      this.from = this.at
      this.tell(this.file, this.at + this.piece.length)
    }
    const part = this.piece.subarray(this.at - this.from, this.at - this.from + to.length)
    to.set(part)
    this.at += part.length
    return part.length
  }
}

// The system that a program sees: files by their names, two outputs, and nothing else.
function systemOver(files, tell) {
  const names = Object.keys(files), opened = new Map(), decoders = { 1: new TextDecoder(), 2: new TextDecoder() }
  let last = 2
  return {
    read: (file, to) => {
      try {
        return opened.get(file)?.read(to) ?? -9
      } catch {
        return -5
      }
    },
    write: (file, from) => {
      if (!decoders[file]) return -9
      postMessage({ output: file, text: decoders[file].decode(from.slice(), { stream: true }) })
      return from.length
    },
    open: (name, flags) => {
      if (flags & 3) return -13
      if (!files[name]) return -2
      opened.set(++last, new Opened(files[name], tell))
      return last
    },
    close: (file) => (opened.delete(file) ? 0 : -9),
    rename: () => -13,
    remove: () => -13,
    stat: (file, name) => {
      const it = name ? files[name] : opened.get(file)?.file
      return it ? [0o100644, 0, 1 + names.findIndex((other) => files[other] === it), it.size] : -2
    },
    environment: (name) => (name === 'RUST_LOG' ? 'info' : undefined),
    process: () => 1,
  }
}

onmessage = async ({ data: { name, wasm, words, files } }) => {
  const tell = (file, read) => postMessage({ progress: { name: file.name, read, size: file.size } })
  try {
    modules[name] ??= await WebAssembly.compile(Uint8Array.from(atob(wasm), (c) => c.charCodeAt(0)))
    const begun = performance.now()
    const status = runProgram(modules[name], [name, ...words], systemOver(files, tell))
    postMessage({ status, seconds: (performance.now() - begun) / 1000 })
  } catch (fault) {
    postMessage({ failed: String(fault) })
  }
}
