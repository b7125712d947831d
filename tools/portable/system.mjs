// Runs a proved program that was made for WebAssembly: what it calls of a system is handed on to one that is given. No proof
// covers this. A system's functions answer a number below 0, -N, where Linux has the error N:
//   read(file, bytes), write(file, bytes)    how many bytes; 0 to 2 are standard input, output and errors
//   open(name, flags), close(file)           a number above 2; 0
//   rename(name, name), remove(name)         0
//   stat(file, name)                         [mode, device, node, size]; of the open file where the name is empty
//   environment(name)                        a text, or undefined
//   process()                                the number of the process: no other one that runs beside it has it
export function runProgram(module, words, system) {
  const encoded = new TextEncoder(), decoded = new TextDecoder()
  let memory
  const bytes = (at, count) => new Uint8Array(memory.buffer, Number(at), Number(count))
  const name = (at, length) => decoded.decode(bytes(at, length))
  const put = (text, to, room) => {
    if (text === undefined) return -1n
    const word = encoded.encode(text)
    if (word.length > Number(room)) return -2n
    bytes(to, word.length).set(word)
    return BigInt(word.length)
  }
  const host = {
    read: (file, to, size) => BigInt(system.read(file, bytes(to, size))),
    write: (file, from, size) => BigInt(system.write(file, bytes(from, size))),
    open: (at, length, flags) => system.open(name(at, length), flags),
    close: (file) => system.close(file),
    rename: (from, length, to, size) => system.rename(name(from, length), name(to, size)),
    remove: (at, length) => system.remove(name(at, length)),
    stat: (file, at, length, to) => {
      const found = system.stat(file, name(at, length))
      if (typeof found === 'number') return found
      const view = new DataView(memory.buffer)
      found.forEach((it, i) => view.setBigUint64(Number(to) + 8 * i, BigInt(it), true))
      return 0
    },
    process: () => system.process(),
    word: (at, to, room) => put(words[Number(at)], to, room),
    environment: (at, length, to, room) => put(system.environment(name(at, length)), to, room),
  }
  const { exports } = new WebAssembly.Instance(module, { host })
  memory = exports.memory
  return exports.start()
}
