
// node cefindrato.mjs NAME WORD..: the program NAME.wasm beside this file, as it is called anywhere else
import { closeSync, fstatSync, openSync, readdirSync, readFileSync, readSync, renameSync, statSync, unlinkSync, writeSync } from 'node:fs'

const tried = (call) => {
  try {
    return call()
  } catch (fault) {
    return fault.errno ?? -5
  }
}
const WRITES = 3
const system = {
  read: (file, to) => tried(() => readSync(file, to)),
  write: (file, from) => tried(() => writeSync(file, from)),
  open: (name, flags) => tried(() => openSync(name, flags & WRITES ? 'w' : 'r')),
  close: (file) => tried(() => closeSync(file) ?? 0),
  rename: (from, to) => tried(() => renameSync(from, to) ?? 0),
  remove: (name) => tried(() => unlinkSync(name) ?? 0),
  stat: (file, name) => tried(() => {
    const it = name ? statSync(name, { bigint: true }) : fstatSync(file, { bigint: true })
    return [it.mode, it.dev, it.ino, it.size]
  }),
  environment: (name) => process.env[name],
  process: () => process.pid,
}
const VERSION = '@VERSION@'
const names = readdirSync(new URL('.', import.meta.url)).filter((it) => it.endsWith('.wasm')).map((it) => it.slice(0, -5)).sort()
const HELP = `usage: node cefindrato.mjs NAME WORD..

Run a proved program that was made for WebAssembly, with the same words as elsewhere.

operands:
  NAME  the program, one of those beside this file: ${names.join(', ')}
  WORD  the arguments of the program: NAME --help shows them

options:
  --help     show this help, as -h
  --version  show the version, as -V

exit status:
  2  there is no such program or option; any other is the program's
`
const refuse = (why) => {
  console.error(`${why} (node cefindrato.mjs --help says how it is called)`)
  process.exit(2)
}
const [, , called = '', ...words] = process.argv
if (called === '-h' || called === '--help') {
  process.stdout.write(HELP)
} else if (called === '-V' || called === '--version') {
  console.log(`cefindrato.mjs ${VERSION}`)
} else if (called.startsWith('-')) {
  refuse(`there is no option ${called}`)
} else if (!names.includes(called)) {
  refuse(called ? `there is no program ${called}` : 'no program is named')
} else {
  const bytes = readFileSync(new URL(`${called}.wasm`, import.meta.url))
  const module = await WebAssembly.compile(bytes).catch((why) => refuse(`${called}.wasm is no module: ${why.message}`))
  process.exitCode = runProgram(module, [called, ...words], system)
}
