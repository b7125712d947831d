// What the page does: takes two files or three, has a worker check them, and shows what the program says.
const find = (id) => document.getElementById(id)
const MOST = 2 ** 31
const HEAD = 1 << 16
const DRAT = 'DRAT, DPR or FRAT, text or binary'
const KINDS = {
  drat: { program: 'drat_check', second: 'proof', about: DRAT },
  lrat: { program: 'lrat_check', second: 'proof', about: 'LRAT text' },
  model: { program: 'model_check', second: 'answer', about: 's and v lines, or literals up to a 0' },
  never: { program: 'circuit_check', claim: 'never', second: 'proof', about: DRAT },
  same: { program: 'circuit_check', claim: 'same', second: 'proof', about: DRAT },
}
const FOUR = 'p cnf 2 4\n1 2 0\n1 -2 0\n-1 2 0\n-1 -2 0\n'
const GATE = 'aag 3 2 0 1 1\n2\n4\n6\n6 4 2\n'
const EXAMPLES = {
  drat: { formula: FOUR, second: '1 0\n0\n' },
  lrat: { formula: FOUR, second: '5 1 0 1 2 0\n6 0 5 3 4 0\n' },
  model: { formula: 'p cnf 3 3\n1 2 0\n-1 3 0\n-2 -3 0\n', second: 's SATISFIABLE\nv 1 -2 3 0\n' },
  never: { formula: 'aag 2 1 0 1 1\n2\n4\n4 2 3\n', second: '0\n' },
  same: { formula: GATE, other: GATE, second: '-5 0\n0\n' },
}
const MEANINGS = {
  's VERIFIED UNSAT': 'No assignment satisfies the clauses of the formula’s text.',
  's VERIFIED SAT': 'Every assignment that agrees with the answer satisfies the formula, and there is one.',
  's VERIFIED NEVER': 'No input makes an output of the circuit true.',
  's VERIFIED SAME': 'Both circuits have the same outputs for each input.',
  's NOT VERIFIED': 'This shows nothing of SUBJECT: the proof ends too early, or a clause has no literal of the answer.',
}
const PACKED = [
  ['gzip', [0x1f, 0x8b], 'gunzip'],
  ['xz', [0xfd, 0x37, 0x7a, 0x58, 0x5a], 'unxz'],
  ['bzip2', [0x42, 0x5a, 0x68], 'bunzip2'],
  ['zstd', [0x28, 0xb5, 0x2f, 0xfd], 'unzstd'],
  ['zip', [0x50, 0x4b, 0x03, 0x04], 'unzip'],
]
const LOGGED = /^\[[A-Z]+ +[\w:]+\] (.*)\n/gm

const chosen = { formula: undefined, other: undefined, second: undefined }
let worker, timer

const kind = () => document.querySelector('input[name=kind]:checked').value
const roles = () => (kind() === 'same' ? ['formula', 'other', 'second'] : ['formula', 'second'])
const subject = () => (KINDS[kind()].claim ? 'circuit' : 'formula')
const megabytes = (size) => (size < 1e5 ? `${size} bytes` : `${(size / 1e6).toFixed(1)} MB`)

// What a file is by its first bytes: packed by something, a formula, a circuit, an answer, or anything else.
async function lookAt(file) {
  const bytes = new Uint8Array(await file.slice(0, HEAD).arrayBuffer())
  const packer = PACKED.find(([, magic]) => magic.every((byte, i) => bytes[i] === byte))
  const line = new TextDecoder('latin1').decode(bytes).split('\n').find((it) => it.trim() && !/^\s*c/.test(it)) ?? ''
  const isCircuit = /^a[ai]g \d/.test(line)
  return { packer, isCircuit, isFirst: isCircuit || /^\s*p\s+cnf\b/.test(line), isAnswer: /^\s*(s\s+\w|v\s+-?\d)/.test(line) }
}

function show(kindOf, line, meaning = '', said = '') {
  find('result').className = kindOf
  find('verdict').textContent = line
  find('meaning').textContent = meaning
  find('said').textContent = said
}

function stop() {
  clearInterval(timer)
  worker?.terminate()
  worker = undefined
  find('progress').hidden = find('stop').hidden = true
  find('check').disabled = false
}

function put(which, file) {
  chosen[which] = file
  find(`${which}-name`).textContent = file ? `${file.name} (${megabytes(file.size)})` : 'drop a file here, or choose one'
  find(`${which}-zone`).classList.toggle('full', !!file)
  stop()
  show('', '')
}

function setKind(value) {
  document.querySelector(`input[name=kind][value=${value}]`).checked = true
  find('formula-label').textContent = subject()
  find('formula-about').textContent = subject() === 'circuit' ? 'AIGER' : 'DIMACS text'
  find('other-zone').hidden = value !== 'same'
  find('second-label').textContent = KINDS[value].second
  find('second-about').textContent = KINDS[value].about
}

// One file goes where it was dropped; of more, those that begin as a formula or a circuit come first.
async function take(files, which) {
  const looks = await Promise.all(files.map(lookAt))
  const circuits = looks.filter((it) => it.isCircuit).length
  if (files.length > 3 || (files.length === 3 && circuits !== 2)) {
    show('bad', 'Two files are checked at a time', `These are ${files.length}: drop the formula and what the solver wrote, or two circuits and a proof.`)
    return
  }
  if (WASM.circuit_check && (circuits === 2 || (circuits && !KINDS[kind()].claim))) setKind(circuits === 2 ? 'same' : 'never')
  if (files.length === 1) put(which ?? (looks[0].isFirst ? 'formula' : 'second'), files[0])
  else {
    const sorted = files.map((file, i) => [looks[i].isFirst ? 0 : 1, file]).sort(([one], [other]) => one - other)
    const places = circuits === 2 ? ['formula', 'other', 'second'] : ['formula', 'second']
    for (const [i, [, file]] of sorted.entries()) put(places[i], file)
  }
  if (chosen.second && files.includes(chosen.second) && !KINDS[kind()].claim) {
    const name = chosen.second.name
    const isAnswer = looks[files.indexOf(chosen.second)].isAnswer
    if (/\.lrat$/.test(name)) setKind('lrat')
    else if (isAnswer) setKind('model')
    else if (/\.(drat|drup|frat)$/.test(name)) setKind('drat')
  }
}

// The words of the call.
function wordsOf(names) {
  const { claim } = KINDS[kind()]
  return claim ? [claim, ...names.slice(0, -1), '--proof', names.at(-1)] : names
}

// Why the files can't be checked as they are, if so: a line and what to do.
async function objection() {
  const { program, second: called } = KINDS[kind()], files = roles().map((it) => chosen[it])
  if (files.includes(undefined)) {
    return files.length === 2 ? ['Two files are needed', `Choose the ${subject()} and the ${called}.`] : ['Three files are needed', 'Choose both circuits and the proof.']
  }
  const asked = files.length === 2 ? [subject().toUpperCase(), called.toUpperCase()] : ['CIRCUIT', 'OTHER', 'PROOF'], looks = []
  for (const file of files) {
    if (file.size > MOST) {
      const size = `It has ${(file.size / 1e9).toFixed(1)} GB, and this page takes files of up to 2 GB.`
      return [`${file.name} is too large for a page`, `${size} The program takes it: ${[program, ...wordsOf(asked)].join(' ')}`]
    }
    const look = await lookAt(file), { packer } = look
    if (packer) return [`${file.name} is packed`, `It begins as a file of ${packer[0]}. Unpack it first (${packer[2]}), and choose what comes out.`]
    looks.push(look)
  }
  if (looks.at(-1).isFirst && !looks[0].isFirst) {
    return ['The files are the wrong way round', `${files.at(-1).name} begins as a ${subject()} does, and ${files[0].name} does not. Swap them.`]
  }
}

// Names as the program is given them: different from each other, and none that reads as an option.
function named(files) {
  const names = files.map((it) => it.name), safe = (name) => (name.startsWith('-') ? `./${name}` : name)
  return new Set(names).size < names.length ? names.map((name, i) => `${roles()[i]}/${name}`) : names.map(safe)
}

function begin() {
  const { program } = KINDS[kind()], taken = roles().map((it) => chosen[it]), names = named(taken), begun = performance.now()
  const outputs = { 1: '', 2: '' }
  stop()
  show('busy', 'checking …')
  find('progress').hidden = find('stop').hidden = false
  find('check').disabled = true
  find('bar').removeAttribute('value')
  let doing = ''
  timer = setInterval(() => {
    find('doing').textContent = `${doing} ${((performance.now() - begun) / 1000).toFixed(0)} s`
  }, 250)
  worker = new Worker(URL.createObjectURL(new Blob([find('worker').textContent], { type: 'text/javascript' })))
  worker.onmessage = ({ data }) => {
    if (data.progress) {
      const { name, read, size } = data.progress
      doing = read < size ? `reading ${name}: ${megabytes(read)} of ${megabytes(size)},` : `${name} is read,`
      if (read < size) find('bar').value = read / size
      else find('bar').removeAttribute('value')
    } else if (data.output) {
      outputs[data.output] += data.text
      for (const [, line] of data.text.matchAll(LOGGED)) doing = `${line},`
    } else ended(data, outputs)
  }
  worker.onerror = (fault) => ended({ failed: fault.message }, outputs)
  worker.postMessage({ name: program, wasm: WASM[program], words: wordsOf(names), files: Object.fromEntries(names.map((name, i) => [name, taken[i]])) })
}

function ended({ status, seconds, failed }, outputs) {
  stop()
  if (failed !== undefined) {
    show('bad', 'No verdict', `The program did not end as it should; nothing is shown of the ${subject()}.`, failed)
    return
  }
  const line = outputs[1].trim(), said = outputs[2].replace(LOGGED, '').trim()
  const tail = `${KINDS[kind()].program} ended with status ${status} after ${seconds.toFixed(2)} s`
  const more = /out of memory/.test(said) ? 'This page has 3.75 GB of memory at most; the program takes what the machine has.' : ''
  const meaning = status === 0 ? MEANINGS[line] : status === 3 ? MEANINGS['s NOT VERIFIED'].replace('SUBJECT', `the ${subject()}`) : `Refused: nothing is shown of the ${subject()}. ${more}`
  show(status === 0 ? 'good' : 'bad', line || 'No verdict', meaning ?? '', [said, tail].filter(Boolean).join('\n'))
}

find('check').onclick = async () => {
  const why = await objection()
  if (why) show('bad', ...why)
  else begin()
}
find('stop').onclick = () => {
  stop()
  show('', 'Stopped', `Nothing is shown of the ${subject()}.`)
}
find('swap').onclick = () => {
  const { formula, second } = chosen
  put('formula', second)
  put('second', formula)
}
find('example').onclick = () => {
  const { claim } = KINDS[kind()], endings = { formula: claim ? 'aag' : 'cnf', other: 'aag', second: kind() === 'model' ? 'answer' : kind() }
  for (const [which, text] of Object.entries(EXAMPLES[kind()])) put(which, new File([text], `example.${endings[which]}`))
  find('check').click()
}
for (const it of document.querySelectorAll('input[name=kind]')) {
  it.onchange = () => {
    setKind(it.value)
    stop()
    show('', '')
  }
  if (!WASM[KINDS[it.value].program]) it.disabled = true
}
for (const which of ['formula', 'other', 'second']) {
  const input = find(which)
  input.onchange = () => {
    take([...input.files], input.files.length === 1 ? which : undefined)
    input.value = ''
  }
}
document.ondragover = (event) => {
  event.preventDefault()
  for (const zone of document.querySelectorAll('.zone')) zone.classList.toggle('over', zone.contains(event.target))
}
document.ondragleave = () => document.querySelectorAll('.zone').forEach((zone) => zone.classList.remove('over'))
document.ondrop = (event) => {
  event.preventDefault()
  document.querySelectorAll('.zone').forEach((zone) => zone.classList.remove('over'))
  const zone = event.target.closest?.('.zone')
  if (event.dataTransfer.files.length) take([...event.dataTransfer.files], zone?.dataset.which)
}
setKind(Object.keys(KINDS).find((it) => WASM[KINDS[it].program]))
