// Plays the page in Chromium without a window: gives it two files or three as a user does, and compares what it says.
//
//   node page.mjs PAGE FOLDER < CASES
//
// CASES is JSON: a list of { kind, files, verdict, said, click, drop }. After each, the page has to show this verdict, and this text
// within what it says. With `click` that button is pressed in place of Check; with `drop`, names and texts of files, these are dropped
// on the page in place of being chosen. FOLDER gets a picture of each. No request may leave the page.
import { spawn } from 'node:child_process'
import { mkdtempSync, readFileSync, rmSync, writeFileSync } from 'node:fs'
import { tmpdir } from 'node:os'
import { join, resolve } from 'node:path'

const [, , page, folder] = process.argv
const home = mkdtempSync(join(tmpdir(), 'page-'))
const words = ['--headless=new', '--no-sandbox', '--disable-gpu', '--disable-dev-shm-usage', '--no-first-run', `--user-data-dir=${home}`, '--window-size=900,900', '--remote-debugging-pipe']
const browser = spawn('chromium', [...words, 'about:blank'], { stdio: ['ignore', 'ignore', 'ignore', 'pipe', 'pipe'] })
const waiting = new Map(), requests = []
let count = 0, text = ''
browser.stdio[4].on('data', (data) => {
  const parts = (text + data).split('\0')
  text = parts.pop()
  for (const part of parts) {
    const message = JSON.parse(part)
    waiting.get(message.id)?.(message)
    waiting.delete(message.id)
    if (message.method === 'Network.requestWillBeSent') requests.push(message.params.request.url)
  }
})
const send = (method, params = {}, sessionId = undefined) =>
  new Promise((done, failed) => {
    waiting.set(++count, (it) => (it.error ? failed(new Error(`${method}: ${it.error.message}`)) : done(it.result)))
    browser.stdio[3].write(JSON.stringify({ id: count, method, params, sessionId }) + '\0')
  })
const { targetId } = await send('Target.createTarget', { url: 'about:blank' })
const { sessionId } = await send('Target.attachToTarget', { targetId, flatten: true })
const call = (method, params) => send(method, params, sessionId)
const ask = async (expression) => (await call('Runtime.evaluate', { expression, returnByValue: true, awaitPromise: true })).result.value
const sleep = (milliseconds) => new Promise((done) => setTimeout(done, milliseconds))

// until EXPRESSION holds, for a minute at most
async function until(expression) {
  for (const end = Date.now() + 60000; Date.now() < end; await sleep(20)) if (await ask(expression)) return true
  return false
}

async function give(selector, files) {
  const { root } = await call('DOM.getDocument')
  const { nodeId } = await call('DOM.querySelector', { nodeId: root.nodeId, selector })
  await call('DOM.setFileInputFiles', { nodeId, files: files.map((it) => resolve(it)) })
}

const dropped = (files) => `(() => {
  const dataTransfer = new DataTransfer()
  for (const [name, text] of ${JSON.stringify(files)}) dataTransfer.items.add(new File([text], name))
  document.body.dispatchEvent(new DragEvent('drop', { dataTransfer, bubbles: true, cancelable: true }))
})()`

async function play({ kind, files = [], click = 'check', drop = undefined, verdict, said }) {
  await call('Page.navigate', { url: `file://${resolve(page)}` })
  await until("document.readyState === 'complete' && !!document.querySelector('input[name=kind]:checked')")
  for (const [i, which] of (kind === 'same' ? ['formula', 'other', 'second'] : ['formula', 'second']).entries()) {
    if (!files[i]) continue
    await give(`#${which}`, [files[i]])
    await until(`document.getElementById('${which}-zone').classList.contains('full')`)
  }
  if (drop) {
    await ask(dropped(drop))
    await until(`document.querySelectorAll('.zone.full').length === ${drop.length}`)
  } else await ask(`document.querySelector('input[name=kind][value=${kind}]').click()`)
  await ask(`document.getElementById('${click}').click()`)
  await until("/good|bad/.test(document.getElementById('result').className)")
  const shown = await ask("document.getElementById('verdict').textContent")
  const whole = await ask("document.getElementById('result').innerText")
  return shown === verdict && whole.includes(said) ? '' : `${kind} ${files.join(' ')}: not ${verdict}, ${said}, but\n${whole}`
}

await call('Network.enable')
await call('DOM.enable')
let wrong = 0
for (const [i, it] of JSON.parse(readFileSync(0, 'utf8')).entries()) {
  const fault = await play(it)
  const { data } = await call('Page.captureScreenshot', { format: 'png' })
  writeFileSync(join(folder, `page${i}.png`), Buffer.from(data, 'base64'))
  if (fault) {
    wrong = 1
    console.log(fault)
  }
}
const left = requests.filter((it) => !/^(file|blob|about|data):/.test(it))
if (left.length) {
  wrong = 1
  console.log(`the page asked for ${left.join(' ')}`)
}
if (await ask("fetch('https://example.org/').then(() => true, () => false)")) {
  wrong = 1
  console.log('the page may ask for something')
}
const ended = new Promise((done) => browser.on('exit', done))
await send('Browser.close')
await ended
rmSync(home, { recursive: true, force: true })
process.exitCode = wrong
