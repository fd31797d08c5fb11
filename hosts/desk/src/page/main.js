// The page: what was chosen is asked, and what is answered is drawn.

import { drawAnswer, drawPartners } from './answer.js'
import { byId, save } from './elements.js'
import { drawMore, openMore } from './more.js'
import { drawRigs } from './rigs.js'
import { ask, stayPresent } from './server.js'
import { acceptDrops, drawCards, filesOf, isUnsaved, onWarning, take } from './sheets.js'
import { canRedo, canUndo, change, currentRig, fresh, onChange, redo, state, undo } from './state.js'
import { drawTables, setMode } from './tables.js'

// Before this nothing is shown of a search.
const MOMENT = 300

/** What is known of the state: replies, and the searches that are under way. */
const model = { reply: null, rigs: null, comparing: '', cut: null, told: null, note: '', busy: -1, stopped: -1, time: '1m' }

let search = null

const filesFor = sheets => [...new Set(sheets)].flatMap(sheet => filesOf(sheet))
const isUsable = sheet => Boolean(sheet?.about.table)

function warn(text) {
  byId('alert').textContent = text
  byId('alert').hidden = !text
}

/** The command that looks for partners, as it is typed at a prompt. */
function moveArguments(more = []) {
  const { show, mirror, preferNames, way, pins, not } = state()
  return ['move', show.name, currentRig().name, '--timeout', model.time,
    ...(mirror ? ['--mirror'] : []),
    ...(preferNames ? ['--prefer-names'] : []),
    ...pins.flatMap(([cue, partner]) => ['--pin', `${cue}=${partner}`]),
    ...not.flatMap(([cue, partner]) => ['--not', `${cue}=${partner}`]),
    ...(way && !more.length ? [`--next=${way}`] : []), ...more]
}

/** Asks one thing at a time, which can be stopped; nothing where it was, or where another question came after it. */
async function asking(args, files) {
  search?.controller.abort()
  const mine = { controller: new AbortController(), begun: Date.now(), stopped: false }
  search = mine
  model.stopped = -1
  const clock = setInterval(() => {
    const passed = Date.now() - mine.begun
    if (passed < MOMENT) return
    model.busy = Math.floor(passed / 1000)
    drawAnswer(model, actions)
  }, 200)
  try {
    return await ask(args, files, { signal: mine.controller.signal })
  } catch (error) {
    if (error.name !== 'AbortError') warn(error.message)
    else if (mine.stopped) model.stopped = Math.round((Date.now() - mine.begun) / 1000)
    return null
  } finally {
    clearInterval(clock)
    if (search === mine) {
      search = null
      model.busy = -1
    }
  }
}

/** Asks something more while the answer stands. */
async function askingMore(args, files) {
  const reply = await asking(args, files)
  if (!reply && model.stopped >= 0) Object.assign(model, { note: `Stopped after ${model.stopped} s.`, stopped: -1 })
  return reply
}

// What is asked beside the answer, by its kind.
const beside = {}

/** Asks something beside the answer, instead of what of this kind is under way; nothing where it is stopped or fails, which is told. */
async function askBeside(kind, args, files) {
  beside[kind]?.abort()
  const controller = new AbortController()
  beside[kind] = controller
  try {
    return await ask(args, files, { signal: controller.signal })
  } catch (error) {
    if (error.name !== 'AbortError') warn(error.message)
    return null
  } finally {
    if (beside[kind] === controller) delete beside[kind]
  }
}

/** Asks for files and saves them. */
async function saveWritten(args, sheets) {
  const reply = await askBeside('save', args, filesFor(sheets))
  reply?.files.forEach(file => save(file.name, file.text))
}

// What the replies belong to: they are asked anew where it has changed.
let asked = { sheets: '', move: '', rigs: '', cut: '' }
const numbers = new WeakMap()
let last = 0

/** A text that is the same for the same sheets and choices. */
function key(sheets, ...choices) {
  const number = sheet => {
    if (!numbers.has(sheet)) numbers.set(sheet, ++last)
    return numbers.get(sheet)
  }
  return JSON.stringify([sheets.map(number), choices])
}

async function lookForPartners() {
  const { show, mirror, preferNames, way, pins, not } = state()
  const rig = currentRig()
  const usable = isUsable(show) && isUsable(rig)
  const wanted = usable ? key([show, rig], mirror, preferNames, way, pins, not, model.time) : ''
  if (wanted === asked.move) return
  asked.move = wanted
  beside.told?.abort()
  Object.assign(model, { note: '', told: null })
  const pair = usable ? key([show, rig]) : ''
  if (pair !== asked.sheets) model.reply = null
  asked.sheets = pair
  if (!usable) return search?.controller.abort()
  // An earlier answer about these sheets stays for a moment, so that the page does not jump.
  const later = setTimeout(() => {
    model.reply = null
    draw()
  }, MOMENT)
  const reply = await asking(moveArguments(), filesFor([show, rig]))
  clearTimeout(later)
  if (asked.move !== wanted) return
  model.reply = reply
  draw()
}

async function compareRigs() {
  const { show, rigs } = state()
  const wanted = isUsable(show) && rigs.length > 1 ? key([show, ...rigs]) : ''
  if (wanted === asked.rigs) return
  asked.rigs = wanted
  Object.assign(model, { rigs: null, comparing: '' })
  if (!wanted) return beside.rigs?.abort()
  const later = setTimeout(() => {
    model.comparing = 'busy'
    draw()
  }, MOMENT)
  const reply = await askBeside('rigs', rigsArguments(), filesFor([show, ...rigs]))
  clearTimeout(later)
  if (asked.rigs !== wanted) return
  Object.assign(model, { rigs: reply, comparing: reply ? '' : 'stopped' })
  draw()
}

const rigsArguments = () => ['rigs', state().show.name, ...state().rigs.map(rig => rig.name)]
const cutArguments = () => ['cut', state().show.name, '--cues', state().part.join(',')]

async function cutPart() {
  const { show, part } = state()
  const wanted = isUsable(show) && part.length ? key([show], part) : ''
  if (wanted === asked.cut) return
  asked.cut = wanted
  model.cut = null
  if (!wanted) return
  const reply = await askBeside('cut', [...cutArguments(), '--output', 'part.csv'], filesFor([show]))
  if (asked.cut !== wanted) return
  model.cut = reply
  draw()
}

function draw() {
  drawAnswer(model, actions)
  drawRigs(model, actions)
  drawPartners(model.reply, actions)
  drawTables(model.reply?.answer)
  drawMore(model, actions)
}

/** After every step: what is there is drawn, what is not known is asked. */
function refresh() {
  warn('')
  byId('undo').disabled = !canUndo()
  byId('redo').disabled = !canRedo()
  lookForPartners()
  compareRigs()
  cutPart()
  drawCards()
  draw()
}

/** Asks for the answer in another form, and says it beside the answer. */
async function note(args) {
  const reply = await askingMore(args, filesFor([state().show, currentRig()]))
  if (reply) model.note = reply.answer.says
  draw()
}

const actions = {
  stop() {
    if (!search) return
    search.stopped = true
    search.controller.abort()
  },
  again() {
    asked.move = ''
    refresh()
  },
  setTime(time) {
    model.time = time
    refresh()
  },
  previous() {
    if (state().way > 0) change({ way: state().way - 1 })
  },
  /** The next way, where there is one; it is asked for first. */
  async next() {
    const { show, way, mirror, preferNames, pins, not } = state()
    const rig = currentRig()
    if (!isUsable(show) || !isUsable(rig) || model.reply?.answer.status !== 'found') return
    const before = model.reply
    const reply = await askingMore(moveArguments([`--next=${way + 1}`]), filesFor([show, rig]))
    if (!reply || model.reply !== before) return draw()
    if (reply.answer.status === 'found') {
      asked.move = key([show, rig], mirror, preferNames, way + 1, pins, not, model.time)
      Object.assign(model, { reply, note: '' })
      change({ way: way + 1 })
    } else {
      model.note = reply.answer.says
      draw()
    }
  },
  count: () => note(moveArguments(['--count'])),
  copies: () => note(['copies', state().show.name, currentRig().name, '--timeout', model.time]),
  async why() {
    const before = model.reply
    const { show, mirror } = state()
    const reply = await askingMore(['why', show.name, currentRig().name, '--timeout', model.time], filesFor([show, currentRig()]))
    if (reply && model.reply === before && !mirror) model.reply = { ...reply, answer: { ...reply.answer, offer: before?.answer.offer } }
    draw()
  },
  exchange() {
    const { show, rigs } = state()
    const rig = currentRig()
    change({ ...fresh, show: rig, rigs: rigs.map(other => other === rig ? show : other), part: [] })
  },
  savePartners: () => saveWritten([...moveArguments(), '--output', 'partners.csv'], [state().show, currentRig()]),
  savePage: () => saveWritten([...moveArguments(), '--html', 'moving.html'], [state().show, currentRig()]),
  async saveRigs() {
    const { show, rigs } = state()
    const reply = await askBeside('save', [...rigsArguments(), '--csv'], filesFor([show, ...rigs]))
    if (reply) save('rigs.csv', reply.printed)
  },
  saveRigsPage: () => saveWritten([...rigsArguments(), '--html', 'rigs.html'], [state().show, ...state().rigs]),
  stopComparing: () => beside.rigs?.abort(),
  compareAgain() {
    asked.rigs = ''
    refresh()
  },
  savePart() {
    model.cut?.files.forEach(file => save(file.name, file.text))
  },
  savePartPage: () => saveWritten([...cutArguments(), '--html', 'part.html'], [state().show]),
  usePart() {
    const files = (model.cut?.files ?? []).map(file => new File([file.text], file.name))
    if (files.length) take(files, 'show')
  },
  classes(more) {
    const { show, rigs } = state()
    const sheets = [show, ...rigs].filter(Boolean)
    const args = ['classes', ...sheets.map(sheet => sheet.name), ...more]
    actions.tell(args, sheets, { args: [...args, '--html', 'classes.html'], sheets })
  },
  list: most => actions.tell(moveArguments([`--all=${most}`]), [state().show, currentRig()]),
  limited(trials) {
    const { show, mirror } = state()
    const rig = currentRig()
    actions.tell(['move', show.name, rig.name, `--limit=${trials}`, ...(mirror ? ['--mirror'] : [])], [show, rig])
  },
  /** Checks a table by cues that build it; where none is given they are asked for first. */
  async checkBy(sheet, cues) {
    const given = cues.length ? cues : (await askBeside('told', ['cues', sheet.name], filesOf(sheet)))?.answer.result?.building.cues
    if (given) actions.tell(['check', sheet.name, `--cues=${given.join(',')}`], [sheet])
  },
  /** Saves a sheet as other programs take it, made from what was dropped or from its corrected cells. */
  async mend(sheet) {
    const reply = await actions.telling(['mend', sheet.name], filesOf(sheet, !sheet.corrected))
    reply?.files.forEach(file => save(file.name, file.text))
  },
  tell: (args, sheets, page) => actions.telling(args, filesFor(sheets), page),
  /** Asks and shows what is printed, with the arguments of a page of it where there is one. */
  async telling(args, files, page) {
    openMore()
    const later = setTimeout(() => {
      model.told = { busy: true }
      draw()
    }, MOMENT)
    const reply = await askBeside('told', args, files)
    clearTimeout(later)
    if (!beside.told) model.told = reply && { text: reply.printed || reply.answer.says, page }
    draw()
    byId('more').scrollIntoView({ block: 'nearest' })
    return reply
  },
  stopTelling: () => beside.told?.abort(),
  savePageOf: ({ args, sheets }) => saveWritten(args, sheets),
}

/** Keys that work anywhere but where something is typed. */
function press(event) {
  const modified = event.ctrlKey || event.metaKey
  if (event.target.closest(modified ? 'input' : 'input,select') || byId('help').open) return
  const key = event.key.toLowerCase()
  const does = modified
    ? { z: event.shiftKey ? redo : undo, y: redo }[key]
    : {
      n: actions.next,
      b: actions.previous,
      m: () => change({ mirror: !state().mirror, way: 0 }),
      p: () => setMode('pin'),
      x: () => setMode('apart'),
      c: () => setMode('part'),
      escape: () => search ? actions.stop() : setMode('look'),
      '?': () => byId('help').showModal(),
    }[key]
  if (!does || event.altKey) return
  event.preventDefault()
  does()
}

onChange(refresh)
onWarning(warn)
acceptDrops()
byId('undo').addEventListener('click', undo)
byId('redo').addEventListener('click', redo)
byId('keys').addEventListener('click', () => byId('help').showModal())
document.addEventListener('keydown', press)
// The browser asks before it closes the page.
addEventListener('beforeunload', event => { if (isUnsaved()) event.preventDefault() })
stayPresent(isHere => warn(isHere ? '' : 'The program has ended. Start it again: tickdrizzle open'))
refresh()
