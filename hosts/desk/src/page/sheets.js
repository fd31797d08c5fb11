// Sheets: dropped or chosen, read by the program, corrected, saved as new files.
//
// A sheet has a name of its own, made of that of its file (`file`), of a workbook's sheet with # and its title, its cells as they stand,
// perhaps a name sheet, and `about`, what the program says of it. Like all that can be undone it is never changed but replaced.

import { byId, button, count, element, fill, save } from './elements.js'
import { ask, Unanswered } from './server.js'
import { change, chooseRig, currentRig, fresh, replaced, state } from './state.js'

const MOST_BYTES = 2 << 20
const ENDINGS = '.csv,.ods,.xlsx,.tsv,.tab,.txt'

let warn = () => {}
export const onWarning = listen => { warn = listen }

const sheets = () => [state().show, ...state().rigs].filter(Boolean)
const stem = name => name.replace(/\.[^.]*$/, '')
const isNameSheet = name => stem(name).endsWith('.names')

/** A name that no other sheet has, and that is no option of a command, with # and a title after it. */
function freeName(wanted, taken, title = '') {
  const plain = wanted.replace(/^-+/, '') || 'sheet.csv'
  const suffix = title && `#${title}`
  let name = plain + suffix
  for (let number = 2; taken.includes(name); number++) {
    name = `${stem(plain)} (${number})${plain.slice(stem(plain).length)}${suffix}`
  }
  return name
}

/** The name of the file that holds a sheet. */
const fileOf = ({ name, title }) => title ? name.slice(0, -1 - title.length) : name

/** The files that a sheet is sent as: its cells, or what was dropped. */
export function filesOf(sheet, asDropped = !sheet.cells) {
  const table = asDropped ? { name: fileOf(sheet), base64: sheet.base64 } : { name: sheet.name, cells: sheet.cells }
  if (!sheet.names) return [table]
  const ending = sheet.names.name.slice(stem(sheet.names.name).length).toLowerCase()
  return [table, { name: `${stem(table.name)}.names${ending}`, base64: sheet.names.base64 }]
}

/** The sheet with what the program says of it. What was mended when its file was read stays told. */
async function read(sheet) {
  const reply = await ask(['check', sheet.name], filesOf(sheet))
  const about = reply.answer.sheets[0]
  if (!about) throw new Unanswered(reply.answer.says)
  const [file] = reply.read
  const fromFile = file ? { cells: file.cells, titles: file.sheets, mended: about.mended } : {}
  return { ...sheet, ...fromFile, about, hints: reply.answer.hints }
}

function base64Of(file) {
  return new Promise((resolve, reject) => {
    const reader = new FileReader()
    reader.onload = () => resolve(reader.result.slice(reader.result.indexOf(',') + 1))
    reader.onerror = () => reject(new Unanswered(`${file.name} cannot be read.`))
    reader.readAsDataURL(file)
  })
}

// One thing after another is done with sheets, so that each finds what came of the one before.
let work = Promise.resolve()

/** Does something with sheets once all before it is done, and tells why where it fails. */
function next(step) {
  work = work.then(step).catch(error => warn(error.message))
}

/** Takes files that were dropped on a place, "show" or "rig". */
export function take(list, place) {
  const files = [...list].sort((one, other) => one.name.localeCompare(other.name, 'en', { numeric: true }))
  next(() => takeAll(files, place))
}

/** Takes files in their order; those that are too long are told and left out. Name sheets go to the sheets that they belong to. */
async function takeAll(files, place) {
  const [tables, nameSheets] = [[], []]
  for (const file of files.filter(({ size }) => size <= MOST_BYTES)) {
    const sent = { name: file.name, base64: await base64Of(file) }
    if (isNameSheet(file.name)) nameSheets.push(sent)
    else tables.push(sent)
  }
  const taken = sheets().map(sheet => sheet.name)
  const made = []
  for (const { name, base64 } of tables) {
    const names = nameSheets.find(other => stem(stem(other.name)) === stem(name)) ?? null
    if (names) nameSheets.splice(nameSheets.indexOf(names), 1)
    const sheet = { name: freeName(name, taken), file: name, title: '', base64, cells: null, names, corrected: false }
    taken.push(sheet.name)
    made.push(await read(sheet))
  }
  if (made.length) put(made, place)
  for (const names of nameSheets) await giveNames(names, place)
  const long = files.filter(({ size }) => size > MOST_BYTES).map(({ name }) => name)
  if (long.length) throw new Unanswered(`${long.join(', ')} ${long.length > 1 ? 'are' : 'is'} too long for a sheet: more than 2 MB.`)
}

/** The first of some sheets is the show where the place is the show's; all others are rigs. */
function put(made, place) {
  const { show, rigs } = state()
  const forShow = place === 'show' || (place === 'any' && !show)
  const [first, ...others] = forShow ? made : [show, ...made]
  const isOther = first !== show || !rigs.length
  change({ ...(isOther ? fresh : {}), ...(first !== show ? { part: [] } : {}), show: first, rigs: [...rigs, ...others] })
}

/** Gives names to the sheet that a name sheet is called after, first of those at the place where it was dropped, or else to the one there. */
async function giveNames(names, place) {
  const there = place === 'rig' ? state().rigs : [state().show].filter(Boolean)
  const called = [...there, ...sheets()].find(sheet => stem(sheet.file) === stem(stem(names.name)))
  const sheet = called ?? (place === 'rig' ? currentRig() : state().show) ?? sheets()[0]
  if (!sheet) throw new Unanswered(`${names.name} is a name sheet: drop its table first, or both at once.`)
  await renew(sheet, { names })
}

// What has come of a sheet, by the sheet.
const successors = new WeakMap()

/** Puts a sheet with other fields in the place of one, once the program has looked at it. */
async function renew(sheet, fields, also = { way: 0 }) {
  const made = await read({ ...sheet, ...fields })
  if (!sheets().includes(sheet)) return
  successors.set(sheet, made)
  change({ ...replaced(sheet, made), ...also })
}

/** Takes the sheet of this title from the same workbook. */
function chooseTitle(sheet, title) {
  const taken = sheets().filter(other => other !== sheet).map(other => other.name)
  const name = freeName(fileOf(sheet), taken, title)
  const also = sheet === state().show ? { ...fresh, part: [] } : fresh
  next(() => renew(sheet, { name, title, cells: null, corrected: false }, also))
}

/** Corrects cells of a sheet, or of what has come of it meanwhile: rows and columns as a spreadsheet counts them, from 1. */
export function correct(sheet, corrections) {
  next(() => {
    let latest = sheet
    while (!sheets().includes(latest) && successors.has(latest)) latest = successors.get(latest)
    // Another sheet of the workbook is none of this one's.
    if (latest.name !== sheet.name) return null
    return renew(latest, { cells: corrected(latest.cells, corrections), corrected: true })
  })
}

/** Cells with some of them corrected. */
function corrected({ row, column, rows }, corrections) {
  const changed = rows.map(cells => [...cells])
  for (const [at, across, text] of corrections) {
    const cells = changed[at - row] ??= []
    while (cells.length < across - column) cells.push('')
    cells[across - column] = text
  }
  return { row, column, rows: changed }
}

// Corrected sheets that were saved.
const saved = new WeakSet()

function saveSheet(sheet) {
  next(async () => {
    const [file] = (await ask(['check', sheet.name], filesOf(sheet), { save: true })).files
    save(file.name, file.text)
    saved.add(sheet)
  })
}

/** Whether a corrected sheet was not saved. */
export const isUnsaved = () => sheets().some(sheet => sheet.corrected && !saved.has(sheet))

/** A button that chooses files for a place, for those who do not drop them. */
function chooser(place, text, attributes) {
  const input = element('input', { type: 'file', accept: ENDINGS, multiple: true, hidden: true, id: `${place}-file`,
    onchange: event => { take(event.target.files, place); event.target.value = '' } })
  return [input, button(text, () => input.click(), attributes)]
}

function emptyCard(place) {
  const [what, files] = place === 'show' ? ['the show’s sheet', 'a file for the show'] : ['the rig’s sheet, or several rigs,', 'files for the rigs']
  return element('div', { class: 'empty' },
    element('p', { class: 'ask' }, `Drop ${what} here`),
    chooser(place, 'Choose a file', { class: 'main', 'aria-label': `Choose ${files}` }),
    element('p', { class: 'faint' }, '.ods, .xlsx, CSV or other text, and name sheets. At most 120 cues.'))
}

/** Which sheet of its workbook this is, where that has several. */
function titles(sheet) {
  const option = title => element('option', { value: title, selected: title === (sheet.title || sheet.titles[0]) }, title)
  return sheet.titles.length > 1 && element('label', { class: 'titles' }, 'Sheet ',
    element('select', { 'aria-label': `Sheet of ${fileOf(sheet)}`, onchange: event => chooseTitle(sheet, event.target.value) }, sheet.titles.map(option)))
}

/** A sheet in a line or two: its name, what it is, what was mended. */
function sheetEntry(sheet, place, chosen) {
  const { about } = sheet
  const names = about.name_sheet?.refusal ? 'its name sheet is refused' : about.names.length ? 'with names' : ''
  const what = about.refusal ? 'cannot be used yet' : [count(about.order, 'cue'), names].filter(Boolean).join(', ')
  const several = place === 'rig' && state().rigs.length > 1
  const choose = several && button(sheet.name, () => chooseRig(state().rigs.indexOf(sheet)), { class: 'name', 'aria-pressed': String(chosen) })
  const remove = () => place === 'show' ? change({ ...fresh, show: null, part: [] }) : removeRig(sheet)
  const notes = [...sheet.mended.map(text => `On reading: ${text}.`), ...(sheet.hints ?? [])]
  return element('li', { class: `sheet ${about.refusal ? 'bad' : 'good'}${several && chosen ? ' chosen' : ''}` },
    element('div', { class: 'line' },
      choose || element('strong', { class: 'name' }, sheet.name),
      titles(sheet),
      element('span', { class: 'what' }, what),
      sheet.corrected && element('span', { class: 'tag' }, 'corrected'),
      element('span', { class: 'room' }),
      sheet.corrected && button('Save as a new file', () => saveSheet(sheet), { class: 'small' }),
      button('Remove', remove, { class: 'small', 'aria-label': `Remove ${sheet.name}` })),
    notes.length > 0 && element('ul', { class: 'notes' }, notes.map(text => element('li', {}, text))),
    about.name_sheet?.refusal && element('p', { class: 'notes' }, `${about.name_sheet.path}: ${about.name_sheet.refusal.faults[0].where}: `
      + `${about.name_sheet.refusal.faults[0].there}; expected ${about.name_sheet.refusal.expected}. Cues are shown by number.`))
}

/** Takes a rig away. Another one that is looked at stays so. */
function removeRig(sheet) {
  const rigs = state().rigs.filter(rig => rig !== sheet)
  const still = rigs.indexOf(currentRig())
  change(still >= 0 ? { rigs, rig: still } : { ...fresh, rigs, rig: Math.max(0, Math.min(state().rig, rigs.length - 1)) })
}

export function drawCards() {
  const { show, rigs } = state()
  fill(byId('show-body'), show
    ? [element('ul', { class: 'entries' }, sheetEntry(show, 'show', true)), element('p', { class: 'add' }, chooser('show', 'Another show', { class: 'quiet' }))]
    : emptyCard('show'))
  byId('rig-title').textContent = rigs.length > 1 ? `${rigs.length} rigs` : 'The rig'
  fill(byId('rig-body'), rigs.length
    ? [element('ul', { class: rigs.length > 6 ? 'entries many' : 'entries' }, rigs.map(rig => sheetEntry(rig, 'rig', rig === currentRig()))),
      element('p', { class: 'add' }, chooser('rig', 'Add rigs', { class: 'quiet' }))]
    : emptyCard('rig'))
}

/** Files may be dropped on both cards, and anywhere else. */
export function acceptDrops() {
  const cards = [['show', byId('show-card')], ['rig', byId('rig-card')]]
  const placeOf = event => cards.find(([, card]) => card.contains(event.target))?.[0] ?? 'any'
  const mark = place => cards.forEach(([name, card]) => card.classList.toggle('over', name === place))
  document.addEventListener('dragover', event => { event.preventDefault(); mark(placeOf(event)) })
  document.addEventListener('dragleave', event => { if (!event.relatedTarget) mark(null) })
  document.addEventListener('drop', event => {
    event.preventDefault()
    mark(null)
    if (event.dataTransfer?.files.length) take(event.dataTransfer.files, placeOf(event))
  })
}
