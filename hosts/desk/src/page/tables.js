// The tables that are looked at: cues are pointed at, pinned, kept apart, chosen for a part; cells are corrected.

import { button, byId, count, element, fill, label } from './elements.js'
import { Grid } from './grid.js'
import { correct } from './sheets.js'
import { change, currentRig, state } from './state.js'

const MODES = {
  look: ['Look', 'Point at a cue, or tap it: its row, its column, the cells that lead to it and its partner are marked.'],
  pin: ['Pin', 'Choose a cue of the show, then the cue of the rig that it must become.'],
  apart: ['Keep apart', 'Choose a cue of the show, then a cue of the rig that it must not become.'],
  part: ['Part to tour', 'Choose the cues of the show that tour.'],
}

// A cue that has no colour of its own and is marked as all such are.
const NO_COLOUR = 13

const grids = new WeakMap()
let mode = 'look'
let picked = [0, 0]
let held = null
let images = []
let pair = [null, null]
let placed = []
let painted = null

/** The grid of a sheet, which is drawn once. */
function gridOf(sheet) {
  if (sheet && !grids.has(sheet)) grids.set(sheet, new Grid(sheet, handlers))
  return sheet && grids.get(sheet)
}

const sideOf = grid => grid.sheet === pair[1] ? 1 : 0

/** Another way of choosing, or the usual one where it is the same. */
export function setMode(next) {
  mode = mode === next ? 'look' : next
  picked = [0, 0]
  drawBar()
  told('')
}

function told(text) {
  const line = byId('told')
  if (line) line.textContent = text || MODES[mode][1]
}

/** The partner of a cue on the other side, or 0. */
const partnerOf = (side, cue) => !images.length ? 0 : side ? images.indexOf(cue) + 1 : images[cue - 1] ?? 0

/** Marks a cue and its partner, and tells of them. */
function show({ side, cue, cell }) {
  const [one, other] = [gridOf(pair[side]), gridOf(pair[1 - side])]
  one?.clear()
  other?.clear()
  if (!one || !cue) return told(cell && one ? one.describe(cell) : '')
  const partner = partnerOf(side, cue)
  one.mark(cue)
  if (partner && other) other.mark(partner)
  const names = place => pair[place]?.about.names
  const lead = one.leadingTo(cue).length
  const where = cell ? `${one.describe(cell)} ` : ''
  const what = `${side ? 'The rig’s cue' : 'Cue'} ${label(names(side), cue)}: ${count(lead, 'cell')} ${lead === 1 ? 'leads' : 'lead'} to it`
  const how = !images.length ? '' : side
    ? partner ? `; it is the partner of ${label(names(0), partner)}` : '; no cue of the show becomes it'
    : `; it becomes ${label(names(1), partner)}`
  told(`${where}${what}${how}.`)
}

/** Shows a cue that is pointed at, where none is held. */
export function point(side, cue, cell) {
  if (!held) show({ side, cue, cell })
}

/** Shows a cue that has the focus; none is held then. */
export function attend(side, cue, cell) {
  if (held) {
    held = null
    drawBar()
  }
  show({ side, cue, cell })
}

/** Holds a cue, which stays shown, with its partner in sight; one that is held already is let go. */
function hold(side, cue, cell) {
  const again = held && held.side === side && held.cue === cue && held.cell === cell
  held = again || !cue ? null : { side, cue, cell }
  show({ side, cue, cell })
  const partner = partnerOf(side, cue)
  if (held && !cell) gridOf(pair[side]).reveal(cue)
  if (held && partner) gridOf(pair[1 - side]).reveal(partner)
  drawBar()
}

/** A cue is chosen: it is held, or put into a pair or a part, as the way of choosing has it. */
export function choose(side, cue, cell) {
  if (mode === 'look' || !cue) hold(side, cue, cell)
  else if (mode !== 'part') choosePair(side, cue)
  else if (side === 0) choosePart(cue)
  else told('Choose cues of the show: a part is cut out of it.')
}

const handlers = {
  onpoint: (grid, cue, cell) => cell ? point(sideOf(grid), cue, cell) : lookAgain(),
  onfocus: (grid, cue, cell) => attend(sideOf(grid), cue, cell),
  onchoose: (grid, cue, cell) => choose(sideOf(grid), cue, cell),
  onedit(grid, correction) {
    held = null
    correct(grid.sheet, [correction])
  },
}

/** Shows a cell of a sheet, row and column as a spreadsheet counts them. */
export const goTo = (sheet, place) => gridOf(sheet).goTo(place)

/** Puts a cue into the part that is chosen, or takes it out. */
function choosePart(cue) {
  const { part } = state()
  change({ part: part.includes(cue) ? part.filter(other => other !== cue) : [...part, cue].sort((a, b) => a - b) })
}

/** One cue of a pair; with the second the pair is pinned or kept apart. */
function choosePair(side, cue) {
  picked[side] = cue
  const [one, other] = picked
  if (!one || !other) {
    drawChosen()
    const names = pair[side].about.names
    return told(side ? `The rig’s cue ${label(names, cue)}: now choose a cue of the show.` : `Cue ${label(names, cue)}: now choose a cue of the rig.`)
  }
  picked = [0, 0]
  if (mode === 'apart') keepApart(one, other)
  else pin(one, other)
}

const without = (pairs, [cue, partner]) => pairs.filter(([one, other]) => one !== cue || other !== partner)

/** Gives a cue this partner, and no other. */
export function pin(cue, partner) {
  const { pins, not } = state()
  const others = pins.filter(([one, other]) => one !== cue && other !== partner)
  change({ pins: [...others, [cue, partner]], not: without(not, [cue, partner]), way: 0 })
}

export function keepApart(cue, partner) {
  const { pins, not } = state()
  change({ pins: without(pins, [cue, partner]), not: [...without(not, [cue, partner]), [cue, partner]], way: 0 })
}

export function release(cue, partner) {
  const { pins, not } = state()
  change({ pins: without(pins, [cue, partner]), not: without(not, [cue, partner]), way: 0 })
}

function drawChosen() {
  const { part } = state()
  gridOf(pair[0])?.choose(mode === 'part' ? part : [picked[0]])
  gridOf(pair[1])?.choose([picked[1]])
}

/** The ways of choosing, and what can be done with the cell that is held. */
function drawBar() {
  const bar = byId('modes')
  if (!bar) return
  const both = Boolean(pair[0]?.about.table && pair[1]?.about.table)
  const usable = { look: true, pin: both, apart: both, part: Boolean(pair[0]?.about.table) }
  if (!usable[mode]) mode = 'look'
  bar.replaceChildren(...Object.entries(MODES).filter(([name]) => usable[name] && usable.part).map(([name, [text]]) =>
    button(text, () => { if (mode !== name) setMode(name) }, { 'aria-pressed': String(mode === name) })))
  const cell = held?.cell?.tagName === 'TD' ? held : null
  if (cell && gridOf(pair[cell.side])?.sheet.cells) {
    bar.append(button('Correct this cell', () => gridOf(pair[cell.side]).edit(cell.cell)))
  }
  drawChosen()
}

/** The colours of a table in which the images of a map have the colours of the cues that become them. */
function imagesIn(order, list) {
  const colours = Array(order).fill(0)
  list.forEach((image, place) => { colours[image - 1] = place + 1 })
  return colours
}

/** Colours the tables by an answer: partners, or the part that has no place. */
function paint(answer) {
  painted = answer
  const { map, misfit } = answer?.result ?? {}
  const [show, rig] = pair.map(gridOf)
  images = map?.images ?? []
  const all = order => Array.from({ length: order }, (_, place) => place + 1)
  const reason = misfit?.smallest?.elements
  if (show?.isTable) {
    const order = show.height
    const colours = map ? all(order) : reason ? all(order).map(cue => reason.includes(cue) ? NO_COLOUR : 0) : []
    show.paint(colours, false)
  }
  if (rig?.isTable) rig.paint(map ? imagesIn(rig.height, images) : [], true)
}

/** Draws both tables, as far as they are there. */
export function drawTables(answer) {
  const next = [state().show, currentRig()]
  const isNew = next.some((sheet, side) => sheet !== pair[side])
  pair = next
  if (isNew) held = null
  const shown = pair.filter(sheet => sheet?.cells || sheet?.about.table)
  if (!shown.length) return fill(byId('tables'))
  if (!byId('modes')) {
    fill(byId('tables'),
      element('div', { class: 'bar' },
        element('div', { id: 'modes', class: 'modes', role: 'group', 'aria-label': 'What choosing a cue does' }),
        element('p', { id: 'told', class: 'told', role: 'status' })),
      element('div', { id: 'sides', class: 'sides' }))
  }
  place(shown.map(gridOf))
  if (isNew || answer !== painted) paint(answer)
  drawBar()
  lookAgain()
}

/** Shows again what is looked at, of which more may be known: a cue that is held, the cell that has the focus, or nothing. */
function lookAgain() {
  const grid = placed.find(other => other.table.contains(document.activeElement))
  show(held ?? (grid ? { side: sideOf(grid), cue: grid.cueOf(grid.current), cell: grid.current } : { side: 0, cue: 0 }))
}

/** Puts grids on the page. Those that are there already stay; one that shows a sheet anew stands as the one before it. */
function place(next) {
  const sides = byId('sides')
  const stances = next.map(grid => placed.find(old => old !== grid && old.sheet.name === grid.sheet.name)?.stance)
  placed.filter(old => !next.includes(old)).forEach(old => old.element.remove())
  placed = next
  sides.classList.toggle('two', next.length > 1)
  next.forEach((grid, at) => {
    grid.call(`${sideOf(grid) ? 'The rig' : 'The show'}: ${grid.sheet.name}`)
    if (sides.children[at] === grid.element) return
    sides.insertBefore(grid.element, sides.children[at] ?? null)
    if (stances[at]) grid.stand(stances[at])
  })
}
