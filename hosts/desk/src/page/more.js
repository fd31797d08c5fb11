// The part to tour, and what else the program tells of these sheets, in its own words.

import { patience } from './answer.js'
import { announce, button, byId, count, element, fill, label } from './elements.js'
import { change, currentRig, state } from './state.js'

/** What stands in the fields. */
const typed = { show: '', rig: '', most: '20', trials: '1000' }

let isOpen = false

/** Shows what is told. */
export function openMore() {
  isOpen = true
}

/** The part that is chosen, and what is cut out for it. */
function part(cut, actions) {
  const { part: chosen, show } = state()
  if (!chosen.length || !show?.about.table) return null
  const { names } = show.about
  const found = cut?.answer.result?.part
  return element('div', { class: 'part' },
    element('h2', {}, 'A part to tour'),
    element('ul', { class: 'chips', 'aria-label': 'Chosen cues' }, chosen.map(cue => element('li', { class: 'chip' },
      element('span', {}, label(names, cue)),
      button('×', () => change({ part: chosen.filter(other => other !== cue) }), { 'aria-label': `Leave out cue ${cue}` })))),
    found && element('p', {}, `With all that they link to, the part has ${found.elements.length} of the ${count(show.about.order, 'cue')}: `
      + `${found.elements.map(cue => label(names, cue)).join(', ')}.`),
    element('div', { class: 'buttons' },
      found && button('Use it as the show', actions.usePart, { class: 'main' }),
      found && button('Save it', actions.savePart),
      found && button('Save as a page', actions.savePartPage),
      button('Choose none', () => change({ part: [] }))))
}

/** A field whose text stays when the page is drawn anew. */
const field = (name, text, attributes) => element('label', { class: 'field' }, text,
  element('input', { id: `${name}-typed`, value: typed[name], autocomplete: 'off', oninput: event => { typed[name] = event.target.value }, ...attributes }))

const group = (title, ...children) => element('div', { class: 'group', role: 'group', 'aria-label': title }, element('span', { class: 'faint' }, `${title}:`), children)

/** Cues as they are typed, by number or name with commas between; a name with a comma stands between quote marks. */
const cuesIn = text => [...text.matchAll(/\s*"([^"]*)"\s*|[^,]+/g)].map(([all, quoted]) => (quoted ?? all).trim()).filter(Boolean)

/** Questions about a sheet. */
function aboutSheet(role, sheet, actions) {
  const { table } = sheet.about
  const cues = () => cuesIn(typed[role])
  const ask = (text, args, title) => button(text, () => actions.tell(args(), [sheet]), { title })
  return group(`About the ${role}`,
    table && ask('What cues settle on', () => ['settles', sheet.name, '--', ...cues()], 'Of these cues, or of all where none is given'),
    table && field(role, 'Cues ', { placeholder: 'all, or such as 3, 7' }),
    table && button('Shorter check', () => actions.checkBy(sheet, cues()), { title: 'Checks the table by these cues, from which all others are linked, or by its building cues where none is given' }),
    table && ask('Building cues', () => ['cues', sheet.name], 'A short list of cues from which all others are linked'),
    table && ask('Rest positions', () => ['positions', sheet.name], 'How few rest positions carry the table'),
    button('Save as clean CSV', () => actions.mend(sheet), { title: 'For other programs: numbers alone, without headings' }))
}

/** Which sheets hold the same table. */
export const sameness = actions => [
  button('Which are the same?', () => actions.classes([]), { title: 'But for the numbers of the cues' }),
  button('The same or mirrored?', () => actions.classes(['--mirror']), { title: 'A table and the one that is read column first count as the same' })]

/** Questions about the show and the rig. */
function aboutBoth(model, actions) {
  const { rigs, pins, not, preferNames } = state()
  const number = { type: 'number', min: 1, max: 65535 }
  return [
    group('All ways', field('most', 'At most ', number), button('List the ways', () => actions.list(typed.most))),
    !pins.length && !not.length && !preferNames && group('As the paper searches',
      field('trials', 'Trials ', { ...number, max: 4294967295 }), button('Search and count trials', () => actions.limited(typed.trials))),
    rigs.length === 1 && group('Both tables', sameness(actions)),
    group('All searches', patience(model, actions))]
}

/** What was told, or that it is being asked. */
function answered(told, actions) {
  if (!told) return null
  announce('told', told.busy ? 'Asking.' : told.text)
  if (told.busy) return element('p', { class: 'buttons' }, 'Asking … ', button('Stop asking', actions.stopTelling))
  return [element('pre', { tabindex: 0, role: 'region', 'aria-label': 'What was asked' }, told.text),
    told.page && element('p', { class: 'buttons' }, button('Save this as a page', () => actions.savePageOf(told.page)))]
}

export function drawMore(model, actions) {
  const { cut, told } = model
  const [show, rig] = [state().show, currentRig()]
  const sheets = [['show', show], ['rig', rig]].filter(([, sheet]) => sheet?.about.table || sheet?.cells)
  const both = show?.about.table && rig?.about.table
  fill(byId('more'), part(cut, actions),
    sheets.length > 0 && element('details', { open: isOpen, ontoggle: event => { isOpen = event.target.open } },
      element('summary', {}, 'More about these sheets'),
      element('div', { class: 'asked' }, sheets.map(([role, sheet]) => aboutSheet(role, sheet, actions)), both && aboutBoth(model, actions)),
      answered(told, actions)))
}
