// Several rigs side by side: which of them take the show.

import { announce, button, byId, element, fill, printed } from './elements.js'
import { sameness } from './more.js'
import { chooseRig, state } from './state.js'

// What stands in the table for each outcome.
const MARKS = { fits: 'Fits', none: 'No', stopped: 'Not told', refused: 'Refused' }

/** The rigs with what came of each, as the program words it. */
export function drawRigs({ rigs: reply, comparing }, actions) {
  const { rigs, rig: current } = state()
  if (rigs.length < 2) return fill(byId('rigs'))
  if (!reply) return fill(byId('rigs'), unknown(comparing, actions))
  const found = reply.answer.result?.rigs ?? []
  if (!found.length) return fill(byId('rigs'), element('p', {}, reply.answer.says))
  const row = (rig, place) => {
    const sheet = reply.answer.sheets[rig.sheet - 1]
    const mirrored = rig.outcome === 'none' && rig.mirrored
    return element('tr', { class: `${rig.outcome}${place === current ? ' chosen' : ''}${mirrored ? ' mirrored' : ''}` },
      element('th', { scope: 'row' }, button(sheet.path, () => chooseRig(place, Boolean(mirrored)), { class: 'link', 'aria-pressed': String(place === current) })),
      element('td', {}, element('span', { class: 'mark' }, mirrored ? 'Mirrored' : MARKS[rig.outcome])),
      element('td', {}, reply.rigs[place] ?? ''),
      element('td', { class: 'number' }, `${rig.milliseconds} ms`))
  }
  announce('rigs', reply.answer.says)
  fill(byId('rigs'),
    element('div', { class: 'head' },
      element('h2', {}, reply.answer.says),
      element('div', { class: 'buttons' },
        button('Print', () => printed('rigs')), button('Save as CSV', actions.saveRigs), button('Save as a page', actions.saveRigsPage), sameness(actions))),
    element('div', { class: 'scroll' }, element('table', { class: 'rigs' },
      element('thead', {}, element('tr', {}, ['Rig', 'The show', 'In words'].map(text => element('th', { scope: 'col' }, text)), element('th', { scope: 'col', class: 'number' }, 'Time'))),
      element('tbody', {}, found.map(row)))))
}

/** What is shown before the rigs are compared: that they are being compared, or that it was stopped. */
function unknown(comparing, actions) {
  const [text, does, act] = {
    busy: ['Comparing the rigs …', 'Stop comparing', actions.stopComparing],
    stopped: ['Stopped: not all rigs were compared.', 'Compare again', actions.compareAgain],
  }[comparing] ?? []
  if (!text) return null
  announce('rigs', text)
  return element('div', { class: 'head' }, element('h2', {}, text), button(does, act))
}
