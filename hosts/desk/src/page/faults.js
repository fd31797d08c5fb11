// What is wrong with a sheet, in words, with a way to each cell and the suggested repair.

import { button, element, letters } from './elements.js'
import { correct } from './sheets.js'

const MOST_CHANGES = 6

/** The faults of a refused sheet; `goTo` shows a cell. */
export function faults(sheet, goTo) {
  const { refusal } = sheet.about
  const place = ([row, column]) => `${letters(column)}${row}`
  const line = fault => element('li', {},
    element('b', {}, fault.where), `: ${fault.there} `,
    sheet.cells && fault.cells.slice(0, 4).map(cell =>
      button(`Show ${place(cell)}`, () => goTo(cell), { class: 'small', 'aria-label': `Show cell ${place(cell)}` })))
  return element('div', { class: 'faults' },
    element('p', { class: 'verdict' }, `${sheet.name} cannot be used yet`),
    element('ul', {}, refusal.faults.map(line), refusal.more > 0 && element('li', {}, `and ${refusal.more} more`)),
    refusal.expected && element('p', {}, element('b', {}, 'Expected: '), refusal.expected),
    refusal.to_do && element('p', {}, element('b', {}, 'To do: '), refusal.to_do),
    repair(sheet, refusal))
}

/** The suggested repair, one click away. Nothing is changed before. */
function repair(sheet, { repair: found }) {
  if (!found) return null
  const apply = change => correct(sheet, [[change.row, change.column, `${change.instead}`]])
  const offers = found.changes.slice(0, MOST_CHANGES).map(change => button(
    `Change ${letters(change.column)}${change.row} from ${change.there} to ${change.instead}`, () => apply(change),
    { class: found.changes.length === 1 ? 'main' : '' }))
  const more = found.changes.length - offers.length
  return element('div', { class: 'repair' },
    element('p', {}, element('b', {}, 'Suggestion: '), found.says, '.'),
    element('p', { class: 'buttons' }, offers, more > 0 && element('span', { class: 'faint' }, `and ${more} more`)))
}
