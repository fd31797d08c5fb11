// The answer: it fits, it does not and why, or it is not known yet; the partner list; and what the operator may choose.

import { announce, button, byId, count, element, fill, label, printed, save } from './elements.js'
import { faults } from './faults.js'
import { change, currentRig, state } from './state.js'
import { attend, choose, goTo, keepApart, pin, point, release } from './tables.js'

const TIMES = [['10s', '10 seconds'], ['1m', '1 minute'], ['10m', '10 minutes']]

const isPinned = (cue, partner) => state().pins.some(([one, other]) => one === cue && other === partner)

/** What is missing before there can be an answer: a sheet, or a correction. */
function drawMissing(section) {
  const [show, rig] = [state().show, currentRig()]
  const bad = [show, rig].filter(sheet => sheet?.about.refusal)
  // Where both are there the answer comes; where none is, that is plain.
  if (!bad.length && Boolean(show) === Boolean(rig)) return fill(section)
  const text = bad.length ? bad.map(sheet => `${sheet.name} cannot be used yet.`).join(' ') : `Now drop the ${show ? 'rig' : 'show'}’s sheet.`
  announce('answer', text)
  if (bad.length) section.classList.add('bad')
  fill(section, bad.length ? bad.map(sheet => faults(sheet, place => goTo(sheet, place))) : element('p', { class: 'verdict' }, text))
}

/** A search that takes longer than a moment. The button stays the same while the seconds pass. */
function drawBusy(section, seconds, stop) {
  announce('answer', 'Looking for partners.')
  const clock = byId('clock')
  if (clock) clock.textContent = `${seconds} s`
  else fill(section,
    element('p', { class: 'verdict busy' },
      element('span', { class: 'spin', 'aria-hidden': 'true' }), 'Looking for partners … ', element('span', { id: 'clock' }, `${seconds} s`)),
    element('div', { class: 'buttons' }, button('Stop', stop, { class: 'main', id: 'stop' })))
}

/** The sentences under the verdict. */
function reasons({ answer, said }) {
  // What is offered is a button.
  const hints = answer.hints.filter(hint => !(answer.offer && hint.startsWith('The rig\'s table')))
  const told = [...(state().preferNames ? said : []), ...(answer.result?.misfit?.says ?? []), ...hints]
  return told.length > 0 && element('ul', { class: 'reasons' }, told.map(text => element('li', {}, text)))
}

function offered(answer, actions) {
  const offers = {
    mirror: ['The rig’s table fits if it is read column first.', 'Read it column first', () => change({ mirror: true, way: 0 })],
    plain: ['The rig’s table fits if it is read row first.', 'Read it row first', () => change({ mirror: false, way: 0 })],
    swap: ['The rig’s table fits in the show’s: perhaps the two are the wrong way round.', 'Exchange the two', actions.exchange],
  }
  const [says, does, act] = offers[answer.offer] ?? []
  return says && element('p', { class: 'offer' }, says, ' ', button(does, act, { class: 'main' }))
}

function chips() {
  const { show, pins, not } = state()
  const [names, others] = [show.about.names, currentRig().about.names]
  const chip = (word, sign) => ([cue, partner]) => element('li', { class: 'chip' },
    element('span', {}, `${label(names, cue)} ${sign} ${label(others, partner)}`),
    button('×', () => release(cue, partner), { 'aria-label': `${word} ${cue} and ${partner}` }))
  const made = [...pins.map(chip('Unpin', '→')), ...not.map(chip('No longer keep apart', '↛'))]
  return made.length > 0 && element('ul', { class: 'chips', 'aria-label': 'Pins' }, made)
}

/** Other ways, other readings, and what is known of them all. */
function choices(model, actions) {
  const { way, mirror, preferNames, pins, not, show } = state()
  const isFound = model.reply.answer.status === 'found'
  const named = show.about.names.length && currentRig().about.names.length
  const toggle = (text, on, field, title) => button(text, () => change({ [field]: !on, way: 0 }), { 'aria-pressed': String(on), title })
  return element('div', { class: 'choices' },
    (isFound || way > 0) && element('div', { class: 'group', role: 'group', 'aria-label': 'Ways' },
      button('‹ Previous', actions.previous, { disabled: way === 0, title: 'B' }),
      element('span', { class: 'way' }, `Way ${way + 1}`),
      button('Next ›', actions.next, { title: 'N' })),
    element('div', { class: 'group', role: 'group', 'aria-label': 'How to search' },
      toggle('Column first', mirror, 'mirror', 'Read the rig’s table column first, as some firms give it (M)'),
      Boolean(named) && toggle('Keep equal names', preferNames, 'preferNames', 'Cues with equal names become partners, as long as the show fits')),
    element('div', { class: 'group', role: 'group', 'aria-label': 'More answers' },
      isFound && button('Count the ways', actions.count),
      !pins.length && !not.length && button('Count the places', actions.copies),
      !isFound && button('Why not?', actions.why)),
    model.reply.answer.status === 'stopped' && patience(model, actions))
}

/** How long a search may take. */
export const patience = (model, actions) => element('label', { class: 'time' }, 'Give up after ',
  element('select', { onchange: event => actions.setTime(event.target.value) },
    TIMES.map(([value, text]) => element('option', { value, selected: value === model.time }, text))))

/** A search that was stopped from the page. */
function drawStopped(section, model, actions) {
  const text = `Stopped after ${model.stopped} s. Whether the show fits is not known.`
  announce('answer', text)
  section.classList.add('stopped')
  fill(section, element('p', { class: 'verdict' }, text),
    element('div', { class: 'buttons' }, button('Search again', actions.again, { class: 'main' }), patience(model, actions)))
}

/** What is said of an answer. */
function verdict({ status, says }, time) {
  if (status !== 'stopped') return says
  const [, words] = TIMES.find(([value]) => value === time)
  return `Stopped: ${words} ${words.startsWith('1 ') ? 'is' : 'are'} not enough to tell whether the show fits.`
}

/** The verdict and what belongs to it. */
export function drawAnswer(model, actions) {
  const section = byId('answer')
  section.className = 'answer'
  if (model.busy >= 0) return drawBusy(section, model.busy, actions.stop)
  if (model.stopped >= 0) return drawStopped(section, model, actions)
  if (!model.reply) return drawMissing(section)
  const { answer } = model.reply
  section.classList.add({ found: 'good', none: 'none', stopped: 'stopped' }[answer.status] ?? 'bad')
  const says = verdict(answer, model.time)
  announce('answer', model.note || says)
  fill(section,
    state().rigs.length > 1 && element('p', { class: 'about' }, currentRig().name),
    element('p', { class: 'verdict' }, says),
    reasons(model.reply),
    offered(answer, actions),
    model.note && element('p', { class: 'note' }, model.note),
    chips(),
    choices(model, actions))
}

let drawn = null

/** The cues that have partners, each with its partner: of all the show, or of the largest part that can be moved. */
function pairsOf({ map, misfit } = {}) {
  const { elements = [], images = [] } = misfit?.largest ?? {}
  return map ? map.images.map((image, place) => [place + 1, image]) : elements.map((cue, place) => [cue, images[place]])
}

/** A line of the list: a cue, its partner, and, where all cues have one, what may be asked of the two. */
function line([cue, partner], [names, others], isWhole) {
  const pinned = isPinned(cue, partner)
  const end = (side, number, name) => button([element('b', {}, `${number}`), name && element('span', {}, name)], () => choose(side, number), { class: 'cue', title: name || false })
  return element('li', { onpointerenter: () => point(0, cue), onfocusin: () => attend(0, cue) },
    element('i', { 'aria-hidden': 'true' }),
    end(0, cue, names[cue - 1]), element('span', { class: 'to', role: 'img', 'aria-label': 'becomes' }, '→'), end(1, partner, others[partner - 1]),
    isWhole && element('span', { class: 'acts' },
      button('pin', () => pinned ? release(cue, partner) : pin(cue, partner),
        { 'aria-pressed': String(pinned), 'aria-label': `Pin cue ${cue} to ${partner}`, title: 'Keep this partner' }),
      button('not', () => keepApart(cue, partner), { 'aria-label': `Keep cue ${cue} from ${partner}`, title: 'Any other partner' })))
}

/** A field that hides the lines in which a number or a name does not stand. */
function finder(pairs, lines) {
  const find = text => {
    const wanted = text.trim().toLowerCase()
    lines.forEach((shown, place) => {
      const numbers = pairs[place].map(String)
      shown.hidden = /^[0-9]+$/.test(wanted) ? !numbers.includes(wanted) : !shown.textContent.toLowerCase().includes(wanted)
    })
  }
  return element('label', { class: 'filter' }, element('span', {}, 'Find'),
    element('input', { type: 'search', placeholder: 'number or name', oninput: event => find(event.target.value) }))
}

/** The list of partners, with a field to look for one; one that is there already stays. */
export function drawPartners(reply, actions) {
  const { pins, not } = state()
  if (drawn?.reply === reply && drawn.pins === pins && drawn.not === not) return
  drawn = { reply, pins, not }
  const { result, sheets, says } = reply?.answer ?? {}
  const pairs = pairsOf(result ?? {})
  if (!pairs.length) return fill(byId('partners'))
  const isWhole = Boolean(result.map)
  const names = sheets.map(sheet => sheet.names)
  const lines = pairs.map(pair => line(pair, names, isWhole))
  fill(byId('partners'),
    element('header', { class: 'printed' }, element('h1', {}, `Partners: ${sheets[0].path} on ${sheets[1].path}`), element('p', {}, new Date().toISOString().slice(0, 10)),
      element('p', {}, says)),
    element('div', { class: 'head' },
      element('h2', {}, isWhole ? 'Partners' : `Partners of ${count(pairs.length, 'cue')} that can be moved`),
      finder(pairs, lines),
      element('div', { class: 'buttons' },
        button('Print', () => printed('partners'), { id: 'print' }),
        button('Save as CSV', isWhole ? actions.savePartners : () => save('partners.csv', partnerSheet(pairs, names)), { id: 'save-csv' }),
        isWhole && button('Save as a page', actions.savePage))),
    element('ol', { class: names.some(list => list.length) ? 'partners named' : 'partners' }, lines))
}

/** Partners of a part as a sheet, in the form in which the program writes those of a whole show. */
function partnerSheet(pairs, [names, others]) {
  const field = (text = '') => /[",]/.test(text) ? `"${text.replaceAll('"', '""')}"` : text
  const rows = pairs.map(([cue, partner]) => `${cue},${field(names[cue - 1])},${partner},${field(others[partner - 1])}`)
  return ['Cue,Name,Partner,Partner\'s name', ...rows, ''].join('\r\n')
}
