// Elements of the page, made by hand: texts are always texts.

export const byId = id => document.getElementById(id)

/** An element with attributes, listeners (names that begin with "on") and children. */
export function element(tag, attributes = {}, ...children) {
  const made = document.createElement(tag)
  for (const [name, value] of Object.entries(attributes)) {
    if (value === undefined || value === null || value === false) continue
    if (name.startsWith('on')) made.addEventListener(name.slice(2), value)
    else if (name === 'class') made.className = value
    else made.setAttribute(name, value === true ? '' : value)
  }
  made.append(...children.flat(Infinity).filter(child => child !== null && child !== undefined && child !== false))
  return made
}

export const button = (text, onclick, attributes = {}) => element('button', { type: 'button', onclick, ...attributes }, text)

const called = made => made.id || made.ariaLabel || made.textContent

/** Shows a section with these children, or hides it where there are none. What had the focus has it again. */
export function fill(section, ...children) {
  const shown = children.flat(Infinity).filter(Boolean)
  const active = section.contains(document.activeElement) ? document.activeElement : null
  section.replaceChildren(...shown)
  section.hidden = !shown.length
  if (!active || section.contains(active)) return
  const again = [...section.querySelectorAll(active.tagName)].find(made => called(made) === called(active))
  again?.focus({ preventScroll: true })
}

const last = {}

/** Tells screen readers what is said now of something, where that is new. */
export function announce(about, text) {
  if (last[about] === text) return
  last[about] = text
  const log = byId('said')
  log.append(element('p', {}, text))
  if (log.children.length > 3) log.firstChild.remove()
}

/** Prints one section and nothing else. */
export function printed(section) {
  document.body.dataset.printed = section
  print()
  delete document.body.dataset.printed
}

export const count = (number, thing) => `${number} ${thing}${number === 1 ? '' : 's'}`

/** The column's letters in a spreadsheet: A for 1, AA for 27. */
export function letters(column) {
  const last = String.fromCharCode(65 + (column - 1) % 26)
  return column <= 26 ? last : letters(Math.floor((column - 1) / 26)) + last
}

/** A cue by number, and by name where it has one. */
export const label = (names, cue) => names?.[cue - 1] ? `${cue} “${names[cue - 1]}”` : `${cue}`

/** Saves a text as a new file, where the browser saves files. */
export function save(name, text) {
  const kind = name.endsWith('.html') ? 'text/html' : 'text/csv'
  const address = URL.createObjectURL(new Blob([text], { type: kind }))
  const link = element('a', { href: address, download: name.split('/').pop() })
  document.body.append(link)
  link.click()
  link.remove()
  setTimeout(() => URL.revokeObjectURL(address), 10000)
}
