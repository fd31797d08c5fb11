// Tables as grids: cues with their rows, columns and cells marked where they are pointed at; cells that can be corrected in place.

import { element, letters } from './elements.js'

// An eye tells so many colours apart.
const MOST_COLOURS = 12

// A cell is copied rather than made, since there are up to 14,400 in a table.
const CELL = element('td', { role: 'gridcell' })

// Where the pointer is. What moves below one that rests is not pointed at.
let pointer = ''
const at = ({ clientX, clientY }) => `${clientX} ${clientY}`
document.addEventListener('pointermove', event => { pointer = at(event) })

const range = length => Array.from({ length }, (_, place) => place + 1)

/**
 * A grid of a sheet. Its handlers are told what is pointed at (`onpoint`), what has the focus (`onfocus`), what is chosen (`onchoose`) and
 * what is corrected (`onedit`).
 */
export class Grid {
  constructor(sheet, handlers) {
    this.sheet = sheet
    this.handlers = handlers
    this.marked = []
    this.painted = []
    const { table } = sheet.about
    this.isTable = Boolean(table)
    this.rows = table ?? sheet.cells?.rows ?? []
    this.height = this.rows.length
    this.width = Math.max(0, ...this.rows.map(row => row.length))
    this.first = table ? sheet.about.begins : [sheet.cells?.row ?? 1, sheet.cells?.column ?? 1]
    this.draw()
    this.listen()
  }

  draw() {
    this.cells = this.rows.map(row => range(this.width).map(column => this.cell(row[column - 1] ?? '')))
    this.across = range(this.width).map(column => this.heading(column, 'col', letters(this.first[1] + column - 1)))
    this.down = range(this.height).map(row => this.heading(row, 'row', `${this.first[0] + row - 1}`))
    const corner = element('th', { class: 'corner', role: 'columnheader', 'aria-label': this.isTable ? 'cue, then cue' : 'row and column' }, this.isTable ? '·' : '')
    const line = (heading, cells) => element('tr', { role: 'row' }, heading, cells)
    this.table = element('table', { class: 'grid', role: 'grid' },
      element('thead', { role: 'rowgroup' }, line(corner, this.across)),
      element('tbody', { role: 'rowgroup' }, this.cells.map((cells, place) => line(this.down[place], cells))))
    const longest = Math.max(2, ...this.rows.flat().map(text => `${text}`.length))
    this.table.classList.toggle('long', longest > 12)
    this.box = element('div', { class: 'scroll' }, this.table)
    this.box.style.setProperty('--cell', `${Math.min(120, 10 + 8 * longest)}px`)
    this.box.style.setProperty('--columns', this.width + 1)
    this.title = element('h3', {})
    this.element = element('figure', { class: 'table' }, element('figcaption', {}, this.title), this.box)
    for (const place of this.sheet.about.refusal?.faults.flatMap(fault => fault.cells) ?? []) this.markFault(this.cellAt(place))
    this.current = this.cells[0]?.[0]
    if (this.current) this.current.tabIndex = 0
  }

  /** Gives the grid a title. */
  call(title) {
    this.title.textContent = title
    this.table.setAttribute('aria-label', title)
  }

  cell(text) {
    const cell = CELL.cloneNode()
    cell.textContent = text
    return cell
  }

  /** The heading of a cue, or the spreadsheet's own name of a row or column where the sheet is no table. */
  heading(place, scope, own) {
    const name = this.isTable && this.sheet.about.names[place - 1]
    return element('th', { scope, role: `${scope === 'col' ? 'column' : 'row'}header`, title: name || false }, this.isTable ? `${place}` : own)
  }

  markFault(cell) {
    cell?.classList.add('fault')
    cell?.setAttribute('aria-invalid', 'true')
  }

  /** The cell at a place of the sheet, row and column as a spreadsheet counts them. */
  cellAt([row, column]) {
    return this.cells[row - this.first[0]]?.[column - this.first[1]]
  }

  /** Both headings of a cue. */
  headings(cue) {
    return [this.across[cue - 1], this.down[cue - 1]].filter(Boolean)
  }

  /** The cells that lead to a cue. */
  leadingTo(cue) {
    return this.cells.flatMap((cells, row) => cells.filter((_, column) => this.rows[row][column] === cue))
  }

  /**
   * Colours cues: `colours` has for each cue of the table the cue that marks it, or 0. `own` says whether that is the cue of another table,
   * whose number is then shown. A row is coloured once it is seen.
   */
  paint(colours, own) {
    this.watcher?.disconnect()
    for (const [cell, name] of this.painted) {
      cell.classList.remove('m', 'own', name)
      cell.querySelector('small')?.remove()
    }
    this.painted = []
    const cues = colours.filter(Boolean).length
    // Where every cue would look alike, colours say nothing.
    const isPainted = this.isTable && cues > 0 && !(cues === this.height && cues > MOST_COLOURS && !own)
    this.table.classList.toggle('painted', isPainted)
    if (!isPainted) return
    const mark = (cell, cue) => {
      const name = cues > MOST_COLOURS ? 'm' : `c${cue}`
      cell.classList.add('m', name, ...(own ? ['own'] : []))
      if (own) cell.append(element('small', {}, `${cue}`))
      this.painted.push([cell, name])
    }
    const marked = [...colours.keys()].filter(place => colours[place])
    const seen = entries => {
      for (const { target, isIntersecting } of entries) {
        if (!isIntersecting) continue
        this.watcher.unobserve(target)
        const row = target.rowIndex - 1
        for (const column of marked) mark(this.cells[row][column], colours[this.rows[row][column] - 1])
      }
    }
    this.watcher = new IntersectionObserver(seen, { root: this.box, rootMargin: '200px' })
    for (const place of marked) {
      for (const heading of this.headings(place + 1)) mark(heading, colours[place])
      this.watcher.observe(this.down[place].parentNode)
    }
  }

  /** Row and column of a cell, from 1; 0 stands for a heading. */
  placeOf(cell) {
    return [cell.parentNode.rowIndex, cell.cellIndex]
  }

  /** The cue that a cell or a heading stands for. */
  cueOf(cell) {
    return this.isTable ? parseInt(cell.firstChild?.data) || 0 : 0
  }

  /** The spreadsheet's name of a cell, such as B2. */
  nameOf(cell) {
    const [row, column] = this.placeOf(cell)
    return `${letters(this.first[1] + column - 1)}${this.first[0] + row - 1}`
  }

  /** What a cell is, in words. */
  describe(cell) {
    const [row, column] = this.placeOf(cell)
    if (!row || !column) return ''
    return `${this.nameOf(cell)}: ${this.isTable ? `cue ${row}, then cue ${column}, does cue ${this.cueOf(cell)}` : cell.textContent || 'empty'}.`
  }

  listen() {
    const cellOf = event => event.target.closest('td,th')
    const tell = (handler, cell) => handler(this, cell ? this.cueOf(cell) : 0, cell)
    this.table.addEventListener('pointerover', event => {
      if (event.pointerType !== 'touch' && at(event) !== pointer) tell(this.handlers.onpoint, cellOf(event))
    })
    this.table.addEventListener('pointerleave', () => tell(this.handlers.onpoint, null))
    this.table.addEventListener('focusin', event => {
      if (event.target.matches('td,th')) tell(this.handlers.onfocus, event.target)
    })
    this.table.addEventListener('click', event => {
      const cell = cellOf(event)
      if (!cell || event.target.matches('input')) return
      this.focus(cell)
      tell(this.handlers.onchoose, cell)
    })
    this.table.addEventListener('dblclick', event => this.edit(cellOf(event)))
    this.table.addEventListener('keydown', event => this.press(event))
  }

  press(event) {
    const cell = event.target
    if (!cell.matches('td,th') || event.ctrlKey && !['Home', 'End'].includes(event.key) || event.altKey || event.metaKey) return
    const [row, column] = this.placeOf(cell)
    const moves = {
      ArrowUp: () => this.moveTo(row - 1, column),
      ArrowDown: () => this.moveTo(row + 1, column),
      ArrowLeft: () => this.moveTo(row, column - 1),
      ArrowRight: () => this.moveTo(row, column + 1),
      PageUp: () => this.moveTo(Math.max(1, row - 10), column),
      PageDown: () => this.moveTo(row + 10, column),
      Home: () => this.moveTo(event.ctrlKey ? 1 : row, 1),
      End: () => this.moveTo(event.ctrlKey ? this.height : row, this.width),
      Enter: () => this.edit(cell),
      F2: () => this.edit(cell),
      ' ': () => this.handlers.onchoose(this, this.cueOf(cell), cell),
    }
    const move = moves[event.key] ?? (/^[0-9]$/.test(event.key) && (() => this.edit(cell, event.key)))
    if (!move) return
    event.preventDefault()
    event.stopPropagation()
    move()
  }

  /** Gives the focus to the cell of a row and a column, or the next one that there is. Cues have headings, row 0 and column 0, which can have it too. */
  moveTo(row, column) {
    const least = this.isTable ? 0 : 1
    const [down, along] = [Math.min(this.height, Math.max(least, row)), Math.min(this.width, Math.max(least, column))]
    if (down || along) this.focus(this.table.rows[down].cells[along])
  }

  focus(cell) {
    if (!cell || cell.matches('.corner')) return
    this.current.removeAttribute('tabindex')
    this.current = cell
    cell.tabIndex = 0
    cell.focus()
  }

  /** Shows the cell at a place of the sheet. */
  goTo(place) {
    const cell = this.cellAt(place)
    cell?.scrollIntoView({ block: 'center', inline: 'center' })
    this.focus(cell)
  }

  /** How the grid stands: what it is scrolled to, where its current cell is in the sheet, and whether that has the focus. */
  get stance() {
    const [row, column] = this.current ? this.placeOf(this.current) : [1, 1]
    const place = [this.first[0] + row - 1, this.first[1] + column - 1]
    return { left: this.box.scrollLeft, top: this.box.scrollTop, place, focused: this.table.contains(document.activeElement) }
  }

  /** Stands as the grid did that was here before. */
  stand({ left, top, place, focused }) {
    this.box.scrollTo(left, top)
    if (focused) this.focus(this.cellAt(place) ?? this.current)
  }

  /** Lets a cell be corrected in place. */
  edit(cell, typed) {
    if (!this.sheet.cells || !cell?.matches('td') || cell.querySelector('input')) return
    const [row, column] = this.placeOf(cell)
    const before = this.isTable ? `${this.cueOf(cell)}` : cell.textContent
    const content = [...cell.childNodes]
    const input = element('input', { value: typed ?? before, inputmode: 'numeric', autocomplete: 'off', 'aria-label': `Cell ${this.nameOf(cell)}` })
    let open = true
    const leave = keep => {
      if (!open) return
      open = false
      const text = input.value.trim()
      cell.replaceChildren(...content)
      if (keep && text !== before) this.handlers.onedit(this, [this.first[0] + row - 1, this.first[1] + column - 1, text])
    }
    input.addEventListener('keydown', event => {
      event.stopPropagation()
      if (event.key !== 'Enter' && event.key !== 'Escape') return
      leave(event.key === 'Enter')
      this.focus(cell)
    })
    input.addEventListener('blur', () => leave(true))
    cell.replaceChildren(input)
    input.focus()
    if (typed === undefined) input.select()
  }

  clear() {
    for (const cell of this.marked) cell.classList.remove('at', 'same')
    this.marked = []
  }

  /** Marks a cue: its row, its column, and the cells that lead to it. */
  mark(cue) {
    this.clear()
    const around = [...this.headings(cue), ...this.cells[cue - 1] ?? [], ...this.cells.map(cells => cells[cue - 1])]
    const leading = this.leadingTo(cue)
    around.forEach(cell => cell.classList.add('at'))
    leading.forEach(cell => cell.classList.add('same'))
    this.marked = [...around, ...leading]
  }

  /** Scrolls to where the row and the column of a cue meet, unless both are seen. */
  reveal(cue) {
    const { scrollLeft, scrollTop, clientWidth, clientHeight } = this.box
    const [across, down] = [this.across[cue - 1], this.down[cue - 1].parentNode]
    const isSeen = (from, size, at, length, cover) => at >= from + cover && at + length <= from + size
    if (isSeen(scrollLeft, clientWidth, across.offsetLeft, across.offsetWidth, across.offsetWidth)
      && isSeen(scrollTop, clientHeight, down.offsetTop, down.offsetHeight, down.offsetHeight)) return
    this.box.scrollTo(across.offsetLeft - clientWidth / 2, down.offsetTop - clientHeight / 2)
  }

  /** Shows which cues are chosen. */
  choose(cues) {
    this.table.querySelectorAll('.chosen').forEach(cell => cell.classList.remove('chosen'))
    cues.flatMap(cue => this.headings(cue)).forEach(heading => heading.classList.add('chosen'))
  }
}
