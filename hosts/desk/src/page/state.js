// What the user has chosen, in one value that is never changed but replaced, so that every step can be undone.

const MOST_STEPS = 200

const start = {
  show: null,
  rigs: [],
  // The place of the rig that is looked at.
  rig: 0,
  mirror: false,
  preferNames: false,
  // How many ways come before the one that is shown.
  way: 0,
  pins: [],
  not: [],
  // Chosen cues of a part to tour.
  part: [],
}

let now = start
let past = []
let future = []
let listener = () => {}

export const state = () => now
export const canUndo = () => past.length > 0
export const canRedo = () => future.length > 0
export const onChange = listen => { listener = listen }

/** One step: some fields get other values. */
export function change(fields) {
  past = [...past, now].slice(-MOST_STEPS)
  future = []
  now = { ...now, ...fields }
  listener()
}

export function undo() {
  if (!canUndo()) return
  future = [now, ...future]
  now = past.at(-1)
  past = past.slice(0, -1)
  listener()
}

export function redo() {
  if (!canRedo()) return
  past = [...past, now]
  now = future[0]
  future = future.slice(1)
  listener()
}

/** What no longer holds once another sheet is taken. */
export const fresh = { way: 0, pins: [], not: [] }

export const currentRig = () => now.rigs[now.rig] ?? null

/** Looks at the rig at this place, its table read row first or column first. */
export const chooseRig = (rig, mirror = false) => change({ ...fresh, rig, mirror })

/** Puts a changed sheet in the place of another. */
export function replaced(sheet, other) {
  if (now.show === sheet) return { show: other }
  return { rigs: now.rigs.map(rig => rig === sheet ? other : rig) }
}
