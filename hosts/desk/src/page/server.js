// Questions to the program, each a command line with the files that it names. It is answered as at a prompt.

/** Why a question has no reply. */
export class Unanswered extends Error {}

/** The reply to a question; the search ends where the signal is given. */
export async function ask(args, files, { signal, save = false } = {}) {
  let response
  try {
    response = await fetch('ask', {
      method: 'POST',
      headers: { 'Content-Type': 'application/json' },
      body: JSON.stringify({ arguments: args, files, save }),
      signal,
    })
  } catch (error) {
    if (error.name === 'AbortError') throw error
    throw new Unanswered('The program has ended. Start it again: tickdrizzle open')
  }
  if (!response.ok) throw new Unanswered((await response.text()).trim())
  return response.json()
}

/** Says that the page is open, until it is closed. */
export function stayPresent(onchange) {
  const stream = new EventSource('present')
  stream.onopen = () => onchange(true)
  stream.onerror = () => onchange(false)
}
