// @ts-check
// Since when nothing is heard of the office, and what is said of it.

// the office says every two seconds that it is there: after so long without a word what is seen may
// be old, and after so long the office is called anew
const [OLD, DEAD] = [4000, 12000];
const STAYS = "Your draft stays where it is; this page tries again.";
// when something was heard last, 0 before that
let heardAt = 0;

export function hasHeard() {
  heardAt = Date.now();
}

// that nothing is heard, and since when
export function silence() {
  if (!heardAt) return `The office does not answer just now. ${STAYS}`;
  const since = new Date(heardAt).toTimeString().slice(0, 8);
  return `The office does not answer since ${since}: what you see may be old. ${STAYS}`;
}

// Looks twice a second, while news are listened to, whether anything is heard.
/**
 * @param {{ isListening: () => boolean, silent: (text: string) => void, hangUp: () => void }} page
 */
export function watch({ isListening, silent, hangUp }) {
  let isOld = false;
  setInterval(() => {
    const time = isListening() && heardAt ? Date.now() - heardAt : 0;
    if (time > DEAD) hangUp();
    if (time > OLD !== isOld) silent(time > OLD ? silence() : "");
    isOld = time > OLD;
  }, 500);
}
