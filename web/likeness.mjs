// Which words are like a word, as `difflib.get_close_matches` of Python's library tells it: by the part of their letters that
// stands in runs which both have, the longest taken first.

/** The first longest run of letters that stands in both stretches. */
function longestRun(first, second, stretch) {
  let best = { at: stretch.from, other: stretch.start, size: 0 };
  let ending = new Map();
  for (let at = stretch.from; at < stretch.to; at++) {
    const here = new Map();
    for (let other = stretch.start; other < stretch.end; other++) {
      if (first[at] !== second[other]) continue;
      const size = (ending.get(other - 1) ?? 0) + 1;
      here.set(other, size);
      if (size > best.size) best = { at: at - size + 1, other: other - size + 1, size };
    }
    ending = here;
  }
  return best;
}

/** How many letters stand in runs which both words have. */
function sharedLetters(first, second) {
  const waiting = [{ from: 0, to: first.length, start: 0, end: second.length }];
  let count = 0;
  while (waiting.length > 0) {
    const stretch = waiting.pop();
    const { at, other, size } = longestRun(first, second, stretch);
    if (size === 0) continue;
    count += size;
    waiting.push({ ...stretch, to: at, end: other }, { ...stretch, from: at + size, start: other + size });
  }
  return count;
}

/** The words that are most like a word, at most so many of them. */
export function alike(word, words, count = 3, least = 0.6) {
  const found = [];
  for (const other of words) {
    const letters = word.length + other.length;
    if ((2 * Math.min(word.length, other.length)) / letters < least) continue;
    const part = (2 * sharedLetters(other, word)) / letters;
    if (part >= least) found.push({ part, other });
  }
  found.sort((one, two) => two.part - one.part || (one.other < two.other ? 1 : -1));
  return found.slice(0, count).map(({ other }) => other);
}
