// ---- places: the lines of faults in OCODE and INTCODE, which are told by the number of a statement or an item

const OCODE = EXERCISES.find(({ words }) => words); // its statements, with the number of their words

// The words of a text with their lines, without comments.
function wordsAndLines(text) {
  return text.split("\n").flatMap((row, i) => row.replace(/\/\/.*/, "").split(/\s+/).filter(Boolean).map((word) => ({ word, line: i + 1 })));
}

// How many words a statement of OCODE has after its first.
function wordsAfter(words, at) {
  const { word } = words[at];
  if (!OCODE.counted[word]) return OCODE.words[word] ?? 0;
  const [place, each] = OCODE.counted[word];
  return place + 1 + each * (Number(words[at + 1 + place]?.word) || 0) + (word === "SWITCHON" ? 1 : 0);
}

// The line of a statement of a section of OCODE, or of an item of a segment of INTCODE; of the last word where there is none.
function lineOfPart(text, section, number, isOcode) {
  const words = wordsAndLines(text);
  let part = 1, count = 1;
  for (let at = 0; at < words.length; at++) {
    const { word, line } = words[at];
    if (part === section && count === number) return line;
    if (isOcode) at += wordsAfter(words, at);
    count += 1;
    if (word === (isOcode ? "GLOBAL" : "Z")) [part, count] = [part + 1, 1];
  }
  return words.at(-1)?.line ?? 1;
}

// The place that a fault begins with, and its line; null where it names none.
function placeOfFault(text) {
  const line = /^line (\d+)/.exec(text);
  if (line) return { words: line[0], line: Number(line[1]) };
  const part = /^(section|segment) (\d+), (?:statement|item) (\d+)/.exec(text);
  return part && { words: part[0], line: lineOfPart(editor.text, Number(part[2]), Number(part[3]), part[1] === "section") };
}
