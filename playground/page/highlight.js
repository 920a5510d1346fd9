// Highlighting: the kinds and words are those of editors/, which are put in KINDS when the page is built. No symbol goes past its line, so
// a line is highlighted by itself.
const CLASSES = {
  comment: "comment", string: "string", "invalid.illegal": "bad", "constant.character.escape": "escape", "constant.character": "string",
  "constant.numeric": "number", "constant.language": "kind", "punctuation.section.block": "kind", storage: "kind",
  "keyword.operator.word": "word", "keyword.operator": "sign", keyword: "word", "support.function": "library",
};

function classOf(name) {
  const found = Object.keys(CLASSES).filter((front) => name.startsWith(front)).sort((x, y) => y.length - x.length)[0];
  return found ? CLASSES[found] : "";
}

// A rule of a TextMate grammar, as an expression that matches at a place.
function ruleOf({ name, match }) {
  const folded = match.startsWith("(?i)");
  return { kind: classOf(name), at: new RegExp(folded ? match.slice(4) : match, folded ? "iy" : "y") };
}

const RULES = KINDS.map(ruleOf);

// The parts of a line: each has its text and its kind.
function partsOf(line) {
  const parts = [];
  let plain = 0;
  for (let at = 0; at < line.length;) {
    let found = null;
    for (const rule of RULES) {
      rule.at.lastIndex = at;
      const matched = rule.at.exec(line);
      if (matched && matched[0]) { found = { text: matched[0], kind: rule.kind }; break; }
    }
    if (!found) { at += 1; continue; }
    if (plain < at) parts.push({ text: line.slice(plain, at), kind: "" });
    parts.push(found);
    at += found.text.length;
    plain = at;
  }
  if (plain < line.length) parts.push({ text: line.slice(plain), kind: "" });
  return parts;
}
