// The map from a program's code to its source, as `show --only map` writes it. This text is in the page and in its workers.
const FIRST_SEGMENT = 1034;        // the address of the first word of the first segment
const ROUTINES = ["STOP", "RDCH", "WRCH", "NEWLINE", "WRITES", "WRITEN", "WRITED", "GETBYTE", "PUTBYTE"];

const numberOr = (text) => (text === "-" ? null : Number(text));

// How a row of each table is read.
const ROWS = {
  words: ([, line, stmt, item, node, name]) => ({ line: numberOr(line), stmt: Number(stmt), item: Number(item), node: numberOr(node), name: name === "-" ? null : name }),
  procedures: ([word, line, arity, name]) => ({ word: Number(word), line: numberOr(line), arity: Number(arity), name }),
  statics: ([word, name]) => ({ word: Number(word), name }),
  globals: ([number, name]) => ({ number: Number(number), name }),
};

// The named words of a frame: `13 V vector 2  14 I variable`.
function namedWords(row) {
  const found = [];
  for (const [, slot, name, kind, vector] of row.matchAll(/(\d+) (\S+) (argument|variable|counter|limit|vector)(?: (\d+))?/g)) {
    found.push({ slot: Number(slot), name, kind, vector: vector === undefined ? null : Number(vector) });
  }
  return found;
}

// The sections of a program: each has the address where its code begins, and its tables.
function mapOf(text) {
  const sections = [];
  let part = null;
  for (const row of text.split("\n")) {
    if (row.startsWith("section ")) {
      const before = sections.at(-1);
      sections.push({ base: before ? before.base + before.words.length : FIRST_SEGMENT, words: [], procedures: [], statics: [], globals: [], frames: [] });
      part = null;
    } else if (row === "map") part = "words";
    else if (row in ROWS || row === "frames") part = row;
    else {
      const fields = row.trim().split(/ +/);
      if (!part || !/^\d+$/.test(fields[0])) continue;
      sections.at(-1)[part].push(part === "frames" ? { stmt: Number(fields[0]), words: namedWords(row.replace(/^ *\d+/, "")) } : ROWS[part](fields));
    }
  }
  return sections;
}

// The word of the code at an address, with its section and its number there.
function wordAt(map, address) {
  const section = map.find(({ base, words }) => address >= base && address < base + words.length);
  return section ? { section, number: address - section.base, ...section.words[address - section.base] } : null;
}

const lineAt = (map, address) => wordAt(map, address)?.line ?? null;

// The procedure whose code is at an address; a routine of the library has no line.
function procedureAt(map, address) {
  if (address === 4 || address === 5) return { name: "WRITEF", arity: 1 };
  if (address >= 1016 && address < FIRST_SEGMENT) return { name: ROUTINES[(address - 1016) >> 1], arity: 0 };
  const found = wordAt(map, address);
  return found ? found.section.procedures.findLast(({ word }) => word <= found.number) ?? null : null;
}

// The named words of the frame, where the code at an address is next.
function namesAt(map, address) {
  const found = wordAt(map, address);
  return found ? found.section.frames.findLast(({ stmt }) => stmt <= found.stmt)?.words ?? [] : [];
}

// What belongs to one row of a table of a section: its line, its statements, its items and its nodes. `part` is tree, ocode or intcode, and
// `row` counts from 1.
function linked(section, part, row, line) {
  const key = { tree: "node", ocode: "stmt", intcode: "item" }[part];
  const words = key ? section.words.filter((word) => word[key] === row) : [];
  const all = (name) => new Set(words.map((word) => word[name]).filter((each) => each !== null));
  const found = { line: line ?? words[0]?.line ?? null, stmt: all("stmt"), item: all("item"), node: all("node") };
  if (key) found[key].add(row);
  return found;
}
