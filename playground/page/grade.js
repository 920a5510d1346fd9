// The points of what is handed in for an exercise of class/: the parts of test.py there, by the rules of class/grading.py. This text is run
// in workers alone. What it compares with is in class.json, or the module says it.
const GRADED_TURNS = "10000000";   // the turns of `check` for a program that is handed in

// A part: `of` points if none of its checks fails, and else in proportion, rounded down. A check is what was checked, and what is wrong
// with it, or null.
function partOf([name, of], checks) {
  const failed = checks.filter(([, wrong]) => wrong).map(([what, wrong]) => `${what}: ${wrong}`);
  return { name, points: Math.floor((of * (checks.length - failed.length)) / checks.length), of, failed };
}

// A sentence on a command that did not end well, or null.
function problemOf({ status, lines }) {
  // (lines with blanks before them say more of the one before)
  const said = new TextDecoder().decode(lines).trim().split("\n").filter((line) => !line.startsWith(" ")).at(-1);
  return status === 0 ? null : `ended with status ${status}${said ? `: ${said.slice(0, 100)}` : ""}`;
}

// A text between quotes, as Python writes it.
function quoted(text) {
  const mark = text.includes("'") && !text.includes('"') ? '"' : "'";
  const named = { "\\": "\\\\", "\n": "\\n", "\r": "\\r", "\t": "\\t", [mark]: `\\${mark}` };
  const one = (c) => named[c] ?? (/[\u0000-\u001f\u007f-\u00a0\u00ad]/.test(c) ? `\\x${c.charCodeAt(0).toString(16).padStart(2, "0")}` : c);
  return mark + Array.from(text, one).join("") + mark;
}

// Where two texts differ first, without what is wanted.
function firstDifference(wanted, came) {
  if (wanted === came) return null;
  const of = wanted.split("\n"), lines = came.split("\n");
  let at = 0;
  while (at < Math.min(of.length, lines.length) && of[at] === lines[at]) at += 1;
  return lines[at] ? `line ${at + 1} of the output is ${quoted(lines[at].slice(0, 60))}` : `the output ends, or has an empty line, at line ${at + 1}`;
}

const wordsOf = (text) => text.split(/\s+/).filter(Boolean);
const linesOf = (text) => text.split(/\r\n|\r|\n/);

// A sum of a text by which it can be compared and is not read (FNV-1a).
function sumOf(text) {
  let found = 2166136261;
  for (const byte of new TextEncoder().encode(text)) found = Math.imul(found ^ byte, 16777619) >>> 0;
  return found;
}

// ---- exercise 1: statements of OCODE

const withoutNotes = (text) => text.replace(/\/\/[^\n]*/g, "");

// The statements of a text, each its line and a list of its words. Words that begin no statement are statements of their own.
function statementsOf({ words: known, counted }, text) {
  const words = text.split("\n").flatMap((line, n) => wordsOf(line.split("//")[0].toUpperCase()).map((word) => ({ word, line: n + 1 }))), found = [];
  for (let at = 0; at < words.length;) {
    const { word, line } = words[at];
    let size = known[word] ?? 0;
    if (counted[word]) {
      const [place, each] = counted[word], count = words[at + 1 + place]?.word ?? "0";
      size = place + 1 + each * (/^\d+$/.test(count) ? Number(count) : 0) + (word === "SWITCHON" ? 1 : 0);
    }
    found.push({ line, words: words.slice(at, at + 1 + size).map((it) => it.word) });
    at += 1 + size;
  }
  return found;
}

const SETTING = ["ENTRY", "LAB", "DATALAB"], DATA = ["DATALAB", "ITEML", "ITEMN"];
const LABELLED = ["ENTRY", "LAB", "JUMP", "JT", "JF", "RES", "LL", "SL", "LLL"];

// The procedures of a list of statements, each from its ENTRY to its ENDPROC, or to data or GLOBAL, and the statements outside them.
function proceduresOf(statements) {
  const procedures = [], outside = [];
  let inside = false;
  for (const statement of statements) {
    const [keyword] = statement.words;
    if (keyword === "ENTRY") procedures.push([]);
    inside = keyword === "ENTRY" || (inside && !DATA.includes(keyword) && keyword !== "GLOBAL");
    (inside ? procedures.at(-1) : outside).push(statement);
    inside = inside && keyword !== "ENDPROC";
  }
  return [procedures, outside];
}

const isLabel = (word) => /^(L\d+|\?)$/.test(word);
const labelsOf = (words) => words.filter(isLabel);
const numbersOf = (words) => words.filter((word) => !isLabel(word));
const keywordOf = (words) => words[0];
const labelsSet = (found) => found.filter(({ words }) => SETTING.includes(words[0]) && words.length > 1).map(({ words }) => words[1]);

// A check of two lists of statements: where they differ first by a key of their words, and what is wanted there, as `shown` writes it; of a
// statement that is missing at the end, the first word. A statement of `mine` has its words with the labels that are wanted too.
function comparedStatements(what, mine, wanted, key, shown) {
  const keyOf = (words) => JSON.stringify(key(words));
  const least = Math.min(mine.length, wanted.length);
  let at = 0;
  while (at < least && keyOf(mine[at].renamed) === keyOf(wanted[at].words)) at += 1;
  if (at === mine.length && at === wanted.length) return [what, null];
  if (at === mine.length) return [what, `${wanted[at].words[0]} is missing${mine.length ? ` after line ${mine.at(-1).line}` : ""}`];
  const end = at < wanted.length ? `, and \`${shown(wanted[at].words)}\` is wanted` : ", and nothing is wanted there";
  return [what, `line ${mine[at].line} is \`${mine[at].words.join(" ")}\`${end}`];
}

function gradeScheme(kit, known, files) {
  const [[size, start], rest] = proceduresOf(statementsOf(known, latin.decode(kit.serve(["compile"], "", known.source).output)));
  const text = files["size.ocode"];
  const [procedures, after] = proceduresOf(statementsOf(known, text));
  const made = kit.serve(["generate"], "", withoutNotes(text));
  const ran = made.status ? made : kit.serve(["interpret", "-t", "100000000", "size.int"], made.output, "");
  const wrote = latin.decode(ran.output);
  const sound = problemOf(made) ?? problemOf(ran) ?? (wrote === "4" ? null : `it writes ${quoted(wrote)}, and 1980 has 4 digits`);
  // Labels may have other numbers, which cost points in one place alone. In each part the labels that are set are paired in their order.
  const given = [procedures[0] ?? [], procedures.slice(1).flat(), after], names = new Map(), own = new Map();
  [size, start, rest].forEach((part, n) => {
    const [mine, other] = [labelsSet(given[n]), labelsSet(part)];
    for (let at = 0; at < Math.min(mine.length, other.length); at += 1) {
      if (!names.has(mine[at])) names.set(mine[at], other[at]);
      if (!own.has(other[at])) own.set(other[at], mine[at]);
    }
  });
  const [mine, second, data] = given.map((part) => part.map((it) => ({ ...it, renamed: it.words.map((word) => (isLabel(word) ? names.get(word) ?? "?" : word)) })));
  const asGiven = given.flat().map((it) => ({ ...it, renamed: it.words }));
  const renamed = (words) => words.map((word) => (isLabel(word) ? own.get(word) ?? word : word)).join(" ");
  const of = (found, keywords) => found.filter(({ words }) => keywords.includes(words[0]));
  const asTheyAre = (words) => words, joined = (words) => words.join(" ");
  const half = Math.floor(size.length / 2);
  return [
    [comparedStatements("the first half", mine.slice(0, half), size.slice(0, half), keywordOf, keywordOf), comparedStatements("all", mine, size, keywordOf, keywordOf)],
    [["slots", ["LP", "SP"]], ["numbers", ["LN", "ENTRY"]], ["depths", ["SAVE", "STACK", "RSTACK"]]].map(([what, keywords]) =>
      comparedStatements(what, of(mine, keywords), of(size, keywords), numbersOf, renamed)),
    [comparedStatements("where those of SIZE are", of(mine, LABELLED), of(size, LABELLED), labelsOf, renamed),
      comparedStatements("their numbers", of(asGiven, SETTING), of([...size, ...start, ...rest], SETTING), labelsOf, joined)],
    [comparedStatements("statements", second, start, keywordOf, keywordOf), comparedStatements("statements with their words", second, start, asTheyAre, renamed)],
    [comparedStatements("data", of(data, DATA), of(rest, DATA), asTheyAre, renamed), comparedStatements("all", data, rest, asTheyAre, renamed)],
    [["generate and interpret", sound]],
  ];
}

// ---- exercise 7: the line and the kind of each undefined act, and the mended programs

function gradeUndefined(kit, known, files) {
  const answers = new Map();
  for (const line of linesOf(files["answers.txt"])) {
    const [program, ...rest] = wordsOf(line.toLowerCase().replace(/[:,]/g, " "));
    if (program) answers.set(program, [...rest, "", ""].slice(0, 2));
  }
  const lineOf = (letter) => {
    const told = kit.serve(["check", `${letter}.b`], known.files[`${letter}.b`], "");
    return /:(\d+)(?::\d+)?: undefined/.exec(new TextDecoder().decode(told.lines))[1];
  };
  const answer = (letter, place, isRight) => {
    const given = answers.get(letter)?.[place] ?? "";
    return [`program ${letter}`, isRight(given) ? null : given ? `${given} is not right` : "no answer"];
  };
  const letters = Object.keys(known.kinds);
  const mended = (letter) => {
    const ran = kit.serve(["check", "-t", GRADED_TURNS, `${letter}.b`], files[`${letter}.b`], "");
    return [`${letter}.b`, problemOf(ran) ?? firstDifference(known.outputs[letter], latin.decode(ran.output))];
  };
  return [
    letters.map((letter) => answer(letter, 0, (given) => given === lineOf(letter))),
    letters.map((letter) => answer(letter, 1, (given) => sumOf(`${letter} ${given}`) === known.kinds[letter])),
    letters.map(mended),
  ];
}

// ---- exercise 8: bodies and clauses of a contract, over small numbers

// A body or a clause as a function, from its text.
function functionOf(text) {
  const parts = text.replaceAll("≤", "<=").replaceAll("≡", "===").split(" → ");
  const last = parts.pop().replace(/if (.*?) \{ (.*?) \} else /g, "($1) ? ($2) : ").replace(/\{ (.*?) \}/, "($1)");
  return new Function("x", "low", "high", "result", `return ${[...parts.map((each) => `!(${each})`), `(${last})`].join(" || ")};`);
}

const functionsOf = (texts) => Object.fromEntries(Object.entries(texts).map(([name, text]) => [name, functionOf(text)]));

function gradeContract(kit, known, files) {
  const bodies = functionsOf(known.bodies), holds = functionsOf(known.clauses);
  const six = [0n, 1n, 2n, 3n, 4n, 5n];
  const inputs = six.flatMap((x) => six.flatMap((low) => six.filter((high) => low <= high).map((high) => [x, low, high])));
  const meets = (letter, clauses) => inputs.every(([x, low, high]) => {
    const result = bodies[letter](x, low, high);
    return low <= result && result <= high && clauses.every((clause) => holds[clause](x, low, high, result));
  });
  const rows = linesOf(files["answers.txt"]).map((line) => wordsOf(line.replace(/[:,]/g, " ")));
  const named = (word) => rows.filter((row) => row[0] === word);
  const said = new Set(named("meets").flatMap((row) => row.slice(1)).map((word) => word.toUpperCase()));
  const clauses = [...new Set(named("clauses").flatMap((row) => row.slice(1)).filter((word) => word in known.clauses))];
  const shown = new Map(named("wrong").filter((row) => row.length === 5).map(([, letter, ...words]) => [letter.toUpperCase(), words.filter((word) => /^\d+$/.test(word)).map(BigInt)]));
  const letters = Object.keys(bodies), wrong = letters.filter((letter) => letter !== "A" && meets(letter, []));
  const shows = (letter) => {
    const given = shown.get(letter) ?? [];
    return given.length === 3 && given[1] <= given[2] && bodies[letter](...given) !== bodies.A(...given);
  };
  const needed = (clause) => wrong.some((letter) => meets(letter, clauses.filter((each) => each !== clause)));
  return [
    letters.map((letter) => [`body ${letter}`, !said.size ? "no answer" : said.has(letter) === meets(letter, []) ? null : "not so"]),
    wrong.map((letter) => [`body ${letter}`, shows(letter) ? null : "no numbers that show it"]),
    [
      ["body A", clauses.length && meets("A", clauses) ? null : "it is refused, or there are no clauses"],
      ["wrong bodies", wrong.some((letter) => meets(letter, clauses)) ? "one is proved" : null],
      ["no more clauses than needed", clauses.length && clauses.every(needed) ? null : "one can go"],
    ],
  ];
}

const GRADERS = { 1: gradeScheme, 7: gradeUndefined, 8: gradeContract };

// The record of an exercise, as `class/grade --json` writes it.
function gradeExercise(kit, known, files) {
  const checks = GRADERS[known.number](kit, known, files);
  const parts = known.parts.map((part, i) => partOf(part, checks[i]));
  const total = (key) => parts.reduce((sum, part) => sum + part[key], 0);
  return { exercise: known.number, name: known.folder, points: total("points"), of: total("of"), parts };
}
