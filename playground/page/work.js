"use strict";
// What the workers of the page do: a worker is sent the module, and then tasks, and answers each with its number.

const latin = new TextDecoder("latin1");
let kitReady;

const BAD_INTCODE = 103;

// INTCODE of a text in BCPL, OCODE or INTCODE, or the answer of the command that refuses it. Comments of OCODE are left out.
function codeOf(kit, source, language = "BCPL") {
  if (language === "INTCODE") {
    const tried = kit.serve(["interpret", "-t", "1", "program.int"], source, "");
    return tried.status === BAD_INTCODE ? tried : { status: 0, output: new TextEncoder().encode(source) };
  }
  if (language === "OCODE") return kit.serve(["generate"], "", source.replace(/\/\/[^\n]*/g, ""));
  const compiled = kit.serve(["compile"], "", source);
  return compiled.status ? compiled : kit.serve(["generate"], "", compiled.output);
}

// The map of a source; OCODE and INTCODE have none.
function sourceMap(kit, source, language = "BCPL") {
  if (language !== "BCPL") return [];
  const told = kit.serve(["show", "--only", "map", "-"], "", source);
  return told.status ? [] : mapOf(latin.decode(told.output));
}

// The code and the map of the last text, since the steps of one program ask for them again and again.
let known = { source: null, language: null };
function knownCode(kit, { source, language }) {
  if (known.source !== source || known.language !== language) {
    known = { source, language, code: codeOf(kit, source, language), map: sourceMap(kit, source, language) };
  }
  return known;
}

const GOES_ON = 106;

// What the steps of a task depend on.
const keyOf = ({ source, language, input, words, most }) => JSON.stringify([source, language, input, words, most]);

// The number of the step that ends the run, if it is at most `most`; found by halving.
let knownEnd = { key: null, end: null };
function endOf(kit, code, input, words, most, key) {
  if (knownEnd.key === key) return knownEnd.end;
  const ends = (steps) => kit.step(code, input, steps, words).status !== GOES_ON;
  let high = 64;
  while (high < most && !ends(high)) high *= 2;
  high = Math.min(high, most);
  let end = null;
  if (ends(high)) {
    let low = 0;
    while (high - low > 1) {
      const middle = Math.floor((low + high) / 2);
      if (ends(middle)) high = middle; else low = middle;
    }
    end = high;
  }
  knownEnd = { key, end };
  return end;
}

// The line of a step that was done, as `interpret --trace` has it: the registers after it are put in their columns.
function lineAfter(line, after) {
  const right = (value, places) => String(value).padStart(places);
  const front = line.slice(0, 33).trimEnd().padEnd(33);
  const registers = right(after.a, 12) + right(after.b, 12) + right(after.p, 9) + right(after.c, 9);
  return (front + registers).padEnd(77) + line.slice(77);
}

// The recorded steps of the last run.
let recorded = { key: null, history: null };
function knownHistory(kit, code, task, count, key) {
  if (recorded.key !== key) recorded = { key, history: historyOf(kit, code, task.input, task.words, count) };
  return recorded.history;
}

// Where a task goes: the step that it names, or the one at which a walk through the source stops.
function targetOf(task, history, map, last, end) {
  const from = Math.max(0, Math.min(task.at, last));
  if (!task.walk) return { at: from, note: "" };
  if (from > history.steps) return { at: from, note: `lines are known up to step ${history.steps.toLocaleString("en")} alone` };
  if (task.walk === "back") return { at: startBefore(history, map, from), note: "" };
  const found = stopAfter(history, map, from, task.walk, task.breakpoints ?? []);
  if (found !== null) return { at: found, note: "" };
  if (end !== null && end <= history.steps) return { at: end, note: task.walk === "breakpoint" ? "no line with a mark comes" : "" };
  return { at: from, note: `none in the first ${history.steps.toLocaleString("en")} steps` };
}

// The machine at a step, with the lines of the steps about it, and what it is in the source.
function stateAt(kit, task) {
  const { code, map } = knownCode(kit, task);
  if (code.status) return { refused: code };
  const key = keyOf(task);
  const state = (steps) => kit.step(code.output, task.input, steps, task.words);
  const loaded = state(0);
  if (!loaded.stack) return { refused: kit.serve(["interpret", "-s", String(task.words), "-t", "1", "f"], code.output, "") };
  const end = endOf(kit, code.output, task.input, task.words, task.most, key);
  const last = end ?? task.most;
  const history = knownHistory(kit, code.output, task, last, key);
  const { at, note } = targetOf(task, history, map, last, end);
  const shown = state(at);
  // (a step that ends the run leaves no registers: those before it are shown)
  const standing = at === end ? state(at - 1) : shown;
  const around = at <= task.around ? [5, 3] : [1, 1];
  const lines = [];
  let next = at === end ? standing : shown;
  for (let steps = at - 1; steps >= Math.max(0, at - around[0]); steps--) {
    const before = steps === at - 1 && at === end ? standing : state(steps);
    const text = latin.decode(before.line).trimEnd();
    lines.unshift({ steps, text: steps === at - 1 && at === end ? text : lineAfter(text, next) });
    next = before;
  }
  for (let steps = at; steps < Math.min(last, at + around[1]); steps++) {
    const before = steps === at ? shown : state(steps);
    lines.push({ steps, text: latin.decode(before.line).trimEnd() });
  }
  return {
    at, end, last, lines, note, recorded: history.steps,
    status: shown.status, output: shown.output,
    a: standing.a, b: standing.b, c: standing.c, p: standing.p, stack: standing.stack,
    ...sourceOf(map, standing, settersOf(history, Math.min(at, history.steps)), at <= history.steps),
    frame: standing.store.slice(standing.p, standing.p + shownOf(map, standing)), frames: framesOf(standing),
    changed: at > 0 && at !== end ? changesOf(state(at - 1), shown, shownOf(map, standing)) : {},
  };
}

const FRAME_SHOWN = [12, 64];      // how many words of the frame are shown, at the least and at the most

// How many words of the frame are shown: all that have names, and a few of what is computed.
function shownOf(map, { c }) {
  const [least, most] = FRAME_SHOWN;
  return Math.min(most, Math.max(least, ...namesAt(map, c).map(({ slot }) => slot + 4)));
}

const VECTOR_SHOWN = 40;           // how many words of a vector are shown

// The string at an address of the code, if there can be one.
function stringAt(map, store, address) {
  if (!wordAt(map, address)) return null;
  const byte = (i) => (store[address + (i >> 2)] >>> ((i & 3) * 8)) & 255;
  const bytes = Array.from({ length: byte(0) }, (_, i) => byte(i + 1));
  return bytes.length && bytes.every((each) => each === 10 || (each >= 32 && each < 127)) ? String.fromCharCode(...bytes) : null;
}

// The machine in the names of the source: the line, the chain of calls with the variables of each, the static words and the globals.
function sourceOf(map, standing, setters, known) {
  const { store } = standing;
  const setAt = (address) => (known ? setters[address] : null);
  const calls = [], vectors = [];
  let code = standing.c;
  for (const { at, returns } of framesOf(standing)) {
    const procedure = procedureAt(map, code);
    if (procedure) calls.push({ name: procedure.name, line: lineAt(map, code), at, names: namesAt(map, code) });
    code = returns - 1;            // (the call is of the line before the one that it returns to)
  }
  for (const { name, at, names } of calls) {
    for (const word of names) if (word.kind === "vector") vectors.push({ from: at + word.vector, to: at + word.slot, name: `${word.name} of ${name}` });
  }
  const drawn = (name, kind, address, vector = null) => {
    const value = store[address];
    const pointed = kind === "vector" ? null : vectors.find(({ from }) => from === value);
    return {
      name, kind, address, vector, value, set: setAt(address), text: stringAt(map, store, value), pointed: pointed ? pointed.name : null,
      items: vector === null ? null : Array.from(store.slice(vector, Math.min(address, vector + VECTOR_SHOWN)), (item, i) => ({ item, set: setAt(vector + i) })),
      more: vector === null ? 0 : Math.max(0, address - vector - VECTOR_SHOWN),
    };
  };
  const fixed = map.flatMap(({ base, statics, globals, procedures }) => [
    ...statics.filter(({ name }) => !procedures.some((each) => each.name === name)).map(({ word, name }) => drawn(name, "static", base + word)),
    ...globals.filter(({ number, name }) => number > 11 && !procedures.some((each) => each.name === name)).map(({ number, name }) => drawn(name, "global", 16 + number)),
  ]);
  const here = calls.find(({ line }) => line !== null);
  return {
    line: here ? here.line : null,
    word: wordAt(map, standing.c),
    calls: calls.map(({ name, line, at, names }) => ({
      name, line, at,
      variables: names.map((word) => drawn(word.name, word.kind, at + word.slot, word.kind === "vector" ? at + word.vector : null)),
    })),
    fixed: fixed.filter((word, i) => fixed.findIndex((each) => each.address === word.address) === i),
  };
}

// The line at which a run ended with a fault, if it ended within so many steps.
function faultLine(kit, task) {
  const { code, map } = knownCode(kit, task);
  if (code.status || !map.length) return { line: null };
  const key = keyOf(task);
  const end = endOf(kit, code.output, task.input, task.words, task.most, key);
  if (end === null) return { line: null };
  const { line, calls } = sourceOf(map, kit.step(code.output, task.input, end - 1, task.words), [], false);
  return { line, name: calls.find((each) => each.line !== null)?.name ?? "" };
}

// The frames from the current one outwards: each has the frame before it in its first word, and where it returns to in the second.
function framesOf({ p, stack, store }) {
  const frames = [];
  while (frames.length < 30 && p >= stack && p + 1 < store.length) {
    frames.push({ at: p, returns: store[p + 1] });
    if (store[p] >= p) break;
    p = store[p];
  }
  return frames;
}

// Which registers and words of the frame the last step changed.
function changesOf(before, after, shown) {
  const words = [];
  for (let i = 0; i < shown; i++) if (before.store[after.p + i] !== after.store[after.p + i]) words.push(i);
  return { a: before.a !== after.a, b: before.b !== after.b, c: before.c !== after.c, p: before.p !== after.p, words };
}

// Runs a text: a source as it is, OCODE and INTCODE by the interpreter.
function runText(kit, { source, language, input, words, steps }) {
  if (language === "BCPL") return kit.serve(["run", "-s", words, "-t", steps, "program.b"], source, input);
  const code = codeOf(kit, source, language);
  return code.status ? code : kit.serve(["interpret", "-s", words, "-t", steps, "program.int"], code.output, input);
}

// A part of what the phases make of a text, with the map of a source.
function listingOf(kit, task) {
  const { source, language, part } = task;
  if (language === "BCPL") {
    const answer = kit.serve(["show", "--only", part, "-"], "", source);
    return { answer, map: answer.status ? [] : knownCode(kit, task).map };
  }
  const written = part === "ocode" && language === "OCODE" || part === "intcode" && language === "INTCODE";
  if (written) return { answer: { ...codeOf(kit, source, language), output: new TextEncoder().encode(source) }, map: [] };
  if (part === "intcode") return { answer: codeOf(kit, source, language), map: [] };
  return { answer: { status: 0, output: new Uint8Array(), none: `${language} has none of these` }, map: [] };
}

const tasks = {
  listing: listingOf,
  serve: (kit, task) => kit.serve(task.words, task.file, task.input),
  code: (kit, task) => codeOf(kit, task.source, task.language),
  run: (kit, task) => runText(kit, task),
  map: (kit, task) => sourceMap(kit, task.source, task.language),
  fault: faultLine,
  state: stateAt,
  grade: (kit, task) => gradeExercise(kit, task.known, task.files),
};

onmessage = async ({ data }) => {
  if (data.module) {
    kitReady = makeKit(data.module);
    return;
  }
  try {
    const kit = await kitReady;
    const began = performance.now();
    const answer = tasks[data.task](kit, data);
    postMessage({ number: data.number, answer, time: performance.now() - began, held: kit.held(), memory: kit.memory() });
  } catch (error) {
    postMessage({ number: data.number, failed: String(error && error.message || error) });
  }
};
