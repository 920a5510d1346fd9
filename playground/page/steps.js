// ---- steps

const MOST_STEPS = 10000000;       // how far the step view goes
const STEPPED_WORDS = 65536;       // the most words of its store
const AROUND_STEPS = 1000000;      // up to which step it shows the steps about the current one

let at = 0, standing = null;
const breakpoints = new Set();     // the lines with a mark

function steppedWords() {
  const words = Number(typed("words")) || STEPPED_WORDS;
  return Math.max(4096, Math.min(words, STEPPED_WORDS));
}

// Shows the machine at the step that is asked for; `walk` names a walk through the source from there.
function refreshStep(done = () => {}, walk = "") {
  const asked = Number(typed("steps")) || MOST_STEPS;
  const task = {
    task: "state", source: source(), language: language(), input: $("input").value, at, walk, breakpoints: [...breakpoints],
    words: steppedWords(), most: Math.min(asked, MOST_STEPS), around: AROUND_STEPS,
  };
  listings.ask(task, ({ answer, failed }) => {
    if (failed || answer.refused) {
      standing = null;
      showStep(failed || `status ${answer.refused.status}`);
      return failed ? done() : explain(answer.refused, done);
    }
    standing = answer;
    at = answer.at;
    showStep();
    tellFault("");
    done();
  });
}

function cellsOf(cells) {
  const row = document.createElement("tr");
  for (const [text, kind] of cells) {
    const cell = document.createElement("td");
    cell.textContent = text;
    if (kind) cell.className = kind;
    row.append(cell);
  }
  return row;
}

// A word of the store, with its bytes where they are a text.
function bytesText(word) {
  const bytes = [0, 8, 16, 24].map((shift) => (word >>> shift) & 255);
  return bytes.every((b) => b === 0 || (b >= 32 && b < 127)) && bytes.some((b) => b >= 32) ? `'${bytes.filter((b) => b).map((b) => String.fromCharCode(b)).join("")}'` : "";
}
const hex = (word) => `#X${(word >>> 0).toString(16).toUpperCase().padStart(8, "0")}`;
const counted = (number) => number.toLocaleString("en");

// The step that set a word last.
const setBy = (set) => (set ? `step ${counted(set)}` : set === 0 ? "not yet set" : "");

function emptyStep() {
  $("where").replaceChildren();
  for (const id of ["lines", "registers", "frame", "frames", "variables", "calls", "fixed"]) $(id).tBodies[0].replaceChildren();
  $("sofar").textContent = "";
  editor.here = 0;
}

function showStep(fault = "") {
  emptyStep();
  $("tab-Step").dataset.at = fault ? "" : at;
  if (fault) {
    $("where").textContent = fault;
    hideEmpty();
    draw();
    return;
  }
  const s = standing;
  showWhere(s);
  showLines(s);
  showMachine(s);
  showSource(s);
  $("sofar").textContent = utf8.decode(s.output);
  hideEmpty();
}

// Hides the tables that have nothing to show.
function hideEmpty() {
  for (const id of ["variables", "calls", "fixed", "frames"]) $(id).hidden = !$(id).tBodies[0].rows.length;
}

// Says at which step the machine is, and where the view ends.
function showWhere(s) {
  const bold = document.createElement("b");
  bold.textContent = s.at === s.end ? `The run ended at step ${s.at} with status ${s.status}` : `After ${counted(s.at)} steps`;
  const place = s.line === null ? "" : `, at line ${s.line} in ${s.calls.find(({ line }) => line === s.line).name}`;
  const cap = s.end === null ? ` of more than ${counted(s.last)}, which is as far as this view goes` : s.at === s.end ? "" : ` of ${counted(s.end)}`;
  $("where").append(bold, cap, place, s.note ? `; ${s.note}` : "");
  $("at").value = s.at;
  $("slider").max = s.last;
  $("slider").value = s.at;
  $("slider").setAttribute("aria-valuetext", `step ${s.at} of ${s.last}`);
  editor.here = s.line ?? 0;
  if (s.line !== null) showLine(s.line);
  else draw();
}

function showLines(s) {
  for (const { steps, text } of s.lines) {
    const field = (from, to) => text.slice(from, to).trim();
    const row = cellsOf([
      [field(0, 8), "count"], [field(8, 17), "count"], [field(19, 33)], [field(77)],
      [field(33, 45), "count"], [field(45, 57), "count"], [field(57, 66), "count"], [field(66, 75), "count"],
    ]);
    row.className = steps === s.at ? "now" : steps > s.at ? "later" : "";
    row.dataset.line = text;
    $("lines").tBodies[0].append(row);
  }
}

// The names of the words of the current frame: variables, and the words of vectors.
function namesOfFrame(s) {
  const names = new Map();
  for (const { name, kind, address, vector } of s.calls.find((each) => each.at === s.p)?.variables ?? []) {
    names.set(address - s.p, name);
    if (kind === "vector") for (let at = vector; at < address; at++) names.set(at - s.p, `${name}!${at - vector}`);
  }
  return names;
}

// The registers, the words of the frame, and the frames.
function showMachine(s) {
  const register = (name, word, note, changed) => {
    const row = cellsOf([[name], [word, "count"], [note, "note"]]);
    if (changed) row.className = "changed";
    $("registers").tBodies[0].append(row);
  };
  register("A", s.a, hex(s.a), s.changed.a);
  register("B", s.b, hex(s.b), s.changed.b);
  register("P", s.p, "the frame", s.changed.p);
  register("C", s.c, "the next word", s.changed.c);
  register("G", 16, "the globals", false);
  const names = namesOfFrame(s);
  s.frame.forEach((word, i) => {
    const note = i === 0 ? "P of the caller" : i === 1 ? "where it returns to" : names.get(i) ?? bytesText(word);
    const row = cellsOf([[`P!${i}`], [s.p + i, "note count"], [word, "count"], [note, "note"]]);
    if (s.changed.words && s.changed.words.includes(i)) row.className = "changed";
    $("frame").tBodies[0].append(row);
  });
  s.frames.forEach(({ at: place, returns }, i) => {
    $("frames").tBodies[0].append(cellsOf([[place, "count"], [i === s.frames.length - 1 ? "" : `returns to ${returns}`, "note"]]));
  });
}

// Adds a word with its name; a vector has a row with its words below.
function addWord(body, s, { name, kind, address, value, set, text, pointed, items, more }) {
  const shown = text !== null ? JSON.stringify(text) : pointed ? `the vector ${pointed}` : "";
  const row = cellsOf([[name, "name"], [kind, "note"], [value, "count"], [shown, "note"], [address, "note count"], [setBy(set), "note count"]]);
  row.dataset.name = name;
  if (set && set === s.at) row.className = "changed";
  body.append(row);
  if (!items) return;
  const drawnItems = document.createElement("tr"), cell = document.createElement("td");
  cell.colSpan = 6;
  cell.className = "vector";
  items.forEach(({ item, set: when }, i) => {
    const box = document.createElement("span");
    box.textContent = item;
    box.title = `${name}!${i}: ${setBy(when)}`;
    if (when && when === s.at) box.className = "set";
    cell.append(box);
  });
  if (more) cell.append(`and ${more} more`);
  drawnItems.append(cell);
  body.append(drawnItems);
}

// The variables of the procedure that is run, the chain of calls, the static words and the globals.
function showSource(s) {
  const [here] = s.calls.filter(({ line }) => line !== null);
  $("variables").caption.textContent = here ? `Variables of ${here.name}` : "Variables";
  for (const word of here ? here.variables : []) addWord($("variables").tBodies[0], s, word);
  for (const word of s.fixed) addWord($("fixed").tBodies[0], s, word);
  for (const { name, line, variables } of s.calls) {
    const given = variables.filter(({ kind }) => kind === "argument").map((each) => `${each.name} = ${each.value}`).join(", ");
    $("calls").tBodies[0].append(cellsOf([[name, "name"], [line === null ? "library" : `line ${line}`, "note"], [given, "note"]]));
  }
}

// Walks through the source from the step that is shown.
function walkBy(walk) {
  document.body.dataset.busy = "yes";
  refreshStep(() => { delete document.body.dataset.busy; }, walk);
}

function go(where) {
  if (where === "first") at = 0;
  else if (where === "last") at = MOST_STEPS;
  else at = Math.max(0, at + Number(where));
  refreshStep();
}

// Sets or takes away the mark of a line, at which a run of Step stops.
function toggleBreakpoint(line) {
  if (breakpoints.has(line)) breakpoints.delete(line);
  else breakpoints.add(line);
  draw();
}

function listenToSteps() {
  for (const button of document.querySelectorAll("[data-go]")) button.onclick = () => go(button.dataset.go);
  for (const button of document.querySelectorAll("[data-walk]")) button.onclick = () => walkBy(button.dataset.walk);
  $("at").onchange = () => {
    at = Number(typed("at")) || 0;
    refreshStep();
  };
  $("slider").oninput = () => {
    at = Number($("slider").value);
    refreshStep();
  };
  const walks = { n: "over", s: "line", o: "out", b: "back", c: "breakpoint" };
  $("panel").onkeydown = (event) => {
    if (tab.name !== "Step" || event.target.tagName === "INPUT" || event.ctrlKey || event.metaKey || event.altKey) return;
    const by = { ArrowLeft: "-1", ArrowRight: "1" }[event.key], walk = walks[event.key];
    if (!by && !walk) return;
    event.preventDefault();
    if (by) go(by);
    else walkBy(walk);
  };
  $("numbers").onclick = (event) => {
    const { line } = event.target.dataset;
    if (line) toggleBreakpoint(Number(line));
  };
}
