// The page: an editor, the tabs, and the workers that do the work.
const $ = (id) => document.getElementById(id);
const utf8 = new TextDecoder();

const TABS = [
  { name: "Run" },
  { name: "Tokens", part: "tokens" },
  { name: "Tree", part: "tree" },
  { name: "Names", part: "names" },
  { name: "OCODE", part: "ocode" },
  { name: "INTCODE", part: "intcode" },
  { name: "Step" },
  { name: "Exercises" },
  { name: "Help" },
];
const APART = ["Exercises", "Help"]; // the tabs that show nothing of the program
const REFUSED = 101, REFUSALS = [101, 102, 103]; // the statuses of a text that is refused: BCPL, OCODE and INTCODE
const LINE = 20, TOP = 8;          // the height of a line, and the editor's padding
const HAS_LINE = [104, 105, 107]; // the statuses of faults that a line of the source has
const FOUND_WITHIN = 1500;         // ms: the line of a fault is looked for after runs that took less
const SHOWN = 200000;              // the characters that are shown unless all are asked for
const MOST_KEPT = 1 << 29;         // the bytes that a worker's module may keep; its memory never shrinks

// ---- workers

// A worker that does tasks one after another. A task that is given while another waits takes its place.
class Desk {
  constructor(module) {
    this.module = module;
    this.number = 0;
    this.open();
  }

  open() {
    const texts = [$("worker").textContent];
    this.worker = new Worker(URL.createObjectURL(new Blob(texts, { type: "text/javascript" })));
    this.worker.postMessage({ module: this.module });
    this.worker.onmessage = ({ data }) => this.answered(data);
    this.worker.onerror = (event) => this.answered({ number: this.number, failed: event.message || "the worker failed" });
    this.current = this.waiting = null;
  }

  // Does a task. The answer comes to `then`, or to nobody where a later task took its place.
  ask(task, then) {
    this.waiting = { task, then };
    if (!this.current) this.begin();
  }

  begin() {
    this.current = this.waiting;
    this.waiting = null;
    this.number += 1;
    this.worker.postMessage({ ...this.current.task, number: this.number });
  }

  answered(data) {
    if (!this.current || data.number !== this.number) return;
    const { then } = this.current;
    this.current = null;
    const later = this.waiting;
    if (data.failed || data.memory > MOST_KEPT) {
      this.stop();                 // (a module that failed, or has grown, is not used again)
      this.waiting = later;
    }
    if (later) this.begin();
    else then(data);
  }

  // Ends what is being done.
  stop() {
    this.worker.terminate();
    this.open();
  }
}

// The module, which is in the page packed by gzip.
async function unpacked() {
  const packed = Uint8Array.from(atob($("packed").textContent.trim()), (c) => c.charCodeAt(0));
  const stream = new Blob([packed]).stream().pipeThrough(new DecompressionStream("gzip"));
  return WebAssembly.compile(await new Response(stream).arrayBuffer());
}

// ---- the editor

const editor = { text: "", lines: [""], wrong: 0, here: 0 };

function readLines() {
  editor.text = $("source").value;
  editor.lines = editor.text.split("\n");
  const places = String(editor.lines.length).length;
  $("numbers").style.minWidth = `calc(${Math.max(places, 2)}ch + 20px)`;
}

// Draws the lines that are in view: the numbers, and the highlighted text below the transparent one.
function draw() {
  const { scrollTop, scrollLeft, clientHeight } = $("source");
  const first = Math.max(0, Math.floor((scrollTop - TOP) / LINE) - 2);
  const last = Math.min(editor.lines.length, Math.ceil((scrollTop + clientHeight) / LINE) + 2);
  const numbers = [], rows = [];
  for (let i = first; i < last; i++) {
    const line = i + 1;
    const wrong = `${line === editor.wrong ? " wrong" : ""}${line === editor.here ? " here" : ""}`;
    const number = document.createElement("div");
    number.className = wrong + (breakpoints.has(line) ? " stop" : "");
    number.dataset.line = line;
    number.style.top = `${TOP + i * LINE - scrollTop}px`;
    number.textContent = line;
    numbers.push(number);
    const row = document.createElement("div");
    row.className = wrong;
    row.style.top = `${TOP + i * LINE}px`;
    const text = editor.lines[i];
    if (text.length > 2000 || language() !== "BCPL") row.textContent = text;
    else row.append(...partsOf(text).map(drawn));
    rows.push(row);
  }
  $("numbers").replaceChildren(...numbers);
  $("layer").replaceChildren(...rows);
  $("layer").style.transform = `translate(${-scrollLeft}px, ${-scrollTop}px)`;
}

function drawn({ text, kind }) {
  if (!kind) return text;
  const span = document.createElement("span");
  span.className = kind;
  if (kind === "string" && text.includes("*")) {
    for (const part of text.split(/(\*.)/)) span.append(part.startsWith("*") && part.length === 2 ? drawn({ text: part, kind: "escape" }) : part);
  } else span.textContent = text;
  return span;
}

// Where a line begins in the source.
function startOf(line) {
  let at = 0;
  for (let i = 0; i < line - 1 && i < editor.lines.length; i++) at += editor.lines[i].length + 1;
  return at;
}

// Goes to a line, counted from 1.
function goTo(line) {
  const source = $("source"), from = startOf(line);
  source.focus();
  source.setSelectionRange(from, from + (editor.lines[line - 1] || "").length);
  const top = TOP + (line - 1) * LINE;
  if (top < source.scrollTop || top > source.scrollTop + source.clientHeight - 2 * LINE) source.scrollTop = top - source.clientHeight / 3;
  draw();
}

// Shows the lines that the kit wrote about the text, and marks the line that they name: a fault of a source as `line 5:`, one of a run of
// `check` as `program.b:5:`, which is shown in the same way, one of OCODE as `section 1, statement 5:`.
function tellFault(told) {
  const text = told.replace(/^program\.b:(\d+):/, "line $1:");
  const message = $("message");
  editor.wrong = 0;
  message.hidden = !text;
  message.replaceChildren();
  const found = placeOfFault(text);
  if (found) {
    editor.wrong = found.line;
    const button = document.createElement("button");
    button.textContent = found.words;
    button.onclick = () => goTo(found.line);
    message.append(button, text.slice(found.words.length).trimEnd());
  } else message.textContent = text.trimEnd();
  draw();
}

// ---- the tabs

let tab = TABS[0];

function buildTabs() {
  for (const each of TABS) {
    const button = document.createElement("button");
    Object.assign(button, { id: `tab-${each.name}`, textContent: each.name, role: "tab", onclick: () => choose(each) });
    button.setAttribute("role", "tab");
    button.setAttribute("aria-controls", "panel");
    $("tabs").append(button);
  }
  $("tabs").onkeydown = (event) => {
    const move = { ArrowRight: 1, ArrowLeft: -1, Home: -TABS.length, End: TABS.length }[event.key];
    if (!move) return;
    event.preventDefault();
    const at = TABS.indexOf(tab) + move;
    choose(TABS[Math.abs(move) > 1 ? Math.max(0, Math.min(at, TABS.length - 1)) : (at + TABS.length) % TABS.length]);
    $(`tab-${tab.name}`).focus();
  };
}

function choose(next) {
  tab = next;
  for (const each of TABS) {
    const chosen = each === tab, button = $(`tab-${each.name}`);
    button.setAttribute("aria-selected", chosen);
    button.tabIndex = chosen ? 0 : -1;
  }
  $("panel").setAttribute("aria-labelledby", `tab-${tab.name}`);
  $("stepping").hidden = tab.name !== "Step";
  $("help").hidden = tab.name !== "Help";
  $("exercises").hidden = tab.name !== "Exercises";
  $("listing").hidden = !$("stepping").hidden || APART.includes(tab.name);
  refresh();
  keepAddress();
}

function say(text, wrong = false) {
  $("status").textContent = text;
  $("status").classList.toggle("wrong", wrong);
}

// Shows a text, or its beginning where it is long.
let whole = "";
function show(text) {
  whole = text;
  const shown = text.length > SHOWN ? text.slice(0, SHOWN) : text;
  if (tab.part) showRows(shown);
  else $("view").textContent = shown;
  $("more").hidden = text.length <= SHOWN;
  $("more").textContent = `Show all ${text.length.toLocaleString("en")} characters`;
}

// ---- what the tabs show

let listings, runner;               // the desks: one for what follows the keys, one for runs
let ran = null;                     // what the last run came to
let running = null;

const source = () => editor.text;

// Shows what the chosen tab has for the program as it is now.
function refresh() {
  document.body.dataset.busy = "yes";
  const asked = tab;
  const done = () => { delete document.body.dataset.busy; };
  if (tab.part) {
    listings.ask({ task: "listing", part: tab.part, source: source(), language: language() }, ({ answer: listed, failed }) => {
      if (failed) return done(say(failed, true));
      const { answer, map } = listed;
      linkage.map = map;
      if (asked === tab) {
        show(utf8.decode(answer.output));
        say(answer.status ? `status ${answer.status}` : answer.none ?? "", true);
      }
      explain(answer, done);
    });
  } else if (tab.name === "Step") refreshStep(done);
  else if (APART.includes(tab.name)) done();
  else {
    showRun();
    listings.ask({ task: "code", source: source(), language: language() }, ({ answer, failed }) => (failed ? done(say(failed, true)) : explain(answer, done)));
  }
}

// What is typed: BCPL, OCODE or INTCODE.
const language = () => $("language").value;

// Of a source that is refused, shows the whole message: `check` has the line with a mark, and what was expected.
function explain(answer, done) {
  if (answer.status !== REFUSED || language() !== "BCPL") {
    tellFault(answer.status ? utf8.decode(answer.lines) : "");
    return done();
  }
  listings.ask({ task: "serve", words: ["check", "-t", "1", "program.b"], file: source(), input: "" }, ({ answer: more, failed }) => {
    tellFault(utf8.decode(failed || more.status !== REFUSED ? answer.lines : more.lines));
    done();
  });
}

// ---- runs

// A number as it is typed, with commas, blanks or underlines between its digits or not.
const typed = (id) => $(id).value.replace(/[\s,_']/g, "");

function begin(task, kind) {
  if (running) stop(true);
  const began = performance.now();
  running = { kind, began, source: source(), input: $("input").value };
  ran = null;
  $("stop").disabled = false;
  choose(TABS[0]);
  if (matchMedia("(max-width: 860px)").matches) $("tabs").scrollIntoView({ block: "start" });
  const tick = () => {
    if (running && running.began === began && tab.name === "Run") {
      say(`${kind} for ${Math.floor((performance.now() - began) / 1000)} s`);
      setTimeout(tick, 500);
    }
  };
  setTimeout(tick, 1000);
  runner.ask({ ...task, input: running.input }, ({ answer, time, failed }) => {
    const from = running;
    running = null;
    $("stop").disabled = true;
    ran = failed ? { failed } : { ...answer, time, kind: from.kind };
    showRun();
    if (ran.lines && (REFUSALS.includes(ran.status) || ran.kind === "checking")) tellFault(utf8.decode(ran.lines).trim());
    else if (HAS_LINE.includes(ran.status) && ran.time < FOUND_WITHIN) findFault(utf8.decode(ran.lines).trim());
  });
}

// A run that failed: its line, and the way to `check`, which says more.
function findFault(words) {
  const task = { task: "fault", source: source(), language: language(), input: $("input").value, words: Number(typed("words")), most: Number(typed("steps")) };
  runner.ask(task, ({ answer, failed }) => {
    if (failed || running || !answer.line) return;
    tellFault(`line ${answer.line}: ${words}${answer.name ? `, in ${answer.name}` : ""}`);
    const more = document.createElement("button");
    more.textContent = "Check says more";
    more.onclick = check;
    $("message").append("  ", more);
  });
}

function run() {
  begin({ task: "run", source: source(), language: language(), words: typed("words"), steps: typed("steps") }, "running");
}

function check() {
  if (language() === "BCPL") begin({ task: "serve", words: ["check", "-t", typed("steps"), "program.b"], file: source() }, "checking");
  else say(`Check does what BCPL means; this is ${language()}.`, true);
}

// Ends the run, and shows what it wrote in its first steps: a run is the same each time.
function stop(silent = false) {
  if (!running) return;
  const was = running;
  running = null;
  runner.stop();
  $("stop").disabled = true;
  if (silent) return;
  ran = { stopped: true, kind: was.kind };
  showRun();
  const steps = String(Math.min(MOST_STEPS, Number(typed("steps")) || MOST_STEPS));
  const task = was.kind === "running" ? { task: "run", source: was.source, language: language(), words: typed("words"), steps }
    : { task: "serve", words: ["check", "-t", String(Math.ceil(steps / 100)), "program.b"], file: was.source };
  runner.ask({ ...task, input: was.input }, ({ answer, failed }) => {
    if (running || failed) return;
    ran = { ...answer, stopped: true, kind: was.kind, steps };
    showRun();
  });
}

function showRun() {
  if (tab.name !== "Run") return;
  if (running) {
    show("");
    return say(running.kind);
  }
  if (!ran) {
    show("");
    return say("Run writes the program's output here (Ctrl+Enter).");
  }
  if (ran.failed) {
    show("");
    return say(ran.failed, true);
  }
  show(ran.output ? utf8.decode(ran.output) : "");
  if (ran.stopped) return say(ran.output ? `stopped; this is what its first ${Number(ran.steps).toLocaleString("en")} steps write` : "stopped", true);
  const line = utf8.decode(ran.lines).trim().split("\n")[0];
  const reason = line && ran.kind === "running" ? `: ${line}` : "";
  say(`status ${ran.status}${reason} (${ran.time.toFixed(ran.time < 10 ? 1 : 0)} ms)`, ran.status > 100);
}

// ---- drafts: each source that was typed is kept in this browser, with its time

const DRAFTS = "bcpl-drafts";      // the key of the drafts
const MOST_DRAFTS = 30;
const DRAFT_PAUSE = 400;           // ms from the last key until a draft is kept

let draft = null;                  // the time of the draft that is being typed
let unkept = false;                // whether something that was typed is in no draft

// The drafts, the latest first: { time, text, input, language }.
function drafts() {
  try {
    const kept = JSON.parse(localStorage.getItem(DRAFTS) || "[]");
    return Array.isArray(kept) ? kept.filter((each) => each && typeof each.text === "string") : [];
  } catch {
    return [];
  }
}

// Keeps drafts, the latest of them at least; false where the browser keeps none.
function keepDrafts(list) {
  for (let kept = list.slice(0, MOST_DRAFTS); kept.length; kept = kept.slice(0, Math.floor(kept.length / 2))) {
    try {
      localStorage.setItem(DRAFTS, JSON.stringify(kept));
      return true;
    } catch { /* no room: with fewer */ }
  }
  return false;
}

const isExample = (text) => EXAMPLES.some((each) => each.source === text);

// Keeps what is in the editor as the draft that is being typed. An example as it is needs none.
function keepDraft(text = $("source").value) {
  clearTimeout(drafting);
  if (!unkept) return;
  if (isExample(text) || !text.trim()) {
    unkept = false;
    return;
  }
  draft ??= Date.now();
  const others = drafts().filter((each) => each.time !== draft && each.text !== text);
  unkept = !keepDrafts([{ time: draft, text, input: $("input").value, language: language() }, ...others]);
  fillDrafts();
}

// Whether a text took the place of another one, which then is a draft of its own: they share less than half of it at both ends.
function isOther(before, after) {
  const least = Math.min(before.length, after.length);
  let front = 0, back = 0;
  while (front < least && before[front] === after[front]) front += 1;
  while (back < least - front && before[before.length - 1 - back] === after[after.length - 1 - back]) back += 1;
  return before.length > 40 && front + back < before.length / 2;
}

let drafting = 0;
function draftSoon() {
  unkept = true;
  clearTimeout(drafting);
  drafting = setTimeout(() => keepDraft(), DRAFT_PAUSE);
}

// The drafts by their times and first lines.
function fillDrafts() {
  const list = drafts();
  const named = ({ time, text }) => {
    const lines = text.split("\n").filter((each) => each.trim());
    const line = lines.find((each) => !/^\s*(GET\b|\/\/)/i.test(each)) || lines[0] || "";
    return `${new Date(time).toLocaleString()}  ${line.trim().slice(0, 40)}`;
  };
  $("drafts").replaceChildren(new Option(list.length ? `Drafts (${list.length})` : "No drafts", ""), ...list.map((each) => new Option(named(each), String(each.time))));
}

function chooseDraft() {
  const found = drafts().find((each) => String(each.time) === $("drafts").value);
  $("drafts").value = "";
  if (!found) return;
  replaceProgram(found.text, found.input || "", found.language);
  draft = found.time;
}

// What the editor had before an example, a draft or a file took its place.
let replaced = [];

// Keeps what is in the editor as a draft, and for Undo.
function remember() {
  keepDraft();
  replaced.push({ text: $("source").value, input: $("input").value, draft, language: language() });
  draft = null;
  $("undo").disabled = false;
}

// Puts another program into the editor; the one before can be brought back.
function replaceProgram(text, input, of = "BCPL") {
  remember();
  setProgram(text, input, of);
  at = 0;
  refresh();
  keepAddress();
}

function undo() {
  const before = replaced.pop();
  $("undo").disabled = !replaced.length;
  if (!before) return;
  keepDraft();
  setProgram(before.text, before.input, before.language);
  draft = before.draft;
  at = 0;
  refresh();
  keepAddress();
}

// ---- files

const ENDINGS = { BCPL: "b", OCODE: "ocode", INTCODE: "int" };

function saveFile() {
  const name = $("program").value || "program";
  const link = document.createElement("a");
  link.href = URL.createObjectURL(new Blob([$("source").value], { type: "text/plain" }));
  link.download = `${name}.${ENDINGS[language()]}`;
  link.click();
  setTimeout(() => URL.revokeObjectURL(link.href), 10000);
}

async function openFile() {
  const [file] = $("file").files;
  $("file").value = "";
  if (!file) return;
  const of = Object.keys(ENDINGS).find((each) => file.name.toLowerCase().endsWith(`.${ENDINGS[each]}`));
  replaceProgram(await file.text(), "", of);
}

// ---- the address: a lesson can link to a program

const toText = (bytes) => btoa(Array.from(bytes, (b) => String.fromCharCode(b)).join("")).replaceAll("+", "-").replaceAll("/", "_").replaceAll("=", "");
const toBytes = (text) => Uint8Array.from(atob(text.replaceAll("-", "+").replaceAll("_", "/")), (c) => c.charCodeAt(0));

async function piped(bytes, stream) {
  return new Uint8Array(await new Response(new Blob([bytes]).stream().pipeThrough(stream)).arrayBuffer());
}

// The part of the address after #: an example by its name, or a source packed.
async function address() {
  const words = new URLSearchParams();
  const example = EXAMPLES.find((each) => each.source === source());
  if (example) words.set("program", example.name);
  else words.set("source", toText(await piped(new TextEncoder().encode(source()), new CompressionStream("deflate-raw"))));
  if ($("input").value !== (example ? example.input : "")) words.set("input", $("input").value);
  if (tab !== TABS[0]) words.set("tab", tab.name);
  if (language() !== "BCPL") words.set("language", language());
  if (tab.name === "Step" && at) words.set("step", at);
  if (tab.name === "Exercises") words.set("exercise", exercise.number);
  return `#${words}`;
}

// The address names no program: a reload takes up the draft.
function forgetAddress() {
  if (location.hash) history.replaceState(null, "", "#");
}

let keeping = 0;
function keepAddress() {
  clearTimeout(keeping);
  if (source().length > 20000) {
    forgetAddress();
    return;
  }
  keeping = setTimeout(async () => history.replaceState(null, "", await address()), 800);
}

// Takes up what the address says; with no address, the first example.
async function fromAddress() {
  const words = new URLSearchParams(location.hash.slice(1));
  let text = null, damaged = "";
  if (words.has("source")) {
    try {
      text = utf8.decode(await piped(toBytes(words.get("source")), new DecompressionStream("deflate-raw")));
    } catch {
      damaged = "The link is damaged: its program cannot be read.";
    }
  }
  const named = EXAMPLES.find((each) => each.name === words.get("program"));
  if (words.has("program") && !named) damaged = `The link names no example: ${words.get("program")}.`;
  const [last] = location.hash ? [] : drafts();
  const example = named || (text === null && !last ? EXAMPLES[0] : null);
  if (last && text === null && !named) {
    setProgram(last.text, last.input || "", last.language);
    draft = last.time;
  } else setProgram(text ?? example.source, words.get("input") ?? (example ? example.input : ""), words.get("language"));
  at = Number(words.get("step")) || 0;
  if (words.has("exercise")) showExercise(Number(words.get("exercise")));
  choose(TABS.find((each) => each.name === words.get("tab")) || TABS[0]);
  notice(damaged);
}

// Says something about the page itself, until the next key.
function notice(text) {
  $("notice").textContent = text;
  $("notice").hidden = !text;
}

// ---- programs

function fillPrograms() {
  const groups = new Map();
  for (const { name, group } of EXAMPLES) {
    if (!groups.has(group)) groups.set(group, Object.assign(document.createElement("optgroup"), { label: group }));
    groups.get(group).append(new Option(name, name));
  }
  $("program").append(new Option("your own", ""), ...groups.values());
  $("program").onchange = () => {
    const example = EXAMPLES.find((each) => each.name === $("program").value);
    if (example) replaceProgram(example.source, example.input);
  };
}

function setProgram(text, input, of = "BCPL") {
  stop(true);
  ran = null;
  breakpoints.clear();
  linkage.chosen = null;
  $("language").value = ["OCODE", "INTCODE"].includes(of) ? of : "BCPL";
  $("source").value = text;
  $("source").scrollTop = 0;
  $("input").value = input;
  edited();
}

// The source changed.
function edited() {
  readLines();
  editor.wrong = 0;
  const example = EXAMPLES.find((each) => each.source === editor.text);
  $("program").value = example ? example.name : "";
  draw();
}

let waiting = 0;
function soon(then) {
  document.body.dataset.busy = "yes";
  clearTimeout(waiting);
  waiting = setTimeout(then, Math.min(1500, 200 + source().length / 500));
}

// ---- the page begins

function listen() {
  $("source").oninput = () => {
    notice("");
    if (isOther(editor.text, $("source").value)) {
      keepDraft(editor.text);
      draft = null;
    }
    draftSoon();
    forgetAddress();
    edited();
    ran = null;
    at = 0;
    soon(refresh);
    keepAddress();
  };
  $("source").onscroll = draw;
  new ResizeObserver(draw).observe($("source"));
  $("input").oninput = () => {
    draftSoon();
    forgetAddress();
    if (tab.name === "Step") soon(refresh);
    keepAddress();
  };
  $("run").onclick = run;
  $("check").onclick = check;
  $("stop").onclick = () => stop();
  $("more").onclick = () => {
    if (tab.part) showRows(whole);
    else $("view").textContent = whole;
    $("more").hidden = true;
  };
  $("link").onclick = async () => {
    history.replaceState(null, "", await address());
    try {
      await navigator.clipboard.writeText(location.href);
      $("link").textContent = "Copied";
    } catch {
      $("link").textContent = "It is in the address bar";
    }
    setTimeout(() => { $("link").textContent = "Copy link"; }, 1600);
  };
  listenToSteps();
  listenToRows();
  $("language").onchange = () => {
    draftSoon();
    draw();
    ran = null;
    at = 0;
    refresh();
    keepAddress();
  };
  for (const id of ["steps", "words"]) $(id).onchange = () => { if (tab.name === "Step") refreshStep(); };
  document.addEventListener("keydown", (event) => {
    if (event.key === "F9") {
      event.preventDefault();
      toggleBreakpoint(lineOfCursor());
    }
    if (event.key === "Enter" && (event.ctrlKey || event.metaKey)) {
      event.preventDefault();
      run();
    }
  });
  $("drafts").onchange = chooseDraft;
  $("undo").onclick = undo;
  $("save").onclick = saveFile;
  $("open").onclick = () => $("file").click();
  $("file").onchange = openFile;
  addEventListener("hashchange", () => {
    remember();
    fromAddress();
  });
  // what was typed last is kept as the page is left; where the browser keeps no drafts, it asks first
  addEventListener("beforeunload", (event) => {
    keepDraft();
    if (unkept) event.preventDefault();
  });
  document.addEventListener("visibilitychange", () => { if (document.hidden) keepDraft(); });
}

async function start() {
  fillPrograms();
  buildTabs();
  buildHelp();
  buildExercises();
  let module;
  try {
    module = await unpacked();
  } catch (error) {
    return say(`This browser cannot load the module: ${error.message}`, true);
  }
  listings = new Desk(module);
  runner = new Desk(module);
  listen();
  fillDrafts();
  await fromAddress();
  document.body.dataset.ready = "yes";
}

start();
