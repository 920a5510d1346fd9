// The page in Chromium, as a reader uses it.
import fs from "node:fs";
import os from "node:os";
import path from "node:path";
import { pathToFileURL } from "node:url";
import { open } from "./browser.mjs";
import { handedIn } from "./grade.mjs";
import { examples, native, TREE } from "./kit.mjs";

const PARTS = { Tokens: "tokens", Tree: "tree", Names: "names", OCODE: "ocode", INTCODE: "intcode" };
const ENDLESS = 'GET "LIBHDR"\nLET START() BE $( L: GOTO L $)\n';
const ENDLESS_OUTPUT = 'GET "LIBHDR"\nLET START() BE $( WRITES("All work and no play makes Jack a dull boy.*N") $) REPEAT\n';
const FAULT = 'GET "LIBHDR"\n\nLET START() BE\n$( LET A = 1\n   WRITEN(A + B)\n$)\n';
const UNDEFINED = 'GET "LIBHDR"\nLET START() BE\n$( LET V = VEC 9\n   V!10 := 1\n$)\n';

export async function use(file, program, chromium, picture, count) {
  const folder = fs.mkdtempSync(path.join(os.tmpdir(), "page-"));
  const url = pathToFileURL(file).href;
  const browser = await open(chromium, url);
  const before = count.passed;
  const { value, until } = browser;

  const text = (value) => JSON.stringify(value);
  const shown = (id) => value(`document.getElementById(${text(id)}).textContent`);
  const ready = (seconds) => until("document.body.dataset.ready && !document.body.dataset.busy", seconds);
  const click = (id) => value(`document.getElementById(${text(id)}).click()`);
  const ended = (seconds = 60) => until('document.getElementById("stop").disabled && !document.body.dataset.busy', seconds);
  const choose = async (tab) => {
    await click(`tab-${tab}`);
    await ready();
  };
  const write = async (source, seconds = 20) => {
    await value(`{ const box = document.getElementById("source"); box.value = ${text(source)}; box.dispatchEvent(new Event("input")); }`);
    await ready(seconds);
  };
  const give = (input) => value(`{ const box = document.getElementById("input"); box.value = ${text(input)}; box.dispatchEvent(new Event("input")); }`);
  const at = (name, source) => {
    const made = path.join(folder, name);
    fs.writeFileSync(made, source);
    return made;
  };
  // The longest time for which the page did nothing else, in ms, while something is done.
  const longest = async (act) => {
    await value("{ let last = performance.now(); window.longest = 0; window.beat = setInterval(() => { const now = performance.now(); window.longest = Math.max(window.longest, now - last); last = now; }, 5); }");
    await act();
    return value("(clearInterval(window.beat), Math.round(window.longest))");
  };

  try {
    await ready(30);
    count.is("the page is ready from file://", true);

    // ---- programs
    const names = await value("EXAMPLES.map((it) => it.name)");
    const all = examples().filter(({ folder }) => folder === "examples");
    count.is("each program of examples/ can be chosen", all.every(({ name }) => names.includes(name)) && names.length === all.length, names);
    for (const { name, file: source } of all) {
      await value(`{ const box = document.getElementById("program"); box.value = ${text(name)}; box.dispatchEvent(new Event("change")); }`);
      await ready();
      await click("run");
      await ended();
      count.is(`run ${name}`, (await shown("view")) === fs.readFileSync(source.replace(/b$/, "out"), "utf8"), await shown("status"));
    }
    const counter = all.find(({ name }) => name === "count");
    await value('{ const box = document.getElementById("program"); box.value = "count"; box.dispatchEvent(new Event("change")); }');
    await give("one two\nthree\n");
    await click("run");
    await ended();
    count.is("run with another input", (await shown("view")) === native(program, ["run", counter.file], "one two\nthree\n").output.toString(), await shown("view"));

    // ---- each tab
    for (const { name, source } of all.filter((it) => ["queens", "six", "procedures", "letters", "sections"].includes(it.name))) {
      await write(source.toString());
      for (const [tab, part] of Object.entries(PARTS)) {
        await choose(tab);
        const wanted = native(program, ["show", "--only", part, "-"], source).output.toString();
        count.is(`${tab} of ${name}`, (await shown("view")) === wanted, (await shown("view")).slice(0, 200));
      }
    }

    // ---- faults
    await choose("Run");
    await write(FAULT);
    const wanted = native(program, ["check", "-t", "1", at("program.b", FAULT)]).lines.toString().replaceAll(`${folder}/`, "").trimEnd();
    count.is("a fault's message is that of check", (await shown("message")) === wanted, await shown("message"));
    const wrong = () => value('[...document.querySelectorAll("#numbers .wrong")].map((it) => it.textContent).join()');
    count.is("its line is marked", (await wrong()) === "5", await wrong());
    await value('document.querySelector("#message button").click()');
    const chosen = await value('(() => { const box = document.getElementById("source"); return box.value.slice(box.selectionStart, box.selectionEnd); })()');
    count.is("its line is gone to", chosen === "   WRITEN(A + B)", chosen);
    await click("run");
    await ended();
    count.is("a run of it is refused", (await shown("status")).startsWith("status 101"), await shown("status"));
    await choose("Tree");
    count.is("a tab of it says so", (await shown("status")) === "status 101" && (await wrong()) === "5", await shown("status"));
    await choose("Step");
    count.is("the steps of it too", (await shown("where")) === "status 101", await shown("where"));
    await choose("Run");
    await write(FAULT.replace("A + B", "A"));
    count.is("the mark goes with the fault", (await wrong()) === "" && (await value('document.getElementById("message").hidden')), await wrong());

    // ---- check
    await write(UNDEFINED);
    await click("check");
    await ended();
    const told = native(program, ["check", at("program.b", UNDEFINED)]);
    count.is("check reports what is undefined", (await shown("status")).startsWith("status 113") && told.status === 113 && (await shown("message")) === told.lines.toString().trimEnd().replace(/^.*?program\.b:(\d+):/, "line $1:"), await shown("message"));
    count.is("and marks its line", (await wrong()) === "4", await wrong());

    // ---- runs that do not end
    await write(ENDLESS);
    await click("run");
    await new Promise((done) => setTimeout(done, 1500));
    count.is("an endless run says that it runs", (await shown("status")).startsWith("running for"), await shown("status"));
    await click("stop");
    count.is("it is stopped", (await shown("status")).startsWith("stopped"), await shown("status"));
    await write('GET "LIBHDR"\nLET START() BE WRITES("Again*N")\n');
    await click("run");
    await ended();
    count.is("and another runs", (await shown("view")) === "Again\n", await shown("view"));
    await value('document.getElementById("steps").value = "100000"');
    await write(ENDLESS);
    await click("run");
    await ended();
    count.is("the limit of the steps", (await shown("status")).startsWith("status 106: step limit"), await shown("status"));
    await value('document.getElementById("steps").value = "1000000000"');
    await write(ENDLESS_OUTPUT);
    const lagged = await longest(async () => {
      await click("run");
      await ended();
    });
    count.is("endless output ends with a write fault", (await shown("status")).startsWith("status 110: write fault"), await shown("status"));
    count.is(`its 4 MB do not hold up the page (${lagged} ms)`, lagged < 1000, lagged);
    const length = await value("whole.length");
    count.is("all of it is there", length === 4 * 1024 * 1024 && !(await value('document.getElementById("more").hidden')), length);

    // ---- a megabyte
    const filler = "// a comment line that has a length of just seventy-nine characters, or nearly so\n";
    const large = 'GET "LIBHDR"\n' + filler.repeat(Math.floor(1040000 / filler.length)) + 'LET START() BE WRITES("large*N")\n';
    const held = await longest(() => write(large, 60));
    count.is(`a megabyte of source does not hold up the page (${held} ms)`, held < 1500, held);
    await click("run");
    await ended();
    count.is("and it runs", (await shown("view")) === "large\n", await shown("status"));
    const end = await longest(() => value('{ const box = document.getElementById("source"); box.scrollTop = box.scrollHeight; }'));
    await new Promise((done) => setTimeout(done, 200));
    count.is(`its end can be seen (${end} ms)`, (await shown("layer")).includes('WRITES("large*N")'), await shown("layer"));

    // ---- steps
    const six = all.find(({ name }) => name === "factorial").source.toString();
    const compiled = native(program, ["compile"], six).output, code = at("code.int", native(program, ["generate"], compiled).output);
    const trace = native(program, ["interpret", "--trace", code]).lines.toString().split("\n").slice(1, -1);
    await write(six);
    await choose("Step");
    const go = async (where) => {
      await value(`document.querySelector('[data-go="${where}"]').click()`);
      await until("!document.body.dataset.busy", 20);
      await new Promise((done) => setTimeout(done, 150));
    };
    const settle = async (step) => until(`document.getElementById("tab-Step").dataset.at === "${step}"`, 20);
    const register = (name) => value(`[...document.querySelectorAll("#registers tr")].find((it) => it.cells[0].textContent === "${name}").cells[1].textContent`);
    const field = (line, from, to) => line.slice(from, to).trim();
    const agrees = async (step) => {
      await settle(step);
      const line = trace[step - 1];
      const found = [await register("A"), await register("B"), await register("P"), await register("C")];
      const expected = [field(line, 33, 45), field(line, 45, 57), field(line, 57, 66), field(line, 66, 75)];
      count.is(`registers after step ${step}`, found.join() === expected.join(), [found, expected]);
      const done = await value('[...document.querySelectorAll("#lines tbody tr")].filter((it) => !it.className).map((it) => it.dataset.line)');
      count.is(`lines up to step ${step} are those of the trace`, done.length > 0 && done.every((it, i) => it === trace[step - done.length + i]), done);
      const next = await value('document.querySelector("#lines .now").dataset.line');
      count.is(`the step after ${step}`, next.slice(0, 33).trimEnd() === trace[step].slice(0, 33).trimEnd() && next.slice(77) === trace[step].slice(77), next);
    };
    await value('{ const box = document.getElementById("at"); box.value = "40"; box.dispatchEvent(new Event("change")); }');
    await agrees(40);
    await go("1");
    await agrees(41);
    await go("-1");
    await agrees(40);
    await go("100");
    await agrees(140);
    await go("1000");
    await agrees(1140);
    await go("last");
    await settle(trace.length);
    count.is("the last step", (await shown("where")).startsWith(`The run ended at step ${trace.length} with status 0`), await shown("where"));
    count.is("the whole output is there", (await shown("sofar")) === fs.readFileSync(path.join(TREE, "examples/factorial.out"), "utf8"), await shown("sofar"));
    await go("first");
    await settle(0);
    count.is("the first step", (await shown("where")).startsWith("After 0 steps") && (await register("C")) === "1" && (await shown("sofar")) === "", await shown("where"));
    await go("10");
    await agrees(10);
    const p = await value('document.querySelectorAll("#frame tbody tr")[0].cells[1].textContent');
    count.is("the frame is at P", p === (await register("P")), p);

    // ---- steps in the names of the source
    const where = (id, name) => value(`(() => { const row = [...document.querySelectorAll("#${id} tbody tr")].find((it) => it.dataset.name === ${text(name)}); return row ? row.cells[2].textContent : null; })()`);
    const walk = async (kind) => {
      await value(`document.querySelector('[data-walk="${kind}"]').click()`);
      await ready(60);
    };
    const lineNow = async () => Number(/at line (\d+)/.exec(await shown("where"))?.[1]);
    const program2 = async (name) => {
      await value(`{ const box = document.getElementById("program"); box.value = ${text(name)}; box.dispatchEvent(new Event("change")); }`);
      await ready();
      await choose("Step");
    };
    const LOCALS = { sieve: { 12: ["V"] }, primes: { 9: ["SIEVE", "I"], 12: ["SIEVE", "I", "K"] }, machine: { 9: ["CODE", "STACK", "PC", "SP", "OPERATION"] } };
    for (const [name, lines] of Object.entries(LOCALS)) {
      await program2(name);
      for (const [line, names] of Object.entries(lines)) {
        await value(`breakpoints.clear(); toggleBreakpoint(${line})`);
        await walk("breakpoint");
        count.is(`${name} stops at the mark on line ${line}`, (await lineNow()) === Number(line), await shown("where"));
        for (const local of names) count.is(`${local} of ${name} has its name at line ${line}`, (await where("variables", local)) !== null);
      }
    }
    // the vector, the string and the table of a program, with the steps that set their words
    const cellsOf = (id, name) => value(`(() => { const row = [...document.querySelectorAll("#${id} tbody tr")].find((it) => it.dataset.name === ${text(name)}); return row ? [...row.cells].map((it) => it.textContent) : null; })()`);
    const boxesOf = (name) => value(`(() => { const row = [...document.querySelectorAll("#variables tbody tr")].find((it) => it.dataset.name === ${text(name)}); return [...row.nextSibling.querySelectorAll("span")].map((it) => [it.textContent, it.title, it.className]); })()`);
    await write('GET "LIBHDR"\nSTATIC $( COUNT = 3 $)\nGLOBAL $( TOTAL : 100 $)\nLET F(P, N) BE\n$( TOTAL := P!1\n   COUNT := N\n$)\nLET START() BE\n$( LET V, S = VEC 20, "two words"\n   FOR I = 0 TO 20 DO V!I := 100 + I\n   F(V, 7)\n   WRITES(S)\n$)\n');
    await choose("Step");
    await value("breakpoints.clear(); toggleBreakpoint(6)");
    await walk("breakpoint");
    count.is("the words of a frame's vector are drawn in the caller's frame alone", (await where("variables", "V")) === null && (await where("variables", "N")) === "7", await shown("variables"));
    count.is("an argument that is a vector says so", (await cellsOf("variables", "P"))?.[3] === "the vector V of START", await cellsOf("variables", "P"));
    count.is("the chain of calls has the arguments", /^F.*line 6.*N = 7.*START.*line 11/.test(await shown("calls").then((it) => it.replace(/^.*?arguments/, ""))), await shown("calls"));
    count.is("a global has its value", (await where("fixed", "TOTAL")) === "101", await shown("fixed"));
    count.is("a static word has its value", (await where("fixed", "COUNT")) === "3", await shown("fixed"));
    await value("breakpoints.clear()");
    await walk("out");
    const boxes = await boxesOf("V");
    count.is("a vector is drawn, with each word", boxes.length === 21 && boxes.every(([word], i) => word === String(100 + i)), boxes);
    count.is("a string is drawn", (await cellsOf("variables", "S"))[3] === '"two words"', await cellsOf("variables", "S"));
    count.is("the frame has the words of the vector by name", (await shown("frame")).includes("V!20") && (await shown("frame")).includes("P of the caller"), await shown("frame"));
    // the step that set a word: the word has another value before it, and the row is marked after it
    const stepOf = (told) => Number(/step ([\d,]+)/.exec(told)?.[1].replaceAll(",", ""));
    const set = stepOf((await cellsOf("fixed", "COUNT"))[5]);
    await value(`at = ${set - 1}; refreshStep()`);
    await settle(set - 1);
    const earlier = await where("fixed", "COUNT");
    await go("1");
    await settle(set);
    const marked = await value('[...document.querySelectorAll("#fixed tr.changed")].map((it) => it.dataset.name).join()');
    count.is("the step that set a word is told and marked", earlier === "3" && (await where("fixed", "COUNT")) === "7" && marked === "COUNT", [set, earlier, marked]);
    const item = stepOf(boxes[20][1]);
    await value(`at = ${item}; refreshStep()`);
    await settle(item);
    const lit20 = (await boxesOf("V")).filter(([, , kind]) => kind === "set").map(([word]) => word);
    count.is("so is that of a word of a vector", lit20.join() === "120", lit20);
    await write(ENDLESS);
    await until("standing && standing.end === null && !document.body.dataset.busy", 60);
    count.is("where the view ends is told", (await shown("where")).includes("of more than 10,000,000, which is as far as this view goes"), await shown("where"));
    const heads = await value('[...document.querySelectorAll("th")].filter((it) => it.scope !== "col").length');
    count.is("each head of a table has its scope", heads === 0, heads);

    await program2("factorial");
    await value("breakpoints.clear(); go('first')");
    await walk("line");
    await walk("line");
    count.is("a step by line goes into a call", (await shown("calls")).includes("FACTORIAL"), await shown("calls"));
    const inner = await value("standing.calls.length");
    await walk("out");
    count.is("a step out goes to the caller", (await value("standing.calls.length")) < inner, await shown("calls"));
    await value("go('first')");
    await walk("line");
    await walk("over");
    count.is("a step over a call stays in its procedure", !(await shown("calls")).includes("FACTORIAL"), await shown("calls"));
    await value('{ const box = document.getElementById("slider"); box.value = 60; box.dispatchEvent(new Event("input")); }');
    await settle(60);
    count.is("the slider goes to a step", (await shown("where")).startsWith("After 60 steps"), await shown("where"));
    await choose("OCODE");
    await value('document.querySelector("#view .row-of:nth-child(20)").click()');
    const lit = () => value('document.querySelectorAll("#view .lit, #view .near").length');
    count.is("a row that is chosen lights up, with its line", (await lit()) > 0 && (await value('document.querySelectorAll("#layer .here").length')) === 1);
    for (const other of ["INTCODE", "Tree", "Names"]) {
      await choose(other);
      count.is(`its rows light up in ${other}`, (await lit()) > 0);
    }

    await choose("OCODE");
    await value('document.getElementById("view").focus()');
    await browser.key("ArrowDown");
    const moved = await value("linkage.at");
    await browser.key("ArrowDown");
    count.is("the arrow keys choose the next row", (await value("linkage.at")) > moved && (await lit()) > 0, [moved]);
    await value('{ const box = document.getElementById("source"); box.focus(); box.setSelectionRange(startOf(4), startOf(4)); box.dispatchEvent(new Event("keyup")); }');
    const lines = await value('[...document.querySelectorAll("#view .near, #view .lit")].map((it) => Number(it.textContent.slice(0, 6)))');
    count.is("the line of the cursor lights its rows up", lines.length > 0 && lines.every((line) => line === 4), lines);

    // ---- a fault of a run has its line
    await write('GET "LIBHDR"\nLET START() BE\n$( LET A = 0\n   WRITEN(1 / A)\n$)\n');
    await choose("Run");
    await click("run");
    await ended();
    await until('!document.getElementById("message").hidden', 10);
    count.is("a fault of a run has its line, and leads to check", (await shown("message")).startsWith("line 4: division by zero, in START") && (await shown("message")).includes("Check says more"), await shown("message"));

    // ---- memory
    const DEEP = 'GET "LIBHDR"\nLET F(N) = F(N + 1) + 1\nLET START() BE WRITEN(F(0))\n';
    const FAR = 'GET "LIBHDR"\nLET F(N) = N = 0 -> 0, 1 + F(N - 1)\nLET START() BE WRITEN(F(500000))\n';
    const alive = async (what, wanted) => {
      const line = wanted.lines.toString().split("\n")[0];
      count.is(`${what} ends as in the program`, (await shown("status")).startsWith(`status ${wanted.status}`) && (!line || `${await shown("status")} ${await shown("message")}`.includes(line)), [await shown("status"), await shown("message"), line]);
      await write('GET "LIBHDR"\nLET START() BE WRITES("Alive*N")\n');
      await click("run");
      await ended();
      count.is(`after ${what} another program runs`, (await shown("view")) === "Alive\n", await shown("view"));
    };
    for (const [what, source] of [["recursion without end", DEEP], ["F(500000)", FAR]]) {
      for (const how of ["check", "run"]) {
        await write(source);
        await click(how);
        await ended(120);
        await alive(`${how} of ${what}`, native(program, [how, at("deep.b", source)]));
      }
    }
    // ---- other languages
    await write("1 L6 X4 G1L1 Q16 Z\n");
    await value('{ const box = document.getElementById("language"); box.value = "INTCODE"; box.dispatchEvent(new Event("change")); }');
    await click("run");
    await ended();
    count.is("INTCODE runs", (await shown("status")).startsWith("status 0"), await shown("status"));
    await value('{ const box = document.getElementById("source"); box.value = ' + text(native(program, ["compile"], fs.readFileSync(path.join(TREE, "examples/hello.b"))).output.toString()) + '; box.dispatchEvent(new Event("input")); }');
    await value('{ const box = document.getElementById("language"); box.value = "OCODE"; box.dispatchEvent(new Event("change")); }');
    await click("run");
    await ended();
    count.is("OCODE runs", (await shown("view")) === fs.readFileSync(path.join(TREE, "examples/hello.out"), "utf8"), await shown("view"));
    const speak = (name) => value(`{ const box = document.getElementById("language"); box.value = "${name}"; box.dispatchEvent(new Event("change")); }`);
    await write("ENTRY L1 1 65 // a comment\nSAVE 2\nFOO 3\n");
    count.is("a fault of OCODE has its line", (await shown("message")).startsWith("section 1, statement 3:") && (await wrong()) === "3", await shown("message"));
    await speak("INTCODE");
    await write("1 L6\nX4 Q16\nZ\n2 L6 FOO\n");
    count.is("a fault of INTCODE has its line", /^segment 2, item \d/.test(await shown("message")) && (await wrong()) === "4", await shown("message"));
    await browser.go(url);
    await ready(30);
    count.is("a draft keeps its language", (await value('document.getElementById("language").value')) === "INTCODE", await value('document.getElementById("language").value'));
    await speak("BCPL");
    await choose("Help");
    count.is("the help has forms with examples", (await value('document.querySelectorAll("#help section pre").length')) > 15);
    for (const [name, , example] of await value("FORMS")) {
      const ran = native(program, ["run", at("form.b", example)]);
      count.is(`the example of the form ${name} runs`, ran.status < 100, ran.lines.toString());
    }

    // ---- the keyboard
    await choose("Run");
    await value('document.getElementById("tab-Run").focus()');
    await browser.key("ArrowRight");
    await ready();
    count.is("the right arrow goes to the next tab", (await value("document.activeElement.id")) === "tab-Tokens" && (await value('document.getElementById("tab-Tokens").getAttribute("aria-selected")')) === "true");
    await browser.key("End");
    await ready();
    count.is("End goes to the last", (await value("document.activeElement.id")) === "tab-Help");
    await browser.key("Home");
    await ready();
    await write("");
    await value('document.getElementById("source").focus()');
    await browser.type('GET "LIBHDR" // typed\nLET START() BE WRITES("typed*N")');
    await ready();
    count.is("what is typed is highlighted", (await shown("layer")) === 'GET "LIBHDR" // typedLET START() BE WRITES("typed*N")' && (await value('document.querySelectorAll("#layer .word, #layer .kind").length')) >= 3, await shown("layer"));
    await browser.key("Enter", 2);
    await ended();
    count.is("Ctrl+Enter runs", (await shown("view")) === "typed\n", await shown("view"));

    // ---- links
    await choose("Tree");
    await give("some input");
    await click("link");
    await until('location.hash.includes("source=")', 5);
    const link = await value("location.href"), tree = await shown("view");
    await browser.go(link);
    await ready(30);
    count.is("a link has the program, the input and the tab", (await shown("view")) === tree && (await value('document.getElementById("input").value')) === "some input" && (await value('document.getElementById("source").value')).includes("typed"));
    await browser.go(`${url}#program=queens&tab=OCODE`);
    await ready(30);
    count.is("a link may name an example", (await shown("view")) === native(program, ["show", "--only", "ocode", "-"], all.find(({ name }) => name === "queens").source).output.toString());

    // ---- nothing is lost
    const long = 'GET "LIBHDR"\n' + "// a comment\n".repeat(2000) + 'LET START() BE WRITES("long*N")\n';
    const written = () => value('document.getElementById("source").value');
    await choose("Run");
    await write(long);
    await value("new Promise((done) => setTimeout(done, 1000))");
    await browser.go(url);
    await ready(30);
    count.is("a long source is there after a reload", (await written()) === long, (await written()).slice(0, 80));
    await value('{ const box = document.getElementById("source"); box.value = "// just typed"; box.dispatchEvent(new Event("input")); }');
    await browser.reload();
    await ready(30);
    count.is("what was just typed is there after a reload", (await written()) === "// just typed", (await written()).slice(0, 80));
    await value('{ const box = document.getElementById("program"); box.value = "queens"; box.dispatchEvent(new Event("change")); }');
    await ready();
    await click("undo");
    await ready();
    count.is("an example that was chosen can be undone", (await written()) === "// just typed", (await written()).slice(0, 80));
    await value('{ const box = document.getElementById("drafts"); box.value = [...box.options].find((it) => it.text.includes("LET START()")).value; box.dispatchEvent(new Event("change")); }');
    await ready();
    count.is("a draft can be taken up", (await written()) === long, (await written()).slice(0, 80));
    await value('(() => { const files = new DataTransfer(); files.items.add(new File(["L6 X4 Z"], "opened.int")); const box = document.getElementById("file"); box.files = files.files; box.dispatchEvent(new Event("change")); })()');
    await until('document.getElementById("source").value === "L6 X4 Z"', 10);
    count.is("a file can be opened, in its language", (await value('document.getElementById("language").value')) === "INTCODE");
    await click("undo");
    await ready();
    count.is("and undone", (await written()) === long, (await written()).slice(0, 80));
    const saved = await value('(() => { let kept = ""; const click = HTMLAnchorElement.prototype.click; HTMLAnchorElement.prototype.click = function () { kept = this.download + " " + this.href.slice(0, 5); }; saveFile(); HTMLAnchorElement.prototype.click = click; return kept; })()');
    count.is("a program can be saved", saved === "program.b blob:", saved);
    const leaves = () => value('(() => { const event = new Event("beforeunload", { cancelable: true }); dispatchEvent(event); return !event.defaultPrevented; })()');
    await value('window.kept = Storage.prototype.setItem; Storage.prototype.setItem = () => { throw new Error("full"); }; void 0');
    await write("// kept nowhere");
    count.is("the page asks before it is left where it keeps no draft", !(await leaves()));
    await value("Storage.prototype.setItem = window.kept; void 0");
    count.is("and else it does not", await leaves());
    await browser.go(`${url}#source=@@@`);
    await ready(30);
    count.is("a damaged link says so", (await shown("notice")).startsWith("The link is damaged"), await shown("notice"));
    await write(ENDLESS);
    await value('document.getElementById("steps").value = "100,000"');
    await click("run");
    await ended();
    count.is("steps may have commas", (await shown("status")).startsWith("status 106: step limit"), await shown("status"));
    await value('document.getElementById("steps").value = "1000000000"');

    // ---- exercises
    for (const exercise of (await value("EXERCISES")).filter((each) => each.files)) {
      await browser.go(`${url}#tab=Exercises&exercise=${exercise.number}`);
      await ready(30);
      count.is(`a link opens exercise ${exercise.number}`, (await shown("exercise-name")).startsWith(`Exercise ${exercise.number}: `), await shown("exercise-name"));
      const paste = async (files) => {
        for (const [name, words] of Object.entries(files)) await value(`{ const box = document.getElementById("answer-${name}"); box.value = ${text(words)}; box.dispatchEvent(new Event("input")); }`);
        await click("grade");
        await until("!document.body.dataset.busy", 60);
        return shown("graded");
      };
      const of = exercise.parts.reduce((sum, [, points]) => sum + points, 0);
      const [solution, , mutant] = handedIn(exercise);
      const full = await paste(solution.files);
      count.is(`the solution of exercise ${exercise.number} gets all points`, full === `${of} of ${of} points: all of them`, full);
      const fewer = await paste(mutant.files);
      count.is(`a mutant of it gets fewer, with what failed`, Number(fewer.split(" ")[0]) < of && (await value('document.querySelectorAll("#points .failures div").length')) > 0, fewer);
      await browser.reload();
      await ready(30);
      const [name] = Object.keys(mutant.files);
      count.is("what was pasted is there after a reload", (await value(`document.getElementById("answer-${name}").value`)) === mutant.files[name]);
      await click("restart");
      count.is("the starter files come back", (await value(`document.getElementById("answer-${name}").value`)) === exercise.files[name]);
    }
    await value('{ const box = document.getElementById("exercise"); box.value = "1"; box.dispatchEvent(new Event("change")); }');
    await value('document.querySelector("#answers button").click()');
    await ready();
    count.is("an answer goes to the editor in its language", (await value('document.getElementById("language").value')) === "OCODE" && (await written()).startsWith("// the entry of SIZE"), await written());
    await value('{ const box = document.getElementById("exercise"); box.value = "3"; box.dispatchEvent(new Event("change")); }');
    count.is("an exercise that is a program says how it is graded", (await shown("exercise-about")).includes("class/grade 3") && (await value('document.getElementById("grade").disabled')));

    // ---- looks
    await browser.go(`${url}#program=factorial&tab=Step&step=40`);
    await ready(30);
    const ground = () => value("getComputedStyle(document.body).backgroundColor");
    await browser.scheme("light");
    const light = await ground();
    if (picture) await browser.picture(picture);
    await browser.scheme("dark");
    const dark = await ground();
    count.is("it is light and dark", light === "rgb(255, 255, 255)" && dark === "rgb(20, 24, 31)", [light, dark]);
    if (picture) await browser.picture(picture.replace(/(\.png)?$/, "-dark.png"));
    await browser.scheme("light");
    await browser.size(360, 740, true);
    for (const tab of ["Run", ...Object.keys(PARTS), "Step", "Exercises", "Help"]) {
      await choose(tab);
      const wide = await value("document.documentElement.scrollWidth");
      count.is(`${tab} at a width of 360`, wide <= 360, wide);
    }
    await choose("Run");
    await write(FAULT);
    count.is("a fault at a width of 360", (await value("document.documentElement.scrollWidth")) <= 360);
    if (picture) await browser.picture(picture.replace(/(\.png)?$/, "-narrow.png"));
    count.is("no script failed", browser.errors.length === 0, browser.errors);
  } finally {
    await browser.close();
    fs.rmSync(folder, { recursive: true });
  }
  console.log(`the page in Chromium: ${count.passed - before} passed`);
}
