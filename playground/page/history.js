// The steps of a run as they were done: where each was, the frame, and which words it set. This text is run in workers alone.
const RECORDED = 200000;           // how many steps are recorded
const ROW_BYTES = 128;             // the most bytes of a row of the trace

const INSTRUCTION = /^([LSAJTFKX])(I?)([PG]?)(-?\d+)$/;

// The steps of a run, of which there are `count`. Step n is at index n; index 0 is the machine before the first.
function historyOf(kit, code, input, words, count) {
  const steps = Math.min(count, RECORDED);
  const columns = () => new Int32Array(steps + 1);
  const history = { steps: 0, at: columns(), a: columns(), b: columns(), p: columns(), c: columns(), does: new Array(steps + 1) };
  const before = kit.step(code, input, 0, words);
  Object.assign(history, { store: before.store });
  [history.p[0], history.c[0]] = [before.p, before.c];
  if (!steps) return history;
  const told = kit.serve(["interpret", "--trace", "-s", String(words), "-t", String(steps), "f"], code, input, { output: 4 * MEGABYTE, lines: ROW_BYTES * (steps + 4) });
  for (const row of latin.decode(told.lines).split("\n").slice(1)) {
    const n = Number(row.slice(0, 8));
    if (n !== history.steps + 1) break;
    history.steps = n;
    history.at[n] = Number(row.slice(8, 17));
    history.does[n] = INSTRUCTION.exec(row.slice(19, 33).trim());
    const register = (name, from, to, old) => { const text = row.slice(from, to).trim(); history[name][n] = text ? Number(text) : old; };
    register("a", 33, 45, history.a[n - 1]);
    register("b", 45, 57, history.b[n - 1]);
    register("p", 57, 66, history.p[n - 1]);
    register("c", 66, 75, history.c[n - 1]);
  }
  return history;
}

// The step that set each word of the store last, in the first n steps: 0 where none did.
function settersOf(history, n) {
  const store = history.store.slice(), setters = new Int32Array(store.length);
  const set = (at, value, step) => { if (at >= 0 && at < store.length) { store[at] = value; setters[at] = step; } };
  const setByte = (s, i, value, step) => {
    const at = s + (i >> 2), shift = (i & 3) * 8;
    set(at, (store[at] & ~(255 << shift)) | ((value & 255) << shift), step);
  };
  for (let i = 1; i <= Math.min(n, history.steps); i++) {
    const does = history.does[i];
    if (!does) continue;
    const [, letter, indirect, base, number] = does;
    const p = history.p[i - 1], a = history.a[i - 1];
    let d = Number(number) + (base === "P" ? p : base === "G" ? 16 : 0);
    if (indirect) d = store[d];
    if (letter === "S") set(d, a, i);
    else if (letter === "K") {
      const from = p + d, long = Number(number) < 0 || Number(number) > 0x01ffffff;
      set(from, p, i);
      set(from + 1, history.at[i] + (long ? 2 : 1), i);
    } else if (letter === "X" && d === 32) setByte(store[p + 2], store[p + 3], store[p + 4], i);
    else if (letter === "X" && d === 41) setByte(history.b[i - 1], a, store[p + store[history.at[i] + 1]], i);
  }
  return setters;
}

// The step after `from` at which a walk through the source stops: `line` at the next line, `over` at the next line of this procedure or of
// its caller, `out` in the caller, `breakpoint` where a line with a mark begins. Null where the recorded steps have none.
function stopAfter(history, map, from, kind, breakpoints) {
  const lineOf = (n) => lineAt(map, history.c[n]);
  const line = lineOf(from), p = history.p[from];
  for (let n = from + 1; n <= history.steps; n++) {
    const now = lineOf(n);
    if (now === null) continue;
    const other = now !== line || history.p[n] !== p;
    if (kind === "line" && other) return n;
    if (kind === "over" && history.p[n] <= p && other) return n;
    if (kind === "out" && history.p[n] < p) return n;
    if (kind === "breakpoint" && breakpoints.includes(now) && (lineOf(n - 1) !== now || history.p[n - 1] !== history.p[n])) return n;
  }
  return null;
}

// The step before `from` at which its line, or the line before that, began.
function startBefore(history, map, from) {
  const lineOf = (n) => lineAt(map, history.c[n]);
  const begins = (n) => lineOf(n) !== null && (n === 0 || lineOf(n - 1) !== lineOf(n) || history.p[n - 1] !== history.p[n]);
  for (let n = Math.min(from - 1, history.steps); n > 0; n--) if (begins(n)) return n;
  return 0;
}
