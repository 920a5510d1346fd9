// The module of the page, and the native program: the same outputs, statuses and lines.
import fs from "node:fs";
import os from "node:os";
import path from "node:path";
import { examples, kitOf, native } from "./kit.mjs";

const PARTS = ["all", "tokens", "tree", "names", "ocode", "intcode"];
const SOURCES_CHANGED = 300;

const ROOMS = { output: 1 << 26, lines: 1 << 22 };

// Sources at the limits, and programs that go deep.
const repeated = (text, times) => text.repeat(times);
const FAR = [
  ...[199, 201, 20000].map((n) => `LET START() BE A := ${repeated("(", n)}1${repeated(")", n)}\n`),
  ...[190, 201, 20000].map((n) => `LET START() BE ${repeated("$( ", n)}FINISH ${repeated("$) ", n)}\n`),
  `LET START() BE RESULTIS ${repeated("-", 20000)}1\n`,
  `LET START() BE $( LET A = 1\n${repeated("A := A\n", 16000)}$)\n`,
  `LET START() BE $( LET A = 1\n${repeated("A := A\n", 70000)}$)\n`,
  `LET START() BE FINISH // ${repeated("x", 1048540)}\n`,
  `LET START() BE FINISH // ${repeated("x", 1048580)}\n`,
  `${repeated("LET F() BE FINISH\n.\n", 5000)}LET START() BE FINISH\n`,
  `GET "LIBHDR"\nLET F(N) = N=0 -> 0, 1+F(N-1)\nLET START() BE WRITEN(F(20000))\n`,
  `GET "LIBHDR"\nLET START() BE $( LET V = VEC 32767\n FOR I = 0 TO 32767 DO V!I := I\n WRITEN(V!32767) $)\n`,
  `LET START() BE $( ${Array.from({ length: 2000 }, (_, i) => `LET A${i} = ${i}`).join("\n")}\nA1 := A2 $)\n`,
  "", "\n", ".", "\u0000", "LET", '"', "GET \"LIBHDR\"", "LET START() BE \u00e9\n",
];

const DEEP = [
  `GET "LIBHDR"\nLET F(N) = F(N+1)+1\nLET START() BE WRITEN(F(0))\n`,
  `GET "LIBHDR"\nLET F(N) = N=0 -> 0, 1+F(N-1)\nLET START() BE WRITEN(F(500000))\n`,
];

export async function compare(page, program, count) {
  const kit = await kitOf(page);
  const folder = fs.mkdtempSync(path.join(os.tmpdir(), "differ-"));
  const before = count.failed;

  const latin = (bytes) => Buffer.from(bytes).toString("latin1");
  // The words by both, where `file` is the file that they name.
  function same(words, file, input, rooms = undefined, ocode = "") {
    const made = kit.serve(words, file ? fs.readFileSync(file) : "", input, rooms, ocode), wanted = native(program, words, input);
    // (of a source that it refuses the program reads FILE again, for the first fault of each later section; the module does not)
    const lines = words[0] === "check" && wanted.status === 101 ? latin(wanted.lines).slice(0, latin(made.lines).length) : latin(wanted.lines);
    const holds = made.status === wanted.status && latin(made.output) === latin(wanted.output) && latin(made.lines) === lines;
    count.is(words.join(" "), holds, [made.status, wanted.status, latin(made.lines).slice(0, 120), latin(wanted.lines).slice(0, 120), made.output.length, wanted.output.length]);
    return made;
  }

  for (const { file, source, input } of examples()) {
    const compiled = same(["compile"], null, source);
    const generated = same(["generate"], null, compiled.output);
    for (const part of PARTS) same(["show", "--only", part, "-"], null, source);
    same(["show", file], file, "");
    for (const given of [input, "3 4 17\nhello\n"]) same(["run", "-t", "20000000", file], file, given);
    same(["run", "-s", "4096", "-t", "1000", file], file, input);
    same(["check", "-t", "100000", file], file, input);
    const code = path.join(folder, "code.int");
    fs.writeFileSync(code, generated.output);
    same(["interpret", "-t", "20000000", code], code, input);
    same(["interpret", "--trace", "-t", "300", code], code, input);
    const named = path.join(folder, "code.ocode");
    fs.writeFileSync(named, compiled.output);
    same(["interpret", "--trace", "-t", "300", "--ocode", named, code], code, input, undefined, compiled.output);
    same(["interpret", "--sizes", code], code, "");
  }

  // sources with some bytes changed, always the same ones
  let seed = 1;
  const number = (limit) => {
    seed = (Math.imul(seed, 1103515245) + 12345) & 0x7fffffff;
    return (seed >> 8) % limit;
  };
  const all = examples(), changed = path.join(folder, "changed.b");
  for (let i = 0; i < SOURCES_CHANGED; i++) {
    const source = Buffer.from(all[number(all.length)].source);
    for (let j = 0; j <= number(3); j++) source[number(source.length)] = 32 + number(95);
    fs.writeFileSync(changed, source);
    same(["compile"], null, source);
    same(["check", "-t", "1000", changed], changed, "");
  }

  const far = path.join(folder, "far.b");
  for (const source of FAR) {
    fs.writeFileSync(far, source);
    same(["compile"], null, source, ROOMS);
    same(["run", "-t", "5000000", far], far, "", ROOMS);
    same(["check", "-t", "300000", far], far, "", ROOMS);
    same(["show", "--only", "tree", "-"], null, source, ROOMS);
  }
  // programs that want much memory, and memory that is refused
  for (const source of DEEP) {
    fs.writeFileSync(far, source);
    same(["check", far], far, "");
  }
  let refused = "";
  try {
    kit.serve(["compile"], "", "", { output: 4290000000, lines: 1 << 20 });
  } catch (error) {
    refused = error.message;
  }
  count.is("memory that is refused is told", refused === "no memory", refused);

  const greatest = examples().find(({ name }) => name === "queens").file;
  for (const words of ["4095", "4096", "4194304", "4194305"]) same(["run", "-s", words, greatest], greatest, "");

  for (const words of [[], ["run"], ["no", "such"], ["--help"], ["--version"], ["run", "--help"], ["run", "-s", "1", "f"], ["show", "--only", "nothing", "-"]]) same(words, null, "");
  count.is("words that are no UTF-8 are refused", kit.serve(["run", new TextDecoder("latin1").decode(new Uint8Array([0xc3]))], "", "").status !== 0);
  count.is("no block of the heap is held at the end", kit.held() === 0, String(kit.held()));
  fs.rmSync(folder, { recursive: true });
  console.log(`the module and the native program: ${count.passed} the same, ${count.failed - before} differ`);
}
