// The kit in node, by the same text that the page's workers run, and the native program.
import fs from "node:fs";
import path from "node:path";
import { spawnSync } from "node:child_process";
import { fileURLToPath } from "node:url";
import { gunzipSync } from "node:zlib";

export const PLAYGROUND = path.dirname(path.dirname(fileURLToPath(import.meta.url)));
export const TREE = path.dirname(PLAYGROUND);

// The text of a script of the page.
export function scriptOf(page, id) {
  const found = new RegExp(`<script id="${id}"[^>]*>([^]*?)</script>`).exec(page);
  return found[1];
}

// Functions of the page's workers, by their names, and the kit of its module.
export async function workerOf(page, ...names) {
  const module = await WebAssembly.compile(gunzipSync(Buffer.from(scriptOf(page, "packed").trim(), "base64")));
  const found = new Function("onmessage", `${scriptOf(page, "worker")}\nreturn { ${["makeKit", ...names].join()} };`)();
  return { kit: await found.makeKit(module), ...found };
}

export const kitOf = async (page) => (await workerOf(page)).kit;

// A list that the page has, by its name.
export function listOf(page, name) {
  return JSON.parse(new RegExp(`^const ${name} = (.*);$`, "m").exec(page)[1]);
}

// Runs the native program.
export function native(program, words, input = "") {
  const ran = spawnSync(program, words, { input, maxBuffer: 1 << 28 });
  if (ran.error && ran.error.code !== "EPIPE") throw ran.error;   // (a program need not read its input)
  // (without words the program alone adds how it is used)
  const lines = words.length ? ran.stderr : ran.stderr.subarray(0, ran.stderr.indexOf("\n") + 1);
  return { status: ran.status, output: ran.stdout, lines };
}

// The programs of examples/, each with its inputs.
export function examples() {
  const found = [];
  for (const folder of ["examples", "examples/old"]) {
    for (const name of fs.readdirSync(path.join(TREE, folder)).sort()) {
      if (!name.endsWith(".b")) continue;
      const file = path.join(TREE, folder, name), given = file.replace(/b$/, "in");
      found.push({ folder, file, name: name.slice(0, -2), source: fs.readFileSync(file), input: fs.existsSync(given) ? fs.readFileSync(given) : Buffer.from("") });
    }
  }
  return found;
}

// Counts checks, and prints those that fail.
export class Count {
  passed = 0;
  failed = 0;

  is(what, holds, found = "") {
    if (holds) this.passed += 1;
    else {
      this.failed += 1;
      console.log(`FAILED ${what} ${typeof found === "string" ? found.slice(0, 400) : JSON.stringify(found).slice(0, 400)}`);
    }
  }
}
