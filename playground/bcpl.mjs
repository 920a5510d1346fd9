#!/usr/bin/env node
// bcpl.mjs WORDS..: the kit on any machine that has node 20 or later. It takes the words of `bcpl`, and runs the WebAssembly module of
// the page beside it, playground.html, so it needs that file and nothing else. The input is read to its end before anything runs, the output
// is written when all has run, and it is at most 64 MiB. The status is that of `bcpl`.
import fs from "node:fs";
import path from "node:path";
import { fileURLToPath } from "node:url";
import { kitOf } from "./checking/kit.mjs";

const PAGE = path.join(path.dirname(fileURLToPath(import.meta.url)), "playground.html");
const FILTERS = ["compile", "generate"];
const WITH_VALUES = ["-s", "-t", "--only", "--ocode", "--from", "--to"];
const ROOMS = { output: 1 << 26, lines: 1 << 22 };

// The word that names FILE, and that of the file of --ocode, where there are such words.
function files(words) {
  const found = { file: undefined, ocode: undefined };
  for (let at = 1; at < words.length; at += 1) {
    if (words[at] === "--ocode") found.ocode = words[at + 1];
    if (WITH_VALUES.includes(words[at])) at += 1;
    else if (words[at] === "-" || !words[at].startsWith("-")) found.file ??= words[at];
  }
  return found;
}

// The bytes of a file; undefined where it can't be read.
function bytes(name) {
  try {
    return fs.readFileSync(name);
  } catch {
    return undefined;
  }
}

// The whole standard input.
function input() {
  const parts = [];
  const part = Buffer.alloc(65536);
  for (;;) {
    let count = 0;
    try {
      count = fs.readSync(0, part);
    } catch (error) {
      if (error.code === "EAGAIN") continue;
      if (error.code !== "EOF") break;
    }
    if (count === 0) break;
    parts.push(Buffer.from(part.subarray(0, count)));
  }
  return Buffer.concat(parts);
}

// Writes bytes to a stream, all of them.
function write(stream, given) {
  for (let at = 0; at < given.length;) {
    try {
      at += fs.writeSync(stream, given, at);
    } catch (error) {
      if (error.code !== "EAGAIN") return false;
    }
  }
  return true;
}

const words = process.argv.slice(2);
const named = FILTERS.includes(words[0]) || words.includes("--help") || words.includes("-h") ? {} : files(words);
const given = Object.fromEntries(["file", "ocode"].map((it) => [it, named[it] === undefined || named[it] === "-" ? "" : bytes(named[it])]));
const reads = FILTERS.includes(words[0]) || named.file !== undefined;
if (words.length > 0 && (given.file === undefined || given.ocode === undefined)) {
  write(2, Buffer.from("read fault\n"));
  process.exitCode = 109;
} else {
  const kit = await kitOf(fs.readFileSync(PAGE, "utf8"));
  const answer = kit.serve(words, given.file, reads ? input() : "", ROOMS, given.ocode);
  const written = write(1, answer.output);
  write(2, answer.lines);
  process.exitCode = written ? answer.status : 110;
}
