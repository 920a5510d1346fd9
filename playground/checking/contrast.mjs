// contrast.mjs: the contrast of the page's colours in the light and in the dark, by the rule of WCAG 2: texts at least 4.5 : 1, borders and
// marks at least 3 : 1. It fails where one has less.
import fs from "node:fs";
import path from "node:path";
import { fileURLToPath } from "node:url";
import { Count } from "./kit.mjs";

const STYLE = path.join(path.dirname(path.dirname(fileURLToPath(import.meta.url))), "page/style.css");
const TEXTS = ["ink", "faint", "word", "kind", "string", "number", "comment", "library", "sign", "wrong"];
const GROUNDS = ["ground", "raised", "now", "near", "wrong-ground"];
const BORDERS = ["line", "accent", "wrong"];

// The colours of a block of the style: each by its name.
const coloursOf = (block) => Object.fromEntries([...block.matchAll(/--([a-z-]+): (#[0-9a-f]{6})/g)].map(([, name, colour]) => [name, colour]));

function luminance(colour) {
  const [r, g, b] = [1, 3, 5].map((at) => parseInt(colour.slice(at, at + 2), 16) / 255).map((c) => (c <= 0.04045 ? c / 12.92 : ((c + 0.055) / 1.055) ** 2.4));
  return 0.2126 * r + 0.7152 * g + 0.0722 * b;
}

export function contrast(one, other) {
  const [low, high] = [luminance(one), luminance(other)].sort((x, y) => x - y);
  return (high + 0.05) / (low + 0.05);
}

export function colours(count) {
  const [, light, dark] = fs.readFileSync(STYLE, "utf8").split(/:root \{/);
  for (const [name, block] of [["light", light], ["dark", dark]]) {
    const found = coloursOf(block);
    const pair = (one, other, least) => {
      const has = contrast(found[one], found[other]);
      count.is(`${name}: ${one} on ${other} has ${has.toFixed(2)} : 1`, has >= least);
    };
    for (const text of TEXTS) for (const ground of GROUNDS) pair(text, ground, 4.5);
    for (const border of BORDERS) for (const ground of ["ground", "raised"]) pair(border, ground, 3);
    pair("accent-ink", "accent", 4.5);
    pair("ground", "wrong", 4.5);
  }
}

if (process.argv[1] === fileURLToPath(import.meta.url)) {
  const count = new Count();
  colours(count);
  console.log(`${count.passed} passed, ${count.failed} failed`);
  process.exit(count.failed ? 1 : 0);
}
