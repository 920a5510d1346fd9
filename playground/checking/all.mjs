// all.mjs PAGE NATIVE CHROMIUM PICTURE: the parts of the check.
import fs from "node:fs";
import { Count } from "./kit.mjs";
import { compare } from "./differ.mjs";
import { colours } from "./contrast.mjs";
import { grades } from "./grade.mjs";
import { use } from "./page.mjs";

const [file, program, chromium, picture] = process.argv.slice(2);
const count = new Count();
try {
  colours(count);
  await compare(fs.readFileSync(file, "utf8"), program, count);
  await grades(fs.readFileSync(file, "utf8"), program, count);
  await use(file, program, chromium, picture, count);
} catch (error) {
  count.is("the check itself", false, error.stack);
}
console.log(`${count.passed} passed, ${count.failed} failed`);
process.exit(count.failed ? 1 : 0);
