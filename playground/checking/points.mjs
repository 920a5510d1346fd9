// points.mjs PAGE NATIVE: the points that the page gives for exercises of class/, against those of class/grade. class/check calls it; the last
// line is 'N passed, M failed'.
import fs from "node:fs";
import { Count } from "./kit.mjs";
import { grades } from "./grade.mjs";

const [file, program] = process.argv.slice(2);
const count = new Count();
try {
  await grades(fs.readFileSync(file, "utf8"), program, count);
} catch (error) {
  count.is("the points", false, error.stack);
}
console.log(`${count.passed} passed, ${count.failed} failed`);
process.exit(count.failed ? 1 : 0);
