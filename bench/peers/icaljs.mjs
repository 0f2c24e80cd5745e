// For run.py: ical.js, the module that is named first, on the files that are named behind it. Prints the speed there and back on the first, and
// what comes back of each other.
import { readFileSync } from "node:fs";
import { pathToFileURL } from "node:url";

const [module, ...paths] = process.argv.slice(2);
const ICAL = (await import(pathToFileURL(module))).default;
const [calendar, ...inputs] = paths.map((path) => readFileSync(path, "utf8"));

// MB/s, by the median.
function speed(octets, job) {
  const times = [];
  for (let i = 0; i < 60; i++) {
    const start = process.hrtime.bigint();
    job();
    times.push(Number(process.hrtime.bigint() - start));
  }
  return ((octets * 1e3) / times.sort((a, b) => a - b)[30]).toFixed(1);
}

const jcal = JSON.stringify(ICAL.parse(calendar));
const there = speed(calendar.length, () => JSON.stringify(ICAL.parse(calendar)));
const back = speed(jcal.length, () => ICAL.stringify(JSON.parse(jcal)));
const answers = inputs.map((text) => {
  try {
    return ICAL.stringify(ICAL.parse(text));
  } catch {
    return "refused";
  }
});
process.stdout.write(`${there} ${back}\n` + answers.map((text) => text + "\0").join(""));
