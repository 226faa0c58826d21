// Asks one run of kalah what each move is worth, position by position; Node gives it a socket to read from.
//
//     node examples/ask.js LINE..
//
// Other programs use the class `Solver`. A question gets its own answer or fails: an answer is taken only if it is whole and has the form
// that docs/FORMAT.md gives it. If not, the run is ended, and the next question starts another. It needs `kalah`: the program that the
// environment variable KALAH names, or else on the path, beside this folder, or where `make install` or a package puts it.

const { spawn, spawnSync } = require("node:child_process");
const path = require("node:path");

const OLDEST = [1, 1, 0];
const NUMBER = "(?:0|-?[1-9][0-9]{0,2})";
const VALUES = [1, 2, 3, 4, 5, 6].map((house) => `(?: ${house}:${NUMBER})?`).join("");
// The form of an answer, after a space.
const ANSWER = new RegExp(`^(?:(?= [1-6]:)${VALUES}| ${NUMBER} over| fault (?:long|empty|shape|houses|seeds))\n$`);
// An answer has fewer characters.
const LONGEST = 1000;

class Gone extends Error {}

// Returns the program. Fails with `Gone` if there is none, or an older one.
function find() {
  const named = process.env.KALAH;
  const places = ["../kalah", "../../../../bin/kalah"].map((place) => path.join(__dirname, place));
  for (const program of named ? [named] : ["kalah", ...places]) {
    const said = spawnSync(program, ["--version"], { encoding: "utf8", timeout: 10_000 });
    if (said.error?.code === "ENOENT") continue;
    const version = /^kalah ([0-9]+)\.([0-9]+)\.([0-9]+)\n$/.exec(said.stdout ?? "")?.slice(1).map(Number);
    const place = version?.findIndex((number, i) => number !== OLDEST[i]);
    if (version && (place === -1 || version[place] > OLDEST[place])) return program;
    throw new Gone(`${program} is not kalah ${OLDEST.join(".")} or newer`);
  }
  throw new Gone(`there is no program ${named ?? "kalah"}: put it on the path, or name it in KALAH`);
}

// A run of `kalah ask --values`. A question fails with `Gone` if its answer takes more than `seconds`.
class Solver {
  constructor(seconds = 60) {
    this.seconds = seconds;
    this.turn = Promise.resolve();
    this.run = this.question = null;
  }

  // Returns a promise of the answer to a line, as `kalah ask --values` prints it. Questions wait for each other.
  ask(line) {
    if (/[\n\0]|\p{Surrogate}/u.test(line)) return Promise.reject(new RangeError("a question is one line of text"));
    const answer = this.turn.then(() => this.exchange(line));
    this.turn = answer.catch(() => {});
    return answer;
  }

  // Ends the run, and with it a question that it has not answered.
  close(why = "the solver is closed") {
    const { run, question } = this;
    this.run = this.question = null;
    for (const part of run ? [run.stdin, run.stdout] : []) part.destroy();
    run?.kill("SIGKILL");
    question?.reject(new Gone(why));
  }

  start() {
    this.program ??= find();
    const run = spawn(this.program, ["ask", "--values"], { stdio: ["pipe", "pipe", "inherit"] });
    // What a run reports after its end counts for nothing.
    const fail = (why) => this.run === run && this.close(why);
    run.stdout.setEncoding("utf8").on("data", (text) => this.run === run && this.hear(text));
    for (const part of [run, run.stdin, run.stdout]) part.on("error", (why) => fail(why.message));
    run.on("close", () => fail("kalah has ended"));
    return run;
  }

  hear(text) {
    if (!this.question) return this.close();
    const { resolve, heard } = this.question;
    const answer = (this.question.heard = heard + text);
    if (this.run.stdin.writableLength) return this.close("kalah answers a question that is not yet written");
    if (!answer.includes("\n") && answer.length < LONGEST) return;
    if (!ANSWER.test(" " + answer)) return this.close(`kalah writes ${JSON.stringify(answer)}, which isn't an answer`);
    this.question = null;
    resolve(answer.slice(0, -1));
  }

  exchange(line) {
    let timer;
    return new Promise((resolve, reject) => {
      this.run ??= this.start();
      this.question = { resolve, reject, heard: "" };
      timer = setTimeout(() => this.close(`kalah has not answered in ${this.seconds} seconds`), 1000 * this.seconds);
      this.run.stdin.write(line + "\n");
    }).finally(() => clearTimeout(timer));
  }
}

async function main(lines) {
  if (!lines.length || ["-h", "--help"].includes(lines[0])) {
    (lines.length ? console.log : console.error)("usage: node examples/ask.js LINE..\nIt needs kalah on the path, or named by KALAH.");
    process.exitCode = lines.length ? 0 : 2;
    return;
  }
  const solver = new Solver();
  try {
    for (const line of lines) console.log(`${line}: ${await solver.ask(line)}`);
  } catch (why) {
    console.error(`ask.js: ${why.message}`);
    process.exitCode = 2;
  } finally {
    solver.close();
  }
}

module.exports = { Gone, Solver };
if (require.main === module) {
  // A reader that has seen enough, as `head`, ends the program.
  process.stdout.on("error", (why) => process.exit(why.code === "EPIPE" ? 0 : 2));
  main(process.argv.slice(2));
}
