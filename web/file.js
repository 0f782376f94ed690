// The second room: a record file, the state of its elements, and their years.
import { DAY, NoMemory, dayOf } from "./gtd.js";
import { clock } from "./domain.js";
import { showPicture, yearControl } from "./picture.js";
import { MEANINGS, OUT_OF_MEMORY, make } from "./words.js";

const at = (id) => document.getElementById(id);
const SAMPLES = [
  ["A town", "town.csv"], ["A mountain pass", "pass.csv"], ["A works office", "works.csv"], ["A file with faults", "faults.csv"],
];
const MOST_BYTES = 16777216;
const LINES = 50;

let library, program, years;
let records = null, file = { name: "", bytes: new Uint8Array() }, looker = null;
let sides = [], shown = [], first = 0, chosen = null, asked = null;

const direction = (side) => (side.negative ? "negative" : "positive");
const number = (count) => count.toLocaleString("en");
const plural = (count, one, many = `${one}s`) => `${number(count)} ${count === 1 ? one : many}`;

// The moment and the vehicle type that are asked about; nothing if one of them is out of range.
function asking() {
  const second = library.moment(at("file-moment").value), vehicle = at("vehicle").valueAsNumber;
  if (second === null || !Number.isInteger(vehicle) || vehicle < 1 || vehicle > 99) return null;
  return { second, vehicle };
}

// The numbers of the sides that are to be shown.
function choose() {
  asked = asking();
  first = 0;
  if (!records || !asked) {
    shown = [];
    return showStates();
  }
  const only = at("element").value.trim(), states = records.closedMany(sides, asked.vehicle, asked.second);
  const closed = states.reduce((sum, state) => sum + state, 0);
  shown = sides.filter((side, place) =>
    (!at("closed").checked || states[place]) && (!only || String(side.element) === only.replace(/^0+(?=\d)/, "")));
  at("save-vehicle").textContent = asked.vehicle;
  at("counted").textContent = `${plural(sides.length / 2, "element")}, each in two directions: ${number(closed)} closed, `
    + `${number(sides.length - closed)} open.`;
  showStates();
}

function lineOf(side) {
  const rows = records.closers(side, asked.vehicle, asked.second), next = records.next(side, asked.vehicle, asked.second);
  const state = rows.length ? "closed" : "open";
  const button = make("button", { type: "button", onclick: () => openElement(side, button) }, String(side.element));
  button.setAttribute("aria-label", `Element ${side.element}, ${direction(side)}: show its year`);
  const cells = [button, direction(side), make("span", { className: state }, state),
    next === null ? "" : library.stamp(next).replace("T", " "), rows.join(", ")];
  const line = make("tr", {}, ...cells.map((cell) => make("td", {}, cell)));
  line.setAttribute("role", "row");
  for (const cell of line.children) cell.setAttribute("role", "cell");
  return line;
}

function showStates() {
  const part = shown.slice(first, first + LINES);
  at("lines").replaceChildren(...part.map(lineOf));
  at("pager").hidden = shown.length <= LINES;
  at("page-before").disabled = first === 0;
  at("page-after").disabled = first + LINES >= shown.length;
  at("page-place").textContent = `${number(first + 1)} to ${number(first + part.length)} of ${number(shown.length)}`;
  if (!asked) at("counted").textContent = "Give a moment from 1901 to 2199, and a vehicle type from 1 to 99.";
  else if (!shown.length) at("counted").textContent += " No line fits.";
}

function turnPage(by) {
  first += by;
  showStates();
}

// A word of a command line for the file: a lone `-` would be standard input, which is the file too.
const fileWord = () => file.name || "file";

async function refused(fault) {
  const { output } = await program.run(["faults", "--", fileWord()], file.bytes);
  const count = output.split("\n").filter((line) => line && !line.startsWith(" ")).length;
  at("faults").replaceChildren(
    make("p", {}, make("strong", {}, `${file.name} is refused`), `: it has ${plural(count, "fault")}. `
      + `The first: ${MEANINGS.file[fault.name] ?? fault.name}`),
    make("pre", { className: "list", tabIndex: 0 }, output));
  at("read").textContent = "";
}

function accepted() {
  const elements = records.elements();
  sides = elements.flatMap((element) => [{ element, negative: false }, { element, negative: true }]);
  at("records").hidden = false;
  choose();
}

function showWarnings({ output, failure }) {
  stopLooking();
  if (failure) at("looked").textContent = `This could not be done: ${failure}`;
  else if (!output) at("looked").textContent = "No row looks like a mistake.";
  else at("looked").replaceChildren("These rows look like mistakes:", make("pre", { className: "list", tabIndex: 0 }, output));
}

// The worker that looks for warnings ends with its answer, or when another file is read.
function stopLooking() {
  looker?.terminate();
  looker = null;
  at("look").disabled = false;
  at("looked").replaceChildren();
}

function look() {
  stopLooking();
  at("look").disabled = true;
  at("looked").textContent = "Looking. A large file takes some minutes …";
  looker = new Worker("warnings.js", { type: "module" });
  looker.onmessage = ({ data }) => showWarnings(data);
  looker.onerror = (event) => showWarnings({ failure: event.message ?? "the worker stopped" });
  looker.postMessage({ name: fileWord(), bytes: file.bytes });
}

/** Reads a file: its name and its bytes. */
async function read(name, bytes) {
  records?.close();
  records = null;
  stopLooking();
  file = { name, bytes };
  at("records").hidden = true;
  at("faults").replaceChildren();
  at("read").textContent = `Reading ${name} …`;
  await new Promise((done) => requestAnimationFrame(() => setTimeout(done)));
  const begun = performance.now(), opened = library.records(bytes);
  const took = performance.now() - begun;
  if (opened.fault) return refused(opened.fault);
  records = opened.records;
  at("read").textContent = `${name}: accepted. ${plural(bytes.length, "byte")}, read in ${Math.ceil(took)} ms.`;
  return accepted();
}

// Of a file that is too large, one byte more than may be read shows that it is.
const readFile = async (chosenFile) =>
  read(chosenFile.name, new Uint8Array(await chosenFile.slice(0, MOST_BYTES + 1).arrayBuffer()));

async function readSample(name) {
  const answer = await fetch(`examples/${name}`);
  if (!answer.ok) throw new Error(`${name}: ${answer.status}`);
  return read(name, new Uint8Array(await answer.arrayBuffer()));
}

async function showElementYear(year) {
  if (!chosen) return;
  const mine = chosen;
  const { status, output, errors } = await program.run(
    ["picture", "--", fileWord(), String(mine.element), direction(mine), String(asked.vehicle), String(year)], file.bytes);
  if (mine !== chosen || year !== years.year) return;
  at("element-said").textContent = status === 0 ? "" : errors;
  if (status === 0) at("element-picture").setAttribute("aria-label", showPicture(at("element-picture"), output));
}

function openElement(side, button) {
  chosen = side;
  at("element-title").textContent = `Element ${side.element}, ${direction(side)}, vehicle type ${asked.vehicle}`;
  at("element-said").textContent = "";
  // What has the focus now has it again when the dialog ends.
  button.focus();
  at("element-year").showModal();
  at("element-title").focus();
  years.set(Number(at("file-moment").value.slice(0, 4)));
}

// Hands the bytes to the browser as a file of this name.
function save(name, parts) {
  const link = make("a", { download: name, href: URL.createObjectURL(new Blob(parts, { type: "text/csv" })) });
  link.click();
  setTimeout(() => URL.revokeObjectURL(link.href), 60000);
}

const base = () => file.name.replace(/\.[^.]*$/, "") || "file";

function saveSchedule() {
  const from = library.second(at("from").value), last = library.second(at("until").value);
  const until = last ?? (at("until").value === "2700-01-01" ? library.second("2699-12-31") + DAY : null);
  const bytes = from === null || until === null || !asked ? null : records.schedule(dayOf(from), dayOf(until), asked.vehicle);
  if (bytes) save(`${base()}.schedule.csv`, [bytes]);
  at("saved").textContent = bytes ? `Saved: ${plural(bytes.length, "byte")}.`
    : "Give two days from 1901 to 2700, the second after the first, at most 146,098 days apart.";
}

// The lines of one side of a road in a schedule of the year.
function saveElement() {
  const year = years.year, from = dayOf(library.second(`${year}-01-01`)), until = dayOf(library.second(`${year + 1}-01-01`));
  const lines = records.spans(chosen, asked.vehicle, from, until).map((span) =>
    `${chosen.element},${direction(chosen)},${asked.vehicle},${span.map((second) => library.stamp(second)).join()}\n`);
  save(`${base()}.${chosen.element}.${direction(chosen)}.${year}.csv`, ["element,direction,vehicle,from,until\n", ...lines]);
  at("element-said").textContent = `Saved: ${plural(lines.length, "line")}.`;
}

const tell = (place) => (error) => {
  const large = error instanceof NoMemory || error instanceof RangeError;
  at(place).textContent = large ? OUT_OF_MEMORY : `This could not be done: ${error.message}`;
};
const guarded = (place, work) => async (...given) => {
  try {
    await work(...given);
  } catch (error) {
    tell(place)(error);
  }
};

function listenToFiles() {
  const drop = at("drop"), take = guarded("read", readFile);
  at("chosen").addEventListener("change", () => at("chosen").files[0] && take(at("chosen").files[0]));
  // The same file may be chosen again, after it was mended.
  at("chosen").addEventListener("click", () => (at("chosen").value = ""));
  for (const kind of ["dragenter", "dragover"])
    drop.addEventListener(kind, (event) => {
      event.preventDefault();
      drop.classList.add("over");
    });
  drop.addEventListener("dragleave", () => drop.classList.remove("over"));
  drop.addEventListener("drop", (event) => {
    event.preventDefault();
    drop.classList.remove("over");
    if (event.dataTransfer.files[0]) take(event.dataTransfer.files[0]);
  });
  const sample = guarded("read", readSample);
  at("samples").append(...SAMPLES.map(([name, path]) =>
    make("button", { type: "button", onclick: () => sample(path) }, name)));
}

export function fileRoom(givenLibrary, givenProgram) {
  [library, program] = [givenLibrary, givenProgram];
  at("file-moment").value = clock();
  const year = Number(clock().slice(0, 4));
  [at("from").value, at("until").value] = [`${year}-01-01`, `${year + 1}-01-01`];
  const moved = guarded("element-said", showElementYear);
  years = yearControl(at("element-of-year"), at("element-earlier"), at("element-later"), moved);
  listenToFiles();
  const ask = guarded("counted", choose);
  for (const id of ["file-moment", "vehicle", "element", "closed"]) at(id).addEventListener("input", ask);
  at("page-before").addEventListener("click", () => turnPage(-LINES));
  at("page-after").addEventListener("click", () => turnPage(LINES));
  at("save").addEventListener("click", guarded("saved", saveSchedule));
  at("look").addEventListener("click", guarded("looked", look));
  at("element-save").addEventListener("click", guarded("element-said", saveElement));
  at("element-close").addEventListener("click", () => at("element-year").close());
}
