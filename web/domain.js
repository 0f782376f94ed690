// The first room: one text, and what it says.
import { NoMemory } from "./gtd.js";
import { showPicture, yearControl } from "./picture.js";
import { MEANINGS, OUT_OF_MEMORY, make, marked } from "./words.js";

const at = (id) => document.getElementById(id);
const EXAMPLES = [
  ["Spring", "[(M4d1){M3}]*[(h10){h4}]"],
  ["Nights", "(h22){h8}"],
  ["Rush hours", "[(h7){h2}+(h16){h3}]*[(t2){d5}]"],
  ["Friday the 13th", "(d13t6){d1}"],
  ["Summer time", "[(M3l11h2){M8}]-[(M10l11h3){M2}]"],
  ["Works", "(y2026M9d7){w4}*(t2t3t4t5h21){h8}"],
  ["Opening hours", "Mo-Fr 07:00-09:00,16:00-18:00; Dec 25 off"],
  ["A fault", "[(h25){h4}]"],
];

const PAUSE = 800; // milliseconds without a change, before what is shown is read out

let library, program, domain = null, years, turn = 0, pause = 0;

/** Whether the text is read as a time domain: opening hours have no braces, and begin with no bracket. */
const isDomain = (text) => /[{}]/.test(text) || /^\s*[[(]/.test(text);

// The first fault in what the program says of a text of hours.
function hoursFault(errors) {
  const said = /^gtdesk: TEXT: (\w+) at (\d+)$/m.exec(errors);
  return said ? { name: said[1], place: Number(said[2]) } : { name: errors.trim(), place: 0 };
}

// Has a screen reader say what is shown, once nobody types any more.
function speak() {
  clearTimeout(pause);
  pause = setTimeout(() => {
    const told = domain ? ["said", "words", "state"] : ["said", "fault"];
    at("spoken").textContent = told.map((id) => at(id).textContent.trim()).join(" ");
  }, PAUSE);
}

// What the text stands for: a domain, or a fault, and how it was read.
async function reading(text) {
  if (isDomain(text)) return { kind: "domain", ...library.domain(text) };
  const { status, output, errors } = await program.run(["hours", "--strict", "--", text]);
  if (status !== 0) return { kind: "hours", fault: hoursFault(errors) };
  return { kind: "hours", ...library.domain(output.trimEnd()) };
}

function showFault(text, kind, fault) {
  const meaning = MEANINGS[kind][fault.name] ?? "";
  at("fault").replaceChildren(
    make("p", {}, make("strong", {}, `${fault.name} at ${fault.place}`), `: ${meaning}`), marked(text, fault.place));
  at("said").textContent = kind === "domain" ? "Read as a time domain, with a fault." : "Read as opening hours, with a fault.";
}

function showState() {
  const second = library.moment(at("moment").value);
  if (!domain) return;
  if (second === null) {
    at("state").textContent = "There is no such moment from 1901 to 2199.";
    return;
  }
  const holds = domain.holds(second), next = domain.next(second);
  const later = next.at !== undefined ? `until ${spoken(library.stamp(next.at) ?? "a year after 2699")}.`
    : next.never ? "and this never changes again." : "and this does not change again before 2700.";
  at("state").replaceChildren(make("strong", {}, holds ? "In the domain" : "Not in the domain"), `, ${later}`);
}

const spoken = (stamp) => stamp.replace("T", " ");

function showYear(year) {
  if (!domain) return;
  const title = showPicture(at("picture"), domain.picture(year));
  at("picture").setAttribute("aria-label", `Picture of ${year}: ${title}`);
}

async function showHours(canon, mine) {
  const { status, output } = await program.run(["hours", "--of", canon]);
  if (mine !== turn) return;
  const found = at("hours");
  found.textContent = status === 0 ? output.trimEnd() : "none found that say the same";
  found.classList.toggle("none", status !== 0);
}

function showDomain(kind) {
  const canon = domain.canon();
  at("said").textContent = kind === "domain" ? "A time domain." : "Opening hours, read as a time domain.";
  at("words").textContent = domain.words();
  at("canon").textContent = canon;
  showState();
  showYear(years.year);
  return canon;
}

async function show() {
  const text = at("text").value.replace(/[\r\n]+$/, ""), mine = ++turn;
  fit();
  const read = text.trim() ? await reading(text) : { empty: true };
  if (mine !== turn) {
    read.domain?.close();
    return;
  }
  domain?.close();
  domain = read.domain ?? null;
  at("answers").hidden = !domain;
  at("fault").replaceChildren();
  at("text").setAttribute("aria-invalid", String(Boolean(read.fault)));
  if (read.empty) at("said").textContent = "Type a text, or take one of the examples.";
  else if (read.fault) showFault(text, read.kind, read.fault);
  else await showHours(showDomain(read.kind), mine);
}

const tell = (error) => {
  const stopped = `The library stopped: ${error.message}. Load the page again.`;
  at("said").textContent = error instanceof NoMemory ? OUT_OF_MEMORY : stopped;
};
const changed = () => show().catch(tell).finally(speak);

// The field is as high as its text.
function fit() {
  const field = at("text");
  field.style.height = "auto";
  field.style.height = `${field.scrollHeight + 2}px`;
}

/** This computer's clock, in the form of a field for moments. */
export function clock() {
  const now = new Date();
  return new Date(now.getTime() - now.getTimezoneOffset() * 60000).toISOString().slice(0, 19);
}

async function copy() {
  await navigator.clipboard.writeText(at("canon").textContent);
  at("said").textContent = "The canonical text is copied.";
}

export async function domainRoom(givenLibrary, givenProgram) {
  [library, program] = [givenLibrary, givenProgram];
  years = yearControl(at("year"), at("earlier"), at("later"), showYear);
  at("moment").value = clock();
  years.set(Number(clock().slice(0, 4)));
  at("examples").append(...EXAMPLES.map(([name, text]) => make("button", {
    type: "button",
    title: text,
    onclick() {
      at("text").value = text;
      changed();
    },
  }, name)));
  at("text").addEventListener("input", changed);
  at("text").addEventListener("fit", fit);
  at("text").addEventListener("keydown", (event) => event.key === "Enter" && event.preventDefault());
  at("moment").addEventListener("input", () => {
    showState();
    speak();
  });
  at("copy").addEventListener("click", () => copy().catch(tell));
  addEventListener("resize", fit);
  const given = new URLSearchParams(location.search).get("domain");
  if (given !== null) at("text").value = given;
  await changed();
}
