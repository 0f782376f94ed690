// The page: its rooms, and what the browser lacks.
import { Library } from "./gtd.js";
import { Program } from "./gtdesk.js";
import { domainRoom } from "./domain.js";
import { fileRoom } from "./file.js";

const at = (id) => document.getElementById(id);
const ROOMS = ["domain", "file", "about"];
const TITLE = "gtd: when a road is closed";

// The least module with a memory of 64 bits.
const MEMORY64 = new Uint8Array([0, 0x61, 0x73, 0x6d, 1, 0, 0, 0, 5, 3, 1, 4, 1]);

/** What the browser lacks, in words; nothing if it has all. */
function lacking() {
  if (typeof WebAssembly !== "object" || typeof BigInt !== "function")
    return "This browser runs no WebAssembly, so nothing can be answered here.";
  if (!WebAssembly.validate(MEMORY64))
    return "This browser lacks WebAssembly’s memory of 64 bits (memory64), so nothing can be answered here. "
      + "Chrome and Edge have it from version 133 on, Firefox from 134 on.";
  return "";
}

function showRoom() {
  const room = ROOMS.find((name) => location.hash === `#${name}`) ?? ROOMS[0];
  for (const name of ROOMS) at(name).hidden = name !== room;
  for (const link of document.querySelectorAll("nav a")) {
    if (link.hash === `#${room}`) link.setAttribute("aria-current", "page");
    else link.removeAttribute("aria-current");
  }
  document.title = `${at(`${room}-title`).textContent} – ${TITLE}`;
}

// Of a link to a room: the room is shown, and read from its heading on.
function enterRoom() {
  showRoom();
  scrollTo(0, 0);
  at("main").focus({ preventScroll: true });
  for (const area of document.querySelectorAll("textarea")) area.dispatchEvent(new Event("fit"));
}

function refuse(words) {
  at("loading").hidden = true;
  at("lacks").hidden = false;
  at("lacks").textContent = words;
}

async function begin() {
  const lacks = lacking();
  if (lacks) {
    location.replace("#about");
    showRoom();
    refuse(lacks);
    for (const link of document.querySelectorAll("nav a:not([href='#about'])")) link.hidden = true;
    return;
  }
  const [library, program] = await Promise.all([Library.load("gtd.wasm"), Program.load("gtdesk.wasm")]);
  at("version").textContent = library.version();
  at("loading").hidden = true;
  showRoom();
  addEventListener("hashchange", enterRoom);
  await domainRoom(library, program);
  fileRoom(library, program);
  document.documentElement.dataset.ready = "yes";
}

begin().catch((error) => refuse(`The library could not be loaded (${error.message}). Load the page again, or build it again.`));
