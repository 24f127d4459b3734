// The page: files are chosen or dropped, a worker does the job, and its answer is shown.
//
// The page is one file without anything from outside, so that it works from a disk, can be sent by mail, and can be
// kept beside the files of a delivery. The module is packed into it by gzip and base64. Its Content-Security-Policy
// forbids any connection, so that the browser enforces what the page promises: files stay on the machine.
//
// An accepted file is read once: `canon` answers whether it is accepted and what its canonical file is, and the line
// that `check` would print is counted from that. Two files are called the same where their canonical files are equal,
// which is what `same` compares. `tests/page.py` holds both against the program's own answers.
//
// Several refusals are grouped by number. An exporter makes one mistake many times: so the page shows how often each
// kind comes, what it means once, and a row for each with the instance, the line and what is wrong; 20 of a kind at
// first, and 1,000 on paper. Rows open to the whole; of three kinds or fewer the first of each is open. The text keeps the
// order of the program.
//
// Up to names the page compares at once where both canonical files have 2 MiB together, or 16 MiB and fewer than half of
// the instances say the same under one name; and others where it is asked to, since that takes some times as long as the
// comparison by names. Of larger files that may be numbered otherwise it is said that less may differ so.
//
// The hash beside an accepted file is made by the browser (`crypto.subtle`), and beside it stands the command line that
// makes it again, unless the listing was given another name. Where the browser has none, as on a page from a server
// without TLS, it isn't shown.
// Below it stands the hash of the numbered file, which the program makes at once where the canonical file has 2 MiB at
// most, and of one of up to 64 MiB where that is asked for, since it takes many times as long and as much memory.
//
// After an answer the focus is on its heading, so that a keyboard and a screen reader go on from there, and on a small
// screen it is brought into sight; where a choice of the answer led to it, the focus is on that choice. A link in front
// of everything leads to the answer. As long as there is none, a picture shows what one gets; examples of refusals and
// what isn't proved stand behind folds.
//
// Files compare by the names of instances, as in `p21-diff`, and by a choice up to names, which is made at first where
// fewer than half of the instances that belong together have one name in both. What alone differs is said first: the
// numbering, the header, or its time stamp. Differences that all stand in the header are said to: the data is then the
// same. `same` and `different` are always meant by names, as the program means them; that two files are the same up to
// names is said beside it.
//
// Of a canonical file the page shows the first 128 KiB, and of differences the first 1,000. Both can be saved whole.

import { SCHEMA_TEXT, hasWideMemory, kindOfLine, namedSchema } from "./kinds.mjs";
import { beginningOf, otherKindOf } from "./packed.mjs";
import { shown } from "./reading.mjs";
import { forgetAll, remember, remembered } from "./remembered.mjs";

const KINDS = ["changed", "came", "went"];
// So many schemas have a row each; of more there is one list that opens.
const FEW_SCHEMAS = 3;
// So many refusals are shown open, so many have all of their kinds open, and of so many kinds the first refusal is; of a kind so
// many have a row at first.
const FEW_REFUSALS = 5;
const SOME_REFUSALS = 30;
const FEW_KINDS = 3;
const FIRST_ROWS = 20;
// Canonical files of so many bytes are numbered in the page at most.
const MOST_NUMBERED = 1 << 26;
// Of more differences than these there is a search, which waits so many milliseconds for the next letter.
const FEW_DIFFERENCES = 5;
const SEARCH_WAITS = 100;
const COMPARED_AT_ONCE = 1 << 22;
// What is said of large files, which are compared up to names where that is asked for.
const SEEM_RENAMED =
  "Fewer than half of the instances say the same under one name. Told by what they say, less may differ: with files of this size that may take some minutes.";
const PASSED_OVER = "This statement was passed over, up to where the next one begins: nothing else is said of it.";
const NOT_PAIRABLE = "Told by what they say, instances of files of this size are compared on a command line alone, by p21-diff --names.";
const MORE_ROWS = 200;
// So many of a kind are printed.
const MOST_PRINTED = 1000;
// So many refusals are looked through before the page does something else.
const SOUGHT_AT_ONCE = 4000;
// A job of so many milliseconds isn't shown to be under way.
const SOON = 150;
// So many refusals are shown as text; all can be saved.
const MOST_TEXTS = 1000;
const COMPARISONS = {
  "A block, written in two ways": ["product.step", "product-other.step"],
  "The block with one coordinate changed": ["product.step", "product-changed.step"],
  "One file alone": ["product.step"],
  "A file with many faults": ["product-broken.step"],
};
const WORDS = {
  "out of memory": "The browser gave the program no more memory.",
  "read fault": "The file can’t be read: is it a folder? Where it has changed since it was chosen, choose it again.",
};
const NOT_CHECKED =
  "Not checked: the rules of the schema (WHERE, UNIQUE and RULE, INVERSE, what DERIVE computes), and whether the geometry is sound.";
const WITH_A_SCHEMA =
  "What a schema adds: it says which entities there are, how many values each has and of which kind, and what references lead to. " +
  "By it each instance is checked, two files are compared by what they mean, and a canonical file with its hash is made. " +
  "Drop it on the page with the file or by itself.";
// How the worker tells that what differs is in no product.
const IN_NO_PRODUCT = "In no product";
// Of the keywords of a file so many are shown.
const MOST_KEYWORDS = 300;
const examples = __EXAMPLES__;
// Where listings are published: of each the schema, what FILE_SCHEMA begins with, by whom, and the address.
const PUBLISHED = __PUBLISHED__;
const isProved = __PROVED__;
const chosen = { schemas: [], aliases: null, first: null, second: null };
// Of a file that was dropped what the browser may have to read it anew; files of the examples; and those that a job has read.
const handles = new WeakMap();
const ofExamples = new WeakSet();
const readBefore = new WeakSet();
// Copies of listings that were made fit, with what was changed in each.
const copies = new WeakMap();
const at = (id) => document.getElementById(id);
let worker = null;
// A worker whose job is done, and of which other lists of what differs can be asked.
let resting = null;
// What begin() was called for last.
let current = null;
// How differences are listed where nothing is asked: those by names, with the header, and without a tolerance. `way` is which of the
// lists is shown, `focus` what had the focus when it was asked, and `numbered` whether large files are numbered too.
const USUALLY_ASKED = { upToNames: false, data: false, tolerance: "", way: null, focus: null, report: null, numbered: false };

// --- Parts of the page ---

/** An element with attributes, and with texts and elements in it. */
function element(name, attributes, ...inner) {
  const made = document.createElement(name);
  for (const [key, value] of Object.entries(attributes)) if (value !== null) made.setAttribute(key, value);
  made.append(...inner.filter((part) => part !== null));
  return made;
}

/** A paragraph of lesser weight. */
function hint(text) {
  return element("p", { class: "hint" }, text);
}

/** A button that does something. */
function button(text, action, attributes = {}) {
  const made = element("button", { type: "button", ...attributes }, text);
  made.addEventListener("click", action);
  return made;
}

/** A count with its word, in the singular or the plural. */
function counted(count, word) {
  return `${count.toLocaleString("en")} ${word}${count === 1 ? "" : "s"}`;
}

/** A number of bytes for people. */
function sized(bytes) {
  if (bytes < 1000) return counted(bytes, "byte");
  const [unit, size] = bytes < 1e6 ? ["kB", 1e3] : bytes < 1e9 ? ["MB", 1e6] : ["GB", 1e9];
  return `${(bytes / size).toFixed(bytes < 10 * size ? 1 : 0)} ${unit}`;
}

/** A button that saves what a function gives as a file of this name. */
function saving(text, bytesOf, name) {
  return button(text, async () => save(await bytesOf(), name));
}

/** Saves bytes as a file of this name. */
function save(bytes, name) {
  const link = element("a", { href: URL.createObjectURL(bytes), download: name });
  link.click();
  setTimeout(() => URL.revokeObjectURL(link.href), 60_000);
}

/** A button that copies the text that a function gives, and says so. */
function copying(title, textOf, what) {
  const made = button(title, async () => {
    try {
      await navigator.clipboard.writeText(await textOf());
      say(`Copied: ${what}.`);
    } catch {
      say("The browser lets nothing be copied: save it in place of that.");
    }
  });
  made.setAttribute("aria-label", `${title}: ${what}`);
  return made;
}

/** A field that looks for words in a list. `find` shows what has all of them, and answers how many that are; nothing is said of the
 *  whole, which is shown without words mostly. */
function searching(label, count, find, isWhole = () => true) {
  const found = element("span", { class: "hint", role: "status" });
  const field = element("input", { type: "search", autocomplete: "off", spellcheck: "false" });
  let waiting = null;
  field.addEventListener("input", () => {
    clearTimeout(waiting);
    waiting = setTimeout(async () => {
      const words = field.value.toLowerCase().split(/\s+/).filter(Boolean);
      const many = await find(words);
      if (many === null) return;
      found.textContent = words.length > 0 || !isWhole() ? `${many.toLocaleString("en")} of ${count.toLocaleString("en")}` : "";
    }, SEARCH_WAITS);
  });
  return element("p", { class: "search" }, element("label", {}, element("span", {}, label), " ", field), " ", found);
}

/** Does a text have all of some words, which are in small letters? */
function hasWords(text, words) {
  const small = text.toLowerCase();
  return words.every((word) => small.includes(word));
}

// --- Files ---

/** Shows what a slot has, below its field: rows of a file or of something else, each with what takes it away. */
function fill(slot, rows) {
  const place = document.querySelector(`[data-slot=${slot}]`);
  place.classList.toggle("full", rows.length > 0);
  place.querySelector(".chosen").replaceChildren(...rows.map((row) => element("div", { class: "row" }, ...row)));
}

/** A button that takes something away from a slot. */
function removing(slot, what, action) {
  const taken = () => {
    action();
    at(slot).focus();
    begin();
  };
  return button("×", taken, { class: "remove", "aria-label": `Take ${what} away`, title: "Take away" });
}

/** The name of a file as it may be shown: characters that change how it reads stand there by their numbers. */
function nameOf(file) {
  return shown(file.name);
}

/** The name and the size of a file. */
function titled(file) {
  return element("span", {}, element("strong", {}, nameOf(file)), " ", element("span", { class: "size" }, sized(file.size)));
}

/** Puts a STEP file into its slot, or none. */
function put(slot, file) {
  chosen[slot] = file;
  fill(slot, file ? [[titled(file), removing(slot, nameOf(file), () => put(slot, null))]] : []);
}

/** Puts schemas into their slot, and the text of aliases. */
function putSchemas(schemas, aliases = null) {
  chosen.schemas = schemas;
  chosen.aliases = aliases;
  const without = (file) => putSchemas(chosen.schemas.filter((each) => each !== file), chosen.aliases);
  const rows = schemas.map((file) => [titled(file), removing("schema", nameOf(file), () => without(file))]);
  if (schemas.length > FEW_SCHEMAS) {
    const names = element("ul", {}, ...schemas.map((file) => element("li", {}, nameOf(file))));
    const all = element("details", {}, element("summary", {}, counted(schemas.length, "schema")), names);
    rows.splice(0, rows.length, [all, removing("schema", "all schemas", () => putSchemas([]))]);
  }
  if (aliases) rows.push([titled(aliases), removing("schema", nameOf(aliases), () => putSchemas(chosen.schemas))]);
  fill("schema", rows);
}

/** How a file begins, or what is in it where it is packed; nothing where it can't be read. */
async function beginning(file) {
  try {
    return await beginningOf(file);
  } catch {
    return { name: file.name, front: "", kind: null };
  }
}

/** Is it the text that says what else the schemas of a shelf serve? */
function isAliases({ name }) {
  return /^aliases(?:\.txt)?$/i.test(name);
}

/** The slot that has this very file already, which may have been mended; null where there is none, or the browser can't tell. */
async function slotOf(file) {
  const handle = await handles.get(file);
  for (const slot of ["first", "second"]) {
    const other = await handles.get(chosen[slot]);
    if (handle && other && (await handle.isSameEntry(other))) return slot;
  }
  return null;
}

/** Puts dropped files where they belong: by what they are, and otherwise where they were dropped. */
async function sort(files, slot) {
  const kinds = (await Promise.all(files.map(beginning))).map(({ kind }) => kind);
  const isSchema = (file, number) => (kinds[number] ? kinds[number] === "schema" : slot === "schema" || /\.exp$/i.test(file.name));
  const aliases = files.find((file, number) => !kinds[number] && isAliases(file)) ?? null;
  const schemas = files.filter((file, number) => file !== aliases && isSchema(file, number));
  const steps = files.filter((file, number) => file !== aliases && !isSchema(file, number));
  if (schemas.length > 0) putSchemas(schemas, aliases);
  else if (aliases) putSchemas(chosen.schemas, aliases);
  if (steps.length === 1) {
    const known = schemas.length === 0 ? await slotOf(steps[0]) : null;
    const given = slot === "first" || slot === "second" ? slot : known;
    const free = chosen.first && !chosen.second && schemas.length === 0 ? "second" : "first";
    if (!given && free === "first") put("second", null);
    put(given ?? free, steps[0]);
  } else if (steps.length > 1) {
    put("first", steps[0]);
    put("second", steps[1]);
  }
  const left = steps.slice(2).map(nameOf);
  const kept = await recall();
  begin(left.length > 0 ? `Left out: ${left.join(", ")}. Two files are looked at. ${kept}` : kept);
}

// --- Schemas that were used before ---

/** The name that a schema serves; null where it can't be told by how the text begins. */
async function servedBy(file) {
  const { front } = await beginning(file);
  const heading = SCHEMA_TEXT.exec(front)?.[0];
  return heading ? (/^\s+(\w+)/.exec(front.slice(heading.length))?.[1].toUpperCase() ?? null) : null;
}

// What is done with the schemas that are kept, one behind the other: else what is forgotten could be kept once more.
let keeping = Promise.resolve();

/** Does something with the schemas that are kept when all before is done. */
function inTurn(act) {
  keeping = keeping.then(act);
  return keeping;
}

/** Keeps schemas that the program has read for another time, but for that of the examples. */
async function rememberAll(schemas) {
  for (const file of schemas.filter((each) => !ofExamples.has(each))) {
    const serves = await servedBy(file);
    if (serves) await remember(serves, file);
  }
  await showRemembered();
}

/** Shows which schemas are kept, with a button that forgets them. */
async function showRemembered() {
  const kept = (await remembered()).map(nameOf);
  const forget = async () => {
    await inTurn(forgetAll);
    await showRemembered();
    say("The schemas are forgotten.");
    at("schema").focus();
  };
  at("remembered").hidden = kept.length === 0;
  at("remembered").replaceChildren(`This browser remembers ${kept.join(", ")}. `, button("Forget", forget, { id: "forget" }));
}

/** Puts the schemas that the files name into their slot where none is chosen and they are remembered. Answers a sentence on that. */
async function recall() {
  stop();
  const files = [chosen.first, chosen.second].filter((file) => file !== null);
  if (chosen.schemas.length > 0 || files.length === 0) return "";
  const named = await Promise.all(files.map(async (file) => namedSchema((await beginning(file)).front)?.toUpperCase()));
  const found = (await remembered()).filter(({ serves }) => named.includes(serves));
  if (found.length === 0 || chosen.schemas.length > 0) return "";
  putSchemas(found.map(({ name, text }) => new File([text], name)));
  return `By a schema that this browser remembers: ${found.map(nameOf).join(", ")}. `;
}

/** Where the listing of a schema is published, as a sentence; null where that isn't known. */
function publishedAt(name) {
  const found = PUBLISHED.find(({ names }) => names.some((each) => name.toUpperCase().startsWith(each)));
  if (!found) return null;
  const link = element("a", { href: `https://${found.address}`, target: "_blank", rel: "noreferrer" }, found.address);
  return element("span", { class: "published" }, ` The listing of ${found.schema} is published by ${found.publisher}, on `, link, ".");
}

/** Says something in a sentence, to be read and heard. */
function say(...said) {
  at("said").classList.remove("heard");
  at("said").replaceChildren(...said);
}

/** Says something to a screen reader alone, since the page shows it elsewhere. */
function hear(said) {
  say(said);
  at("said").classList.add("heard");
}

/** A file of the examples. */
function example(name) {
  const bytes = Uint8Array.from(examples[name], (sign) => sign.charCodeAt(0));
  const file = new File([bytes], name.split("/").at(-1));
  ofExamples.add(file);
  return file;
}

/** Puts an example into the slots. */
function showExample(names) {
  putSchemas([example("product.exp")]);
  put("first", example(names[0]));
  put("second", names[1] ? example(names[1]) : null);
  begin();
}

// --- Jobs ---

/** The program, which stands in this page. */
async function compiled() {
  const packed = Uint8Array.from(atob(__MODULE__), (sign) => sign.charCodeAt(0));
  const stream = new Blob([packed]).stream().pipeThrough(new DecompressionStream("gzip"));
  return WebAssembly.compile(await new Response(stream).arrayBuffer());
}

const module = hasWideMemory() ? compiled() : null;
const script = URL.createObjectURL(new Blob([__WORKER__], { type: "text/javascript" }));

/** Ends the job that is under way, or done. */
function stop() {
  worker?.terminate();
  resting?.terminate();
  worker = resting = null;
  at("work").hidden = true;
}

/** Behind a job: its worker rests where more can be asked of it. */
function rest(isKept) {
  if (isKept) resting = worker;
  else worker.terminate();
  worker = null;
  at("work").hidden = true;
}

/** A worker that is started on a job. Its messages are heard until it is ended. */
function started(job, heard) {
  const made = new Worker(script);
  made.onmessage = ({ data }) => heard(data);
  made.onerror = (event) => heard({ trouble: event.message || "the worker can’t run" });
  module.then(
    (program) => made.postMessage({ module: program, ...job }),
    (error) => heard({ trouble: error.message }),
  );
  return made;
}

/**
 * A file as it now stands on the disk. A browser keeps of a chosen file what it was: Chromium then reads it no more once it has
 * changed, and Firefox reads it up to the size that it had. Where this doesn't help, the program says that it can't be read.
 */
async function renewed(file) {
  if (!readBefore.has(file)) return file;
  try {
    const handle = await handles.get(file);
    if (handle) return withHandle(await handle.getFile(), handle);
    const whole = await new Response(file.stream()).blob();
    return whole.size === file.size ? file : new File([whole], file.name);
  } catch {
    return file;
  }
}

/** A file that can be read anew by what the browser has for that. */
function withHandle(file, handle) {
  handles.set(file, handle);
  return file;
}

/** Takes what is chosen as it now stands on the disk. Says whether nothing else was chosen meanwhile. */
async function renewAll() {
  const before = { ...chosen };
  const now = await Promise.all([...chosen.schemas, chosen.aliases, chosen.first, chosen.second].map((file) => file && renewed(file)));
  if (Object.keys(before).some((slot) => chosen[slot] !== before[slot])) return false;
  const [aliases, first, second] = now.splice(-3);
  if (aliases !== chosen.aliases || now.some((file, number) => file !== chosen.schemas[number])) putSchemas(now, aliases);
  if (first !== chosen.first) put("first", first);
  if (second !== chosen.second) put("second", second);
  return true;
}

/** Starts over with what is chosen, and lists differences as it is asked. */
async function begin(said = "", asked = USUALLY_ASKED) {
  stop();
  at("answer").hidden = true;
  at("answer").removeAttribute("data-whole");
  at("skip").hidden = true;
  say(said);
  const begun = Symbol("job");
  current = begun;
  if (!module || !(await renewAll()) || current !== begun) return;
  const files = [chosen.first, chosen.second].filter((file) => file !== null);
  if (chosen.schemas.length === 0) {
    if (files.length === 0 || !(await sayWanted(files, said, begun)) || current !== begun) return;
  }
  progress({ name: nameOf(files[0] ?? chosen.schemas[0]) });
  for (const file of [...chosen.schemas, chosen.aliases, ...files]) if (file) readBefore.add(file);
  const job = { schemas: chosen.schemas, aliases: chosen.aliases, files, asked };
  const mine = started(job, (message) => worker === mine && heard(message, job, said));
  worker = mine;
  setTimeout(() => worker === mine && showWork(said || chosen.schemas.length === 0), SOON);
}

/** What a worker says of a job. */
function heard(message, job, said) {
  const { answer, lists, places, further, report, trouble, isWhole } = message;
  if (trouble) stop();
  else if (report || (isWhole && !(answer?.differences && job.asked.report))) rest((answer?.differences ?? lists ?? shownLists)?.isKept);
  if (message.progress) progress(message.progress);
  if (trouble) say(`There is no answer: ${shown(trouble)}.`);
  if (answer?.isAlone) showAlone(answer);
  else if (answer) {
    show(answer, said, job.asked);
    const read = answer.read.map((number) => job.schemas[number]);
    inTurn(() => rememberAll(read));
  }
  if (lists) showLists(lists);
  if (places) shownPlaces(places);
  if (further?.length > 0) furtherRefusals(further);
  if (report) {
    save(report, "differences.html");
    hear("The report is saved.");
  }
  if (job.schemas.length > 0 && !report) at("answer").toggleAttribute("data-whole", isWhole === true);
  if (isWhole) shownLines();
}

/** Asks for other lists of what differs, or for a report: the job that is done, or where it isn't kept another one. */
function askFor(change) {
  const asked = { ...shownLists.asked, report: null, ...change };
  if (!resting) {
    begin("", asked);
    return;
  }
  const mine = resting;
  [worker, resting] = [mine, null];
  progress({ name: "", compares: true });
  if (!asked.report) at("answer").removeAttribute("data-whole");
  mine.postMessage(asked.report ? { report: asked.report } : { asked });
  setTimeout(() => worker === mine && showWork(""), SOON);
}

/** Shows that a job is under way. */
function showWork(said) {
  at("work").hidden = false;
  if (!said) hear("At work. A button stops it.");
}

/** Says whether two files have the same bytes; nothing where one can't be read. */
async function saidOfBytes(first, second) {
  const piece = async (file, at) => new Uint8Array(await file.slice(at, at + COMPARED_AT_ONCE).arrayBuffer());
  try {
    let isSame = first.size === second.size;
    for (let at = 0; isSame && at < first.size; at += COMPARED_AT_ONCE) {
      const [one, other] = await Promise.all([piece(first, at), piece(second, at)]);
      isSame = one.every((byte, number) => byte === other[number]);
    }
    return isSame ? "Both files have the same bytes. " : "The files have different bytes. ";
  } catch {
    return "";
  }
}

/** Says of files without a schema what can be said, and which one is wanted. Answers whether there is more to say of them. */
async function sayWanted([file, second], given, begun) {
  const { front, kind } = await beginning(file);
  const said = given + (second ? await saidOfBytes(file, second) : "");
  const name = namedSchema(front);
  const other = kind ? null : otherKindOf(front);
  if (current !== begun) return false;
  if (other) {
    say(said, `${nameOf(file)} is ${other}, and no STEP file in clear text.`);
    return false;
  }
  if (name) say(said, `Now the schema is wanted: ${nameOf(file)} names ${shown(name)}.`, publishedAt(name) ?? "");
  else say(said, "Now the schema is wanted, an EXPRESS text.");
  return true;
}

/** Shows how far the job is. */
function progress({ name, done, size, placed, of, compares }) {
  const bar = at("progress");
  const [part, whole] = of > 1 ? [placed, of] : [done, size];
  if (whole && part < whole) {
    bar.max = whole;
    bar.value = part;
  } else bar.removeAttribute("value");
  const found = () => `${counted(of, "refusal")}, ${placed.toLocaleString("en")} found`;
  if (of > 1) at("doing").textContent = `${name}: looking for the places of ${found()}`;
  else if (of) at("doing").textContent = `${name}: looking for the place`;
  else if (compares) at("doing").textContent = ["Comparing", name].filter(Boolean).join(", ");
  else if (size && done < size) at("doing").textContent = `${name}: ${sized(done)} of ${sized(size)}`;
  else at("doing").textContent = name;
}

// --- Answers ---

// What is shown: of each file what the worker said of it, and what shows a refusal of it and its text.
let files = [];
// The lists of what differs, as they were asked for.
let shownLists = null;

/** Shows what files say by themselves, below the sentence on the schema that is wanted. */
function showAlone(answer) {
  const refused = answer.files.filter(({ accepted }) => !accepted);
  const [title, mood] = refused.length > 0 ? [failed(refused[0]), "bad"] : ["Well formed", "other"];
  const ofBoth = ["Both files are.", "One of the files is well formed, and one isn’t.", "Neither file is well formed."][refused.length];
  const more = answer.files.length === 2 ? ofBoth : refused.length > 0 ? answer.files[0].name : "Not checked by a schema yet.";
  files = answer.files;
  const named = new Set(files.map(({ names }) => names).filter(Boolean));
  at("answer").replaceChildren(
    ofVerdict(title, more, mood, () => answerAsText(title, more, files, null)),
    ...files.map((file) => ofFile(file, answer.explained)),
    element("p", { class: "hint wanting" }, WITH_A_SCHEMA, ...[...named].map(publishedAt)),
  );
  appear();
}

/** Shows an answer, and says it in a sentence. */
function show(answer, said, asked) {
  const { title, more, mood } = summary(answer);
  files = answer.files.length > 0 ? answer.files : answer.schemas;
  shownLists = answer.differences && { ...answer.differences, asked };
  at("answer").replaceChildren(
    ofVerdict(title, more, mood, () => answerAsText(title, at("summary").textContent, files, shownLists)),
    ...(shownLists ? [differences(shownLists, files)] : []),
    ...files.map((file) => ofFile(file, answer.explained)),
  );
  appear(asked.focus);
  const refused = files.filter(({ accepted }) => !accepted).map(heardOf);
  const sentence = said + [`${title}.`, more, ...refused].filter(Boolean).join(" ");
  if (said) say(sentence);
  else hear(sentence);
}

/** Brings the answer to the page, and in front of it a link that leads there. */
function appear(focus = null) {
  at("answer").hidden = false;
  at("skip").hidden = false;
  at("picture").hidden = true;
  bringIntoSight(focus);
}

/** Brings an answer into sight and the focus to it; to the choice that led to it where there is one. */
function bringIntoSight(focus) {
  const { top } = at("answer").getBoundingClientRect();
  if (top < 0 || top > innerHeight / 2) at("answer").scrollIntoView({ block: "start" });
  const choice = focus && document.querySelector(focus);
  (choice ?? at("verdict")).focus({ preventScroll: !choice });
}

/** How an answer ends, with what there is to do with it. `textOf` gives its text. */
function ofVerdict(title, more, mood, textOf) {
  const said = element("div", {}, element("h2", { id: "verdict", tabindex: "-1" }, title), element("p", { id: "summary" }, more ?? ""));
  const actions = [
    button("Check again", () => begin(), { id: "again" }),
    copying("Copy", textOf, "the answer"),
    saving("Save", async () => new Blob([await textOf()], { type: "text/plain" }), "answer.txt"),
    button("Print", () => print()),
  ];
  return element("div", { class: `verdict ${mood}` }, said, element("div", { class: "buttons" }, ...actions));
}

/** An answer as a text: how it ends, and what there is to say of each file and of what differs. */
async function answerAsText(title, more, shownFiles, found) {
  const parts = [[`${title}.`, more].filter(Boolean).join(" "), ...shownFiles.map(fileAsText)];
  if (found) parts.push(`What differs, by the names of instances:\n${await found.names.text.text()}`);
  if (found?.upToNames) parts.push(`What differs, whatever the names of instances are:\n${await found.upToNames.text.text()}`);
  return parts.map((part) => `${part.trimEnd()}\n`).join("\n");
}

/** What there is to say of a file or a schema, as a text. */
function fileAsText(file) {
  const by = file.schema ? ` by ${file.schema}` : "";
  const change = file.change ? [shown(file.change)] : [];
  const numbered = file.numbered?.hash ? [`SHA-256 of the numbered file: ${file.numbered.hash}`] : [];
  const hash = file.hash ? [`SHA-256 of the canonical file: ${file.hash}`, ...numbered] : [];
  const header = (file.header ?? []).map(([name, texts]) => `${name}: ${texts.join(", ")}`);
  const holds = (file.keywords ?? []).map(([key, count]) => `${count} ${key}`);
  const said = file.accepted ? [file.line, ...hash, ...header, ...holds] : linesOf(file, file.refusals.length);
  return [`${file.name}${by}:`, ...change, ...said].join("\n");
}

/** What is said to a screen reader of a file that isn't accepted. */
function heardOf({ name, line, refusals, total = refusals.length }) {
  return `${name}: ${total > 1 ? `${counted(total, "refusal")}, first ${line}` : line}.`;
}

/** An answer in a few words: how it ends, what else there is to say, and whether that is good. */
function summary({ schemas, files, verdict, differences }) {
  const bad = schemas.find(({ accepted }) => !accepted);
  if (bad) return { title: failed(bad), more: bad.name, mood: "bad" };
  if (files.length === 0) {
    const title = schemas.length > 1 ? "The schemas are read" : "The schema is read";
    return { title, more: "Now a STEP file is wanted.", mood: "good" };
  }
  if (verdict === "same") return { title: "Same", more: "Both files hold the same model.", mood: "good" };
  const apart = "The files are of two schemas, so they aren’t compared.";
  if (verdict === "apart") return { title: "Accepted", more: apart, mood: "other" };
  if (verdict === "different") return { title: "Different", more: summaryOfDifferences(differences, wayOf(differences)), mood: "other" };
  const refused = files.filter(({ accepted }) => !accepted);
  if (refused.length === 0) return { title: "Accepted", more: files[0].name, mood: "good" };
  const more = refused.length === 2 ? "Neither file is accepted." : "One of the files is accepted, and one isn’t.";
  const { refusals } = refused[0];
  const { total = refusals.length } = refused[0];
  const count = total > 1 ? `${counted(total, "refusal")}.` : null;
  return { title: failed(refused[0]), more: files.length === 1 ? count : more, mood: "bad" };
}

/** In what alone two files differ, as a sentence; nothing where it is more than their numbering and their header. */
function butFor({ names, upToNames }) {
  const ofShapes = upToNames?.word === "same" ? ["numbering"] : (upToNames?.butFor ?? []);
  const found = names.butFor.length > 0 ? names.butFor : ofShapes;
  const parts = found.map((part) => (part === "the header" && names.onlyTimeStamp ? "the time stamp" : part));
  return parts.length > 0 ? [`The same but for ${parts.join(" and ")}.`] : [];
}

/** What is known of the differences, and how many they are in the list that is shown. */
function summaryOfDifferences({ names, upToNames, asked }, way) {
  if (names.count === 0) return nothingLeft(asked, names);
  const ofShapes = way === "shapes" && upToNames.count > 0;
  const count = ofShapes ? `${counted(upToNames.count, "difference")}, whatever the names of instances are` : counted(names.count, "difference");
  const said = [...butFor({ names, upToNames }), `${count}${way === "shapes" && !ofShapes ? " by the names of instances" : ""}.`];
  if (names.onlyHeader) said.push("All of them stand in the header: the data is the same.");
  else if (upToNames?.word === "same") said.push("Up to the names of their instances the files are the same.");
  else if (way === "shapes" || upToNames?.count === 0) said.push(...saidOfNoAnswer(upToNames));
  return said.join(" ");
}

/** Why it isn't known whether two files are the same up to names, as a sentence; nothing where it is. */
function saidOfNoAnswer({ word, why }) {
  const question = "Whether they are the same up to names";
  if (word === "undecided") return [`${question} isn’t decided: too many of their instances are alike to be paired.`];
  return why ? [`${question} isn’t known. ${WORDS[why] ?? `${why}.`}`] : [];
}

/** How instances are told at first: by what they say where that was asked, or where most names are other. */
function wayOf({ asked, upToNames }) {
  return asked.way ?? (upToNames?.isRenamed ? "shapes" : "names");
}

/** What is known where nothing is listed, since the header or small distances don't count. */
function nothingLeft({ data }, { near, tolerance }) {
  const without = [data && "without the header", near > 0 && `within the tolerance ${tolerance}`].filter(Boolean).join(" and ");
  return `Nothing differs ${without}.`;
}

/** How an answer is called that isn't one of acceptance. */
function failed({ status, line }) {
  return status === 1 ? "Refused" : WORDS[line] ? line[0].toUpperCase() + line.slice(1) : "No answer";
}

/** What the program says of a file or a schema. */
function ofFile(answer, explained) {
  const made = element("div", { class: "file", "data-name": answer.name }, element("h3", {}, answer.name));
  const packed = answer.from?.unpackedBy;
  if (packed) made.append(element("p", { class: "hint" }, `unpacked from ${shown(packed.from)}`));
  if (answer.otherKind && !answer.refusals.some(({ looks }) => looks)) {
    made.append(element("p", { class: "other-kind" }, `This is ${answer.otherKind}, and no STEP file in clear text.`));
  }
  if (answer.isByShelf) made.append(element("p", { class: "by" }, "by ", element("strong", {}, answer.schema)));
  if (answer.change) made.append(element("p", { class: "change" }, element("code", {}, shown(answer.change))));
  const bySchema = answer.schema ?? answer.name;
  const copy = copies.get(chosen.schemas.find((file) => nameOf(file) === bySchema));
  if (copy) made.append(element("p", { class: "change" }, `By ${bySchema}, a copy of the listing: ${effectOf(copy)}`), changesOf(copy));
  if (!answer.accepted) {
    made.append(...ofAdapted(answer), ...ofRefusals(answer, explained));
    return made;
  }
  made.append(element("code", { class: "line" }, answer.line));
  if (answer.isAlone) made.append(...ofHeader(answer), ...ofKeywords(answer));
  else if (answer.canonical) made.append(element("p", { class: "hint not-checked" }, NOT_CHECKED), ...hashed(answer), canonical(answer));
  else made.append(element("p", {}, `${counted(answer.entities, "entity").replace("entitys", "entities")}.`));
  return made;
}

/** The header of a file, in words. */
function ofHeader({ header }) {
  const rows = header.flatMap(([name, texts]) => [element("dt", {}, name), element("dd", {}, texts.join(", "))]);
  return rows.length > 0 ? [element("dl", { class: "header" }, ...rows)] : [];
}

/** What a file holds: how many instances of which keyword. */
function ofKeywords({ keywords }) {
  if (!keywords || keywords.length === 0) return [];
  const rows = keywords.slice(0, MOST_KEYWORDS).map(([key, count]) => {
    const name = element("th", { scope: "row" }, element("code", {}, key.replaceAll("+", " + ")));
    return element("tr", {}, name, element("td", {}, count.toLocaleString("en")));
  });
  const table = element("table", {}, element("tbody", {}, ...rows));
  const find = (words) => {
    rows.forEach((row, at) => (row.hidden = !hasWords(keywords[at][0], words)));
    return rows.filter((row) => !row.hidden).length;
  };
  const search = rows.length > FEW_DIFFERENCES ? searching("Look for", rows.length, find) : null;
  const left = keywords.length - rows.length;
  const rest = left > 0 ? hint(`and ${counted(left, "further keyword")}`) : null;
  const made = fold(`What it holds: instances of ${counted(keywords.length, "keyword")}`, ...[search, table, rest].filter(Boolean));
  made.classList.add("holds");
  made.open = rows.length <= FIRST_ROWS;
  return [made];
}

/** What a copy of a listing has in place of it, in a few words. */
function effectOf({ count, isWider }) {
  return `${counted(count, "edit")}, and it accepts ${isWider ? "more files than the listing does" : "the same files"}.`;
}

/** The edits of a copy, line by line. */
function changesOf({ lines }) {
  const text = lines.join("\n");
  return fold("What was changed", copying("Copy", () => text, "what was changed"), element("pre", {}, text));
}

/** What is offered in place of a listing that is refused: a copy that is made fit. */
function ofAdapted({ adapted }) {
  if (!adapted) return [];
  const { copy, isRead, number } = adapted;
  const name = chosen.schemas[number].name.replace(/(\.\w+)?$/, ".adapted.exp");
  const use = () => {
    const file = new File([copy], name);
    copies.set(file, adapted);
    putSchemas(
      chosen.schemas.map((each, at) => (at === number ? file : each)),
      chosen.aliases,
    );
    begin(`By a copy of the listing, with ${counted(adapted.count, "edit")}. `);
  };
  const read = `A copy of this listing is read, in which what p21 leaves out is written in another way, as by p21-adapt: ${effectOf(adapted)}`;
  const refused = `With ${counted(adapted.count, "edit")} of p21-adapt it is refused still; the last lines say what is left to do.`;
  const actions = [isRead ? button("Check by the copy", use, { id: "use-copy" }) : null, saving("Save the copy", () => new Blob([copy]), name)];
  const buttons = element("div", { class: "buttons" }, ...actions.filter(Boolean));
  return [element("div", { class: "adapted" }, element("p", {}, isRead ? read : refused), buttons, changesOf(adapted))];
}

/** A part that opens and closes. */
function fold(title, ...inner) {
  return element("details", {}, element("summary", {}, title), ...inner);
}

/** The hash of the canonical file, and the command line that makes it again. */
function hashed(answer) {
  if (!answer.hash) return [];
  const row = (title, ...inner) => [element("dt", {}, title), element("dd", {}, ...inner)];
  const rows = row("SHA-256 of the canonical file", withCopy(answer.hash, "the hash"));
  const line = commandLine(answer);
  if (line) rows.push(...row("The same on a command line", withCopy(line, "the command line", "again")));
  rows.push(...row("SHA-256 of the numbered file", hint("One for all files that are the same but for names."), ...ofNumbered(answer)));
  return [element("dl", {}, ...rows)];
}

/** A word of code with a button that copies it. */
function withCopy(text, what, kind = null) {
  return element("div", { class: "hash" }, element("code", { class: kind }, text), copying("Copy", () => text, what));
}

/** The hash of the numbered file with its command line; or why there is none, or how to ask for it. */
function ofNumbered({ name, numbered, ...answer }) {
  const line = commandLine(answer, " --names");
  const again = line ? [withCopy(line, "its command line", "numbered-again")] : [];
  const isTooLarge = answer.canonical.size > MOST_NUMBERED;
  if (!numbered && isTooLarge) return [hint("A file of this size is numbered on a command line alone."), ...again];
  if (!numbered) {
    const ask = () => begin("", { ...(shownLists?.asked ?? USUALLY_ASKED), numbered: true, focus: ".numbered" });
    return [button("Number it", ask), hint("With a file of this size that may take a minute and some gigabytes of memory.")];
  }
  const { hash, whole, why } = numbered;
  const alike = /^refused 59 Alike in (#\d+)$/.exec(why)?.[1];
  const said = alike ? `None: the model doesn’t tell ${alike} from another instance (59 Alike).` : `None: ${WORDS[why] ?? why}`;
  if (why) return [element("p", { class: "numbered", tabindex: "-1" }, said)];
  const made = element("div", { class: "numbered", tabindex: "-1" }, withCopy(hash, "the hash of the numbered file"));
  return [made, ...again, saving("Save the numbered file", () => whole, name.replace(/(\.\w+)?$/, ".numbered.step"))];
}

/** The command line that makes the hash of a canonical file again, or with another word that of a numbered one; null where it would
 *  want more than this. */
function commandLine({ change, from: { listing, listingUnpackedBy, path, unpackedBy } }, word = "") {
  if (change || listingUnpackedBy) return null;
  if (!unpackedBy) return `p21 canon${word} ${asWord(listing)} ${asWord(path)} | sha256sum`;
  const { program, from, member } = unpackedBy;
  // Of an archive unzip takes patterns for the names in it.
  if (program === "unzip" && /[*?[\\]/.test(member)) return null;
  const unpack = program === "gunzip" ? `gunzip < ${asWord(from)}` : `unzip -p ${asWord(from)} ${asWord(member)}`;
  return `${unpack} | p21 canon${word} ${asWord(listing)} /dev/stdin | sha256sum`;
}

/** The name of a file as a word of a command line. What changes how it reads stands there by numbers, which bash reads. */
function asWord(name) {
  const path = name.startsWith("-") ? `./${name}` : name;
  if (/^[\w@%+=:,./-]+$/.test(path)) return path;
  if (shown(path) === path) return `'${path.replaceAll("'", "'\\''")}'`;
  return `$'${[...path].map((sign) => (sign === "'" || sign === "\\" ? `\\${sign}` : shown(sign))).join("")}'`;
}

/** The canonical file, or where it is long its beginning. */
function canonical({ name, canonical }) {
  const isWhole = canonical.shown.length === canonical.size;
  const note = isWhole ? null : hint(`The first ${sized(canonical.shown.length)} of ${sized(canonical.size)}.`);
  const attributes = { class: "long canonical", tabindex: "0", role: "region", "aria-label": "canonical file" };
  const text = element("pre", attributes, canonical.shown);
  const saved = saving("Save the canonical file", () => canonical.whole, name.replace(/(\.\w+)?$/, ".canonical.step"));
  return fold("Canonical file", hint("One text for each meaning: to hash, sign, archive or compare."), saved, note, text);
}

/** The refusals of a file, one alone in full, and several by their kinds. */
function ofRefusals(answer, explained) {
  const { refusals } = answer;
  // What shows a refusal that is in the list.
  answer.rows = new Map();
  answer.text = element("pre", { class: "lines", tabindex: "0", role: "region", "aria-label": `${answer.name}, as text` });
  const whole = () => new Blob([`${linesOf(answer, refusals.length).join("\n")}\n`], { type: "text/plain" });
  const isLong = answer.total > MOST_TEXTS;
  const saved = refusals.length > 1 ? saving("Save as text", whole, `${answer.name}.txt`) : null;
  const note = isLong ? hint(`The first ${MOST_TEXTS} of ${counted(answer.total, "refusal")}.`) : null;
  const copied = copying("Copy as text", () => linesOf(answer, refusals.length).join("\n"), `what is said of ${answer.name}`);
  const actions = element("div", { class: "buttons" }, saved, copied);
  const text = fold("As text", ...[actions, note, answer.text].filter(Boolean));
  const extent = ofExtent(answer);
  if (refusals.length === 1) {
    const row = element("div", { class: "refusal" });
    const show = () => row.replaceChildren(...ofRefusal(answer.refusals[0], "h4"));
    show();
    answer.rows.set(0, { show });
    return [row, ...extent, ...meaning(explained[numberOf(refusals[0])], true), text];
  }
  const kinds = new Map(answer.kinds);
  const count = `${counted(answer.total, "refusal")}${kinds.size > 1 ? ` of ${kinds.size} kinds` : ""}`;
  const list = element("div", {});
  const sofar = hint("");
  const find = (words) => (words.length > 0 ? sought(answer, words, list, explained) : all());
  const all = () => {
    answer.groups = showKinds(answer, list, kinds, explained);
    answer.grow(0);
    return answer.total;
  };
  // Takes in what came, from a place on, where the list isn't searched.
  answer.grow = (from) => {
    const came = refusals.length;
    for (let at = from; at < came && answer.groups; at++) answer.groups.get(kindOfLine(refusals[at].line))?.places.push(at);
    for (const group of answer.groups?.values() ?? []) group.grow();
    sofar.textContent = came < answer.total ? `${came.toLocaleString("en")} of them are listed so far.` : "";
  };
  all();
  const search = answer.total > FEW_REFUSALS ? searching("Look for", answer.total, find) : null;
  return [element("p", { class: "count" }, count), sofar, ...extent, search, list, text].filter(Boolean);
}

/** How far a file was read of which there is a list, and that the list goes on behind broken statements. */
function ofExtent({ extent }) {
  if (!extent) return [];
  const { read, size, named, passed } = extent;
  const said = [];
  if (passed > 0) {
    const [statements, them] = passed === 1 ? ["A broken statement was", "it"] : [`${counted(passed, "broken statement")} were`, "them"];
    const targets = `Instances may stand in ${them}, so no reference is said to have no target.`;
    said.push(`${statements} passed over, and the list goes on behind ${them}. ${targets}`);
  }
  if (read !== null) {
    const bytes = `${read.toLocaleString("en")} of the ${counted(size, "byte")} of the file`;
    said.push(`The list ends at ${named}: ${bytes} stand in front of it, and nothing is known of what stands behind.`);
  }
  return said.map((text) => element("p", { class: "extent" }, text));
}

/** Looks for the refusals that have all of some words, shows them by their kinds, and answers how many they are. */
async function sought(answer, words, list, explained) {
  answer.groups = null;
  const mine = (answer.seeking = Symbol("words"));
  const { refusals } = answer;
  const places = [];
  for (let at = 0; at < refusals.length; at++) {
    if (hasWords(refusals[at].lines.join(" "), words)) places.push(at);
    if (at % SOUGHT_AT_ONCE === SOUGHT_AT_ONCE - 1) await new Promise((done) => setTimeout(done));
    if (answer.seeking !== mine) return null;
  }
  const kinds = Map.groupBy(places, (at) => kindOfLine(refusals[at].line));
  const groups = showKinds(answer, list, new Map([...kinds].map(([kind, each]) => [kind, each.length])), explained);
  for (const [kind, group] of groups) {
    group.places = kinds.get(kind);
    group.grow();
  }
  return places.length;
}

/** Shows kinds of refusals by how many there are of each. Answers what each has, to which the places of refusals come. */
function showKinds(answer, list, kinds, explained) {
  answer.seeking = null;
  const total = [...kinds.values()].reduce((sum, count) => sum + count, 0);
  const about = { isFew: total <= FEW_REFUSALS, isSome: answer.total <= SOME_REFUSALS, countOfKinds: kinds.size };
  answer.rows.clear();
  const groups = new Map([...kinds].map(([kind, count]) => [kind, ofKind(answer, kind, count, explained[kind.split(" ")[0]], about)]));
  list.replaceChildren(...[...groups.values()].map(({ made }) => made));
  return groups;
}

/** Takes in further refusals, of which there are the lines alone. */
function furtherRefusals(further) {
  const from = files.map(({ refusals }) => refusals?.length);
  for (const { file, lines } of further) {
    files[file].refusals.push({ line: lines[0], lines, place: null, attributes: [], looks: null, isText: true });
  }
  files.forEach((answer, number) => answer.refusals?.length > from[number] && answer.grow(from[number]));
}

/** The number of a refusal, as a word; nothing of another line. */
function numberOf({ line }) {
  return /refused (S?\d+) /.exec(line)?.[1] ?? null;
}

/** What a refusal means, and what to do. */
function meaning(explained, isOpen) {
  if (!explained) return [];
  const means = fold("What it means, and what to do", ...paragraphs(explained.text));
  means.open = isOpen;
  means.classList.add("means");
  return [means];
}

/**
 * The refusals of one kind, each of which opens and closes, of which there are so many. Their places come one after the other; rows
 * that aren't shown yet come by a button.
 */
function ofKind(answer, kind, total, explained, { isFew, isSome, countOfKinds }) {
  const times = total === 1 ? "once" : `${total.toLocaleString("en")} times`;
  const about = explained?.about ? element("span", { class: "about" }, explained.about) : null;
  const name = element("h4", {}, element("code", {}, kind));
  const title = element("summary", {}, name, " ", element("span", { class: "times" }, times), " ", about);
  const list = element("ol", { class: "refusals" });
  const made = element("details", { class: "kind" }, title, ...meaning(explained, false), list);
  made.open = isSome || countOfKinds <= FEW_KINDS;
  const isFirstOpen = countOfKinds <= FEW_KINDS;
  const group = { made, places: [], grow: null };
  let shownRows = 0;
  const add = (count) => {
    const isOpen = (at) => isFew || (isFirstOpen && at === group.places[0]);
    const rows = group.places.slice(shownRows, shownRows + count).map((at) => ofRow(answer, at, isOpen(at)));
    list.append(...rows);
    shownRows += rows.length;
    const left = total - shownRows;
    more.hidden = left === 0;
    const further = ` ${Math.min(left, MORE_ROWS).toLocaleString("en")} more of ${total.toLocaleString("en")}`;
    more.replaceChildren(element("span", { class: "on-screen" }, "Show"), further);
    return rows;
  };
  const more = button("", () => add(MORE_ROWS)[0]?.querySelector("summary").focus(), { class: "more" });
  group.grow = (count = FIRST_ROWS) => shownRows < count && add(count - shownRows);
  made.append(more);
  return group;
}

/** A refusal of several: a row that says where it is, which opens to the whole. */
function ofRow(answer, at, isOpen) {
  const title = element("summary", {});
  const whole = element("div", { class: "refusal" });
  const row = element("details", {}, title, whole);
  row.open = isOpen;
  const open = () => row.open && whole.replaceChildren(...ofRefusal(answer.refusals[at], null));
  const show = () => {
    title.replaceChildren(...titleOf(answer.refusals[at]));
    open();
  };
  show();
  row.addEventListener("toggle", open);
  answer.rows.set(at, { show });
  return element("li", {}, row);
}

/** What the row of a refusal says: the instance or statement, where it is, and what is wrong in a few words. */
function titleOf(refusal) {
  const { line, lines, place, isText } = refusal;
  const name = / (?:in )?(#\d+|at statement \d+)$/.exec(line)?.[1] ?? line;
  const found = isText && /:(\d+):(\d+)$/.exec(lines[1] ?? "");
  if (found) {
    const where = element("span", { class: "where" }, `line ${found[1]}, column ${found[2]}`);
    return [element("code", {}, name), " ", where, " ", element("span", { class: "first-note" }, lines[4]?.trim() ?? "")];
  }
  if (!place) return [element("code", {}, name)];
  const where = element("span", { class: "where" }, `line ${place.line}, column ${place.column}`);
  const note = element("span", { class: "first-note" }, place.notes[0] ?? markedText(refusal));
  return [element("code", {}, name), " ", where, " ", note];
}

/** What is refused at a place, in a few words: the attribute with its value, or the text that is marked. */
function markedText({ place, attributes }) {
  for (const { entity, rows } of attributes) {
    const row = rows.find(({ isMarked }) => isMarked);
    if (row) return `${entity}.${row.name} is ${row.value}`;
  }
  return place.mark;
}

/** A refusal: the program's line, the place, and what there is to say of it. Of several the row has the line. */
function ofRefusal({ line, lines, place, attributes, looks, isText, isPassedOver }, heading) {
  if (isText) return [element("pre", {}, lines.join("\n"))];
  const made = [element(heading ?? "p", { class: "said" }, element("code", { class: "line" }, line))];
  if (WORDS[line]) made.push(element("p", {}, WORDS[line]));
  if (place) made.push(...(heading ? [hint(`line ${place.line}, column ${place.column}`)] : []), ...ofPlace(place));
  if (looks) made.push(element("p", { class: "looks" }, looks));
  if (isPassedOver && !heading) made.push(hint(PASSED_OVER));
  return [...made, ...attributes.map(ofAttributes)];
}

/** Shows the places of refusals that were found behind the answer. */
function shownPlaces(found) {
  for (const { file, at: number, report } of found) {
    files[file].refusals[number] = report;
    files[file].rows.get(number)?.show();
  }
}

/** Shows the refusals of each file as text, as the tools print them. */
function shownLines() {
  for (const answer of files) if (answer.text) answer.text.textContent = linesOf(answer, MOST_TEXTS).join("\n");
}

/** The lines of so many refusals, and behind the last one that of the count. */
function linesOf({ refusals, count }, most) {
  const lines = refusals.slice(0, most).flatMap((refusal) => refusal.lines);
  return count && most >= refusals.length ? [...lines, count] : lines;
}

/** The line at which a file is refused, with the place marked. */
function ofPlace({ line, front, mark, back, notes }) {
  const text = element("span", {}, front, element("mark", {}, mark), back);
  const number = element("span", { class: "number", "aria-hidden": "true" }, String(line));
  // What is indented is a command line.
  const ofNote = (note) => (note.startsWith("  ") ? element("pre", {}, note.trim()) : element("p", { class: "note" }, note));
  return [element("pre", { class: "place" }, number, text), ...notes.map(ofNote)];
}

/** The attributes of a part beside its values. */
function ofAttributes({ entity, rows }) {
  const made = rows.map(({ name, value, isMarked, explained }) =>
    element(
      "tr",
      { class: isMarked ? "marked" : null },
      element("th", { scope: "row" }, name),
      element("td", {}, element("code", {}, value), ...explained.map((text) => element("code", { class: "declared" }, text))),
    ),
  );
  return element("table", {}, element("caption", {}, entity), element("tbody", {}, ...made));
}

/** What the program says of a refusal at length: an example, with which the paragraphs begin, and what it means. */
function paragraphs(text) {
  const blocks = text.trimEnd().split(/\n\n+/).slice(1);
  const hasExample = blocks.some((block) => /(?:^|: )`(?:schema )?refused [^`]*`$/.test(block));
  return [...(hasExample ? [hint("For example, this is refused so:")] : []), ...blocks.map(ofBlock)];
}

/** A text that is indented, or a paragraph. */
function ofBlock(block) {
  if (block.startsWith("    ")) return element("pre", {}, block.replace(/^ {4}/gm, ""));
  return element("p", {}, ...withMarks(block.replaceAll("\n", " ")));
}

/** A text in which words of code stand between backticks, and others that are stressed between asterisks. */
function withMarks(text) {
  return text.split(/(`[^`]*`|\*\w[^*`]*\*)/).map((part, number) => {
    if (number % 2 === 0) return part;
    return element(part.startsWith("`") ? "code" : "em", {}, part.slice(1, -1));
  });
}

// What differs

/** Shows other lists of what differs. */
function showLists(lists) {
  shownLists = lists;
  document.querySelector(".differences").replaceWith(differences(lists, files));
  at("summary").textContent = summaryOfDifferences(lists, wayOf(lists));
  hear(at("summary").textContent);
  document.querySelector(lists.asked.focus ?? "#verdict")?.focus();
}

/**
 * What differs between two files: by the names of instances, and up to names. Where fewer than half of the instances that belong
 * together have one name in both, they are told by what they say at first.
 */
function differences(lists, files) {
  const { names, upToNames, asked } = lists;
  const way = wayOf(lists);
  const list = element("div", {});
  const showWay = (chosenWay) => {
    shownLists = { ...lists, asked: { ...asked, way: chosenWay, upToNames: asked.upToNames || chosenWay === "shapes" } };
    list.replaceChildren(...listOfDifferences(chosenWay === "names" ? names : upToNames, files, chosenWay));
  };
  const ways = { names: "by their names", shapes: "by what they say, whatever their names are" };
  const choices = Object.entries(ways).map(([value, text]) => {
    const input = element("input", { type: "radio", name: "way", value });
    input.checked = value === way;
    input.disabled = value === "shapes" && !lists.isPairable;
    input.addEventListener("change", () => {
      if (value === "names" || upToNames) {
        showWay(value);
        at("summary").textContent = summaryOfDifferences(lists, value);
      } else askFor({ upToNames: true, way: value, focus: `[name=way][value=${value}]` });
    });
    return element("label", {}, input, ` ${text}`);
  });
  const told = element("fieldset", { class: "ways" }, element("legend", {}, "Instances are told"), ...choices);
  showWay(way);
  const made = element("div", { class: "differences" }, element("h3", {}, "What differs"), told, ofCounting(asked), list);
  if (!lists.isPairable) told.after(hint(NOT_PAIRABLE));
  else if (lists.seemRenamed && !upToNames) told.after(hint(SEEM_RENAMED));
  return made;
}

/** Is a text a number of 0 or more, with no more digits than the program takes? */
function isTolerance(text) {
  const [, whole, part = "", power = ""] = /^(\d*)(?:\.(\d*))?(?:E[+-]?(\d+))?$/i.exec(text) ?? [];
  const digitsOf = (number) => number.replace(/^0+/, "").length;
  return whole !== undefined && whole + part !== "" && digitsOf(whole + part) <= 18 && digitsOf(power) <= 9;
}

/** What counts as a difference: the header or the data alone, and from which distance on reals do. */
function ofCounting({ data, tolerance }) {
  const header = element("input", { type: "checkbox", id: "with-header" });
  header.checked = !data;
  header.addEventListener("change", () => askFor({ data: !header.checked, focus: "#with-header" }));
  const plain = { autocomplete: "off", spellcheck: "false", "aria-describedby": "no-tolerance" };
  const field = element("input", { type: "text", id: "tolerance", inputmode: "decimal", size: "8", value: tolerance, ...plain });
  const wrong = element("span", { class: "wrong", id: "no-tolerance", role: "status" });
  field.addEventListener("change", () => {
    const isWrong = field.value.trim() !== "" && !isTolerance(field.value.trim());
    wrong.textContent = isWrong ? "A tolerance is a number of 0 or more, as 0.001 or 1E-6." : "";
    field.setAttribute("aria-invalid", String(isWrong));
    if (!isWrong) askFor({ tolerance: field.value.trim(), focus: "#tolerance" });
  });
  return element(
    "div",
    { class: "counting" },
    element("label", {}, header, " with the header"),
    element("label", {}, "Reals may differ by ", field),
    wrong,
  );
}

/** A list of differences: what is known, how to take it along, a table by entity, what sifts it, and the differences by what owns them. */
function listOfDifferences({ count, shown, text, verdict, table, leftOut, isListed }, files, way) {
  if (!isListed) return [element("p", { class: "known" }, verdict)];
  const report = { names: way === "shapes", data: shownLists.asked.data, tolerance: shownLists.asked.tolerance };
  const actions = [
    saving("Save as text", () => text, "differences.txt"),
    copying("Copy as text", () => text.text(), "the differences"),
    button("Save as report", () => askFor({ report })),
  ];
  const made = [element("div", { class: "buttons" }, ...actions)];
  if (way === "shapes" || leftOut) made.unshift(element("p", { class: "known" }, verdict));
  if (leftOut) made.unshift(element("p", { class: "left-out" }, `${leftOut[0].toUpperCase()}${leftOut.slice(1)}.`));
  if (count === 0) return made;
  const rows = shown.map((difference, number) => ofDifference(difference, files, number));
  const list = element("div", { class: "list" }, ...byOwners(shown, rows));
  const sifting = new Sifting(shown, rows, list);
  made.push(byEntity(table, sifting));
  if (shown.length < count) made.push(hint(`The first ${shown.length} of ${counted(count, "difference")}.`));
  if (rows.length > FEW_DIFFERENCES) made.push(sifting.form);
  return [...made, list];
}

/** Sifts the differences that are shown, by words and by what happened. */
class Sifting {
  constructor(shown, rows, list) {
    Object.assign(this, { shown, rows, list, words: [], entity: null });
    this.kinds = new Set(KINDS);
    this.search = searching("Look for", rows.length, (words) => this.sift({ words, entity: null }), () => this.isWhole);
    const boxes = KINDS.map((kind) => {
      const box = element("input", { type: "checkbox", value: kind });
      box.checked = true;
      box.addEventListener("change", () => {
        this.kinds[box.checked ? "add" : "delete"](kind);
        this.again();
      });
      return element("label", {}, box, ` ${kind}`);
    });
    const kinds = element("fieldset", { class: "ways" }, element("legend", {}, "What"), ...boxes);
    this.form = element("div", { class: "sifting" }, kinds, this.search);
  }

  /** Is nothing sifted? */
  get isWhole() {
    return this.words.length === 0 && this.entity === null && this.kinds.size === KINDS.length;
  }

  /** Sifts by what is typed, and says how much is shown. */
  again() {
    this.search.querySelector("input").dispatchEvent(new Event("input"));
  }

  /** Shows what an entity has alone. */
  only(entity) {
    this.search.querySelector("input").value = "";
    const [found, all] = [this.sift({ words: [], entity }), this.rows.length].map((count) => count.toLocaleString("en"));
    this.search.querySelector("[role=status]").textContent = `${found} of ${all}: ${entity}`;
    this.list.scrollIntoView({ block: "nearest" });
  }

  /** Shows the differences that have all of some words, and answers how many these are. */
  sift(by) {
    Object.assign(this, by);
    this.rows.forEach((row, at) => {
      const { kind, inTable } = this.shown[at];
      const isOf = this.kinds.has(kind) && (this.entity === null || this.entity === inTable);
      row.hidden = !isOf || !hasWords(`${inTable} ${row.textContent}`, this.words);
    });
    for (const group of [...this.list.querySelectorAll("section")]) group.hidden = !group.querySelector("li:not([hidden])");
    return this.rows.filter((row) => !row.hidden).length;
  }
}

/** How many instances of which entity changed, came and went. */
function byEntity(table, sifting) {
  const heads = ["Entity", ...KINDS].map((text) => element("th", { scope: "col" }, text));
  const rows = table.slice(0, MOST_KEYWORDS).map(([name, ...numbers]) => {
    const only = button(name, () => sifting.only(name), { class: "entity" });
    const cells = numbers.map((number) => element("td", {}, number > 0 ? number.toLocaleString("en") : ""));
    return element("tr", {}, element("th", { scope: "row" }, only), ...cells);
  });
  const sums = KINDS.map((_, at) => table.reduce((sum, row) => sum + row[at + 1], 0));
  const title = `By entity: ${KINDS.map((kind, at) => `${sums[at].toLocaleString("en")} ${kind}`).join(", ")}`;
  const left = table.length - rows.length;
  const rest = left > 0 ? hint(`and ${left.toLocaleString("en")} more`) : null;
  const made = element("table", {}, element("thead", {}, element("tr", {}, ...heads)), element("tbody", {}, ...rows));
  const folded = fold(title, ...[made, rest].filter(Boolean));
  folded.classList.add("by-entity");
  return folded;
}

/**
 * Differences by what owns them: the products, and last what is in none, and within them in front what no face or set of properties owns,
 * and then these. One list where no product is known.
 */
function byOwners(shown, rows) {
  if (!shown.some(({ owner }) => owner)) return [element("ol", {}, ...rows)];
  const isLast = (at) => shown[at].owner.products === IN_NO_PRODUCT;
  const ofAll = [...shown.keys()];
  const inProducts = [...ofAll.filter((at) => !isLast(at)), ...ofAll.filter(isLast)];
  return grouped(inProducts, (at) => shown[at].owner.products).map(([products, ofProducts]) => {
    const inOrder = [...ofProducts.filter((at) => !shown[at].owner.parts), ...ofProducts.filter((at) => shown[at].owner.parts)];
    const parts = grouped(inOrder, (at) => shown[at].owner.parts).map(([part, places]) => {
      const list = element("ol", {}, ...places.map((at) => rows[at]));
      return part ? element("section", { class: "of-part" }, element("h5", {}, part), list) : list;
    });
    return element("section", { class: "owner" }, element("h4", {}, products), ...parts);
  });
}

/** Places by what a function says of them, in the order of the first of each. */
function grouped(places, saidOf) {
  return [...Map.groupBy(places, saidOf)];
}

/** A difference: what it is about, and the text of each file, below which a value stands as people write it. */
function ofDifference({ what, texts, plain }, files, number) {
  const marked = texts.length === 2 ? markedPair(...texts) : [[texts[0]]];
  const written = plain && markedPair(...plain);
  const names = texts.length === 2 ? files.map(({ name }, number) => `${"AB"[number]}, ${name}`) : [null];
  const sides = marked.map((parts, number) => {
    const side = names[number] && element("span", { class: "side" }, names[number]);
    const read = written && element("span", { class: "plain" }, ...written[number]);
    return element("div", {}, side, element("code", { class: "value" }, ...parts), read);
  });
  return element("li", { "data-at": String(number) }, element("div", { class: "what" }, what), element("div", { class: "sides" }, ...sides));
}

/** Two texts with what stands between their common front and their common end marked. */
function markedPair(first, second) {
  const shorter = Math.min(first.length, second.length);
  let front = 0;
  while (front < shorter && first[front] === second[front]) front++;
  let back = 0;
  while (back < shorter - front && first.at(-1 - back) === second.at(-1 - back)) back++;
  return [first, second].map((text) => {
    const middle = text.slice(front, text.length - back);
    return [text.slice(0, front), ...(middle ? [element("mark", {}, middle)] : []), text.slice(text.length - back)];
  });
}

// --- What people do ---

/** The files that were chosen in a field. It is cleared, so that a file that is mended can be chosen once more. */
function taken(field) {
  const files = [...field.files];
  field.value = "";
  return files;
}

at("schema").addEventListener("change", ({ target }) => {
  const given = taken(target);
  const aliases = given.find(isAliases) ?? null;
  const schemas = given.filter((file) => file !== aliases);
  if (given.length > 0) putSchemas(schemas.length > 0 ? schemas : chosen.schemas, aliases);
  begin();
});

for (const slot of ["first", "second"]) {
  at(slot).addEventListener("change", ({ target }) => {
    const [file] = taken(target);
    if (file) put(slot, file);
    recall().then(begin);
  });
}

addEventListener("dragover", (event) => {
  event.preventDefault();
  event.dataTransfer.dropEffect = "copy";
  document.body.classList.add("dragging");
});

addEventListener("dragleave", ({ relatedTarget }) => {
  if (!relatedTarget) document.body.classList.remove("dragging");
});

addEventListener("drop", (event) => {
  event.preventDefault();
  document.body.classList.remove("dragging");
  const items = [...event.dataTransfer.items].filter(({ kind }) => kind === "file");
  const folder = items.map((item) => item.webkitGetAsEntry?.()).find((entry) => entry?.isDirectory);
  const slot = event.target.closest?.("[data-slot]")?.dataset.slot ?? null;
  if (folder) say(`${nameOf(folder)} is a folder: drop the files that are in it.`);
  else if (items.length > 0) sort(items.map(dropped), slot);
});

/** A file that is dropped. */
function dropped(item) {
  const handle = item.getAsFileSystemHandle?.().catch(() => null);
  return withHandle(item.getAsFile(), handle);
}

addEventListener("beforeprint", () => {
  for (const group of files.flatMap(({ groups }) => [...(groups?.values() ?? [])])) {
    group.made.open = true;
    group.grow(MOST_PRINTED);
  }
});

at("stop").addEventListener("click", () => {
  stop();
  shownLines();
  const again = button("Start again", () => begin());
  say("Stopped. ", again);
  again.focus();
});

for (const [title, names] of Object.entries(COMPARISONS)) at("comparisons").append(button(title, () => showExample(names)));
for (const name of Object.keys(examples).filter((found) => found.startsWith("refused/"))) {
  at("refused").append(button(name.slice("refused/".length, -".step".length), () => showExample([name])));
}

at("checksum").textContent = __CHECKSUM__;
at("module").append(
  element("strong", { class: isProved ? null : "unproved" }, isProved ? "The gate passed these sources. " : "Unproved. "),
  isProved ? "" : "The gate has not passed these sources. ",
  "What runs here is WebAssembly: the same sources as the proved program’s, through LLVM’s other backend.",
);

const known = showRemembered();

if (module) {
  const asked = started({}, async ({ version, trouble }) => {
    asked.terminate();
    at("version").textContent = version ?? `unknown: ${trouble}`;
    await known;
    document.body.dataset.ready = "";
  });
} else {
  at("unable").hidden = false;
  at("choose").inert = true;
  at("version").textContent = "unknown";
}
