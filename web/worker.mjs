// One job in a thread of its own: what the program says of schemas and of one or two files, and what there is to say of it.
//
// The page starts a worker for each job, and ends it to stop the job. Without a schema, the job is to say the version.
//
// Each run has an instance, a memory and streams of its own, and each job a worker of its own. So nothing stays from
// one run to the next, and a job is stopped by ending its worker.

import { adapted } from "./adapting.mjs";
import { headerOf, keywordsOf, syntaxOf } from "./alone.mjs";
import { Files, SMALL_ENOUGH, equalBytes, tableName, textsAround, whatOf, wordsOfDiff } from "./differences.mjs";
import { GivenFile, isPassedOver, refusalOf, toldOf } from "./files.mjs";
import { kindOfLine } from "./kinds.mjs";
import { LOOKED_AT, otherKindOf, unpacked } from "./packed.mjs";
import { Report, ownerOf } from "./pages.mjs";
import { Program, Text, Trouble } from "./program.mjs";
import { shown, textOf } from "./reading.mjs";
import { Outline } from "./schemas.mjs";
import { Shelf, nameIn } from "./shelf.mjs";
import { Lengths } from "./units.mjs";
import { linesOf, whereAll, whereAlone, whereInFile, whereInSchema } from "./where.mjs";

const READ_AT_ONCE = 1 << 22;
const SHOWN_CANONICAL = 1 << 17;
const SHOWN_DIFFERENCES = 1000;
// Of a file so many refusals are kept with all that is said of them, and of further ones the lines alone. The places that are found in so
// many milliseconds come with the answer.
const MOST_WHOLE = 2000;
const FIRST_PLACES = 300;
const BETWEEN_MESSAGES = 100;
// Two canonical files of so many bytes together are kept for what else is asked of them.
const MOST_KEPT = 1 << 27;
// Two canonical files of so many bytes together are compared up to names unasked; two that seem to be numbered otherwise of so many; and
// of so many at most, since the program holds some 70 times a file in memory then.
const PAIRED_UNASKED = 1 << 19;
const PAIRED_IF_RENAMED = 1 << 22;
const MOST_PAIRED = 1 << 27;
// The style and the script of a report.
const REPORT = __REPORT__;

/** A file of the person at the page, of which a piece is kept at a time. */
class DroppedFile {
  constructor(file) {
    this.file = file;
    this.size = file.size;
    this.start = 0;
    this.kept = new Uint8Array(0);
  }

  /** What stands from a place on, at most so many bytes of it. */
  piece(at, count) {
    if (at < this.start || at >= this.start + this.kept.length) {
      this.kept = this.read(at, at + READ_AT_ONCE);
      this.start = at;
    }
    return this.kept.subarray(at - this.start, at - this.start + count);
  }

  read(from, to) {
    return new Uint8Array(new FileReaderSync().readAsArrayBuffer(this.file.slice(from, to)));
  }

  /** The whole file. */
  get bytes() {
    return this.read(0, this.size);
  }
}

/** What there is to say of a place, or null where that can't be told. */
function placed(tell) {
  try {
    return tell();
  } catch {
    return null;
  }
}

/** A line without its place. */
function withoutPlace(line) {
  return { line, place: null, attributes: [], looks: null };
}

/** A report with its lines, as the tools print them. */
function withLines(report, name) {
  return { ...report, lines: linesOf(report, name) };
}

/** A line that isn't an answer. */
function notAccepted(name, status, reports) {
  return { accepted: false, name, line: reports[0].line, status, refusals: reports };
}

/**
 * How far a list goes that the program tells of a file of so many bytes: how many of them stand in front of the statement whose refusal
 * ended it, null where none did; the statement or the instance of that refusal; and how many statements were passed over.
 */
function extentOf({ refusals, read }, size) {
  const named = read === null ? null : refusalOf(refusals.at(-1)).answer.split(/ (?:at|in) /)[1];
  return { read, size, named, passed: refusals.filter(isPassedOver).length };
}

/** Counts the instances of a canonical file: the lines that begin with `#`. */
function countInstances(bytes) {
  let count = 0;
  for (let end = bytes.indexOf(10); end >= 0; end = bytes.indexOf(10, end + 1)) if (bytes[end + 1] === 0x23) count++;
  return count;
}

/** A list of differences as it goes to the page, with what owns each that is shown where `owners` says that. */
function sentList({ counts, shown, lines, ...known }, files, owners) {
  const first = known.leftOut ? [known.leftOut] : [];
  const text = new Blob([[...first, ...lines].map((line) => `${line}\n`).join("")], { type: "text/plain" });
  const sent = shown.map((difference) => ({
    kind: difference.kind,
    what: whatOf(difference),
    inTable: tableName(difference),
    texts: textsAround(difference),
    plain: files.plain(difference),
    owner: owners ? ownerOf(difference, owners) : null,
  }));
  const { listed, inHeader, inTimeStamp } = counts;
  return {
    ...known,
    count: listed,
    onlyHeader: listed > 0 && listed === inHeader,
    onlyTimeStamp: inHeader > 0 && inHeader === inTimeStamp,
    table: counts.table(),
    shown: sent,
    text,
  };
}

/** A text for people of the program's, which is in UTF-8. */
function sentenceOf(bytes) {
  return new TextDecoder().decode(bytes);
}

/** The SHA-256 of bytes in hexadecimal digits; null where the browser computes none, as on a page that a server has without TLS. */
async function hashOf(bytes) {
  try {
    const digest = await crypto.subtle.digest("SHA-256", bytes);
    return [...new Uint8Array(digest)].map((byte) => byte.toString(16).padStart(2, "0")).join("");
  } catch {
    return null;
  }
}

/** A file with its name as it may be shown, its name, and by which program it was unpacked. */
function given({ file, unpackedBy }) {
  return { name: shown(file.name), path: file.name, unpackedBy, text: new DroppedFile(file) };
}

/** The job: schemas, maybe with aliases, and none, one or two files, each with its name and unpacked. */
class Job {
  constructor(program, { schemas, aliases, files, asked }, say) {
    this.program = program;
    this.files = files.map(given);
    this.asked = asked;
    this.compared = null;
    this.say = say;
    // Without a schema the files are read by themselves.
    const listings = schemas.map(given).map((each) => ({ ...each, text: new Text(each.text.bytes) }));
    this.served = { ...listings[0], change: null };
    this.listings = listings;
    this.shelf = null;
    if (listings.length > 1 || aliases) {
      this.shelf = new Shelf(listings, aliases && { name: shown(aliases.name), text: textOf(new DroppedFile(aliases).bytes) });
    }
    this.schemas = new Map();
    this.explanations = new Map();
    this.heardAt = 0;
  }

  /** Says how far a file is read, some ten times a second. */
  heard(name, done, size) {
    if (done < size && performance.now() - this.heardAt < BETWEEN_MESSAGES) return;
    this.heardAt = performance.now();
    this.say({ progress: { name, done, size } });
  }

  /** What the program says of each refusal, by its number: in a sentence, and at length. */
  explained(numbers) {
    for (const number of numbers) {
      if (this.explanations.has(number)) continue;
      const text = sentenceOf(this.program.run(["faults", number]).output);
      const listed = sentenceOf(this.program.run(["faults"]).output);
      const about = new RegExp(`^ +${number} (\\S+) +(.*)$`, "m").exec(listed);
      this.explanations.set(number, { name: about?.[1] ?? "", about: about?.[2] ?? "", text });
    }
    return Object.fromEntries(this.explanations);
  }

  // Schemas

  /** What the program says of a schema: how many entities it has, or where it is refused. */
  ofSchema({ name, text }) {
    if (!this.schemas.has(text)) this.schemas.set(text, this.readSchema(name, text));
    return this.schemas.get(text);
  }

  readSchema(name, schema) {
    const { output, error, status } = this.program.run(["schema", "--", "schema"], { schema });
    if (status === 0) {
      const [line, ...entities] = textOf(output).trimEnd().split("\n");
      return { accepted: true, name, entities: entities.length, line };
    }
    const report = (status === 1 && placed(() => whereInSchema(this.program, schema, error))) || withoutPlace(error);
    return { ...notAccepted(name, status, [withLines(report, name)]), adapted: status === 1 ? placed(() => this.adaptedCopy(schema)) : null };
  }

  /** A copy of a listing that is refused, made fit as p21-adapt does by the other listings; null where there is nothing to do. */
  adaptedCopy(schema) {
    const number = this.listings.findIndex(({ text }) => text === schema);
    if (number < 0) return null;
    const others = this.listings.filter((_, at) => at !== number);
    const found = adapted(
      this.program,
      schema.bytes,
      others.map(({ text }) => text.bytes),
    );
    return found.count > 0 ? { ...found, number } : null;
  }

  // Files

  /** What the program says of a file: its canonical file, or where it is refused. */
  ofFile({ name, path, unpackedBy, text: file }) {
    const served = this.shelf ? this.shelf.serving(nameIn(file)) : this.served;
    if (!served) return notAccepted(name, 3, [withLines(withoutPlace(`no schema ${nameIn(file)} on the shelf`), name)]);
    const listed = this.listings.find((each) => each.name === served.name);
    const from = { listing: listed, path, unpackedBy };
    const said = { schema: served.name, from, isByShelf: this.shelf !== null, change: served.change, served };
    const schema = this.ofSchema(served);
    if (!schema.accepted) return { ...schema, ...said };
    const heard = (path, done) => path === "file" && this.heard(name, done, file.size);
    const files = { schema: served.text, file };
    const { output, error, status } = this.program.run(["canon", "--", "schema", "file"], files, heard);
    if (status === 0) return { ...this.accepted(name, output), ...said };
    if (status !== 1) return { ...notAccepted(name, status, [withLines(withoutPlace(error), name)]), ...said };
    const otherKind = otherKindOf(textOf(file.piece(0, LOOKED_AT)));
    return { ...this.refused(name, files, error, heard), ...said, file, otherKind };
  }

  /** What the program says of a file by itself, without a schema, its header and what it holds, or where it is refused. */
  ofFileAlone({ name, unpackedBy, text: file }) {
    const heard = (_, done) => this.heard(name, done, file.size);
    const { line, status, instances, schema } = syntaxOf(this.program, file, heard);
    const from = { unpackedBy, listing: {} };
    if (status === 0) {
      const keywords = placed(() => keywordsOf(file, instances, (done) => this.heard(name, done, file.size)));
      const header = placed(() => headerOf(this.program, file)) ?? [];
      return { isAlone: true, accepted: true, name, line, from, names: schema, header, keywords };
    }
    const report = (status === 1 && placed(() => whereAlone(this.program, file.bytes, line))) || withoutPlace(line);
    const otherKind = otherKindOf(textOf(file.piece(0, LOOKED_AT)));
    return { ...notAccepted(name, status, [withLines(report, name)]), isAlone: true, from, otherKind };
  }

  accepted(name, canonical) {
    const line = `accepted, instances ${countInstances(canonical)}, canonical bytes ${canonical.length}`;
    return { accepted: true, name, line, canonical };
  }

  /**
   * What the program says of an accepted file whatever the names of its instances are: the hash of the numbered file, or why there is
   * none. Of a large file it says so where it is asked.
   */
  async numbered({ name, canonical, served }) {
    if (canonical.length > SMALL_ENOUGH && !this.asked.numbered) return null;
    this.say({ progress: { name } });
    const files = { schema: served.text, file: new Text(canonical) };
    const { output, error, status } = this.program.run(["canon", "--names", "--", "schema", "file"], files);
    return status === 0 ? { hash: await hashOf(output), whole: new Blob([output], { type: "text/plain" }) } : { why: error };
  }

  /**
   * What the program lists of a file, each refusal still without what is around it, with the line with the count and how far the file was
   * read; the first one alone where there is no list, as for want of memory.
   */
  refused(name, files, error, heard) {
    const told = toldOf(this.program, ["--all"], files, heard);
    const isAll = told.count !== null;
    const lines = isAll ? [...told.refusals.map((line) => refusalOf(line).answer), ...(told.error ? [told.error] : [])] : [error];
    const reports = lines.slice(0, MOST_WHOLE).map((line) => ({ ...withoutPlace(line), lines: [line] }));
    const kinds = [...Map.groupBy(lines, kindOfLine)].map(([kind, each]) => [kind, each.length]);
    const extent = isAll && told.refusals.length > 0 ? extentOf(told, files.file.size) : null;
    return { ...notAccepted(name, 1, reports), count: told.count, extent, isAll, told: told.refusals, total: lines.length, kinds };
  }

  /** The places of all refusals, one after the other, each with the number of its file and its own. */
  *places(answers) {
    for (const [file, answer] of answers.entries()) {
      if (!answer.file) continue;
      this.say({ progress: { name: answer.name, placed: 0, of: answer.total } });
      const { name } = answer;
      const reports = placed(() => this.reports(answer)) ?? [].values();
      for (let at = 0; ; at++) {
        const step = placed(() => reports.next());
        if (!step || step.done) break;
        yield { file, at, report: withLines(step.value, name) };
      }
    }
  }

  /** The reports of a file's refusals, one after the other. */
  reports({ served, told, file, isAll }) {
    if (!isAll) return [whereInFile(this.program, served.text, served.name, file.bytes)].values();
    return whereAll(new GivenFile(served.text, served.name, file.bytes), told);
  }

  // Differences

  /** What differs between two files that are accepted, as it is asked at first. */
  differences(first, second) {
    const files = { schema: first.served.text, first: new Text(first.canonical), second: new Text(second.canonical) };
    const diff = (asked, rows) => {
      this.say({ progress: { name: asked.names ? "whatever the names of instances are" : "", compares: true } });
      const { error } = this.program.run(wordsOfDiff(asked), files, undefined, (bytes) => rows.hear(bytes));
      if (error) throw new Trouble(error);
    };
    const areSame = (one, other) => {
      const words = ["same", "--names", "--", "schema", "first", "second"];
      const asked = placed(() => this.program.run(words, { ...files, first: new Text(one), second: new Text(other) }));
      return asked !== null && asked.status === 0;
    };
    const lengths = new Lengths(new Outline(first.served.text.bytes));
    this.compared = new Files({ lengths, diff, areSame }, first.canonical, second.canonical);
    this.owners = new Map();
    this.instances = this.compared.canonical.map(countInstances);
    return this.lists(this.asked);
  }

  /** The lists of what differs: by names, and up to names where that is asked for, and unasked where both files are small, or less so
   *  and seem to be numbered otherwise. */
  lists(asked) {
    const names = this.list(false, asked);
    const { size } = this.compared;
    const seemRenamed = this.seemRenamed(names);
    const isUnasked = size <= (seemRenamed ? PAIRED_IF_RENAMED : PAIRED_UNASKED);
    const upToNames = isUnasked || asked.upToNames ? this.list(true, asked) : null;
    return { asked, names, upToNames, seemRenamed, isKept: size <= MOST_KEPT, isPairable: size <= MOST_PAIRED };
  }

  /** May fewer than half of the instances that belong together have one name in both files? Where as many are the same under their names
   *  as half of the instances of a file, they haven't. */
  seemRenamed({ table }) {
    const ofInstances = table.filter(([name]) => name !== "(header)");
    const other = ofInstances.reduce((sum, [, changed, , went]) => sum + changed + went, 0);
    return 2 * (this.instances[0] - other) < Math.min(...this.instances);
  }

  /** The list of what differs by names, or up to names. */
  list(names, { data, tolerance }) {
    const found = this.compared.list({ names, data, tolerance: tolerance || null }, SHOWN_DIFFERENCES);
    return sentList(found, this.compared, found.shown.length > 0 ? this.ownersOf(names) : null);
  }

  /** What tells the owner of an instance. */
  ownersOf(names) {
    if (!this.owners.has(names)) this.owners.set(names, this.compared.owners(names));
    return this.owners.get(names);
  }

  /** The report of what differs, as p21-diff --format html writes it. */
  report({ names, data, tolerance }) {
    const how = { names, data, tolerance: tolerance || null };
    const report = new Report(
      this.compared,
      this.files.map(({ path }) => path),
      REPORT,
    );
    const { known, counts } = this.compared.each(how, (difference) => report.add(difference));
    const lines = [...report.page(known, counts, counts.listed > 0 ? this.ownersOf(names) : null)];
    return new Blob([lines.map((line) => `${line}\n`).join("")], { type: "text/html" });
  }

  // The answer

  /** The answer to the whole job, in which refusals have no places yet. */
  answer() {
    if (this.listings.length === 0) return this.answerAlone();
    const schemas = this.shelf && this.files.length > 0 ? [] : this.listings.map((each) => this.ofSchema(each));
    const isRead = schemas.every(({ accepted }) => accepted);
    const files = isRead ? this.files.map((file) => this.ofFile(file)) : [];
    const [first, second] = files;
    const areAccepted = second !== undefined && first.accepted && second.accepted;
    const compared = areAccepted && first.served.text === second.served.text;
    const isSame = compared && equalBytes(first.canonical, second.canonical);
    const verdict = compared ? (isSame ? "same" : "different") : areAccepted ? "apart" : null;
    const differences = compared && !isSame ? this.differences(first, second) : null;
    const read = [...this.listings.keys()].filter((number) => this.schemas.get(this.listings[number].text)?.accepted);
    return { schemas, files, verdict, differences, read };
  }

  /** The answer to a job without a schema. */
  answerAlone() {
    const files = this.files.map((file) => this.ofFileAlone(file));
    return { isAlone: true, schemas: [], files, verdict: null, differences: null, read: [] };
  }

  /** Does the job: says the answer, and behind it the places that aren't found yet. */
  async run() {
    const answer = this.answer();
    for (const file of answer.files.filter(({ canonical }) => canonical)) {
      file.hash = await hashOf(file.canonical);
      file.numbered = await this.numbered(file);
    }
    const kindsOf = ({ refusals = [], kinds = null }) => kinds?.map(([kind]) => kind) ?? refusals.map(({ line }) => kindOfLine(line));
    const kinds = [...answer.schemas, ...answer.files].flatMap(kindsOf);
    const numbers = kinds.map((kind) => /^(S?\d+) /.exec(kind)?.[1]).filter(Boolean);
    const explained = this.explained(new Set(numbers));
    const begun = performance.now();
    let saidAt = null;
    let waiting = { places: [], further: [] };
    for (const found of this.places(answer.files)) {
      const { name, refusals, total } = answer.files[found.file];
      const now = performance.now();
      if (found.at >= MOST_WHOLE) waiting.further.push({ file: found.file, lines: found.report.lines });
      else if (saidAt === null) refusals[found.at] = found.report;
      else waiting.places.push(found);
      if (saidAt === null) {
        if (now - begun <= FIRST_PLACES) continue;
        this.say({ answer: sendable(answer, explained), isWhole: false });
      } else {
        if (now - saidAt <= BETWEEN_MESSAGES) continue;
        this.say({ ...waiting, progress: { name, placed: found.at + 1, of: total } });
        waiting = { places: [], further: [] };
      }
      saidAt = now;
    }
    if (saidAt === null) this.say({ answer: sendable(answer, explained), ...waiting, isWhole: true });
    else this.say({ ...waiting, isWhole: true });
  }
}

/** An answer as it goes to the page. */
function sendable(answer, explained) {
  return { ...answer, explained, files: answer.files.map(sendableFile) };
}

/** What is said of a file: of a canonical file the beginning, and the whole to be saved. */
function sendableFile({ canonical, served, file, told, from, ...others }) {
  const rest = { ...others, from: from && { ...from, listing: from.listing.path, listingUnpackedBy: from.listing.unpackedBy } };
  if (!canonical) return rest;
  const shown = canonical.subarray(0, SHOWN_CANONICAL);
  const end = shown.length < canonical.length ? shown.lastIndexOf(10) + 1 : shown.length;
  const whole = new Blob([canonical], { type: "text/plain" });
  return { ...rest, canonical: { shown: textOf(shown.subarray(0, end)), size: canonical.length, whole } };
}

/** A job with all of its files unpacked. */
async function unpackedJob({ schemas, files, ...rest }, say) {
  const unpackedFile = async (file, kind) => {
    say({ progress: { name: shown(file.name) } });
    return unpacked(file, kind);
  };
  return {
    ...rest,
    schemas: await Promise.all(schemas.map((file) => unpackedFile(file, "schema"))),
    files: await Promise.all(files.map((file) => unpackedFile(file, "file"))),
  };
}

// The job that is done, of which more can be asked: other lists of what differs, or a report.
let job = null;

/** Starts a job, or does what is asked of the one that is done. */
async function done({ module, report, asked, ...given }, say) {
  if (report) {
    say({ report: job.report(report) });
  } else if (module && !given.schemas) {
    say({ version: textOf(new Program(module).run(["--version"]).output).trim() });
  } else if (module) {
    job = new Job(new Program(module), await unpackedJob({ ...given, asked }, say), say);
    await job.run();
    if (asked.report && job.compared) say({ report: job.report(asked.report) });
  } else {
    say({ lists: job.lists(asked), isWhole: true });
  }
}

if (typeof WorkerGlobalScope !== "undefined") {
  self.onmessage = async ({ data }) => {
    const say = (message) => self.postMessage(message);
    try {
      await done(data, say);
    } catch (error) {
      say({ trouble: error instanceof Trouble ? error.message : `${error.name}: ${error.message}` });
    }
  };
}
