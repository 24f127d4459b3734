// Files that are packed, by gzip or in a zip archive, and files of other kinds than STEP. Both the page and its workers ask.
//
// Packed files are unpacked in the worker, by the browser's `DecompressionStream`; nothing else is added but the list
// of an archive and its checksums, which are held against what was unpacked. Of an archive the page takes the one file
// that begins as a STEP file, and says so where there is none or there are several. What it says of other kinds of
// files, by their first bytes, is beside the program's refusal and never in place of it.

import { kindOf } from "./kinds.mjs";
import { Trouble } from "./program.mjs";
import { textOf } from "./reading.mjs";

// So much of a file says what it is.
export const LOOKED_AT = 1 << 16;
// A packed file may unpack to so many bytes, which is more than the program takes, and so many files of an archive are looked at.
const MOST_UNPACKED = 2 ** 33;
const MOST_MEMBERS = 1000;
// Of a zip archive: the marks of its records, how long they are without names, and how far from its end the last one may begin.
const [LOCAL, CENTRAL, END] = [0x04034b50, 0x02014b50, 0x06054b50];
const [LOCAL_SIZE, CENTRAL_SIZE, END_SIZE] = [30, 46, 22];
const MOST_END = END_SIZE + 0xffff;
const STORED = 0;
const DEFLATED = 8;
const ENCRYPTED = 1;
// Where a number doesn't fit, a larger record has it, which isn't read here.
const TOO_LARGE = 0xffffffff;
const TOO_MANY = 0xffff;

// What a file is that begins so, where it is no clear text.
const OTHER_KINDS = [
  [/^%PDF-/, "a PDF document"],
  [/^(?:\x89PNG|\xff\xd8\xff|GIF8|II\*\0|MM\0\*|RIFF....WEBP)/s, "an image"],
  [/^\xd0\xcf\x11\xe0/, "a compound document, as native files of SolidWorks, Inventor and Revit are"],
  [/^V5_CFV2/, "a native file of CATIA"],
  [/^#UGC:2/, "a native file of Creo"],
  [/^(?:\*\*ABCDEFGHIJ|PS\0\0)/, "a file of Parasolid"],
  [/^AC10\d\d/, "a DWG drawing"],
  [/^\s*0\r?\n\s*SECTION\b/, "a DXF drawing"],
  [/^3D Geometry File Format/, "a native file of Rhino"],
  [/^Version \d+\.\d+ JT/, "a JT file"],
  [/^[^\r\n]{72}S {0,6}0*1\s/, "an IGES file"],
  [/^solid\s/, "an STL file"],
  [/^glTF/, "a glTF file"],
  [/^\x89HDF/, "STEP in its binary form"],
  [/^(?:\xef\xbb\xbf)?\s*<\?xml[^]*<(?:\w+:)?(?:ifcXML|iso_10303_28|uos)\b/, "IFC or STEP as XML"],
  [/^(?:\xef\xbb\xbf)?\s*<(?:!doctype html|html)/i, "a page of HTML"],
  [/^(?:\xef\xbb\xbf)?\s*<[?!\w]/, "XML"],
  [/^(?:\xef\xbb\xbf)?\s*(?:\{\s*["}]|\[\s*[[{"\d\]])/, "JSON"],
];

/** What a text with this front is where it is no clear text, as a phrase; null where that isn't known. */
export function otherKindOf(front) {
  return OTHER_KINDS.find(([pattern]) => pattern.test(front))?.[1] ?? null;
}

/** How a stream begins, as a text with a character for each byte. */
async function frontOfStream(stream) {
  const reader = stream.getReader();
  let front = "";
  for (let step = await reader.read(); !step.done; step = await reader.read()) {
    front += textOf(step.value.subarray(0, LOOKED_AT - front.length));
    if (front.length === LOOKED_AT) break;
  }
  reader.cancel().catch(() => {});
  return front;
}

/** The records of a file that isn't packed, of a gzip file and of an archive: the files in it, each with what gives its bytes. */
async function membersOf(file) {
  const start = new DataView(await file.slice(0, 4).arrayBuffer());
  const isLong = start.byteLength === 4;
  if (isLong && start.getUint16(0) === 0x1f8b) return [gunzipped(file)];
  if (isLong && start.getUint32(0, true) === LOCAL) return entriesOf(file);
  return [{ name: file.name, unpackedBy: null, open: () => file.stream() }];
}

/** The file in a gzip file. */
function gunzipped(file) {
  const name = file.name.replace(/\.gz$/i, "").replace(/(\.(?:stp|step|p21|ifc))z$/i, "$1");
  const open = () => file.stream().pipeThrough(new DecompressionStream("gzip"));
  return { name, unpackedBy: { program: "gunzip", from: file.name }, open };
}

/** Reads a part of a file. */
async function viewOf(file, start, size) {
  return new DataView(await file.slice(start, start + size).arrayBuffer());
}

/** The files in a zip archive, by the list at its end. */
async function entriesOf(file) {
  const last = await viewOf(file, Math.max(0, file.size - MOST_END), MOST_END);
  let at = last.byteLength - END_SIZE;
  while (at >= 0 && last.getUint32(at, true) !== END) at--;
  if (at < 0) throw new Trouble(`${file.name} is a zip archive without its end`);
  const [count, size, start] = [last.getUint16(at + 10, true), last.getUint32(at + 12, true), last.getUint32(at + 16, true)];
  if (count === TOO_MANY || size === TOO_LARGE || start === TOO_LARGE) throw new Trouble(`${file.name} is an archive of the form zip64`);
  return entriesIn(file, await viewOf(file, start, size), count);
}

/** The files of which the list of an archive says where they stand. */
function entriesIn(file, list, count) {
  const entries = [];
  for (let at = 0; entries.length < count; ) {
    if (at + CENTRAL_SIZE > list.byteLength || list.getUint32(at, true) !== CENTRAL) throw new Trouble(`${file.name} is a damaged archive`);
    const number = (offset) => list.getUint32(at + offset, true);
    const short = (offset) => list.getUint16(at + offset, true);
    const name = new TextDecoder().decode(new Uint8Array(list.buffer, at + CENTRAL_SIZE, short(28)));
    const entry = { flags: short(8), method: short(10), sum: number(16), packed: number(20), size: number(24), start: number(42) };
    entries.push({ name, unpackedBy: { program: "unzip", from: file.name, member: name }, open: () => opened(file, name, entry) });
    at += CENTRAL_SIZE + short(28) + short(30) + short(32);
  }
  return entries.filter(({ name }) => !name.endsWith("/") && !name.startsWith("__MACOSX/"));
}

/** The bytes of a file in an archive, which are held against the checksum and the size that the archive has of them. */
async function opened(file, name, { flags, method, sum, packed, size, start }) {
  if (flags & ENCRYPTED) throw new Trouble(`${name} in ${file.name} is encrypted`);
  if (method !== STORED && method !== DEFLATED) throw new Trouble(`${name} in ${file.name} is packed in another way than by deflate`);
  const head = await viewOf(file, start, LOCAL_SIZE);
  if (head.byteLength < LOCAL_SIZE || head.getUint32(0, true) !== LOCAL) throw new Trouble(`${file.name} is a damaged archive`);
  const data = start + LOCAL_SIZE + head.getUint16(26, true) + head.getUint16(28, true);
  const stream = file.slice(data, data + packed).stream();
  const whole = method === STORED ? stream : stream.pipeThrough(new DecompressionStream("deflate-raw"));
  return whole.pipeThrough(summed(sum, size));
}

/** The rests by which a checksum is made of bytes, CRC-32. */
const RESTS = Uint32Array.from({ length: 256 }, (_, byte) => {
  let rest = byte;
  for (let bit = 0; bit < 8; bit++) rest = (rest >>> 1) ^ (rest & 1 ? 0xedb88320 : 0);
  return rest;
});

/** Hands bytes on, and fails at their end where they have another checksum or size. */
function summed(sum, size) {
  let [rest, count] = [0xffffffff, 0];
  return new TransformStream({
    transform(bytes, stream) {
      for (const byte of bytes) rest = (rest >>> 8) ^ RESTS[(rest ^ byte) & 0xff];
      count += bytes.length;
      stream.enqueue(bytes);
    },
    flush(stream) {
      if ((~rest >>> 0) !== sum || count !== size) stream.error(new TypeError("another checksum"));
    },
  });
}

/** Hands bytes on, and fails where there are too many. */
function bounded() {
  let count = 0;
  return new TransformStream({
    transform(bytes, stream) {
      count += bytes.length;
      if (count > MOST_UNPACKED) stream.error(new TypeError("too large"));
      else stream.enqueue(bytes);
    },
  });
}

/** How a file begins, or that file in it which is of a known kind: its name, its front, and of which kind it is. */
export async function beginningOf(file) {
  let first = null;
  for (const member of (await membersOf(file)).slice(0, MOST_MEMBERS)) {
    const front = await frontOfStream(await member.open());
    const found = { name: member.name, front, kind: kindOf(front) };
    if (found.kind) return found;
    first ??= found;
  }
  return first ?? { name: file.name, front: "", kind: null };
}

/** The one file of a kind, "schema" or "file", that is in a file; of a file that isn't packed itself. */
async function memberOf(file, kind) {
  const members = await membersOf(file);
  if (members.length === 1) return members[0];
  const fit = [];
  for (const member of members.slice(0, MOST_MEMBERS)) {
    if (kindOf(await frontOfStream(await member.open())) === kind) fit.push(member);
  }
  const what = kind === "schema" ? "schema" : "STEP file";
  if (fit.length === 0) throw new Trouble(`there is no ${what} in ${file.name}`);
  if (fit.length > 1) throw new Trouble(`there are several ${what}s in ${file.name}: unpack it, and choose one`);
  return fit[0];
}

/** A file as it is to be read, and where it was packed, by which program it is unpacked on a command line. */
export async function unpacked(file, kind) {
  let member;
  try {
    member = await memberOf(file, kind);
    if (!member.unpackedBy) return { file, unpackedBy: null };
    const whole = await new Response((await member.open()).pipeThrough(bounded())).blob();
    return { file: new File([whole], member.name.split("/").at(-1)), unpackedBy: member.unpackedBy };
  } catch (error) {
    if (error instanceof Trouble) throw error;
    // A file that can't be read is told by the program.
    if (!member?.unpackedBy) return { file, unpackedBy: null };
    throw new Trouble(`${member.unpackedBy.from} can’t be unpacked: it is damaged, cut off or too large`);
  }
}
