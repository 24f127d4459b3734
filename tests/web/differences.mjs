// What the page says of how files differ: differences.mjs MODULE reads a list of {schema, files, options} as JSON, and writes for each
// the lines by the names of instances with these options, and those by pairs, each with the last line, and the reports of both.

import fs from "node:fs";
import { Files, wordsOfDiff } from "../../web/differences.mjs";
import { Report } from "../../web/pages.mjs";
import { Program, Text } from "../../web/program.mjs";
import { Outline } from "../../web/schemas.mjs";
import { Lengths } from "../../web/units.mjs";

const program = new Program(new WebAssembly.Module(fs.readFileSync(process.argv[2])));
const { given, style } = JSON.parse(fs.readFileSync(0));
const bytesOf = (path) => new Uint8Array(fs.readFileSync(path));

/** Two files under a schema that are compared. */
function compared(schemaPath, paths) {
  const schema = new Text(bytesOf(schemaPath));
  const canonical = paths.map((path) => {
    const { output, error } = program.run(["canon", "--", "schema", "file"], { schema, file: new Text(bytesOf(path)) });
    if (error) throw new Error(`${path}: ${error}`);
    return output;
  });
  const [first, second] = canonical.map((bytes) => new Text(bytes));
  const diff = (asked, rows) => {
    const { error } = program.run(wordsOfDiff(asked), { schema, first, second }, undefined, (piece) => rows.hear(piece));
    if (error) throw new Error(`${paths}: ${error}`);
  };
  const areSame = (one, other) => {
    const files = { schema, first: new Text(one), second: new Text(other) };
    return program.run(["same", "--names", "--", "schema", "first", "second"], files).status === 0;
  };
  return new Files({ lengths: new Lengths(new Outline(schema.bytes)), diff, areSame }, ...canonical);
}

/** The report of what differs. */
function report(files, asked, paths) {
  const page = new Report(files, paths, style);
  const { known, counts } = files.each(asked, (difference) => page.add(difference));
  return [...page.page(known, counts, files.owners(asked.names))].map((line) => `${line}\n`).join("");
}

/** What p21-diff prints with these options, by names and with --names. */
function differences({ schema, files: paths, options, withReport }) {
  const found = compared(schema, paths);
  const { tolerance = null } = options;
  return [false, true].map((names) => {
    const asked = { names, data: options.data ?? false, tolerance };
    const { lines, verdict, leftOut, counts } = found.list(asked, 0);
    return { lines, verdict, leftOut, table: counts.table(), report: withReport ? report(found, asked, paths) : null };
  });
}

process.stdout.write(JSON.stringify(given.map(differences)));
