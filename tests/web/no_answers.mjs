// What the page says where the program doesn't list what differs: no_answers.mjs reads texts as JSON, each what the program writes of two
// files by pairs, or an error between `!` and its end, with whether it was to leave out the header, and writes for each how many
// differences are shown, the last line, and whether there is a list.

import fs from "node:fs";
import { Files } from "../../web/differences.mjs";
import { Trouble } from "../../web/program.mjs";
import { bytesOf } from "../../web/reading.mjs";
import { Outline } from "../../web/schemas.mjs";
import { Lengths } from "../../web/units.mjs";

const canonical = bytesOf("ISO-10303-21;\nHEADER;\nENDSEC;\nDATA;\n#1=A(1);\nENDSEC;\nEND-ISO-10303-21;\n");
const lengths = new Lengths(new Outline(bytesOf("SCHEMA s; ENTITY a; x : INTEGER; END_ENTITY; END_SCHEMA;")));
const said = ([text, data]) => {
  const [output, error] = text.split("!");
  const diff = (_, rows) => {
    rows.hear(bytesOf(output));
    if (error) throw new Trouble(error);
  };
  const { shown, lines, verdict, isListed, counts } = new Files({ lengths, diff }, canonical, canonical).list({ names: true, data }, 10);
  return [shown.length, lines.length, counts.listed, verdict, isListed];
};
process.stdout.write(JSON.stringify(JSON.parse(fs.readFileSync(0)).map(said)));
