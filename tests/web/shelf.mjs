// Shelves of the page: shelf.mjs reads a list of { listings, aliases, names } as JSON, with texts by the names of their files,
// and writes for each what serves the names, or what is wrong with the shelf.

import fs from "node:fs";
import { Text } from "../../web/program.mjs";
import { bytesOf, textOf } from "../../web/reading.mjs";
import { Shelf } from "../../web/shelf.mjs";

/** What serves each of the names: the listing, the change, and the text that the program reads. */
function served({ listings, aliases, names }) {
  try {
    const given = Object.entries(listings).map(([name, text]) => ({ name, text: new Text(bytesOf(text)) }));
    const shelf = new Shelf(given, aliases === null ? null : { name: "aliases", text: aliases });
    return names.map((name) => {
      const found = shelf.serving(name);
      return found && [found.name, found.change ?? "", textOf(found.text.bytes)];
    });
  } catch (trouble) {
    return trouble.message;
  }
}

process.stdout.write(JSON.stringify(JSON.parse(fs.readFileSync(0)).map(served)));
