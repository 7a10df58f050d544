// Answers the requests of a folder by the package: node.mjs PACKAGE FOLDER. See answers.mjs.
import { existsSync, readFileSync, writeFileSync } from "node:fs";
import { join } from "node:path";
import { pathToFileURL } from "node:url";
import { answerAll } from "./answers.mjs";

const [name, folder] = process.argv.slice(2);
const capvet = await import(pathToFileURL(name).href);
const get = (index) => {
  const request = join(folder, `${index}.json`);
  if (!existsSync(request)) return null;
  return { ...JSON.parse(readFileSync(request, "utf8")), stream: new Uint8Array(readFileSync(join(folder, `${index}.bin`))) };
};
console.log(await answerAll(capvet, get, (index, answer) => writeFileSync(join(folder, `${index}.node`), answer)));
