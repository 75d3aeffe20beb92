// The texts of the page of `draw --html`, which are constants of the crate hp_html.
import fs from "node:fs";

const SOURCES = new URL("../crates/hp_html/src/", import.meta.url);
const read = (module) => fs.readFileSync(new URL(`${module}.rt`, SOURCES), "utf8");

/** The text of a constant, whose module has its name. Small ones stand beside a larger one. */
export function textOf(name) {
  const module = name.toLowerCase().replace(/_(begin|end)$/, "");
  return new RegExp(`const ${name}: &str =\\s*r###"(.*?)"###`, "s").exec(read(module))[1];
}

const names = /&\[\n(.*?)\n *\],\n/s.exec(read("paging"))[1].match(/\w+/g);
/** What stands before a run's lines, and behind them. */
export const [HEAD, TAIL] = [names.map(textOf).join(""), textOf("TAIL")];
