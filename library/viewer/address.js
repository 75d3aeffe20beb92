// What the end of the page's address asks for. Nothing here touches the page.

// a place is so many digits long; a trace has fewer events
const PLACE = /^\d{1,9}$/;
// the first word of an address that holds a trace of one's own, alone or with the script that it is played of
export const PACKED = "trace=";
export const PACKED_SCRIPT = "script=";

/** What a name in an address leads to: an example, or a trace of one's own. */
function askedBy(name) {
  const first = [PACKED, PACKED_SCRIPT].find((it) => name.startsWith(it));
  return first ? { packed: name.slice(first.length), isScript: first === PACKED_SCRIPT } : { name };
}

/** What stands behind the address's #, with its place, which is Infinity where it has none. `why` says what of it can't be read. */
export function readAddress(hash) {
  let text;
  try {
    text = decodeURIComponent(hash.replace(/^#/, ""));
  } catch {
    return { name: "", place: Infinity, why: `The address ends with "${hash}", which can't be read.` };
  }
  const at = text.lastIndexOf("@");
  const [name, word] = at < 0 ? [text, ""] : [text.slice(0, at), text.slice(at + 1)];
  const isPlace = at < 0 || PLACE.test(word);
  const place = at >= 0 && isPlace ? Number(word) : Infinity;
  return { ...askedBy(name), place, why: isPlace ? "" : `The address ends with "@${word}", which is no number of events: the last one is shown.` };
}

/** Bytes as letters that an address may have. */
export function lettersOf(bytes) {
  let text = "";
  for (let at = 0; at < bytes.length; at += 8192) text += String.fromCharCode(...bytes.subarray(at, at + 8192));
  return btoa(text).replaceAll("+", "-").replaceAll("/", "_").replaceAll("=", "");
}

export function bytesOf(letters) {
  return Uint8Array.from(atob(letters.replaceAll("-", "+").replaceAll("_", "/")), (it) => it.charCodeAt(0));
}

const through = (bytes, stream) => new Blob([bytes]).stream().pipeThrough(stream);

/** A text, made small, in letters of an address. */
export async function pack(text) {
  const small = await new Response(through(new TextEncoder().encode(text), new CompressionStream("deflate-raw"))).arrayBuffer();
  return lettersOf(new Uint8Array(small));
}

/** The text that was made small; it ends with an error where it has more than so many bytes, or the letters are of no text. */
export async function unpack(letters, most) {
  const parts = [];
  let count = 0;
  const reader = through(bytesOf(letters), new DecompressionStream("deflate-raw")).getReader();
  for (let part = await reader.read(); !part.done; part = await reader.read()) {
    parts.push(part.value);
    count += part.value.length;
    if (count > most) throw new Error(`its trace has more than ${most.toLocaleString("en")} bytes`);
  }
  return new TextDecoder("utf-8", { fatal: true }).decode(await new Blob(parts).arrayBuffer());
}
