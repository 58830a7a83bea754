// A problem in the fragment of the page's address, which a browser sends to no server: its command, its number and its text, compressed.

/** Bytes that a description has at most. */
export const MOST_DESCRIPTION = 4_194_304;
/** Characters of a fragment that every browser takes. */
const LONGEST = 1_000_000;

/** What a stream makes of these bytes. Fails where that is more than `most` bytes. */
async function through(stream, bytes, most = Infinity) {
  const reader = new Blob([bytes]).stream().pipeThrough(stream).getReader();
  const pieces = [];
  let length = 0;
  for (let piece = await reader.read(); !piece.done; piece = await reader.read()) {
    length += piece.value.length;
    if (length > most) {
      await reader.cancel();
      throw new RangeError("the text is too long");
    }
    pieces.push(piece.value);
  }
  return new Uint8Array(await new Blob(pieces).arrayBuffer());
}

function toWord(bytes) {
  let text = "";
  for (const byte of bytes) text += String.fromCharCode(byte);
  return btoa(text).replaceAll("+", "-").replaceAll("/", "_").replaceAll("=", "");
}

function fromWord(word) {
  return Uint8Array.from(atob(word.replaceAll("-", "+").replaceAll("_", "/")), (it) => it.charCodeAt(0));
}

/** The fragment that holds a problem { command, count, text }, or null where it would be too long. */
export async function fragmentOf({ command, count, text }) {
  const packed = await through(new CompressionStream("deflate-raw"), new TextEncoder().encode(text));
  const fragment = `#${command},${count},${toWord(packed)}`;
  return fragment.length > LONGEST ? null : fragment;
}

/** The problem that a fragment holds, or null where it holds none. */
export async function problemOf(fragment) {
  const found = /^#([a-z]+),([^,]*),([\w-]+)$/.exec(fragment);
  if (!found) return null;
  try {
    const bytes = await through(new DecompressionStream("deflate-raw"), fromWord(found[3]), MOST_DESCRIPTION);
    return { command: found[1], count: found[2], text: new TextDecoder().decode(bytes) };
  } catch {
    return null;
  }
}
