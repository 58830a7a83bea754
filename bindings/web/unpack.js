"use strict";
// Begins the page that is one file. Its script and its module stand there as words with seven bits a character, compressed by deflate.
const UNFIT = "\0\r<";

/** The numbers of seven bits in a word. A character behind ASCII stands for one that HTML changes, or that could begin a tag, and the number
 * behind it, or none behind it if it is the last. */
function* sevensOf(word) {
  for (let at = 0; at < word.length; at++) {
    const code = word.charCodeAt(at);
    if (code < 0x100) {
      yield code;
    } else if (code < 0x280) {
      yield UNFIT.charCodeAt((code - 0x100) >> 7);
      yield code & 127;
    } else {
      yield UNFIT.charCodeAt(code - 0x280);
    }
  }
}

/** The bytes of a word. */
function bytesOf(word) {
  const bytes = new Uint8Array(word.length * 2);
  let held = 0;
  let bits = 0;
  let count = 0;
  for (const seven of sevensOf(word)) {
    held = ((held << 7) | seven) & 0x3fff;
    bits += 7;
    if (bits >= 8) {
      bits -= 8;
      bytes[count++] = held >> bits;
    }
  }
  return bytes.subarray(0, count);
}

/** What a word of the page holds, as the answer to a request. */
function unpacked(id) {
  const packed = new Blob([bytesOf(document.getElementById(id).textContent)]);
  return new Response(packed.stream().pipeThrough(new DecompressionStream("deflate-raw")));
}

async function begin() {
  const script = document.createElement("script");
  script.type = "module";
  script.textContent = await unpacked("script").text();
  document.body.append(script);
}

if (globalThis.DecompressionStream) {
  begin();
} else {
  document.getElementById("unable").textContent =
    "This browser is too old: the page needs DecompressionStream, and 64-bit WebAssembly memory.";
}
