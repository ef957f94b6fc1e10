"use strict";
// The address of the page: it holds the script and the options, so that a run can be sent as a link.

const MOST_LINK = 60000; // letters of a script, packed: longer addresses get lost on their way

async function through(bytes, stream) {
  return new Uint8Array(await new Response(new Blob([bytes]).stream().pipeThrough(stream)).arrayBuffer());
}

function bytesOf(text) {
  return Uint8Array.from(atob(text), (letter) => letter.charCodeAt(0));
}

async function packed(text) {
  const bytes = await through(new TextEncoder().encode(text), new CompressionStream("deflate-raw"));
  let letters = "";
  for (const byte of bytes) letters += String.fromCharCode(byte);
  return btoa(letters).replace(/\+/g, "-").replace(/\//g, "_").replace(/=+$/, "");
}

async function unpacked(text) {
  return new TextDecoder().decode(await through(bytesOf(text.replace(/-/g, "+").replace(/_/g, "/")), new DecompressionStream("deflate-raw")));
}

// The address for a script and options; of a script that is an example only the example's name. Empty where it would be too long.
async function addressOf(script, example, options) {
  const words = new URLSearchParams(Object.entries(options).filter(([, value]) => value !== ""));
  if (example) return `#example=${example}&${words}`;
  const text = await packed(script);
  return text.length > MOST_LINK ? "" : `#script=${text}&${words}`;
}

// What an address holds: { script or example, and options }. One that can't be read holds nothing.
async function readAddress(hash) {
  const words = Object.fromEntries(new URLSearchParams(hash.slice(1)));
  if (!words.script) return words;
  try {
    return { ...words, script: await unpacked(words.script) };
  } catch {
    return { ...words, script: null };
  }
}
