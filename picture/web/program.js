"use strict";
// Runs the program gossipmpi as a module of WebAssembly, which bench/wasm makes: it gives it words and its standard input, and takes what it writes.

// What ends the program, with its status.
class Exit {
  constructor(status) {
    this.status = status & 255;
  }
}

// Runs the program once, with so many MB of memory of its own, and answers its status. `written(stream, bytes)` gets what it writes on streams 1 and 2.
// On a terminal it says how far a run without a trace is.
function runProgram(module, { words, script, memory, isTerminal = false }, written) {
  const encoded = words.map((word) => new TextEncoder().encode(word));
  let place = 0;
  const room = (at, length) => new Uint8Array(instance.exports.memory.buffer, at >>> 0, length >>> 0);
  const env = {
    host_word(number, at, length) {
      const word = encoded[number >>> 0];
      if (word && word.length <= length) room(at, word.length).set(word);
      return word ? word.length : -1;
    },
    host_read(at, length) {
      const part = script.subarray(place, place + length);
      room(at, part.length).set(part);
      place += part.length;
      return part.length;
    },
    host_write: (stream, at, length) => written(stream, room(at, length)),
    host_is_terminal: (stream) => Number(stream === 2 && isTerminal),
    host_milliseconds: () => performance.now(),
    host_exit(status) {
      throw new Exit(status);
    },
  };
  const instance = new WebAssembly.Instance(module, { env });
  instance.exports.limit_memory(memory * (1 << 20));
  try {
    return instance.exports.run() & 255;
  } catch (end) {
    if (end instanceof Exit) return end.status;
    throw end;
  }
}
