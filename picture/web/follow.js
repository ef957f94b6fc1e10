"use strict";
// Follows what a run writes, while it goes on: reads its trace line by line, and reports the turns that are over.

const MOST_TRACE = 256 << 20, EVERY = 200; // bytes of a trace, and milliseconds between two reports

// The text of bytes that come in pieces, line by line.
class Lines {
  constructor(onLine) {
    Object.assign(this, { onLine, decoder: new TextDecoder(), rest: "", bytes: new Uint8Array(1 << 16), count: 0 });
  }

  add(bytes) {
    if (bytes.length > this.bytes.length - this.count) this.flush();
    if (bytes.length > this.bytes.length) return this.take(bytes);
    this.bytes.set(bytes, this.count);
    this.count += bytes.length;
  }

  flush() {
    this.take(this.bytes.subarray(0, this.count));
    this.count = 0;
  }

  take(bytes) {
    const lines = (this.rest + this.decoder.decode(bytes, { stream: true })).split("\n");
    this.rest = lines.pop();
    lines.forEach(this.onLine);
  }

  // No more comes: a last line may lack its end.
  end() {
    this.flush();
    if (this.rest) this.onLine(this.rest);
  }
}

// What a run is asked to report: `report` gets each piece of its output, and how far it is.
class Follower {
  constructor(report) {
    Object.assign(this, { report, reader: new TraceReader(), turns: 0, calls: 0, length: 0, last: performance.now(), failure: "" });
    this.lines = new Lines((line) => this.add(line));
  }

  written(stream, bytes) {
    if (stream === 1) return this.report({ out: bytes.slice() });
    this.length += bytes.length;
    if (this.length > MOST_TRACE) throw new TooLong();
    // Where it is shown how far a run without a trace is, that line ends in no newline.
    if (bytes[0] === 13) return this.report({ far: new TextDecoder().decode(bytes).replace(/\r|\x1b\[K/g, "") });
    this.lines.add(bytes);
    if (performance.now() - this.last > EVERY) this.tell(false);
  }

  add(line) {
    if (this.failure) return;
    try {
      this.reader.add(line);
    } catch (why) {
      if (!(why instanceof Unreadable)) throw why;
      this.failure = why.message;
    }
  }

  // Reports the turns that are over. Those that were reported aren't kept.
  tell(isOver) {
    if (isOver) this.lines.end();
    const { reader } = this, names = [...reader.names.keys()], upto = isOver ? reader.turns.length : Math.max(this.turns, reader.turns.length - 1);
    this.report({ turns: reader.turns.slice(this.turns, upto), calls: names.slice(this.calls), processes: reader.processes, said: isOver ? reader.said : [], far: reader.turns.length ? `turn ${reader.turns.length}` : "" });
    reader.turns.fill(null, this.turns, upto);
    Object.assign(this, { turns: upto, calls: names.length, last: performance.now() });
  }
}

// A trace that is too long to be kept.
class TooLong extends Error {}
