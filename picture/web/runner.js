"use strict";
// Runs the program beside the page, in a worker, so that the page answers meanwhile and a run can be stopped.

class Runner {
  // The worker's code, and the compiled module.
  constructor(code, module) {
    Object.assign(this, { place: URL.createObjectURL(new Blob([code], { type: "text/javascript" })), module, worker: null, number: 0, ask: null });
  }

  start() {
    this.worker = new Worker(this.place);
    this.worker.onmessage = ({ data }) => this.ask && data.number === this.ask.number && this.take(data);
    this.worker.onerror = (event) => this.ask && this.end({ failure: event.message || "the worker can't run" });
    this.worker.postMessage({ module: this.module });
  }

  // Runs the program by these words, and answers what came of it: { status or failure, out, events, isStopped }. `onFar` hears how far it is. A run
  // that is under way is stopped.
  run({ words, script, memory, isWhole = false }, onFar = () => {}) {
    if (this.ask) this.stop();
    if (!this.worker) this.start();
    this.number += 1;
    return new Promise((done) => {
      this.ask = { number: this.number, done, onFar, out: [], events: { processes: 0, calls: [], turns: [], said: [] } };
      this.worker.postMessage({ number: this.number, words, script: new TextEncoder().encode(script), memory, isWhole });
    });
  }

  take(told) {
    if ("status" in told || "failure" in told) return this.end(told);
    const { events, out } = this.ask;
    if (told.out) out.push(told.out);
    if (told.turns) {
      events.turns = events.turns.concat(told.turns);
      events.calls.push(...told.calls);
      Object.assign(events, { processes: told.processes, said: told.said });
    }
    if (told.far) this.ask.onFar(told.far);
  }

  end(told) {
    const { done, out, events } = this.ask, decoder = new TextDecoder();
    this.ask = null;
    if ("failure" in told) this.close();
    done({ isStopped: false, out: out.map((bytes) => decoder.decode(bytes, { stream: true })).join(""), events, ...told });
  }

  // Ends a run that is under way: what it has reported so far is its answer.
  stop() {
    this.close();
    if (this.ask) this.end({ failure: "stopped", isStopped: true });
  }

  close() {
    if (this.worker) this.worker.terminate();
    this.worker = null;
  }
}
