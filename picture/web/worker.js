"use strict";
// The worker of a page: it runs the program, one run after the other. A message { module } comes first; then each { number, words, script, memory, isWhole }
// is a run, and is answered by reports { number, .. }, of which the last has `status` or `failure`. `isWhole` asks for all that the program writes as text.

let program = null;

onmessage = ({ data }) => {
  if (data.module) program = data.module;
  else answer(data);
};

function answer(asked) {
  const report = (told) => postMessage({ number: asked.number, ...told });
  try {
    report(asked.isWhole ? whole(asked) : followed(asked, report));
  } catch (why) {
    report({ failure: why.message || String(why), isTooLong: why instanceof TooLong });
  }
}

// A run that is followed: its last report has its status.
function followed(asked, report) {
  const follower = new Follower(report);
  const isTerminal = !asked.words.includes("--trace"), status = runProgram(program, { ...asked, isTerminal }, (stream, bytes) => follower.written(stream, bytes));
  follower.tell(true);
  return { status, unread: follower.failure };
}

// All that a run writes, as text.
function whole(asked) {
  const texts = ["", "", ""], decoders = [null, new TextDecoder(), new TextDecoder()];
  const status = runProgram(program, asked, (stream, bytes) => (texts[stream] += decoders[stream].decode(bytes, { stream: true })));
  return { status, out: texts[1], err: texts[2] };
}
