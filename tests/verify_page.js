// Runs the verifier of tools/verify.html without a browser, for tests/verifiers.py.
//
//     node tests/verify_page.js < TASKS > RESULTS
//
// Both are JSON lists. Bytes are hexadecimal digits. A task is one of
//   {"do":"check","published":null or hex,"bundle":hex}    the status and the line
//   {"do":"value","text":hex}                              the first value as written, its serialization and its hash, or the fault
//   {"do":"sha256","data":hex}                             a hash
//   {"do":"dot","pair":[hex,hex]}                          a hash
//   {"do":"fold","hashes":[hex,..]}                        the dot of the first two, of that and the third, and so on
//   {"do":"hash","text":hex}                               the hash of the first value, which may nest 256 deep
"use strict";
const fs = require("fs");
const path = require("path");

const page = fs.readFileSync(path.join(__dirname, "..", "tools", "verify.html"), "utf8");
const script = /<script id="verifier">([^]*?)<\/script>/.exec(page)[1];
const verifier = new Function(script + "; return LedgerVerify;")();
const bytes = (hex) => Uint8Array.from(Buffer.from(hex, "hex"));

const TASKS = {
  check({ published, bundle }) {
    const { status, line } = verifier.check(published === null ? null : bytes(published), bytes(bundle));
    return { status, line };
  },
  value({ text }) {
    try {
      const [value] = verifier.readValues(bytes(text));
      const [serialization, hash] = [verifier.serialized(value), verifier.hashOf(value)].map(verifier.hex);
      return { written: verifier.written(value), serialization, hash };
    } catch (fault) {
      if (!(fault instanceof verifier.Unread)) throw fault;
      return { at: fault.at, kind: fault.kind };
    }
  },
  sha256: ({ data }) => verifier.hex(verifier.sha256(bytes(data))),
  dot: ({ pair }) => verifier.hex(verifier.dot(...pair.map(bytes))),
  fold: ({ hashes }) => verifier.hex(hashes.map(bytes).reduce(verifier.dot)),
  hash: ({ text }) => verifier.hex(verifier.hashOf(verifier.readValues(bytes(text), 256)[0])),
};

const tasks = JSON.parse(fs.readFileSync(0, "utf8"));
process.stdout.write(JSON.stringify(tasks.map((task) => TASKS[task.do](task))));
