// node digest.js FILE.wasm ROUNDS: prints the digest of so many rounds, done by the libraries as WebAssembly.
const fs = require("fs");

WebAssembly.instantiate(fs.readFileSync(process.argv[2])).then(({ instance: { exports } }) => {
    const sum = exports.digest(Number(process.argv[3])) >>> 0;
    const counts = new Uint32Array(exports.memory.buffer);
    const [done, refused] = [exports.digest_done, exports.digest_refused].map((place) => counts[place.value / 4]);
    console.log(`${sum.toString(16).padStart(8, "0")}, ${done} done, ${refused} refused`);
});
