// The worker that runs the program: for each question a fresh instance of the module, whose memory holds nothing of earlier ones.
//
// The module's one call (crates/tmpl_page) takes texts that stand one behind the other, their lengths, how many of them are words, room for
// the output with the message behind it, and a record: how far the work is, in four numbers of 32 bits, and how long output and message are.
let module = null;

const PAGE = 65536;
const TOLD = 32;

/** Takes more of the memory, behind what the module has, and gives its place. */
function take(memory, bytes) {
    const pages = Math.ceil(bytes / PAGE);
    return Number(memory.grow(BigInt(pages))) * PAGE;
}

/** What the module calls now and then while it works: says how far it is, at most ten times a second. */
function watcher(number) {
    const watch = { memory: null, told: 0, said: performance.now() };
    watch.look = () => {
        if (performance.now() < watch.said + 100) return;
        watch.said = performance.now();
        const [round, raised, turn, pivots] = new Uint32Array(watch.memory.buffer, watch.told, 4);
        self.postMessage({ number, progress: { round, raised, turn, pivots } });
    };
    return watch;
}

/** The answer, with so many bytes of room for what is written; where that is too little, how much is needed. */
function answered(number, words, contents, room) {
    const watch = watcher(number);
    const { exports } = new WebAssembly.Instance(module, { page: { look: () => watch.look() } });
    const { memory } = exports;
    const encoder = new TextEncoder();
    const texts = [...words.map((word) => encoder.encode(word)), ...contents];
    const total = texts.reduce((sum, text) => sum + text.length, 0);
    const told = take(memory, TOLD + 8 * texts.length + total + room);
    const lengths = told + TOLD;
    const first = lengths + 8 * texts.length;
    const bytes = new Uint8Array(memory.buffer);
    let place = first;
    for (const text of texts) {
        bytes.set(text, place);
        place += text.length;
    }
    new BigUint64Array(memory.buffer, lengths, texts.length).set(texts.map((text) => BigInt(text.length)));
    Object.assign(watch, { memory, told });
    const status = exports.tmpl_page_answer(...[first, total, lengths, texts.length, words.length, place, room, told].map(BigInt));
    const [output, message] = [...new BigUint64Array(memory.buffer, told + 16, 2)].map(Number);
    if (output + message > room) return { needed: output + message };
    const written = new Uint8Array(memory.buffer).slice(place, place + output + message);
    return { status, output: written.slice(0, output), message: new TextDecoder().decode(written.subarray(output)) };
}

self.onmessage = ({ data }) => {
    if (data.module) {
        module = data.module;
        return;
    }
    const { number, words, contents } = data;
    const begun = performance.now();
    try {
        let answer = answered(number, words, contents, 1 << 24);
        if (answer.needed) answer = answered(number, words, contents, answer.needed);
        answer.milliseconds = performance.now() - begun;
        self.postMessage({ number, answer }, [answer.output.buffer]);
    } catch (error) {
        self.postMessage({ number, fault: String(error.message ?? error) });
    }
};
