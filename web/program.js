// The program in a worker: one question at a time, and a new worker where work is stopped.

/** What a question ends with where it was stopped. */
export class Stopped extends Error {}

export class Program {
    /** `source` is the text of the worker, `module` the compiled program. */
    constructor(source, module) {
        this.address = URL.createObjectURL(new Blob([source], { type: 'text/javascript' }));
        this.module = module;
        this.asked = null;
        this.number = 0;
        this.start();
    }

    start() {
        this.worker = new Worker(this.address);
        this.worker.onmessage = ({ data }) => this.hear(data);
        this.worker.onerror = (event) => this.hear({ number: this.number, fault: event.message });
        this.worker.postMessage({ module: this.module });
    }

    get busy() {
        return this.asked !== null;
    }

    hear(data) {
        if (!this.asked || data.number !== this.number) return;
        if (data.progress) {
            this.asked.told(data.progress);
            return;
        }
        const { resolve, reject } = this.asked;
        this.asked = null;
        if (data.fault) reject(new Error(data.fault));
        else resolve(data.answer);
    }

    /**
     * What the program answers to words and to the contents of the files that they name, in order: {status, output, message, milliseconds}.
     * `told` hears how far the work is. What is asked before is stopped.
     */
    ask(words, contents, told = () => {}) {
        if (this.asked) this.stop();
        this.number += 1;
        return new Promise((resolve, reject) => {
            this.asked = { resolve, reject, told };
            this.worker.postMessage({ number: this.number, words, contents });
        });
    }

    /** Ends the worker with its work, and starts a new one. */
    stop() {
        this.worker.terminate();
        const { asked } = this;
        this.asked = null;
        this.start();
        asked?.reject(new Stopped());
    }
}
