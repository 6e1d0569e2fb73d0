// Headless browsers for the page's test, with the same methods: Chromium, by its pipe, and Firefox, by its socket.
// Both report every request and every failure of a script, pick files as a person does, and press keys.
import { spawn } from 'node:child_process';
import { randomBytes } from 'node:crypto';
import { mkdirSync, readdirSync, readFileSync, statSync, writeFileSync } from 'node:fs';
import { request } from 'node:http';
import { basename, join } from 'node:path';
import { setTimeout } from 'node:timers/promises';

// How many milliseconds the test waits for a result, on a machine that may be busy with proofs.
export const PATIENCE = 120_000;

/** Waits until a function returns something, and returns that. */
export async function waited(what, find) {
    for (const end = Date.now() + PATIENCE; Date.now() < end; await setTimeout(20)) {
        const found = await find();
        if (found) return found;
    }
    throw new Error(`not so after ${PATIENCE / 1000} seconds: ${what}`);
}

// A WebSocket for texts (RFC 6455). Node 20 has one by an option alone, which stops after 4,096 messages.
class Socket {
    #rest = Buffer.alloc(0);
    #parts = [];

    constructor(receive) { this.receive = receive; }

    connect(url) {
        const headers = { Connection: 'Upgrade', Upgrade: 'websocket', 'Sec-WebSocket-Version': 13,
            'Sec-WebSocket-Key': randomBytes(16).toString('base64') };
        return new Promise((resolve, reject) => {
            request(url.replace(/^ws:/, 'http:'), { headers }).on('error', reject)
                .on('upgrade', (response, stream, head) => {
                this.stream = stream;
                stream.on('data', (data) => this.#read(data)).on('error', () => {});
                this.#read(head);
                resolve();
            }).end();
        });
    }

    // Sends a text in one frame, masked as a client's must be.
    send(text) {
        const content = Buffer.from(text), { length } = content, mask = randomBytes(4);
        const head = length < 126 ? Buffer.from([0x81, 0x80 | length]) : Buffer.alloc(length < 0x10000 ? 4 : 10);
        if (length >= 126) head.writeUInt16BE(0x8180 | (length < 0x10000 ? 126 : 127));
        if (length >= 0x10000) head.writeBigUInt64BE(BigInt(length), 2);
        else if (length >= 126) head.writeUInt16BE(length, 2);
        for (let at = 0; at < length; at++) content[at] ^= mask[at % 4];
        this.stream.write(Buffer.concat([head, mask, content]));
    }

    // Reads the complete frames, which a server doesn't mask.
    #read(data) {
        this.#rest = Buffer.concat([this.#rest, data]);
        for (;;) {
            const rest = this.#rest, short = rest[1], start = short === 127 ? 10 : short === 126 ? 4 : 2;
            if (rest.length < start) return;
            const length = short === 127 ? Number(rest.readBigUInt64BE(2))
                : short === 126 ? rest.readUInt16BE(2) : short;
            if (rest.length < start + length) return;
            this.#rest = rest.subarray(start + length);
            this.#take(rest[0], rest.subarray(start, start + length));
        }
    }

    // Reads a frame: a text or a part of it, unless it is a control frame such as a ping.
    #take(first, content) {
        if ((first & 0x0f) > 1) return;
        this.#parts.push(content);
        if (!(first & 0x80)) return;
        this.receive(Buffer.concat(this.#parts.splice(0)).toString());
    }
}

class Browser {
    requests = [];
    faults = [];
    /** The messages of the browser on what the page's policy blocks. In Chromium also its other messages. */
    refusals = [];
    #waiting = [];

    constructor(folder) {
        this.downloads = join(folder, 'downloads');
        this.profile = join(folder, 'profile');
        for (const path of [this.downloads, this.profile]) mkdirSync(path);
    }

    /** Returns the browser's answer to a message, which `send` sends with a number, and whose answer has it. */
    call(message) {
        return new Promise((resolve, reject) => {
            this.send({ id: this.#waiting.push({ resolve, reject }), ...message });
        });
    }

    /** Takes a message of the browser: an answer, or an event, which `heard` takes. */
    receive({ id, method, params, result, error, message }) {
        if (!id) { this.heard(method, params); return; }
        const { resolve, reject } = this.#waiting[id - 1];
        if (error) reject(new Error(message ?? error.message)); else resolve(result);
    }

    /** Returns the value of an expression, which may be a promise. */
    async evaluate(expression) {
        return JSON.parse(await this.run(`(async () => JSON.stringify(await (${expression})) ?? 'null')()`));
    }

    /** Returns what the browser's processes take by now: bytes of memory, and seconds of processors. */
    cost() {
        const read = (id, name) => { try { return readFileSync(`/proc/${id}/${name}`, 'utf8'); } catch { return ''; } };
        const all = new Map(readdirSync('/proc').filter(Number)
            .map((id) => [id, read(id, 'stat').split(') ').at(-1).split(' ')]));
        const is_own = (id) => Number(id) === this.process.pid || (all.has(id) && is_own(all.get(id)[1]));
        const own = [...all.keys()].filter(is_own), sum = (of) => own.reduce((total, id) => total + (of(id) || 0), 0);
        return { memory: 1024 * sum((id) => Number(/^Pss: +(\d+)/m.exec(read(id, 'smaps_rollup'))?.[1])),
            seconds: sum((id) => (Number(all.get(id)[11]) + Number(all.get(id)[12])) / 100) };
    }

    /** Waits until an expression is true. */
    until(expression) { return waited(expression, () => this.evaluate(expression)); }

    async end() {
        const ended = new Promise((resolve) => this.process.on('exit', resolve));
        this.process.kill();
        await ended;
    }
}

const KEYS = { Enter: 13, Tab: 9 };

export class Chromium extends Browser {
    static title = 'Chromium';

    async start(program) {
        const options = ['--headless', '--no-sandbox', '--disable-gpu', '--remote-debugging-pipe',
            `--user-data-dir=${this.profile}`];
        this.process = spawn(program, options, { stdio: ['ignore', 'ignore', 'ignore', 'pipe', 'pipe'] });
        this.send = (message) => this.process.stdio[3].write(`${JSON.stringify(message)}\0`);
        let rest = '';
        this.process.stdio[4].on('data', (data) => {
            const parts = (rest + data).split('\0');
            rest = parts.pop();
            parts.forEach((part) => this.receive(JSON.parse(part)));
        });
        const { targetId } = await this.#ask('Target.createTarget', { url: 'about:blank' }, undefined);
        this.tab = (await this.#ask('Target.attachToTarget', { targetId, flatten: true }, undefined)).sessionId;
        await this.#watch(this.tab);
        await this.#ask('Page.enable');
        await this.#ask('Browser.setDownloadBehavior', { behavior: 'allow', downloadPath: this.downloads }, undefined);
    }

    #ask(method, params = {}, sessionId = this.tab) { return this.call({ method, params, sessionId }); }

    heard(method, params) {
        if (method === 'Network.requestWillBeSent') this.requests.push(params.request.url);
        if (method === 'Runtime.exceptionThrown')
            this.faults.push(params.exceptionDetails.exception?.description ?? params.exceptionDetails.text);
        // (without hints on rendering)
        if (method === 'Log.entryAdded' && params.entry.source !== 'rendering') this.refusals.push(params.entry.text);
        // (a worker may end before it is watched)
        if (method === 'Target.attachedToTarget')
            this.#watch(params.sessionId).catch(({ message }) => /^Session/.test(message) || this.faults.push(message));
    }

    // Subscribes to the requests and failures of a page, and to its workers before they start.
    async #watch(session) {
        const ask = (method, given = {}) => this.#ask(method, given, session);
        await Promise.all([ask('Network.enable'), ask('Runtime.enable'), ask('Log.enable'),
            ask('Target.setAutoAttach', { autoAttach: true, waitForDebuggerOnStart: true, flatten: true })]);
        await ask('Runtime.runIfWaitingForDebugger');
    }

    /** Runs a script before the scripts of each page. */
    async before_pages(script) {
        const { identifier } = await this.#ask('Page.addScriptToEvaluateOnNewDocument', { source: script });
        return () => this.#ask('Page.removeScriptToEvaluateOnNewDocument', { identifier });
    }

    async open(url) {
        await this.#ask('Page.navigate', { url: 'about:blank' });
        await this.#ask('Page.navigate', { url });
        await this.until(`document.readyState === 'complete' && location.href === ${JSON.stringify(url)}`);
    }

    async run(expression) {
        const { result, exceptionDetails } =
            await this.#ask('Runtime.evaluate', { expression, awaitPromise: true, userGesture: true });
        if (exceptionDetails) throw new Error(exceptionDetails.exception?.description ?? exceptionDetails.text);
        return result.value;
    }

    async pick(selector, path) {
        const { root } = await this.#ask('DOM.getDocument');
        const { nodeId } = await this.#ask('DOM.querySelector', { nodeId: root.nodeId, selector });
        await this.#ask('DOM.setFileInputFiles', { files: [path], nodeId });
    }

    async press(...keys) {
        for (const key of keys) {
            const given = { key, code: key, windowsVirtualKeyCode: KEYS[key],
                text: key === 'Enter' ? '\r' : undefined };
            await this.#ask('Input.dispatchKeyEvent', { type: 'keyDown', ...given });
            await this.#ask('Input.dispatchKeyEvent', { type: 'keyUp', key, code: key });
        }
    }

    #mouse(type, [x, y], given) { return this.#ask('Input.dispatchMouseEvent', { type, x, y, ...given }); }
    point(...place) { return this.#mouse('mouseMoved', place); }
    wheel(x, y, deltaY) { return this.#mouse('mouseWheel', [x, y], { deltaX: 0, deltaY }); }
    drag(from, to) {
        const act = (type, place) => this.#mouse(type, place, { button: 'left', buttons: 1, clickCount: 1 });
        return Promise.all([act('mousePressed', from), act('mouseMoved', to), act('mouseReleased', to)]);
    }

    resize(width, height) {
        return this.#ask('Emulation.setDeviceMetricsOverride', { width, height, deviceScaleFactor: 1, mobile: false });
    }
    theme(value) {
        return this.#ask('Emulation.setEmulatedMedia', { features: [{ name: 'prefers-color-scheme', value }] });
    }
    async print() { return Buffer.from((await this.#ask('Page.printToPDF')).data, 'base64'); }

    async drop(...files) {
        const data = { items: [], files, dragOperationsMask: 1 };
        for (const type of ['dragEnter', 'dragOver', 'drop'])
            await this.#ask('Input.dispatchDragEvent', { type, x: 300, y: 300, data });
    }
}

const NAMED_KEYS = { Enter: '\uE007', Tab: '\uE004', ArrowLeft: '\uE012', ArrowUp: '\uE013', ArrowRight: '\uE014',
    ArrowDown: '\uE015', PageDown: '\uE00F' };

export class Firefox extends Browser {
    static title = 'Firefox';

    async start(program) {
        const preferences = {
            'browser.download.folderList': 2, 'browser.download.dir': this.downloads,
            'browser.download.useDownloadDir': true, 'browser.helperApps.neverAsk.saveToDisk': 'text/csv',
            'browser.shell.checkDefaultBrowser': false, 'datareporting.policy.dataSubmissionEnabled': false,
            'remote.prefs.recommended': true,
        };
        const lines = Object.entries(preferences)
            .map(([name, value]) => `user_pref(${JSON.stringify(name)}, ${JSON.stringify(value)});\n`);
        writeFileSync(join(this.profile, 'user.js'), lines.join(''));
        const options = ['--headless', '--no-remote', '--remote-debugging-port', '0', '--profile',
            this.profile, 'about:blank'];
        this.process = spawn(program, options,
            { stdio: ['ignore', 'ignore', 'pipe'], env: { ...process.env, HOME: this.profile } });
        const socket = new Socket((text) => this.receive(JSON.parse(text)));
        await socket.connect(`${await this.#address()}/session`);
        this.send = (message) => socket.send(JSON.stringify(message));
        await this.#ask('session.new', { capabilities: {} });
        await this.#ask('session.subscribe', { events: ['network.beforeRequestSent', 'log.entryAdded'] });
        this.tab = (await this.#ask('browsingContext.getTree')).contexts[0].context;
    }

    // Returns the address at which the browser listens, which it prints.
    #address() {
        return new Promise((resolve, reject) => {
            let text = '';
            this.process.stderr.on('data', (data) => {
                text += data;
                const found = /WebDriver BiDi listening on (ws:\S+)/.exec(text);
                if (found) resolve(found[1]);
            });
            this.process.on('exit', () => reject(new Error(`Firefox ends: ${text}`)));
        });
    }

    #ask(method, params = {}) { return this.call({ method, params }); }
    #in_tab(method, params) { return this.#ask(method, { context: this.tab, ...params }); }

    heard(method, params) {
        if (method === 'network.beforeRequestSent') this.requests.push(params.request.url);
        if (method !== 'log.entryAdded' || params.type !== 'javascript' || params.level !== 'error') return;
        (params.text.startsWith('Content-Security-Policy') ? this.refusals : this.faults).push(params.text);
    }

    async before_pages(script) {
        const { script: id } =
            await this.#ask('script.addPreloadScript', { functionDeclaration: `() => { ${script} }` });
        return () => this.#ask('script.removePreloadScript', { script: id });
    }

    async open(url) {
        for (const to of ['about:blank', url])
            await this.#in_tab('browsingContext.navigate', { url: to, wait: 'complete' });
    }

    async run(expression) {
        const answer = await this.#ask('script.evaluate',
            { expression, target: { context: this.tab }, awaitPromise: true, userActivation: true });
        if (answer.type === 'exception') throw new Error(answer.exceptionDetails.text);
        return answer.result.value;
    }

    async pick(selector, path) {
        const { nodes: [{ sharedId }] } =
            await this.#in_tab('browsingContext.locateNodes', { locator: { type: 'css', value: selector } });
        await this.#in_tab('input.setFiles', { element: { sharedId }, files: [path] });
    }

    #act(type, ...actions) { return this.#in_tab('input.performActions', { actions: [{ type, id: type, actions }] }); }
    #at(type, [x, y], given) { return { type, x: Math.round(x), y: Math.round(y), ...given }; }
    press(...keys) {
        return this.#act('key', ...keys.flatMap((key) => ['keyDown', 'keyUp']
            .map((type) => ({ type, value: NAMED_KEYS[key] ?? key }))));
    }
    point(...place) { return this.#act('pointer', this.#at('pointerMove', place)); }
    wheel(x, y, deltaY) { return this.#act('wheel', this.#at('scroll', [x, y], { deltaX: 0, deltaY })); }
    drag(...places) {
        const [from, to] = places.map((place) => this.#at('pointerMove', place));
        return this.#act('pointer', from, { type: 'pointerDown', button: 0 }, to, { type: 'pointerUp', button: 0 });
    }
    resize(width, height) { return this.#in_tab('browsingContext.setViewport', { viewport: { width, height } }); }
    async print() { return Buffer.from((await this.#in_tab('browsingContext.print')).data, 'base64'); }

    // (Firefox lets no test drop what is on the disk, so the event is made up)
    async drop(...paths) {
        const given = paths.map((path) => [basename(path), statSync(path).isDirectory()]);
        await this.run(`(() => {
            const given = ${JSON.stringify(given)}, files = given.map(([name]) => new File(['no ELF file'], name)),
                items = given.map(([, isDirectory]) => ({ webkitGetAsEntry: () => ({ isDirectory }) }));
            dispatchEvent(Object.assign(new Event('drop', { cancelable: true }),
                { dataTransfer: { types: ['Files'], files, items } }));
        })()`);
    }
}
