"""A real compiler of WGSL: Tint, in a browser without a screen, on SwiftShader."""

import http.server
import json
import subprocess
import tempfile
import threading
import time

FLAGS = ["--headless", "--no-sandbox", "--enable-unsafe-webgpu", "--use-webgpu-adapter=swiftshader", "--enable-features=Vulkan"]
SECONDS = 300
PAGE = """<!doctype html><meta charset="utf-8"><script>
async function judge(device, unit) {
    const shader = device.createShaderModule({code: unit.text});
    const info = await shader.getCompilationInfo();
    const found = info.messages.map(one => ({type: one.type, line: one.lineNum, column: one.linePos, text: one.message}));
    if (found.some(one => one.type === "error")) return found;
    for (const entry of unit.compute) {
        try {
            await device.createComputePipelineAsync({layout: "auto", compute: {module: shader, entryPoint: entry}});
        } catch (fault) {
            found.push({type: "error", line: 0, column: 0, text: `pipeline of ${entry}: ${fault.message}`});
        }
    }
    return found;
}
async function results(device, unit) {
    const shader = device.createShaderModule({code: unit.text});
    const pipeline = await device.createComputePipelineAsync({layout: "auto", compute: {module: shader, entryPoint: unit.run.entry}});
    const size = 4096, use = GPUBufferUsage;
    const data = device.createBuffer({size, usage: use.STORAGE | use.COPY_SRC | use.COPY_DST});
    device.queue.writeBuffer(data, 0, new Uint32Array(unit.run.input));
    const group = device.createBindGroup({layout: pipeline.getBindGroupLayout(0), entries: [{binding: 0, resource: {buffer: data}}]});
    const encoder = device.createCommandEncoder();
    const pass = encoder.beginComputePass();
    pass.setPipeline(pipeline);
    pass.setBindGroup(0, group);
    pass.dispatchWorkgroups(1);
    pass.end();
    const copy = device.createBuffer({size, usage: use.MAP_READ | use.COPY_DST});
    encoder.copyBufferToBuffer(data, 0, copy, 0, size);
    device.queue.submit([encoder.finish()]);
    await copy.mapAsync(GPUMapMode.READ);
    return [...new Uint32Array(copy.getMappedRange())];
}
async function all() {
    const told = {messages: {}, results: {}};
    try {
        const adapter = await navigator.gpu.requestAdapter();
        told.adapter = `${adapter.info.vendor} ${adapter.info.architecture}`;
        const device = await adapter.requestDevice({requiredFeatures: [...adapter.features]});
        for (const unit of await (await fetch("/units")).json()) {
            const found = told.messages[unit.name] = await judge(device, unit);
            if (!unit.run || found.some(one => one.type === "error")) continue;
            try {
                told.results[unit.name] = await results(device, unit);
            } catch (fault) {
                found.push({type: "error", line: 0, column: 0, text: `run of ${unit.run.entry}: ${fault.message}`});
            }
        }
    } catch (fault) {
        told.fault = String(fault);
    }
    await fetch("/told", {method: "POST", body: JSON.stringify(told)});
}
all();
</script>"""


class Served(http.server.BaseHTTPRequestHandler):
    """Hands out the page and the units, and takes what the page tells."""

    def answer(self, kind, data):
        self.send_response(200)
        self.send_header("Content-Type", kind)
        self.send_header("Content-Length", str(len(data)))
        self.end_headers()
        self.wfile.write(data)

    def do_GET(self):
        if self.path == "/units":
            self.answer("application/json", json.dumps(self.server.units).encode())
        else:
            self.answer("text/html", PAGE.encode())

    def do_POST(self):
        self.server.told = json.loads(self.rfile.read(int(self.headers["Content-Length"])))
        self.answer("text/plain", b"")
        self.server.done.set()

    def log_message(self, *_):
        pass


class BrowserFault(Exception):
    """The browser could not judge."""


def judged(browser, units):
    """What the compiler says of each unit (`name`, `text`, the names of its entry points of `compute`, and perhaps a `run`): its
    `messages` by the name, what the buffer at group 0, binding 0 holds after the run in `results`, and the `adapter`."""
    server = http.server.ThreadingHTTPServer(("127.0.0.1", 0), Served)
    server.units, server.told, server.done = units, None, threading.Event()
    threading.Thread(target=server.serve_forever, daemon=True).start()
    with tempfile.TemporaryDirectory(ignore_cleanup_errors=True) as profile:
        command = [browser, *FLAGS, f"--user-data-dir={profile}", f"http://127.0.0.1:{server.server_port}/"]
        process = subprocess.Popen(command, stdout=subprocess.DEVNULL, stderr=subprocess.DEVNULL)
        end = time.monotonic() + SECONDS
        while not server.done.wait(1) and process.poll() is None and time.monotonic() < end:
            pass
        process.terminate()
        process.wait()
    server.shutdown()
    if server.told is None:
        raise BrowserFault(f"the browser ended, or took more than {SECONDS} seconds; try it by hand: {' '.join(command)}")
    if "fault" in server.told:
        raise BrowserFault(server.told["fault"])
    return server.told
