// Tests of vscode/extension.js against an editor of our own: node editors/vscode_test.js
"use strict";
const assert = require("assert");
const Module = require("module");
const { EventEmitter } = require("events");

const calls = [];
const note = (name, answer) => (...given) => {
  calls.push([name, ...given]);
  return answer;
};
const registered = {};
const register = (name) => (kind, made) => (registered[name === "command" ? kind : name] = made);
const vscode = {
  workspace: {
    getConfiguration: () => ({ get: () => "/opt/actrun" }),
    getWorkspaceFolder: () => ({ uri: { fsPath: "/repo" } }),
    openTextDocument: async (uri) => ({ getText: () => uri.text }),
  },
  window: { showErrorMessage: note("error"), showInformationMessage: note("say") },
  debug: {
    activeDebugConsole: { appendLine: note("line") },
    startDebugging: note("start", true),
    registerDebugAdapterDescriptorFactory: register("factory"),
    registerDebugAdapterTrackerFactory: register("tracker"),
    registerDebugConfigurationProvider: register("provider"),
  },
  languages: { registerCodeLensProvider: register("lenses") },
  commands: { registerCommand: register("command") },
  env: { openExternal: note("open") },
  Uri: { file: (name) => ({ fsPath: name }) },
  EventEmitter: class extends EventEmitter {
    fire() {
      calls.push(["changed"]);
    }
  },
  CodeLens: class {
    constructor(range, command) {
      Object.assign(this, { range, command });
    }
  },
  Range: class {
    constructor(line) {
      this.line = line;
    }
  },
  DebugAdapterExecutable: class {
    constructor(command, words) {
      Object.assign(this, { command, words });
    }
  },
};
const load = Module._load;
const started = [];
let page = (done) => done(null, "/repo/report.html\n", "");
Module._load = (name, ...more) => {
  if (name === "vscode") return vscode;
  if (name === "child_process") {
    return { execFile: (command, words, options, done) => started.push([command, ...words]) && page(done) };
  }
  return load(name, ...more);
};
const extension = require("./vscode/extension.js");

const WORKFLOW = "on:\n  pull_request:\n    branches: [main]\njobs:\n  a:\n    steps: []\n";
const events = [
  ["on: push\njobs:", "push"], ["on: [pull_request, push]\n", "push"], [WORKFLOW, "pull_request"], ["jobs:\n", "push"],
  ["'on': workflow_dispatch\n", "workflow_dispatch"], ["on:\n- schedule\n- push\n", "push"], ["on:\n# push\n  schedule:\n    - cron: x\n", "schedule"],
  ["on: # all\n  workflow_dispatch:\n    inputs:\n      push: {}\n", "workflow_dispatch"],
];
for (const [text, event] of events) assert.strictEqual(extension.eventOf(text), event, text);
assert.strictEqual(extension.lineOfJobs(WORKFLOW), 3);
assert.strictEqual(extension.lineOfJobs("a: 1\n"), -1);

async function main() {
  const context = { subscriptions: [] };
  extension.activate(context);
  assert.strictEqual(context.subscriptions.length, 7);
  assert.deepStrictEqual({ ...registered.factory.createDebugAdapterDescriptor() }, { command: "/opt/actrun", words: ["dap"] });

  const uri = { fsPath: "/repo/.github/workflows/ci.yml", text: WORKFLOW };
  await registered["actrun.debugWorkflow"](uri);
  const [, , given] = calls.pop();
  assert.deepStrictEqual(given, { type: "actrun", request: "launch", name: "Debug ci.yml", live: true, program: "/repo",
    event: "pull_request", options: ["--workflows", uri.fsPath] });

  registered["actrun.openLast"](uri);
  assert.deepStrictEqual(started.pop(), ["/opt/actrun", "open", "-C", "/repo"]);
  assert.deepStrictEqual(calls.pop(), ["open", { fsPath: "/repo/report.html" }]);
  page = (done) => done(new Error("status 3"), "", "actrun: open: no execution of /repo is kept\n");
  registered["actrun.openLast"](uri);
  assert.deepStrictEqual(calls.pop(), ["error", "actrun: open: no execution of /repo is kept"]);

  const document = { uri, getText: () => WORKFLOW };
  const titles = () => registered.lenses.provideCodeLenses(document).map((lens) => `${lens.range.line} ${lens.command.title}`);
  assert.deepStrictEqual(titles(), ["3 Debug this workflow", "3 Open last execution"]);
  const session = { customRequest: async (name, asked) => ({ result: `${name} ${asked.expression} ${asked.frameId}` }) };
  const tracker = registered.tracker.createDebugAdapterTracker(session);
  tracker.onWillStartSession();
  const stack = (id) => ({ type: "response", command: "stackTrace", success: true,
    body: { stackFrames: [{ id, line: 5, source: { path: uri.fsPath } }] } });
  tracker.onDidSendMessage({ type: "event", event: "stopped", body: { reason: "step" } });
  tracker.onDidSendMessage(stack(1));
  assert.strictEqual(titles().length, 2);
  tracker.onDidSendMessage({ type: "event", event: "stopped", body: { reason: "exception" } });
  tracker.onDidSendMessage(stack(2));
  assert.deepStrictEqual(titles().slice(2), ["4 Why?"]);
  vscode.debug.activeDebugSession = session;
  await registered["actrun.why"](uri, 5);
  assert.deepStrictEqual(calls.pop(), ["say", "evaluate why 2", { modal: true }]);
  vscode.debug.activeDebugSession = undefined;
  await registered["actrun.why"](uri, 5);
  assert.strictEqual(calls.pop()[2].record, "--last");

  const folder = { uri: { fsPath: "/repo" } };
  const resolve = registered.provider.resolveDebugConfiguration;
  assert.strictEqual(resolve(folder, {}).live, true);
  assert.strictEqual(resolve(undefined, {}), undefined);
  assert.strictEqual(resolve(folder, { type: "actrun", request: "launch", record: "--last" }).cwd, "/repo");
  const other = { type: "actrun", request: "attach", folder: "/x" };
  assert.strictEqual(resolve(folder, other), other);
}
main().then(() => console.log("ok"), (fault) => {
  console.error(fault);
  process.exit(1);
});
