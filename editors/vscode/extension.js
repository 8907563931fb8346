// Starts `actrun dap` for debug sessions, and offers commands in workflow files: debug, open the last execution, why.
"use strict";
const { execFile } = require("child_process");
const path = require("path");
const vscode = require("vscode");

const FILES = { pattern: "**/.github/workflows/*.{yml,yaml}" };
const LAST = "--last";

/** The program, as the setting `actrun.path` names it. */
function program() {
  return vscode.workspace.getConfiguration("actrun").get("path") || "actrun";
}

/** The line of `jobs:`; -1 where there is none. */
function lineOfJobs(text) {
  return text.split(/\r?\n/).findIndex((line) => /^(jobs|"jobs"|'jobs')\s*:/.test(line));
}

/** The event by which a workflow is executed: push, or the first one that its `on` names. */
function eventOf(text) {
  const found = /^(?:on|"on"|'on')\s*:[ \t]*(.*(?:\r?\n(?:[ \t]+.*|-.*|#.*|[ \t]*)$)*)/m.exec(text);
  const lines = found ? found[1].split(/\r?\n/).map((line) => line.replace(/(^|\s)#.*/, "")) : [];
  const indents = lines.slice(1).filter((line) => line.trim()).map((line) => line.search(/\S/));
  const own = lines.slice(1).filter((line) => line.search(/\S/) === Math.min(...indents));
  const names = [lines[0] || "", ...own].flatMap((line) => line.match(/[a-z_]{4,}/g) || []);
  return names.includes("push") ? "push" : names[0] || "push";
}

/** The folder of the repository of a file. */
function folderOf(uri) {
  const folder = vscode.workspace.getWorkspaceFolder(uri);
  return folder ? folder.uri.fsPath : path.resolve(path.dirname(uri.fsPath), "../..");
}

/** The file of a command: the one that it is given, or the open one. */
function fileOf(uri) {
  const editor = vscode.window.activeTextEditor;
  return uri || (editor && editor.document.uri);
}

/** Executes a workflow with breakpoints. */
async function debugWorkflow(given) {
  const uri = fileOf(given);
  if (!uri) {
    return vscode.window.showErrorMessage("actrun: open a file of .github/workflows");
  }
  const document = await vscode.workspace.openTextDocument(uri);
  return vscode.debug.startDebugging(vscode.workspace.getWorkspaceFolder(uri), {
    type: "actrun", request: "launch", name: `Debug ${path.basename(uri.fsPath)}`, live: true,
    program: folderOf(uri), event: eventOf(document.getText()), options: ["--workflows", uri.fsPath],
  });
}

/** Walks the last execution of the repository of a file. */
function walkLast(uri) {
  const folder = folderOf(uri);
  return vscode.debug.startDebugging(vscode.workspace.getWorkspaceFolder(uri), {
    type: "actrun", request: "launch", name: "Walk the last execution", record: LAST, cwd: folder,
    workflows: [path.join(folder, ".github", "workflows")],
  });
}

/** Opens the page of the last execution in a browser. */
function openLast(given) {
  const uri = fileOf(given) || (vscode.workspace.workspaceFolders || []).map((one) => one.uri)[0];
  if (!uri) {
    return vscode.window.showErrorMessage("actrun: open a folder with a repository");
  }
  // (without a screen `actrun open` prints the page's path alone; the editor opens it, also where it is on another machine)
  const { DISPLAY, WAYLAND_DISPLAY, BROWSER, ...env } = process.env;
  execFile(program(), ["open", "-C", folderOf(uri)], { env }, (fault, stdout, stderr) => {
    if (fault) {
      vscode.window.showErrorMessage(stderr.trim() || `actrun: ${fault.message}: set actrun.path`);
    } else {
      vscode.env.openExternal(vscode.Uri.file(stdout.trim()));
    }
  });
}

/** The lines at which sessions stopped since something failed, with what says why. */
class Failures {
  constructor() {
    this.lines = new Map();
    this.changed = new vscode.EventEmitter();
  }

  /** Hears what the adapter sends in one session. */
  createDebugAdapterTracker(session) {
    let failed = false;
    return {
      onWillStartSession: () => this.clear(),
      onDidSendMessage: (message) => {
        if (message.type === "event" && message.event === "stopped") {
          failed = message.body.reason === "exception";
        } else if (failed && message.command === "stackTrace" && message.success) {
          this.add(session, message.body.stackFrames[0]);
        }
      },
    };
  }

  /** Keeps the line of a frame. */
  add(session, frame) {
    if (frame && frame.source && frame.source.path) {
      this.lines.set(`${frame.source.path}:${frame.line}`, { session, frame });
      this.changed.fire();
    }
  }

  /** Forgets all lines. */
  clear() {
    this.lines.clear();
    this.changed.fire();
  }

  /** Shows why the step of a line failed; where the session is over, the last execution is walked. */
  async why(uri, line) {
    const found = this.lines.get(`${uri.fsPath}:${line}`);
    if (!found || vscode.debug.activeDebugSession !== found.session) {
      return walkLast(uri);
    }
    const asked = { expression: "why", frameId: found.frame.id, context: "repl" };
    const answer = await found.session.customRequest("evaluate", asked).then((body) => body.result, (fault) => fault.message);
    vscode.debug.activeDebugConsole.appendLine(answer);
    return vscode.window.showInformationMessage(answer, { modal: true });
  }
}

/** The commands above `jobs:` and above the lines that failed. */
class Lenses {
  constructor(failures) {
    this.failures = failures;
    this.onDidChangeCodeLenses = failures.changed.event;
  }

  provideCodeLenses(document) {
    const at = (line, title, command, ...given) =>
      new vscode.CodeLens(new vscode.Range(line, 0, line, 0), { title, command, arguments: [document.uri, ...given] });
    const jobs = lineOfJobs(document.getText());
    const own = jobs < 0 ? [] : [at(jobs, "Debug this workflow", "actrun.debugWorkflow"),
      at(jobs, "Open last execution", "actrun.openLast")];
    const prefix = `${document.uri.fsPath}:`;
    const lines = [...this.failures.lines.keys()].filter((key) => key.startsWith(prefix)).map((key) => Number(key.slice(prefix.length)));
    return [...own, ...lines.map((line) => at(line - 1, "Why?", "actrun.why", line))];
  }
}

/** Fills what a launch configuration leaves out: without one, the repository is executed. */
function resolveDebugConfiguration(folder, given) {
  const top = folder ? folder.uri.fsPath : undefined;
  if (!given.type && !given.request) {
    return top && { type: "actrun", request: "launch", name: "Debug the workflows", live: true, program: top };
  }
  return given.record === LAST && top ? { cwd: top, workflows: [path.join(top, ".github", "workflows")], ...given } : given;
}

function activate(context) {
  const failures = new Failures();
  context.subscriptions.push(
    vscode.debug.registerDebugAdapterDescriptorFactory("actrun", {
      createDebugAdapterDescriptor: () => new vscode.DebugAdapterExecutable(program(), ["dap"]),
    }),
    vscode.debug.registerDebugAdapterTrackerFactory("actrun", failures),
    vscode.debug.registerDebugConfigurationProvider("actrun", { resolveDebugConfiguration }),
    vscode.languages.registerCodeLensProvider(FILES, new Lenses(failures)),
    vscode.commands.registerCommand("actrun.debugWorkflow", debugWorkflow),
    vscode.commands.registerCommand("actrun.openLast", openLast),
    vscode.commands.registerCommand("actrun.why", (given, line) => {
      const editor = vscode.window.activeTextEditor;
      const uri = fileOf(given);
      return uri && failures.why(uri, line || (editor ? editor.selection.active.line + 1 : 0));
    }),
  );
}

module.exports = { activate, eventOf, lineOfJobs };
