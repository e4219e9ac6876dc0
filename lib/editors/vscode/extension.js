// The client of Visual Studio Code: it starts `idltool lsp`, and hands the settings on.
"use strict";

const { workspace } = require("vscode");
const { LanguageClient } = require("vscode-languageclient/node");

let client;

/** Starts the server, when the first file of the language is opened. */
function activate(context) {
    const settings = workspace.getConfiguration("idltool");
    const watcher = workspace.createFileSystemWatcher("**/*.idl");
    context.subscriptions.push(watcher);
    client = new LanguageClient(
        "idltool",
        "OMG IDL",
        { command: settings.get("path"), args: ["lsp"] },
        {
            documentSelector: [{ scheme: "file", language: "idl" }],
            initializationOptions: { search: settings.get("search"), define: settings.get("define") },
            synchronize: { fileEvents: watcher },
        },
    );
    return client.start();
}

/** Ends the server. */
function deactivate() {
    return client?.stop();
}

module.exports = { activate, deactivate };
