// Starts the language server plcsafe-lsp for applications.
const vscode = require("vscode");
const { LanguageClient } = require("vscode-languageclient/node");

let client;

function activate() {
  const command = vscode.workspace.getConfiguration("plcsafe").get("server");
  const server = { command, args: [] };
  const options = { documentSelector: [{ scheme: "file", language: "plcsafe" }] };
  client = new LanguageClient("plcsafe", "plcsafe", server, options);
  return client.start();
}

function deactivate() {
  return client ? client.stop() : undefined;
}

module.exports = { activate, deactivate };
