// The addresses as folders that open and close.

import {at, counted, listen, span} from "./dom.js";
import {TreeView} from "./treeview.js";

let addresses = [], chosen = null, open = () => {};

/** The addresses that the server has given last. */
export const known = () => addresses;

// A folder has a Map of folders by their names, and the addresses in it.
const folderOf = name => ({name, folders: new Map(), addresses: [], count: 0});

function foldersOf(list) {
  const top = folderOf("");
  for (const address of list) {
    let folder = top;
    folder.count += 1;
    for (const name of address.split("/").slice(0, -1)) {
      if (!folder.folders.has(name)) folder.folders.set(name, folderOf(name));
      folder = folder.folders.get(name);
      folder.count += 1;
    }
    folder.addresses.push(address);
  }
  return top;
}

const below = folder => folder.nodes ??= [...folder.folders.values(), ...folder.addresses];
const nameIn = address => address.slice(address.lastIndexOf("/") + 1) || "(no name)";

const model = {
  row: node => typeof node === "string" ? [span("file", nameIn(node))]
    : [span("folder", `${node.name}/`), span("faint", ` ${counted(node.count)}`)],
  children: node => typeof node === "string" ? [] : below(node),
  activate: address => open(address),
};

function show() {
  const words = at("filter").value.trim().toLowerCase();
  const found = words ? addresses.filter(it => it.toLowerCase().includes(words)) : addresses;
  const tree = new TreeView(model, "Documents");
  at("documents").replaceChildren(tree.show(below(foldersOf(found)), words ? 400 : 60));
  at("count").textContent = counted(addresses.length);
  at("documents-note").textContent = found.length ? words && `${counted(found.length)} found`
    : words ? "None of that name" : "No documents yet";
  markChosen(chosen);
  showArchive(at("filter").value.trim());
}

/** Has the link give all documents, or those below the prefix that is in the filter. */
function showArchive(words) {
  const prefix = addresses.some(it => it.startsWith(words)) ? words : "";
  at("archive").href = `/archive?prefix=${encodeURIComponent(prefix)}`;
  at("archive").textContent = prefix ? `Download ${prefix}…` : "Download all";
}

/** Reads the list anew. */
export async function readDocuments() {
  try {
    const response = await fetch("/rest", {headers: {Accept: "application/json"}});
    if (!response.ok) throw new Error((await response.text()).trim());
    addresses = await response.json();
    show();
  } catch (error) {
    at("documents-note").textContent = `The list could not be read. ${error.message}`;
  }
}

/** Marks the document that is looked at, if it is one whole document. */
export function markChosen(address) {
  chosen = address;
  for (const it of at("documents").querySelectorAll("[role=treeitem]"))
    it.setAttribute("aria-selected", it.node === address);
}

/** Has `action` follow the choice of a document. */
export function startDocuments(action) {
  open = action;
  listen("refresh", "click", readDocuments);
  listen("filter", "input", show);
  readDocuments();
}
