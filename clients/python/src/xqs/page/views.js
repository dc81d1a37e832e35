// An answer in the forms in which it can be looked at. All forms come from the server of this page;
// nothing here reads a reply.

import {at, counted, listen, make, saveAs, walkTabs} from "./dom.js";
import {nodeModel, nodeOf} from "./nodes.js";
import {chartOf, tableOf} from "./table.js";
import {TreeView} from "./treeview.js";

const TEXT_SHOWN = 200000;
const FORMS = {
  tree: {title: "Tree"}, xml: {title: "XML", file: "answer.xml", type: "application/xml"},
  text: {title: "Text", file: "answer.txt", type: "text/plain"},
  constructors: {title: "Constructors", file: "answer.xq", type: "application/xquery"},
  table: {title: "Table", file: "answer.csv", type: "text/csv"}, chart: {title: "Chart"},
};

let answer = null, chosen = "tree", copyTimer = 0;

/** The XML of an item as it is, or in lines. */
function xmlOf({xml}, isIndented) {
  const parts = [];
  for (let n = 0; n < xml.length; n += 2) {
    if (!isIndented) parts.push(xml[n + 1]);
    else if (xml[n] >= 0) parts.push("  ".repeat(xml[n]) + xml[n + 1]);
  }
  return parts.join(isIndented ? "\n" : "");
}

const quotedCell = cell => /[",\r\n]/.test(cell ?? "") ? `"${cell.replaceAll('"', '""')}"` : cell;

function csvOf({columns, rows}) {
  return [columns, ...rows].map(row => row.map(quotedCell).join(",")).join("\r\n") + "\r\n";
}

/** The exact text of the answer in a form. */
function textIn(form) {
  switch (form) {
    case "text": return answer.items.map(it => it.text).join("\n");
    case "constructors": return answer.constructors;
    case "table": case "chart": return csvOf(answer.table);
    default: return answer.items.map(it => xmlOf(it, false)).join("\n");
  }
}

function showTree() {
  const nodes = answer.items.map(nodeOf);
  if (!nodes.length) return [make("p", "faint", "Nothing: ()")];
  return [new TreeView(nodeModel, "The result as a tree").show(nodes)];
}

function showText(text) {
  const pre = make("pre", "", text.slice(0, TEXT_SHOWN));
  pre.tabIndex = 0;
  if (text.length <= TEXT_SHOWN) return [pre];
  const more = make("button", "small", `Show all of ${counted(text.length)} characters`);
  more.type = "button";
  more.addEventListener("click", () => { pre.textContent = text; more.remove(); });
  return [pre, more];
}

function content(form) {
  switch (form) {
    case "tree": return showTree();
    case "table": return [tableOf(answer.table)];
    case "chart": return [chartOf(answer.table)];
    case "xml": return showText(answer.items.map(it => xmlOf(it, at("indented").checked))
      .join("\n"));
    default: return showText(textIn(form));
  }
}

const isThere = form => form === "table" ? Boolean(answer.table)
  : form !== "chart" || Boolean(answer.table?.columns.length > 1
    && answer.table.kinds.includes("number"));

function show(form) {
  chosen = isThere(form) ? form : "tree";
  for (const name of Object.keys(FORMS)) {
    const tab = at(`tab-${name}`), isChosen = name === chosen;
    tab.hidden = !isThere(name);
    tab.setAttribute("aria-selected", isChosen);
    tab.tabIndex = isChosen ? 0 : -1;
  }
  at("indented-label").hidden = chosen !== "xml";
  at("panel").setAttribute("aria-labelledby", `tab-${chosen}`);
  at("panel").replaceChildren(...content(chosen));
}

async function copy() {
  await navigator.clipboard.writeText(textIn(chosen));
  at("copy").textContent = "Copied";
  clearTimeout(copyTimer);
  copyTimer = setTimeout(() => { at("copy").textContent = "Copy"; }, 1500);
}

function download() {
  const form = FORMS[chosen].file ? chosen : chosen === "chart" ? "table" : "xml";
  saveAs(FORMS[form].file, FORMS[form].type, textIn(form));
}

/** Shows an answer, in the form that was chosen last. */
export function showAnswer(given) {
  answer = given;
  at("result").hidden = false;
  show(chosen);
}

/** Makes the tabs of the forms. */
export function startViews() {
  for (const [name, {title}] of Object.entries(FORMS)) {
    const tab = make("button", "", title);
    tab.type = "button";
    tab.id = `tab-${name}`;
    tab.setAttribute("role", "tab");
    tab.setAttribute("aria-controls", "panel");
    tab.addEventListener("click", () => show(name));
    at("views").append(tab);
  }
  walkTabs(at("views"));
  listen("indented", "change", () => show("xml"));
  listen("copy", "click", copy);
  listen("download", "click", download);
}
