// The page: a query is sent, and its answer or its refusal is shown.

import {at, counted, listen} from "./dom.js";
import {known, markChosen, readDocuments, startDocuments} from "./documents.js";
import {editorOf} from "./editor.js";
import {startFiles} from "./files.js";
import {Queries} from "./queries.js";
import {showAnswer, startViews} from "./views.js";

const PAGE_FORM = "application/vnd.xqs.page+json";
const NOT_RUN = "This query comes from a link and was not run. Run it with Ctrl+Enter.";
const words = {functions: [], keywords: []};
let waiting = null;

const time = took => took < 1000 ? `${Number(took).toFixed(took < 10 ? 2 : 0)} ms`
  : `${(took / 1000).toFixed(1)} s`;
const sized = bytes => bytes < 10000 ? `${counted(bytes)} bytes`
  : bytes < 1e6 ? `${(bytes / 1000).toFixed(0)} KB` : `${(bytes / 1e6).toFixed(1)} MB`;

const editor = editorOf((word, isAddress) => isAddress ? known()
  : word ? [...words.functions, ...words.keywords] : []);
const queries = new Queries(editor, show);

/** Shows what a tab has: its answer, its refusal, or neither. */
function show(tab) {
  const {answer, refusal, status} = tab;
  at("result").hidden = !answer;
  at("refusal").hidden = !refusal;
  at("status").textContent = status ?? "";
  if (answer) showAnswer(answer);
  if (refusal) showRefusal(refusal);
}

/** The offset of a line and a column, which count characters. */
function offsetOf(text, place) {
  const [line, column] = place.split(":").map(Number);
  const lines = text.split("\n");
  const before = [...(lines[line - 1] ?? "")].slice(0, column - 1).join("").length;
  return lines.slice(0, line - 1).join("\n").length + (line > 1 ? 1 : 0) + before;
}

function showRefusal({code, sentence, place, query}) {
  at("code").textContent = code;
  at("words").textContent = sentence;
  at("place").hidden = !place;
  at("refusal").hidden = false;
  if (place && query === editor.text)
    editor.markFault(offsetOf(query, place), sentence.split("\n").at(-1));
}

function goToPlace() {
  const {place, query} = queries.tab.refusal;
  if (query === editor.text) editor.select(offsetOf(query, place));
}

async function refusalOf(response, query) {
  const code = response.headers.get("Xqs-Code") ?? String(response.status);
  const sentence = (await response.text()).trim().replace(`${code}: `, "");
  return {code, sentence, place: response.headers.get("Xqs-Place") ?? "", query};
}

function statusOf(answer, response, begin) {
  const count = answer.items.length;
  const timing = /dur=([\d.]+)/.exec(response.headers.get("Server-Timing") ?? "")?.[1];
  const size = new Blob([answer.constructors]).size;
  return [`${counted(count)} ${count === 1 ? "item" : "items"}`, sized(size),
    timing && `server ${time(timing)}`, `in all ${time(performance.now() - begin)}`]
    .filter(Boolean).join(" · ");
}

/** Asks for the answer to a query; what a tab has to keep of it. */
async function ask(query, signal, begin) {
  const headers = {"Content-Type": "application/xquery", Accept: PAGE_FORM};
  const url = `/rest?names=${at("flat").checked ? "flat" : "keep"}`;
  const response = await fetch(url, {method: "POST", headers, body: query, signal});
  if (!response.ok) {
    const status = `refused · in all ${time(performance.now() - begin)}`;
    return {refusal: await refusalOf(response, query), status};
  }
  const answer = await response.json();
  return {answer, status: statusOf(answer, response, begin)};
}

function setWaiting(controller) {
  waiting = controller;
  at("stop").hidden = !controller;
  document.body.setAttribute("aria-busy", Boolean(controller));
}

async function run() {
  const query = editor.text, tab = queries.tab, begin = performance.now();
  const controller = new AbortController();
  waiting?.abort();
  setWaiting(controller);
  if (linked() !== query) history.pushState(null, "", `#${encodeURIComponent(query)}`);
  markChosen(/^doc\("([^"]*)"\)$/.exec(query)?.[1] ?? null);
  editor.clearFault();
  Object.assign(tab, {answer: null, refusal: null, status: "Waiting for the answer…"});
  show(tab);
  try {
    Object.assign(tab, await ask(query, controller.signal, begin));
  } catch (error) {
    if (controller.signal.aborted) return;
    const refusal = {code: "No answer", sentence: String(error.message ?? error), place: "", query};
    Object.assign(tab, {refusal, status: ""});
  }
  if (waiting === controller) setWaiting(null);
  if (tab === queries.tab) show(tab);
}

function stopWaiting() {
  waiting?.abort();
  setWaiting(null);
  queries.tab.status = "No longer waiting; the server may still be at work on the query.";
  show(queries.tab);
}

/** The query of the link, an empty text where there is none. */
function linked() {
  try {
    return decodeURIComponent(location.hash.slice(1));
  } catch {
    return "";
  }
}

/** Puts the query of the link into the editor. It is never run by itself: any page can make one. */
function takeLink() {
  const query = linked();
  if (!query || query === editor.text) return;
  queries.put(query);
  Object.assign(queries.tab, {answer: null, refusal: null, status: NOT_RUN});
  show(queries.tab);
}

function choose(address) {
  editor.text = `doc("${address}")`;
  run();
}

async function readWords() {
  const response = await fetch("/page/words.json");
  if (response.ok) Object.assign(words, await response.json());
}

at("flat").checked = document.documentElement.dataset.flat === "true";
startViews();
startDocuments(choose);
startFiles(readDocuments);
listen("form", "submit", event => { event.preventDefault(); run(); });
document.addEventListener("keydown", event => {
  if ((event.ctrlKey || event.metaKey) && event.key === "Enter") { event.preventDefault(); run(); }
}, true);
listen("stop", "click", stopWaiting);
listen("place", "click", goToPlace);
addEventListener("popstate", takeLink);
takeLink();
readWords();
