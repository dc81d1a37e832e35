// Files that are stored as documents. Nothing is stored without the token, which is kept in the
// field alone, and nothing is replaced unless that is asked for.

import {at, counted, listen, make} from "./dom.js";

const AT_ONCE = 3, WORDS = {"xqs:CONDITION": "there is a document at that address already"};

/** The addresses of files, by their paths. */
async function addressesOf(paths, prefix) {
  const body = JSON.stringify({paths, prefix});
  const headers = {"Content-Type": "application/json"};
  const response = await fetch("/page/addresses", {method: "POST", headers, body});
  if (!response.ok) throw new Error((await response.text()).trim());
  return response.json();
}

/** Stores a file; an empty text, or why it was not stored. */
async function store(file, address) {
  const isQuery = file.name.endsWith(".xq");
  const headers = {
    "Content-Type": isQuery ? "application/xquery" : "application/xml",
    Authorization: `Bearer ${at("token").value.trim()}`,
  };
  if (!at("replace").checked) headers["If-None-Match"] = "*";
  const names = at("flat").checked && !isQuery ? "?names=flat" : "";
  const how = {method: "PUT", headers, body: file, credentials: "omit"};
  const response = await fetch(`/rest/${address}${names}`, how);
  const text = (await response.text()).trim();
  return response.ok ? "" : WORDS[response.headers.get("Xqs-Code")] ?? text;
}

async function storeAll(files, addresses) {
  const waiting = files.map((file, n) => ({file, ...addresses[n]})), all = waiting.length;
  let stored = 0, refused = 0;
  const next = async () => {
    for (let one = waiting.shift(); one; one = waiting.shift()) {
      const why = one.refused ?? await store(one.file, one.address).catch(it => it.message);
      if (why) at("upload-refused").append(make("li", "", `${one.path}: ${why}`));
      if (why) refused += 1;
      else stored += 1;
      at("upload-note").textContent =
        `${counted(stored)} of ${counted(all)} stored, ${counted(refused)} refused`;
    }
  };
  await Promise.all(Array.from({length: AT_ONCE}, next));
}

async function upload(field, done) {
  const files = [...field.files].filter(it => it.size || it.name);
  field.value = "";
  at("upload-refused").replaceChildren();
  at("upload-note").textContent = `${counted(files.length)} files`;
  try {
    const paths = files.map(it => it.webkitRelativePath || it.name);
    await storeAll(files, await addressesOf(paths, at("prefix").value.trim()));
  } catch (error) {
    at("upload-note").textContent = error.message;
  }
  done();
}

/** Has `done` follow each upload. */
export function startFiles(done) {
  const canChange = document.documentElement.dataset.changes === "true";
  at("upload").disabled = !canChange;
  if (!canChange) at("upload").title = "xqs web was started without --token-file";
  listen("upload", "click", () => at("upload-dialog").showModal());
  listen("upload-close", "click", () => at("upload-dialog").close());
  for (const id of ["files", "folder"]) listen(id, "change", () => upload(at(id), done));
}
