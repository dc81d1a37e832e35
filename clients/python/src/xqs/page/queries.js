// Several queries in tabs, which last as long as the browser's tab does; and saved ones, by name.

import {at, make, walkTabs} from "./dom.js";

const OPEN = "xqs.queries", SAVED = "xqs.saved", FIRST = "count(collection())";

function read(storage, key, otherwise) {
  try {
    return JSON.parse(storage.getItem(key)) ?? otherwise;
  } catch {
    return otherwise;
  }
}

function write(storage, key, value) {
  try {
    storage.setItem(key, JSON.stringify(value));
  } catch (error) {
    at("status").textContent = `The browser does not keep it: ${error.message}`;
  }
}

/** The tabs. `chosen(tab)` is called with the tab that is shown next. */
export class Queries {
  constructor(editor, chosen) {
    this.editor = editor;
    this.chosen = chosen;
    this.tabs = read(sessionStorage, OPEN, [FIRST]).map((text, n) => ({text, number: n + 1}));
    this.tab = this.tabs[0];
    this.editor.text = this.tab.text;
    this.editor.onChange(() => this.changed());
    at("new-query").addEventListener("click", () => this.add(""));
    walkTabs(at("queries"));
    this.show();
    this.showSaved();
    this.listenSaved();
  }

  changed() {
    this.tab.text = this.editor.text;
    this.keep();
  }

  keep() {
    write(sessionStorage, OPEN, this.tabs.map(it => it.text));
  }

  add(text) {
    const number = Math.max(...this.tabs.map(it => it.number)) + 1;
    this.tabs.push({text, number});
    this.choose(this.tabs.at(-1));
  }

  /** Shows a query: in the tab that has it, in one without any of the user's, or in a new one. */
  put(text) {
    const tab = this.tabs.find(it => it.text === text);
    if (tab) this.choose(tab);
    else if (["", FIRST].includes(this.editor.text.trim())) this.editor.text = text;
    else this.add(text);
  }

  choose(tab) {
    this.tab = tab;
    this.editor.text = tab.text;
    this.show();
    this.keep();
    this.chosen(tab);
    this.editor.focus();
  }

  close(tab) {
    const place = this.tabs.indexOf(tab);
    this.tabs.splice(place, 1);
    if (!this.tabs.length) this.tabs.push({text: "", number: 1});
    if (tab === this.tab) this.choose(this.tabs[Math.min(place, this.tabs.length - 1)]);
    else this.show();
    this.keep();
  }

  show() {
    at("queries").replaceChildren(...this.tabs.flatMap(tab => this.buttons(tab)));
  }

  buttons(tab) {
    const name = `Query ${tab.number}`, isChosen = tab === this.tab;
    const button = make("button", "", name), close = make("button", "close", "×");
    button.type = close.type = "button";
    button.setAttribute("role", "tab");
    button.setAttribute("aria-selected", isChosen);
    button.tabIndex = isChosen ? 0 : -1;
    button.addEventListener("click", () => this.choose(tab));
    close.setAttribute("aria-label", `Close ${name}`);
    close.tabIndex = -1;
    close.addEventListener("click", () => this.close(tab));
    return [button, close];
  }

  /* ---- Saved queries ---- */

  get saved() { return read(localStorage, SAVED, {}); }

  set saved(queries) {
    write(localStorage, SAVED, queries);
    this.showSaved();
  }

  showSaved(chosen = "") {
    const options = ["", ...Object.keys(this.saved).sort()].map(name => {
      const option = make("option", "", name || "Saved queries");
      option.value = name;
      return option;
    });
    at("saved").replaceChildren(...options);
    at("saved").value = chosen;
    at("forget").hidden = !chosen;
  }

  listenSaved() {
    const dialog = at("save-dialog");
    at("saved").addEventListener("change", () => this.open(at("saved").value));
    at("save").addEventListener("click", () => {
      at("save-name").value = at("saved").value;
      dialog.showModal();
    });
    at("save-cancel").addEventListener("click", () => dialog.close());
    at("save-form").addEventListener("submit", () => this.save(at("save-name").value.trim()));
    at("forget").addEventListener("click", () => this.forget(at("saved").value));
  }

  open(name) {
    at("forget").hidden = !name;
    if (name) this.put(this.saved[name]);
  }

  save(name) {
    if (!name) return;
    this.saved = {...this.saved, [name]: this.editor.text};
    this.showSaved(name);
  }

  forget(name) {
    const {[name]: _, ...others} = this.saved;
    if (confirm(`Delete the saved query “${name}”?`)) this.saved = others;
  }
}
