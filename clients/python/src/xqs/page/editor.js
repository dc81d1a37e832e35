// The field of the query: CodeMirror where the server of this page has it, else a plain field.

import {at} from "./dom.js";

const KEYS = {
  "Ctrl-Space": "autocomplete", "Alt-/": "autocomplete", Tab: false, "Shift-Tab": false,
};
const IN_DOC = /\bdoc(?:-available)?\(\s*["']([^"']*)$/;

class PlainEditor {
  constructor() {
    this.field = at("query");
  }

  get text() { return this.field.value; }

  set text(text) {
    this.field.value = text;
    this.field.dispatchEvent(new Event("input"));
  }

  focus() { this.field.focus(); }

  /** Selects the character at an offset of the text. */
  select(offset) {
    this.focus();
    this.field.setSelectionRange(offset, offset + 1);
  }

  markFault() {}

  clearFault() {}

  onChange(action) { this.field.addEventListener("input", action); }
}

class RichEditor {
  constructor(complete) {
    this.editor = CodeMirror.fromTextArea(at("query"), {
      mode: "xquery", lineNumbers: true, lineWrapping: true, matchBrackets: true,
      autoCloseBrackets: true, viewportMargin: Infinity, extraKeys: KEYS,
      screenReaderLabel: "Query", autofocus: true,
      hintOptions: {hint: editor => hints(editor, complete), completeSingle: true},
    });
    this.marks = [];
  }

  get text() { return this.editor.getValue(); }

  set text(text) {
    this.clearFault();
    this.editor.setValue(text);
  }

  focus() { this.editor.focus(); }

  select(offset) {
    const [from, to] = [offset, offset + 1].map(it => this.editor.posFromIndex(it));
    this.focus();
    this.editor.setSelection(from, to);
  }

  /** Marks the line and the character at an offset, with the words about it. */
  markFault(offset, words) {
    const [from, to] = [offset, offset + 1].map(it => this.editor.posFromIndex(it));
    const line = this.editor.addLineClass(from.line, "wrap", "fault-line");
    const note = document.createElement("div");
    note.className = "fault-words";
    note.textContent = words;
    const widget = this.editor.addLineWidget(from.line, note);
    const mark = this.editor.markText(from, to, {className: "fault"});
    this.marks.push(() => {
      this.editor.removeLineClass(line, "wrap", "fault-line");
      widget.clear();
      mark.clear();
    });
  }

  clearFault() {
    this.marks.splice(0).forEach(clear => clear());
  }

  onChange(action) { this.editor.on("change", action); }
}

/** What the word before the cursor may go on to: addresses in a call of doc, else names. */
function hints(editor, complete) {
  const to = editor.getCursor(), before = editor.getRange({line: 0, ch: 0}, to);
  const inDoc = IN_DOC.exec(before);
  const word = inDoc ? inDoc[1] : /[\w:.-]*$/.exec(before)[0];
  const from = editor.posFromIndex(before.length - word.length);
  const list = complete(word, Boolean(inDoc)).filter(it => it.startsWith(word) && it !== word);
  return {list: list.slice(0, 200), from, to};
}

/** The editor; `complete(word, isAddress)` gives what a word may go on to. */
export const editorOf = complete => window.CodeMirror ? new RichEditor(complete)
  : new PlainEditor();
