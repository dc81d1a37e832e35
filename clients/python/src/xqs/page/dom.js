// Nodes are made one by one, and text is put into them as text: nothing makes markup of text.

/** The element of that id. */
export const at = id => document.getElementById(id);

/** A new element with a class and a content. */
export function make(tag, className, ...content) {
  const element = document.createElement(tag);
  if (className) element.className = className;
  element.append(...content);
  return element;
}

/** A new span with a class and a text. */
export const span = (className, text) => make("span", className, text);

/** Has an action follow an event of the element of that id. */
export function listen(id, type, action) {
  at(id).addEventListener(type, action);
}

/** A number with commas between thousands. */
export const counted = number => Number(number).toLocaleString("en");

/** Gives a text to the browser as a file. */
export function saveAs(name, type, text) {
  const url = URL.createObjectURL(new Blob([text], {type})), link = make("a");
  link.href = url;
  link.download = name;
  link.click();
  setTimeout(() => URL.revokeObjectURL(url), 60000);
}

/** Has the arrow keys walk through the tabs of a list. */
export function walkTabs(list) {
  list.addEventListener("keydown", event => {
    const step = {ArrowRight: 1, ArrowLeft: -1}[event.key];
    const tabs = [...list.querySelectorAll("[role=tab]")].filter(it => !it.hidden);
    if (!step || !tabs.includes(event.target)) return;
    event.preventDefault();
    const next = tabs[(tabs.indexOf(event.target) + step + tabs.length) % tabs.length];
    next.click();
    next.focus();
  });
}
