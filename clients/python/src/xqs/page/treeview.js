// A tree of rows that open and close, by mouse and by keyboard. What stands in it says a model:
// `row(node)` gives the content of a row, `children(node)` the nodes below, an empty array where
// there are none, and `activate(node, li)` what a click or Enter does with a node without any.

import {make, span} from "./dom.js";

const BATCH = 200, ROWS_OPENED = 80;

export class TreeView {
  constructor(model, label) {
    this.model = model;
    this.label = label;
  }

  /** The element with the nodes; the first ones are opened. */
  show(nodes, rowsOpened = ROWS_OPENED) {
    const tree = make("ul", "tree");
    tree.setAttribute("role", "tree");
    tree.setAttribute("aria-label", this.label);
    this.fill(tree, nodes, 1);
    this.openFirst(tree, rowsOpened);
    if (tree.firstElementChild) tree.firstElementChild.tabIndex = 0;
    tree.addEventListener("keydown", event => this.key(event));
    tree.addEventListener("click", event => this.click(event));
    return tree;
  }

  item(node, level, position, size) {
    const line = make("span", "line", ...this.model.row(node)), mark = make("span", "mark");
    const li = make("li", "", make("div", "row", mark, line));
    li.setAttribute("role", "treeitem");
    li.setAttribute("aria-level", level);
    li.setAttribute("aria-posinset", position + 1);
    li.setAttribute("aria-setsize", size);
    li.setAttribute("aria-label", line.textContent.slice(0, 200));
    li.tabIndex = -1;
    li.node = node;
    if (this.model.children(node).length) {
      li.className = "can-open";
      mark.textContent = "▸";
      li.setAttribute("aria-expanded", "false");
    }
    return li;
  }

  /** Puts the next nodes of a list into a group, and a row for the others. */
  fill(group, nodes, level, from = 0) {
    const upTo = Math.min(nodes.length, from + BATCH);
    for (let n = from; n < upTo; n++) group.append(this.item(nodes[n], level, n, nodes.length));
    if (upTo < nodes.length) group.append(this.moreItem(group, nodes, level, upTo));
  }

  moreItem(group, nodes, level, upTo) {
    const words = `Show more: ${upTo} of ${nodes.length} are shown`;
    const more = make("li", "can-open", make("div", "row", make("span", "mark"),
      span("more", words)));
    more.setAttribute("role", "treeitem");
    more.setAttribute("aria-level", level);
    more.tabIndex = -1;
    more.showMore = () => {
      const before = more.previousElementSibling;
      more.remove();
      this.fill(group, nodes, level, upTo);
      moveTo(before.nextElementSibling);
    };
    return more;
  }

  setOpen(li, open) {
    if (!li.hasAttribute("aria-expanded")) return;
    let group = li.querySelector(":scope > ul");
    if (!group && open) {
      group = make("ul");
      group.setAttribute("role", "group");
      this.fill(group, this.model.children(li.node), Number(li.getAttribute("aria-level")) + 1);
      li.append(group);
    }
    if (group) group.hidden = !open;
    li.setAttribute("aria-expanded", open);
    li.querySelector(".mark").textContent = open ? "▾" : "▸";
  }

  openFirst(tree, most) {
    const line = [...tree.children];
    let rows = line.length;
    for (let li = line.shift(); li && rows < most; li = line.shift()) {
      const count = li.node ? this.model.children(li.node).length : 0;
      if (!count || rows + count > 3 * most) continue;
      this.setOpen(li, true);
      const children = li.querySelector(":scope > ul").children;
      rows += children.length;
      line.push(...children);
    }
  }

  activate(li) {
    if (li.showMore) li.showMore();
    else if (li.hasAttribute("aria-expanded"))
      this.setOpen(li, li.getAttribute("aria-expanded") !== "true");
    else this.model.activate?.(li.node, li);
  }

  click(event) {
    const li = event.target.closest(".row")?.parentElement;
    if (!li || getSelection().toString()) return;
    moveTo(li);
    this.activate(li);
  }

  key(event) {
    const li = event.target.closest("[role=treeitem]"), tree = event.currentTarget;
    if (!li || event.ctrlKey || event.altKey || event.metaKey) return;
    const isOpen = li.getAttribute("aria-expanded");
    const actions = {
      ArrowDown: () => moveTo(below(li)),
      ArrowUp: () => moveTo(above(li)),
      ArrowRight: () => isOpen === "false" ? this.setOpen(li, true) : isOpen && moveTo(below(li)),
      ArrowLeft: () => isOpen === "true" ? this.setOpen(li, false) : moveTo(parentOf(li)),
      Home: () => moveTo(tree.firstElementChild),
      End: () => moveTo(lastOf(tree.lastElementChild)),
      "*": () => [...li.parentElement.children].forEach(it => this.setOpen(it, true)),
      Enter: () => this.activate(li),
      " ": () => this.activate(li),
    };
    if (!actions[event.key]) return;
    event.preventDefault();
    actions[event.key]();
  }
}

function moveTo(li) {
  if (!li) return;
  const tree = li.closest("[role=tree]");
  for (const it of tree.querySelectorAll("li[tabindex='0']")) it.tabIndex = -1;
  li.tabIndex = 0;
  li.focus();
}

const groupOf = li => li.getAttribute("aria-expanded") === "true"
  ? li.querySelector(":scope > ul") : null;
const parentOf = li => li.parentElement.closest("[role=treeitem]");

function below(li) {
  const group = groupOf(li);
  if (group) return group.firstElementChild;
  for (; li; li = parentOf(li)) if (li.nextElementSibling) return li.nextElementSibling;
  return null;
}

function lastOf(li) {
  for (let group = groupOf(li); group; group = groupOf(li)) li = group.lastElementChild;
  return li;
}

const above = li => li.previousElementSibling ? lastOf(li.previousElementSibling) : parentOf(li);
