// The rows of a result's tree. A node is [kind, name, value], or [kind, name, attributes, children]
// for a document and an element, whose attributes are names and values in turns. An atomic value
// stands as [type, "", text].

import {span} from "./dom.js";

const LINE = 300;

const isParent = node => node.length === 4;

/** The node of an item of an answer. */
export const nodeOf = item => item.tree ?? [item.type, "", item.text];

function shortened(text) {
  const characters = text.length - LINE;
  return characters > 40 ? `${text.slice(0, LINE)}… (${characters} more characters)` : text;
}

// The text of an element that holds a short text and nothing else; it stands in the element's row.
function inlineText([, , , children]) {
  const [only] = children;
  return children.length === 1 && only[0] === "text" && only[2].length <= 100 ? only[2] : null;
}

// A text of white space alone, with signs in its place.
const blanks = text => text.replaceAll(" ", "·").replaceAll("\t", "→")
  .replaceAll(/\r?\n|\r/g, "↵");

function tagParts(node) {
  const [, name, attributes, children] = node, parts = [span("name", `<${name}`)];
  for (let n = 0; n < attributes.length; n += 2)
    parts.push(span("attribute", ` ${attributes[n]}=`),
      span("value", `"${shortened(attributes[n + 1])}"`));
  const inline = inlineText(node);
  if (inline !== null)
    parts.push(span("name", ">"), span("text", inline), span("name", `</${name}>`));
  else parts.push(span("name", children.length ? ">" : "/>"));
  return parts;
}

function rowParts(node) {
  const [kind, name, value] = node;
  switch (kind) {
    case "document": return [span("type", "document")];
    case "element": return tagParts(node);
    case "text": return value.trim() ? [span("text", shortened(value))]
      : [span("type", shortened(blanks(value)))];
    case "comment": return [span("comment", `<!--${shortened(value)}-->`)];
    case "processing-instruction":
      return [span("comment", `<?${name}${value && " "}${shortened(value)}?>`)];
    case "attribute":
      return [span("attribute", `${name}=`), span("value", `"${shortened(value)}"`)];
    case "xs:string": return [span("value", `"${shortened(value)}"`)];
    case "xs:untypedAtomic":
      return [span("value", `"${shortened(value)}"`), span("type", "  untyped")];
    default: return [span("number", value)];
  }
}

/** What a TreeView asks. */
export const nodeModel = {
  row: rowParts,
  children: node => isParent(node) && !(node[0] === "element" && inlineText(node) !== null)
    ? node[3] : [],
  activate(node, li) {
    const value = isParent(node) ? "" : node[2];
    if (value.length - LINE > 40) li.querySelector(".line").textContent = value;
  },
};
