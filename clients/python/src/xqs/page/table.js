// A sequence that the server of this page has found to be a table: its rows, and its chart.

import {counted, make, span} from "./dom.js";

const BATCH = 200, MOST_BARS = 60, MOST_POINTS = 5000;
const SVG = "http://www.w3.org/2000/svg";
const WIDTH = 760, LABEL = 200, BAR = 24, HEIGHT = 320, MARGIN = 12;

function cellOf(cell, kind) {
  return cell === null ? make("td", "none") : make("td", kind, cell);
}

function addRows(body, {rows, kinds}, from, more) {
  const upTo = Math.min(rows.length, from + BATCH);
  for (const row of rows.slice(from, upTo))
    body.append(make("tr", "", ...row.map((cell, n) => cellOf(cell, kinds[n]))));
  more.hidden = upTo === rows.length;
  more.textContent = `Show more: ${counted(upTo)} of ${counted(rows.length)} rows are shown`;
  return upTo;
}

/** The table with its first rows, and a button for the others. */
export function tableOf(table) {
  const head = make("tr", "", ...table.columns.map((name, n) => make("th", table.kinds[n], name)));
  const body = make("tbody"), more = make("button", "small");
  more.type = "button";
  let shown = addRows(body, table, 0, more);
  more.addEventListener("click", () => { shown = addRows(body, table, shown, more); });
  return make("div", "wide", make("table", "", make("thead", "", head), body), more);
}

function shape(tag, attributes, ...content) {
  const element = document.createElementNS(SVG, tag);
  for (const [name, value] of Object.entries(attributes)) element.setAttribute(name, value);
  element.append(...content);
  return element;
}

/** The pairs of a label and a number, as the columns say; rows that lack one are left out. */
function pairsOf({rows}, label, value) {
  return rows.filter(row => row[value] !== null)
    .map(row => ({label: row[label] ?? "", text: row[value].trim(), number: Number(row[value])}));
}

/** How far along a scale with 0 in it a number lies, from 0 to 1. */
function scaleOf(pairs) {
  const numbers = pairs.map(it => it.number);
  const least = numbers.reduce((a, b) => Math.min(a, b), 0);
  const most = numbers.reduce((a, b) => Math.max(a, b), 0);
  return number => most === least ? 0 : (number - least) / (most - least);
}

const cut = text => text.length > 28 ? `${text.slice(0, 27)}…` : text;

function bars(pairs) {
  const scale = scaleOf(pairs), room = WIDTH - LABEL - 110, zero = LABEL + room * scale(0);
  const height = pairs.length * BAR + 2 * MARGIN;
  const svg = shape("svg", {viewBox: `0 0 ${WIDTH} ${height}`, class: "chart", role: "img"});
  pairs.forEach(({label, text, number}, n) => {
    const y = MARGIN + n * BAR, x = LABEL + room * scale(number);
    svg.append(
      shape("text", {x: LABEL - 8, y: y + 16, class: "bar-label"}, cut(label)),
      shape("rect", {x: Math.min(x, zero), y: y + 3, width: Math.max(Math.abs(x - zero), 1),
        height: BAR - 6, class: "bar-of"}, shape("title", {}, `${label}: ${text}`)),
      shape("text", {x: Math.max(x, zero) + 6, y: y + 16, class: "bar-number"}, text));
  });
  return svg;
}

function line(pairs) {
  const scale = scaleOf(pairs), room = WIDTH - 2 * MARGIN, top = HEIGHT - 60;
  const x = n => MARGIN + (pairs.length < 2 ? room / 2 : room * n / (pairs.length - 1));
  const y = number => MARGIN + top * (1 - scale(number));
  const svg = shape("svg", {viewBox: `0 0 ${WIDTH} ${HEIGHT}`, class: "chart", role: "img"});
  svg.append(
    shape("line", {x1: MARGIN, x2: WIDTH - MARGIN, y1: y(0), y2: y(0), class: "axis"}),
    shape("polyline", {points: pairs.map((it, n) => `${x(n)},${y(it.number)}`).join(" "),
      class: "line-of"}),
    ...pairs.map((it, n) => shape("circle", {cx: x(n), cy: y(it.number), r: 3, class: "point"},
      shape("title", {}, `${it.label}: ${it.text}`))));
  const ends = [...new Set([0, Math.floor(pairs.length / 2), pairs.length - 1])];
  svg.append(...ends.map((n, place) => shape("text", {x: x(n), y: HEIGHT - 16,
    class: place === 0 ? "first-label" : n === pairs.length - 1 ? "last-label" : "middle-label"},
  `${cut(pairs[n].label)}: ${pairs[n].text}`)));
  return svg;
}

function select(title, options, chosen) {
  const element = make("select");
  element.setAttribute("aria-label", title);
  for (const [value, text] of options) {
    const option = make("option", "", text);
    option.value = value;
    option.selected = value === chosen;
    element.append(option);
  }
  return element;
}

/** The chart of a table. The reader can choose its columns and its kind. */
export function chartOf(table) {
  const named = table.columns.map((name, n) => [n, name]);
  const numbers = named.filter(([n]) => table.kinds[n] === "number");
  const texts = named.filter(([n]) => table.kinds[n] === "text");
  const first = (texts[0] ?? named[0])[0];
  const value = select("Numbers", numbers, numbers.at(-1)[0]);
  const label = select("Labels", named, first);
  const kind = select("Kind", [["bars", "Bars"], ["line", "Line"]],
    table.rows.length > MOST_BARS ? "line" : "bars");
  const place = make("div", "wide"), note = make("p", "faint");
  const draw = () => {
    const pairs = pairsOf(table, Number(label.value), Number(value.value));
    const most = kind.value === "bars" ? MOST_BARS * 5 : MOST_POINTS;
    place.replaceChildren((kind.value === "bars" ? bars : line)(pairs.slice(0, most)));
    const left = [pairs.length > most && `the first ${counted(most)} of ${counted(pairs.length)}`,
      pairs.length < table.rows.length && `${table.rows.length - pairs.length} rows lack a number`];
    note.textContent = left.filter(Boolean).join("; ");
  };
  for (const it of [value, label, kind]) it.addEventListener("change", draw);
  draw();
  return make("div", "", make("p", "bar", span("faint", "Labels"), label, span("faint", "Numbers"),
    value, kind), place, note);
}
