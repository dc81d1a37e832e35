//! What rows of the queries' document take, packed and as `NodeRow`s, and how fast they are pushed.
//!
//! usage: rustc -O measure.rs && ./measure [ELEMENTS] [TURNS]
//!
//! Plain Rust that mirrors crates/xq_packed: the figures are those of the representation, and not of
//! the proved program. Bytes are those that the allocator was asked for and has not got back.

use std::alloc::{GlobalAlloc, Layout, System};
use std::collections::HashMap;
use std::sync::atomic::{AtomicUsize, Ordering};
use std::time::Instant;

struct Counting;

static HELD: AtomicUsize = AtomicUsize::new(0);

unsafe impl GlobalAlloc for Counting {
    unsafe fn alloc(&self, layout: Layout) -> *mut u8 {
        HELD.fetch_add(layout.size(), Ordering::Relaxed);
        unsafe { System.alloc(layout) }
    }

    unsafe fn dealloc(&self, place: *mut u8, layout: Layout) {
        HELD.fetch_sub(layout.size(), Ordering::Relaxed);
        unsafe { System.dealloc(place, layout) }
    }
}

#[global_allocator]
static ALLOCATOR: Counting = Counting;

#[derive(Clone, Copy, PartialEq)]
enum Kind {
    Document,
    Element,
    Attribute,
    Text,
}

#[allow(dead_code)]
struct NodeRow {
    pre: u32,
    size: u32,
    level: u32,
    kind: Kind,
    name: String,
    value: String,
}

#[allow(dead_code)]
#[derive(Clone, Copy)]
struct Shape {
    size: u32,
    name: u32,
    end_low: u32,
    end_high: u16,
    level: u8,
    kind: Kind,
}

#[derive(Default)]
struct PackedRows {
    shapes: Vec<Shape>,
    text: String,
    names: Vec<String>,
    numbers: HashMap<String, u32>,
    elements: Vec<Vec<u32>>,
    attributes: Vec<Vec<u32>>,
    indexed: bool,
}

impl PackedRows {
    fn push(&mut self, row: &NodeRow) {
        let name = match self.numbers.get(&row.name) {
            Some(number) => *number,
            None => {
                let number = self.names.len() as u32;
                self.names.push(row.name.clone());
                self.numbers.insert(row.name.clone(), number);
                self.elements.push(vec![]);
                self.attributes.push(vec![]);
                number
            }
        };
        if self.indexed {
            let place = self.shapes.len() as u32;
            match row.kind {
                Kind::Element => self.elements[name as usize].push(place),
                Kind::Attribute => self.attributes[name as usize].push(place),
                _ => {}
            }
        }
        self.text.push_str(&row.value);
        let end = self.text.len();
        self.shapes.push(Shape {
            size: row.size,
            name,
            end_low: end as u32,
            end_high: (end >> 32) as u16,
            level: row.level as u8,
            kind: row.kind,
        });
    }
}

fn add(rows: &mut Vec<NodeRow>, level: u32, kind: Kind, name: &str, value: String) {
    let pre = rows.len() as u32;
    rows.push(NodeRow { pre, size: 0, level, kind, name: name.to_string(), value });
}

fn field(rows: &mut Vec<NodeRow>, name: &str, value: String) {
    add(rows, 4, Kind::Element, name, String::new());
    add(rows, 5, Kind::Text, "", value);
}

fn book(rows: &mut Vec<NodeRow>, b: usize, k: usize) {
    add(rows, 3, Kind::Element, "book", String::new());
    add(rows, 4, Kind::Attribute, "id", k.to_string());
    add(rows, 4, Kind::Attribute, "lang", ["en", "de", "fr", "it"][k % 4].to_string());
    add(rows, 4, Kind::Attribute, "room", format!("r{}", k % 7));
    field(rows, "title", format!("Title {}", k * 7919 % 1000));
    field(rows, "author", format!("A{}", k * 31 % 97));
    field(rows, "year", (1900 + k * 17 % 120).to_string());
    field(rows, "price", (k * 37 % 5000).to_string());
    if b % 5 == 0 {
        field(rows, "note", "see ".to_string());
        add(rows, 5, Kind::Element, "em", String::new());
        add(rows, 6, Kind::Text, "", format!("no. {}", k * 13 % 500));
        add(rows, 5, Kind::Text, "", " there".to_string());
    }
}

fn document(elements: usize) -> Vec<NodeRow> {
    let shelves = (elements - 1) / 109;
    let mut rows = Vec::new();
    add(&mut rows, 0, Kind::Document, "", String::new());
    add(&mut rows, 1, Kind::Element, "lib", String::new());
    for s in 1..=shelves {
        add(&mut rows, 2, Kind::Element, "shelf", String::new());
        add(&mut rows, 3, Kind::Attribute, "id", s.to_string());
        add(&mut rows, 3, Kind::Attribute, "room", format!("r{}", s % 7));
        for b in 1..=20 {
            book(&mut rows, b, (s - 1) * 20 + b);
        }
    }
    for _ in 0..elements - 1 - shelves * 109 {
        add(&mut rows, 2, Kind::Element, "pad", String::new());
    }
    rows
}

fn copied(rows: &[NodeRow]) -> Vec<NodeRow> {
    let mut copies = Vec::new();
    for row in rows {
        let (name, value) = (row.name.clone(), row.value.clone());
        copies.push(NodeRow { name, value, ..*row });
    }
    copies
}

fn packed(rows: &[NodeRow], indexed: bool) -> PackedRows {
    let mut packed = PackedRows { indexed, ..PackedRows::default() };
    for row in rows {
        packed.push(row);
    }
    packed
}

fn told<T>(what: &str, count: usize, turns: usize, make: impl Fn() -> T) {
    let mut least = f64::MAX;
    let mut held = 0;
    for _ in 0..turns {
        let before = HELD.load(Ordering::Relaxed);
        let start = Instant::now();
        let made = make();
        least = least.min(start.elapsed().as_secs_f64());
        held = HELD.load(Ordering::Relaxed) - before;
        drop(made);
    }
    let (bytes, millions) = (held as f64 / count as f64, count as f64 / least / 1e6);
    println!("{what:36} {bytes:6.1} bytes a row, {millions:6.1} million rows a second");
}

fn main() {
    let mut words = std::env::args().skip(1).map(|word| word.parse().unwrap());
    let elements = words.next().unwrap_or(100_000);
    let turns = words.next().unwrap_or(9);
    let rows = document(elements);
    let text: usize = rows.iter().map(|row| row.value.len()).sum();
    let n = rows.len();
    println!("{n} rows, {:.1} bytes of values a row, {} a shape", text as f64 / n as f64, size_of::<Shape>());
    told("rows, each with two texts", n, turns, || copied(&rows));
    told("packed", n, turns, || packed(&rows, false));
    told("packed, with names found", n, turns, || packed(&rows, true));
}
