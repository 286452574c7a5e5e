//! The same works as `works collect SIZE`, `minor-N SIZE`, `barrier SIZE` and `allocate SIZE`, in plain Rust: a copying
//! collector of the same duties over the same blocks. Forwarding words stand in a table beside, and the
//! old blocks stay whole to the end. `memcpy SIZE` copies the live cells alone, as often.

use std::hint::black_box;

#[derive(Clone, Copy)]
#[allow(dead_code)]
enum Value {
    Int(i32),
    Long(i64),
    Null,
    Ref(u64),
}

#[derive(Clone, Copy)]
enum Class {
    Instance(#[allow(dead_code)] u32),
    #[allow(dead_code)]
    Array(u8, u32),
}

#[derive(Clone, Copy)]
struct Header {
    #[allow(dead_code)]
    serial: u64,
    class: Class,
    age: u8,
}

#[derive(Clone, Copy)]
struct Entry {
    header: Header,
    start: usize,
    length: u32,
}

fn size(class: Class, length: usize) -> u64 {
    match class {
        Class::Instance(_) => 2 + length as u64,
        Class::Array(..) => 3 + length as u64,
    }
}

#[derive(Default)]
struct Block {
    entries: Vec<Entry>,
    values: Vec<Value>,
    cells: u64,
}

impl Block {
    fn has_room(&self, cells: u64) -> bool {
        match self.entries.len() {
            0 => true,
            1 if self.cells > 256 => false,
            _ => cells <= 256 && self.cells + cells <= 512,
        }
    }

    fn values(&self, index: usize) -> &[Value] {
        let entry = &self.entries[index];
        &self.values[entry.start..entry.start + entry.length as usize]
    }

    fn push(&mut self, header: Header, values: &[Value]) {
        self.entries.push(Entry { header, start: self.values.len(), length: values.len() as u32 });
        self.values.extend_from_slice(values);
        self.cells += size(header.class, values.len());
    }
}

struct Store {
    lane: u64,
    blocks: Vec<Block>,
}

fn place_of(lane: u64, block: usize, index: usize) -> u64 {
    (block as u64 * 64 + lane) * 256 + index as u64
}

fn lane_of(place: u64) -> u64 {
    place / 256 % 64
}

fn block_of(place: u64) -> usize {
    (place / 16384) as usize
}

fn index_of(place: u64) -> usize {
    (place % 256) as usize
}

impl Store {
    fn new(lane: u64) -> Store {
        Store { lane, blocks: Vec::new() }
    }

    fn push(&mut self, header: Header, values: &[Value]) -> u64 {
        let cells = size(header.class, values.len());
        if !self.blocks.last().is_some_and(|block| block.has_room(cells)) {
            self.blocks.push(Block::default());
        }
        let number = self.blocks.len() - 1;
        let block = &mut self.blocks[number];
        let place = place_of(self.lane, number, block.entries.len());
        block.push(header, values);
        place
    }

    fn set(&mut self, place: u64, number: usize, value: Value) {
        let block = &mut self.blocks[block_of(place)];
        let start = block.entries[index_of(place)].start;
        block.values[start + number] = value;
    }

    fn cells(&self) -> u64 {
        self.blocks.iter().map(|block| block.cells).sum()
    }
}

/// What is copied from, and the words beside.
struct Source<'a> {
    stores: &'a [Store],
    starts: Vec<Vec<usize>>,
    words: Vec<u64>,
}

/// How far a store is scanned.
#[derive(Clone, Copy)]
struct Mark {
    block: usize,
    index: usize,
}

struct Copier<'a> {
    from: Source<'a>,
    young: Store,
    tenured: Store,
    remembered: Vec<u64>,
}

impl Copier<'_> {
    fn forward(&mut self, place: u64) -> u64 {
        let lane = lane_of(place) as usize;
        if lane == 0 || lane > self.from.stores.len() {
            return place;
        }
        let block = block_of(place);
        let word = self.from.starts[lane - 1][block] + index_of(place);
        if self.from.words[word] != 0 {
            return self.from.words[word];
        }
        let old = &self.from.stores[lane - 1].blocks[block];
        let header = old.entries[index_of(place)].header;
        let values = old.values(index_of(place));
        let copy = match header.age {
            0 => self.young.push(Header { age: 1, ..header }, values),
            _ => self.tenured.push(Header { age: 2, ..header }, values),
        };
        self.from.words[word] = copy;
        copy
    }

    /// Forwards the values of the objects of a store from a mark on, and answers whether there were any.
    fn scan(&mut self, young: bool, mark: &mut Mark) -> bool {
        let mut some = false;
        loop {
            let store = if young { &self.young } else { &self.tenured };
            let Some(block) = store.blocks.get(mark.block) else { return some };
            let Some(entry) = block.entries.get(mark.index) else {
                if mark.block + 1 >= store.blocks.len() {
                    return some;
                }
                *mark = Mark { block: mark.block + 1, index: 0 };
                continue;
            };
            some = true;
            let (start, length) = (entry.start, entry.length as usize);
            let mut points = false;
            for number in start..start + length {
                let store = if young { &self.young } else { &self.tenured };
                if let Value::Ref(place) = store.blocks[mark.block].values[number] {
                    let copy = self.forward(place);
                    points |= lane_of(copy) == self.young.lane;
                    let store = if young { &mut self.young } else { &mut self.tenured };
                    store.blocks[mark.block].values[number] = Value::Ref(copy);
                }
            }
            if points && !young {
                self.remembered.push(place_of(self.tenured.lane, mark.block, mark.index));
            }
            mark.index += 1;
        }
    }
}

/// Copies what the roots reach out of the condemned stores.
fn collect(stores: &[Store], tenured: Store, roots: &mut [u64]) -> (Store, Store, Vec<u64>) {
    let mut starts = Vec::new();
    let mut count = 0;
    for store in stores {
        let mut lane = Vec::with_capacity(store.blocks.len());
        for block in &store.blocks {
            lane.push(count);
            count += block.entries.len();
        }
        starts.push(lane);
    }
    let mut old = match tenured.blocks.last() {
        Some(block) => Mark { block: tenured.blocks.len() - 1, index: block.entries.len() },
        None => Mark { block: 0, index: 0 },
    };
    let from = Source { stores, starts, words: vec![0; count] };
    let mut copier = Copier { from, young: Store::new(1), tenured, remembered: Vec::new() };
    for root in roots {
        *root = copier.forward(*root);
    }
    let mut young = Mark { block: 0, index: 0 };
    while copier.scan(true, &mut young) || copier.scan(false, &mut old) {}
    (copier.young, copier.tenured, copier.remembered)
}

const LISTS: usize = 64;
const NODES: u32 = 4_000_000;

/// So many nodes of 4 cells in 64 lists, whose last ones are the roots.
fn lists(store: &mut Store, count: u32) -> Vec<u64> {
    let mut places: Vec<u64> = Vec::with_capacity(LISTS);
    for number in 0..count {
        let header = Header { serial: number as u64, class: Class::Instance(1), age: 0 };
        let list = number as usize % LISTS;
        let before = places.get(list).copied();
        let next = before.map_or(Value::Null, Value::Ref);
        let place = store.push(header, &[Value::Int(number as i32), next]);
        match places.get_mut(list) {
            Some(last) => *last = place,
            None => places.push(place),
        }
    }
    places
}

fn collected(count: u32) -> u64 {
    let mut young = Store::new(1);
    let mut roots = lists(&mut young, NODES);
    let mut tenured = Store::new(2);
    for _ in 0..count {
        let condemned = [young, tenured];
        (young, tenured, _) = collect(&condemned, Store::new(2), &mut roots);
    }
    young.cells() + tenured.cells()
}

/// Copies the entries and values of the same nodes into new blocks, and nothing else.
fn copied(count: u32) -> u64 {
    let mut store = Store::new(1);
    lists(&mut store, NODES);
    for _ in 0..count {
        let mut blocks = Vec::with_capacity(store.blocks.len());
        for block in &store.blocks {
            blocks.push(Block {
                entries: block.entries.clone(),
                values: block.values.clone(),
                cells: block.cells,
            });
        }
        store = black_box(Store { lane: 1, blocks });
    }
    store.cells()
}

/// The nodes that are made between two minor collections: 65,536 cells.
const YOUNG: u32 = 16_384;

/// So many nodes that two minor collections have promoted.
fn promoted(count: u32) -> (Store, Store) {
    let (mut young, mut tenured) = (Store::new(1), Store::new(2));
    let mut roots = lists(&mut young, count);
    for _ in 0..2 {
        (young, tenured, _) = collect(&[young], tenured, &mut roots);
    }
    (young, tenured)
}

/// Beside so many old nodes, so many minor collections of 65,536 cells that live and as many that do not.
fn minor(old: u32, count: u32) -> u64 {
    let (mut young, mut tenured) = promoted(old);
    for _ in 0..count {
        let mut roots = lists(&mut young, YOUNG);
        (young, tenured, _) = collect(&[young], tenured, &mut roots);
    }
    young.cells() + tenured.cells()
}

/// The places that were noted, each once, with a mark for each object by its number in its lane.
struct Remembered {
    marks: Vec<Vec<bool>>,
    places: Vec<u64>,
}

impl Remembered {
    fn note(&mut self, place: u64) {
        let marks = &mut self.marks[lane_of(place) as usize];
        let number = block_of(place) * 256 + index_of(place);
        if marks.get(number) == Some(&true) {
            return;
        }
        if number >= marks.len() {
            marks.resize(number + 1, false);
        }
        marks[number] = true;
        self.places.push(place);
    }
}

/// Stores a reference into each of 256 old objects, and notes it, so often.
fn noted(count: u32) -> usize {
    let (_, mut tenured) = promoted(256);
    let mut places = Vec::new();
    for (number, block) in tenured.blocks.iter().enumerate() {
        for index in 0..block.entries.len() {
            places.push(place_of(2, number, index));
        }
    }
    let mut remembered = Remembered { marks: vec![Vec::new(); 64], places: Vec::new() };
    for _ in 0..count {
        for &place in &places {
            tenured.set(place, 1, Value::Ref(place));
            remembered.note(place);
        }
    }
    remembered.places.len()
}

/// A heap of so many cells: the young objects of one lane, up to a quarter of them, and the old ones.
struct Heap {
    limit: u64,
    next: u64,
    young: Store,
    young_cells: u64,
    tenured: Store,
    tenured_cells: u64,
}

impl Heap {
    /// Makes a node, the next one. A minor collection comes first where the young cells would pass the
    /// quarter, a full one where all would pass the limit.
    fn allocate(&mut self, roots: &mut [u64]) -> Option<u64> {
        let cells = 4;
        if self.young_cells + self.tenured_cells + cells > self.limit || self.young_cells + cells > self.limit / 4 {
            self.make_room(cells, roots)?;
        }
        if self.next >= 1 << 63 {
            return None;
        }
        let header = Header { serial: self.next, class: Class::Instance(1), age: 0 };
        self.next += 1;
        self.young_cells += cells;
        Some(self.young.push(header, &[Value::Int(0), Value::Null]))
    }

    #[inline(never)]
    fn make_room(&mut self, cells: u64, roots: &mut [u64]) -> Option<()> {
        let young = std::mem::replace(&mut self.young, Store::new(1));
        let tenured = std::mem::replace(&mut self.tenured, Store::new(2));
        let (young, tenured, _) = if self.young_cells + self.tenured_cells + cells > self.limit {
            collect(&[young, tenured], Store::new(2), roots)
        } else {
            collect(&[young], tenured, roots)
        };
        (self.young_cells, self.tenured_cells) = (young.cells(), tenured.cells());
        (self.young, self.tenured) = (young, tenured);
        (self.young_cells + self.tenured_cells + cells <= self.limit).then_some(())
    }

    fn store(&mut self, place: u64) -> &mut Store {
        if lane_of(place) == 1 { &mut self.young } else { &mut self.tenured }
    }

    /// How many values the object at a place has.
    fn length(&mut self, place: u64) -> u32 {
        self.store(place).blocks[block_of(place)].entries[index_of(place)].length
    }
}

/// Makes so many nodes, of which the last 64 are held, and adds up their ints.
fn allocated(count: u32) -> i32 {
    let mut heap =
        Heap { limit: 65_536, next: 0, young: Store::new(1), young_cells: 0, tenured: Store::new(2), tenured_cells: 0 };
    let mut roots = Vec::new();
    for _ in 0..LISTS {
        let place = heap.allocate(&mut roots).unwrap();
        roots.push(place);
    }
    for number in 0..count {
        let register = number as usize % LISTS;
        let place = heap.allocate(&mut roots).unwrap();
        roots[register] = place;
        assert!(heap.length(place) > 0);
        heap.store(place).set(place, 0, Value::Int(number as i32));
    }
    let mut sum = 0i32;
    for place in roots {
        let object = heap.store(place).blocks[block_of(place)].values(index_of(place));
        if let Value::Int(number) = object[0] {
            sum = sum.wrapping_add(number);
        }
    }
    sum
}

fn main() {
    let words: Vec<String> = std::env::args().skip(1).collect();
    let size: u32 = words.get(1).and_then(|word| word.parse().ok()).unwrap_or(1);
    let size = black_box(size);
    match words.first().map(String::as_str) {
        Some("collect") => println!("collect {size} cells {}", collected(size)),
        Some("memcpy") => println!("collect {size} cells {}", copied(size)),
        Some("minor-1") => println!("minor-1 {size} cells {}", minor(10_000, size)),
        Some("minor-10") => println!("minor-10 {size} cells {}", minor(100_000, size)),
        Some("minor-100") => println!("minor-100 {size} cells {}", minor(1_000_000, size)),
        Some("barrier") => println!("barrier {size} places {}", noted(size)),
        Some("allocate") => println!("allocate {size} sum {}", allocated(size)),
        _ => println!("no benchmark of that name"),
    }
}
