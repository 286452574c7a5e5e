//! The same work as `works heap SIZE` and, with the word `mark` before the size, as
//! `works mark SIZE`, in plain Rust: an arena of the same shape.

#[derive(Clone, Copy)]
enum Value {
    Int(i32),
    #[allow(dead_code)]
    Long(i64),
    Null,
    Ref(u64),
}

struct Object {
    #[allow(dead_code)]
    serial: u64,
    #[allow(dead_code)]
    class: u32,
    values: Vec<Value>,
}

enum Slot {
    Free(usize),
    Taken(Object),
}

struct Arena {
    limit: u64,
    used: u64,
    next: u64,
    free: usize,
    slots: Vec<Slot>,
}

#[derive(Clone, Copy)]
enum Kind {
    Int,
    #[allow(dead_code)]
    Long,
    Reference,
}

const NODE: &[Kind] = &[Kind::Int, Kind::Reference];

impl Arena {
    fn new(limit: u64) -> Arena {
        Arena { limit, used: 0, next: 0, free: usize::MAX, slots: Vec::new() }
    }

    fn allocate(&mut self, roots: &[u64], class: u32, fields: &[Kind]) -> Option<u64> {
        let cells = 2 + fields.len() as u64;
        if self.used + cells > self.limit {
            self.collect(roots);
            if self.used + cells > self.limit {
                return None;
            }
        }
        let values = fields
            .iter()
            .map(|kind| match kind {
                Kind::Int => Value::Int(0),
                Kind::Long => Value::Long(0),
                Kind::Reference => Value::Null,
            })
            .collect();
        let object = Object { serial: self.next, class, values };
        self.next += 1;
        self.used += cells;
        if let Some(Slot::Free(next)) = self.slots.get(self.free) {
            let index = self.free;
            self.free = *next;
            self.slots[index] = Slot::Taken(object);
            return Some(index as u64 + 1);
        }
        self.slots.push(Slot::Taken(object));
        Some(self.slots.len() as u64)
    }

    fn values(&self, place: u64) -> &[Value] {
        match &self.slots[place as usize - 1] {
            Slot::Taken(object) => &object.values,
            Slot::Free(_) => &[],
        }
    }

    fn set(&mut self, place: u64, index: usize, value: Value) {
        if let Slot::Taken(object) = &mut self.slots[place as usize - 1] {
            object.values[index] = value;
        }
    }

    fn collect(&mut self, roots: &[u64]) {
        let mut marks = vec![false; self.slots.len()];
        let mut pending = Vec::new();
        for root in roots {
            mark(&mut marks, &mut pending, *root);
        }
        while let Some(place) = pending.pop() {
            for value in self.values(place) {
                if let Value::Ref(named) = value {
                    mark(&mut marks, &mut pending, *named);
                }
            }
        }
        self.free = usize::MAX;
        for (index, slot) in self.slots.iter_mut().enumerate() {
            if !marks[index] {
                if let Slot::Taken(object) = slot {
                    self.used -= 2 + object.values.len() as u64;
                }
                *slot = Slot::Free(self.free);
                self.free = index;
            }
        }
    }
}

fn mark(marks: &mut [bool], pending: &mut Vec<u64>, place: u64) {
    let index = place as usize - 1;
    if !marks[index] {
        marks[index] = true;
        pending.push(place);
    }
}

fn garbage(count: u32) -> i32 {
    let mut arena = Arena::new(65_536);
    let mut roots = Vec::new();
    for _ in 0..64 {
        roots.push(arena.allocate(&roots, 1, NODE).unwrap());
    }
    for number in 0..count {
        let register = number as usize % 64;
        roots[register] = arena.allocate(&roots, 1, NODE).unwrap();
        if !arena.values(roots[register]).is_empty() {
            arena.set(roots[register], 0, Value::Int(number as i32));
        }
    }
    let ints = roots.iter().map(|place| match arena.values(*place)[0] {
        Value::Int(number) => number,
        _ => 0,
    });
    ints.fold(0i32, i32::wrapping_add)
}

fn marked(count: u32) -> u64 {
    let mut arena = Arena::new(65_536);
    let mut roots = Vec::new();
    for _ in 0..2 {
        roots.push(arena.allocate(&roots, 1, NODE).unwrap());
    }
    for _ in 0..65_536 / 4 - 3 {
        roots[1] = arena.allocate(&roots, 1, NODE).unwrap();
        arena.set(roots[1], 1, Value::Ref(roots[0]));
        roots[0] = roots[1];
    }
    for _ in 0..count {
        arena.collect(&roots);
    }
    arena.used
}

fn main() {
    let mut words = std::env::args().skip(1);
    let first = words.next().unwrap_or_default();
    if first == "mark" {
        let size: u32 = words.next().and_then(|s| s.parse().ok()).unwrap_or(10);
        println!("mark {size} cells {}", marked(std::hint::black_box(size)));
    } else {
        let size: u32 = first.parse().unwrap_or(10);
        println!("heap {size} sum {}", garbage(std::hint::black_box(size)));
    }
}
