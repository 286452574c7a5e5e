//! The same work as `works descriptors SIZE`, in plain Rust.

struct FieldType {
    dimensions: u8,
    element: Element,
}

enum Element {
    Base(u16),
    Class(Vec<u16>),
}

fn field(units: &[u16]) -> Option<(FieldType, &[u16])> {
    let dimensions = units.iter().take_while(|u| **u == 91).count();
    if dimensions > 255 {
        return None;
    }
    let (first, rest) = units[dimensions..].split_first()?;
    let dimensions = dimensions as u8;
    if *first == 76 {
        let end = rest.iter().position(|u| *u == 59)?;
        let name = rest[..end].to_vec();
        let is_name = name.split(|u| *u == 47).all(|part| {
            !part.is_empty() && part.iter().all(|u| ![46, 59, 91, 47].contains(u))
        });
        return is_name.then(|| {
            let element = Element::Class(name);
            (FieldType { dimensions, element }, &rest[end + 1..])
        });
    }
    [66, 67, 68, 70, 73, 74, 83, 90]
        .contains(first)
        .then(|| (FieldType { dimensions, element: Element::Base(*first) }, rest))
}

fn slots(field: &FieldType) -> u64 {
    match &field.element {
        Element::Base(74 | 68) if field.dimensions == 0 => 2,
        Element::Base(_) => 1,
        Element::Class(name) => u64::from(!name.is_empty()),
    }
}

fn method(text: &str) -> Option<u64> {
    let units: Vec<u16> = text.encode_utf16().collect();
    let (open, mut rest) = units.split_first()?;
    if *open != 40 {
        return None;
    }
    let mut parameters = Vec::new();
    while *rest.first()? != 41 {
        let (parameter, after) = field(rest)?;
        parameters.push(parameter);
        rest = after;
    }
    if rest[1..] != [86] {
        let (_, after) = field(&rest[1..])?;
        if !after.is_empty() {
            return None;
        }
    }
    Some(parameters.iter().map(slots).sum())
}

fn main() {
    let size: u32 = std::env::args().nth(1).and_then(|s| s.parse().ok()).unwrap_or(10);
    let text = "(ILjava/lang/Object;[[JZLa/rather/longer/name/of/a/Class;J)[[Ljava/lang/String;";
    let mut total = 0u64;
    for _ in 0..size {
        total += method(std::hint::black_box(text)).unwrap_or(0);
    }
    println!("descriptors {size} slots {total}");
}
