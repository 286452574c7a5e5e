//! The same work as `works read SIZE`, in plain Rust: a class of that many methods, read to
//! symbolic instructions. Texts are UTF-16 code units; every name and type that is used is parsed,
//! tested and copied.
#![allow(dead_code)]

#[rustfmt::skip]
const FRONT: [u8; 205] = [
    0xCA, 0xFE, 0xBA, 0xBE, 0x00, 0x00, 0x00, 0x31, 0x00, 0x14, 0x01, 0x00,
    0x04, 0x4D, 0x61, 0x69, 0x6E, 0x07, 0x00, 0x01, 0x01, 0x00, 0x10, 0x6A,
    0x61, 0x76, 0x61, 0x2F, 0x6C, 0x61, 0x6E, 0x67, 0x2F, 0x4F, 0x62, 0x6A,
    0x65, 0x63, 0x74, 0x07, 0x00, 0x03, 0x01, 0x00, 0x04, 0x6D, 0x61, 0x69,
    0x6E, 0x01, 0x00, 0x16, 0x28, 0x5B, 0x4C, 0x6A, 0x61, 0x76, 0x61, 0x2F,
    0x6C, 0x61, 0x6E, 0x67, 0x2F, 0x53, 0x74, 0x72, 0x69, 0x6E, 0x67, 0x3B,
    0x29, 0x56, 0x01, 0x00, 0x04, 0x43, 0x6F, 0x64, 0x65, 0x01, 0x00, 0x10,
    0x6A, 0x61, 0x76, 0x61, 0x2F, 0x6C, 0x61, 0x6E, 0x67, 0x2F, 0x53, 0x79,
    0x73, 0x74, 0x65, 0x6D, 0x07, 0x00, 0x08, 0x01, 0x00, 0x03, 0x6F, 0x75,
    0x74, 0x01, 0x00, 0x15, 0x4C, 0x6A, 0x61, 0x76, 0x61, 0x2F, 0x69, 0x6F,
    0x2F, 0x50, 0x72, 0x69, 0x6E, 0x74, 0x53, 0x74, 0x72, 0x65, 0x61, 0x6D,
    0x3B, 0x0C, 0x00, 0x0A, 0x00, 0x0B, 0x09, 0x00, 0x09, 0x00, 0x0C, 0x01,
    0x00, 0x13, 0x6A, 0x61, 0x76, 0x61, 0x2F, 0x69, 0x6F, 0x2F, 0x50, 0x72,
    0x69, 0x6E, 0x74, 0x53, 0x74, 0x72, 0x65, 0x61, 0x6D, 0x07, 0x00, 0x0E,
    0x01, 0x00, 0x07, 0x70, 0x72, 0x69, 0x6E, 0x74, 0x6C, 0x6E, 0x01, 0x00,
    0x04, 0x28, 0x49, 0x29, 0x56, 0x0C, 0x00, 0x10, 0x00, 0x11, 0x0A, 0x00,
    0x0F, 0x00, 0x12, 0x00, 0x21, 0x00, 0x02, 0x00, 0x04, 0x00, 0x00, 0x00,
    0x00,
];

#[rustfmt::skip]
const METHOD: [u8; 36] = [
    0x00, 0x09, 0x00, 0x05, 0x00, 0x06, 0x00, 0x01, 0x00, 0x07, 0x00, 0x00,
    0x00, 0x16, 0x00, 0x08, 0x00, 0x08, 0x00, 0x00, 0x00, 0x0A, 0xB2, 0x00,
    0x0D, 0x05, 0x06, 0x60, 0xB6, 0x00, 0x13, 0xB1, 0x00, 0x00, 0x00, 0x00,
];


type Text = Vec<u16>;

struct Reader<'a>(&'a [u8]);

impl<'a> Reader<'a> {
    fn take(&mut self, n: usize) -> Option<&'a [u8]> {
        if self.0.len() < n {
            return None;
        }
        let (front, rest) = self.0.split_at(n);
        self.0 = rest;
        Some(front)
    }
    fn u1(&mut self) -> Option<u8> {
        Some(self.take(1)?[0])
    }
    fn u2(&mut self) -> Option<u16> {
        let b = self.take(2)?;
        Some(u16::from_be_bytes([b[0], b[1]]))
    }
    fn u4(&mut self) -> Option<u32> {
        let b = self.take(4)?;
        Some(u32::from_be_bytes([b[0], b[1], b[2], b[3]]))
    }
}

enum Entry {
    Utf8(Text),
    Integer(i32),
    Long(i64),
    Class(u16),
    String(u16),
    Field(u16, u16),
    Method(u16, u16),
    InterfaceMethod(u16, u16),
    NameAndType(u16, u16),
    Unusable,
}

fn text(bytes: &[u8]) -> Option<Text> {
    let mut units = Vec::new();
    let mut i = 0;
    while i < bytes.len() {
        let b = bytes[i] as u16;
        let at = |k: usize| bytes.get(i + k).filter(|b| **b & 0xC0 == 0x80).map(|b| *b as u16 & 0x3F);
        match b {
            0x01..=0x7F => {
                units.push(b);
                i += 1;
            }
            0xC0..=0xDF => {
                let u = (b & 0x1F) << 6 | at(1)?;
                if u != 0 && u < 0x80 {
                    return None;
                }
                units.push(u);
                i += 2;
            }
            0xE0..=0xEF => {
                let u = (b & 0x0F) << 12 | at(1)? << 6 | at(2)?;
                if u < 0x800 {
                    return None;
                }
                units.push(u);
                i += 3;
            }
            _ => return None,
        }
    }
    Some(units)
}

struct Pool(Vec<Entry>);

impl Pool {
    fn read(r: &mut Reader) -> Option<Pool> {
        let count = r.u2()? as usize;
        let mut entries = Vec::new();
        while entries.len() + 1 < count {
            let entry = match r.u1()? {
                1 => {
                    let n = r.u2()? as usize;
                    Entry::Utf8(text(r.take(n)?)?)
                }
                3 => Entry::Integer(r.u4()? as i32),
                5 => Entry::Long(((r.u4()? as i64) << 32) | r.u4()? as i64),
                7 => Entry::Class(r.u2()?),
                8 => Entry::String(r.u2()?),
                9 => Entry::Field(r.u2()?, r.u2()?),
                10 => Entry::Method(r.u2()?, r.u2()?),
                11 => Entry::InterfaceMethod(r.u2()?, r.u2()?),
                12 => Entry::NameAndType(r.u2()?, r.u2()?),
                _ => return None,
            };
            let long = matches!(entry, Entry::Long(_));
            entries.push(entry);
            if long {
                entries.push(Entry::Unusable);
            }
        }
        let pool = Pool(entries);
        let right = pool.0.iter().all(|entry| match entry {
            Entry::Class(n) | Entry::String(n) => pool.text(*n).is_some(),
            Entry::Field(c, n) | Entry::Method(c, n) | Entry::InterfaceMethod(c, n) => {
                pool.class(*c).is_some() && pool.name_and_type(*n).is_some()
            }
            Entry::NameAndType(n, d) => pool.text(*n).is_some() && pool.text(*d).is_some(),
            _ => true,
        });
        right.then_some(pool)
    }
    fn entry(&self, i: u16) -> Option<&Entry> {
        self.0.get((i as usize).checked_sub(1)?)
    }
    fn text(&self, i: u16) -> Option<&[u16]> {
        match self.entry(i)? {
            Entry::Utf8(t) => Some(t),
            _ => None,
        }
    }
    fn class(&self, i: u16) -> Option<&[u16]> {
        match self.entry(i)? {
            Entry::Class(n) => self.text(*n),
            _ => None,
        }
    }
    fn name_and_type(&self, i: u16) -> Option<(&[u16], &[u16])> {
        match self.entry(i)? {
            Entry::NameAndType(n, d) => Some((self.text(*n)?, self.text(*d)?)),
            _ => None,
        }
    }
}

enum Element {
    Base(u16),
    Class(Text),
}

struct FieldType {
    dimensions: u8,
    element: Element,
}

struct MethodType {
    parameters: Vec<FieldType>,
    result: Option<FieldType>,
}

fn is_name(units: &[u16]) -> bool {
    !units.is_empty() && units.iter().all(|u| ![46, 59, 91, 47].contains(u))
}

fn is_class_name(units: &[u16]) -> bool {
    units.split(|u| *u == 47).all(is_name)
}

fn field_front(units: &[u16]) -> Option<(FieldType, &[u16])> {
    let dimensions = units.iter().take_while(|u| **u == 91).count();
    if dimensions > 255 {
        return None;
    }
    let (first, rest) = units[dimensions..].split_first()?;
    let dimensions = dimensions as u8;
    if *first == 76 {
        let end = rest.iter().position(|u| *u == 59)?;
        let name = rest[..end].to_vec();
        return is_class_name(&name).then(|| {
            let element = Element::Class(name);
            (FieldType { dimensions, element }, &rest[end + 1..])
        });
    }
    [66, 67, 73, 74, 83, 90].contains(first).then(|| {
        let element = Element::Base(*first);
        (FieldType { dimensions, element }, rest)
    })
}

fn field_type(units: &[u16]) -> Option<FieldType> {
    let (field, rest) = field_front(units)?;
    rest.is_empty().then_some(field)
}

fn slots(field: &FieldType) -> usize {
    match &field.element {
        Element::Base(74) if field.dimensions == 0 => 2,
        _ => 1,
    }
}

fn method_type(receiver: usize, units: &[u16]) -> Option<MethodType> {
    let (open, mut rest) = units.split_first()?;
    if *open != 40 {
        return None;
    }
    let mut parameters = Vec::new();
    while *rest.first()? != 41 {
        let (parameter, after) = field_front(rest)?;
        parameters.push(parameter);
        rest = after;
    }
    let result = if rest[1..] == [86] { None } else { Some(field_type(&rest[1..])?) };
    let total: usize = parameters.iter().map(slots).sum();
    (total + receiver <= 255).then_some(MethodType { parameters, result })
}

enum ClassRef {
    Class(Text),
    Array(FieldType),
}

fn class_ref(units: &[u16]) -> Option<ClassRef> {
    if units.first() == Some(&91) {
        Some(ClassRef::Array(field_type(units)?))
    } else {
        is_class_name(units).then(|| ClassRef::Class(units.to_vec()))
    }
}

struct Member<T> {
    class: ClassRef,
    name: Text,
    descriptor: T,
}

enum Instr {
    Simple(u8),
    Field(u8, Member<FieldType>),
    Invoke(u8, Member<MethodType>),
}

// The instructions that the worked method has.
fn instruction(pool: &Pool, r: &mut Reader) -> Option<Instr> {
    let op = r.u1()?;
    match op {
        0..=10 | 96 | 177 => Some(Instr::Simple(op)),
        178..=181 => {
            let Entry::Field(c, n) = pool.entry(r.u2()?)? else { return None };
            let (name, descriptor) = pool.name_and_type(*n)?;
            let class = class_ref(pool.class(*c)?)?;
            let name = is_name(name).then(|| name.to_vec())?;
            let descriptor = field_type(descriptor)?;
            Some(Instr::Field(op, Member { class, name, descriptor }))
        }
        182..=184 => {
            let Entry::Method(c, n) = pool.entry(r.u2()?)? else { return None };
            let (name, descriptor) = pool.name_and_type(*n)?;
            let class = class_ref(pool.class(*c)?)?;
            let name = is_name(name).then(|| name.to_vec())?;
            let descriptor = method_type(usize::from(op != 184), descriptor)?;
            Some(Instr::Invoke(op, Member { class, name, descriptor }))
        }
        _ => None,
    }
}

struct Code {
    max_stack: u16,
    max_locals: u16,
    instructions: Vec<Instr>,
}

fn code(pool: &Pool, slots: usize, bytes: &[u8]) -> Option<Code> {
    let mut r = Reader(bytes);
    let (max_stack, max_locals) = (r.u2()?, r.u2()?);
    if (max_locals as usize) < slots {
        return None;
    }
    let length = r.u4()? as usize;
    let mut inside = Reader(r.take(length)?);
    let mut starts = vec![u32::MAX; length];
    let mut instructions = Vec::new();
    while !inside.0.is_empty() {
        starts[length - inside.0.len()] = instructions.len() as u32;
        instructions.push(instruction(pool, &mut inside)?);
    }
    let handlers = r.u2()?;
    let attributes = r.u2()?;
    (handlers == 0 && attributes == 0 && r.0.is_empty()).then_some(Code { max_stack, max_locals, instructions })
}

struct Method {
    flags: u16,
    name: Text,
    descriptor: MethodType,
    code: Option<Code>,
}

fn method(pool: &Pool, r: &mut Reader) -> Option<Method> {
    let flags = r.u2()?;
    let receiver = usize::from(flags & 8 == 0);
    let name = pool.text(r.u2()?)?;
    let name = is_name(name).then(|| name.to_vec())?;
    let descriptor = method_type(receiver, pool.text(r.u2()?)?)?;
    let slots = receiver + descriptor.parameters.iter().map(slots).sum::<usize>();
    let mut found = None;
    for _ in 0..r.u2()? {
        let attribute = pool.text(r.u2()?)?;
        let length = r.u4()? as usize;
        let bytes = r.take(length)?;
        if attribute.iter().copied().eq("Code".encode_utf16()) {
            found = Some(code(pool, slots, bytes)?);
        }
    }
    Some(Method { flags, name, descriptor, code: found })
}

struct Class {
    flags: u16,
    name: Text,
    superclass: Text,
    methods: Vec<Method>,
}

fn class(bytes: &[u8]) -> Option<Class> {
    let mut r = Reader(bytes);
    if r.u4()? != 0xCAFE_BABE {
        return None;
    }
    let _version = r.u4()?;
    let pool = Pool::read(&mut r)?;
    let flags = r.u2()?;
    let name = pool.class(r.u2()?).filter(|n| is_class_name(n))?.to_vec();
    let superclass = pool.class(r.u2()?).filter(|n| is_class_name(n))?.to_vec();
    if r.u4()? != 0 {
        return None;
    }
    let count = r.u2()?;
    let mut methods = Vec::new();
    for _ in 0..count {
        methods.push(method(&pool, &mut r)?);
    }
    (r.u2()? == 0 && r.0.is_empty()).then_some(Class { flags, name, superclass, methods })
}

// What was read is used, so that none of it is left out of the build.
fn weight(class: &Class) -> usize {
    let of_type = |t: &FieldType| match &t.element {
        Element::Base(_) => 1,
        Element::Class(name) => name.len(),
    };
    let of_class = |c: &ClassRef| match c {
        ClassRef::Class(name) => name.len(),
        ClassRef::Array(t) => of_type(t),
    };
    let of_method = |m: &MethodType| m.parameters.len() + m.result.as_ref().map_or(0, of_type);
    let mut total = usize::from(class.flags) + class.name.len() + class.superclass.len();
    for m in &class.methods {
        total += usize::from(m.flags) + m.name.len() + of_method(&m.descriptor);
        if let Some(c) = &m.code {
            total += usize::from(c.max_stack) + usize::from(c.max_locals);
            for i in &c.instructions {
                total += match i {
                    Instr::Simple(op) => usize::from(*op),
                    Instr::Field(_, f) => f.name.len() + of_class(&f.class) + of_type(&f.descriptor),
                    Instr::Invoke(_, f) => f.name.len() + of_class(&f.class) + of_method(&f.descriptor),
                };
            }
        }
    }
    total
}

fn main() {
    let size: u16 = std::env::args().nth(1).and_then(|s| s.parse().ok()).unwrap_or(10);
    let mut bytes = FRONT.to_vec();
    bytes.extend_from_slice(&size.to_be_bytes());
    for _ in 0..size {
        bytes.extend_from_slice(&METHOD);
    }
    bytes.extend_from_slice(&[0, 0]);
    let class = class(std::hint::black_box(&bytes)).expect("a class");
    std::hint::black_box(weight(&class));
    let instructions: usize = class.methods.iter().flat_map(|m| &m.code).map(|c| c.instructions.len()).sum();
    println!("read {size} instructions {instructions}");
}
