//! bench FILE write|read TIMES: gives the calls of a file, one a line, to the reference's serializer, so often;
//! or asks its deserializer for each of them, so often. The file is what `bench SHAPE ITEMS calls 0` of crate bench prints.
use oracle::{deserialize, serialize};
use serde::de::{Deserialize, DeserializeSeed, Deserializer, EnumAccess, MapAccess, SeqAccess, VariantAccess, Visitor};
use serde::ser::{Error as _, Serialize, SerializeMap, SerializeSeq, SerializeTuple, Serializer};
use std::cell::Cell;
use std::fmt;
use std::hint::black_box;

#[derive(Clone)]
enum Call {
    Bool(bool),
    U8(u8),
    U16(u16),
    U32(u32),
    U64(u64),
    I8(i8),
    I16(i16),
    I32(i32),
    I64(i64),
    F32(u32),
    Text(String),
    Unit,
    None,
    Some,
    Variant(u32),
    Seq(u64),
    Map(u64),
    Tuple(u32),
    End,
}

fn parse(line: &str) -> Call {
    let (verb, rest) = line.split_once(' ').unwrap_or((line, ""));
    match verb {
        "bool" => Call::Bool(rest == "true"),
        "u8" => Call::U8(rest.parse().unwrap()),
        "u16" => Call::U16(rest.parse().unwrap()),
        "u32" => Call::U32(rest.parse().unwrap()),
        "u64" => Call::U64(rest.parse().unwrap()),
        "i8" => Call::I8(rest.parse().unwrap()),
        "i16" => Call::I16(rest.parse().unwrap()),
        "i32" => Call::I32(rest.parse().unwrap()),
        "i64" => Call::I64(rest.parse().unwrap()),
        "f32" => Call::F32(rest.parse().unwrap()),
        "text" => {
            let bytes = rest.split_whitespace().map(|b| u8::from_str_radix(b, 16).unwrap());
            Call::Text(String::from_utf8(bytes.collect()).unwrap())
        }
        "unit" => Call::Unit,
        "none" => Call::None,
        "some" => Call::Some,
        "variant" => Call::Variant(rest.parse().unwrap()),
        "seq" => Call::Seq(rest.parse().unwrap()),
        "map" => Call::Map(rest.parse().unwrap()),
        "tuple" => Call::Tuple(rest.parse().unwrap()),
        "end" => Call::End,
        _ => panic!("no call: {line}"),
    }
}

// ---- writing: the next call says which of the serializer's functions is called

struct Script<'a> {
    calls: &'a [Call],
    at: Cell<usize>,
}

impl<'a> Script<'a> {
    fn new(calls: &'a [Call]) -> Self {
        Script { calls, at: Cell::new(0) }
    }
    fn next(&self) -> Option<&'a Call> {
        let at = self.at.get();
        self.at.set(at + 1);
        self.calls.get(at)
    }
}

impl Serialize for Script<'_> {
    fn serialize<S: Serializer>(&self, s: S) -> Result<S::Ok, S::Error> {
        match self.next() {
            Some(Call::Bool(v)) => s.serialize_bool(*v),
            Some(Call::U8(v)) => s.serialize_u8(*v),
            Some(Call::U16(v)) => s.serialize_u16(*v),
            Some(Call::U32(v)) => s.serialize_u32(*v),
            Some(Call::U64(v)) => s.serialize_u64(*v),
            Some(Call::I8(v)) => s.serialize_i8(*v),
            Some(Call::I16(v)) => s.serialize_i16(*v),
            Some(Call::I32(v)) => s.serialize_i32(*v),
            Some(Call::I64(v)) => s.serialize_i64(*v),
            Some(Call::F32(v)) => s.serialize_f32(f32::from_bits(*v)),
            Some(Call::Text(v)) => s.serialize_str(v),
            Some(Call::Unit) => s.serialize_unit(),
            Some(Call::None) => s.serialize_none(),
            Some(Call::Some) => s.serialize_some(self),
            Some(Call::Variant(i)) => s.serialize_newtype_variant("", *i, "", self),
            Some(Call::Seq(n)) => {
                let mut seq = s.serialize_seq(Some(*n as usize))?;
                for _ in 0..*n {
                    seq.serialize_element(self)?;
                }
                self.next();
                seq.end()
            }
            Some(Call::Map(n)) => {
                let mut map = s.serialize_map(Some(*n as usize))?;
                for _ in 0..*n {
                    map.serialize_key(self)?;
                    map.serialize_value(self)?;
                }
                self.next();
                map.end()
            }
            Some(Call::Tuple(n)) => {
                let mut tuple = s.serialize_tuple(*n as usize)?;
                for _ in 0..*n {
                    tuple.serialize_element(self)?;
                }
                self.next();
                tuple.end()
            }
            Some(Call::End) | None => Err(S::Error::custom("no value")),
        }
    }
}

// ---- reading: the next call says which of the deserializer's functions is asked

thread_local! {
    static ASKED: Cell<*const Asked<'static>> = const { Cell::new(std::ptr::null()) };
}

struct Asked<'a> {
    script: Script<'a>,
    answers: Cell<u64>,
    texts: Cell<u64>,
}

impl Asked<'_> {
    fn add(&self, n: u64) {
        self.answers.set(self.answers.get().wrapping_add(n));
    }
}

#[derive(Clone, Copy)]
struct Value<'s, 'a>(&'s Asked<'a>);

impl<'de> DeserializeSeed<'de> for Value<'_, '_> {
    // A value with a size, so that no length is refused.
    type Value = u8;
    fn deserialize<D: Deserializer<'de>>(self, d: D) -> Result<u8, D::Error> {
        match self.0.script.next() {
            Some(Call::Bool(_)) => d.deserialize_bool(self),
            Some(Call::U8(_)) => d.deserialize_u8(self),
            Some(Call::U16(_)) => d.deserialize_u16(self),
            Some(Call::U32(_)) => d.deserialize_u32(self),
            Some(Call::U64(_)) => d.deserialize_u64(self),
            Some(Call::I8(_)) => d.deserialize_i8(self),
            Some(Call::I16(_)) => d.deserialize_i16(self),
            Some(Call::I32(_)) => d.deserialize_i32(self),
            Some(Call::I64(_)) => d.deserialize_i64(self),
            Some(Call::F32(_)) => d.deserialize_f32(self),
            Some(Call::Text(_)) => d.deserialize_str(self),
            Some(Call::Unit) => d.deserialize_unit(self),
            Some(Call::None | Call::Some) => d.deserialize_option(self),
            Some(Call::Variant(_)) => d.deserialize_enum("", &[], self),
            Some(Call::Seq(_)) => d.deserialize_seq(self),
            Some(Call::Map(_)) => d.deserialize_map(self),
            Some(Call::Tuple(n)) => d.deserialize_tuple(*n as usize, self),
            Some(Call::End) | None => Err(serde::de::Error::custom("no value")),
        }
    }
}

macro_rules! number {
    ($($visit:ident $t:ty as $u:ty),*) => {$(
        fn $visit<E>(self, v: $t) -> Result<u8, E> {
            self.0.add(v as $u as u64);
            Ok(0)
        }
    )*};
}

impl<'de> Visitor<'de> for Value<'_, '_> {
    type Value = u8;
    fn expecting(&self, f: &mut fmt::Formatter) -> fmt::Result {
        f.write_str("a value")
    }
    number!(visit_bool bool as u8, visit_u8 u8 as u8, visit_u16 u16 as u16, visit_u32 u32 as u32, visit_u64 u64 as u64);
    number!(visit_i8 i8 as u8, visit_i16 i16 as u16, visit_i32 i32 as u32, visit_i64 i64 as u64);
    fn visit_f32<E>(self, v: f32) -> Result<u8, E> {
        self.0.add(v.to_bits() as u64);
        Ok(0)
    }
    fn visit_borrowed_str<E>(self, v: &'de str) -> Result<u8, E> {
        self.0.add(v.len() as u64);
        if let [.., last] = v.as_bytes() {
            self.0.texts.set(self.0.texts.get().wrapping_add(*last as u64));
        }
        Ok(0)
    }
    fn visit_unit<E>(self) -> Result<u8, E> {
        Ok(0)
    }
    fn visit_none<E>(self) -> Result<u8, E> {
        Ok(0)
    }
    fn visit_some<D: Deserializer<'de>>(self, d: D) -> Result<u8, D::Error> {
        self.0.add(1);
        self.deserialize(d)
    }
    fn visit_enum<A: EnumAccess<'de>>(self, a: A) -> Result<u8, A::Error> {
        let (index, value) = a.variant_seed(Index)?;
        self.0.add(index as u64);
        value.newtype_variant_seed(self)
    }
    fn visit_seq<A: SeqAccess<'de>>(self, mut a: A) -> Result<u8, A::Error> {
        // A tuple's length is no answer.
        let tuple = matches!(self.0.script.calls[self.0.script.at.get() - 1], Call::Tuple(_));
        if !tuple {
            self.0.add(a.size_hint().unwrap() as u64);
        }
        while a.next_element_seed(self)?.is_some() {}
        self.0.script.next();
        Ok(0)
    }
    fn visit_map<A: MapAccess<'de>>(self, mut a: A) -> Result<u8, A::Error> {
        self.0.add(a.size_hint().unwrap() as u64);
        while a.next_key_seed(self)?.is_some() {
            a.next_value_seed(self)?;
        }
        self.0.script.next();
        Ok(0)
    }
}

struct Index;
impl<'de> DeserializeSeed<'de> for Index {
    type Value = u32;
    fn deserialize<D: Deserializer<'de>>(self, d: D) -> Result<u32, D::Error> {
        d.deserialize_identifier(self)
    }
}
impl<'de> Visitor<'de> for Index {
    type Value = u32;
    fn expecting(&self, f: &mut fmt::Formatter) -> fmt::Result {
        f.write_str("an index")
    }
    fn visit_u32<E>(self, v: u32) -> Result<u32, E> {
        Ok(v)
    }
}

/// The root, which is handed nothing.
struct Document;
impl<'de> Deserialize<'de> for Document {
    fn deserialize<D: Deserializer<'de>>(d: D) -> Result<Self, D::Error> {
        // Safety: `main` keeps what it points to until the reading is done.
        let asked = unsafe { &*ASKED.with(|a| a.get()) };
        Value(asked).deserialize(d)?;
        Ok(Document)
    }
}

fn main() {
    let args: Vec<String> = std::env::args().collect();
    let calls: Vec<Call> = std::fs::read_to_string(&args[1]).unwrap().lines().map(parse).collect();
    let times: u32 = args[3].parse().unwrap();
    println!("{} calls", calls.len());
    let mut bytes = serialize(&Script::new(&calls)).unwrap();
    if args[2] == "write" {
        for _ in 1..times {
            bytes = serialize(black_box(&Script::new(&calls))).unwrap();
        }
    } else {
        let mut sums = (0, 0);
        for _ in 0..times {
            let asked = Asked { script: Script::new(&calls), answers: Cell::new(0), texts: Cell::new(0) };
            ASKED.with(|a| a.set((&asked as *const Asked).cast()));
            deserialize::<Document>(black_box(&bytes)).unwrap();
            sums = (asked.answers.get(), asked.texts.get());
        }
        println!("  answers add up to {}, the texts' last bytes to {}", sums.0, sums.1);
    }
    let digest = bytes.iter().fold(0xcbf2_9ce4_8422_2325u64, |s, b| (s ^ *b as u64).wrapping_mul(0x100_0000_01b3));
    println!("  {} bytes, digest {digest:016x}", bytes.len());
}
