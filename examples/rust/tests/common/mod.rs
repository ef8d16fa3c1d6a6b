//! What the tests share: trees as the tests have them, drawn at random, encoded by the tests themselves, and taken out of views.
#![allow(dead_code)] // no test needs all of it

use riddoskam::build::{ItemsBuild, PairsBuild, Slot};
use riddoskam::*;

pub const FILE: &[u8] = include_bytes!("../../../../samples/prices.sol");
pub const KINDS: &[u8] = include_bytes!("../../../../samples/kinds.sol");
pub const PACKET: &[u8] = include_bytes!("../../../../samples/prices.amf");
pub const BENT: &[u8] = include_bytes!("../../../../samples/bent.amf");
pub const KEYLESS: &[u8] = include_bytes!("../../../../samples/librtmp-null-without-key.amf0");
pub const VALUES: [&[u8]; 6] = [
    include_bytes!("../../../../samples/ffmpeg-rtmp-connect.amf0"),
    include_bytes!("../../../../samples/ffmpeg-rtmp-result.amf0"),
    include_bytes!("../../../../samples/ffmpeg-script-keyframes.amf0"),
    include_bytes!("../../../../samples/ffmpeg-script.amf0"),
    include_bytes!("../../../../samples/flvmeta-script.amf0"),
    include_bytes!("../../../../samples/librtmp-ecma-array.amf0"),
];

/// A value with all that it holds. Doubles are their bits, so that those that are not a number are equal too.
#[derive(Clone, Debug, PartialEq)]
pub enum Model {
    Number(u64),
    Boolean(bool),
    String(String),
    Object(Vec<(String, Model)>),
    Null,
    Undefined,
    Reference(u16),
    EcmaArray(u32, Vec<Model>, Vec<(String, Model)>),
    StrictArray(Vec<Model>),
    Date(u64, Option<u16>),
    Unsupported,
    Xml(String),
    TypedObject(String, Vec<(String, Model)>),
}

/// As a view tells it.
pub fn seen(value: Value) -> Model {
    let list = |pairs: Pairs| pairs.map(|(key, value)| (key.to_string(), seen(value))).collect();
    match value.content() {
        Content::Number(n) => Model::Number(n.to_bits()),
        Content::Boolean(b) => Model::Boolean(b),
        Content::String(text) => Model::String(text.into()),
        Content::Object(pairs) => Model::Object(list(pairs)),
        Content::Null => Model::Null,
        Content::Undefined => Model::Undefined,
        Content::Reference(n) => Model::Reference(n),
        Content::EcmaArray { length, items, pairs } => Model::EcmaArray(length, items.map(seen).collect(), list(pairs)),
        Content::StrictArray(items) => Model::StrictArray(items.map(seen).collect()),
        Content::Date(date) => Model::Date(date.milliseconds.to_bits(), date.zone.map(|zone| zone as u16)),
        Content::Unsupported => Model::Unsupported,
        Content::Xml(text) => Model::Xml(text.into()),
        Content::TypedObject { class, pairs } => Model::TypedObject(class.into(), list(pairs)),
    }
}

/// As the records tell it, one by one, and the place behind it.
pub fn walked(image: &[u8], input: &[u8], at: usize) -> (Model, usize) {
    let text = |t: Text| String::from_utf8(part(input, t).to_vec()).unwrap();
    let (record, next) = record_at(image, at).unwrap();
    let model = match record {
        Record::Number(n) => Model::Number(n.to_bits()),
        Record::Boolean(b) => Model::Boolean(b),
        Record::String(t) => Model::String(text(t)),
        Record::Null => Model::Null,
        Record::Undefined => Model::Undefined,
        Record::Reference(n) => Model::Reference(n),
        Record::Date(n, zone) => Model::Date(n.to_bits(), zone),
        Record::Unsupported => Model::Unsupported,
        Record::Xml(t) => Model::Xml(text(t)),
        Record::Object => {
            let (pairs, next) = walked_pairs(image, input, next);
            return (Model::Object(pairs), next);
        }
        Record::TypedObject(class) => {
            let (pairs, next) = walked_pairs(image, input, next);
            return (Model::TypedObject(text(class), pairs), next);
        }
        Record::StrictArray(count) => {
            let (items, next) = walked_items(image, input, next, count);
            return (Model::StrictArray(items), next);
        }
        Record::EcmaArray(length) => {
            let mut dense = 0;
            let mut at = next;
            while Kind::of(record_at(image, at).unwrap().0).is_some() {
                at = walked(image, input, at).1;
                dense += 1;
            }
            let (items, next) = walked_items(image, input, next, dense);
            let (pairs, next) = walked_pairs(image, input, next);
            return (Model::EcmaArray(length, items, pairs), next);
        }
        other => panic!("no value: {other:?}"),
    };
    (model, next)
}

pub fn walked_pairs(image: &[u8], input: &[u8], mut at: usize) -> (Vec<(String, Model)>, usize) {
    let mut pairs = Vec::new();
    while at < image.len() {
        let (Record::Key(key), value) = record_at(image, at).unwrap() else { return (pairs, at + 1) };
        let (model, next) = walked(image, input, value);
        pairs.push((String::from_utf8(part(input, key).to_vec()).unwrap(), model));
        at = next;
    }
    (pairs, at)
}

fn walked_items(image: &[u8], input: &[u8], mut at: usize, count: u32) -> (Vec<Model>, usize) {
    let mut items = Vec::new();
    for _ in 0..count {
        let (model, next) = walked(image, input, at);
        items.push(model);
        at = next;
    }
    (items, at)
}

/// The value under a key: the last pair's.
pub fn last<'m>(pairs: &'m [(String, Model)], key: &str) -> Option<&'m Model> {
    pairs.iter().rev().find(|(k, _)| k == key).map(|(_, value)| value)
}

pub struct Random(pub u64);

impl Random {
    pub fn below(&mut self, n: usize) -> usize {
        self.0 ^= self.0 << 13;
        self.0 ^= self.0 >> 7;
        self.0 ^= self.0 << 17;
        (self.0 % n as u64) as usize
    }

    fn text(&mut self) -> String {
        ["", "a", "b", "ab", "cents", "ö", "日本", "\u{1F600}", "\0"][self.below(9)].into()
    }

    fn pairs(&mut self, levels: usize) -> Vec<(String, Model)> {
        (0..self.below(5)).map(|_| (self.text(), self.model(levels))).collect()
    }

    /// A value that has no more levels.
    pub fn model(&mut self, levels: usize) -> Model {
        let kind = self.below(if levels > 1 { 13 } else { 9 });
        match kind {
            0 => Model::Number([0, f64::NAN.to_bits(), (-0.0_f64).to_bits(), 1.29_f64.to_bits(), u64::MAX][self.below(5)]),
            1 => Model::Boolean(self.below(2) == 1),
            2 => Model::String(self.text()),
            3 => Model::Null,
            4 => Model::Undefined,
            5 => Model::Reference(self.below(65_536) as u16),
            6 => Model::Date(1e12_f64.to_bits(), Some(self.below(65_536) as u16)),
            7 => Model::Unsupported,
            8 => Model::Xml(self.text()),
            9 => Model::Object(self.pairs(levels - 1)),
            10 => {
                let pairs = self.pairs(levels - 1);
                Model::EcmaArray(pairs.len() as u32, Vec::new(), pairs)
            }
            11 => Model::StrictArray((0..self.below(5)).map(|_| self.model(levels - 1)).collect()),
            _ => Model::TypedObject(self.text(), self.pairs(levels - 1)),
        }
    }
}

/// The bytes of AMF0, by the document. A key that is empty and followed by 09 would be an end; no marker here is 09.
pub fn encoded(model: &Model, out: &mut Vec<u8>) {
    match model {
        Model::Number(bits) => {
            out.push(0x00);
            out.extend(bits.to_be_bytes());
        }
        Model::Boolean(b) => out.extend([0x01, u8::from(*b)]),
        Model::String(text) => {
            out.push(0x02);
            short(text, out);
        }
        Model::Object(list) => {
            out.push(0x03);
            pairs(list, out);
        }
        Model::Null => out.push(0x05),
        Model::Undefined => out.push(0x06),
        Model::Reference(n) => {
            out.push(0x07);
            out.extend(n.to_be_bytes());
        }
        Model::EcmaArray(length, dense, list) => {
            assert!(dense.is_empty(), "no encoding has values without a key");
            out.push(0x08);
            out.extend(length.to_be_bytes());
            pairs(list, out);
        }
        Model::StrictArray(items) => {
            out.push(0x0A);
            out.extend((items.len() as u32).to_be_bytes());
            items.iter().for_each(|item| encoded(item, out));
        }
        Model::Date(bits, zone) => {
            out.push(0x0B);
            out.extend(bits.to_be_bytes());
            out.extend(zone.unwrap_or(0).to_be_bytes());
        }
        Model::Unsupported => out.push(0x0D),
        Model::Xml(text) => {
            out.push(0x0F);
            out.extend((text.len() as u32).to_be_bytes());
            out.extend(text.bytes());
        }
        Model::TypedObject(class, list) => {
            out.push(0x10);
            short(class, out);
            pairs(list, out);
        }
    }
}

pub fn short(text: &str, out: &mut Vec<u8>) {
    out.extend((text.len() as u16).to_be_bytes());
    out.extend(text.bytes());
}

fn pairs(list: &[(String, Model)], out: &mut Vec<u8>) {
    for (key, value) in list {
        short(key, out);
        encoded(value, out);
    }
    out.extend([0, 0, 9]);
}

/// Builds it.
pub fn build(slot: Slot, model: &Model) {
    let fill = |list: &[(String, Model)], to: &mut PairsBuild| list.iter().for_each(|(key, value)| build(to.pair(key), value));
    match model {
        Model::Number(bits) => slot.number(f64::from_bits(*bits)),
        Model::Boolean(b) => slot.boolean(*b),
        Model::String(text) => slot.string(text),
        Model::Object(list) => slot.object(|to| fill(list, to)),
        Model::Null => slot.null(),
        Model::Undefined => slot.undefined(),
        Model::Reference(n) => slot.reference(*n),
        Model::EcmaArray(_, _, list) => slot.ecma_array(|to| fill(list, to)),
        Model::StrictArray(items) => slot.array(|to: &mut ItemsBuild| items.iter().for_each(|item| build(to.item(), item))),
        Model::Date(bits, zone) => slot.date(Date { milliseconds: f64::from_bits(*bits), zone: zone.map(|zone| zone as i16) }),
        Model::Unsupported => slot.unsupported(),
        Model::Xml(text) => slot.xml(text),
        Model::TypedObject(class, list) => slot.typed_object(class, |to| fill(list, to)),
    }
}
