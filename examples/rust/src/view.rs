//! Values as they stand in an image: what they are, what they hold, and the way down to them.
//!
//! No view is made but over a tree that the library has read or judged. All the same nothing here relies on that for its safety or its end: over any bytes a walk
//! goes by the records that it finds, each once a call, keeps what is open in a row of [`LEVELS`] places, without recursion, and stops where it can't go on.
#![forbid(unsafe_code)]

use core::fmt;
use core::iter::FusedIterator;
use core::str::from_utf8;

use crate::answer::{Answer, Refusal};
use crate::calls::{index, inside, parse_single_element, part, record_at, step, write_value, Reading, Record, Text, BYTES, INDEX_RECORD, LEVELS};

/// The bytes of the shortest pair in an image: a key's record and a null.
const PAIR: usize = 7;

/// A writing.
type Judge = fn(&[u8], &[u8], &mut [u8]) -> Result<usize, Answer>;

/// A tree: its image alone, without what stands behind it in the buffer, the text that the image names, and its index, which is empty where none was made.
#[derive(Clone, Copy)]
pub(crate) struct Tree<'a> {
    pub(crate) image: &'a [u8],
    pub(crate) text: &'a [u8],
    index: &'a [u8],
}

impl<'a> Tree<'a> {
    /// What a reading made of an input in an image.
    pub(crate) fn made(input: &'a [u8], image: &'a [u8], made: usize) -> Tree<'a> {
        Tree { image: front(image, made), text: input, index: &[] }
    }

    /// An image from elsewhere, judged by a writer that has no room to write: it looks at everything else before.
    ///
    /// A writer looks at a text once for each record that names it. Records that name more than an output may have are refused before, so that this takes a
    /// time that goes by the lengths of the image and the text alone.
    pub(crate) fn judged(by: Judge, image: &'a [u8], text: &'a [u8]) -> Result<Tree<'a>, Answer> {
        if named(image, text) > BYTES {
            return Err(Answer::OverLimit);
        }
        match by(image, text, &mut []) {
            Err(Answer::NoRoom) => Ok(Tree { image, text, index: &[] }),
            Err(answer) => Err(answer),
            // No tree is written in no bytes.
            Ok(_) => Err(Answer::NoTree),
        }
    }

    /// The same tree, and an index in a buffer.
    pub(crate) fn indexed(self, buffer: &'a mut [u8]) -> Result<Tree<'a>, Answer> {
        let count = index(self.image, self.text, buffer)?;
        Ok(Tree { index: front(buffer, INDEX_RECORD * count), ..self })
    }

    /// A text of the tree. It was found to be UTF-8 when the tree was read or judged. It is looked at again here, in a time that goes by its length, since to go
    /// without that would take `unsafe`. In no tree does it come to the empty text by being wrong.
    pub(crate) fn str(self, text: Text) -> &'a str {
        from_utf8(part(self.text, text)).unwrap_or("")
    }

    /// The value whose record stands at a place.
    pub(crate) fn value(self, at: usize) -> Option<Value<'a>> {
        let (record, next) = record_at(self.image, at).ok()?;
        let kind = Kind::of(record)?;
        Some(Value { tree: self, at, kind, record, next })
    }

    /// The pairs from a place on.
    pub(crate) fn pairs(self, at: usize) -> Pairs<'a> {
        Pairs { tree: self, at }
    }

    /// The last pair of a key in the container at a place, whose pairs begin at another: by the index if there is one.
    pub(crate) fn get(self, container: usize, pairs: Pairs<'a>, key: &str) -> Option<Value<'a>> {
        if self.index.is_empty() {
            pairs.last_of(key.as_bytes())
        } else {
            self.value(step(self.image, self.text, self.index, container, key.as_bytes())?)
        }
    }
}

fn front(row: &[u8], length: usize) -> &[u8] {
    // By the contracts of the calls it is never longer than the row.
    row.get(..length).unwrap_or(row)
}

/// The bytes of all texts that the records of an image name, up to a text that isn't inside, where a writer refuses it without looking at more.
fn named(image: &[u8], text: &[u8]) -> usize {
    let (mut at, mut sum, mut whole) = (0, 0_usize, true);
    while let (true, Ok((record, next))) = (whole, record_at(image, at)) {
        record.with_texts(|named| {
            whole &= inside(text, named);
            sum = sum.saturating_add(if whole { named.length } else { 0 });
            named
        });
        at = next;
    }
    sum
}

/// What is still due in a container that a walk is in.
#[derive(Clone, Copy)]
enum Due {
    /// So many values.
    Values(u32),
    /// Values without a key, then pairs and the end.
    Dense,
    /// Pairs and the end.
    Pairs,
}

/// The containers that a walk over one value is in, the innermost last. The first is none: it stands for the place of the value.
struct Open {
    due: [Due; LEVELS + 1],
    level: usize,
    /// Whether a key was just taken, so that its value is due.
    keyed: bool,
}

impl Open {
    fn new() -> Open {
        Open { due: [Due::Values(1); LEVELS + 1], level: 0, keyed: false }
    }

    /// Takes a record, if it may stand here.
    fn take(&mut self, record: Record) -> Option<()> {
        let due = self.due.get_mut(self.level)?;
        match (record, *due) {
            (Record::Key(_), Due::Dense | Due::Pairs) if !self.keyed => {
                *due = Due::Pairs;
                self.keyed = true;
            }
            (Record::ObjectEnd, Due::Dense | Due::Pairs) if !self.keyed => self.level = self.level.checked_sub(1)?,
            (_, Due::Pairs) if !self.keyed => return None,
            (_, Due::Values(left)) => {
                *due = Due::Values(left.checked_sub(1)?);
                self.enter(record)?;
            }
            (_, Due::Dense | Due::Pairs) => {
                self.keyed = false;
                self.enter(record)?;
            }
        }
        self.close();
        Some(())
    }

    /// Takes a value, if there is a level for it, and goes into it, if it is a container.
    fn enter(&mut self, record: Record) -> Option<()> {
        if self.level == LEVELS {
            return None;
        }
        let due = match record {
            Record::Object | Record::TypedObject(_) => Due::Pairs,
            Record::EcmaArray(_) => Due::Dense,
            Record::StrictArray(count) => Due::Values(count),
            other => return Kind::of(other).map(|_| ()),
        };
        self.level += 1;
        *self.due.get_mut(self.level)? = due;
        Some(())
    }

    /// Goes out of the arrays that have all their values.
    fn close(&mut self) {
        while self.level > 0 && matches!(self.due.get(self.level), Some(Due::Values(0))) {
            self.level -= 1;
        }
    }

    fn done(&self) -> bool {
        matches!((self.level, self.due), (0, [Due::Values(0), ..]))
    }
}

/// The place behind the value at a place; none where there is no value, or one with more levels than a tree has.
fn behind(image: &[u8], at: usize) -> Option<usize> {
    let (mut open, mut at) = (Open::new(), at);
    while !open.done() {
        let (record, next) = record_at(image, at).ok()?;
        open.take(record)?;
        at = next;
    }
    Some(at)
}

/// How many values without a key stand from a place on, and the place behind them.
fn keyless(image: &[u8], at: usize) -> (usize, usize) {
    let (mut count, mut at) = (0, at);
    while let Some(next) = behind(image, at) {
        count += 1;
        at = next;
    }
    (count, at)
}

/// The kinds of values.
#[derive(Clone, Copy, Debug, PartialEq, Eq, Hash)]
pub enum Kind {
    /// A double.
    Number,
    /// True or false.
    Boolean,
    /// A text, short or long.
    String,
    /// Pairs of a key and a value.
    Object,
    /// Null.
    Null,
    /// Undefined.
    Undefined,
    /// A reference to an object, by its number.
    Reference,
    /// Pairs of a key and a value, behind a length that means nothing to the reader.
    EcmaArray,
    /// Values in a row.
    StrictArray,
    /// A moment.
    Date,
    /// What the sender could not send.
    Unsupported,
    /// A text that is an XML document.
    Xml,
    /// Pairs of a key and a value, and the name of a class.
    TypedObject,
}

impl Kind {
    /// The kind of the value whose record this is; none for the records that are no value's.
    pub fn of(record: Record) -> Option<Kind> {
        Some(match record {
            Record::Number(_) => Kind::Number,
            Record::Boolean(_) => Kind::Boolean,
            Record::String(_) => Kind::String,
            Record::Object => Kind::Object,
            Record::Null => Kind::Null,
            Record::Undefined => Kind::Undefined,
            Record::Reference(_) => Kind::Reference,
            Record::EcmaArray(_) => Kind::EcmaArray,
            Record::StrictArray(_) => Kind::StrictArray,
            Record::Date(..) => Kind::Date,
            Record::Unsupported => Kind::Unsupported,
            Record::Xml(_) => Kind::Xml,
            Record::TypedObject(_) => Kind::TypedObject,
            Record::ObjectEnd | Record::Key(_) | Record::Packet { .. } | Record::Header { .. } | Record::Message { .. } | Record::Lso { .. } => return None,
        })
    }
}

impl fmt::Display for Kind {
    /// As `show-lso` says it: `strict array`.
    fn fmt(&self, f: &mut fmt::Formatter<'_>) -> fmt::Result {
        f.pad(match self {
            Kind::Number => "number",
            Kind::Boolean => "boolean",
            Kind::String => "string",
            Kind::Object => "object",
            Kind::Null => "null",
            Kind::Undefined => "undefined",
            Kind::Reference => "reference",
            Kind::EcmaArray => "ECMA array",
            Kind::StrictArray => "strict array",
            Kind::Date => "date",
            Kind::Unsupported => "unsupported",
            Kind::Xml => "XML",
            Kind::TypedObject => "typed object",
        })
    }
}

/// A moment.
#[derive(Clone, Copy, Debug, PartialEq)]
pub struct Date {
    /// Milliseconds since 1970 began, in UTC.
    pub milliseconds: f64,
    /// Minutes from UTC, if there is a zone: every date that was read has one. Adobe's document reserves it and says that it should be 0.
    pub zone: Option<i16>,
}

/// What a value is and holds, for a `match`.
#[derive(Clone)]
pub enum Content<'a> {
    /// A double.
    Number(f64),
    /// True or false.
    Boolean(bool),
    /// A text, short or long.
    String(&'a str),
    /// Pairs of a key and a value.
    Object(Pairs<'a>),
    /// Null.
    Null,
    /// Undefined.
    Undefined,
    /// A reference to an object, by its number.
    Reference(u16),
    /// An ECMA array.
    EcmaArray {
        /// The length as it was read, which need not be that of anything.
        length: u32,
        /// Values without a key. No reading makes such.
        items: Items<'a>,
        /// Pairs of a key and a value.
        pairs: Pairs<'a>,
    },
    /// Values in a row.
    StrictArray(Items<'a>),
    /// A moment.
    Date(Date),
    /// What the sender could not send.
    Unsupported,
    /// A text that is an XML document.
    Xml(&'a str),
    /// A typed object.
    TypedObject {
        /// The name of its class.
        class: &'a str,
        /// Pairs of a key and a value.
        pairs: Pairs<'a>,
    },
}

/// A value of a tree that was read or judged. It is a few words that are copied, and borrows the image and the input.
///
/// `{:?}` prints it with all that it holds, `{:#?}` on lines of their own.
#[derive(Clone, Copy)]
pub struct Value<'a> {
    tree: Tree<'a>,
    at: usize,
    kind: Kind,
    record: Record,
    /// The place behind the record.
    next: usize,
}

impl<'a> Value<'a> {
    /// Reads the value that is the whole input. Bytes behind it are [`Answer::NotRight`] at the first of them.
    ///
    /// ```
    /// # use riddoskam::Value;
    /// let mut image = [0; 64];
    /// let value = Value::read(b"\x0A\0\0\0\x02\x05\x01\x01", &mut image)?;
    /// assert!(value.item(0).is_some_and(|item| item.is_null()));
    /// assert_eq!(value.item(1).and_then(|item| item.as_bool()), Some(true));
    /// # Ok::<_, riddoskam::Refusal>(())
    /// ```
    pub fn read(input: &'a [u8], image: &'a mut [u8]) -> Result<Value<'a>, Refusal> {
        let Reading { used, made } = parse_single_element(input, image)?;
        if used < input.len() {
            image.fill(0);
            return Err(Refusal { answer: Answer::NotRight, place: used });
        }
        Value::made(input, image, made)
    }

    /// Reads the value at the front of the input, and tells the bytes that it takes. [`Values`](crate::Values) reads on behind it.
    pub fn read_incomplete(input: &'a [u8], image: &'a mut [u8]) -> Result<(Value<'a>, usize), Refusal> {
        let Reading { used, made } = parse_single_element(input, image)?;
        Ok((Value::made(input, image, made)?, used))
    }

    /// The value that a reading made. Its first record is a value's, so it is never refused.
    pub(crate) fn made(input: &'a [u8], image: &'a [u8], made: usize) -> Result<Value<'a>, Refusal> {
        Tree::made(input, image, made).value(0).ok_or(Refusal { answer: Answer::NoTree, place: 0 })
    }

    /// The value of an image from elsewhere, whose texts stand in `text`: refused as [`write_value`] refuses it, or with [`Answer::OverLimit`] where it would be.
    /// An image that was read here is its first `made` bytes.
    pub fn of(image: &'a [u8], text: &'a [u8]) -> Result<Value<'a>, Answer> {
        Tree::judged(write_value, image, text)?.value(0).ok_or(Answer::NoTree)
    }

    /// The same value by an index of all keys in it, made in a buffer: [`get`](Value::get), here and in what is found here, then goes by the index.
    /// [`index_room`](crate::index_room) of the image's length is always enough.
    pub fn index(self, buffer: &'a mut [u8]) -> Result<Value<'a>, Answer> {
        let alone = Tree { image: self.image(), text: self.tree.text, index: &[] };
        alone.indexed(buffer)?.value(0).ok_or(Answer::NoTree)
    }

    /// Writes it: the number of bytes written. Refused, no byte is changed.
    pub fn write(self, out: &mut [u8]) -> Result<usize, Answer> {
        write_value(self.image(), self.tree.text, out)
    }

    /// Its part of the image: an image of its own, over the same [`text`](Value::text).
    pub fn image(self) -> &'a [u8] {
        let end = self.behind().unwrap_or(self.tree.image.len());
        self.tree.image.get(self.at..end).unwrap_or(&[])
    }

    /// What the image's texts stand in: the input, where it was read.
    pub fn text(self) -> &'a [u8] {
        self.tree.text
    }

    /// Its record, in which a text is a place and a length.
    pub fn record(self) -> Record {
        self.record
    }

    /// What it is.
    pub fn kind(self) -> Kind {
        self.kind
    }

    /// What it is, with what it holds.
    ///
    /// ```
    /// # use riddoskam::{Content, Value};
    /// fn cents(value: Value) -> Option<f64> {
    ///     match value.content() {
    ///         Content::Number(n) => Some(n),
    ///         Content::String(s) => s.parse().ok(),
    ///         _ => None,
    ///     }
    /// }
    /// assert_eq!(cents(Value::read(b"\x02\0\x03129", &mut [0; 21])?), Some(129.0));
    /// # Ok::<_, riddoskam::Refusal>(())
    /// ```
    pub fn content(self) -> Content<'a> {
        match self.record {
            Record::Number(n) => Content::Number(n),
            Record::Boolean(b) => Content::Boolean(b),
            Record::String(text) => Content::String(self.tree.str(text)),
            Record::Object => Content::Object(self.pairs()),
            Record::Null => Content::Null,
            Record::Reference(n) => Content::Reference(n),
            Record::EcmaArray(length) => Content::EcmaArray { length, items: self.items(), pairs: self.pairs() },
            Record::StrictArray(_) => Content::StrictArray(self.items()),
            Record::Date(milliseconds, zone) => Content::Date(Date { milliseconds, zone: zone.map(|minutes| minutes as i16) }),
            Record::Unsupported => Content::Unsupported,
            Record::Xml(text) => Content::Xml(self.tree.str(text)),
            Record::TypedObject(class) => Content::TypedObject { class: self.tree.str(class), pairs: self.pairs() },
            // A value has no record of another kind.
            _ => Content::Undefined,
        }
    }

    /// The double, if it is a number.
    pub fn as_number(self) -> Option<f64> {
        match self.record {
            Record::Number(n) => Some(n),
            _ => None,
        }
    }

    /// True or false, if it is a boolean.
    pub fn as_bool(self) -> Option<bool> {
        match self.record {
            Record::Boolean(b) => Some(b),
            _ => None,
        }
    }

    /// The text, if it is a string, short or long.
    pub fn as_str(self) -> Option<&'a str> {
        match self.record {
            Record::String(text) => Some(self.tree.str(text)),
            _ => None,
        }
    }

    /// The moment, if it is a date.
    pub fn as_date(self) -> Option<Date> {
        match self.content() {
            Content::Date(date) => Some(date),
            _ => None,
        }
    }

    /// The document, if it is XML.
    pub fn as_xml(self) -> Option<&'a str> {
        match self.record {
            Record::Xml(text) => Some(self.tree.str(text)),
            _ => None,
        }
    }

    /// The number of the object that is meant, if it is a reference. The library doesn't follow it.
    pub fn as_reference(self) -> Option<u16> {
        match self.record {
            Record::Reference(n) => Some(n),
            _ => None,
        }
    }

    /// Whether it is null.
    pub fn is_null(self) -> bool {
        self.kind == Kind::Null
    }

    /// Whether it is undefined.
    pub fn is_undefined(self) -> bool {
        self.kind == Kind::Undefined
    }

    /// Whether it is what the sender could not send.
    pub fn is_unsupported(self) -> bool {
        self.kind == Kind::Unsupported
    }

    /// The name of its class, if it is a typed object.
    pub fn class_name(self) -> Option<&'a str> {
        match self.record {
            Record::TypedObject(class) => Some(self.tree.str(class)),
            _ => None,
        }
    }

    /// The length as it was read, if it is an ECMA array. It need not be that of anything: [`len`](Value::len) counts.
    pub fn stored_length(self) -> Option<u32> {
        match self.record {
            Record::EcmaArray(length) => Some(length),
            _ => None,
        }
    }

    /// The pairs of an object, an ECMA array or a typed object, in order, also where a key comes again; none for other values.
    ///
    /// ```
    /// # use riddoskam::Value;
    /// # let mut image = [0; 64];
    /// let value = Value::read(b"\x03\0\x01a\x05\0\x01b\x01\x01\0\0\x09", &mut image)?;
    /// for (key, value) in value.pairs() {
    ///     println!("{key}: {value:?}"); // a: null, then b: true
    /// }
    /// # assert!(value.pairs().map(|(key, value)| format!("{key}: {value:?}")).eq(["a: null", "b: true"]));
    /// # Ok::<_, riddoskam::Refusal>(())
    /// ```
    pub fn pairs(self) -> Pairs<'a> {
        self.tree.pairs(match self.record {
            Record::Object | Record::TypedObject(_) => self.next,
            Record::EcmaArray(_) => keyless(self.tree.image, self.next).1,
            _ => self.tree.image.len(),
        })
    }

    /// The values of a strict array, and those of an ECMA array that have no key, which no reading makes; none for other values.
    ///
    /// ```
    /// # use riddoskam::Value;
    /// # let mut image = [0; 64];
    /// let value = Value::read(b"\x0A\0\0\0\x02\x02\0\x02hi\x06", &mut image)?;
    /// let mut items = value.items();
    /// assert_eq!(items.len(), 2);
    /// assert_eq!(items.next().and_then(|item| item.as_str()), Some("hi"));
    /// assert!(items.next().is_some_and(|item| item.is_undefined()));
    /// # Ok::<_, riddoskam::Refusal>(())
    /// ```
    pub fn items(self) -> Items<'a> {
        let left = match self.record {
            // A value takes a byte at least, so that no count is believed that can't be.
            Record::StrictArray(count) => self.tree.image.len().saturating_sub(self.next).min(count as usize),
            Record::EcmaArray(_) => keyless(self.tree.image, self.next).0,
            _ => 0,
        };
        Items { tree: self.tree, at: self.next, left }
    }

    /// The value of the last pair of a key: by the index, if it was made, else by a walk over the pairs. Items have no key.
    ///
    /// ```
    /// # use riddoskam::Value;
    /// # let mut image = [0; 64];
    /// let value = Value::read(b"\x03\0\x01a\x05\0\x01a\x01\x01\0\0\x09", &mut image)?; // {a: null, a: true}
    /// assert_eq!(value.get("a").and_then(|a| a.as_bool()), Some(true));
    /// assert!(value.get("b").is_none());
    /// # Ok::<_, riddoskam::Refusal>(())
    /// ```
    pub fn get(self, key: &str) -> Option<Value<'a>> {
        self.tree.get(self.at, self.pairs(), key)
    }

    /// The value that a path of keys leads to, at each key to its last pair; no keys lead to the value itself.
    pub fn find(self, path: &[&str]) -> Option<Value<'a>> {
        path.iter().try_fold(self, |value, key| value.get(key))
    }

    /// The item of that number, from 0 on.
    pub fn item(self, number: usize) -> Option<Value<'a>> {
        self.items().nth(number)
    }

    /// How many items and pairs it holds, those of a key that comes again too. This counts them.
    pub fn len(self) -> usize {
        self.items().len() + self.pairs().count()
    }

    /// Whether it holds no items and no pairs.
    pub fn is_empty(self) -> bool {
        self.items().len() == 0 && self.pairs().next().is_none()
    }

    /// The place behind it.
    pub(crate) fn behind(self) -> Option<usize> {
        match self.kind {
            Kind::Object | Kind::EcmaArray | Kind::StrictArray | Kind::TypedObject => behind(self.tree.image, self.at),
            _ => Some(self.next),
        }
    }
}

/// The pairs of a container, or of a file, in order. A step goes over all that the value holds, so that to go over a whole tree takes no more than its levels times
/// its length.
#[must_use = "pairs are walked as they are asked for"]
#[derive(Clone)]
pub struct Pairs<'a> {
    tree: Tree<'a>,
    /// The place of the next key; the image's length where there is no more.
    at: usize,
}

impl<'a> Pairs<'a> {
    fn step(&mut self) -> Option<(Text, Value<'a>)> {
        let at = core::mem::replace(&mut self.at, self.tree.image.len());
        let (Record::Key(key), at) = record_at(self.tree.image, at).ok()? else { return None };
        let value = self.tree.value(at)?;
        self.at = value.behind().unwrap_or(self.at);
        Some((key, value))
    }

    fn last_of(mut self, key: &[u8]) -> Option<Value<'a>> {
        let mut found = None;
        while let Some((text, value)) = self.step() {
            if part(self.tree.text, text) == key {
                found = Some(value);
            }
        }
        found
    }
}

impl<'a> Iterator for Pairs<'a> {
    type Item = (&'a str, Value<'a>);

    fn next(&mut self) -> Option<(&'a str, Value<'a>)> {
        let (key, value) = self.step()?;
        Some((self.tree.str(key), value))
    }

    fn size_hint(&self) -> (usize, Option<usize>) {
        (0, Some(self.tree.image.len().saturating_sub(self.at) / PAIR))
    }

    fn count(mut self) -> usize {
        let mut count = 0;
        while self.step().is_some() {
            count += 1;
        }
        count
    }
}

impl FusedIterator for Pairs<'_> {}

/// The values of an array, in order.
#[must_use = "items are walked as they are asked for"]
#[derive(Clone)]
pub struct Items<'a> {
    tree: Tree<'a>,
    at: usize,
    left: usize,
}

impl<'a> Iterator for Items<'a> {
    type Item = Value<'a>;

    fn next(&mut self) -> Option<Value<'a>> {
        self.left = self.left.checked_sub(1)?;
        let Some(value) = self.tree.value(self.at) else {
            self.left = 0;
            return None;
        };
        self.at = value.behind().unwrap_or(self.tree.image.len());
        Some(value)
    }

    fn size_hint(&self) -> (usize, Option<usize>) {
        (self.left, Some(self.left))
    }
}

impl ExactSizeIterator for Items<'_> {}

impl FusedIterator for Items<'_> {}

impl fmt::Debug for Content<'_> {
    /// The tree: `{"cents": 129.0, "shown": true}`.
    fn fmt(&self, f: &mut fmt::Formatter<'_>) -> fmt::Result {
        match self {
            Content::Number(n) => n.fmt(f),
            Content::Boolean(b) => b.fmt(f),
            Content::String(text) => fmt::Debug::fmt(text, f),
            Content::Object(pairs) => pairs.fmt(f),
            Content::Null => f.write_str("null"),
            Content::Undefined => f.write_str("undefined"),
            Content::Reference(n) => f.debug_tuple("Reference").field(n).finish(),
            Content::EcmaArray { items, pairs, .. } => {
                f.write_str("EcmaArray ")?;
                f.debug_map().entries(items.clone().enumerate()).entries(pairs.clone()).finish()
            }
            Content::StrictArray(items) => items.fmt(f),
            Content::Date(date) => date.fmt(f),
            Content::Unsupported => f.write_str("unsupported"),
            Content::Xml(text) => f.debug_tuple("Xml").field(text).finish(),
            Content::TypedObject { class, pairs } => {
                write!(f, "TypedObject {class:?} ")?;
                pairs.fmt(f)
            }
        }
    }
}

impl fmt::Debug for Value<'_> {
    /// The value with all that it holds: `{"cents": 129.0, "shown": true}`.
    fn fmt(&self, f: &mut fmt::Formatter<'_>) -> fmt::Result {
        self.content().fmt(f)
    }
}

impl fmt::Debug for Pairs<'_> {
    /// The pairs that are left, as a map.
    fn fmt(&self, f: &mut fmt::Formatter<'_>) -> fmt::Result {
        f.debug_map().entries(self.clone()).finish()
    }
}

impl fmt::Debug for Items<'_> {
    /// The items that are left, as a list.
    fn fmt(&self, f: &mut fmt::Formatter<'_>) -> fmt::Result {
        f.debug_list().entries(self.clone()).finish()
    }
}

#[cfg(test)]
mod tests {
    //! The walks over images that are no trees, which no caller can hand to them.
    use super::*;
    use crate::calls::put;
    use std::vec::Vec;

    fn tree(image: &[u8]) -> Tree<'_> {
        Tree { image, text: b"abc", index: &[] }
    }

    /// The place behind a value, by recursion.
    fn recursive(image: &[u8], at: usize, levels: usize) -> Option<usize> {
        let (record, next) = record_at(image, at).ok()?;
        let left = levels.checked_sub(1)?;
        match record {
            Record::StrictArray(count) => (0..count).try_fold(next, |at, _| recursive(image, at, left)),
            Record::Object | Record::TypedObject(_) => pairs(image, next, left),
            Record::EcmaArray(_) => {
                let mut at = next;
                while let Ok((record, _)) = record_at(image, at) {
                    if Kind::of(record).is_none() {
                        break;
                    }
                    at = recursive(image, at, left)?;
                }
                pairs(image, at, left)
            }
            other => Kind::of(other).map(|_| next),
        }
    }

    fn pairs(image: &[u8], at: usize, left: usize) -> Option<usize> {
        match record_at(image, at).ok()? {
            (Record::Key(_), value) => pairs(image, recursive(image, value, left)?, left),
            (Record::ObjectEnd, next) => Some(next),
            _ => None,
        }
    }

    /// A row of records that is seldom a tree.
    fn row(random: &mut impl FnMut(usize) -> usize) -> Vec<u8> {
        let key = [0x20, 0, 0, 0, 0, 1];
        let mut image = Vec::new();
        for _ in 0..random(40) {
            match random(9) {
                0 => image.push(0x03),
                1 => image.extend([0x08, 0, 0, 0, 9]),
                2 => image.extend([0x0A, 0, 0, 0, random(4) as u8]),
                3 => image.extend([0x10, 0, 0, 0, 0, 1]),
                4 | 5 => image.extend(key),
                6 => image.push(0x09),
                _ => image.push(0x05),
            }
        }
        image
    }

    fn numbers(seed: u64) -> impl FnMut(usize) -> usize {
        let mut state = seed;
        move |below| {
            state ^= state << 13;
            state ^= state >> 7;
            state ^= state << 17;
            (state % below as u64) as usize
        }
    }

    #[test]
    fn behind_is_where_recursion_ends() {
        let mut random = numbers(0x5EED);
        let (mut some, mut none) = (0, 0);
        for _ in 0..5_000 {
            let image = row(&mut random);
            let expected = recursive(&image, 0, LEVELS);
            assert_eq!(behind(&image, 0), expected, "{image:?}");
            *if expected.is_some() { &mut some } else { &mut none } += 1;
        }
        assert!(some > 500 && none > 500, "{some} {none}");
    }

    #[test]
    fn levels_up_to_the_last() {
        for (levels, bare, expected) in [(31, true, true), (32, true, false), (32, false, true), (33, false, false), (1000, true, false)] {
            // Arrays of one, and in the innermost a null or nothing.
            let mut image: Vec<u8> = [0x0A, 0, 0, 0, 1].repeat(levels);
            match bare {
                true => image.push(0x05),
                false => image[5 * levels - 1] = 0,
            }
            assert_eq!(behind(&image, 0), expected.then_some(image.len()), "{levels} {bare}");
            // And objects.
            let mut image: Vec<u8> = [0x03, 0x20, 0, 0, 0, 0, 1].repeat(levels);
            match bare {
                true => image.push(0x05),
                false => image.truncate(7 * levels - 6),
            }
            image.extend([0x09].repeat(levels));
            assert_eq!(behind(&image, 0), expected.then_some(image.len()), "{levels} {bare}");
        }
    }

    #[test]
    fn no_walk_goes_astray() {
        let mut random = numbers(0xBAD);
        let mut values = 0;
        for round in 0..500 {
            let mut image = row(&mut random);
            if round % 3 == 0 && !image.is_empty() {
                let at = random(image.len());
                image[at] = random(256) as u8;
            }
            for at in 0..=image.len() {
                let most = image.len() - at;
                let Some(value) = tree(&image).value(at) else { continue };
                values += 1;
                assert!(value.pairs().count() <= most && value.pairs().zip(0..).count() == value.pairs().count());
                assert!(value.items().map(|item| item.kind()).zip(0..).count() <= most);
                assert!(value.len() <= most + 1);
                assert!(value.get("a").is_none_or(|found| found.at > at));
                assert!(value.item(usize::MAX).is_none());
                assert!(value.image().len() <= most && !value.image().is_empty());
                let (low, high) = value.items().size_hint();
                assert!(low <= most && high == Some(low));
                assert!(value.pairs().size_hint().1.is_some_and(|high| value.pairs().count() <= high));
            }
        }
        assert!(values > 5_000, "{values}");
    }

    #[test]
    fn an_index_is_gone_by() {
        // {a: null, b: true}, and the half of its index that has b.
        let image = [0x03, 0x20, 0, 0, 0, 0, 1, 0x05, 0x20, 0, 0, 1, 0, 1, 0x01, 0x01, 0x09];
        let plain = tree(&image);
        let mut keys = [0; 26];
        assert_eq!(index(plain.image, plain.text, &mut keys), Ok(2));
        let half = Tree { index: &keys[INDEX_RECORD..], ..plain };
        let found = |tree: Tree, key| tree.value(0).unwrap().get(key).map(|value| value.kind());
        assert_eq!((found(plain, "a"), found(plain, "b")), (Some(Kind::Null), Some(Kind::Boolean)));
        assert_eq!((found(half, "a"), found(half, "b")), (None, Some(Kind::Boolean)));
        let mut buffer = [0; 34];
        let whole = plain.indexed(&mut buffer).unwrap();
        assert_eq!((whole.index, found(whole, "a"), found(whole, "c")), (&keys[..], Some(Kind::Null), None));
    }

    #[test]
    fn texts_are_counted_up_to_one_outside() {
        let text = |place, length| Text { place, length };
        let counted = |record| {
            let (mut image, mut made) = ([0; 40], 0);
            put(&mut image, &mut made, Record::Key(text(0, 3))).unwrap();
            put(&mut image, &mut made, record).unwrap();
            put(&mut image, &mut made, Record::Key(text(0, 1))).unwrap();
            named(&image[..made], b"abc")
        };
        assert_eq!(counted(Record::Null), 4);
        assert_eq!(counted(Record::String(text(1, 2))), 6);
        assert_eq!(counted(Record::Xml(text(1, 2))), 6);
        assert_eq!(counted(Record::TypedObject(text(1, 2))), 6);
        assert_eq!(counted(Record::Header { name: text(1, 2), flag: false }), 6);
        assert_eq!(counted(Record::Message { target: text(1, 2), response: text(0, 3) }), 9);
        assert_eq!(counted(Record::Lso { stored: 0, name: text(1, 2) }), 6);
        assert_eq!(counted(Record::Message { target: text(1, 2), response: text(0, 4) }), 5);
        assert_eq!(counted(Record::Message { target: text(1, 3), response: text(0, 3) }), 3);
    }

    #[test]
    fn a_count_that_lies() {
        let image = [0x0A, 0xFF, 0xFF, 0xFF, 0xFF, 0x05, 0x05];
        let items = tree(&image).value(0).unwrap().items();
        assert_eq!((items.len(), items.clone().count()), (2, 2));
        let mut items = items.skip(2);
        assert!(items.next().is_none() && items.next().is_none());
        assert!(tree(&image).value(0).unwrap().index(&mut [0; 14]).is_err());
    }

    #[test]
    fn texts_that_are_none() {
        // A key outside, and a string that is not UTF-8.
        let image = [0x03, 0x20, 0, 0, 2, 0, 2, 0x02, 0, 0, 0, 0, 0, 1, 0x09];
        let tree = Tree { image: &image, text: &[0xFF, b'a', b'b'], index: &[] };
        let (key, value) = tree.value(0).unwrap().pairs().next().unwrap();
        assert_eq!((key, value.as_str()), ("", Some("")));
        assert!(Value::of(tree.image, tree.text).is_err_and(|answer| answer == Answer::NoTree));
    }
}
