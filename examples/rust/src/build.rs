//! Trees that are built: values, files and packets to be written.
//!
//! A builder lays records into a lent image, and copies texts into a lent text, so that nothing is allocated. A value goes into a [`Slot`], which takes one:
//! the value at the top, the value of a pair, an item of an array, the value of a header or a message. What a container holds is laid by a closure, so that its
//! end and its count are always right. A slot that is not used leaves nothing behind.
//!
//! No method returns a refusal. The first one is kept, nothing is laid from then on, and `finish` returns it. What `finish` gives otherwise was judged by the library,
//! and is seen and written as if it had been read.
//!
//! ```
//! use riddoskam::build::FileBuild;
//!
//! let (mut image, mut text, mut out) = ([0; 512], [0; 512], [0; 512]);
//! let mut file = FileBuild::new(&mut image, &mut text, "prices");
//! for (shelf, cents) in [("A-01", 129), ("A-02", 299)] {
//!     file.pair(shelf).object(|shelf| {
//!         shelf.pair("cents").number(cents);
//!         shelf.pair("shown").boolean(true);
//!     });
//! }
//! file.pair("order").array(|order| {
//!     order.item().string("A-01");
//!     order.item().string(format_args!("A-{:02}", 2));
//! });
//! let file = file.finish()?;
//! assert_eq!(file.get("A-02").and_then(|shelf| shelf.get("cents")?.as_number()), Some(299.0));
//! assert_eq!(file.write(&mut out)?, 127);
//! # Ok::<_, riddoskam::Answer>(())
//! ```
//!
//! Builders take pairs and items of what was read, too. So a price is changed:
//!
//! ```
//! # use riddoskam::{build::FileBuild, image_room, File};
//! # let input = include_bytes!(concat!(env!("CARGO_MANIFEST_DIR"), "/../../samples/prices.sol"));
//! # let (mut read, mut image, mut text, mut out) = ([0; image_room(627)], [0; 1024], [0; 1024], [0; 1024]);
//! let old = File::read(input, &mut read)?;
//! let mut file = FileBuild::new(&mut image, &mut text, old.name());
//! for (key, value) in old.pairs() {
//!     match key {
//!         "A-01" => file.pair(key).object(|shelf| {
//!             shelf.extend(value.pairs().filter(|(key, _)| *key != "cents"));
//!             shelf.pair("cents").number(149);
//!         }),
//!         _ => file.pair(key).copy(value),
//!     }
//! }
//! let length = file.finish()?.write(&mut out)?;
//! # let mut again = [0; 2048];
//! # let new = File::read(&out[..length], &mut again)?;
//! # assert_eq!((length, new.find(&["A-01", "cents"]).unwrap().as_number(), new.find(&["A-01", "name"]).unwrap().as_str()), (627, Some(149.0), Some("Stabilo point 88")));
//! # Ok::<_, riddoskam::Answer>(())
//! ```
//!
//! A text is anything that is displayed: a `&str`, a number, or `format_args!`, which needs no buffer of its own. It is copied each time, also where it was there
//! before. A closure may return something, such as a `Result` of its own: the method that takes it returns that.
#![forbid(unsafe_code)]

use core::fmt::{self, Display, Write};

use crate::answer::Answer;
use crate::calls::{part, put, record_at, Record, Text, BYTES};
use crate::file::File;
use crate::packet::Packet;
use crate::view::{Date, Value};

/// The longest key, name, class name, target or response.
const SHORT: usize = 65_535;

/// What a builder lays into: the image and the text, with how much of each is laid, and the first refusal.
struct Ground<'a> {
    image: &'a mut [u8],
    made: usize,
    text: &'a mut [u8],
    said: usize,
    refused: Option<Answer>,
}

impl<'a> Ground<'a> {
    fn new(image: &'a mut [u8], text: &'a mut [u8]) -> Ground<'a> {
        Ground { image, made: 0, text, said: 0, refused: None }
    }

    /// Keeps a refusal, if it is the first.
    fn refuse(&mut self, answer: Answer) {
        self.refused.get_or_insert(answer);
    }

    fn keep(&mut self, laid: Result<(), Answer>) {
        if let Err(answer) = laid {
            self.refuse(answer);
        }
    }

    fn lay(&mut self, record: Record) {
        if self.refused.is_none() {
            let laid = put(self.image, &mut self.made, record);
            self.keep(laid);
        }
    }

    /// Lays a record once more where one of its kind stands, with what is known now.
    fn lay_again(&mut self, place: usize, record: Record) {
        if self.refused.is_none() {
            let laid = put(self.image, &mut { place }, record);
            self.keep(laid);
        }
    }

    /// Copies a text: where it stands.
    fn text(&mut self, text: impl Display) -> Text {
        let place = self.said;
        if write!(Saying(self), "{text}").is_err() {
            // Either there was no room, which is kept, or the text itself has failed.
            self.refuse(Answer::NotRight);
        }
        if self.refused.is_some() {
            self.said = place;
        }
        Text { place, length: self.said - place }
    }

    /// Copies a text whose length has two bytes.
    fn short(&mut self, text: impl Display) -> Text {
        let text = self.text(text);
        if text.length > SHORT {
            self.refuse(Answer::OverLimit);
        }
        text
    }

    /// Copies the bytes of a text.
    fn say(&mut self, bytes: &[u8]) -> Result<(), Answer> {
        let end = self.said.checked_add(bytes.len()).filter(|&end| end <= BYTES).ok_or(Answer::OverLimit)?;
        self.text.get_mut(self.said..end).ok_or(Answer::NoRoom)?.copy_from_slice(bytes);
        self.said = end;
        Ok(())
    }

    /// Lays the records of an image, whose texts stand in another text.
    fn copy(&mut self, image: &[u8], text: &[u8]) {
        let mut at = 0;
        while let (None, Ok((record, next))) = (self.refused, record_at(image, at)) {
            let record = record.with_texts(|named| {
                let place = self.said;
                let said = self.say(part(text, named));
                self.keep(said);
                Text { place, length: self.said - place }
            });
            self.lay(record);
            at = next;
        }
    }

    /// What was laid: image and text.
    fn laid(self) -> Result<(&'a [u8], &'a [u8]), Answer> {
        match self.refused {
            Some(answer) => Err(answer),
            // Neither is more than there is, or it would have been refused.
            None => Ok((self.image.get(..self.made).unwrap_or(&[]), self.text.get(..self.said).unwrap_or(&[]))),
        }
    }
}

impl fmt::Debug for Ground<'_> {
    /// How much is laid, of how much, and what was refused.
    fn fmt(&self, f: &mut fmt::Formatter<'_>) -> fmt::Result {
        let (image, text) = (self.image.len(), self.text.len());
        write!(f, "image {} of {image}, text {} of {text}, refused {:?}", self.made, self.said, self.refused)
    }
}

/// A text as it is displayed, piece by piece.
struct Saying<'b, 'a>(&'b mut Ground<'a>);

impl Write for Saying<'_, '_> {
    fn write_str(&mut self, piece: &str) -> fmt::Result {
        if self.0.refused.is_some() {
            return Ok(());
        }
        self.0.say(piece.as_bytes()).map_err(|answer| {
            self.0.refuse(answer);
            fmt::Error
        })
    }
}

/// A place for one value.
#[must_use = "a slot without a value leaves nothing behind"]
#[derive(Debug)]
pub struct Slot<'b, 'a> {
    ground: &'b mut Ground<'a>,
    /// What stands before the value: a key, a header, a message.
    before: Option<Record>,
    /// The count of what is laid beside it.
    count: &'b mut u32,
}

impl<'b, 'a> Slot<'b, 'a> {
    /// Lays what stands before the value.
    fn begin(self) -> &'b mut Ground<'a> {
        if let Some(record) = self.before {
            self.ground.lay(record);
        }
        match self.count.checked_add(1) {
            Some(count) => *self.count = count,
            None => self.ground.refuse(Answer::OverLimit),
        }
        self.ground
    }

    fn lay(self, record: Record) {
        self.begin().lay(record);
    }

    /// Lays a record, pairs and an end, and tells how many pairs there are, and where the record stands.
    fn pairs<R>(ground: &mut Ground<'a>, record: Record, fill: impl FnOnce(&mut PairsBuild<'_, 'a>) -> R) -> (u32, R) {
        ground.lay(record);
        let mut pairs = PairsBuild { ground, count: 0 };
        let filled = fill(&mut pairs);
        let count = pairs.count;
        ground.lay(Record::ObjectEnd);
        (count, filled)
    }

    /// A number.
    pub fn number(self, number: impl Into<f64>) {
        self.lay(Record::Number(number.into()));
    }

    /// True or false.
    pub fn boolean(self, boolean: bool) {
        self.lay(Record::Boolean(boolean));
    }

    /// A string: it is written as a short one where it has no more than 65,535 bytes, else as a long one.
    pub fn string(self, text: impl Display) {
        let text = self.ground.text(text);
        self.lay(Record::String(text));
    }

    /// Null.
    pub fn null(self) {
        self.lay(Record::Null);
    }

    /// Undefined.
    pub fn undefined(self) {
        self.lay(Record::Undefined);
    }

    /// A reference to an object, by its number.
    pub fn reference(self, number: u16) {
        self.lay(Record::Reference(number));
    }

    /// A moment. One without a zone is written with the zone 0.
    pub fn date(self, date: Date) {
        self.lay(Record::Date(date.milliseconds, date.zone.map(|minutes| minutes as u16)));
    }

    /// What can't be sent.
    pub fn unsupported(self) {
        self.lay(Record::Unsupported);
    }

    /// An XML document.
    pub fn xml(self, text: impl Display) {
        let text = self.ground.text(text);
        self.lay(Record::Xml(text));
    }

    /// An object.
    pub fn object<R>(self, fill: impl FnOnce(&mut PairsBuild<'_, 'a>) -> R) -> R {
        Slot::pairs(self.begin(), Record::Object, fill).1
    }

    /// An object with the name of its class.
    pub fn typed_object<R>(self, class: impl Display, fill: impl FnOnce(&mut PairsBuild<'_, 'a>) -> R) -> R {
        let class = self.ground.short(class);
        Slot::pairs(self.begin(), Record::TypedObject(class), fill).1
    }

    /// An ECMA array. Its length is the number of its pairs.
    pub fn ecma_array<R>(self, fill: impl FnOnce(&mut PairsBuild<'_, 'a>) -> R) -> R {
        let ground = self.begin();
        let place = ground.made;
        let (count, filled) = Slot::pairs(ground, Record::EcmaArray(0), fill);
        ground.lay_again(place, Record::EcmaArray(count));
        filled
    }

    /// A strict array.
    pub fn array<R>(self, fill: impl FnOnce(&mut ItemsBuild<'_, 'a>) -> R) -> R {
        let ground = self.begin();
        let place = ground.made;
        ground.lay(Record::StrictArray(0));
        let mut items = ItemsBuild { ground, count: 0 };
        let filled = fill(&mut items);
        let count = items.count;
        ground.lay_again(place, Record::StrictArray(count));
        filled
    }

    /// A value of another tree, with all that it holds; its texts are copied.
    pub fn copy(self, value: Value<'_>) {
        self.begin().copy(value.image(), value.text());
    }
}

/// The pairs of an object that is built.
#[derive(Debug)]
pub struct PairsBuild<'b, 'a> {
    ground: &'b mut Ground<'a>,
    count: u32,
}

impl<'a> PairsBuild<'_, 'a> {
    /// The value of a key. A key may come again: whoever looks for it finds the last.
    pub fn pair(&mut self, key: impl Display) -> Slot<'_, 'a> {
        let key = self.ground.short(key);
        Slot { ground: self.ground, before: Some(Record::Key(key)), count: &mut self.count }
    }

    /// Why nothing is laid any more, if that is so.
    pub fn refused(&self) -> Option<Answer> {
        self.ground.refused
    }
}

impl<'k, 'v> Extend<(&'k str, Value<'v>)> for PairsBuild<'_, '_> {
    /// Copies pairs.
    fn extend<I: IntoIterator<Item = (&'k str, Value<'v>)>>(&mut self, pairs: I) {
        pairs.into_iter().for_each(|(key, value)| self.pair(key).copy(value));
    }
}

/// The items of an array that is built.
#[derive(Debug)]
pub struct ItemsBuild<'b, 'a> {
    ground: &'b mut Ground<'a>,
    count: u32,
}

impl<'a> ItemsBuild<'_, 'a> {
    /// The next item.
    pub fn item(&mut self) -> Slot<'_, 'a> {
        Slot { ground: self.ground, before: None, count: &mut self.count }
    }

    /// Why nothing is laid any more, if that is so.
    pub fn refused(&self) -> Option<Answer> {
        self.ground.refused
    }
}

impl<'v> Extend<Value<'v>> for ItemsBuild<'_, '_> {
    /// Copies items.
    fn extend<I: IntoIterator<Item = Value<'v>>>(&mut self, items: I) {
        items.into_iter().for_each(|value| self.item().copy(value));
    }
}

/// Builds a lone value: [`Answer::NoTree`] where the slot was not used.
///
/// ```
/// let (mut image, mut text, mut out) = ([0; 64], [0; 64], [0; 64]);
/// let value = riddoskam::build::value(&mut image, &mut text, |slot| slot.string("hi"))?;
/// let written = value.write(&mut out)?;
/// assert_eq!(out[..written], *b"\x02\0\x02hi");
/// # Ok::<_, riddoskam::Answer>(())
/// ```
pub fn value<'a>(image: &'a mut [u8], text: &'a mut [u8], fill: impl FnOnce(Slot<'_, 'a>)) -> Result<Value<'a>, Answer> {
    let mut ground = Ground::new(image, text);
    fill(Slot { ground: &mut ground, before: None, count: &mut 0 });
    let (image, text) = ground.laid()?;
    Value::of(image, text)
}

/// Builds a file.
#[must_use = "`finish` gives the file"]
#[derive(Debug)]
pub struct FileBuild<'a> {
    ground: Ground<'a>,
    count: u32,
}

impl<'a> FileBuild<'a> {
    /// A file with a name and no pairs.
    pub fn new(image: &'a mut [u8], text: &'a mut [u8], name: impl Display) -> FileBuild<'a> {
        let mut ground = Ground::new(image, text);
        let name = ground.short(name);
        // The length is set when it is written.
        ground.lay(Record::Lso { stored: 0, name });
        FileBuild { ground, count: 0 }
    }

    /// The value of a key. A key may come again: whoever looks for it finds the last.
    pub fn pair(&mut self, key: impl Display) -> Slot<'_, 'a> {
        let key = self.ground.short(key);
        Slot { ground: &mut self.ground, before: Some(Record::Key(key)), count: &mut self.count }
    }

    /// Why nothing is laid any more, if that is so.
    pub fn refused(&self) -> Option<Answer> {
        self.ground.refused
    }

    /// The file, or the first refusal.
    pub fn finish(self) -> Result<File<'a>, Answer> {
        let (image, text) = self.ground.laid()?;
        File::of(image, text)
    }
}

impl<'k, 'v> Extend<(&'k str, Value<'v>)> for FileBuild<'_> {
    /// Copies pairs.
    fn extend<I: IntoIterator<Item = (&'k str, Value<'v>)>>(&mut self, pairs: I) {
        pairs.into_iter().for_each(|(key, value)| self.pair(key).copy(value));
    }
}

/// Builds a packet.
///
/// ```
/// # use riddoskam::build::PacketBuild;
/// let (mut image, mut text, mut out) = ([0; 64], [0; 64], [0; 64]);
/// let mut packet = PacketBuild::new(&mut image, &mut text);
/// packet.message("/1/onResult", "null").null();
/// let written = packet.finish()?.write(&mut out)?;
/// assert_eq!(out[..written], *b"\0\0\0\0\0\x01\0\x0B/1/onResult\0\x04null\0\0\0\x01\x05");
/// # Ok::<_, riddoskam::Answer>(())
/// ```
#[must_use = "`finish` gives the packet"]
#[derive(Debug)]
pub struct PacketBuild<'a> {
    ground: Ground<'a>,
    headers: u32,
    messages: u32,
}

impl<'a> PacketBuild<'a> {
    /// A packet with no entries.
    pub fn new(image: &'a mut [u8], text: &'a mut [u8]) -> PacketBuild<'a> {
        let mut ground = Ground::new(image, text);
        ground.lay(Record::Packet { headers: 0, messages: 0 });
        PacketBuild { ground, headers: 0, messages: 0 }
    }

    /// The value of a header. Headers come before messages: one behind a message is [`Answer::NoTree`].
    pub fn header(&mut self, name: impl Display, must_understand: bool) -> Slot<'_, 'a> {
        let name = self.ground.short(name);
        if self.messages > 0 {
            self.ground.refuse(Answer::NoTree);
        }
        Slot { ground: &mut self.ground, before: Some(Record::Header { name, flag: must_understand }), count: &mut self.headers }
    }

    /// The value of a message, with the name of whom it goes to, and the one by which an answer is asked for. An answer goes to the response of what it
    /// answers, with `/onResult` or `/onStatus` behind it, and asks for none.
    pub fn message(&mut self, target: impl Display, response: impl Display) -> Slot<'_, 'a> {
        let target = self.ground.short(target);
        let response = self.ground.short(response);
        Slot { ground: &mut self.ground, before: Some(Record::Message { target, response }), count: &mut self.messages }
    }

    /// Why nothing is laid any more, if that is so.
    pub fn refused(&self) -> Option<Answer> {
        self.ground.refused
    }

    /// The packet, or the first refusal. There are no more than 65,535 headers and as many messages, else it is [`Answer::OverLimit`].
    pub fn finish(mut self) -> Result<Packet<'a>, Answer> {
        match (self.headers.try_into(), self.messages.try_into()) {
            (Ok(headers), Ok(messages)) => self.ground.lay_again(0, Record::Packet { headers, messages }),
            _ => self.ground.refuse(Answer::OverLimit),
        }
        let (image, text) = self.ground.laid()?;
        Packet::of(image, text)
    }
}
