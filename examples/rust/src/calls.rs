//! The calls of the library, one by one, over slices. `unsafe` stands nowhere else.

use crate::answer::{judged, placed, Answer, Refusal};
use crate::sys;

/// The most bytes that an input, a text or an output may have.
pub const BYTES: usize = 1_048_576;

/// The most bytes that an image may have that is written or indexed.
pub const IMAGE: usize = 3_145_728;

/// The levels that a tree may have: a value at depth 33 is [`Answer::TooDeep`].
pub const LEVELS: usize = 32;

/// The bytes of an index for each key.
pub const INDEX_RECORD: usize = 13;

/// The bytes of an image that are always enough for an input of so many.
///
/// ```
/// const MOST: usize = 8192;
/// let mut image = [0; riddoskam::image_room(MOST)];
/// # assert_eq!(image.len(), 24_576);
/// # image[0] = 1;
/// ```
pub const fn image_room(input: usize) -> usize {
    input.saturating_mul(3)
}

/// The bytes of an index that are always enough for an image of so many.
pub const fn index_room(image: usize) -> usize {
    image.saturating_mul(2)
}

/// A reading that was accepted: the bytes of the input that it used, and the bytes of the image that it made.
#[derive(Clone, Copy, Debug, PartialEq, Eq)]
pub struct Reading {
    /// Bytes of the input.
    pub used: usize,
    /// Bytes of the image.
    pub made: usize,
}

type Reader = unsafe extern "C" fn(*const u8, usize, *mut u8, usize, &mut usize, &mut usize) -> u8;

fn read(by: Reader, input: &[u8], image: &mut [u8]) -> Result<Reading, Refusal> {
    let mut r = Reading { used: 0, made: 0 };
    // SAFETY: each pointer stands with the length of its slice, and a `&mut` overlaps nothing.
    let answer = unsafe { by(input.as_ptr(), input.len(), image.as_mut_ptr(), image.len(), &mut r.used, &mut r.made) };
    placed(answer, r.used, r)
}

/// One value at the front of the input.
pub fn parse_single_element(input: &[u8], image: &mut [u8]) -> Result<Reading, Refusal> {
    read(sys::riddoskam_parse_single_element, input, image)
}

/// A file that is the whole input.
pub fn lso_parse(input: &[u8], image: &mut [u8]) -> Result<Reading, Refusal> {
    read(sys::riddoskam_lso_parse, input, image)
}

/// A file, as far as it can be read.
pub fn lso_parse_incomplete(input: &[u8], image: &mut [u8]) -> Result<Reading, Refusal> {
    read(sys::riddoskam_lso_parse_incomplete, input, image)
}

/// A packet that is the whole input; declared lengths are not looked at.
pub fn packet_parse(input: &[u8], image: &mut [u8]) -> Result<Reading, Refusal> {
    read(sys::riddoskam_packet_parse, input, image)
}

/// A packet at the front of the input; declared lengths are not looked at.
pub fn packet_parse_incomplete(input: &[u8], image: &mut [u8]) -> Result<Reading, Refusal> {
    read(sys::riddoskam_packet_parse_incomplete, input, image)
}

/// The value of entry `number` of a packet that its lengths cut exactly (see [`packet_cut`]), read as that part of the packet alone.
pub fn packet_parse_entry(packet: &[u8], number: usize, image: &mut [u8]) -> Result<Reading, Refusal> {
    let mut r = Reading { used: 0, made: 0 };
    // SAFETY: as in `read`.
    let answer = unsafe { sys::riddoskam_packet_parse_entry(packet.as_ptr(), packet.len(), number, image.as_mut_ptr(), image.len(), &mut r.used, &mut r.made) };
    placed(answer, r.used, r)
}

/// The value that is a part of a packet, read as the value of an entry: for an entry of a cut this is [`packet_parse_entry`], without cutting again.
/// [`Answer::NoEntry`] where the part is not inside the packet.
pub fn packet_parse_span(packet: &[u8], value: Text, image: &mut [u8]) -> Result<Reading, Refusal> {
    let mut r = Reading { used: 0, made: 0 };
    // SAFETY: as in `read`.
    let answer = unsafe {
        sys::riddoskam_packet_parse_span(packet.as_ptr(), packet.len(), value.place, value.length, image.as_mut_ptr(), image.len(), &mut r.used, &mut r.made)
    };
    placed(answer, r.used, r)
}

type Writer = unsafe extern "C" fn(*const u8, usize, *const u8, usize, *mut u8, usize, &mut usize) -> u8;

fn write(by: Writer, image: &[u8], text: &[u8], out: &mut [u8]) -> Result<usize, Answer> {
    let mut count = 0;
    // SAFETY: as in `read`.
    let answer = unsafe { by(image.as_ptr(), image.len(), text.as_ptr(), text.len(), out.as_mut_ptr(), out.len(), &mut count) };
    judged(answer, count)
}

/// Writes the value of an image, whose texts stand in `text`: the number of bytes written.
pub fn write_value(image: &[u8], text: &[u8], out: &mut [u8]) -> Result<usize, Answer> {
    write(sys::riddoskam_write_value, image, text, out)
}

/// Writes the file of an image; the length field is set anew.
pub fn lso_write_to_bytes(image: &[u8], text: &[u8], out: &mut [u8]) -> Result<usize, Answer> {
    write(sys::riddoskam_lso_write_to_bytes, image, text, out)
}

/// Writes the packet of an image, with exact lengths or with FFFFFFFF, which says that a length is not known.
pub fn packet_write_to_bytes(image: &[u8], text: &[u8], exact_lengths: bool, out: &mut [u8]) -> Result<usize, Answer> {
    let mut count = 0;
    // SAFETY: as in `read`.
    let answer = unsafe {
        sys::riddoskam_packet_write_to_bytes(image.as_ptr(), image.len(), text.as_ptr(), text.len(), exact_lengths, out.as_mut_ptr(), out.len(), &mut count)
    };
    judged(answer, count)
}

/// A text: its place in the input, and its length.
#[derive(Clone, Copy, Debug, PartialEq, Eq)]
pub struct Text {
    /// Where it begins.
    pub place: usize,
    /// Its bytes.
    pub length: usize,
}

/// Whether a text is inside an input.
pub fn inside(input: &[u8], text: Text) -> bool {
    // SAFETY: as in `read`.
    unsafe { sys::riddoskam_inside(input.as_ptr(), input.len(), text.place, text.length) }
}

/// The text, as that part of the input; the empty part at the front where it is not inside.
pub fn part(input: &[u8], text: Text) -> &[u8] {
    let mut from = 0;
    // SAFETY: as in `read`.
    let length = unsafe { sys::riddoskam_part(input.as_ptr(), input.len(), text.place, text.length, &mut from) };
    input.get(from..).and_then(|rest| rest.get(..length)).unwrap_or(&[])
}

/// What an entry of a packet is, with its texts.
#[derive(Clone, Copy, Debug, PartialEq, Eq)]
pub enum Role {
    /// A header: its name, and whether it must be understood.
    Header {
        /// Its name.
        name: Text,
        /// Whether it must be understood.
        flag: bool,
    },
    /// A message: to whom it goes, and by what name an answer is asked for.
    Message {
        /// To whom it goes.
        target: Text,
        /// By what name an answer is asked for.
        response: Text,
    },
}

/// An entry of a packet, and the part of the packet that its value is.
#[derive(Clone, Copy, Debug, PartialEq, Eq)]
pub struct Entry {
    /// Header or message.
    pub role: Role,
    /// Where its value stands in the packet, and its length.
    pub value: Text,
}

/// How many numbers an entry is handed out as.
pub const ENTRY_NUMBERS: usize = 8;

/// The numbers that an entry is handed out as. `[NO_ENTRY; 16]` is a list with room for sixteen.
pub type Numbers = [usize; ENTRY_NUMBERS];

/// What a list of entries is before a cut, and behind its entries after it.
pub const NO_ENTRY: Numbers = [0; ENTRY_NUMBERS];

impl From<Numbers> for Entry {
    fn from(e: Numbers) -> Entry {
        let text = |i: usize| Text { place: e[i], length: e[i + 1] };
        let role = if e[0] == 0x31 { Role::Header { name: text(2), flag: e[1] != 0 } } else { Role::Message { target: text(2), response: text(4) } };
        Entry { role, value: text(6) }
    }
}

/// Entry `number` of a packet that its lengths cut exactly. A refusal has no place here; where the cut is refused, [`packet_cut`] tells it.
pub fn packet_nth(packet: &[u8], number: usize) -> Result<Entry, Answer> {
    let mut e = NO_ENTRY;
    // SAFETY: as in `read`.
    let answer = unsafe { sys::riddoskam_packet_nth(packet.as_ptr(), packet.len(), number, &mut e) };
    judged(answer, e.into())
}

/// A cut that was accepted: the bytes of the packet, and the number of its entries.
#[derive(Clone, Copy, Debug, PartialEq, Eq)]
pub struct Cutting {
    /// Bytes of the packet.
    pub used: usize,
    /// Entries in the list.
    pub count: usize,
}

/// All entries of a packet that its declared lengths cut exactly, in one walk. A value whose length is FFFFFFFF, not known, is read where it stands, and its entry
/// has the length that was found; where it can't be read, its refusal is that of the cut. The entries stand at the front of the list, which is zero behind them,
/// and all zero where the cut is refused; [`Answer::NoRoom`] where the list is too short.
pub fn packet_cut(packet: &[u8], list: &mut [Numbers]) -> Result<Cutting, Refusal> {
    let mut c = Cutting { used: 0, count: 0 };
    // SAFETY: as in `read`; a slice of arrays of eight is a row of eight times as many numbers.
    let answer =
        unsafe { sys::riddoskam_packet_cut(packet.as_ptr(), packet.len(), list.as_mut_ptr().cast(), ENTRY_NUMBERS * list.len(), &mut c.used, &mut c.count) };
    placed(answer, c.used, c)
}

/// A record of an image.
#[derive(Clone, Copy, Debug, PartialEq)]
pub enum Record {
    /// A double.
    Number(f64),
    /// True or false.
    Boolean(bool),
    /// Its text.
    String(Text),
    /// Pairs follow, then an end.
    Object,
    /// Null.
    Null,
    /// Undefined.
    Undefined,
    /// The number of the object that is meant.
    Reference(u16),
    /// The length as it was read; pairs follow, then an end.
    EcmaArray(u32),
    /// The end of an object, an ECMA array or a typed object.
    ObjectEnd,
    /// That many values follow.
    StrictArray(u32),
    /// Milliseconds, and the zone if there is one.
    Date(f64, Option<u16>),
    /// Unsupported.
    Unsupported,
    /// The document's text.
    Xml(Text),
    /// The class name; pairs follow, then an end.
    TypedObject(Text),
    /// Its value follows.
    Key(Text),
    /// So many headers follow, then so many messages.
    Packet {
        /// How many headers.
        headers: u16,
        /// How many messages.
        messages: u16,
    },
    /// Its value follows.
    Header {
        /// Its name.
        name: Text,
        /// Whether it must be understood.
        flag: bool,
    },
    /// Its value follows.
    Message {
        /// To whom it goes.
        target: Text,
        /// By what name an answer is asked for.
        response: Text,
    },
    /// A file; pairs follow to the image's end.
    Lso {
        /// The length that the file stored.
        stored: u32,
        /// Its name.
        name: Text,
    },
}

/// How many numbers a record is told as.
const FIELDS: usize = 5;

impl Record {
    /// The record as the library tells it: its kind, then its body, and 0 where it has none.
    fn fields(self) -> [u64; FIELDS] {
        use Record::*;
        let bare = |kind| [kind, 0, 0, 0, 0];
        let one = |kind, a| [kind, a, 0, 0, 0];
        let text = |kind, t: Text| [kind, t.place as u64, t.length as u64, 0, 0];
        match self {
            Number(n) => one(0x00, n.to_bits()),
            Boolean(b) => one(0x01, b.into()),
            String(t) => text(0x02, t),
            Object => bare(0x03),
            Null => bare(0x05),
            Undefined => bare(0x06),
            Reference(n) => one(0x07, n.into()),
            EcmaArray(n) => one(0x08, n.into()),
            ObjectEnd => bare(0x09),
            StrictArray(n) => one(0x0A, n.into()),
            Date(n, zone) => [0x0B, n.to_bits(), zone.is_some().into(), zone.unwrap_or(0).into(), 0],
            Unsupported => bare(0x0D),
            Xml(t) => text(0x0F, t),
            TypedObject(t) => text(0x10, t),
            Key(t) => text(0x20, t),
            Packet { headers, messages } => [0x30, headers.into(), messages.into(), 0, 0],
            Header { name, flag } => [0x31, name.place as u64, name.length as u64, flag.into(), 0],
            Message { target, response } => [0x32, target.place as u64, target.length as u64, response.place as u64, response.length as u64],
            Lso { stored, name } => [0x33, stored.into(), name.place as u64, name.length as u64, 0],
        }
    }

    /// The same record with other texts.
    pub(crate) fn with_texts(self, mut other: impl FnMut(Text) -> Text) -> Record {
        use Record::*;
        match self {
            String(t) => String(other(t)),
            Xml(t) => Xml(other(t)),
            TypedObject(t) => TypedObject(other(t)),
            Key(t) => Key(other(t)),
            Header { name, flag } => Header { name: other(name), flag },
            Message { target, response } => Message { target: other(target), response: other(response) },
            Lso { stored, name } => Lso { stored, name: other(name) },
            bare => bare,
        }
    }
}

/// The record at a place of an image, and the place behind it; [`Answer::NoTree`] where none stands there.
pub fn record_at(image: &[u8], at: usize) -> Result<(Record, usize), Answer> {
    use Record::*;
    let mut f = [0; FIELDS];
    let mut next = 0;
    // SAFETY: as in `read`.
    judged(unsafe { sys::riddoskam_record_at(image.as_ptr(), image.len(), at, &mut f, &mut next) }, ())?;
    let text = |i: usize| Text { place: f[i] as usize, length: f[i + 1] as usize };
    let record = match f[0] {
        0x00 => Number(f64::from_bits(f[1])),
        0x01 => Boolean(f[1] != 0),
        0x02 => String(text(1)),
        0x03 => Object,
        0x05 => Null,
        0x06 => Undefined,
        0x07 => Reference(f[1] as u16),
        0x08 => EcmaArray(f[1] as u32),
        0x09 => ObjectEnd,
        0x0A => StrictArray(f[1] as u32),
        0x0B => Date(f64::from_bits(f[1]), if f[2] != 0 { Some(f[3] as u16) } else { None }),
        0x0D => Unsupported,
        0x0F => Xml(text(1)),
        0x10 => TypedObject(text(1)),
        0x20 => Key(text(1)),
        0x30 => Packet { headers: f[1] as u16, messages: f[2] as u16 },
        0x31 => Header { name: text(1), flag: f[3] != 0 },
        0x32 => Message { target: text(1), response: text(3) },
        0x33 => Lso { stored: f[1] as u32, name: text(2) },
        // No record has another kind.
        _ => return Err(Answer::NoTree),
    };
    Ok((record, next))
}

/// Lays a record behind the `made` bytes of an image, and `made` is the place behind it then: what [`record_at`] finds there is that record. Refused, neither is
/// changed: [`Answer::NoTree`] where a text's place or length has no room in its field, else [`Answer::NoRoom`]. Which records make a tree is not looked at here,
/// but by the writers; [`crate::build`] lays them so that they do.
///
/// ```
/// # use riddoskam::{put, record_at, Answer, Record};
/// let (mut image, mut made) = ([0; 10], 0);
/// put(&mut image, &mut made, Record::Number(1.29))?;
/// assert_eq!(record_at(&image[..made], 0), Ok((Record::Number(1.29), 9)));
/// assert_eq!(put(&mut image, &mut made, Record::Boolean(true)), Err(Answer::NoRoom));
/// assert_eq!(made, 9);
/// # Ok::<_, Answer>(())
/// ```
///
/// Over a record of the same kind it changes that one. So a price is changed where it stands:
///
/// ```
/// # use riddoskam::{find, index, lso_parse, lso_write_to_bytes, put, Answer, Record};
/// # let input = include_bytes!(concat!(env!("CARGO_MANIFEST_DIR"), "/../../samples/prices.sol"));
/// # let (mut image, mut keys, mut out) = ([0; 2000], [0; 2000], [0; 627]);
/// let made = lso_parse(input, &mut image)?.made;
/// let tree = &mut image[..made];
/// index(tree, input, &mut keys)?;
/// if let Some(mut place) = find(tree, input, &keys, &["A-01", "cents"]) {
///     put(tree, &mut place, Record::Number(149.0))?;
/// }
/// let length = lso_write_to_bytes(tree, input, &mut out)?;
/// # let mut expected = *input;
/// # expected[90..98].copy_from_slice(&149_f64.to_be_bytes());
/// # assert_eq!((length, out), (627, expected));
/// # Ok::<_, Answer>(())
/// ```
pub fn put(image: &mut [u8], made: &mut usize, record: Record) -> Result<(), Answer> {
    // SAFETY: as in `read`.
    judged(unsafe { sys::riddoskam_put(image.as_mut_ptr(), image.len(), made, &record.fields()) }, ())
}

/// Makes the index of a value's or a file's image, whose texts stand in `text`: the number of its keys, for each of which it has 13 bytes. Past them it is
/// zero, and all of it where it is refused. Twice the image's length is always room enough. Index, image and text go together: whoever reads anew makes it
/// anew.
pub fn index(image: &[u8], text: &[u8], index: &mut [u8]) -> Result<usize, Answer> {
    write(sys::riddoskam_index, image, text, index)
}

/// The place of the value that a path of keys leads to, from the first record on, at each key to the last pair of that key; no keys lead to the first record.
/// The index may be handed over whole, with its zeros. By one that isn't this image's, what is found is a value behind a record of the last key, but perhaps
/// in another container.
pub fn find(image: &[u8], text: &[u8], index: &[u8], path: &[&str]) -> Option<usize> {
    let mut place = 0;
    let none: [u8; 0] = [];
    // SAFETY: as in `read`.
    let starts = unsafe {
        sys::riddoskam_find(image.as_ptr(), image.len(), text.as_ptr(), text.len(), index.as_ptr(), index.len(), none.as_ptr(), none.len(), &mut place)
    };
    if !starts {
        return None;
    }
    // Key by key, so that the row of the path needs no buffer.
    path.iter().try_fold(place, |container, key| step(image, text, index, container, key.as_bytes()))
}

/// One key of such a path, from the container whose record stands at a place.
pub fn step(image: &[u8], text: &[u8], index: &[u8], container: usize, key: &[u8]) -> Option<usize> {
    let mut place = 0;
    // SAFETY: as in `read`.
    let found = unsafe {
        sys::riddoskam_step(image.as_ptr(), image.len(), text.as_ptr(), text.len(), index.as_ptr(), index.len(), container, key.as_ptr(), key.len(), &mut place)
    };
    found.then_some(place)
}
