use riddoskam::*;

const FILE: &[u8] = include_bytes!("../../../samples/prices.sol");

fn refusal(answer: Answer, place: usize) -> Refusal {
    Refusal { answer, place }
}

/// The place behind the value at a place.
fn behind(image: &[u8], at: usize) -> usize {
    let (record, mut next) = record_at(image, at).unwrap();
    match record {
        Record::StrictArray(n) => (0..n).fold(next, |at, _| behind(image, at)),
        Record::Object | Record::EcmaArray(_) | Record::TypedObject(_) => loop {
            match record_at(image, next).unwrap() {
                (Record::Key(_), value) => next = behind(image, value),
                (_, end) => return end,
            }
        },
        _ => next,
    }
}

/// The value under a key, among the pairs from a place on.
fn walk_to(image: &[u8], input: &[u8], mut at: usize, key: &[u8]) -> Option<usize> {
    while let Ok((Record::Key(text), value)) = record_at(image, at) {
        if part(input, text) == key {
            return Some(value);
        }
        at = behind(image, value);
    }
    None
}

/// The number under "cents" of the object at a place.
fn cents(image: &[u8], input: &[u8], at: usize) -> Option<f64> {
    let (Record::Object, pairs) = record_at(image, at).ok()? else { return None };
    let value = walk_to(image, input, pairs, b"cents")?;
    let (Record::Number(price), _) = record_at(image, value).ok()? else { return None };
    Some(price)
}

fn message(shelf: &[u8], price: f64) -> Vec<u8> {
    let mut value = b"\x03\x00\x05cents\x00".to_vec();
    value.extend(price.to_be_bytes());
    value.extend([0, 0, 9]);
    let mut m = vec![0, shelf.len() as u8];
    m.extend(shelf);
    m.extend([0, 0]);
    m.extend((value.len() as u32).to_be_bytes());
    m.extend(value);
    m
}

fn packet() -> Vec<u8> {
    let mut p = vec![0, 0, 0, 0, 0, 3];
    p.extend(message(b"A-01", 127.0));
    p.extend(message(b"A-02", 299.0));
    p.extend(message(b"A-03", 83.0));
    p
}

#[test]
fn a_price_out_of_a_file() {
    let mut image = [0xA5; 3 * 627];
    assert_eq!(lso_parse(FILE, &mut image), Ok(Reading { used: 627, made: 436 }));
    assert!(image[436..].iter().all(|&b| b == 0));
    let (file, pairs) = record_at(&image, 0).unwrap();
    let Record::Lso { stored, name } = file else { panic!("{file:?}") };
    assert_eq!((stored, part(FILE, name)), (621, &b"prices"[..]));
    let shelf = walk_to(&image[..436], FILE, pairs, b"A-02").unwrap();
    assert_eq!(cents(&image, FILE, shelf), Some(299.0));
    assert_eq!(walk_to(&image[..436], FILE, pairs, b"Z-99"), None);
}

#[test]
fn a_price_by_the_index() {
    let mut image = [0; 3 * 627];
    let made = lso_parse(FILE, &mut image).unwrap().made;
    let tree = &image[..made];
    let mut keys = [0xA5; 2 * 436];
    let count = index(tree, FILE, &mut keys).unwrap();
    assert!(13 * count <= keys.len() && keys[13 * count..].iter().all(|&b| b == 0));
    // As the walk finds it; with the zeros behind the index and the image, or without them.
    let (_, pairs) = record_at(tree, 0).unwrap();
    let object = walk_to(tree, FILE, pairs, b"A-01").unwrap();
    assert_eq!(find(tree, FILE, &keys, &["A-01"]), Some(object));
    assert_eq!(step(&image, FILE, &keys[..13 * count], 0, b"A-01"), Some(object));
    let price = find(&image, FILE, &keys, &["A-01", "cents"]).unwrap();
    assert_eq!(record_at(tree, price).unwrap().0, Record::Number(129.0));
    assert_eq!(step(tree, FILE, &keys, object, b"cents"), Some(price));
    // No keys: the file's record. No such key, and no way on from a number.
    assert_eq!(find(tree, FILE, &keys, &[]), Some(0));
    assert_eq!(find(tree, FILE, &keys, &["Z-99"]), None);
    assert_eq!(find(tree, FILE, &keys, &["A-01", "cents", "cents"]), None);
    assert_eq!(step(tree, FILE, &keys, price, b"cents"), None);
    assert_eq!(step(tree, FILE, &keys, usize::MAX, b"cents"), None);
    // Its own length is room enough, a byte less isn't; an index that is all zero finds the first record alone.
    assert_eq!(index(tree, FILE, &mut keys[..13 * count]), Ok(count));
    let short = &mut keys[..13 * count - 1];
    assert_eq!(index(tree, FILE, short), Err(Answer::NoRoom));
    assert!(short.iter().all(|&b| b == 0));
    assert_eq!(index(&image, FILE, &mut keys), Err(Answer::NoTree));
    assert_eq!(keys, [0; 2 * 436]);
    assert_eq!((find(tree, FILE, &keys, &[]), find(tree, FILE, &keys, &["A-01"])), (Some(0), None));
}

#[test]
fn the_last_pair_of_a_key() {
    // {a: {x: null}, b: [{a: null}], a: true, "": undefined}
    let input = b"\x03\0\x01a\x03\0\x01x\x05\0\0\x09\0\x01b\x0A\0\0\0\x01\x03\0\x01a\x05\0\0\x09\0\x01a\x01\x01\0\0\x06\0\0\x09";
    let mut image = [0; 200];
    let made = parse_single_element(input, &mut image).unwrap().made;
    let tree = &image[..made];
    let mut keys = [0; 400];
    assert_eq!(index(tree, input, &mut keys), Ok(6));
    // The first record of the index: depth 2, in the object at 0, the empty key.
    assert_eq!(keys[..5], [2, 0, 0, 0, 0]);
    let at = |path: &[&str]| find(tree, input, &keys, path).map(|p| record_at(tree, p).unwrap().0);
    assert_eq!(at(&["a"]), Some(Record::Boolean(true)));
    assert_eq!(at(&["a", "x"]), None);
    assert_eq!(at(&[""]), Some(Record::Undefined));
    assert_eq!(at(&["b"]), Some(Record::StrictArray(1)));
    assert_eq!(at(&["b", "a"]), None);
    assert_eq!(at(&[]), Some(Record::Object));
    // An element of an array is no step of a path, but a container as any other.
    let array = find(tree, input, &keys, &["b"]).unwrap();
    let inner = step(tree, input, &keys, record_at(tree, array).unwrap().1, b"a").unwrap();
    assert_eq!(record_at(tree, inner).unwrap().0, Record::Null);
    // What is no value's and no file's image.
    let p = packet();
    let made = packet_parse(&p, &mut image).unwrap().made;
    assert_eq!(index(&image[..made], &p, &mut keys), Err(Answer::NoTree));
    assert_eq!(index(&[], &[], &mut keys), Err(Answer::NoTree));
    assert_eq!((find(&image[..made], &p, &keys, &[]), find(&[], &[], &keys, &[])), (None, None));
    assert_eq!(index(&[5], &vec![0; 1_048_577], &mut keys), Err(Answer::OverLimit));
    assert_eq!(index(&[5], &[], &mut []), Ok(0));
}

#[test]
fn a_file_is_written_as_it_was_read() {
    let mut image = [0; 3 * 627];
    let made = lso_parse(FILE, &mut image).unwrap().made;
    let mut out = [0x5A; 700];
    assert_eq!(lso_write_to_bytes(&image[..made], FILE, &mut out), Ok(627));
    assert_eq!(&out[..627], FILE);
    assert!(out[627..].iter().all(|&b| b == 0x5A));
}

#[test]
fn refused() {
    let mut image = [0xA5; 64];
    // The element that is cut off begins where the incomplete reading ends.
    assert_eq!(lso_parse(&FILE[..600], &mut [0; 2000]), Err(refusal(Answer::NotRight, 572)));
    assert_eq!(lso_parse_incomplete(&FILE[..600], &mut [0; 2000]).unwrap().used, 572);
    // The record that does not fit is the one of the value whose marker stands there: the boolean under "shown" of the first shelf.
    assert_eq!(lso_parse(FILE, &mut image), Err(refusal(Answer::NoRoom, 105)));
    assert_eq!(image, [0; 64]);
    let mut out = [0x5A; 16];
    assert_eq!(write_value(&[0x04], &[], &mut out), Err(Answer::NoTree));
    assert_eq!(write_value(&[0x00, 1, 2, 3, 4, 5, 6, 7, 8], &[], &mut out[..8]), Err(Answer::NoRoom));
    assert_eq!(out, [0x5A; 16]);
    assert_eq!(parse_single_element(&[], &mut []), Err(refusal(Answer::NotWhole, 0)));
    assert_eq!(parse_single_element(&[5], &mut []), Err(refusal(Answer::NoRoom, 0)));
    assert_eq!(parse_single_element(&vec![5; 1_048_577], &mut image), Err(refusal(Answer::OverLimit, 0)));
    let deep: Vec<u8> = [0x0A, 0, 0, 0, 1].repeat(32).into_iter().chain([5]).collect();
    assert_eq!(parse_single_element(&deep, &mut [0; 1000]), Err(refusal(Answer::TooDeep, 160)));
    assert_eq!(packet_parse(&[0, 3], &mut image), Err(refusal(Answer::OtherVersion, 1)));
}

#[test]
fn where_it_broke() {
    let mut image = [0; 2000];
    let mut place = |input: &[u8]| parse_single_element(input, &mut image).map_err(|r| (r.answer, r.place));
    // A text that is not whole begins behind its length, and so does one that is not UTF-8, whichever byte is wrong.
    assert_eq!(place(b"\x02\0\x03ab"), Err((Answer::NotWhole, 3)));
    assert_eq!(place(b"\x02\0\x03ab\xFF"), Err((Answer::NotRight, 3)));
    // A date's zone, a count that is too large, a marker inside, a byte missing behind a key.
    assert_eq!(place(b"\x0B\0\0\0\0\0\0\0\0\x01"), Err((Answer::NotWhole, 9)));
    assert_eq!(place(b"\x0A\0\0\0\x02\x05"), Err((Answer::NotWhole, 1)));
    assert_eq!(place(b"\x0A\0\0\0\x02\x05\x04"), Err((Answer::NotRight, 6)));
    assert_eq!(place(b"\x03\0\x01k"), Err((Answer::NotWhole, 4)));
    // A signature whose last byte is wrong: the signature.
    let mut file = FILE.to_vec();
    file[15] = 1;
    assert_eq!(lso_parse(&file, &mut image), Err(refusal(Answer::NotRight, 6)));
    assert_eq!(lso_parse_incomplete(&file, &mut image), Err(refusal(Answer::NotRight, 6)));
    // No room for a key, for its value and for the end of an object.
    let object = b"\x03\0\x01k\x05\0\0\x09";
    for (room, at) in [(0, 0), (6, 1), (7, 4), (8, 7)] {
        assert_eq!(parse_single_element(object, &mut image[..room]), Err(refusal(Answer::NoRoom, at)));
    }
}

#[test]
fn refusals_in_words() {
    let why = lso_parse(&FILE[..600], &mut [0; 2000]).unwrap_err();
    assert_eq!(
        why.to_string(),
        "refused with answer 3 at byte 572: a fixed byte is wrong, a text is not UTF-8, a value's marker is 04, 09 or 0E, or bytes are left over"
    );
    assert_eq!(packet_nth(&packet(), 3).unwrap_err().to_string(), "refused with answer 8: the packet has no such entry, or no such part");
    assert_eq!(packet_parse_entry(&packet(), 3, &mut []).unwrap_err().to_string(), Answer::NoEntry.to_string());
    // Both are errors, and a refusal turns into its answer where only that is asked for.
    fn first_kind(input: &[u8], image: &mut [u8]) -> Result<Record, Answer> {
        let made = parse_single_element(input, image)?.made;
        Ok(record_at(&image[..made], 0)?.0)
    }
    assert_eq!(first_kind(&[5], &mut [0; 3]), Ok(Record::Null));
    assert_eq!(first_kind(&[4], &mut [0; 3]), Err(Answer::NotRight));
    fn count(input: &[u8], image: &mut [u8], keys: &mut [u8]) -> Result<usize, Box<dyn std::error::Error>> {
        let made = parse_single_element(input, image)?.made;
        Ok(index(&image[..made], input, keys)?)
    }
    assert_eq!(count(b"\x03\0\0\x05\0\0\x09", &mut [0; 21], &mut [0; 13]).unwrap(), 1);
    let why = count(b"\x03\0\0\x05\0\0\x09", &mut [0; 8], &mut [0; 13]).unwrap_err();
    assert_eq!(why.downcast_ref(), Some(&refusal(Answer::NoRoom, 6)));
    let why = count(b"\x03\0\0\x05\0\0\x09", &mut [0; 21], &mut [0; 12]).unwrap_err();
    assert_eq!(why.downcast_ref(), Some(&Answer::NoRoom));
}

#[test]
fn a_bent_byte_costs_one_shelf() {
    let mut p = packet();
    let mut image = [0; 300];
    assert_eq!(packet_parse(&p, &mut image).unwrap().used, p.len());
    let second = packet_nth(&p, 1).unwrap();
    p[second.value.place] = 4;
    assert_eq!(packet_parse(&p, &mut image), Err(refusal(Answer::NotRight, second.value.place)));
    // Where the answer is enough, `?` takes the one out of a refusal.
    let price = |k: usize, image: &mut [u8]| -> Result<_, Answer> {
        let entry = packet_nth(&p, k)?;
        let Role::Message { target, .. } = entry.role else { panic!("{entry:?}") };
        let made = packet_parse_entry(&p, k, image)?.made;
        Ok((part(&p, target), cents(&image[..made], &p, 0)))
    };
    assert_eq!(price(0, &mut image), Ok((&b"A-01"[..], Some(127.0))));
    assert_eq!(price(1, &mut image), Err(Answer::Damaged));
    assert_eq!(image, [0; 300]);
    assert_eq!(price(2, &mut image), Ok((&b"A-03"[..], Some(83.0))));
    assert_eq!(price(3, &mut image), Err(Answer::NoEntry));
    // The place is one of the packet: the marker that is bent.
    assert_eq!(packet_parse_entry(&p, 1, &mut image), Err(refusal(Answer::Damaged, second.value.place)));
    assert_eq!(packet_parse_entry(&p, 3, &mut image), Err(refusal(Answer::NoEntry, 0)));
}

#[test]
fn all_shelves_by_one_cut() {
    let mut p = packet();
    let mut image = [0; 300];
    let mut list = [[0xA5; 8]; 4];
    let whole = Cutting { used: p.len(), count: 3 };
    assert_eq!(packet_cut(&p, &mut list), Ok(whole));
    for (k, numbers) in list[..3].iter().enumerate() {
        assert_eq!(Ok(Entry::from(*numbers)), packet_nth(&p, k));
    }
    assert_eq!(list[3], [0; 8]);
    // The cut never looks into a value.
    let second = Entry::from(list[1]).value;
    p[second.place] = 4;
    assert_eq!(packet_cut(&p, &mut list), Ok(whole));
    let price = |k: usize, image: &mut [u8]| -> Result<_, Refusal> {
        let made = packet_parse_span(&p, Entry::from(list[k]).value, image)?.made;
        Ok(cents(&image[..made], &p, 0))
    };
    assert_eq!(price(0, &mut image), Ok(Some(127.0)));
    assert_eq!(price(1, &mut image), Err(refusal(Answer::Damaged, second.place)));
    assert_eq!(image, [0; 300]);
    assert_eq!(price(2, &mut image), Ok(Some(83.0)));
    // A list that is too short; a packet that its lengths do not cut; parts that are no value, or none of the packet.
    let mut short = [[0xA5; 8]; 2];
    assert_eq!(packet_cut(&p, &mut short), Err(refusal(Answer::NoRoom, 0)));
    assert_eq!(short, [[0; 8]; 2]);
    let third = packet_nth(&p, 2).unwrap().value;
    // The declared length is what is wrong with it: it stands in the four bytes before the value.
    assert_eq!(packet_cut(&p[..p.len() - 1], &mut list), Err(refusal(Answer::NotWhole, third.place - 4)));
    assert_eq!(list, [[0; 8]; 4]);
    // The end marker is missing, behind an empty key.
    let behind = third.place + third.length;
    assert_eq!(packet_parse_span(&p, Text { length: third.length - 1, ..third }, &mut image), Err(refusal(Answer::Damaged, behind - 1)));
    assert_eq!(packet_parse_span(&p, Text { length: third.length + 1, ..third }, &mut image), Err(refusal(Answer::NoEntry, 0)));
    assert_eq!(packet_parse_span(&p, Text { place: usize::MAX, length: 2 }, &mut image), Err(refusal(Answer::NoEntry, 0)));
    // The key has no room.
    assert_eq!(packet_parse_span(&p, third, &mut image[..4]), Err(refusal(Answer::NoRoom, third.place + 1)));
    // A part that goes on into the next message leaves that unused.
    let first = packet_nth(&p, 0).unwrap().value;
    let longer = Text { length: first.length + 3, ..first };
    assert_eq!(packet_parse_span(&p, longer, &mut image), Err(refusal(Answer::Damaged, first.place + first.length)));
}

#[test]
fn lengths_as_asked() {
    let p = packet();
    let mut image = [0; 300];
    let made = packet_parse_incomplete(&p, &mut image).unwrap().made;
    let mut out = [0; 200];
    let n = packet_write_to_bytes(&image[..made], &p, true, &mut out).unwrap();
    assert_eq!(&out[..n], &p[..]);
    let n = packet_write_to_bytes(&image[..made], &p, false, &mut out).unwrap();
    let place = packet_nth(&p, 0).unwrap().value.place;
    assert_eq!(out[place - 4..place], [0xFF; 4]);
    // It says that the length is not known, and the value is measured. No other length does so.
    assert_eq!(packet_nth(&out[..n], 0), packet_nth(&p, 0));
    assert_eq!(packet_cut(&out[..n], &mut []), Err(refusal(Answer::NoRoom, 0)));
    out[place - 1] = 0xFE;
    assert_eq!(packet_nth(&out[..n], 0), Err(Answer::NotWhole));
    assert_eq!(packet_cut(&out[..n], &mut []), Err(refusal(Answer::NotWhole, place - 4)));
}

#[test]
fn a_header_and_its_flag() {
    let p = b"\x00\x00\x00\x01\x00\x01h\x07\x00\x00\x00\x01\x05\x00\x00";
    let e = packet_nth(p, 0).unwrap();
    assert_eq!(e, Entry { role: Role::Header { name: Text { place: 6, length: 1 }, flag: true }, value: Text { place: 12, length: 1 } });
    let mut image = [0; 45];
    let made = packet_parse(p, &mut image).unwrap().made;
    assert_eq!(record_at(&image, 0).unwrap().0, Record::Packet { headers: 1, messages: 0 });
    assert_eq!(record_at(&image, 5).unwrap(), (Record::Header { name: Text { place: 6, length: 1 }, flag: true }, 12));
    assert_eq!(record_at(&image[..made], 12).unwrap(), (Record::Null, 13));
    assert_eq!(record_at(&image[..made], 13), Err(Answer::NoTree));
}

#[test]
fn each_kind_of_value() {
    let one = |input: &[u8]| {
        let mut image = [0; 64];
        parse_single_element(input, &mut image).unwrap();
        record_at(&image, 0).unwrap().0
    };
    let text = |place, length| Text { place, length };
    assert_eq!(one(b"\x00\x3F\xF0\0\0\0\0\0\0"), Record::Number(1.0));
    assert_eq!(one(b"\x01\x02"), Record::Boolean(true));
    assert_eq!(one(b"\x02\x00\x02hi"), Record::String(text(3, 2)));
    assert_eq!(one(b"\x03\0\0\x09"), Record::Object);
    assert_eq!(one(b"\x05"), Record::Null);
    assert_eq!(one(b"\x06"), Record::Undefined);
    assert_eq!(one(b"\x07\x01\x02"), Record::Reference(0x102));
    assert_eq!(one(b"\x08\0\0\0\x05\0\0\x09"), Record::EcmaArray(5));
    assert_eq!(one(b"\x0A\0\0\0\x01\x05"), Record::StrictArray(1));
    assert_eq!(one(b"\x0B\x3F\xF0\0\0\0\0\0\0\0\x07"), Record::Date(1.0, Some(7)));
    assert_eq!(one(b"\x0F\0\0\0\x01x"), Record::Xml(text(5, 1)));
    assert_eq!(one(b"\x10\0\x01C\0\0\x09"), Record::TypedObject(text(3, 1)));
    assert_eq!(one(b"\x11"), Record::Unsupported);
}

#[test]
fn texts() {
    assert!(inside(b"abc", Text { place: 3, length: 0 }));
    assert!(!inside(b"abc", Text { place: 1, length: usize::MAX }));
    assert_eq!(part(b"abc", Text { place: 1, length: 2 }), b"bc");
    assert_eq!(part(b"abc", Text { place: 2, length: 2 }), b"");
}
