//! The views, against the walk by records, and over what is no tree.
mod common;

use common::*;
use riddoskam::*;

/// Where the pairs of a file's image begin.
const BODY: usize = 10;

fn owned(pairs: Pairs) -> Vec<(String, Model)> {
    pairs.map(|(key, value)| (key.to_string(), seen(value))).collect()
}

#[test]
fn files_as_their_records_have_them() {
    for input in [FILE, KINDS] {
        let mut image = vec![0xA5; image_room(input.len())];
        let made = lso_parse(input, &mut image).unwrap().made;
        let expected = walked_pairs(&image[..made], input, BODY).0;
        let mut image = vec![0xA5; image_room(input.len())];
        let file = File::read(input, &mut image).unwrap();
        assert_eq!(owned(file.pairs()), expected);
        assert_eq!((file.len(), file.image().len(), file.is_empty()), (expected.len(), made, false));
        for (key, _) in &expected {
            assert_eq!(file.get(key).map(seen).as_ref(), last(&expected, key));
        }
        // Written and read again, it is the same; `kinds.sol` has a long string that would fit a short one, and is written as that.
        let mut out = vec![0; input.len()];
        let length = file.write(&mut out).unwrap();
        assert_eq!(out[..length] == *input, input == FILE);
        let mut image = vec![0; image_room(length)];
        assert_eq!(owned(File::read(&out[..length], &mut image).unwrap().pairs()), expected);
    }
}

#[test]
fn prices_and_names() {
    let mut image = [0; image_room(627)];
    let file = File::read(FILE, &mut image).unwrap();
    let price = |shelf: &str| file.get(shelf)?.get("cents")?.as_number();
    assert_eq!((price("A-01"), price("A-02"), price("Z-99"), price("store")), (Some(129.0), Some(299.0), None, None));
    assert_eq!((file.name(), file.stored_length()), ("prices", 621));
    assert_eq!(file.get("store").unwrap().as_str(), Some("Königstraße 7"));
    assert_eq!(file.get("A-01").unwrap().get("shown").unwrap().as_bool(), Some(true));
    let order = file.get("order").unwrap();
    assert_eq!((order.kind(), order.len(), order.items().len()), (Kind::StrictArray, 6, 6));
    assert_eq!((order.item(5).unwrap().as_str(), order.item(6).is_none()), (Some("C-07"), true));
    assert!(order.get("0").is_none() && order.get("").is_none());
    let date = file.get("updated").unwrap().as_date().unwrap();
    assert_eq!(date, Date { milliseconds: 1_794_700_800_000.0, zone: Some(0) });
    assert_eq!(file.find(&["A-01", "name"]).unwrap().as_str(), Some("Stabilo point 88"));
    assert!(file.find(&[]).is_none() && file.find(&["A-01", "name", "x"]).is_none());
    // Nothing is what it is not.
    let name = file.find(&["A-01", "name"]).unwrap();
    assert_eq!((name.as_number(), name.as_bool(), name.as_date(), name.as_xml(), name.as_reference()), (None, None, None, None, None));
    assert!(!name.is_null() && !name.is_undefined() && !name.is_unsupported() && name.class_name().is_none() && name.stored_length().is_none());
    assert_eq!((name.len(), name.is_empty(), name.record()), (0, true, Record::String(Text { place: 66, length: 16 })));
}

#[test]
fn a_file_cut_off() {
    let mut image = [0; 2000];
    assert_eq!(File::read(&FILE[..600], &mut image).unwrap_err(), Refusal { answer: Answer::NotRight, place: 572 });
    assert_eq!(image, [0; 2000]);
    let (file, used) = File::read_incomplete(&FILE[..600], &mut image).unwrap();
    assert_eq!((used, file.get("updated").is_some(), file.get("order").is_some()), (572, true, false));
}

#[test]
fn packets_as_their_records_have_them() {
    let mut image = [0xA5; image_room(167)];
    let packet = Packet::read(PACKET, &mut image).unwrap();
    let image = packet.image();
    let mut at = 5;
    let mut value = || {
        let (record, next) = record_at(image, at).unwrap();
        let (model, next) = walked(image, PACKET, next);
        at = next;
        (record, model)
    };
    let headers: Vec<_> = packet.headers().collect();
    assert_eq!(headers.iter().map(|h| (h.name, h.must_understand)).collect::<Vec<_>>(), [("store", false), ("signed", true)]);
    for header in headers {
        assert_eq!(seen(header.value), value().1);
    }
    let messages: Vec<_> = packet.messages().collect();
    let texts: Vec<_> = messages.iter().map(|m| (m.target, m.response)).collect();
    assert_eq!(texts, [("shelf/A-01", "/1"), ("shelf/A-02", "/2"), ("shelf/A-03", "")]);
    for message in &messages {
        assert_eq!(seen(message.value), value().1);
    }
    assert_eq!(at, image.len());
    assert_eq!((packet.headers().len(), packet.messages().len(), packet.messages().size_hint()), (2, 3, (3, Some(3))));
    // A message's value is a tree of its own: it is written and indexed alone.
    let (mut out, mut index) = ([0; 100], [0; 200]);
    let first = messages[0].value;
    let length = first.write(&mut out).unwrap();
    assert_eq!(&out[..length], part(PACKET, packet_nth(PACKET, 2).unwrap().value));
    let by_index = first.index(&mut index).unwrap();
    assert_eq!((by_index.get("cents").unwrap().as_number(), by_index.get("price").is_none()), (Some(129.0), true));
    let mut out = [0; 200];
    assert_eq!(packet.write(&mut out), Ok(167));
    assert_eq!(&out[..167], PACKET);
    assert_eq!(packet.write_without_lengths(&mut out), Ok(167));
    // Lengths that are not known are measured: the entries are those of the packet with its lengths.
    let (mut measured, mut known) = ([NO_ENTRY; 5], [NO_ENTRY; 5]);
    assert_eq!(packet_cut(&out[..167], &mut measured).unwrap().count, 5);
    packet_cut(PACKET, &mut known).unwrap();
    assert_eq!(measured, known);
    // One that can't be read refuses the cut, where it broke.
    let place = packet_nth(PACKET, 3).unwrap().value.place;
    out[place] = 4;
    assert_eq!(packet_cut(&out[..167], &mut measured).unwrap_err(), Refusal { answer: Answer::NotRight, place });
    assert_eq!(measured, [NO_ENTRY; 5]);
}

#[test]
fn a_packet_at_the_front() {
    let mut input = PACKET.to_vec();
    input.extend([1, 2, 3]);
    let mut image = [0; 600];
    assert_eq!(Packet::read(&input, &mut image).unwrap_err(), Refusal { answer: Answer::NotRight, place: 167 });
    let (packet, used) = Packet::read_incomplete(&input, &mut image).unwrap();
    assert_eq!((used, packet.messages().count()), (167, 3));
    let packet = Packet::read(&[0; 6], &mut image).unwrap();
    assert_eq!((packet.headers().next().is_none(), packet.messages().next().is_none()), (true, true));
}

#[test]
fn a_damaged_entry_costs_itself() {
    let (mut list, mut image) = ([NO_ENTRY; 5], [0xA5; 256]);
    let entries = Entries::cut(BENT, &mut list).unwrap();
    assert_eq!((entries.len(), entries.size_hint()), (5, (5, Some(5))));
    let read: Vec<_> = entries.clone().map(|entry| entry.read(&mut image).map(seen)).collect();
    assert_eq!(read[0], Ok(Model::String("Königstraße 7".into())));
    assert_eq!(read[1], Ok(Model::Boolean(true)));
    assert_eq!(read[2], Err(Refusal { answer: Answer::Damaged, place: 83 }));
    assert_eq!(read[3], Ok(Model::StrictArray(vec![Model::Number(2.99_f64.to_bits()), Model::Null])));
    assert_eq!(read[4], Ok(Model::Undefined));
    let addresses: Vec<_> = entries.clone().map(|entry| entry.address()).collect();
    assert_eq!(addresses[1], Address::Header { name: "signed", must_understand: true });
    assert_eq!(addresses[2], Address::Message { target: "shelf/A-01", response: "/1" });
    let back: Vec<_> = entries.clone().rev().map(|entry| entry.address()).collect();
    assert!(back.iter().rev().eq(&addresses));
    let last = entries.clone().nth(4).unwrap();
    assert_eq!((last.bytes(), last.span()), (&[6][..], Text { place: 166, length: 1 }));
    // No room in the image for this one, and a list that is too short.
    assert_eq!(entries.clone().next().unwrap().read(&mut [0; 6]).unwrap_err(), Refusal { answer: Answer::NoRoom, place: 16 });
    assert_eq!(Entries::cut(BENT, &mut [NO_ENTRY; 4]).unwrap_err(), Refusal { answer: Answer::NoRoom, place: 0 });
}

#[test]
fn values_one_behind_the_other() {
    let mut several = 0;
    for input in VALUES {
        let mut image = vec![0xA5; image_room(input.len())];
        let mut values = Values::new(input, &mut image);
        let mut at = 0;
        let mut read = Vec::new();
        for value in &mut values {
            let mut own = vec![0; image_room(input.len())];
            let one = parse_single_element(&input[at..], &mut own).unwrap();
            let value = value.unwrap();
            assert_eq!(seen(value), walked(&own[..one.made], &input[at..], 0).0);
            assert_eq!(value.image(), &own[..one.made]);
            at += one.used;
            read.push(value);
        }
        assert_eq!((at, values.used()), (input.len(), input.len()));
        // All of them are still there, and written they are the input.
        let mut out = vec![0; input.len()];
        let written = read.iter().fold(0, |at, value| at + value.write(&mut out[at..]).unwrap());
        assert_eq!((&out[..], written), (input, input.len()));
        several += usize::from(read.len() > 1);
    }
    assert!(several > 3, "{several}");
    let (mut image, refusal) = ([0; 15], Refusal { answer: Answer::NotWhole, place: 3 });
    assert_eq!(Values::new(KEYLESS, &mut image).next().unwrap().unwrap_err(), refusal);
}

#[test]
fn values_up_to_the_refused() {
    // The second array doesn't fit what is left of the image: its seventh null.
    let mut input = [0x05; 20];
    (input[0], input[10]) = (0x0A, 0x0A);
    input[1..5].copy_from_slice(&5_u32.to_be_bytes());
    input[11..15].copy_from_slice(&5_u32.to_be_bytes());
    let mut image = [0xA5; 17];
    let mut values = Values::new(&input, &mut image);
    assert_eq!(values.size_hint(), (1, Some(20)));
    assert_eq!(values.next().unwrap().unwrap().len(), 5);
    assert_eq!(values.next().unwrap().unwrap_err(), Refusal { answer: Answer::NoRoom, place: 17 });
    assert!(values.next().is_none() && values.next().is_none());
    assert_eq!(values.size_hint(), (0, Some(0)));
    assert!(Values::new(&[], &mut image).next().is_none());
    assert_eq!(Values::new(&vec![5; BYTES + 1], &mut image).next().unwrap().unwrap_err(), Refusal { answer: Answer::OverLimit, place: 0 });
    // One that is longer than the first try, behind short ones; and very many, which no pass over the whole image may cost each.
    let mut input = vec![0x05; 3];
    input.extend([0x0A, 0, 0, 3, 0xE8]);
    input.extend([0x05; 1000]);
    let mut image = vec![0; image_room(input.len())];
    let lengths: Vec<_> = Values::new(&input, &mut image).map(|value| value.unwrap().len()).collect();
    assert_eq!(lengths, [0, 0, 0, 1000]);
    let input = vec![0x06; 200_000];
    let mut image = vec![0; image_room(input.len())];
    assert!(Values::new(&input, &mut image).all(|value| value.unwrap().is_undefined()));
    assert_eq!(Values::new(&input, &mut image).count(), 200_000);
}

#[test]
fn a_lone_value() {
    let mut image = [0xA5; 30];
    assert!(Value::read(&[0x05], &mut image).unwrap().is_null());
    assert_eq!(Value::read(&[0x05, 0x05], &mut image).unwrap_err(), Refusal { answer: Answer::NotRight, place: 1 });
    assert_eq!(image, [0; 30]);
    assert_eq!(Value::read(&[], &mut image).unwrap_err(), Refusal { answer: Answer::NotWhole, place: 0 });
    let (value, used) = Value::read_incomplete(b"\x07\x01\x02\x05", &mut image).unwrap();
    assert_eq!((value.as_reference(), used), (Some(0x102), 3));
}

#[test]
fn the_last_pair_with_and_without_an_index() {
    // {a: {x: null}, b: [{a: null}], a: {x: true, x: 7 as a reference}, "": undefined}
    let input =
        b"\x03\0\x01a\x03\0\x01x\x05\0\0\x09\0\x01b\x0A\0\0\0\x01\x03\0\x01a\x05\0\0\x09\0\x01a\x03\0\x01x\x01\x01\0\x01x\x07\0\x07\0\0\x09\0\0\x06\0\0\x09";
    let mut image = [0; 3 * 64];
    let plain = Value::read(input, &mut image).unwrap();
    let mut buffer = [0; 6 * 64];
    let indexed = plain.index(&mut buffer).unwrap();
    for value in [plain, indexed] {
        assert_eq!(value.pairs().map(|(key, _)| key).collect::<Vec<_>>(), ["a", "b", "a", ""]);
        assert_eq!((value.len(), value.get("a").unwrap().len()), (4, 2));
        assert_eq!(value.find(&["a", "x"]).unwrap().as_reference(), Some(7));
        assert!(value.get("").unwrap().is_undefined());
        assert!(value.get("x").is_none() && value.find(&["b", "a"]).is_none());
        // An element of an array is a container as any other.
        assert!(value.get("b").unwrap().item(0).unwrap().get("a").unwrap().is_null());
        assert!(value.find(&[]).is_some_and(|own| own.kind() == Kind::Object));
    }
    // An index that has no room.
    assert_eq!(plain.index(&mut [0; 13]).unwrap_err(), Answer::NoRoom);
}

#[test]
fn an_index_finds_as_the_calls_find() {
    let mut image = [0; 2000];
    let made = lso_parse(FILE, &mut image).unwrap().made;
    let mut keys = [0; 2000];
    index(&image[..made], FILE, &mut keys).unwrap();
    let mut buffer = [0; 2000];
    let file = File::of(&image[..made], FILE).unwrap().index(&mut buffer).unwrap();
    let mut found = 0;
    for path in [&["A-01"][..], &["A-01", "cents"], &["order"], &["A-02", "name"], &["cents"], &["store", "x"], &["B-02", "shown"]] {
        let place = find(&image[..made], FILE, &keys, path);
        assert_eq!(file.find(path).map(|v| v.record()), place.map(|at| record_at(&image, at).unwrap().0));
        found += usize::from(place.is_some());
    }
    assert_eq!(found, 5);
}

#[test]
fn random_trees_by_every_way() {
    let mut random = Random(0x9E37);
    let (mut keys, mut hidden) = (0, 0);
    for _ in 0..1000 {
        let model = random.model(6);
        let mut input = Vec::new();
        encoded(&model, &mut input);
        let mut image = vec![0xA5; image_room(input.len())];
        let value = Value::read(&input, &mut image).unwrap();
        assert_eq!(seen(value), model);
        assert_eq!(walked(value.image(), &input, 0), (model.clone(), value.image().len()));
        let mut buffer = vec![0; index_room(value.image().len())];
        let indexed = value.index(&mut buffer).unwrap();
        let (k, h) = looked_up(&model, value, indexed);
        keys += k;
        hidden += h;
    }
    assert!(keys > 500 && hidden > 30, "{keys} {hidden}");
}

/// Looks for every key of a value, with and without an index: how many there were, and how many pairs that a later one hides.
fn looked_up(model: &Model, plain: Value, indexed: Value) -> (usize, usize) {
    let none = Vec::new();
    let (items, list) = match model {
        Model::Object(list) | Model::TypedObject(_, list) | Model::EcmaArray(_, _, list) => (&none, &list[..]),
        Model::StrictArray(items) => (items, &[][..]),
        _ => (&none, &[][..]),
    };
    assert_eq!((plain.len(), plain.items().len(), plain.is_empty()), (list.len() + items.len(), items.len(), list.len() + items.len() == 0));
    let mut count = (0, 0);
    for (number, (key, value)) in list.iter().enumerate() {
        let found = last(list, key).unwrap();
        assert_eq!(plain.get(key).map(seen).as_ref(), Some(found));
        assert_eq!(indexed.get(key).map(seen).as_ref(), Some(found));
        count.0 += 1;
        if list[number + 1..].iter().any(|(later, _)| later == key) {
            count.1 += 1;
        } else {
            let inner = looked_up(value, plain.get(key).unwrap(), indexed.get(key).unwrap());
            count = (count.0 + inner.0, count.1 + inner.1);
        }
    }
    for (number, item) in items.iter().enumerate() {
        let inner = looked_up(item, plain.item(number).unwrap(), indexed.item(number).unwrap());
        count = (count.0 + inner.0, count.1 + inner.1);
    }
    assert!(plain.get("no such key").is_none() && indexed.get("no such key").is_none() && plain.item(items.len()).is_none());
    count
}

#[test]
fn zeros_behind_a_tree_are_nothing() {
    let mut image = [0xA5; 5000];
    let file = File::read(FILE, &mut image).unwrap();
    assert_eq!((file.image().len(), file.pairs().count()), (436, 9));
    assert_eq!(file.pairs().last().unwrap().0, "order");
    // Handed over with its zeros it is no tree.
    assert_eq!(File::of(&image, FILE).unwrap_err(), Answer::NoTree);
    assert_eq!(File::of(&image[..437], FILE).unwrap_err(), Answer::NoTree);
    assert_eq!(File::of(&image[..435], FILE).unwrap_err(), Answer::NoTree);
    assert_eq!(File::of(&image[..436], FILE).unwrap().len(), 9);
    assert_eq!(Value::of(&[0x05, 0], &[]).unwrap_err(), Answer::NoTree);
    assert_eq!(Value::of(&[], &[]).unwrap_err(), Answer::NoTree);
}

#[test]
fn empty_trees() {
    let mut image = [0; 69];
    let empty = b"\0\xBF\0\0\0\x11TCSO\0\x04\0\0\0\0\0\x01a\0\0\0\0";
    let file = File::read(empty, &mut image).unwrap();
    assert_eq!((file.name(), file.len(), file.is_empty(), file.get("").is_none()), ("a", 0, true, true));
    let file = file.index(&mut []).unwrap();
    assert!(file.get("a").is_none());
    for input in [&b"\x03\0\0\x09"[..], b"\x08\0\0\0\x07\0\0\x09", b"\x0A\0\0\0\0", b"\x10\0\x01C\0\0\x09"] {
        let value = Value::read(input, &mut image).unwrap();
        assert_eq!((value.len(), value.is_empty(), value.pairs().next().is_none(), value.item(0).is_none()), (0, true, true, true));
        assert_eq!(value.stored_length(), (input[0] == 8).then_some(7));
    }
}

#[test]
fn values_without_a_key() {
    // What no reading makes: an 08 with two values before its pair.
    let image = b"\x08\0\0\0\x09\x05\x0A\0\0\0\x01\x06\x20\0\0\0\0\x01\x01\x01\x09";
    let value = Value::of(image, b"k").unwrap();
    let expected = Model::EcmaArray(9, vec![Model::Null, Model::StrictArray(vec![Model::Undefined])], vec![("k".into(), Model::Boolean(true))]);
    assert_eq!(seen(value), expected);
    assert_eq!((value.len(), value.items().len(), value.pairs().count()), (3, 2, 1));
    assert!(value.get("0").is_none() && value.get("k").unwrap().as_bool() == Some(true));
    assert_eq!(format!("{value:?}"), "EcmaArray {0: null, 1: [undefined], \"k\": true}");
    // Written they have keys.
    let (mut out, mut image) = ([0; 40], [0; 120]);
    let length = value.write(&mut out).unwrap();
    let again = Value::read(&out[..length], &mut image).unwrap();
    assert_eq!(again.pairs().map(|(key, _)| key).collect::<Vec<_>>(), ["0", "1", "k"]);
}

#[test]
fn images_that_are_bent() {
    let mut random = Random(0xBE27);
    let (mut taken, mut refused) = (0, 0);
    for _ in 0..3000 {
        let model = random.model(5);
        let mut input = Vec::new();
        encoded(&model, &mut input);
        let mut image = vec![0; image_room(input.len())];
        let made = parse_single_element(&input, &mut image).unwrap().made;
        image.truncate(made);
        for _ in 0..random.below(3) {
            let at = random.below(made);
            image[at] = random.below(64) as u8;
        }
        let mut out = vec![0; 4 * input.len() + 1000];
        match Value::of(&image, &input) {
            // A count that was bent is right all the same, so the walk by records tells the same.
            Ok(value) => {
                assert_eq!((seen(value), made), walked(&image, &input, 0));
                assert!(value.write(&mut out).is_ok());
                taken += 1;
            }
            Err(answer) => {
                assert_eq!(write_value(&image, &input, &mut out), Err(answer));
                refused += 1;
            }
        }
        assert!(File::of(&image, &input).is_err_and(|answer| answer == Answer::NoTree));
        assert!(Packet::of(&image, &input).is_err_and(|answer| answer == Answer::NoTree));
    }
    assert!(taken > 300 && refused > 300, "{taken} {refused}");
}

#[test]
fn images_that_are_no_trees() {
    let of = |image: &[u8]| Value::of(image, b"ab\xFF").map(|value| value.kind());
    assert_eq!(of(b"\x0A\0\0\0\x02\x05"), Err(Answer::NoTree));
    assert_eq!(of(b"\x0A\xFF\xFF\xFF\xFF\x05"), Err(Answer::NoTree));
    assert_eq!(of(b"\x03\x20\0\0\0\0\x01\x09"), Err(Answer::NoTree));
    assert_eq!(of(b"\x03\x20\0\0\0\0\x01\x05"), Err(Answer::NoTree));
    assert_eq!(of(b"\x02\0\0\x02\0\0\x02"), Err(Answer::NoTree));
    assert_eq!(of(b"\x02\0\0\x02\0\0\x01"), Err(Answer::NoTree));
    assert_eq!(of(b"\x02\0\0\0\0\0\x02"), Ok(Kind::String));
    assert_eq!(of(b"\x20\0\0\0\0\x01\x05"), Err(Answer::NoTree));
    for (levels, expected) in [(31, Ok(Kind::StrictArray)), (32, Err(Answer::TooDeep)), (1000, Err(Answer::TooDeep))] {
        let mut image = [0x0A, 0, 0, 0, 1].repeat(levels);
        image.push(0x05);
        assert_eq!(of(&image), expected);
    }
    // Records that name more text than may be written are refused before a text is looked at: 300,000 times 1,000,000 bytes would take minutes.
    let text = vec![b'a'; 1_000_000];
    let mut image = vec![0x0A, 0, 4, 0x93, 0xE0];
    image.extend([0x02, 0, 0, 0, 0x0F, 0x42, 0x40].repeat(300_000));
    assert_eq!(Value::of(&image, &text).unwrap_err(), Answer::OverLimit);
    assert!(Value::of(&image[..5 + 7], &text).is_err_and(|answer| answer == Answer::NoTree));
    assert_eq!(Value::of(&image[5..12], &text).unwrap().as_str().map(str::len), Some(1_000_000));
    assert_eq!(Value::of(&[0x05], &vec![0; BYTES + 1]).unwrap_err(), Answer::OverLimit);
    assert_eq!(Value::of(&vec![0; IMAGE + 1], &[]).unwrap_err(), Answer::OverLimit);
}

#[test]
fn a_tree_is_printed() {
    let mut image = [0; 2000];
    let file = File::read(KINDS, &mut image).unwrap();
    let printed = format!("{file:?}");
    assert!(printed.starts_with("File \"kinds\" {"), "{printed}");
    let input = b"\x03\0\x01a\x0A\0\0\0\x02\x05\x02\0\x01\"\0\x01b\x10\0\x01C\0\0\x09\0\x01c\x0B\0\0\0\0\0\0\0\0\xFF\xC4\0\x01d\x0F\0\0\0\x01x\0\0\x07\0\x01\0\x01e\x11\0\0\x09";
    let value = Value::read(input, &mut image).unwrap();
    let expected = "{\"a\": [null, \"\\\"\"], \"b\": TypedObject \"C\" {}, \"c\": Date { milliseconds: 0.0, zone: Some(-60) }, \
                    \"d\": Xml(\"x\"), \"\": Reference(1), \"e\": unsupported}";
    assert_eq!(format!("{value:?}"), expected);
    let value = Value::read(b"\x03\0\x01a\x01\x01\0\0\x09", &mut image).unwrap();
    assert_eq!(format!("{value:#?}"), "{\n    \"a\": true,\n}");
    let (mut list, packet) = ([NO_ENTRY; 5], Packet::read(PACKET, &mut image).unwrap());
    assert!(format!("{packet:?}").contains("Message { target: \"shelf/A-03\", response: \"\", value: undefined }"));
    let entries = Entries::cut(PACKET, &mut list).unwrap();
    let first = "PacketEntry { address: Header { name: \"store\", must_understand: false }, bytes: 18 }";
    assert!(format!("{entries:?}").contains(first), "{entries:?}");
    assert_eq!(Kind::StrictArray.to_string(), "strict array");
}

#[test]
fn what_the_iterators_promise() {
    let mut image = [0; 2000];
    let file = File::read(FILE, &mut image).unwrap();
    let mut pairs = file.pairs();
    let (low, high) = pairs.size_hint();
    assert!(low <= 9 && high.unwrap() >= 9);
    let copy = pairs.clone();
    assert_eq!(pairs.by_ref().count(), 9);
    assert!(pairs.next().is_none() && pairs.next().is_none());
    assert_eq!(copy.count(), 9);
    let mut items = file.get("order").unwrap().items();
    for left in (0..6).rev() {
        assert!(items.next().is_some());
        assert_eq!((items.len(), items.size_hint()), (left, (left, Some(left))));
    }
    assert!(items.next().is_none() && items.next().is_none());
    fn fused<I: std::iter::FusedIterator + Clone + Send + Sync>(_: I) {}
    fused(pairs);
    fused(items);
    let packet = Packet::read(PACKET, &mut image).unwrap();
    fused(packet.headers());
    fused(packet.messages());
}
