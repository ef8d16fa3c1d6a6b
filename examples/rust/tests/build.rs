//! What is built, against what is read; and what a builder refuses.
mod common;

use common::*;
use riddoskam::build::{value, FileBuild, PacketBuild};
use riddoskam::*;

fn text(place: usize, length: usize) -> Text {
    Text { place, length }
}

/// A record of each kind.
fn records() -> [Record; 21] {
    use Record::*;
    [
        Number(-0.0),
        Boolean(false),
        Boolean(true),
        String(text(0xFF_FFFF, 0xFF_FFFE)),
        Object,
        Null,
        Undefined,
        Reference(0xFFFE),
        EcmaArray(0xFFFF_FFFE),
        ObjectEnd,
        StrictArray(0xFFFF_FFFF),
        Date(1e12, None),
        Date(1e12, Some(0xFFFF)),
        Unsupported,
        Xml(text(1, 2)),
        TypedObject(text(0xFF_FFFF, 0xFFFF)),
        Key(text(3, 4)),
        Packet { headers: 1, messages: 0xFFFF },
        Header { name: text(5, 6), flag: true },
        Message { target: text(7, 8), response: text(9, 10) },
        Lso { stored: 0xFFFF_FFFF, name: text(11, 12) },
    ]
}

#[test]
fn a_record_that_is_put_is_found() {
    for record in records() {
        let (mut image, mut made) = ([0xA5; 32], 3);
        assert_eq!(put(&mut image, &mut made, record), Ok(()));
        assert_eq!(record_at(&image[..made], 3), Ok((record, made)));
        assert!(image[..3].iter().chain(&image[made..]).all(|&b| b == 0xA5));
        // Where a byte of room is missing, nothing is changed.
        let (mut short, mut at) = ([0xA5; 32], 3);
        assert_eq!(put(&mut short[..made - 1], &mut at, record), Err(Answer::NoRoom));
        assert_eq!((short, at), ([0xA5; 32], 3));
    }
    // What no field holds; and places past the end.
    let (mut image, mut made) = ([0xA5; 32], 0);
    let beyond = [
        Record::String(text(0x100_0000, 0)),
        Record::Xml(text(0, 0x100_0000)),
        Record::Key(text(0, 0x1_0000)),
        Record::TypedObject(text(usize::MAX, 1)),
        Record::Header { name: text(0, 0x1_0000), flag: false },
        Record::Message { target: text(0, 1), response: text(0x100_0000, 1) },
        Record::Lso { stored: 1, name: text(0, 0x1_0000) },
    ];
    for record in beyond {
        assert_eq!(put(&mut image, &mut made, record), Err(Answer::NoTree));
    }
    for mut past in [32, 33, usize::MAX] {
        assert_eq!(put(&mut image, &mut past, Record::Null), Err(Answer::NoRoom));
    }
    assert_eq!((image, made), ([0xA5; 32], 0));
}

#[test]
fn random_trees_are_built_as_they_are_encoded() {
    let mut random = Random(0xB01D);
    for _ in 0..400 {
        let model = random.model(6);
        let mut expected = Vec::new();
        encoded(&model, &mut expected);
        let (mut image, mut said) = (vec![0xA5; 3 * expected.len()], vec![0xA5; expected.len()]);
        let built = value(&mut image, &mut said, |slot| build(slot, &model)).unwrap();
        assert_eq!(seen(built), model);
        let mut out = vec![0; expected.len()];
        assert_eq!(built.write(&mut out), Ok(expected.len()));
        assert_eq!(out, expected);
        // Read again, and copied into another tree.
        let mut image = vec![0; 3 * expected.len()];
        let read = Value::read(&expected, &mut image).unwrap();
        let (mut image, mut said) = (vec![0; 3 * expected.len() + 100], vec![0; expected.len() + 100]);
        let copied = value(&mut image, &mut said, |slot| {
            slot.array(|items| {
                items.item().copy(read);
                items.item().null();
            })
        });
        assert_eq!(copied.map(seen), Ok(Model::StrictArray(vec![model, Model::Null])));
    }
}

/// Builds the sample again, out of what was read.
fn again<'a>(file: File, image: &'a mut [u8], said: &'a mut [u8]) -> Result<File<'a>, Answer> {
    let mut build = FileBuild::new(image, said, file.name());
    for (key, value) in file.pairs() {
        build.pair(key).copy(value);
    }
    build.finish()
}

#[test]
fn files_are_built_as_they_were_read() {
    for input in [FILE, KINDS] {
        let mut image = vec![0; image_room(input.len())];
        let file = File::read(input, &mut image).unwrap();
        let mut expected = vec![0; input.len()];
        let length = file.write(&mut expected).unwrap();
        let (mut image, mut said, mut out) = (vec![0xA5; file.image().len()], vec![0xA5; input.len()], vec![0; length]);
        let built = again(file, &mut image, &mut said).unwrap();
        assert_eq!(built.write(&mut out), Ok(length));
        assert_eq!(out, expected[..length]);
        assert_eq!(built.stored_length(), 0);
        // With any room less, in the image, the text or the output, it is refused, and the output is as it was.
        let (made, needed) = (built.image().len(), built.text().len());
        for room in 0..made {
            assert_eq!(again(file, &mut vec![0; room], &mut vec![0; needed]).unwrap_err(), Answer::NoRoom);
        }
        for room in 0..needed {
            assert_eq!(again(file, &mut vec![0; made], &mut vec![0; room]).unwrap_err(), Answer::NoRoom);
        }
        out.fill(0xA5);
        for room in 0..length {
            assert_eq!(built.write(&mut out[..room]), Err(Answer::NoRoom));
        }
        assert!(out.iter().all(|&b| b == 0xA5));
    }
}

#[test]
fn a_packet_is_built_as_it_was_read() {
    let mut image = [0; image_room(167)];
    let packet = Packet::read(PACKET, &mut image).unwrap();
    let (mut image, mut said, mut out) = ([0xA5; 200], [0xA5; 200], [0; 167]);
    let mut build = PacketBuild::new(&mut image, &mut said);
    for header in packet.headers() {
        build.header(header.name, header.must_understand).copy(header.value);
    }
    for message in packet.messages() {
        build.message(message.target, message.response).copy(message.value);
    }
    assert_eq!(build.refused(), None);
    assert_eq!(build.finish().unwrap().write(&mut out), Ok(167));
    assert_eq!(out, PACKET);
}

#[test]
fn counts_are_set_at_the_end() {
    let (mut image, mut said) = ([0; 200], [0; 200]);
    let built = value(&mut image, &mut said, |slot| {
        slot.array(|outer| {
            outer.item().array(|inner| (0..3).for_each(|n| inner.item().number(n)));
            outer.item().ecma_array(|pairs| (0..2).for_each(|n| pairs.pair(n).null()));
            // No value, no item; no value, no pair.
            let _ = outer.item();
            outer.item().object(|pairs| {
                let _ = pairs.pair("nothing");
            });
        })
    });
    let built = built.unwrap();
    assert_eq!(format!("{built:?}"), "[[0.0, 1.0, 2.0], EcmaArray {\"0\": null, \"1\": null}, {}]");
    assert_eq!((built.item(1).unwrap().stored_length(), built.len()), (Some(2), 3));
}

#[test]
fn pairs_and_items_of_what_was_read() {
    let mut image = [0; 2000];
    let file = File::read(FILE, &mut image).unwrap();
    let (mut image, mut said, mut out) = ([0; 500], [0; 700], [0; 627]);
    let mut new = FileBuild::new(&mut image, &mut said, file.name());
    new.extend(file.pairs());
    let text = format!("{new:?}");
    assert!(text.contains("image 436 of 500") && text.contains("refused None"), "{text}");
    assert_eq!(new.finish().unwrap().write(&mut out), Ok(627));
    assert_eq!(out, FILE);
    let built = value(&mut image, &mut said, |slot| {
        slot.array(|items| {
            items.extend(file.get("order").unwrap().items().skip(4));
            items.item().object(|pairs| pairs.extend(file.get("A-01").unwrap().pairs().filter(|(key, _)| *key != "code")));
        })
    });
    let expected = "[\"B-02\", \"C-07\", {\"name\": \"Stabilo point 88\", \"cents\": 129.0, \"shown\": true}]";
    assert_eq!(format!("{:?}", built.unwrap()), expected);
}

#[test]
fn closures_return_what_they_like() {
    let (mut image, mut said) = ([0; 200], [0; 200]);
    let mut file = FileBuild::new(&mut image, &mut said, "f");
    let parsed = file.pair("list").array(|list| -> Result<i32, std::num::ParseIntError> {
        let mut sum = 0;
        for word in ["1", "2", "x", "4"] {
            let number: i32 = word.parse()?;
            list.item().number(number);
            sum += number;
        }
        Ok(sum)
    });
    assert!(parsed.is_err());
    // What was laid before is whole.
    assert_eq!(format!("{:?}", file.finish().unwrap()), "File \"f\" {\"list\": [1.0, 2.0]}");
}

#[test]
fn texts_are_what_is_displayed() {
    let (mut image, mut said) = ([0; 200], [0; 20]);
    let mut file = FileBuild::new(&mut image, &mut said, 'f');
    file.pair(format_args!("A-{:02}", 7)).string(format_args!("{}{}", "ö", 1.5));
    assert_eq!(file.refused(), None);
    let file = file.finish().unwrap();
    assert_eq!((file.get("A-07").unwrap().as_str(), file.text()), (Some("ö1.5"), "fA-07ö1.5".as_bytes()));
}

struct Broken;

impl std::fmt::Display for Broken {
    fn fmt(&self, f: &mut std::fmt::Formatter<'_>) -> std::fmt::Result {
        f.write_str("a")?;
        Err(std::fmt::Error)
    }
}

#[test]
fn the_first_refusal_is_kept() {
    let refused = |fill: fn(&mut PacketBuild)| {
        let (mut image, mut said) = (vec![0; 1 << 20], vec![0; 1 << 20]);
        let mut packet = PacketBuild::new(&mut image, &mut said);
        fill(&mut packet);
        let kept = packet.refused();
        let finished = packet.finish().err();
        assert!(kept.is_none() || kept == finished);
        finished
    };
    assert_eq!(refused(|_| ()), None);
    // A header behind a message.
    assert_eq!(
        refused(|packet| {
            packet.message("m", "").null();
            packet.header("h", false).null();
        }),
        Some(Answer::NoTree)
    );
    let (mut image, mut said) = ([0; 64], [0; 64]);
    let mut packet = PacketBuild::new(&mut image, &mut said);
    packet.message("m", "").null();
    let _ = packet.header("h", false);
    assert_eq!(packet.refused(), Some(Answer::NoTree));
    // Texts too long for their fields, and as long as they may be; a string may be longer.
    assert_eq!(refused(|packet| packet.header("x".repeat(65_536), false).null()), Some(Answer::OverLimit));
    assert_eq!(refused(|packet| packet.message("x".repeat(65_536), "").null()), Some(Answer::OverLimit));
    assert_eq!(refused(|packet| packet.message("", "x".repeat(65_536)).null()), Some(Answer::OverLimit));
    assert_eq!(refused(|packet| packet.message("", "").typed_object("x".repeat(65_536), |_| ())), Some(Answer::OverLimit));
    assert_eq!(refused(|packet| packet.message("", "").object(|o| o.pair("x".repeat(65_536)).null())), Some(Answer::OverLimit));
    assert_eq!(refused(|packet| packet.message("x".repeat(65_535), "x".repeat(65_535)).string("x".repeat(65_536))), None);
    // Text past the limit, and an output that would be.
    assert_eq!(refused(|packet| (0..17).for_each(|_| packet.message("", "").string("x".repeat(65_535)))), Some(Answer::OverLimit));
    assert_eq!(refused(|packet| packet.message("", "").string("x".repeat(BYTES))), Some(Answer::OverLimit));
    // A text that fails by itself.
    assert_eq!(refused(|packet| packet.message(Broken, "").null()), Some(Answer::NotRight));
    // More messages than a packet counts.
    let many = |packet: &mut PacketBuild| (0..65_535).for_each(|_| packet.message("", "").null());
    assert_eq!(refused(many), None);
    assert_eq!(
        refused(|packet| {
            (0..65_536).for_each(|_| packet.message("", "").null());
        }),
        Some(Answer::OverLimit)
    );
    // The first of two is kept, and nothing is laid behind it.
    let (mut image, mut said) = ([0; 64], [0; 4]);
    let mut file = FileBuild::new(&mut image, &mut said, "file");
    file.pair("k").null();
    file.pair("x".repeat(65_536)).null();
    assert_eq!(file.refused(), Some(Answer::NoRoom));
    assert_eq!(file.finish().unwrap_err(), Answer::NoRoom);
    assert!(image[10..].iter().all(|&b| b == 0));
}

/// Arrays in each other, and in the innermost nothing.
fn nest(slot: build::Slot, levels: usize) {
    slot.array(|items| {
        if levels > 1 {
            nest(items.item(), levels - 1);
        }
    });
}

#[test]
fn levels_are_judged() {
    let built = |levels| {
        let (mut image, mut said) = ([0; 400], [0; 4]);
        value(&mut image, &mut said, |slot| nest(slot, levels)).map(|value| value.image().len())
    };
    assert_eq!((built(1), built(32), built(33)), (Ok(5), Ok(160), Err(Answer::TooDeep)));
    let (mut image, mut said) = ([0; 400], [0; 4]);
    assert_eq!(value(&mut image, &mut said, |_| ()).unwrap_err(), Answer::NoTree);
    // A tree that is right alone, but not inside another.
    let deep = value(&mut image, &mut said, |slot| nest(slot, 32)).unwrap();
    let (mut image, mut said) = ([0; 400], [0; 4]);
    assert_eq!(value(&mut image, &mut said, |slot| slot.array(|items| items.item().copy(deep))).unwrap_err(), Answer::TooDeep);
}

#[test]
fn each_kind_of_value() {
    let (mut image, mut said) = ([0; 200], [0; 200]);
    let mut file = FileBuild::new(&mut image, &mut said, "kinds");
    file.pair("a").number(1_u8);
    file.pair("b").boolean(true);
    file.pair("c").string("s");
    file.pair("d").null();
    file.pair("e").undefined();
    file.pair("f").reference(7);
    file.pair("g").date(Date { milliseconds: 5.0, zone: None });
    file.pair("h").date(Date { milliseconds: 5.0, zone: Some(-60) });
    file.pair("i").unsupported();
    file.pair("j").xml("<x/>");
    file.pair("k").typed_object("C", |pairs| pairs.pair("x").null());
    file.pair("a").number(2.5);
    let file = file.finish().unwrap();
    let expected = "File \"kinds\" {\"a\": 1.0, \"b\": true, \"c\": \"s\", \"d\": null, \"e\": undefined, \"f\": Reference(7), \
                    \"g\": Date { milliseconds: 5.0, zone: None }, \"h\": Date { milliseconds: 5.0, zone: Some(-60) }, \"i\": unsupported, \
                    \"j\": Xml(\"<x/>\"), \"k\": TypedObject \"C\" {\"x\": null}, \"a\": 2.5}";
    assert_eq!(format!("{file:?}"), expected);
    assert_eq!(file.get("a").unwrap().as_number(), Some(2.5));
    assert_eq!(file.get("k").unwrap().class_name(), Some("C"));
    assert_eq!((file.get("j").unwrap().as_xml(), file.get("f").unwrap().as_reference()), (Some("<x/>"), Some(7)));
    // Written, the zone that is absent is 0.
    let (mut out, mut image) = ([0; 300], [0; 900]);
    let length = file.write(&mut out).unwrap();
    let read = File::read(&out[..length], &mut image).unwrap();
    assert_eq!((read.stored_length() as usize, read.get("g").unwrap().as_date().unwrap().zone), (length - 6, Some(0)));
}
