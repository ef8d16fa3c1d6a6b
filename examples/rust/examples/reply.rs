//! Answers a packet: `cargo run --example reply [PACKET [REPLY]]`. Without a word it takes samples/prices.amf. Each message that asks for an answer gets one,
//! also one that is damaged: it costs no other. The reply is printed, and written where a second word names a file.
use std::error::Error;
use std::process::ExitCode;
use std::{env, fs};

use riddoskam::build::{PacketBuild, Slot};
use riddoskam::{image_room, Address, Entries, Packet, Value, NO_ENTRY};

const SAMPLE: &str = concat!(env!("CARGO_MANIFEST_DIR"), "/../../samples/prices.amf");

/// The most entries of a packet that is answered.
const ENTRIES: usize = 64;

/// Room for the reply, for its image and for its texts.
const ROOM: usize = 8192;

/// The response of a message that asks for no answer.
const NONE: &str = "null";

fn main() -> ExitCode {
    let mut words = env::args().skip(1);
    let path = words.next().unwrap_or(SAMPLE.into());
    match run(&path, words.next()) {
        Ok(()) => ExitCode::SUCCESS,
        Err(why) => {
            eprintln!("{path}: {why}");
            ExitCode::FAILURE
        }
    }
}

fn run(path: &str, reply: Option<String>) -> Result<(), Box<dyn Error>> {
    let mut out = [0; ROOM];
    let length = answer(&fs::read(path)?, &mut out)?;
    let mut image = [0; image_room(ROOM)];
    println!("{:#?}", Packet::read(&out[..length], &mut image)?);
    if let Some(reply) = reply {
        fs::write(reply, &out[..length])?;
    }
    Ok(())
}

/// Writes the answer to a packet: its length.
fn answer(packet: &[u8], out: &mut [u8]) -> Result<usize, Box<dyn Error>> {
    let mut list = [NO_ENTRY; ENTRIES];
    let (mut image, mut text) = ([0; ROOM], [0; ROOM]);
    let mut reply = PacketBuild::new(&mut image, &mut text);
    for entry in Entries::cut(packet, &mut list)? {
        let Address::Message { target, response } = entry.address() else { continue };
        if response.is_empty() || response == NONE {
            continue;
        }
        match entry.read(&mut [0; ROOM]) {
            Ok(value) => shown(target, value, reply.message(format_args!("{response}/onResult"), NONE)),
            Err(refusal) => reply.message(format_args!("{response}/onStatus"), NONE).object(|status| {
                status.pair("target").string(target);
                status.pair("description").string(refusal);
            }),
        }
    }
    Ok(reply.finish()?.write(out)?)
}

/// What a shelf answers: what it was sent, and whether that has a price.
fn shown(target: &str, sent: Value, slot: Slot) {
    let price = sent.get("cents").or(sent.item(0)).and_then(|cents| cents.as_number());
    slot.object(|result| {
        result.pair("target").string(target);
        result.pair("shown").boolean(price.is_some());
        result.pair("sent").copy(sent);
    });
}
