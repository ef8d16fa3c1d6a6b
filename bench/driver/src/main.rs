//! driver SIDE CALL TIMES FILE: makes a call TIMES times on a file's bytes. SIDE is `riddoskam` or `rust`. Prints the nanoseconds of one call, by the clock.
//!
//! CALL: lso (a whole file), value, packet (a whole packet), write (the file, its tree made before), entry (the middle entry of a packet), entries (all of them,
//! each by its number), spans (all of them, by one cut and each one's span).
//! The image has three times the input's length and the output room for the file; both are lent anew to each call and never made anew. The Rust's tree is
//! dropped inside the measured loop.
use flash_lso::{amf0::read::AMF0Decoder, packet, read::Reader, write::write_to_bytes};
use std::{env, fs, hint::black_box, time::Instant};

fn run(times: u32, mut call: impl FnMut()) {
    let start = Instant::now();
    for _ in 0..times {
        call();
    }
    println!("{}", start.elapsed().as_nanos() / u128::from(times.max(1)));
}

fn main() {
    let words: Vec<String> = env::args().collect();
    let [_, side, call, times, file] = &words[..] else { panic!("driver SIDE CALL TIMES FILE") };
    let times: u32 = times.parse().unwrap();
    let input = fs::read(file).unwrap();
    let input = &input[..];
    let mut image = vec![0; 3 * input.len()];
    let mut out = vec![0; input.len() + 64];
    match (side.as_str(), call.as_str()) {
        ("riddoskam", "lso") => run(times, || { black_box(riddoskam::lso_parse(black_box(input), &mut image).unwrap()); }),
        ("rust", "lso") => run(times, || { black_box(Reader::default().parse(black_box(input)).unwrap()); }),
        ("riddoskam", "value") => run(times, || { black_box(riddoskam::parse_single_element(black_box(input), &mut image).unwrap()); }),
        ("rust", "value") => run(times, || { black_box(AMF0Decoder::default().parse_single_element(black_box(input)).unwrap()); }),
        ("riddoskam", "packet") => run(times, || { black_box(riddoskam::packet_parse(black_box(input), &mut image).unwrap()); }),
        ("rust", "packet") => run(times, || { black_box(packet::read::parse(black_box(input)).unwrap()); }),
        ("riddoskam", "write") => {
            let made = riddoskam::lso_parse(input, &mut image).unwrap().made;
            run(times, || { black_box(riddoskam::lso_write_to_bytes(black_box(&image[..made]), input, &mut out).unwrap()); })
        }
        ("rust", "write") => {
            let mut lso = Reader::default().parse(input).unwrap();
            run(times, || { black_box(write_to_bytes(black_box(&mut lso)).unwrap()); })
        }
        ("riddoskam", "entry") => {
            let entries = (0..).take_while(|&k| riddoskam::packet_nth(input, k).is_ok()).count();
            run(times, || { black_box(riddoskam::packet_parse_entry(black_box(input), entries / 2, &mut image[..512]).unwrap()); })
        }
        ("riddoskam", "entries") => {
            let entries = (0..).take_while(|&k| riddoskam::packet_nth(input, k).is_ok()).count();
            run(times, || {
                for k in 0..entries {
                    black_box(riddoskam::packet_parse_entry(black_box(input), k, &mut image[..512]).unwrap());
                }
            })
        }
        ("riddoskam", "spans") => {
            let entries = (0..).take_while(|&k| riddoskam::packet_nth(input, k).is_ok()).count();
            let mut list = vec![[0; 8]; entries];
            run(times, || {
                riddoskam::packet_cut(black_box(input), &mut list).unwrap();
                for &e in &list {
                    black_box(riddoskam::packet_parse_span(input, riddoskam::Entry::from(e).value, &mut image[..512]).unwrap());
                }
            })
        }
        // The Rust reads no single entry: what it takes to get at one is the whole packet.
        ("rust", "entry" | "entries" | "spans") => run(times, || { black_box(packet::read::parse(black_box(input)).unwrap()); }),
        _ => panic!("driver SIDE CALL TIMES FILE"),
    }
}
