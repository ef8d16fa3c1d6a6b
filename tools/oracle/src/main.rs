//! oracle: reads cases from standard input, one a line, and prints one line a case.
//!
//!   value HEX     AMF0Decoder::default().parse_single_element
//!   body HEX      AMF0Decoder::default().parse_body
//!   lso HEX       Reader::default().parse
//!   lsoi HEX      Reader::default().parse_incomplete
//!   packet HEX    packet::read::parse
//!   packeti HEX   packet::read::parse_incomplete
//!   wvalue TREE | wlso NAME BODY | wpacket PACKET   write a tree given in the notation below
//!   @OP FILE      the same operation over the bytes of a file (as @lso FILE)
//!
//! HEX may be '-' or absent for no bytes. Answers:
//!   no WHY                          refused; WHY is the library's error, for people (left off with -q)
//!   panic                           the library panicked (packet version 3 with amf3 off)
//!   ok USED TREE WRITTEN            value: WRITTEN by write_value; body: ok USED BODY alone
//!   ok WRITTEN                      wvalue, wlso; ok EXACT UNKNOWN: wpacket
//!   ok USED LEN NAME BODY WRITTEN   lso, lsoi: LEN 8 hex digits, NAME hex, WRITTEN by write_to_bytes
//!   ok USED PACKET EXACT UNKNOWN    packet, packeti: written with exact_lengths true and false
//!   bad                             the line is no case
//! USED is decimal. For lso and packet (whole readings) it is the input's length.
//! WRITTEN is hex, '-' for no bytes, 'error' where the writer fails, 'same' where it equals the bytes used
//! (option -s only).
//!
//! TREE: n:BITS16 | b:0 | b:1 | s:HEX | o{PAIRS} | t:HEX{PAIRS} | e:LEN8[DENSE]{PAIRS} | a[VALUES] |
//!   z (null) | u (undefined) | x (unsupported) | r:IDX4 | d:BITS16:ZONE4 | d:BITS16:- | m:HEX (xml)
//!   PAIRS: HEX=TREE joined by ','; VALUES: TREE joined by ','.
//! BODY: {PAIRS}. PACKET: [NAME:FLAG:TREE,...][TARGET:RESPONSE:TREE,...] with texts in hex.
use flash_lso::amf0::read::AMF0Decoder;
use flash_lso::packet::{self, Packet};
use flash_lso::read::Reader;
use flash_lso::types::{
    AMFVersion, ClassDefinition, ECMAArrayObjectValue, Element, Header, Lso, ObjectId, ObjectValue, Value,
};
use std::io::{BufRead, Write};
use std::panic::{AssertUnwindSafe, catch_unwind};

fn hex(out: &mut String, b: &[u8]) {
    const D: &[u8; 16] = b"0123456789abcdef";
    for x in b {
        out.push(D[(x >> 4) as usize] as char);
        out.push(D[(x & 15) as usize] as char);
    }
}

fn hexed(b: &[u8]) -> String {
    if b.is_empty() {
        return "-".to_string();
    }
    let mut s = String::with_capacity(b.len() * 2);
    hex(&mut s, b);
    s
}

fn unhex(t: &str) -> Option<Vec<u8>> {
    if t == "-" {
        return Some(Vec::new());
    }
    let t = t.as_bytes();
    if t.len() % 2 != 0 {
        return None;
    }
    let d = |c: u8| (c as char).to_digit(16).map(|x| x as u8);
    t.chunks(2).map(|p| Some(d(p[0])? * 16 + d(p[1])?)).collect()
}

fn pairs(o: &mut String, es: &[Element]) {
    o.push('{');
    for (k, e) in es.iter().enumerate() {
        if k > 0 {
            o.push(',');
        }
        hex(o, e.name.as_bytes());
        o.push('=');
        tree(o, &e.value);
    }
    o.push('}');
}

fn values(o: &mut String, vs: &[Value]) {
    o.push('[');
    for (k, v) in vs.iter().enumerate() {
        if k > 0 {
            o.push(',');
        }
        tree(o, v);
    }
    o.push(']');
}

fn tree(o: &mut String, v: &Value) {
    match v {
        Value::Number(n) => o.push_str(&format!("n:{:016x}", n.to_bits())),
        Value::Bool(b) => o.push_str(if *b { "b:1" } else { "b:0" }),
        Value::String(s) => {
            o.push_str("s:");
            hex(o, s.as_bytes());
        }
        Value::Object { id, data } => {
            assert!(id.0 == -1);
            match &data.class_definition {
                None => o.push('o'),
                Some(c) => {
                    assert!(c.attributes.is_empty() && c.static_properties.is_empty());
                    o.push_str("t:");
                    hex(o, c.name.as_bytes());
                }
            }
            pairs(o, &data.elements);
        }
        Value::Null => o.push('z'),
        Value::Undefined => o.push('u'),
        Value::Unsupported => o.push('x'),
        Value::ECMAArray { id, data } => {
            assert!(id.0 == -1);
            o.push_str(&format!("e:{:08x}", data.length));
            values(o, &data.dense);
            pairs(o, &data.elements);
        }
        Value::StrictArray { id, values: vs } => {
            assert!(id.0 == -1);
            o.push('a');
            values(o, vs);
        }
        Value::Date { time, timezone_or_utc } => {
            o.push_str(&format!("d:{:016x}:", time.to_bits()));
            match timezone_or_utc {
                Some(z) => o.push_str(&format!("{z:04x}")),
                None => o.push('-'),
            }
        }
        Value::XML { value, is_string } => {
            assert!(*is_string);
            o.push_str("m:");
            hex(o, value.as_bytes());
        }
        Value::Reference(r) => o.push_str(&format!("r:{:04x}", r.index())),
        _ => o.push('?'),
    }
}

/// Where the value begins in a packet of one message without texts: behind version, two counts, the lengths of two texts, and the declared length.
const BEFORE_VALUE: usize = 14;

// The bytes that the Rust writes for a value. Its function for that is not public, so they are taken out of such a packet.
fn written_value(v: &Value) -> Option<Vec<u8>> {
    let message = packet::Message { target_uri: String::new(), response_uri: String::new(), contents: v.clone() };
    let p = Packet { version: AMFVersion::AMF0, headers: Vec::new(), messages: vec![message] };
    Some(packet::write::write_to_bytes(&p, true).ok()?.split_off(BEFORE_VALUE))
}

// A reference of an index. Only reading makes one.
fn reference(index: u16) -> Option<Value> {
    let [high, low] = index.to_be_bytes();
    Some(AMF0Decoder::default().parse_single_element(&[0x07, high, low]).ok()?.1)
}

struct Words {
    quiet: bool,
    same: bool,
}

impl Words {
    fn no(&self, e: &dyn std::fmt::Debug) -> String {
        if self.quiet { "no".to_string() } else { format!("no {}", why(&format!("{e:?}"))) }
    }
    fn written(&self, used: &[u8], w: Option<Vec<u8>>) -> String {
        match w {
            None => "error".to_string(),
            Some(w) if self.same && w == used => "same".to_string(),
            Some(w) => hexed(&w),
        }
    }
}

// The error without the input that it may quote: Error(Nom([..], Eof)) becomes Error(Nom(..,Eof)).
fn why(t: &str) -> String {
    match (t.find('['), t.rfind(']')) {
        (Some(a), Some(b)) if a < b => {
            let n = t[a + 1..b].split(',').filter(|x| !x.trim().is_empty()).count();
            format!("{}{} left{}", &t[..a], n, &t[b + 1..])
        }
        _ => t.to_string(),
    }
}

fn lso(w: &Words, used: &[u8], mut l: Lso) -> String {
    let mut o = format!("ok {} {:08x} {} ", used.len(), l.header.length, hexed(l.header.name.as_bytes()));
    pairs(&mut o, &l.body);
    o.push(' ');
    o.push_str(&w.written(used, flash_lso::write::write_to_bytes(&mut l).ok()));
    o
}

fn packet(w: &Words, used: &[u8], p: Packet) -> String {
    let mut o = format!("ok {} [", used.len());
    for (k, h) in p.headers.iter().enumerate() {
        if k > 0 {
            o.push(',');
        }
        hex(&mut o, h.name.as_bytes());
        o.push_str(if h.must_understand { ":1:" } else { ":0:" });
        tree(&mut o, &h.value);
    }
    o.push_str("][");
    for (k, m) in p.messages.iter().enumerate() {
        if k > 0 {
            o.push(',');
        }
        hex(&mut o, m.target_uri.as_bytes());
        o.push(':');
        hex(&mut o, m.response_uri.as_bytes());
        o.push(':');
        tree(&mut o, &m.contents);
    }
    o.push_str("] ");
    o.push_str(&w.written(used, packet::write::write_to_bytes(&p, true).ok()));
    o.push(' ');
    o.push_str(&w.written(used, packet::write::write_to_bytes(&p, false).ok()));
    o
}

fn run(w: &Words, op: &str, b: &[u8]) -> String {
    match op {
        "value" => match AMF0Decoder::default().parse_single_element(b) {
            Err(e) => w.no(&e),
            Ok((rest, v)) => {
                let used = &b[..b.len() - rest.len()];
                let mut o = format!("ok {} ", used.len());
                tree(&mut o, &v);
                o.push(' ');
                o.push_str(&w.written(used, written_value(&v)));
                o
            }
        },
        "body" => match AMF0Decoder::default().parse_body(b) {
            Err(e) => w.no(&e),
            Ok((rest, es)) => {
                let used = &b[..b.len() - rest.len()];
                let mut o = format!("ok {} ", used.len());
                pairs(&mut o, &es);
                o
            }
        },
        "lso" => match Reader::default().parse(b) {
            Err(e) => w.no(&e),
            Ok(l) => lso(w, b, l),
        },
        "lsoi" => match Reader::default().parse_incomplete(b) {
            Err(e) => w.no(&e),
            Ok((rest, l)) => lso(w, &b[..b.len() - rest.len()], l),
        },
        "packet" => match packet::read::parse(b) {
            Err(e) => w.no(&e),
            Ok(p) => packet(w, b, p),
        },
        "packeti" => match packet::read::parse_incomplete(b) {
            Err(e) => w.no(&e),
            Ok((rest, p)) => packet(w, &b[..b.len() - rest.len()], p),
        },
        _ => "bad".to_string(),
    }
}

// Reads the notation of the trees.
struct Text<'a> {
    t: &'a [u8],
    at: usize,
}

impl Text<'_> {
    fn peek(&self) -> u8 {
        self.t.get(self.at).copied().unwrap_or(0)
    }
    fn eat(&mut self, c: u8) -> Option<()> {
        if self.peek() != c {
            return None;
        }
        self.at += 1;
        Some(())
    }
    fn bytes(&mut self) -> Option<Vec<u8>> {
        let from = self.at;
        while self.peek().is_ascii_hexdigit() {
            self.at += 1;
        }
        unhex(std::str::from_utf8(&self.t[from..self.at]).ok()?)
    }
    fn text(&mut self) -> Option<String> {
        String::from_utf8(self.bytes()?).ok()
    }
    fn number(&mut self, width: usize) -> Option<u64> {
        let b = self.bytes()?;
        if b.len() != width {
            return None;
        }
        Some(b.iter().fold(0, |a, x| a << 8 | *x as u64))
    }
    fn list<T>(&mut self, open: u8, close: u8, one: impl Fn(&mut Self) -> Option<T>) -> Option<Vec<T>> {
        let mut out = Vec::new();
        self.eat(open)?;
        if self.eat(close).is_some() {
            return Some(out);
        }
        loop {
            out.push(one(self)?);
            if self.eat(close).is_some() {
                return Some(out);
            }
            self.eat(b',')?;
        }
    }
    fn pairs(&mut self) -> Option<Vec<Element>> {
        self.list(b'{', b'}', |s| {
            let name = s.text()?;
            s.eat(b'=')?;
            Some(Element { name, value: s.tree()? })
        })
    }
    fn tree(&mut self) -> Option<Value> {
        let id = ObjectId::INVALID;
        let c = self.peek();
        self.at += 1;
        if matches!(c, b'n' | b'b' | b's' | b't' | b'e' | b'r' | b'd' | b'm') {
            self.eat(b':')?;
        }
        Some(match c {
            b'n' => Value::Number(f64::from_bits(self.number(8)?)),
            b'b' => {
                let c = self.peek();
                self.at += 1;
                match c {
                    b'0' => Value::Bool(false),
                    b'1' => Value::Bool(true),
                    _ => return None,
                }
            }
            b's' => Value::String(self.text()?),
            b'o' => Value::Object { id, data: ObjectValue { elements: self.pairs()?, class_definition: None } },
            b't' => {
                let name = self.text()?;
                let class_definition = Some(ClassDefinition::default_with_name(name));
                Value::Object { id, data: ObjectValue { elements: self.pairs()?, class_definition } }
            }
            b'z' => Value::Null,
            b'u' => Value::Undefined,
            b'x' => Value::Unsupported,
            b'e' => {
                let length = self.number(4)? as u32;
                let dense = self.list(b'[', b']', |s| s.tree())?;
                Value::ECMAArray { id, data: ECMAArrayObjectValue { dense, elements: self.pairs()?, length } }
            }
            b'a' => Value::StrictArray { id, values: self.list(b'[', b']', |s| s.tree())? },
            b'r' => reference(self.number(2)? as u16)?,
            b'd' => {
                let time = f64::from_bits(self.number(8)?);
                self.eat(b':')?;
                let zone = if self.eat(b'-').is_some() { None } else { Some(self.number(2)? as u16) };
                Value::Date { time, timezone_or_utc: zone }
            }
            b'm' => Value::XML { value: self.text()?, is_string: true },
            _ => return None,
        })
    }
    fn packet(&mut self) -> Option<Packet> {
        let headers = self.list(b'[', b']', |s| {
            let name = s.text()?;
            s.eat(b':')?;
            let c = s.peek();
            s.at += 1;
            s.eat(b':')?;
            Some(packet::Header { name, must_understand: c == b'1', value: s.tree()? })
        })?;
        let messages = self.list(b'[', b']', |s| {
            let target_uri = s.text()?;
            s.eat(b':')?;
            let response_uri = s.text()?;
            s.eat(b':')?;
            Some(packet::Message { target_uri, response_uri, contents: s.tree()? })
        })?;
        Some(Packet { version: AMFVersion::AMF0, headers, messages })
    }
}

fn write_op(op: &str, a: &str, b: &str) -> Option<String> {
    let word = |w: Option<Vec<u8>>| w.map_or("error".to_string(), |w| hexed(&w));
    let t = if op == "wlso" { b } else { a };
    let mut t = Text { t: t.as_bytes(), at: 0 };
    let s = match op {
        "wvalue" => {
            let v = t.tree()?;
            format!("ok {}", word(written_value(&v)))
        }
        "wlso" => {
            let name = String::from_utf8(unhex(a)?).ok()?;
            let mut l = Lso { header: Header::new(name, AMFVersion::AMF0), body: t.pairs()? };
            format!("ok {}", word(flash_lso::write::write_to_bytes(&mut l).ok()))
        }
        _ => {
            let p = t.packet()?;
            let w = |exact| word(packet::write::write_to_bytes(&p, exact).ok());
            format!("ok {} {}", w(true), w(false))
        }
    };
    if t.at == t.t.len() { Some(s) } else { None }
}

fn answer(w: &Words, line: &str) -> String {
    let mut it = line.split_ascii_whitespace();
    let Some(op) = it.next() else { return "bad".to_string() };
    let arg = it.next();
    if matches!(op, "wvalue" | "wlso" | "wpacket") {
        let (a, b) = (arg.unwrap_or(""), it.next().unwrap_or(""));
        return write_op(op, a, b).unwrap_or_else(|| "bad".to_string());
    }
    let (op, bytes) = match op.strip_prefix('@') {
        Some(op) => (op, arg.and_then(|f| std::fs::read(f).ok())),
        None => (op, unhex(arg.unwrap_or("-"))),
    };
    let Some(bytes) = bytes else { return "bad".to_string() };
    catch_unwind(AssertUnwindSafe(|| run(w, op, &bytes))).unwrap_or_else(|_| "panic".to_string())
}

fn work() {
    let mut w = Words { quiet: false, same: false };
    for a in std::env::args().skip(1) {
        match a.as_str() {
            "-q" => w.quiet = true,
            "-s" => w.same = true,
            _ => {
                eprintln!("usage: oracle [-q] [-s] < cases");
                std::process::exit(2);
            }
        }
    }
    std::panic::set_hook(Box::new(|_| {}));
    let mut out = std::io::BufWriter::new(std::io::stdout().lock());
    for line in std::io::stdin().lock().lines() {
        let line = line.expect("standard input is no text");
        writeln!(out, "{}", answer(&w, &line)).expect("standard output");
    }
    out.flush().expect("standard output");
}

fn main() {
    // A large stack: the library, its Drop and its Clone recurse with the nesting of the input.
    let t = std::thread::Builder::new().stack_size(4 << 30).spawn(work).expect("no thread");
    if t.join().is_err() {
        std::process::exit(101);
    }
}
