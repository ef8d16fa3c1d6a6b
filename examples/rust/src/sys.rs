//! What include/riddoskam.h declares.

extern "C" {
    pub fn riddoskam_inside(input: *const u8, n: usize, place: usize, length: usize) -> bool;
    pub fn riddoskam_part(input: *const u8, n: usize, place: usize, length: usize, from: &mut usize) -> usize;
    pub fn riddoskam_parse_single_element(input: *const u8, n: usize, image: *mut u8, room: usize, used: &mut usize, made: &mut usize) -> u8;
    pub fn riddoskam_lso_parse(input: *const u8, n: usize, image: *mut u8, room: usize, used: &mut usize, made: &mut usize) -> u8;
    pub fn riddoskam_lso_parse_incomplete(input: *const u8, n: usize, image: *mut u8, room: usize, used: &mut usize, made: &mut usize) -> u8;
    pub fn riddoskam_packet_parse(input: *const u8, n: usize, image: *mut u8, room: usize, used: &mut usize, made: &mut usize) -> u8;
    pub fn riddoskam_packet_parse_incomplete(input: *const u8, n: usize, image: *mut u8, room: usize, used: &mut usize, made: &mut usize) -> u8;
    pub fn riddoskam_packet_parse_entry(packet: *const u8, n: usize, number: usize, image: *mut u8, room: usize, used: &mut usize, made: &mut usize) -> u8;
    pub fn riddoskam_write_value(image: *const u8, n: usize, text: *const u8, m: usize, out: *mut u8, room: usize, count: &mut usize) -> u8;
    pub fn riddoskam_lso_write_to_bytes(image: *const u8, n: usize, text: *const u8, m: usize, out: *mut u8, room: usize, count: &mut usize) -> u8;
    pub fn riddoskam_packet_write_to_bytes(
        image: *const u8,
        n: usize,
        text: *const u8,
        m: usize,
        exact: bool,
        out: *mut u8,
        room: usize,
        count: &mut usize,
    ) -> u8;
    pub fn riddoskam_packet_parse_span(
        packet: *const u8,
        n: usize,
        place: usize,
        length: usize,
        image: *mut u8,
        room: usize,
        used: &mut usize,
        made: &mut usize,
    ) -> u8;
    pub fn riddoskam_packet_cut(packet: *const u8, n: usize, numbers: *mut usize, room: usize, used: &mut usize, count: &mut usize) -> u8;
    pub fn riddoskam_packet_nth(packet: *const u8, n: usize, number: usize, entry: &mut [usize; 8]) -> u8;
    pub fn riddoskam_record_at(image: *const u8, n: usize, at: usize, fields: &mut [u64; 5], next: &mut usize) -> u8;
    pub fn riddoskam_put(image: *mut u8, n: usize, made: &mut usize, fields: &[u64; 5]) -> u8;
    pub fn riddoskam_index(image: *const u8, n: usize, text: *const u8, m: usize, index: *mut u8, room: usize, count: &mut usize) -> u8;
    pub fn riddoskam_find(
        image: *const u8,
        n: usize,
        text: *const u8,
        m: usize,
        index: *const u8,
        k: usize,
        path: *const u8,
        l: usize,
        place: &mut usize,
    ) -> bool;
    pub fn riddoskam_step(
        image: *const u8,
        n: usize,
        text: *const u8,
        m: usize,
        index: *const u8,
        k: usize,
        container: usize,
        key: *const u8,
        l: usize,
        place: &mut usize,
    ) -> bool;
}
