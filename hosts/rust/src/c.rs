//! The functions of hosts/include/dreichnook.h, in its order.

#[rustfmt::skip]
extern "C" {
    pub fn dreichnook_check(listing: *const u8, length: usize, place: &mut u64, total: &mut u64, skipped: &mut u64,
        features: &mut u64, judged: &mut u64, unjudged: &mut u64) -> u32;
    pub fn dreichnook_sequence(listing: *const u8, length: usize, sequence: u64, place: &mut u64, kind: &mut u8,
        start: &mut u64, size: &mut u64) -> u32;
    pub fn dreichnook_feature(listing: *const u8, length: usize, sequence: u64, feature: u64, out: *mut u32,
        room: usize, place: &mut u64, key_start: &mut u64, key_size: &mut u64, location_start: &mut u64,
        location_size: &mut u64, operator: &mut u8, count: &mut u64) -> u32;
    pub fn dreichnook_qualifier(listing: *const u8, length: usize, sequence: u64, feature: u64, qualifier: u64,
        place: &mut u64, name_start: &mut u64, name_size: &mut u64, present: &mut u8, value_start: &mut u64,
        value_size: &mut u64) -> u32;
    pub fn dreichnook_translation(listing: *const u8, length: usize, sequence: u64, feature: u64, out: *mut u8,
        room: usize, place: &mut u64, size: &mut u64) -> u32;
    pub fn dreichnook_translations(listing: *const u8, length: usize, sequence: u64, out: *mut u8, room: usize,
        place: &mut u64, size: &mut u64) -> u32;
    pub fn dreichnook_index(listing: *const u8, length: usize, out: *mut u8, room: usize, place: &mut u64,
        size: &mut u64) -> u32;
    pub fn dreichnook_index_check(listing: *const u8, length: usize, index: *const u8, index_length: usize,
        place: &mut u64) -> u32;
    pub fn dreichnook_indexed_sequence(listing: *const u8, length: usize, index: *const u8, index_length: usize,
        sequence: u64, place: &mut u64, kind: &mut u8, start: &mut u64, size: &mut u64) -> u32;
    pub fn dreichnook_indexed_feature(listing: *const u8, length: usize, index: *const u8, index_length: usize,
        sequence: u64, feature: u64, out: *mut u32, room: usize, place: &mut u64, key_start: &mut u64,
        key_size: &mut u64, location_start: &mut u64, location_size: &mut u64, operator: &mut u8,
        count: &mut u64) -> u32;
    pub fn dreichnook_indexed_qualifier(listing: *const u8, length: usize, index: *const u8, index_length: usize,
        sequence: u64, feature: u64, qualifier: u64, place: &mut u64, name_start: &mut u64, name_size: &mut u64,
        present: &mut u8, value_start: &mut u64, value_size: &mut u64) -> u32;
    pub fn dreichnook_indexed_translation(listing: *const u8, length: usize, index: *const u8, index_length: usize,
        sequence: u64, feature: u64, out: *mut u8, room: usize, place: &mut u64, size: &mut u64) -> u32;
    pub fn dreichnook_indexed_translations(listing: *const u8, length: usize, index: *const u8, index_length: usize,
        sequence: u64, out: *mut u8, room: usize, place: &mut u64, size: &mut u64) -> u32;
}
