//! The C functions, as `include/sobumikeyo.h` has them. They are called in `store`, `file` and `salvage` alone, each slice with its own length.

extern "C" {
    pub fn sobumikeyo_make(store: *mut u32, store_len: usize, room: u32) -> u32;
    pub fn sobumikeyo_open(store: *mut u32, store_len: usize, desk: u32, alphabet: u32, depth: u32, weight: u32, reservation: u32) -> u32;
    pub fn sobumikeyo_feed(store: *mut u32, store_len: usize, desk: u32, sample: u32, symbol: u32) -> u32;
    pub fn sobumikeyo_feed_all(
        store: *mut u32,
        store_len: usize,
        desk: u32,
        sample: u32,
        symbols: *const u8,
        symbols_len: usize,
        why: *mut u32,
    ) -> u32;
    pub fn sobumikeyo_close(store: *mut u32, store_len: usize, desk: u32) -> u32;
    pub fn sobumikeyo_room(store: *const u32, store_len: usize, left: *mut u32) -> u32;
    pub fn sobumikeyo_report(
        store: *const u32,
        store_len: usize,
        desk: u32,
        sheet: *mut u32,
        sheet_len: usize,
        place: u32,
        rows: *mut u32,
        score: *mut i64,
    ) -> u32;
    pub fn sobumikeyo_chart(
        store: *const u32,
        store_len: usize,
        desk: u32,
        length: u32,
        code: u32,
        symbol: u32,
        seen: *mut u32,
        first: *mut f64,
        second: *mut f64,
        gap: *mut f64,
    ) -> u32;
    pub fn sobumikeyo_read(file: *const u8, file_len: usize, shape: *mut [u32; 4]) -> u32;
    pub fn sobumikeyo_write(
        first: *const u8,
        first_len: usize,
        second: *const u8,
        second_len: usize,
        alphabet: u32,
        depth: u32,
        file: *mut u8,
        file_len: usize,
        written: *mut usize,
    ) -> u32;
    pub fn sobumikeyo_salvage(
        damaged: *const u8,
        damaged_len: usize,
        file: *mut u8,
        file_len: usize,
        written: *mut usize,
        told: *mut [u64; 5],
    ) -> u32;
    pub fn sobumikeyo_sound(store: *const u32, store_len: usize) -> bool;
}
