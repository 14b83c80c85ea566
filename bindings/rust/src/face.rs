//! The C boundary: the declarations of `miguzoryane.h`.
extern "C" {
    pub fn mgz_build(
        column: *const i32,
        column_length: usize,
        borders: *mut i32,
        borders_length: usize,
        imprints: *mut u64,
        imprints_length: usize,
        dictionary: *mut u32,
        dictionary_length: usize,
        out: *mut [u64; 4],
    ) -> u32;
    pub fn mgz_append(
        column: *const i32,
        column_length: usize,
        covered: u64,
        borders: *const i32,
        borders_length: usize,
        imprints: *mut u64,
        imprints_length: usize,
        imprints_told: u64,
        dictionary: *mut u32,
        dictionary_length: usize,
        dictionary_told: u64,
        out: *mut [u64; 3],
    ) -> u32;
    pub fn mgz_pack(
        list: *const u64,
        list_length: usize,
        borders: *const i32,
        borders_length: usize,
        imprints: *mut u64,
        imprints_length: usize,
        dictionary: *mut u32,
        dictionary_length: usize,
        out: *mut [u64; 3],
    ) -> u32;
    pub fn mgz_unpack(
        borders: *const i32,
        borders_length: usize,
        imprints: *const u64,
        imprints_length: usize,
        dictionary: *const u32,
        dictionary_length: usize,
        lines: u64,
        list: *mut u64,
        list_length: usize,
        needed: *mut u64,
    ) -> u32;
    pub fn mgz_step(
        dictionary: *const u32,
        dictionary_length: usize,
        imprints: *const u64,
        imprints_length: usize,
        entry: u64,
        place: u64,
        number: u64,
        out: *mut [u64; 5],
    ) -> u32;
    pub fn mgz_search(
        column: *const i32,
        column_length: usize,
        borders: *const i32,
        borders_length: usize,
        imprints: *const u64,
        imprints_length: usize,
        dictionary: *const u32,
        dictionary_length: usize,
        low: i32,
        high: i32,
        ids: *mut u32,
        ids_length: usize,
        out: *mut [u64; 5],
    ) -> u32;
    pub fn mgz_filter_words(room: u32) -> u64;
    pub fn mgz_filter_fresh(levels: u32, room: u32, words: *mut u32, words_length: usize, needed: *mut u64) -> u32;
    pub fn mgz_filter_ask(words: *const u32, words_length: usize, low: u32, high: u32, look: *mut u32) -> u32;
    pub fn mgz_filter_learn(words: *mut u32, words_length: usize, low: u32, high: u32) -> u32;
    pub fn mgz_filter_arrive(words: *mut u32, words_length: usize, key: u32) -> u32;
    pub fn mgz_filter_depart(words: *const u32, words_length: usize, key: u32) -> u32;
    pub fn mgz_filter_forget(words: *mut u32, words_length: usize) -> u32;
    pub fn mgz_filter_read(words: *const u32, words_length: usize, out: *mut [u64; 4]) -> u32;
    pub fn mgz_guarded_search(
        words: *mut u32,
        words_length: usize,
        column: *const i32,
        column_length: usize,
        borders: *const i32,
        borders_length: usize,
        imprints: *const u64,
        imprints_length: usize,
        dictionary: *const u32,
        dictionary_length: usize,
        low: u32,
        high: u32,
        ids: *mut u32,
        ids_length: usize,
        out: *mut [u64; 6],
    ) -> u32;
    pub fn mgz_register(minutes: *const i32, minutes_length: usize, words: *mut u32, words_length: usize, out: *mut [u64; 3]) -> u32;
    pub fn mgz_card_write(
        rows: u64,
        borders: *const i32,
        borders_length: usize,
        imprints: *const u64,
        imprints_length: usize,
        dictionary: *const u32,
        dictionary_length: usize,
        card: *mut u8,
        card_length: usize,
        out: *mut [u64; 2],
    ) -> u32;
    pub fn mgz_card_feed(
        block: *const u8,
        block_length: usize,
        due: u64,
        rows: u64,
        borders_count: u64,
        imprints_count: u64,
        dictionary_count: u64,
        borders: *mut i32,
        borders_length: usize,
        imprints: *mut u64,
        imprints_length: usize,
        dictionary: *mut u32,
        dictionary_length: usize,
        out: *mut [u64; 8],
    ) -> u32;
}
