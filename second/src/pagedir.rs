//! The functions of the static library, as C declares them; each but pd_audit returns the number of its refusal, 0 for none.

extern "C" {
    /// The length in words that pd_form asks for the settings.
    pub fn pd_words(policy: u32, capacity: u32, first: u32, second: u32, answer: *mut u32) -> u32;
    /// Writes a fresh directory over the words.
    pub fn pd_form(
        policy: u32,
        capacity: u32,
        first: u32,
        second: u32,
        words: *mut u32,
        n: usize,
    ) -> u32;
    /// 1 if the words are a sound directory, else 0.
    pub fn pd_audit(words: *const u32, n: usize) -> u32;
    /// Where a page is, and its slot.
    pub fn pd_look(words: *const u32, n: usize, page: u32, answer: *mut u32) -> u32;
    /// Writes the pages of a list, front first, and how many.
    pub fn pd_report(
        words: *const u32,
        n: usize,
        list: u32,
        result: *mut u32,
        rn: usize,
        answer: *mut u32,
    ) -> u32;
    /// Writes the LRU hits at each capacity, and the LRU list at the largest.
    pub fn pd_curve(
        largest: u32,
        trace: *const u32,
        tn: usize,
        result: *mut u32,
        rn: usize,
        work: *mut u32,
        wn: usize,
    ) -> u32;
    /// Reads a trace text: the refusal in the low half, its line in the high half.
    pub fn pd_read(text: *const u8, n: usize, trace: *mut u32, tn: usize, answer: *mut u32) -> u64;
    /// Writes a trace text, and its length in bytes.
    pub fn pd_write(
        policy: u32,
        capacity: u32,
        first: u32,
        second: u32,
        trace: *const u32,
        tn: usize,
        text: *mut u8,
        n: usize,
        answer: *mut u32,
    ) -> u32;
    /// Asks the directory for a page.
    pub fn pd_request(words: *mut u32, n: usize, page: u32, answer: *mut u32) -> u32;
    /// Does the requests of a trace in turn, and counts hits, loads and swaps.
    pub fn pd_replay(
        words: *mut u32,
        n: usize,
        trace: *const u32,
        tn: usize,
        answer: *mut u32,
    ) -> u32;
}
