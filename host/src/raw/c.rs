//! The C functions of libpage.a, as they are declared in C: a slice is a pointer and then a length.
//!
//! Unless said otherwise each gives the rows that it wrote, or minus the number of a refusal.

extern "C" {
    /// 0, or the number of the record's refusal.
    pub fn check(record: *const u8, len: usize) -> i64;

    /// Rows of four words.
    pub fn chronicle_province_owners(
        record: *const u8,
        len: usize,
        out: *mut u32,
        out_len: usize,
    ) -> i64;

    /// 2, the words written.
    pub fn chronicle_events_on(
        record: *const u8,
        len: usize,
        date: u32,
        out: *mut u32,
        out_len: usize,
    ) -> i64;

    /// 5, the counts written.
    pub fn chronicle_nation_events(
        record: *const u8,
        len: usize,
        nations: *mut u32,
        nations_len: usize,
        entries: *mut u32,
        entries_len: usize,
        holders: *mut u32,
        holders_len: usize,
        held: *mut u32,
        held_len: usize,
        changes: *mut u32,
        changes_len: usize,
        counts: *mut u32,
        counts_len: usize,
    ) -> i64;

    /// 2, the words written, or 0 for none; so are the three below.
    pub fn chronicle_resolver_resolve(
        nations: *const u32,
        nations_len: usize,
        entries: *const u32,
        entries_len: usize,
        tag: u32,
        date: u32,
        out: *mut u32,
        out_len: usize,
    ) -> i64;

    /// By the tag that a nation began with.
    pub fn chronicle_resolver_initial(
        nations: *const u32,
        nations_len: usize,
        entries: *const u32,
        entries_len: usize,
        tag: u32,
        out: *mut u32,
        out_len: usize,
    ) -> i64;

    /// Of a chronicle as it stood on a day.
    pub fn chronicle_resolver_resolve_at(
        nations: *const u32,
        nations_len: usize,
        entries: *const u32,
        entries_len: usize,
        day: u32,
        tag: u32,
        date: u32,
        out: *mut u32,
        out_len: usize,
    ) -> i64;

    /// By the first tag, of a chronicle as it stood on a day.
    pub fn chronicle_resolver_initial_at(
        nations: *const u32,
        nations_len: usize,
        entries: *const u32,
        entries_len: usize,
        day: u32,
        tag: u32,
        out: *mut u32,
        out_len: usize,
    ) -> i64;

    /// Rows of two words, one for each question.
    pub fn chronicle_resolver_resolve_each(
        nations: *const u32,
        nations_len: usize,
        entries: *const u32,
        entries_len: usize,
        questions: *const u32,
        questions_len: usize,
        out: *mut u32,
        out_len: usize,
    ) -> i64;

    /// Rows of three words.
    pub fn chronicle_war_participants(
        record: *const u8,
        len: usize,
        nations: *const u32,
        nations_len: usize,
        entries: *const u32,
        entries_len: usize,
        out: *mut u32,
        out_len: usize,
    ) -> i64;

    /// Rows of three words.
    pub fn chronicle_nation_ledger(
        record: *const u8,
        len: usize,
        nations: *const u32,
        nations_len: usize,
        entries: *const u32,
        entries_len: usize,
        nation: usize,
        out: *mut u32,
        out_len: usize,
    ) -> i64;

    /// The rows that there are, at most so many.
    pub fn chronicle_nation_ledger_rows(
        record: *const u8,
        len: usize,
        nations: *const u32,
        nations_len: usize,
        entries: *const u32,
        entries_len: usize,
        nation: usize,
        most: usize,
    ) -> i64;

    /// Rows of three words, of all nations together.
    pub fn chronicle_nation_ledgers(
        record: *const u8,
        len: usize,
        nations: *const u32,
        nations_len: usize,
        entries: *const u32,
        entries_len: usize,
        out: *mut u32,
        out_len: usize,
        counts: *mut u64,
        counts_len: usize,
    ) -> i64;

    /// Rows of two words.
    pub fn chronicle_players(record: *const u8, len: usize, out: *mut u32, out_len: usize) -> i64;

    /// Rows of seven words.
    pub fn chronicle_player_histories(
        record: *const u8,
        len: usize,
        nations: *const u32,
        nations_len: usize,
        entries: *const u32,
        entries_len: usize,
        histories: *mut u32,
        histories_len: usize,
        names: *mut u32,
        names_len: usize,
    ) -> i64;

    /// 1 with the tag's word written, or 0 for none.
    pub fn chronicle_starting_country(
        histories: *const u32,
        histories_len: usize,
        nations: *const u32,
        nations_len: usize,
        entries: *const u32,
        entries_len: usize,
        out: *mut u32,
        out_len: usize,
    ) -> i64;

    /// The bytes written.
    pub fn page(
        record: *const u8,
        len: usize,
        selection: *const u8,
        selection_len: usize,
        out: *mut u8,
        out_len: usize,
    ) -> i64;
}
