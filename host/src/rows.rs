//! How the answers' rows are made of 32-bit words: widths and kinds, as include/chronicle.h names them.

/// Words of an owner change: date, province, from, to.
pub const CHANGE_WORDS: usize = 4;

/// Words of the run of a date: where its changes begin, and how many there are.
pub const RUN_WORDS: usize = 2;

/// Words of a nation: initial, latest, stored, first entry, number of entries.
pub const NATION_WORDS: usize = 5;

/// Words of an entry: date, kind, target.
pub const ENTRY_WORDS: usize = 3;

/// Counts of a chronicle: nations, entries, slots, countries, changes.
pub const COUNT_WORDS: usize = 5;

/// Words of a resolver's answer: tag, stored.
pub const RESOLVED_WORDS: usize = 2;

/// Words of a question: tag, date.
pub const QUESTION_WORDS: usize = 2;

/// Words of a war booking: war, tag, stored.
pub const BOOKING_WORDS: usize = 3;

/// Words of a ledger row: tag, year, value in two's complement.
pub const LEDGER_WORDS: usize = 3;

/// Words of a player: number of the name's string, tag.
pub const PLAYER_WORDS: usize = 2;

/// Words of a history: initial, latest, stored, nation from 1 or 0, human, first name, number of names.
pub const HISTORY_WORDS: usize = 7;

/// The kind of an entry whose nation took its target as a tag.
pub const KIND_SWITCH: u32 = 0;

/// The kind of an entry whose nation held nothing and then something.
pub const KIND_APPEARED: u32 = 1;

/// The kind of an entry whose nation lost the last that it held.
pub const KIND_ANNEXED: u32 = 2;
