//! Counts by the letters of Rules 1.4.

use chronicle::layout::Counts;

/// Counts by the letters of Rules 1.4; those not named are 0.
///
/// # Panics
///
/// If a letter is none of those.
///
/// ```
/// use chronicle_trial::generate::counts_of;
///
/// let counts = counts_of(&[('C', 2), ('B', 1)]);
/// assert_eq!((counts.countries, counts.switches, counts.points), (2, 1, 0));
/// ```
pub fn counts_of(named: &[(char, usize)]) -> Counts {
    let mut counts = Counts::default();
    for &(letter, count) in named {
        *place(&mut counts, letter) = count;
    }
    counts
}

fn place(counts: &mut Counts, letter: char) -> &mut usize {
    match letter {
        'C' => &mut counts.countries,
        'P' => &mut counts.provinces,
        'A' => &mut counts.previous_tags,
        'B' => &mut counts.switches,
        'E' => &mut counts.owner_events,
        'N' => &mut counts.strings,
        'W' => &mut counts.wars,
        'V' => &mut counts.war_events,
        'G' => &mut counts.ledger_names,
        'Y' => &mut counts.points,
        _ => panic!("the head has no count {letter}"),
    }
}
