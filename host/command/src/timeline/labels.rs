//! Where labels stand that are near each other.

/// Labels in the order of their marks, each where it is wanted or moved as little as keeps them apart: first to
/// the right, and from the right end back. As many as have room between the two ends are placed.
pub fn placed(wanted: &[f64], width: f64, left: f64, right: f64) -> Vec<f64> {
    let most = ((right - left) / width).floor().max(0.0) as usize;
    let mut places: Vec<f64> = wanted.iter().copied().take(most).collect();
    let mut free = left;
    for place in &mut places {
        *place = place.max(free);
        free = *place + width;
    }
    let mut end = right;
    for place in places.iter_mut().rev() {
        *place = place.min(end - width);
        end = *place;
    }
    places
}

#[cfg(test)]
mod tests {
    use super::placed;

    #[test]
    fn near_labels_are_moved_and_none_is_dropped() {
        assert_eq!(placed(&[10.0, 50.0], 20.0, 0.0, 100.0), [10.0, 50.0]);
        assert_eq!(placed(&[10.0, 12.0, 50.0], 20.0, 0.0, 100.0), [10.0, 30.0, 50.0]);
        // At the right end they are moved back.
        assert_eq!(placed(&[70.0, 85.0, 95.0], 20.0, 0.0, 100.0), [40.0, 60.0, 80.0]);
        assert_eq!(placed(&[0.0; 5], 20.0, 0.0, 100.0), [0.0, 20.0, 40.0, 60.0, 80.0]);
        // There is no room for more than this.
        assert_eq!(placed(&[0.0; 6], 20.0, 0.0, 100.0).len(), 5);
    }
}
