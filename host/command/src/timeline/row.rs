//! A nation's row: its bars, its marks and its tags.

use super::{placed, Axis, Life, Svg, Text, LEFT, MIDDLE};

/// A tag written behind a mark needs as much.
const TAG_WIDTH: f64 = 26.0;
/// From a mark to its tag.
const BEHIND: f64 = 4.0;

/// Draws a row from this height on, so high.
pub fn draw(svg: &mut Svg, axis: &Axis, life: &Life, (y, height): (f64, f64), colour: &str) {
    let (middle, thickness) = (y + height / 2.0, height * 0.76);
    svg.group(&life.told());
    svg.text(Text { x: LEFT - 8.0, y: middle + 4.0, class: "left", text: &life.begins() });
    // Where it held nothing between two bars, a thin line says that it is the same nation.
    if let (Some(first), Some(last)) = (life.spans.first(), life.spans.last()) {
        svg.line([axis.x(first.start), middle, axis.x(last.end), middle], "gap");
    }
    for span in &life.spans {
        let (x, end) = (axis.x(span.start), axis.x(span.end));
        svg.bar([x, middle - thickness / 2.0, (end - x).max(1.5), thickness], colour);
    }
    marks(svg, axis, life, (y, height));
    svg.text(Text { x: LEFT + MIDDLE + 8.0, y: middle + 4.0, class: "right", text: &life.ends() });
    svg.end_group();
}

/// A mark at each switch, and behind it the tag worn from then on; tags that are near each other are moved apart,
/// each with a thin line from its mark. If there is no room for so many, the last place says how many more there are.
fn marks(svg: &mut Svg, axis: &Axis, life: &Life, (y, height): (f64, f64)) {
    let marks: Vec<f64> = life.switches.iter().map(|&(date, _)| axis.x(date)).collect();
    for &x in &marks {
        svg.mark([x, y + 1.0, y + height - 1.0]);
    }
    let wanted: Vec<f64> = marks.iter().map(|x| x + BEHIND).collect();
    let places = placed(&wanted, TAG_WIDTH, LEFT, LEFT + MIDDLE);
    let missing = marks.len() - places.len();
    for (number, (&place, &mark)) in places.iter().zip(&marks).enumerate() {
        let is_last = missing > 0 && number + 1 == places.len();
        let text =
            if is_last { format!("+{}", missing + 1) } else { life.switches[number].1.to_string() };
        if (place - mark - BEHIND).abs() > 1.0 && !is_last {
            svg.line([mark, y + height - 2.0, place, y + height - 2.0], "lead");
        }
        let crossed = marks
            .iter()
            .any(|&other| other != mark && (place - 2.0..place + TAG_WIDTH - 6.0).contains(&other));
        let on_a_bar = life.held_on(axis.day(place), axis.day(place + TAG_WIDTH));
        let class = if on_a_bar && !crossed { "worn" } else { "bare" };
        svg.text(Text { x: place, y: y + height / 2.0 + 3.5, class, text: &text });
    }
}
