//! Players, the countries they played and the one they began with.

use chronicle::{Name, PlayerHistory};

use super::Asked;
use crate::failure::Failure;
use crate::output::Output;
use crate::rows::{hexadecimal, quoted, Object};
use crate::terminal::shown;

/// Those who play.
pub fn players(asked: &Asked<'_>, out: &mut Output<'_>) -> Result<(), Failure> {
    let players = asked.or_refused(asked.record.players())?;
    if players.is_empty() {
        out.remark(format_args!("nobody plays"));
    }
    out.headings()?;
    for player in players {
        let name = printed(&player.name);
        out.row(format_args!("{name} plays {}", player.tag), || {
            let object = Object::new()
                .text("name", &player.name)
                .text("tag", player.tag)
                .plain("string", player.name.number);
            match player.name.text() {
                Some(_) => object,
                None => object.text("name_bytes", hexadecimal(&player.name.bytes)),
            }
        })?;
    }
    Ok(())
}

/// The countries that were played.
pub fn histories(asked: &Asked<'_>, out: &mut Output<'_>) -> Result<(), Failure> {
    let histories = asked.or_refused(asked.chronicle()?.player_histories())?;
    if histories.is_empty() {
        out.remark(format_args!("no country was played"));
    }
    out.headings()?;
    for history in histories {
        let PlayerHistory { initial, latest, stored, .. } = history;
        let human = if history.is_human { ", human" } else { "" };
        let names: Vec<String> = history.player_names.iter().map(printed).collect();
        let names = if names.is_empty() { "nobody".to_string() } else { names.join(", ") };
        let text = format!("{initial}, now {latest}, stored under {stored}{human}: {names}");
        out.row(format_args!("{text}"), || {
            let object = Object::new()
                .text("initial", initial)
                .text("latest", latest)
                .text("stored", stored)
                .plain("nation", history.nation.map_or("null".to_string(), |n| n.to_string()))
                .plain("human", history.is_human)
                .list("names", history.player_names.iter().map(|name| quoted(&name.to_string())))
                .list("strings", history.player_names.iter().map(|name| name.number.to_string()));
            with_bytes(object, &history.player_names)
        })?;
    }
    Ok(())
}

/// As which country the campaign was started.
pub fn start(asked: &Asked<'_>, out: &mut Output<'_>) -> Result<(), Failure> {
    let start = asked.or_refused(asked.chronicle()?.starting_country())?;
    let text = start.map_or("none".to_string(), |tag| tag.to_string());
    out.headings()?;
    Ok(out.row(format_args!("{text}"), || Object::new().perhaps("start", start))?)
}

/// A name as a terminal may have it.
fn printed(name: &Name) -> String {
    shown(&name.bytes)
}

/// With the bytes of the names that are no UTF-8, if there is one.
fn with_bytes(object: Object, names: &[Name]) -> Object {
    if names.iter().all(|name| name.text().is_some()) {
        return object;
    }
    let bytes = |name: &Name| match name.text() {
        Some(_) => "null".to_string(),
        None => quoted(&hexadecimal(&name.bytes)),
    };
    object.list("name_bytes", names.iter().map(bytes))
}
