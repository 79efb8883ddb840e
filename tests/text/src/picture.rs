//! The picture: the boxes, and that the thick ones are a path of least slack.

use circuits::Kind;

use crate::case::Case;
use crate::score::Outcome;
use crate::tool::printed;

/// Of a circuit with more components than this only a part is drawn.
const ALL_DRAWN: usize = 80;

struct Drawn {
    number: usize,
    thick: bool,
}

pub fn thick_path(case: &Case) -> Option<Outcome> {
    let check = || {
        let boxes = boxes(case, &printed(&["draw", "-"], &case.text)?)?;
        if case.names.len() <= ALL_DRAWN && boxes.len() < case.names.len() {
            return Err(format!(
                "{} boxes for {} components",
                boxes.len(),
                case.names.len()
            ));
        }
        let thick = boxes.iter().filter(|found| found.thick);
        path(case, &thick.map(|found| found.number).collect::<Vec<_>>())
    };
    Some(check())
}

/// The boxes by number, no two of one component.
fn boxes(case: &Case, picture: &str) -> Result<Vec<Drawn>, String> {
    let mut boxes = Vec::new();
    for piece in picture.split("<title>").skip(1) {
        if let Some(found) = read_box(case, piece)? {
            boxes.push(found);
        }
    }
    boxes.sort_by_key(|found: &Drawn| found.number);
    match boxes
        .windows(2)
        .find(|pair| pair[0].number == pair[1].number)
    {
        Some(pair) => Err(format!("component {} has two boxes", pair[0].number)),
        None => Ok(boxes),
    }
}

/// `NAME (NUMBER): ..</title>`, then a shape. A title of another form is not a box's.
fn read_box(case: &Case, piece: &str) -> Result<Option<Drawn>, String> {
    let (title, shape) = piece.split_once("</title>").ok_or("a title has no end")?;
    let parts = title.split_once(" (");
    let parts = parts.and_then(|(name, rest)| Some((name, rest.split_once("): ")?.0)));
    let Some((name, number)) = parts else {
        return Ok(None);
    };
    let number = number.parse::<usize>();
    let number = number.map_err(|error| format!("{title}: {error}"))?;
    let wanted = case.names.get(number).map(|name| escaped(name));
    if wanted.as_deref() != Some(name) {
        return Err(format!("{title}: the name should be {wanted:?}"));
    }
    let (_, width) = shape
        .split_once("stroke-width='")
        .ok_or("a box has no edge")?;
    let thick = match width.split('\'').next() {
        Some("2.6") => true,
        Some("1.3") => false,
        other => return Err(format!("{title}: an edge of width {other:?}")),
    };
    Ok(Some(Drawn { number, thick }))
}

/// The ampersand first, as the other escapes have one.
fn escaped(name: &str) -> String {
    let name = name.replace('&', "&amp;");
    name.replace('<', "&lt;").replace('>', "&gt;")
}

/// From an input over gates to an output along wires, and as tight as anything is.
fn path(case: &Case, path: &[usize]) -> Outcome {
    let part = |at: usize| &case.netlist.parts[at];
    let (Some(&first), Some(&last)) = (path.first(), path.last()) else {
        return Err("no box is thick".to_string());
    };
    let ends = part(first).kind == Kind::Input && part(last).kind == Kind::Output;
    if path.len() < 2 || !ends {
        return Err(format!("{path:?} does not go from an input to an output"));
    }
    if path[1..path.len() - 1]
        .iter()
        .any(|&at| part(at).kind != Kind::Inner)
    {
        return Err(format!("{path:?} goes over an end"));
    }
    let joined = |pair: &[usize]| {
        case.netlist
            .wires
            .contains(&(pair[1] as u16, pair[0] as u16))
    };
    if !path.windows(2).all(joined) {
        return Err(format!("{path:?} does not go along wires"));
    }
    let delays: i64 = path.iter().map(|&at| i64::from(part(at).base)).sum();
    let slack = i64::from(part(last).time) - i64::from(part(first).time) - delays;
    if slack != case.least_slack() {
        return Err(format!(
            "{path:?} has slack {slack}, the least is {}",
            case.least_slack()
        ));
    }
    Ok(())
}
