//! Status 12: extents, corners and the source rectangle.

use face::constants::MOST_SIDE;

use crate::facts::{Facts, Rectangle, Target};
use crate::record_types::{self, ALPHABLEND, MASKBLT};

const MOST_SOURCE: i64 = 16_384;
const MOST_CORNER: i64 = 1_000_000;

/// A field by its name and value.
type Field = (&'static str, i64);

/// 12: "target extent without sign not 1..4,096; present source extent without sign not 1..16,384; negative extent in
/// 0x72 or 0x4E; the target's corner, or that of a present source or mask, outside ±1,000,000; present source's rectangle
/// not inside its picture".
pub fn reason(facts: &Facts) -> Option<String> {
    let Target::Rectangle(target) = facts.target? else { return None };
    let source = facts.source_rectangle.filter(|_| facts.source.is_some());
    let target_extent = [("cxDest", target.cx.into()), ("cyDest", target.cy.into())];
    let source_extent = source.map(|source| extent(facts, source));
    first(target_extent, |field| unfit(field, MOST_SIDE.into()))
        .or_else(|| first(source_extent?, |field| unfit(field, MOST_SOURCE)))
        .or_else(|| first(target_extent, |field| negative(facts, field)))
        .or_else(|| first(source_extent?, |field| negative(facts, field)))
        .or_else(|| corners(facts, target, source))
        .or_else(|| outside(facts, source?))
}

fn first(fields: [Field; 2], test: impl Fn(Field) -> Option<String>) -> Option<String> {
    fields.into_iter().find_map(test)
}

/// The source's extent; it may be the target's.
fn extent(facts: &Facts, source: Rectangle) -> [Field; 2] {
    let names = if facts.has_source_extent() { ["cxSrc", "cySrc"] } else { ["cxDest", "cyDest"] };
    [(names[0], source.cx.into()), (names[1], source.cy.into())]
}

/// An extent that without its sign is not 1 to `most`.
fn unfit((name, value): Field, most: i64) -> Option<String> {
    if value == 0 {
        return Some(format!("{name} 0 leaves no pixels"));
    }
    far((name, value), most)
}

/// A number outside ±`most`.
fn far((name, value): Field, most: i64) -> Option<String> {
    if value > most {
        Some(format!("{name} {value} is above {most}"))
    } else if value < -most {
        Some(format!("{name} {value} is below -{most}"))
    } else {
        None
    }
}

fn negative(facts: &Facts, (name, value): Field) -> Option<String> {
    let kind = facts.kind.filter(|kind| [ALPHABLEND, MASKBLT].contains(kind))?;
    (value < 0).then(|| format!("{name} {value} is negative, which {} does not allow", record_types::name(kind)))
}

fn corners(facts: &Facts, target: Rectangle, source: Option<Rectangle>) -> Option<String> {
    let mask = facts.mask_corner.filter(|_| facts.mask.is_some());
    let target = [("xDest", target.x.into()), ("yDest", target.y.into())];
    let source = source.map(|source| [("xSrc", source.x.into()), ("ySrc", source.y.into())]);
    let mask = mask.map(|[x, y]| [("xMask", x.into()), ("yMask", y.into())]);
    let corners = [Some(target), source, mask].into_iter().flatten();
    corners.flatten().find_map(|field| far(field, MOST_CORNER))
}

/// "present source's rectangle not inside its picture": the columns covered, then the rows.
fn outside(facts: &Facts, source: Rectangle) -> Option<String> {
    let header = facts.source.as_ref()?.header?;
    let (width, rows) = (i64::from(header.width?), i64::from(header.height?).abs());
    let [left, top, right, bottom] = source.covered();
    let [cx, cy] = extent(facts, source);
    let says = |what: &str, (corner, (name, extent)): (Field, Field), covered: [i64; 2], picture: i64| {
        let [from, end] = covered;
        let (corner, place) = corner;
        let field = format!("{corner} {place} with {name} {extent}");
        let (last, most) = (end - 1, picture - 1);
        let leaves = from < 0 || end > picture;
        leaves.then(|| format!("{field} takes {what} {from} to {last} of a picture that has 0 to {most}"))
    };
    says("columns", (("xSrc", source.x.into()), cx), [left, right], width)
        .or_else(|| says("rows", (("ySrc", source.y.into()), cy), [top, bottom], rows))
}
