//! The picture: a strip for the line itself, a row for each place with its grants and its credit, idle slots hatched, and the slots'
//! numbers below.

use std::fmt::Write;

use crate::layout::{Layout, BLOCK, CREDIT, GUTTER, HEAD, MARGIN, STRIP};
use crate::listing::Listing;

/// Colours that stay apart for colour-blind readers too (after Okabe and Ito, the yellow darker, so that a white number can be read
/// on it); more places begin again.
const COLOURS: [&str; 7] = ["#0072B2", "#009E73", "#CC8400", "#D55E00", "#8E6BBF", "#3A9BD9", "#B5527D"];

const STYLE: &str = "
  text { font-family: Helvetica, Arial, sans-serif; fill: #222 }
  .head { font-size: 19px; font-weight: bold }
  .note { font-size: 12.5px; fill: #555 }
  .name { font-size: 15px; font-weight: bold }
  .scale { font-size: 11px; fill: #777; text-anchor: end }
  .number { font-size: 12px; fill: #555; text-anchor: middle }
  .inside { font-size: 13px; font-weight: bold; fill: #fff; text-anchor: middle }
  .quiet { font-size: 12px; fill: #777; text-anchor: middle }
";

/// What idle slots are filled with.
const HATCH: &str = r##"<defs><pattern id="idle" width="7" height="7" patternUnits="userSpaceOnUse" patternTransform="rotate(45)">
<rect width="7" height="7" fill="#f1f1f1"/><rect width="2.2" height="7" fill="#d2d2d2"/></pattern></defs>"##;

/// The legend: signs, what they mean, and how far it is to the next.
const LEGEND: [(&str, &str, f64); 3] = [
    (r##"<rect width="16" height="12" y="-10" rx="3" fill="#555"/>"##, "a transfer granted", 172.0),
    (r##"<path d="M0 2V-8H8V-4H16V2Z" fill="#ddd" stroke="#555"/>"##, "credit after the slot", 190.0),
    (r##"<rect width="16" height="12" y="-10" fill="url(#idle)"/>"##, "idle slot", 0.0),
];

/// A line of SVG behind the others.
macro_rules! put {
    ($to:expr, $($words:tt)*) => { writeln!($to, $($words)*).expect("a String takes all") };
}

pub fn draw(listing: &Listing, names: &[String]) -> String {
    let places = listing.places();
    let layout = Layout::of(listing.slots.len(), places);
    let drawing = Drawing { listing, names, layout };
    let mut svg = String::new();
    drawing.open(&mut svg);
    drawing.heading(&mut svg);
    drawing.grid(&mut svg);
    drawing.idle(&mut svg);
    drawing.strip(&mut svg);
    for place in 0..places {
        drawing.row(&mut svg, place);
    }
    drawing.axis(&mut svg);
    put!(svg, "</svg>");
    svg
}

struct Drawing<'a> {
    listing: &'a Listing,
    names: &'a [String],
    layout: Layout,
}

impl Drawing<'_> {
    fn name(&self, place: usize) -> String {
        self.names.get(place).map_or_else(|| format!("place {place}"), |name| escaped(name))
    }

    fn open(&self, svg: &mut String) {
        let (width, height) = (self.layout.width(), self.layout.height());
        put!(
            svg,
            r#"<svg xmlns="http://www.w3.org/2000/svg" viewBox="0 0 {width:.0} {height:.0}" width="{width:.0}" height="{height:.0}" role="img">"#
        );
        put!(svg, "<title>Who has the line, slot by slot, and what credit each place holds</title>");
        put!(svg, "<style>{STYLE}</style>");
        put!(svg, "{HATCH}");
        put!(svg, r##"<rect width="100%" height="100%" fill="#fff"/>"##);
    }

    fn heading(&self, svg: &mut String) {
        put!(svg, r#"<text class="head" x="{MARGIN}" y="30">The line, slot by slot</text>"#);
        let mut x = MARGIN;
        for (sign, meaning, step) in LEGEND {
            put!(svg, r#"<g transform="translate({x} 54)">{sign}<text class="note" x="23" y="1">{meaning}</text></g>"#);
            x += step;
        }
    }

    /// A thin line between slots, and a stronger one at each fifth.
    fn grid(&self, svg: &mut String) {
        for slot in 0..=self.listing.slots.len() {
            let stamp = self.listing.slots.get(slot).map_or(0, |slot| slot.stamp);
            let colour = if stamp % 5 == 0 { "#dcdcdc" } else { "#f0f0f0" };
            let (x, bottom) = (self.layout.x(slot), self.layout.bottom());
            put!(svg, r#"<line x1="{x:.1}" x2="{x:.1}" y1="{HEAD}" y2="{bottom:.1}" stroke="{colour}"/>"#);
        }
    }

    /// Idle slots are hatched from top to bottom: nobody had the line.
    fn idle(&self, svg: &mut String) {
        for (at, slot) in self.listing.slots.iter().enumerate().filter(|(_, slot)| slot.granted.is_none()) {
            let (x, width, height) = (self.layout.x(at), self.layout.slot, self.layout.bottom() - HEAD);
            put!(
                svg,
                r#"<rect x="{x:.1}" y="{HEAD}" width="{width:.1}" height="{height:.1}" fill="url(#idle)"><title>slot {}: idle</title></rect>"#,
                slot.stamp
            );
        }
    }

    /// The line itself: who has each slot.
    fn strip(&self, svg: &mut String) {
        let middle = HEAD + STRIP / 2.0 + 5.0;
        put!(svg, r#"<text class="name" x="{MARGIN}" y="{middle:.1}">the line</text>"#);
        for at in 0..self.listing.slots.len() {
            self.block(svg, at, HEAD, STRIP);
            self.owner(svg, at, middle);
        }
    }

    /// A slot's block in its owner's colour; nothing for an idle slot.
    fn block(&self, svg: &mut String, at: usize, top: f64, height: f64) {
        let slot = &self.listing.slots[at];
        let Some(place) = slot.granted else { return };
        let (x, width) = (self.layout.x(at) + 1.0, self.layout.slot - 2.0);
        let (name, colour) = (self.name(place), colour(place));
        put!(
            svg,
            r#"<rect x="{x:.1}" y="{top:.1}" width="{width:.1}" height="{height:.1}" rx="3" fill="{colour}"><title>slot {}: {name}</title></rect>"#,
            slot.stamp
        );
    }

    /// The owner's place in its block, where there is room for a number.
    fn owner(&self, svg: &mut String, at: usize, y: f64) {
        if self.layout.slot < 18.0 {
            return;
        }
        let x = self.layout.x(at) + self.layout.slot / 2.0;
        match self.listing.slots[at].granted {
            Some(place) => put!(svg, r#"<text class="inside" x="{x:.1}" y="{y:.1}">{place}</text>"#),
            None => put!(svg, r#"<text class="quiet" x="{x:.1}" y="{y:.1}">idle</text>"#),
        }
    }

    fn row(&self, svg: &mut String, place: usize) {
        let (top, right) = (self.layout.row(place), self.layout.right());
        let line = top - 9.0;
        put!(svg, r##"<line x1="{MARGIN}" x2="{right:.1}" y1="{line:.1}" y2="{line:.1}" stroke="#c8c8c8"/>"##);
        self.label(svg, place, top);
        self.credit(svg, place);
        for at in 0..self.listing.slots.len() {
            if self.listing.slots[at].granted == Some(place) {
                self.block(svg, at, top, BLOCK);
            }
        }
    }

    fn label(&self, svg: &mut String, place: usize, top: f64) {
        let (name, colour) = (self.name(place), colour(place));
        let (text, square) = (top + 16.0, top + 5.0);
        put!(svg, r#"<rect x="{MARGIN}" y="{square:.1}" width="12" height="12" rx="3" fill="{colour}"/>"#);
        let x = MARGIN + 19.0;
        put!(svg, r#"<text class="name" x="{x}" y="{text:.1}">{name}</text>"#);
        if self.names.len() > place {
            put!(svg, r#"<text class="note" x="{x}" y="{:.1}">place {place}</text>"#, text + 18.0);
        }
    }

    /// Credit as steps over the slots, from 0 to the highest that this place reaches.
    fn credit(&self, svg: &mut String, place: usize) {
        let highest = self.listing.slots.iter().map(|slot| slot.credits[place]).max().unwrap_or(0).max(1);
        let ground = self.layout.ground(place);
        let steps = self.steps(place, highest, ground);
        let (colour, left, right) = (colour(place), self.layout.x(0), self.layout.right());
        put!(svg, r#"<path d="M{left:.1} {ground:.1}{steps}V{ground:.1}Z" fill="{colour}" fill-opacity=".16"/>"#);
        let start = steps.replacen('V', &format!("M{left:.1} "), 1);
        put!(svg, r#"<path d="{start}" fill="none" stroke="{colour}" stroke-width="1.8"/>"#);
        put!(svg, r##"<line x1="{left:.1}" x2="{right:.1}" y1="{ground:.1}" y2="{ground:.1}" stroke="#999"/>"##);
        let x = GUTTER - 7.0;
        put!(svg, r#"<text class="scale" x="{x}" y="{:.1}">credit {highest}</text>"#, ground - CREDIT + 4.0);
        put!(svg, r#"<text class="scale" x="{x}" y="{:.1}">0</text>"#, ground + 4.0);
    }

    fn steps(&self, place: usize, highest: u64, ground: f64) -> String {
        let mut steps = String::new();
        for (at, slot) in self.listing.slots.iter().enumerate() {
            let y = ground - CREDIT * slot.credits[place] as f64 / highest as f64;
            write!(steps, "V{y:.1}H{:.1}", self.layout.x(at + 1)).expect("a String takes all");
        }
        steps
    }

    fn axis(&self, svg: &mut String) {
        let y = self.layout.bottom() + 16.0;
        put!(svg, r#"<text class="note" x="{MARGIN}" y="{y:.1}">slot</text>"#);
        for (at, slot) in self.listing.slots.iter().enumerate() {
            if slot.stamp % self.layout.step() as u64 == 0 {
                let x = self.layout.x(at) + self.layout.slot / 2.0;
                put!(svg, r#"<text class="number" x="{x:.1}" y="{y:.1}">{}</text>"#, slot.stamp);
            }
        }
        if self.listing.ending.starts_with("refused") {
            let (x, y) = (self.layout.right(), y + 18.0);
            put!(svg, r#"<text class="scale" x="{x:.1}" y="{y:.1}">{}</text>"#, escaped(&self.listing.ending));
        }
    }
}

fn colour(place: usize) -> &'static str {
    COLOURS[place % COLOURS.len()]
}

/// A name as SVG's text may have it.
fn escaped(name: &str) -> String {
    name.replace('&', "&amp;").replace('<', "&lt;").replace('>', "&gt;")
}

#[cfg(test)]
mod tests {
    use super::*;

    const TEXT: &str = "slot place credits\n0 0 5 5\n1 0 2 6\n2 - 3 3\nend 3\n";

    fn drawn(text: &str, names: &[&str]) -> String {
        let names: Vec<String> = names.iter().map(|name| name.to_string()).collect();
        draw(&Listing::read(text).unwrap(), &names)
    }

    #[test]
    fn each_grant_is_a_block_on_the_line_and_in_its_row() {
        let svg = drawn(TEXT, &["pump"]);
        assert_eq!(svg.matches("<title>slot 0: pump</title>").count(), 2);
        assert_eq!(svg.matches("<title>slot 1: pump</title>").count(), 2);
        assert_eq!(svg.matches("<title>slot 2: idle</title>").count(), 1);
        assert!(svg.contains(">place 1</text>"), "a place without a name has its number");
    }

    #[test]
    fn a_name_may_hold_any_sign() {
        assert!(drawn(TEXT, &["a < b & c"]).contains("a &lt; b &amp; c"));
    }

    #[test]
    fn no_slot_at_all() {
        assert!(drawn("slot place credits\nrefused 8\n", &[]).contains(">refused 8</text>"));
    }

    /// docs/basin.svg is the picture of the listing in README.md. If this fails, `make picture` draws it again.
    #[test]
    fn the_picture_in_docs_is_of_the_listing_in_the_readme() {
        let readme = include_str!("../../../README.md");
        let listing = &readme[readme.find("slot place credits").expect("README has a listing")..];
        let names = ["pump", "pH probe", "chlorine probe", "handset", "service log"];
        assert_eq!(drawn(listing, &names), include_str!("../../../docs/basin.svg"));
    }
}
