//! What slotlist prints (clauses 14.2 and 14.3), as values.

#[derive(Debug, PartialEq)]
pub struct Slot {
    pub stamp: u64,
    pub granted: Option<usize>,
    /// After the slot, from place 0 on.
    pub credits: Vec<u64>,
}

#[derive(Debug, PartialEq)]
pub struct Listing {
    pub slots: Vec<Slot>,
    /// The last line: `end` or `refused`, and a number.
    pub ending: String,
}

impl Listing {
    pub fn read(text: &str) -> Result<Listing, String> {
        let mut lines = text.lines();
        if lines.next() != Some("slot place credits") {
            return Err("the first line is not slotlist's header".to_string());
        }
        let mut slots = Vec::new();
        for line in lines {
            if line.starts_with("end ") || line.starts_with("refused ") {
                return Ok(Listing { slots, ending: line.to_string() });
            }
            slots.push(slot(line).ok_or_else(|| format!("this is no line of a slot: {line}"))?);
        }
        Err("the listing has no last line".to_string())
    }

    pub fn places(&self) -> usize {
        self.slots.iter().map(|slot| slot.credits.len()).max().unwrap_or(0)
    }
}

fn slot(line: &str) -> Option<Slot> {
    let mut items = line.split(' ');
    let stamp = items.next()?.parse().ok()?;
    let granted = match items.next()? {
        "-" => None,
        place => Some(place.parse().ok()?),
    };
    let credits = items.map(|credit| credit.parse().ok()).collect::<Option<Vec<u64>>>()?;
    let known = granted.is_none_or(|place| place < credits.len());
    known.then_some(Slot { stamp, granted, credits })
}

#[cfg(test)]
mod tests {
    use super::*;

    #[test]
    fn the_example_of_clause_14_4_with_an_idle_slot() {
        let text = "slot place credits\n0 0 5 5\n1 0 2 6\n2 - 3 3\nend 3\n";
        let listing = Listing::read(text).unwrap();
        assert_eq!((listing.slots.len(), listing.places(), listing.ending.as_str()), (3, 2, "end 3"));
        assert_eq!(listing.slots[1], Slot { stamp: 1, granted: Some(0), credits: vec![2, 6] });
        assert_eq!(listing.slots[2].granted, None);
    }

    #[test]
    fn what_is_no_listing() {
        for text in ["", "slot place\n", "slot place credits\n", "slot place credits\n0 x 5\nend 1\n"] {
            assert!(Listing::read(text).is_err());
        }
        assert!(Listing::read("slot place credits\n0 2 5 5\nend 1\n").is_err(), "place 2 of two");
        assert!(Listing::read("slot place credits\nrefused 8\n").is_ok());
    }
}
