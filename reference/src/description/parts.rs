//! The lines of a description as the parts of a tower file.

use super::words::{shown, whole, Words};
use super::Wrong;

/// What some editors put in front of a text.
const BYTE_ORDER_MARK: &[u8] = b"\xef\xbb\xbf";

/// What a line gives to the file.
pub struct Part {
    /// The line, counted from 1.
    pub line: usize,
    /// Whole fields.
    pub bytes: Vec<u8>,
}

impl Part {
    fn of(line: usize, fields: &[Field]) -> Part {
        let bytes = fields.iter().flat_map(Field::spelled).collect();
        Part { line, bytes }
    }
}

/// A field's bytes and its number.
struct Field(usize, u64);

impl Field {
    /// High byte first. A number that is too large becomes the field's largest:
    /// where there is a range, its rule turns both down.
    fn spelled(&self) -> Vec<u8> {
        let Field(bytes, number) = *self;
        number.min(most(bytes)).to_be_bytes()[8 - bytes..].to_vec()
    }
}

/// The largest number of a field.
fn most(bytes: usize) -> u64 {
    u64::MAX >> (64 - 8 * bytes)
}

/// A section without its group count, and its groups.
struct Section {
    sizes: Part,
    groups: Vec<Part>,
}

/// What the lines have given so far.
#[derive(Default)]
struct Lines {
    legs: Option<Part>,
    sections: Vec<Section>,
    items: Vec<Part>,
}

/// The parts of a description in the order of the file, counts included.
pub fn parts(text: &[u8]) -> Result<Vec<Part>, Wrong> {
    let text = text.strip_prefix(BYTE_ORDER_MARK).unwrap_or(text);
    let mut lines = Lines::default();
    for (line, text) in (1..).zip(text.split(|&byte| byte == b'\n')) {
        match std::str::from_utf8(text) {
            Ok(text) => lines.take(&mut Words::of(line, text))?,
            Err(_) => return Words::of(line, "").wrong("it is not text in UTF-8"),
        }
    }
    match lines.legs {
        Some(legs) => Ok(in_order(legs, lines.sections, lines.items)),
        None => Words::of(1, "").wrong("the description has no 'legs' line"),
    }
}

/// A count stands at the last of the lines that it counts, or at the one before.
fn in_order(legs: Part, sections: Vec<Section>, items: Vec<Part>) -> Vec<Part> {
    let mut before = legs.line;
    let last = sections.last().map_or(before, |section| section.sizes.line);
    let mut parts = vec![legs, count(last, sections.len())];
    for Section { sizes, groups } in sections {
        before = groups.last().map_or(sizes.line, |group| group.line);
        parts.push(sizes);
        parts.push(count(before, groups.len()));
        parts.extend(groups);
    }
    let last = items.last().map_or(before, |item| item.line);
    parts.push(count(last, items.len()));
    parts.extend(items);
    parts
}

fn count(line: usize, number: usize) -> Part {
    Part::of(line, &[Field(1, number as u64)])
}

impl Lines {
    /// Takes what a line says, if anything.
    fn take(&mut self, words: &mut Words) -> Result<(), Wrong> {
        let Some(word) = words.next() else {
            return Ok(());
        };
        match word {
            "legs" => self.take_legs(words)?,
            "section" => self.take_section(words)?,
            "flat" => self.take_group(0, words)?,
            "round" => self.take_group(1, words)?,
            "item" => self.take_item(words)?,
            word => {
                let known = "legs, section, flat, round or item";
                return words.wrong(&format!("a line begins with {known}, not {}", shown(word)));
            }
        }
        words.end()
    }

    fn take_legs(&mut self, words: &mut Words) -> Result<(), Wrong> {
        if let Some(legs) = &self.legs {
            return words.wrong(&format!("the legs are already in line {}", legs.line));
        }
        self.legs = Some(Part::of(words.line(), &[Field(1, words.number()?)]));
        Ok(())
    }

    /// Sections are numbered so that people find them; the file has no numbers.
    fn take_section(&mut self, words: &mut Words) -> Result<(), Wrong> {
        self.after_legs(words)?;
        if !self.items.is_empty() {
            return words.wrong("the sections come before the items");
        }
        let (due, number) = (self.sections.len() as u64, words.number()?);
        if number != due {
            return words.wrong(&format!("section {due} is due here, not section {number}"));
        }
        let sizes = [
            Field(2, words.measure("width", "mm")?),
            Field(2, words.measure("height", "mm")?),
            Field(4, allowance(words)?),
        ];
        self.sections.push(Section {
            sizes: Part::of(words.line(), &sizes),
            groups: Vec::new(),
        });
        Ok(())
    }

    fn take_group(&mut self, kind: u64, words: &mut Words) -> Result<(), Wrong> {
        let Some(section) = self.sections.last_mut().filter(|_| self.items.is_empty()) else {
            return words.wrong("a group stands below its section and above the items");
        };
        let width = words.number()?;
        words.word("mm")?;
        let length = words.measure("length", "mm")?;
        let fields = [Field(1, kind), Field(2, width), Field(4, length)];
        section.groups.push(Part::of(words.line(), &fields));
        Ok(())
    }

    fn take_item(&mut self, words: &mut Words) -> Result<(), Wrong> {
        self.after_legs(words)?;
        let number = words.number()?;
        let number = held(words, "item number", number, 2)?;
        words.word("section")?;
        let fields = [
            Field(2, number),
            Field(1, words.number()?),
            Field(2, words.measure("width", "mm")?),
            Field(2, words.measure("length", "mm")?),
            Field(2, words.thousandths("bare")?),
            Field(2, words.thousandths("iced")?),
            Field(2, words.thousandths("K")?),
        ];
        self.items.push(Part::of(words.line(), &fields));
        Ok(())
    }

    fn after_legs(&self, words: &Words) -> Result<(), Wrong> {
        match self.legs {
            Some(_) => Ok(()),
            None => words.wrong("the 'legs' line comes first"),
        }
    }
}

/// Newtons, or 0 for `none`.
fn allowance(words: &mut Words) -> Result<u64, Wrong> {
    words.word("allowance")?;
    let stated = words.read("a whole number or 'none'", |word| match word {
        "none" => Some(None),
        word => whole(word).map(Some),
    })?;
    let Some(newtons) = stated else {
        return Ok(0);
    };
    words.word("N")?;
    if newtons == 0 {
        return words.wrong("an allowance that is not stated is 'none', not 0 N");
    }
    held(words, "allowance", newtons, 4)
}

/// A number that has no range but its bytes.
fn held(words: &Words, name: &str, number: u64, bytes: usize) -> Result<u64, Wrong> {
    let most = most(bytes);
    if number > most {
        return words.wrong(&format!(
            "the {name} is above {most}, the largest of its field"
        ));
    }
    Ok(number)
}
