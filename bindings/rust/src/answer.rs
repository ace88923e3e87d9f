//! What a link gives.
use crate::fault::Fault;
use crate::json::{Malformed, Reader};
use std::collections::BTreeMap;

/// A linked unit.
#[derive(Clone, Debug, PartialEq, Eq)]
pub struct Answer {
    /// The unit as JSON text: a tree, in the form that the bundle asks for.
    pub unit: String,
    /// Whether the unit's printed names read otherwise than the modules mean.
    pub clash: bool,
    /// What each mangled name stands for.
    pub map: BTreeMap<String, Item>,
}

/// A declaration of a module.
#[derive(Clone, Debug, PartialEq, Eq, PartialOrd, Ord, Hash)]
pub struct Item {
    /// The path of the module, as `package::util`.
    pub module: String,
    /// The name that the module gives it.
    pub name: String,
}

/// The text of a linked unit.
#[derive(Clone, Debug, PartialEq, Eq)]
pub struct TextAnswer {
    /// The text, in WGSL and what is kept of WESL's conditions.
    pub text: String,
    /// Whether the unit's printed names read otherwise than the modules mean.
    pub clash: bool,
    /// What each mangled name stands for.
    pub map: BTreeMap<String, Item>,
}

impl Answer {
    /// The answer that a line tells.
    pub(crate) fn of_line(line: &str) -> Result<Self, Fault> {
        let read = |reader: &mut Reader<'_>| reader.raw().map(str::to_owned);
        let (unit, clash, map) = read_answer(line, "unit", read).map_err(|Malformed| Fault::malformed(line))?;
        Ok(Self { unit, clash, map })
    }
}

impl TextAnswer {
    /// The answer that a line tells.
    pub(crate) fn of_line(line: &str) -> Result<Self, Fault> {
        let read = |reader: &mut Reader<'_>| reader.string();
        let (text, clash, map) = read_answer(line, "text", read).map_err(|Malformed| Fault::malformed(line))?;
        Ok(Self { text, clash, map })
    }
}

/// What stands at a key of an answer, whether names clash, and what they stand for.
fn read_answer(
    line: &str,
    linked: &str,
    read: impl Fn(&mut Reader<'_>) -> Result<String, Malformed>,
) -> Result<(String, bool, BTreeMap<String, Item>), Malformed> {
    let (mut found, mut clash, mut map) = (None, false, BTreeMap::new());
    let mut reader = Reader::new(line);
    reader.object(|key, reader| {
        match key.as_str() {
            "clash" => clash = reader.boolean()?,
            "map" => map = read_map(reader)?,
            key if key == linked => found = Some(read(reader)?),
            _ => return Err(Malformed),
        }
        Ok(())
    })?;
    reader.end()?;
    Ok((found.ok_or(Malformed)?, clash, map))
}

fn read_map(reader: &mut Reader<'_>) -> Result<BTreeMap<String, Item>, Malformed> {
    let mut map = BTreeMap::new();
    reader.object(|name, reader| {
        let [module, item] = reader.strings()?.try_into().map_err(|_| Malformed)?;
        map.insert(name, Item { module, name: item });
        Ok(())
    })?;
    Ok(map)
}
