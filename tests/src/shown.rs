//! The service program's text, parsed back, and what it must say of a card by the model. Layout is left to the stored
//! outputs: in columns words and numbers count, not blanks and commas. The name in front and what is told on standard
//! error are compared as they stand.

use crate::model::{read_entry, undone, window_slots, Card, Entry, Geometry, Model, Store, OLD, VERSION_AT};
use crate::stores_log::CARD;
use crate::{Calls, State};

/// The lengths between which a card's length lies.
pub const SMALLEST: usize = 2304;
pub const LARGEST: usize = 528_512;
/// What is told on standard error of a store that was not written or not made durable.
pub const NOT_WRITTEN: &str = "card.img: a store could not be written and made durable, \
    and half of it may be in the file: recover a copy made before\n";
/// The title of the table of entries, which explains its flags.
const ENTRIES_TITLE: &str = "entries: V in use, P previous modified, M modified, R log role";
const WINDOW: &str = "slot number";
const ENTRIES: &str = "place bytes flags number previous current undoable settled";
const STORES: &str = "store byte bytes what";
const SAVE: &str = "number data block entry replaces";

#[derive(Clone, Debug, PartialEq, Eq)]
pub enum Verdict {
    Settled { in_use: u64, modified: u64 },
    Unsettled { undoable: u64, window: u64 },
    /// Of an old card that nothing else is wrong with.
    Old { settled: bool },
    Refused(u32),
}

pub type Row = Vec<String>;

/// A report of `show`. A part that is not there is `None`; one that says there is nothing has no rows.
#[derive(Clone, Debug, PartialEq, Eq)]
pub struct Shown {
    pub title: String,
    pub header: Vec<Row>,
    pub window: Option<Vec<Row>>,
    pub entries: Option<Vec<Row>>,
    pub free: Option<Row>,
    pub verdict: Verdict,
}

fn row(words: &[&str]) -> Row {
    words.iter().map(|word| word.to_string()).collect()
}

/// A count as the program prints it: 65,536.
pub fn counted(count: usize) -> String {
    match count {
        0..=999 => count.to_string(),
        _ => format!("{},{:03}", counted(count / 1000), count % 1000),
    }
}

/// The words of a line, the commas of its numbers left out.
fn words(line: &str) -> Row {
    let bare = |word: &str| match word.replace(',', "") {
        number if number.bytes().all(|mark| mark.is_ascii_digit()) => number,
        _ => word.to_string(),
    };
    line.split_whitespace().map(bare).collect()
}

fn number<T: std::str::FromStr>(word: Option<&str>, line: &str) -> Result<T, String> {
    let digits = word.map(|word| word.replace(',', ""));
    digits.and_then(|digits| digits.parse().ok()).ok_or_else(|| format!("no number where one should be: {line:?}"))
}

/// The number at the end of what stands between `before` and `after`.
fn between<T: std::str::FromStr>(line: &str, before: &str, after: &str) -> Result<T, String> {
    let part = line.split_once(before).and_then(|(_, rest)| rest.split_once(after));
    number(part.map(|(part, _)| part), line)
}

/// "refused with 5: ...", and who can cause it: the fitter 1 to 3, a damaged card 4 to 6, an earlier cut 7, else the
/// caller.
pub fn refusal(line: &str) -> Result<u32, String> {
    if !line.starts_with("refused with ") {
        return Err(format!("no refusal: {line:?}"));
    }
    let refusal: u32 = between(line, "refused with ", ": ")?;
    let cause = match refusal {
        0..=3 => "the fitter",
        4..=6 => "a damaged card",
        7 => "an earlier cut",
        _ => "the caller",
    };
    if line.ends_with(&format!(". Cause: {cause}.")) {
        Ok(refusal)
    } else {
        Err(format!("another cause than {cause}: {line:?}"))
    }
}

/// A refusal that stands alone on standard error, behind the name of the file that it is about.
pub fn named_refusal(text: &str, name: &str) -> Result<u32, String> {
    match text.strip_prefix(&format!("{name}: ")).and_then(|rest| rest.strip_suffix('\n')) {
        Some(line) if !line.contains('\n') => refusal(line),
        _ => Err(format!("no line of {name} alone: {text:?}")),
    }
}

/// What is told on standard error, by the length alone, of a file that no card is as long as.
pub fn length_line(card: &[u8]) -> Option<String> {
    match card.len() {
        length if length < SMALLEST => {
            Some(format!("{CARD}: {} bytes, and the smallest card has 2,304\n", counted(length)))
        }
        length if length > LARGEST => {
            Some(format!("{CARD}: longer than the largest card, which has 528,512 bytes\n"))
        }
        _ => None,
    }
}

/// What is told of a file that is not as long as its header asks.
pub fn asked_line(card: &[u8]) -> Option<String> {
    let asked = Geometry::from_header(card).ok()?.card_length();
    let line = || format!("{CARD}: {} bytes, and its header asks for {}\n", counted(card.len()), counted(asked));
    (asked != card.len()).then(line)
}

/// What is told of an old card.
const OLD_SETTLED: &str = "condition  version 1, settled: to be upgraded";
const OLD_UNSETTLED: &str = "condition  version 1, not settled: to be recovered, then upgraded";

pub fn verdict(line: &str) -> Result<Verdict, String> {
    if let OLD_SETTLED | OLD_UNSETTLED = line {
        return Ok(Verdict::Old { settled: line == OLD_SETTLED });
    }
    let line = &format!("{line}\n");
    if line.starts_with("condition  settled, ") {
        let (in_use, modified) = (between(line, "entries in use ", ", ")?, between(line, "modified ", "\n")?);
        Ok(Verdict::Settled { in_use, modified })
    } else if line.starts_with("condition  unsettled, ") {
        let (undoable, window) = (between(line, "undoable entries ", ", ")?, between(line, "in the window ", "\n")?);
        Ok(Verdict::Unsettled { undoable, window })
    } else {
        refusal(line.trim_end()).map(Verdict::Refused)
    }
}

/// The rows under their column names, where there are such; none where a line says that there is nothing.
fn rows(lines: &[&str], columns: &str, nothing: &str) -> Result<Vec<Row>, String> {
    let rows = match lines {
        _ if columns.is_empty() => lines,
        [names, rows @ ..] if words(names) == words(columns) => rows,
        _ => return Err(format!("no columns {columns}: {lines:?}")),
    };
    match rows {
        [] => Err(format!("neither a row nor {nothing:?} below {columns:?}")),
        [line] if *line == nothing => Ok(Vec::new()),
        _ => Ok(rows.iter().map(|line| words(line)).collect()),
    }
}

/// The rows of the part with this title, where it is there.
fn part(parts: &[Vec<&str>], title: &str, columns: &str, nothing: &str) -> Result<Option<Vec<Row>>, String> {
    match parts.iter().find(|lines| lines.first() == Some(&title)) {
        Some(lines) => rows(&lines[1..], columns, nothing).map(Some),
        None => Ok(None),
    }
}

pub fn parse_shown(text: &str) -> Result<Shown, String> {
    let parts: Vec<Vec<&str>> = text.trim_end().split("\n\n").map(|part| part.lines().collect()).collect();
    let titles: Vec<&str> = parts.iter().map(|lines| lines.first().copied().unwrap_or("")).collect();
    let known = ["header", "window", ENTRIES_TITLE, "free data blocks"];
    let inner = titles.get(1..titles.len().saturating_sub(1)).unwrap_or(&[]);
    let in_order = known.iter().filter(|title| inner.contains(title)).eq(inner.iter());
    if inner.first() != Some(&"header") || !in_order || parts[0].len() != 1 || parts[parts.len() - 1].len() != 1 {
        return Err(format!("other parts than there should be: {titles:?}"));
    }
    Ok(Shown {
        title: titles[0].to_string(),
        header: part(&parts, "header", "", "")?.unwrap_or_default(),
        window: part(&parts, "window", WINDOW, "  empty")?,
        entries: part(&parts, ENTRIES_TITLE, ENTRIES, "  none in use")?,
        free: part(&parts, "free data blocks", "", "  none")?.map(|rows| rows.concat()),
        verdict: verdict(titles[titles.len() - 1])?,
    })
}

/// Name and length. Of a file longer than any card no more is read than tells that it is.
fn title_of(card: &[u8]) -> String {
    match card.len() {
        length if length > LARGEST => format!("{CARD}: more than 528,512 bytes"),
        length => format!("{CARD}: {} bytes", counted(length)),
    }
}

/// A number of the header, a dash where the card does not reach so far.
fn field(card: &[u8], at: usize, width: usize) -> Option<u64> {
    card.get(at..at + width).map(|bytes| bytes.iter().fold(0, |value, byte| value << 8 | *byte as u64))
}

fn header_of(card: &[u8]) -> Vec<Row> {
    let k = field(card, 5, 1);
    let block = k.filter(|k| (9..=12).contains(k)).map(|k| 1 << k);
    let fields = [
        ("length", field(card, 0, 4)),
        ("version", field(card, 4, 1)),
        ("k", k),
        ("B", block),
        ("S", field(card, 6, 2)),
        ("N", field(card, 8, 4)),
        ("D", field(card, 12, 4)),
        ("Head", field(card, 64, 8)),
        ("Tail", field(card, 72, 8)),
    ];
    let told = |value: Option<u64>| value.map_or("-".to_string(), |value| value.to_string());
    fields.map(|(name, value)| vec![name.to_string(), told(value)]).to_vec()
}

/// Positions and numbers of the window, where checks 1 and 2 pass and Head and Tail are below S.
fn window_of(card: &[u8], geometry: Geometry) -> Option<Vec<(u64, u64)>> {
    let (head, tail) = (field(card, 64, 8)?, field(card, 72, 8)?);
    if card.len() != geometry.card_length() || head >= geometry.slots || tail >= geometry.slots {
        return None;
    }
    let slots = window_slots(geometry.slots, head, tail);
    Some(slots.iter().map(|slot| (*slot, field(card, geometry.slot_at(*slot), 8).unwrap())).collect())
}

fn hex(bytes: &[u8]) -> String {
    bytes.iter().map(|byte| format!("{byte:02X}")).collect()
}

/// A unit's bytes as document 01 writes them: an entry's flag byte and number, previous, current; a word in one.
fn groups(bytes: &[u8]) -> Row {
    match bytes.len() {
        16 => vec![hex(&bytes[..8]), hex(&bytes[8..12]), hex(&bytes[12..])],
        _ => vec![hex(bytes)],
    }
}

/// Whether an entry is undoable, and its settled block.
fn known_of(entry: &Entry, window: &[(u64, u64)]) -> Row {
    let undoable = entry.log_role || window.iter().any(|(_, number)| *number == entry.number);
    let settled = if undoable { entry.previous } else { Some(entry.current) };
    let settled = settled.map_or("none".to_string(), |block| block.to_string());
    vec![if undoable { "yes" } else { "no" }.to_string(), settled]
}

/// The row of an entry that is not all zero, on a card of that version.
fn entry_row(version: u8, index: u64, bytes: &[u8; 16], geometry: Geometry, window: Option<&[(u64, u64)]>) -> Row {
    let flag = |bit: u8, letter: &str| if bytes[0] & bit != 0 { letter } else { "-" }.to_string();
    let previous = field(bytes, 8, 4).unwrap();
    let mut row = [vec![index.to_string()], groups(bytes)].concat();
    row.extend([flag(0x80, "V"), flag(0x04, "P"), flag(0x02, "M"), flag(0x01, "R")]);
    row.push(field(bytes, 1, 7).unwrap().to_string());
    row.push(if previous == 0xFFFF_FFFF { "FRESH".to_string() } else { previous.to_string() });
    row.push(field(bytes, 12, 4).unwrap().to_string());
    let read = read_entry(version, bytes, geometry.data_blocks, geometry.disk_blocks);
    row.extend(match (read, window) {
        (Ok(Some(entry)), Some(window)) => known_of(&entry, window),
        _ => self::row(&["-", "-"]),
    });
    row
}

/// The entries that the card reaches, where its header can be trusted.
fn entries_of(card: &[u8], geometry: Geometry, window: Option<&[(u64, u64)]>) -> Option<Vec<Row>> {
    let at = |index: u64| geometry.entry_at(index as usize);
    let bytes = |index: u64| card.get(at(index)..at(index) + 16).map(|bytes| <&[u8; 16]>::try_from(bytes).unwrap());
    bytes(0)?;
    let reached = (0..geometry.data_blocks).map_while(|index| bytes(index).map(|bytes| (index, bytes)));
    let used = reached.filter(|(_, bytes)| **bytes != [0; 16]);
    Some(used.map(|(index, bytes)| entry_row(card[VERSION_AT], index, bytes, geometry, window)).collect())
}

fn free_of(card: &[u8]) -> Option<Row> {
    let card = Card::open(card, None).ok()?;
    Some((0..card.geometry.data_blocks as usize).filter(|block| card.is_free(*block)).map(|block| block.to_string()).collect())
}

/// An old card, which state refuses for its version, is told from its bytes.
pub fn verdict_of(model: &Model, card: &[u8]) -> Verdict {
    match Card::open(card, None) {
        Ok(card) if card.version == OLD => return Verdict::Old { settled: card.settled() },
        Err(number) => return Verdict::Refused(number),
        _ => {}
    }
    match model.state(card) {
        State::Settled { in_use, modified, .. } => Verdict::Settled { in_use, modified },
        State::Unsettled { undoable, window, .. } => Verdict::Unsettled { undoable, window },
        State::Refused(number) => Verdict::Refused(number),
        State::Malformed(..) => unreachable!("the model gives no such answer"),
    }
}

/// What `show` must say of the card.
pub fn shown_of(model: &Model, card: &[u8]) -> Shown {
    let geometry = Geometry::from_header(card).ok();
    let window = geometry.and_then(|geometry| window_of(card, geometry));
    let rows =
        |window: &Vec<(u64, u64)>| window.iter().map(|(slot, n)| row(&[&slot.to_string(), &n.to_string()])).collect();
    Shown {
        title: title_of(card),
        header: header_of(card),
        entries: geometry.and_then(|geometry| entries_of(card, geometry, window.as_deref())),
        window: window.as_ref().map(rows),
        free: free_of(card),
        verdict: verdict_of(model, card),
    }
}

/// Whether the text says of the card what it should.
pub fn same_shown(text: &str, wanted: &Shown) -> Result<(), String> {
    let found = parse_shown(text)?;
    if found == *wanted {
        Ok(())
    } else {
        Err(format!("shown {found:?}, not {wanted:?}"))
    }
}

/// A block as `block` prints it: who holds it, from which byte on, and its bytes.
#[derive(Clone, Debug, PartialEq, Eq)]
pub struct Listed {
    pub number: u64,
    pub on_card: bool,
    pub at: u64,
    pub bytes: Vec<u8>,
}

/// One line of the listing: the place, sixteen bytes, and the same bytes as text where they are printable.
fn listed_line(line: &str, place: usize) -> Result<Vec<u8>, String> {
    let wrong = || format!("no line of a listing at {place:04X}: {line:?}");
    let (numbers, text) = line.split_once('|').ok_or_else(wrong)?;
    let mut words = numbers.split_whitespace();
    if words.next() != Some(&format!("{place:04X}")) {
        return Err(wrong());
    }
    let bytes: Result<Vec<u8>, _> = words.map(|word| u8::from_str_radix(word, 16)).collect();
    let bytes = bytes.map_err(|_| wrong())?;
    let marks: String =
        bytes.iter().map(|byte| if (0x20..0x7F).contains(byte) { *byte as char } else { '.' }).collect();
    if bytes.len() == 16 && text == format!("{marks}|") {
        Ok(bytes)
    } else {
        Err(wrong())
    }
}

pub fn parse_listed(text: &str) -> Result<Listed, String> {
    let first = text.lines().next().unwrap_or("");
    let on_card = first.contains(", held by the card from byte ");
    if !on_card && !first.contains(", held by the disk from byte ") {
        return Err(format!("no holder: {first:?}"));
    }
    let mut bytes = Vec::new();
    for line in text.lines().skip(1) {
        let place = bytes.len();
        bytes.extend(listed_line(line, place)?);
    }
    Ok(Listed { number: between(first, "block ", ", ")?, on_card, at: between(first, "from byte ", " on")?, bytes })
}

/// What `recover` and `upgrade` print: their list, how many stores they made, how they ended, and the card's condition then.
#[derive(Clone, Debug, PartialEq, Eq)]
pub struct Told {
    pub list: Vec<Row>,
    pub made: u64,
    pub count: u64,
    pub end: String,
    pub verdict: Verdict,
}

/// The titles of the lists of stores.
pub const RECOVERY: &str = "recovery stores";
pub const UPGRADE: &str = "upgrade stores";

pub fn parse_list(title: &str, lines: &[&str]) -> Result<Vec<Row>, String> {
    match lines {
        [first, list @ ..] if *first == title => rows(list, STORES, "  none"),
        _ => Err(format!("no {title}: {lines:?}")),
    }
}

pub fn parse_told(title: &str, text: &str) -> Result<Told, String> {
    let lines: Vec<&str> = text.lines().collect();
    let [list @ .., made, condition] = &lines[..] else {
        return Err(format!("too few lines: {text:?}"));
    };
    let end = made.split_once(" stores made: ").ok_or_else(|| format!("no count of stores: {made:?}"))?;
    Ok(Told {
        list: parse_list(title, list)?,
        made: between(&format!(":{made}"), ":", " of ")?,
        count: between(made, " of ", " stores made: ")?,
        end: end.1.to_string(),
        verdict: verdict(condition)?,
    })
}

/// What a store of recovery's list does, or the one of an upgrade.
fn meaning(card: &Card, store: &Store) -> String {
    let at = match store {
        Store::Entry(at, _) => at,
        Store::Word(0, bytes) => return format!("version {}", bytes[VERSION_AT]),
        _ => return format!("Tail to Head, {}", card.head),
    };
    let index = (at - card.geometry.entry_at(0)) / 16;
    match undone(card.version, card.entries[index].unwrap()) {
        Some(after) => format!("entry {index} back to data block {}", after.current),
        None => format!("entry {index} zeroed"),
    }
}

/// The rows that the list must have: a number, the place, the bytes, what it does.
pub fn list_rows(card: &[u8], list: &[Store]) -> Vec<Row> {
    let opened = Card::open(card, None).unwrap();
    let row = |(index, store): (usize, &Store)| {
        let (_, at, bytes) = store.unit();
        words(&format!("{} {at} {} {}", index + 1, groups(bytes).join(" "), meaning(&opened, store)))
    };
    list.iter().enumerate().map(row).collect()
}

/// What `preview` prints of a save: how many blocks it has, a row for each, and the count of its stores.
#[derive(Clone, Debug, PartialEq, Eq)]
pub struct Previewed {
    pub blocks: u64,
    pub rows: Vec<Row>,
    pub stores: u64,
}

pub fn parse_previewed(text: &str) -> Result<Previewed, String> {
    let lines: Vec<&str> = text.lines().collect();
    let [title, list @ .., stores] = &lines[..] else {
        return Err(format!("too few lines: {text:?}"));
    };
    let blocks = title.strip_prefix("save of ").and_then(|rest| rest.split_once(" block")).map(|(count, _)| count);
    Ok(Previewed {
        blocks: number(blocks, title)?,
        rows: rows(list, SAVE, "")?,
        stores: number(stores.strip_prefix("stores "), stores)?,
    })
}

/// What `preview` must say of a save of these numbers: each block's place is told by the entry with which the model
/// logs it.
pub fn previewed_of(model: &Model, card: &[u8], numbers: &[u64]) -> Result<Previewed, u32> {
    let geometry = Geometry::from_header(card)?;
    let list = model.commit_list(card, numbers, &vec![0; numbers.len() * geometry.block()])?;
    let logged = |store: &Store| match store {
        Store::Entry(at, bytes) => Some((*at, read_entry(card[VERSION_AT], bytes, geometry.data_blocks, geometry.disk_blocks))),
        _ => None,
    };
    let row = |(at, entry): (usize, Result<Option<Entry>, u32>)| {
        let entry = entry.unwrap().unwrap();
        let replaced = entry.previous.map_or("none".to_string(), |block| block.to_string());
        let place = (at - geometry.entry_at(0)) / 16;
        vec![entry.number.to_string(), entry.current.to_string(), place.to_string(), replaced]
    };
    let rows = list.iter().filter_map(logged).take(numbers.len()).map(row).collect();
    Ok(Previewed { blocks: numbers.len() as u64, rows, stores: list.len() as u64 })
}

#[cfg(test)]
mod tests {
    use super::*;

    fn card() -> Vec<u8> {
        card_by(&Model::default())
    }

    fn card_by(model: &Model) -> Vec<u8> {
        let mut card = vec![0; 2304];
        model.format(9, 8, 4, 16, &mut card);
        let mut map = model.fresh_map(&card);
        model.commit(&mut card, &mut map, &[3], &[7; 512], &[0; 64], u64::MAX);
        model.commit(&mut card, &mut map, &[5, 3], &[9; 1024], &[0; 64], 67 + 65);
        card
    }

    const SHOWN: &str = "\
card.img: 2,304 bytes

header
  length         64
  version         2
  k               9
  B             512
  S               8
  N               4
  D              16
  Head            2
  Tail            1

window
  slot  number
     1       5

entries: V in use, P previous modified, M modified, R log role
  place  bytes                               flags    number  previous  current  undoable   settled
      0  8700000000000003 00000000 00000002  V P M R       3         0        2       yes         0
      1  8300000000000005 FFFFFFFF 00000001  V - M R       5     FRESH        1       yes      none

free data blocks
    3

condition  unsettled, undoable entries 2, slots in the window 1
";

    #[test]
    fn a_card_is_shown_as_it_is() {
        same_shown(SHOWN, &shown_of(&Model::default(), &card())).unwrap();
    }

    /// Every number and every word behind a name counts: each is changed once.
    #[test]
    fn a_wrong_report_is_seen() {
        let wanted = shown_of(&Model::default(), &card());
        for (at, mark) in SHOWN.char_indices().filter(|(_, mark)| mark.is_ascii_digit()) {
            let other = if mark == '7' { "8" } else { "7" };
            let wrong = format!("{}{other}{}", &SHOWN[..at], &SHOWN[at + 1..]);
            assert!(same_shown(&wrong, &wanted).is_err(), "{wrong}");
        }
        let changes = [
            ("card.img", "disk.img"),
            (": 2,304", ": 2304"),
            ("yes", "no"),
            ("none", "0"),
            ("FRESH", "0"),
            ("unsettled", "settled"),
            (" R  ", " -  "),
            ("V P M R", "V - M R"),
            ("V - M R", "V P M R"),
            ("    3\n", " none\n"),
            ("undoable ", "settled  "),
            ("window\n", "entries: V in use, P previous modified, M modified, R log role\n"),
        ];
        for (right, other) in changes {
            assert!(SHOWN.contains(right));
            assert!(same_shown(&SHOWN.replacen(right, other, 1), &wanted).is_err(), "{right}");
        }
        for line in SHOWN.lines().filter(|line| line.starts_with("  ")) {
            assert!(same_shown(&SHOWN.replace(&format!("{line}\n"), ""), &wanted).is_err(), "{line}");
            assert!(same_shown(&SHOWN.replace(line, &format!("{line}\n{line}")), &wanted).is_err(), "{line}");
        }
    }

    /// The report of a refused card: without free data blocks, its last line the refusal.
    fn refused(report: &str, line: &str) -> String {
        format!("{}{line}\n", &report[..report.find("free data blocks").unwrap()])
    }

    const SLOT: &str = "refused with 4: the number in slot 1, in the window, is not below D. Cause: a damaged card.";

    /// However wide a number is, it stands apart from the one before.
    #[test]
    fn columns_of_a_damaged_card_stand_apart() {
        let mut damaged = card();
        damaged[136..144].fill(0xFF);
        let report = refused(&SHOWN.replace("     1       5\n", "     1 18446744073709551615\n"), SLOT);
        let wanted = shown_of(&Model::default(), &damaged);
        same_shown(&report, &wanted).unwrap();
        for (right, other) in [
            ("     1 1844", "     11844"),
            ("09551615\n", "09551616\n"),
            ("     FRESH", "FRESH"),
            ("with 4", "with 5"),
            ("a damaged card.", "the fitter."),
        ] {
            assert!(report.contains(right));
            assert!(same_shown(&report.replacen(right, other, 1), &wanted).is_err(), "{right}");
        }
    }

    /// What cannot be told of an entry is a dash in each of its columns.
    #[test]
    fn a_damaged_entry_has_dashes() {
        let mut damaged = card();
        damaged[192] = 0x81;
        damaged[193..200].fill(0xFF);
        let report = SHOWN.replace(
            "8700000000000003 00000000 00000002  V P M R       3         0        2       yes         0",
            "81FFFFFFFFFFFFFF 00000000 00000002  V - - R 72057594037927935         0        2         -         -",
        );
        let flags = "refused with 5: the flag byte of entry 0 is not 80, 82, 83, 86 or 87. Cause: a damaged card.";
        let report = refused(&report, flags);
        let wanted = shown_of(&Model::default(), &damaged);
        same_shown(&report, &wanted).unwrap();
        for other in ["\n", "         -\n", "        no         2\n", "         - -         -\n"] {
            assert!(same_shown(&report.replace("         -         -\n", other), &wanted).is_err(), "{other}");
        }
    }

    /// Of an old card all is shown by its own rules, and the last line says what is to be done with it.
    #[test]
    fn an_old_card_is_shown() {
        let (model, old) = (Model::default(), card_by(&Model::old()));
        let report = SHOWN
            .replace("version         2", "version         1")
            .replace("8700000000000003 00000000 00000002  V P M R", "8300000000000003 00000000 00000002  V - M R")
            .replace("condition  unsettled, undoable entries 2, slots in the window 1", OLD_UNSETTLED);
        let wanted = shown_of(&model, &old);
        same_shown(&report, &wanted).unwrap();
        for (right, other) in [
            ("version         1", "version         2"),
            ("V - M R       3", "V P M R       3"),
            (OLD_UNSETTLED, OLD_SETTLED),
            (OLD_UNSETTLED, "refused with 1: the version is 1. Cause: the fitter."),
            (OLD_UNSETTLED, "condition  version 1, unsettled: to be recovered, then upgraded"),
            (OLD_UNSETTLED, "condition  unsettled, undoable entries 2, slots in the window 1"),
        ] {
            assert!(report.contains(right));
            assert!(same_shown(&report.replacen(right, other, 1), &wanted).is_err(), "{other}");
        }
        let mut recovered = old.clone();
        model.recover(&mut recovered, &mut model.fresh_map(&old), u64::MAX);
        assert_eq!(verdict_of(&model, &recovered), verdict(OLD_SETTLED).unwrap());
        assert_ne!(verdict(OLD_SETTLED), verdict(OLD_UNSETTLED));
        // P, which is none of its flags, is shown as it stands
        let mut damaged = old;
        damaged[192] = 0x86;
        let row = &shown_of(&model, &damaged).entries.unwrap()[0];
        assert_eq!(row[4..8], ["V", "P", "M", "-"]);
        assert_eq!(row[row.len() - 2..], ["-", "-"]);
        assert_eq!(verdict_of(&model, &damaged), Verdict::Refused(5));
    }

    /// A file that no card is as long as: no window, nothing of an entry that needs one.
    #[test]
    fn a_file_longer_than_any_card_is_not_measured() {
        let mut long = card();
        long.resize(LARGEST + 1, 0);
        let report = SHOWN
            .replace("card.img: 2,304 bytes", "card.img: more than 528,512 bytes")
            .replace("window\n  slot  number\n     1       5\n\n", "")
            .replace("       yes         0\n", "         -         -\n")
            .replace("       yes      none\n", "         -         -\n");
        let asks = "refused with 2: the header asks for a card of 2,304 bytes. Cause: the fitter.";
        let report = refused(&report, asks);
        let wanted = shown_of(&Model::default(), &long);
        same_shown(&report, &wanted).unwrap();
        assert!(same_shown(&report.replace("more than 528,512", "528,513"), &wanted).is_err());
        long.push(0);
        assert_eq!(shown_of(&Model::default(), &long), wanted);
    }

    #[test]
    fn lengths_are_told() {
        let told = |length: usize| {
            let mut card = card();
            card.resize(length, 0);
            (length_line(&card).unwrap_or_default(), asked_line(&card).unwrap_or_default())
        };
        let asks = |length: &str| format!("card.img: {length} bytes, and its header asks for 2,304\n");
        let long = "card.img: longer than the largest card, which has 528,512 bytes\n";
        assert_eq!(told(0), ("card.img: 0 bytes, and the smallest card has 2,304\n".to_string(), String::new()));
        assert_eq!(told(2303).0, "card.img: 2,303 bytes, and the smallest card has 2,304\n");
        assert_eq!(told(SMALLEST), (String::new(), String::new()));
        assert_eq!(told(2305), (String::new(), asks("2,305")));
        assert_eq!(told(LARGEST), (String::new(), asks("528,512")));
        assert_eq!(told(LARGEST + 1).0, long);
        let mut no_header = card();
        no_header.push(0);
        no_header[VERSION_AT] = 3;
        assert_eq!(asked_line(&no_header), None);
    }

    #[test]
    fn counts_have_commas() {
        let told = [(0, "0"), (999, "999"), (1000, "1,000"), (65_036, "65,036"), (1_000_001, "1,000,001")];
        for (count, text) in told {
            assert_eq!(counted(count), text);
        }
    }

    /// One line, behind the right name.
    #[test]
    fn a_refusal_has_its_files_name() {
        let line = "card.img: refused with 7: the card is not settled. Cause: an earlier cut.\n";
        assert_eq!(named_refusal(line, CARD), Ok(7));
        assert!(named_refusal(line, "disk.img").is_err());
        assert!(named_refusal(&line.replace("card.img: ", ""), CARD).is_err());
        assert!(named_refusal(&format!("{line}{line}"), CARD).is_err());
        assert!(named_refusal(line.trim_end(), CARD).is_err());
        assert!(named_refusal(&line.replace("with 7", "with 6"), CARD).is_err());
    }

    #[test]
    fn a_listing_is_read_back() {
        let line =
            |place: &str| format!("{place}  41 42 00 7F 7E 20 1F FF  30 31 32 33 34 35 36 37  |AB..~ ..01234567|\n");
        let text = format!("block 3, held by the disk from byte 1,536 on\n{}{}", line("0000"), line("0010"));
        let listed = parse_listed(&text).unwrap();
        assert_eq!((listed.number, listed.on_card, listed.at, listed.bytes.len()), (3, false, 1536, 32));
        assert_eq!(listed.bytes[..9], [0x41, 0x42, 0, 0x7F, 0x7E, 0x20, 0x1F, 0xFF, 0x30]);
        for (right, wrong) in
            [("0010", "0020"), ("41 ", "43 "), ("|AB", "|AC"), (" 37 ", " "), ("held", "had"), ("~ .", "~..")]
        {
            assert!(parse_listed(&text.replacen(right, wrong, 1)).is_err(), "{right}");
        }
    }

    #[test]
    fn a_recovery_is_told() {
        let list = Model::default().recover_list(&card()).unwrap();
        let text = "\
recovery stores
  store   byte  bytes                               what
      1    192  8600000000000003 00000000 00000000  entry 0 back to data block 0
      2    208  0000000000000000 00000000 00000000  entry 1 zeroed
      3     72  0000000000000002                    Tail to Head, 2
1 of 3 stores made: cut
condition  unsettled, undoable entries 1, slots in the window 1
";
        let told = parse_told(RECOVERY, text).unwrap();
        assert_eq!(told.list, list_rows(&card(), &list));
        assert_eq!((told.made, told.count, &told.end[..]), (1, 3, "cut"));
        assert_eq!(told.verdict, Verdict::Unsettled { undoable: 1, window: 1 });
        for (right, other) in [
            ("zeroed", "back to data block 1"),
            ("0003 0000", "00030000"),
            ("0000 00000000  entry 1", "000000000000  entry 1"),
            ("0000000000000002 ", "00000000 00000002 "),
        ] {
            assert!(text.contains(right));
            assert_ne!(parse_told(RECOVERY, &text.replacen(right, other, 1)).unwrap().list, told.list, "{right}");
        }
        assert!(parse_told(RECOVERY, &text.replace("what", "")).is_err());
        assert!(parse_told(UPGRADE, text).is_err());
    }

    #[test]
    fn an_upgrade_is_told() {
        let (model, mut old) = (Model::default(), card_by(&Model::old()));
        let mut map = model.fresh_map(&old);
        model.recover(&mut old, &mut map, u64::MAX);
        let list = model.upgrade_list(&old).unwrap();
        let text = "\
upgrade stores
  store   byte  bytes                               what
      1      0  0000004002090008                    version 2
0 of 1 stores made: cut
condition  version 1, settled: to be upgraded
";
        let told = parse_told(UPGRADE, text).unwrap();
        assert_eq!(told.list, list_rows(&old, &list));
        assert_eq!((told.made, told.count, &told.end[..]), (0, 1, "cut"));
        assert_eq!(told.verdict, verdict_of(&model, &old));
        for (right, other) in [("  0000004002", "  0000004001"), ("version 2\n", "version 1\n"), ("      0  ", "      4  ")] {
            assert!(text.contains(right));
            assert_ne!(parse_told(UPGRADE, &text.replacen(right, other, 1)).unwrap().list, told.list, "{right}");
        }
        assert!(parse_told(RECOVERY, text).is_err());
    }

    /// Every number and every word counts, and the order of the rows.
    #[test]
    fn a_preview_is_told() {
        let model = Model::default();
        let mut card = card();
        let mut map = model.fresh_map(&card);
        model.recover(&mut card, &mut map, u64::MAX);
        let text = "\
save of 2 blocks
  number  data block  entry  replaces
       3           2      0         0
       9           3      2      none
stores 137
";
        let wanted = previewed_of(&model, &card, &[3, 9]).unwrap();
        assert_eq!(parse_previewed(text), Ok(wanted.clone()));
        for (at, mark) in text.char_indices().filter(|(_, mark)| mark.is_ascii_digit()) {
            let other = if mark == '7' { "8" } else { "7" };
            let wrong = format!("{}{other}{}", &text[..at], &text[at + 1..]);
            assert_ne!(parse_previewed(&wrong), Ok(wanted.clone()), "{wrong}");
        }
        let lines: Vec<&str> = text.lines().collect();
        for line in &lines {
            assert_ne!(parse_previewed(&text.replace(&format!("{line}\n"), "")), Ok(wanted.clone()), "{line}");
        }
        let swapped = [lines[0], lines[1], lines[3], lines[2], lines[4]].join("\n");
        assert_ne!(parse_previewed(&swapped), Ok(wanted.clone()));
        assert_ne!(parse_previewed(&text.replace("none", "1")), Ok(wanted));
        assert_eq!(previewed_of(&model, &card, &[3, 3]), Err(11));
        assert_eq!(previewed_of(&model, &card[..100], &[3]), Err(1));
    }

    #[test]
    fn an_empty_list_says_so() {
        let list = ["recovery stores", "  store   byte  bytes                               what", "  none"];
        assert_eq!(parse_list(RECOVERY, &list), Ok(Vec::new()));
        assert!(parse_list(RECOVERY, &list[..2]).is_err());
        assert!(parse_list(RECOVERY, &[list[0], list[2]]).is_err());
        assert_ne!(parse_list(RECOVERY, &[&list[..], &list[2..]].concat()), Ok(Vec::new()));
    }
}
