//! Prints a picture of a save as an SVG file: the card after each kind of store, and what a recovery gives from there. The
//! model makes every card and every recovery that is drawn.
//!
//!     picture > docs/save.svg

use tinca_tests::model::{window_slots, Model};
use tinca_tests::stages::{checked_stages, role, told, word, Part, Role, Stage, Version, BLOCK, SAVED, SMALL};
use tinca_tests::Geometry;

const PAPER: &str = "#ffffff";
const DARK: &str = "#1b1b1b";
const GREY: &str = "#5f6368";
const PALE: &str = "#c4c8cc";
const OLD: &str = "#c5dcf5";
const NEW: &str = "#a9dfb0";
const UNDOABLE: &str = "#ffe680";
const STORED: &str = "#d4380d";
const FINAL: &str = "#eaf7ec";
const FINAL_INK: &str = "#17692a";

const WIDTH: i32 = 1000;
const MARGIN: i32 = 12;
const TABLE: i32 = 164;
const ROW: i32 = 74;
const STRIP: i32 = 26;
const STAGE_X: i32 = MARGIN;
const RING_X: i32 = 182;
const SLOT: i32 = 20;
const ENTRY_X: i32 = 368;
const ENTRY_WIDTH: i32 = 216;
const BLOCK_X: i32 = 602;
const BLOCK_WIDTH: i32 = 46;
const READ_X: i32 = 812;

/// How a text is set.
#[derive(Clone, Copy)]
struct Ink {
    size: i32,
    bold: bool,
    colour: &'static str,
    centred: bool,
}

const PLAIN: Ink = Ink { size: 11, bold: false, colour: DARK, centred: false };
const FAINT: Ink = Ink { colour: GREY, ..PLAIN };
const STRONG: Ink = Ink { bold: true, ..PLAIN };

impl Ink {
    fn centred(self) -> Ink {
        Ink { centred: true, ..self }
    }
}

/// A rectangle: place, size, fill and border.
#[derive(Clone, Copy)]
struct Frame {
    x: i32,
    y: i32,
    width: i32,
    height: i32,
    fill: &'static str,
    border: &'static str,
    thick: bool,
    dashed: bool,
}

impl Frame {
    fn new(x: i32, y: i32, width: i32, height: i32, fill: &'static str) -> Frame {
        Frame { x, y, width, height, fill, border: "#7a8086", thick: false, dashed: false }
    }

    /// The border of what was just stored.
    fn stored(self, stored: bool) -> Frame {
        if stored {
            Frame { border: STORED, thick: true, ..self }
        } else {
            self
        }
    }
}

#[derive(Default)]
struct Page {
    body: String,
}

impl Page {
    fn add(&mut self, line: &str) {
        self.body.push_str(line);
        self.body.push('\n');
    }

    fn frame(&mut self, frame: Frame) {
        let Frame { x, y, width, height, fill, border, .. } = frame;
        let thickness = if frame.thick { "2.5" } else { "1" };
        let dashes = if frame.dashed { " stroke-dasharray=\"3 2\"" } else { "" };
        self.add(&format!(
            "<rect x=\"{x}\" y=\"{y}\" width=\"{width}\" height=\"{height}\" rx=\"2\" fill=\"{fill}\" stroke=\"{border}\" \
             stroke-width=\"{thickness}\"{dashes}/>"
        ));
    }

    fn text(&mut self, x: i32, y: i32, ink: Ink, text: &str) {
        assert!(!text.contains(['<', '>', '&']));
        let Ink { size, colour, .. } = ink;
        let weight = if ink.bold { " font-weight=\"bold\"" } else { "" };
        let anchor = if ink.centred { " text-anchor=\"middle\"" } else { "" };
        self.add(&format!("<text x=\"{x}\" y=\"{y}\" font-size=\"{size}\" fill=\"{colour}\"{weight}{anchor}>{text}</text>"));
    }

    fn rule(&mut self, y: i32, colour: &str, thickness: i32) {
        self.add(&format!(
            "<line x1=\"{MARGIN}\" y1=\"{y}\" x2=\"{}\" y2=\"{y}\" stroke=\"{colour}\" stroke-width=\"{thickness}\"/>",
            WIDTH - MARGIN
        ));
    }

    /// A small triangle with its point at x, y; `from` is where its base lies, below zero above the point.
    fn pointer(&mut self, x: i32, y: i32, from: i32, colour: &str) {
        self.add(&format!("<path d=\"M{x} {y} l-4 {from} h8 z\" fill=\"{colour}\"/>"));
    }
}

fn draw_what(page: &mut Page, y: i32, stage: &Stage) {
    let stores = match stage.last + 1 - stage.first {
        0 => "no store".to_string(),
        1 => format!("store {}", stage.last),
        _ => format!("stores {} to {}", stage.first, stage.last),
    };
    page.text(STAGE_X, y + 22, Ink { size: 12, ..STRONG }, &stage.what[0]);
    page.text(STAGE_X, y + 38, Ink { size: 12, ..PLAIN }, &stage.what[1]);
    page.text(STAGE_X, y + 56, FAINT, &stores);
}

fn draw_ring(page: &mut Page, y: i32, stage: &Stage) {
    let window = window_slots(SMALL.slots, stage.card.head, stage.card.tail);
    let slot_x = |slot: u64| RING_X + SLOT * slot as i32;
    for slot in 0..SMALL.slots {
        let inside = window.contains(&slot);
        page.frame(Frame::new(slot_x(slot), y + 27, SLOT, SLOT, if inside { UNDOABLE } else { PAPER }));
        let ink = if inside || stage.part == Some(Part::Slot(slot)) { PLAIN } else { FAINT };
        page.text(slot_x(slot) + SLOT / 2, y + 41, ink.centred(), &word(&stage.bytes, Part::Slot(slot)).to_string());
    }
    if let Some(Part::Slot(slot)) = stage.part {
        page.frame(Frame::new(slot_x(slot), y + 27, SLOT, SLOT, "none").stored(true));
    }
    let ends = [(Part::Head, "Head", stage.card.head, 16, 25, -6), (Part::Tail, "Tail", stage.card.tail, 65, 49, 6)];
    for (part, name, at, text_y, point_y, from) in ends {
        let stored = stage.part == Some(part);
        let ink = if stored { Ink { colour: STORED, ..STRONG } } else { PLAIN };
        let x = slot_x(at) + SLOT / 2;
        page.text(x, y + text_y, ink.centred(), name);
        page.pointer(x, y + point_y, from, ink.colour);
    }
}

/// Where the columns of an entry have their middle.
const ENTRY_COLUMNS: [i32; 4] = [33, 88, 138, 190];

fn draw_entries(page: &mut Page, y: i32, stage: &Stage) {
    for (index, entry) in stage.card.entries.iter().enumerate() {
        let top = y + 7 + 15 * index as i32;
        let undoable = entry.is_some_and(|entry| stage.card.undoable(&entry));
        let fill = if undoable { UNDOABLE } else { PAPER };
        page.text(ENTRY_X - 7, top + 11, FAINT.centred(), &index.to_string());
        page.frame(Frame { border: PALE, ..Frame::new(ENTRY_X, top, ENTRY_WIDTH, 15, fill) });
        let Some(entry) = entry else {
            page.text(ENTRY_X + ENTRY_COLUMNS[0], top + 11, FAINT.centred(), "unused");
            continue;
        };
        let flags = stage.bytes[SMALL.entry_at(index)];
        let letter = |bit: u8, letter| if flags & bit == 0 { "-" } else { letter };
        let letters = [letter(0x80, "V"), letter(0x04, "P"), letter(0x02, "M"), letter(0x01, "R")];
        let flags = format!("{flags:02X} {}", letters.join(" "));
        let previous = entry.previous.map_or("FRESH".to_string(), |block| block.to_string());
        let (previous_ink, current_ink) = if undoable { (STRONG, FAINT) } else { (FAINT, STRONG) };
        let texts = [flags, entry.number.to_string(), previous, entry.current.to_string()];
        for ((text, x), ink) in texts.iter().zip(ENTRY_COLUMNS).zip([PLAIN, PLAIN, previous_ink, current_ink]) {
            page.text(ENTRY_X + x, top + 11, ink.centred(), text);
        }
    }
    if let Some(Part::Entry(index)) = stage.part {
        page.frame(Frame::new(ENTRY_X, y + 7 + 15 * index as i32, ENTRY_WIDTH, 15, "none").stored(true));
    }
}

fn draw_blocks(page: &mut Page, y: i32, stage: &Stage) {
    for block in 0..SMALL.data_blocks as u32 {
        let x = BLOCK_X + (BLOCK_WIDTH + 3) * block as i32;
        let role = role(&stage.card, block);
        let settled = role == Role::Settled;
        let (name, fill) = match told(&stage.bytes[Part::Block(block).range()]) {
            None => (String::new(), PAPER),
            Some((Version::New, number)) => (format!("{number} new"), NEW),
            Some((_, number)) if SAVED.contains(&number) => (format!("{number} old"), OLD),
            Some((_, number)) => (number.to_string(), OLD),
        };
        let stored = stage.part == Some(Part::Block(block));
        let dashed = !settled && !stored;
        page.frame(Frame { dashed, ..Frame::new(x, y + 10, BLOCK_WIDTH, 34, fill) }.stored(stored));
        page.text(x + BLOCK_WIDTH / 2, y + 31, Ink { bold: settled, ..PLAIN }.centred(), &name);
        let (name, ink) = match role {
            Role::Settled => ("settled", STRONG),
            Role::Current => ("current", PLAIN),
            Role::Free => ("free", FAINT),
        };
        page.text(x + BLOCK_WIDTH / 2, y + 59, ink.centred(), name);
    }
}

fn draw_recovery(page: &mut Page, y: i32, stage: &Stage) {
    let count = stage.undoing.len();
    let mut lines = vec![format!("{count} store{}", if count == 1 { "" } else { "s" })];
    if let Some((first, others)) = stage.undoing.split_first() {
        lines[0] += &format!(": {first}{}", if others.is_empty() { "" } else { "," });
        lines.push(others.join(", "));
    }
    for (place, line) in (0..).zip(lines) {
        page.text(READ_X, y + 20 + 14 * place, PLAIN, &line);
    }
    for (place, reading) in (0..).zip(&stage.read) {
        let x = READ_X + 90 * place;
        let new = reading.version == Version::New;
        let (age, fill, colour) = if new { ("new", FINAL_INK, PAPER) } else { ("old", OLD, DARK) };
        let from = if reading.on_card { "card" } else { "disk" };
        page.frame(Frame::new(x, y + 42, 86, 21, fill));
        page.text(x + 43, y + 57, Ink { colour, ..STRONG }.centred(), &format!("{} {age}, {from}", reading.number));
    }
}

fn draw_stage(page: &mut Page, y: i32, stage: &Stage) {
    draw_what(page, y, stage);
    draw_ring(page, y, stage);
    draw_entries(page, y, stage);
    draw_blocks(page, y, stage);
    draw_recovery(page, y, stage);
}

fn draw_legend(page: &mut Page, y: i32) {
    let frames = [
        (Frame::new(0, 0, 0, 0, UNDOABLE), "slot in the window, undoable entry", 256),
        (Frame::new(0, 0, 0, 0, OLD), "version before the save", 190),
        (Frame::new(0, 0, 0, 0, NEW), "version of this save", 170),
        (Frame::new(0, 0, 0, 0, PAPER).stored(true), "just stored", 118),
        (Frame { dashed: true, ..Frame::new(0, 0, 0, 0, PAPER) }, "not settled", 118),
    ];
    let mut x = MARGIN;
    for (frame, text, width) in frames {
        page.frame(Frame { x: x + 1, y: y - 11, width: 18, height: 14, ..frame });
        page.text(x + 25, y, PLAIN, text);
        x += width;
    }
    page.text(x, y, STRONG, "bold: settled");
}

fn draw_heads(page: &mut Page, y: i32) {
    let head = Ink { size: 12, ..STRONG };
    page.text(STAGE_X, y, head, "store just made");
    page.text(RING_X, y, head, "ring");
    page.text(ENTRY_X, y, head, "entries");
    page.text(BLOCK_X, y, head, "data blocks");
    page.text(READ_X, y, head, "a recovery from here");
    for slot in 0..SMALL.slots {
        page.text(RING_X + SLOT / 2 + SLOT * slot as i32, y + 16, FAINT.centred(), &slot.to_string());
    }
    for (x, name) in ENTRY_COLUMNS.iter().zip(["flags", "number", "previous", "current"]) {
        page.text(ENTRY_X + x, y + 16, FAINT.centred(), name);
    }
    for block in 0..SMALL.data_blocks as i32 {
        page.text(BLOCK_X + BLOCK_WIDTH / 2 + (BLOCK_WIDTH + 3) * block, y + 16, FAINT.centred(), &block.to_string());
    }
    page.text(READ_X, y + 16, FAINT, "its stores, then what is read");
}

/// Why a cut leaves the old blocks.
const REASON: [&str; 3] = [
    "Each row is the card after the store at its left. New bytes go into free data blocks; the entry names the new one as current, \
     the old as previous (FRESH: none).",
    "An entry is undoable while it has R or its number is in the window, the slots from Tail up to Head: a recovery sets it back \
     to previous, or zeroes it if FRESH.",
    "R makes it undoable before Head passes its slot, the window after R is cleared. So one store, Tail, ends this for all entries \
     of the save; then current is settled.",
];

fn draw_top(page: &mut Page, count: u64) {
    let [a, b] = SAVED;
    let title = format!("A save of blocks {a} and {b} in {count} stores: after a cut before the last one a recovery gives the old blocks");
    page.text(MARGIN, 28, Ink { size: 17, ..STRONG }, &title);
    for (line, text) in (0..).zip(REASON) {
        page.text(MARGIN, 50 + 17 * line, Ink { size: 12, ..PLAIN }, text);
    }
    draw_legend(page, 115);
    draw_heads(page, TABLE - 18);
}

/// What sets the last row off from those above it.
fn draw_strip(page: &mut Page, y: i32, count: u64) {
    let [a, b] = SAVED;
    page.frame(Frame { border: FINAL, ..Frame::new(MARGIN - 4, y + 1, WIDTH - 2 * MARGIN + 8, STRIP + ROW - 2, FINAL) });
    page.rule(y, FINAL_INK, 3);
    let text = format!(
        "Up to here a recovery gives the old blocks {a} and {b}. Store {count} makes the new ones settled: no entry is undoable any more."
    );
    page.text(STAGE_X, y + 20, Ink { size: 12, colour: FINAL_INK, ..STRONG }, &text);
}

fn draw_foot(page: &mut Page, y: i32, count: u64) {
    let Geometry { k, slots, data_blocks, disk_blocks } = SMALL;
    let foot = [
        format!(
            "A cut after any number of stores from 0 to {}: all {disk_blocks} disk blocks are read as before the save.",
            count - 1
        ),
        format!("A cut among the {} words of a block: ring, entries and recovery are as in the row above.", BLOCK / 8),
        "Data blocks: settled, what is read after a recovery; current, named so by an undoable entry; free, neither.".to_string(),
        "A recovery does not look at the slots outside the window, whatever they hold.".to_string(),
        format!(
            "Flags: V in use, P previous version modified (set back, an entry has M if it has P), M modified, R log role. The card: \
             k {k} (B {BLOCK}), S {slots}, N {data_blocks}, D {disk_blocks}."
        ),
    ];
    for (line, text) in (0..).zip(foot) {
        page.text(STAGE_X, y + 16 * line, PLAIN, &text);
    }
}

fn picture(stages: &[Stage]) -> String {
    let mut page = Page::default();
    let (last, earlier) = stages.split_last().unwrap();
    draw_top(&mut page, last.last);
    let mut y = TABLE + 6;
    for stage in earlier {
        page.rule(y, PALE, 1);
        draw_stage(&mut page, y, stage);
        y += ROW;
    }
    draw_strip(&mut page, y, last.last);
    draw_stage(&mut page, y + STRIP, last);
    y += STRIP + ROW;
    page.rule(y, FINAL_INK, 1);
    draw_foot(&mut page, y + 20, last.last);
    whole(&page, y + 96, last.last)
}

/// The file: its head, a white ground under all, the body.
fn whole(page: &Page, height: i32, count: u64) -> String {
    let [a, b] = SAVED;
    let mut file = Page::default();
    file.add(&format!(
        "<svg xmlns=\"http://www.w3.org/2000/svg\" width=\"{WIDTH}\" height=\"{height}\" viewBox=\"0 0 {WIDTH} {height}\" role=\"img\" \
         aria-labelledby=\"title desc\" font-family=\"Helvetica, Arial, 'DejaVu Sans', sans-serif\">"
    ));
    file.add(&format!("<title id=\"title\">A save of blocks {a} and {b}, store by store</title>"));
    file.add(&format!(
        "<desc id=\"desc\">One row for each kind of store: the ring, the entries and the data blocks after it, and what a recovery from \
         there gives. After fewer than {count} stores blocks {a} and {b} are read as before the save, after all {count} as saved.</desc>"
    ));
    file.add(&format!("<rect width=\"{WIDTH}\" height=\"{height}\" fill=\"{PAPER}\"/>"));
    file.body.push_str(&page.body);
    file.add("</svg>");
    file.body
}

fn main() {
    print!("{}", picture(&checked_stages(&Model::default())));
}
