//! The service desk: runs the service program, with the shim loaded, on cards that the model makes, and compares with
//! the model what it stores and in which order, what it leaves in the file, and what it prints.
//!
//!     desk PROGRAM SHIM [--seed S] [--wrong]
//!
//! With `--wrong` it holds the program to wrong models, and the model to runs that were tampered with as a wrong
//! program would have them: each must be reported.

use std::path::{Path, PathBuf};
use std::process::{Command, Stdio};
use std::time::Instant;
use tinca_tests::drive::{damage, drawn, Snapshot};
use tinca_tests::histories::history;
use tinca_tests::model::{Call, Card, Model, Slip, Store, NOW, OLD, VERSION_AT};
use tinca_tests::random::Random;
use tinca_tests::scratch::{option, Folder};
use tinca_tests::shown::{self, *};
use tinca_tests::stores_log::{in_full, same_log, stopped, Stop, CARD};
use tinca_tests::{Calls, Geometry, Place};

const DISK: &str = "disk.img";
/// Lists up to this length are stopped at each of their stores.
const SHORT_LIST: usize = 4;
/// What the program can refuse with, and an upgrade.
const REFUSALS: [usize; 11] = [1, 2, 3, 4, 5, 6, 7, 8, 10, 11, 14];
const OF_UPGRADE: [usize; 6] = [1, 2, 4, 5, 6, 7];

/// A command that makes stores: its name, the title of its list, and the list by the model.
#[derive(Clone, Copy)]
struct Storing {
    name: &'static str,
    title: &'static str,
    list: fn(&Model, &[u8]) -> Result<Vec<Store>, u32>,
}

const RECOVER: Storing = Storing { name: "recover", title: RECOVERY, list: Model::recover_list };
const UPGRADE: Storing = Storing { name: "upgrade", title: shown::UPGRADE, list: Model::upgrade_list };

/// What a run of the program came to.
#[derive(Default)]
struct Ran {
    out: String,
    err: String,
    log: Vec<String>,
    /// The card's file; none where there is no such file.
    file: Option<Vec<u8>>,
}

/// A command, what goes wrong with it, and how its run then looks.
type Tamper = (&'static str, &'static str, fn(&mut Ran));

#[derive(Default)]
struct Tally {
    cards: u64,
    runs: u64,
    stores: u64,
    longest: usize,
    /// Cards of version 1, and those of them that were upgraded.
    old: u64,
    upgrades: u64,
    not_upgraded: [u64; 15],
    stops: [u64; Stop::KINDS.len()],
    refused: [u64; 15],
    /// Files shorter and longer than any card, and such as their header does not ask for.
    lengths: [u64; 3],
    shown: u64,
    on_card: u64,
    on_disk: u64,
    /// Saves that were foreseen, and their blocks: on the card already, and new.
    previews: u64,
    replaced: u64,
    added: u64,
    formats: u64,
}

impl Tally {
    fn line(&self) -> String {
        let refused = REFUSALS.map(|number| format!("{number}:{}", self.refused[number]));
        format!(
            "{} cards, {} of them of version 1, {} runs: {} stores made in their order, the longest list {}; {} upgrades; {} recoveries \
             and upgrades stopped or held up and run again; {} cards shown; blocks {} on card, {} on disk; {} saves foreseen, of {} blocks \
             on card and {} new; {} geometries formatted; {} too short, {} too long, {} not as long as asked; refused {}",
            self.cards,
            self.old,
            self.runs,
            self.stores,
            self.longest,
            self.upgrades,
            self.stops.iter().sum::<u64>(),
            self.shown,
            self.on_card,
            self.on_disk,
            self.previews,
            self.replaced,
            self.added,
            self.formats,
            self.lengths[0],
            self.lengths[1],
            self.lengths[2],
            refused.join(" ")
        )
    }

    /// Nothing that the desk is there to see may be missing.
    fn complete(&self) -> Result<(), String> {
        let refusals = REFUSALS.iter().all(|number| self.refused[*number] > 0)
            && OF_UPGRADE.iter().all(|number| self.not_upgraded[*number] > 0);
        let rest = [self.stores, self.shown, self.on_card, self.on_disk, self.previews, self.replaced, self.added];
        let rest = rest.iter().chain([&self.formats, &self.old, &self.upgrades]).all(|count| *count > 0);
        let kinds = self.stops.iter().chain(&self.lengths).all(|count| *count > 0);
        if refusals && rest && kinds && self.longest > 20 {
            Ok(())
        } else {
            Err(format!("something was not reached: {}", self.line()))
        }
    }
}

struct Desk {
    program: PathBuf,
    shim: PathBuf,
    folder: Folder,
    model: Model,
    tamper: Option<Tamper>,
    tally: Tally,
}

fn text(error: std::io::Error) -> String {
    error.to_string()
}

fn equal<T: PartialEq + std::fmt::Debug>(what: &str, found: T, wanted: T) -> Result<(), String> {
    if found == wanted {
        Ok(())
    } else {
        Err(format!("{what}: {found:?}, not {wanted:?}"))
    }
}

/// The bytes after these stores.
fn after(card: &[u8], list: &[Store]) -> Vec<u8> {
    let mut card = card.to_vec();
    for store in list {
        let (_, at, bytes) = store.unit();
        card[at..at + bytes.len()].copy_from_slice(bytes);
    }
    card
}

fn same_file(found: &Option<Vec<u8>>, wanted: &[u8]) -> Result<(), String> {
    let Some(found) = found else { return Err("the card's file is gone".to_string()) };
    equal("the file's length", found.len(), wanted.len())?;
    match (0..found.len()).find(|at| found[*at] != wanted[*at]) {
        Some(at) => Err(format!("byte {at} of the file is {:02X}, not {:02X}", found[at], wanted[at])),
        None => Ok(()),
    }
}

/// The bytes that a stop leaves: whole stores, and half of one where it went in part and was not made again.
fn left_by(card: &[u8], list: &[Store], stop: Stop) -> Vec<u8> {
    let mut left = after(card, &list[..stop.in_file(list.len())]);
    if let Some(j) = stop.half_in_file() {
        let (_, at, bytes) = list[j - 1].unit();
        let half = bytes.len() / 2;
        left[at..at + half].copy_from_slice(&bytes[..half]);
    }
    left
}

impl Desk {
    fn put(&self, name: &str, bytes: &[u8]) -> Result<(), String> {
        std::fs::write(self.folder.0.join(name), bytes).map_err(text)
    }

    fn log(&self) -> PathBuf {
        self.folder.0.join("log")
    }

    /// No file may appear beside card, disk and log.
    fn nothing_else(&self) -> Result<(), String> {
        for file in std::fs::read_dir(&self.folder.0).map_err(text)? {
            let name = file.map_err(text)?.file_name();
            if ![CARD, DISK, "log"].iter().any(|known| name == *known) {
                return Err(format!("a file that should not be there: {name:?}"));
            }
        }
        Ok(())
    }

    /// Runs the program in the folder, the shim told by `variables`.
    fn run(&mut self, words: &[&str], variables: &[(&str, String)]) -> Result<Ran, String> {
        let _ = std::fs::remove_file(self.log());
        let mut command = Command::new(&self.program);
        command.args(words).current_dir(&self.folder.0).stdin(Stdio::null());
        command.env("LD_PRELOAD", &self.shim).env("SHIM_LOG", self.log());
        command.envs(variables.iter().map(|(name, value)| (name, value)));
        let output = command.output().map_err(|error| format!("{}: {error}", self.program.display()))?;
        if !output.status.success() {
            return Err(format!("{words:?} ended with {}", output.status));
        }
        self.nothing_else()?;
        let log = std::fs::read_to_string(self.log()).unwrap_or_default();
        let mut ran = Ran {
            out: String::from_utf8(output.stdout).map_err(|error| error.to_string())?,
            err: String::from_utf8(output.stderr).map_err(|error| error.to_string())?,
            log: log.lines().map(|line| line.to_string()).collect(),
            file: std::fs::read(self.folder.0.join(CARD)).ok(),
        };
        self.tally.runs += 1;
        if let Some((_, _, tamper)) = self.tamper.filter(|(command, ..)| *command == words[0]) {
            tamper(&mut ran);
        }
        Ok(ran)
    }

    fn told(&self, before: &[u8], list: &[Store], made: usize, end: &str, file: &[u8]) -> Told {
        let verdict = verdict_of(&self.model, file);
        Told {
            list: list_rows(before, list),
            made: made as u64,
            count: list.len() as u64,
            end: end.to_string(),
            verdict,
        }
    }

    /// A recovery or an upgrade of the card that now is in the file: exactly the first stores, as many as the allowance;
    /// in full without one.
    fn stores(&mut self, by: Storing, card: &[u8], list: &[Store], allowance: Option<usize>) -> Result<(), String> {
        let words = [CARD.to_string(), allowance.map_or(String::new(), |allowance| allowance.to_string())];
        let words: Vec<&str> = words.iter().map(|word| &word[..]).filter(|word| !word.is_empty()).collect();
        let ran = self.run(&[&[by.name], &words[..]].concat(), &[])?;
        let made = allowance.unwrap_or(usize::MAX).min(list.len());
        same_log(&ran.log, &in_full(&list[..made]))?;
        let left = after(card, &list[..made]);
        same_file(&ran.file, &left)?;
        let end = if made < list.len() { "cut" } else { "done" };
        equal(by.name, parse_told(by.title, &ran.out)?, self.told(card, list, made, end, &left))?;
        self.tally.stores += made as u64;
        self.tally.upgrades += u64::from(by.name == UPGRADE.name && made > 0);
        equal("standard error", &ran.err[..], "")
    }

    /// The same in full, or the refusal.
    fn stores_or_refuses(&mut self, by: Storing, card: &[u8]) -> Result<(), String> {
        match (by.list)(&self.model, card) {
            Ok(list) => self.stores(by, card, &list, None),
            Err(number) => self.refuses(&[by.name, CARD], card, number),
        }
    }

    /// What the program says where it was stopped: nothing after the list where it ended, that it failed where a call
    /// failed, and as ever where it went on.
    fn said(&self, by: Storing, card: &[u8], list: &[Store], stop: Stop, ran: &Ran) -> Result<(), String> {
        if stop.ends() {
            let lines: Vec<&str> = ran.out.lines().collect();
            equal("list", parse_list(by.title, &lines)?, list_rows(card, list))?;
            return equal("standard error", &ran.err[..], "");
        }
        let (end, err) = if stop.goes_on() { ("done", "") } else { ("failed", NOT_WRITTEN) };
        let file = left_by(card, list, stop);
        equal(by.name, parse_told(by.title, &ran.out)?, self.told(card, list, stop.durable(list.len()), end, &file))?;
        equal("standard error", &ran.err[..], err)
    }

    /// A recovery that is stopped, and a second one that finishes: together they make each store once. After one that
    /// went on, the second has nothing to do. An upgrade that was stopped is made again, or is refused where its store
    /// was made.
    fn stops(&mut self, by: Storing, card: &[u8], list: &[Store], stop: Stop) -> Result<(), String> {
        self.put(CARD, card)?;
        let ran = self.run(&[by.name, CARD], &stop.variables())?;
        same_log(&ran.log, &stopped(list, stop))?;
        let left = left_by(card, list, stop);
        same_file(&ran.file, &left)?;
        self.said(by, card, list, stop, &ran)?;
        let kind =
            Stop::KINDS.iter().position(|kind| std::mem::discriminant(&kind(1)) == std::mem::discriminant(&stop));
        self.tally.stops[kind.unwrap()] += 1;
        if stop.half_in_file().is_none() && by.name == RECOVER.name {
            return self.stores(by, &left, &list[stop.in_file(list.len())..], None);
        }
        // a unit of which half was made is no unit any more: what is left to do is then the model's to say
        self.stores_or_refuses(by, &left)
    }

    /// A run that was refused: one line on standard error, behind the name of the file that it is about; no store.
    fn refused(&mut self, ran: &Ran, number: u32) -> Result<(), String> {
        same_log(&ran.log, &[])?;
        equal("standard output", &ran.out[..], "")?;
        let name = if number == 3 { DISK } else { CARD };
        self.tally.refused[number as usize] += 1;
        equal("refusal", named_refusal(&ran.err, name)?, number)
    }

    /// A command that is refused, or whose card's file has no card's length: no byte changed.
    fn refuses(&mut self, words: &[&str], card: &[u8], number: u32) -> Result<(), String> {
        let ran = self.run(words, &[])?;
        same_file(&ran.file, card)?;
        let Some(line) = length_line(card) else {
            self.tally.not_upgraded[number as usize] += u64::from(words[0] == UPGRADE.name);
            return self.refused(&ran, number);
        };
        same_log(&ran.log, &[])?;
        equal("standard output", &ran.out[..], "")?;
        equal("standard error", &ran.err[..], &line)
    }

    fn shows(&mut self, card: &[u8]) -> Result<(), String> {
        self.put(CARD, card)?;
        let ran = self.run(&["show", CARD], &[])?;
        same_log(&ran.log, &[])?;
        same_file(&ran.file, card)?;
        let line = length_line(card).or_else(|| asked_line(card)).unwrap_or_default();
        equal("standard error", &ran.err, &line)?;
        self.tally.shown += 1;
        self.tally.lengths[0] += (card.len() < SMALLEST) as u64;
        self.tally.lengths[1] += (card.len() > LARGEST) as u64;
        self.tally.lengths[2] += line.contains("asks for") as u64;
        same_shown(&ran.out, &shown_of(&self.model, card))
    }

    /// Block `number`, of the card that now is in the file, over the disk that is there.
    fn lists(&mut self, at: &Snapshot, number: u64) -> Result<(), String> {
        let (word, place) = (number.to_string(), self.model.look(&at.card, &at.disk, number));
        let words = ["block", CARD, DISK, &word];
        let (on_card, from, bytes) = match place {
            Place::Card(from, length) => (true, from, &at.card[from as usize..(from + length) as usize]),
            Place::Disk(from, length) => (false, from, &at.disk[from as usize..(from + length) as usize]),
            Place::Refused(refusal) => return self.refuses(&words, &at.card, refusal),
            Place::Malformed(..) => unreachable!("the model gives no such answer"),
        };
        let ran = self.run(&words, &[])?;
        same_log(&ran.log, &[])?;
        same_file(&ran.file, &at.card)?;
        self.tally.on_card += on_card as u64;
        self.tally.on_disk += !on_card as u64;
        let wanted = Listed { number, on_card, at: from, bytes: bytes.to_vec() };
        equal("block", parse_listed(&ran.out)?, wanted)?;
        equal("standard error", &ran.err[..], "")
    }

    /// Every block of a small disk, and of a larger one those on the card and some others.
    fn blocks(&mut self, random: &mut Random, at: &Snapshot) -> Result<(), String> {
        self.put(CARD, &at.card)?;
        self.put(DISK, &at.disk)?;
        let card = Card::open(&at.card, None).map_err(|number| format!("refused with {number}"))?;
        let blocks = card.geometry.disk_blocks;
        let mut numbers: Vec<u64> = (0..blocks.min(40)).collect();
        if blocks > 40 {
            numbers = card.in_use().take(8).map(|entry| entry.number).collect();
            numbers.extend((0..8).map(|_| random.below(blocks)));
        }
        numbers.push(blocks + random.below(2));
        numbers.iter().try_for_each(|number| self.lists(at, *number))
    }

    /// A save of these numbers, foreseen on the card that now is in the file.
    fn previews(&mut self, card: &[u8], numbers: &[u64]) -> Result<(), String> {
        let numbers_as_words: Vec<String> = numbers.iter().map(|number| number.to_string()).collect();
        let words: Vec<&str> =
            ["preview", CARD].into_iter().chain(numbers_as_words.iter().map(|word| &word[..])).collect();
        let wanted = match previewed_of(&self.model, card, numbers) {
            Ok(wanted) => wanted,
            Err(number) => return self.refuses(&words, card, number),
        };
        let ran = self.run(&words, &[])?;
        same_log(&ran.log, &[])?;
        same_file(&ran.file, card)?;
        let added = wanted.rows.iter().filter(|row| row[3] == "none").count() as u64;
        self.tally.previews += 1;
        self.tally.added += added;
        self.tally.replaced += wanted.blocks - added;
        equal("preview", parse_previewed(&ran.out)?, wanted)?;
        equal("standard error", &ran.err[..], "")
    }

    /// Saves on a card that is settled.
    fn saves(&mut self, random: &mut Random, card: &[u8]) -> Result<(), String> {
        self.put(CARD, card)?;
        let opened = Card::open_settled(card, None).map_err(|number| format!("refused with {number}"))?;
        for numbers in asked(random, &opened) {
            self.previews(card, &numbers).map_err(|error| format!("preview {numbers:?}: {error}"))?;
        }
        Ok(())
    }

    /// A list of stores, made in full, with every allowance, and stopped at every store in every way.
    fn made(&mut self, by: Storing, card: &[u8], list: &[Store]) -> Result<(), String> {
        let m = list.len();
        self.put(CARD, card)?;
        self.stores(by, card, list, None)?;
        let places: Vec<usize> =
            if m <= SHORT_LIST { (0..m + 2).collect() } else { vec![0, 1, m / 2, m - 1, m, m + 1] };
        for allowance in &places {
            self.put(CARD, card)?;
            self.stores(by, card, list, Some(*allowance))?;
        }
        for j in places.iter().filter(|j| (1..=m).contains(*j)) {
            for kind in Stop::KINDS {
                self.stops(by, card, list, kind(*j)).map_err(|error| format!("{} {:?}: {error}", by.name, kind(*j)))?;
            }
        }
        Ok(())
    }

    /// What the other commands say of a card that is not settled, or is old: a refusal.
    fn before(&mut self, random: &mut Random, at: &Snapshot) -> Result<(), String> {
        self.put(DISK, &at.disk)?;
        self.put(CARD, &at.card)?;
        self.lists(at, random.below(3))?;
        self.previews(&at.card, &[random.below(3)])
    }

    /// A card in its history: shown, recovered in every way, its blocks read before and after, saves to it foreseen. An
    /// old one is upgraded in every way in between; any other, and one not settled, is not.
    fn card(&mut self, random: &mut Random, at: &Snapshot) -> Result<(), String> {
        let list = self.model.recover_list(&at.card).map_err(|number| format!("refused with {number}"))?;
        self.tally.cards += 1;
        self.tally.longest = self.tally.longest.max(list.len());
        self.shows(&at.card)?;
        self.made(RECOVER, &at.card, &list)?;
        if !list.is_empty() {
            self.before(random, at)?;
        }
        self.put(CARD, &at.card)?;
        self.stores_or_refuses(UPGRADE, &at.card)?;
        let mut recovered = Snapshot { card: after(&at.card, &list), ..at.clone() };
        if at.card[VERSION_AT] == OLD {
            self.tally.old += 1;
            self.before(random, &recovered)?;
            let list = self.model.upgrade_list(&recovered.card).map_err(|number| format!("refused with {number}"))?;
            self.made(UPGRADE, &recovered.card, &list)?;
            recovered.card = after(&recovered.card, &list);
            self.shows(&recovered.card)?;
        }
        self.saves(random, &recovered.card)?;
        self.blocks(random, &recovered)
    }

    /// A card that is damaged, or a disk of a wrong length: shown, refused, not changed.
    fn damaged(&mut self, at: &Snapshot) -> Result<(), String> {
        self.tally.cards += 1;
        self.shows(&at.card)?;
        self.put(DISK, &at.disk)?;
        self.lists(at, 0)?;
        self.previews(&at.card, &[0])?;
        self.stores_or_refuses(UPGRADE, &at.card)?;
        self.put(CARD, &at.card)?;
        self.stores_or_refuses(RECOVER, &at.card)
    }

    /// A card with other bytes behind it, as long as the largest card and longer than any.
    fn too_long(&mut self, random: &mut Random, at: &Snapshot) -> Result<(), String> {
        for length in [LARGEST, LARGEST + 1, LARGEST + 2, 2 * LARGEST] {
            let mut card = at.card.clone();
            card.resize(length, random.next() as u8);
            self.damaged(&Snapshot { card, ..at.clone() })?;
        }
        Ok(())
    }

    /// Makes a card's file; `variable` tells the shim what fails on the way.
    fn formatted(&mut self, geometry: Geometry, variable: Option<(&str, &str)>) -> Result<Ran, String> {
        let _ = std::fs::remove_file(self.folder.0.join(CARD));
        let numbers =
            [geometry.k, geometry.slots, geometry.data_blocks, geometry.disk_blocks].map(|number| number.to_string());
        let words: Vec<&str> = ["format", CARD].into_iter().chain(numbers.iter().map(|number| &number[..])).collect();
        let variables: Vec<(&str, String)> =
            variable.iter().map(|(name, value)| (*name, value.to_string())).collect();
        self.run(&words, &variables)
    }

    /// A file made anew is whole and durable, also where a write is short; where one fails, no file is left.
    fn formats(&mut self, geometry: Geometry) -> Result<(), String> {
        let mut card = vec![0; geometry.card_length()];
        self.model.format(geometry.k, geometry.slots, geometry.data_blocks, geometry.disk_blocks, &mut card);
        for variable in [None, Some(("SHIM_SHORT", "write:1"))] {
            let ran = self.formatted(geometry, variable)?;
            same_file(&ran.file, &card)?;
            equal("made durable", ran.log.last().map(|line| &line[..]), Some("fsync card.img 0"))?;
            let writes = ran.log.iter().filter(|line| line.starts_with("write card.img ")).count();
            equal("calls", ran.log.len(), writes + 1)?;
            equal("format", ran.out, format!("card.img: made, {} bytes\n", counted(card.len())))?;
            equal("standard error", &ran.err[..], "")?;
        }
        for value in ["write:1", "fsync:1"] {
            let ran = self.formatted(geometry, Some(("SHIM_FAIL", value)))?;
            equal("the file is gone", ran.file.is_none(), true)?;
            equal("standard output", &ran.out[..], "")?;
            equal("standard error", &ran.err[..], "card.img: Input/output error\n")?;
        }
        self.tally.formats += 1;
        self.misfits(geometry)
    }

    /// A geometry with one number that is not allowed: refused, no file made.
    fn misfits(&mut self, right: Geometry) -> Result<(), String> {
        for wrong in [
            Geometry { k: 13, ..right },
            Geometry { slots: right.slots + 1, ..right },
            Geometry { data_blocks: right.data_blocks + 1, ..right },
            Geometry { disk_blocks: 65_537, ..right },
        ] {
            let ran = self.formatted(wrong, None)?;
            equal("no file is made", ran.file.is_none(), true)?;
            self.refused(&ran, 1)?;
        }
        Ok(())
    }
}

fn geometry(k: u64, slots: u64, data_blocks: u64, disk_blocks: u64) -> Geometry {
    Geometry { k, slots, data_blocks, disk_blocks }
}

/// Different numbers, as many as a save may have and more where the disk has them, in any order: those on the card
/// and others.
fn different(random: &mut Random, card: &Card) -> Vec<u64> {
    let blocks = card.geometry.disk_blocks;
    let mut numbers: Vec<u64> = card.in_use().map(|entry| entry.number).collect();
    let start = random.below(blocks);
    let others = (0..blocks).map(|i| (start + i) % blocks).filter(|number| card.entry_for(*number).is_none());
    numbers.extend(others.take(card.geometry.slots as usize));
    for i in 1..numbers.len() {
        numbers.swap(i, random.below(i as u64 + 1) as usize);
    }
    numbers
}

/// Saves to be foreseen: small ones, as large as there is room for, larger ones; and wrong in one way or in two.
fn asked(random: &mut Random, card: &Card) -> Vec<Vec<u64>> {
    let (blocks, slots) = (card.geometry.disk_blocks, card.geometry.slots as usize);
    let numbers = different(random, card);
    let room = card.free_blocks().len().min(slots - 1).min(numbers.len());
    let few = &numbers[..(1 + random.below(3) as usize).min(numbers.len())];
    let with = |list: &[u64], more: u64| [list, &[more]].concat();
    vec![
        Vec::new(),
        numbers[..1].to_vec(),
        few.to_vec(),
        numbers[..room].to_vec(),
        numbers[..(room + 1).min(numbers.len())].to_vec(),
        with(few, few[0]),
        with(&numbers[..room], numbers[0]),
        with(few, blocks + random.below(2)),
        with(&with(few, few[0]), blocks),
        vec![u64::MAX],
        vec![blocks; slots],
        vec![numbers[0]; slots - 1],
        vec![numbers[0]; 256 + random.below(2) as usize],
    ]
}

/// A card that its history made and then something damaged, or one drawn at random.
fn some_damaged(random: &mut Random, geometry: Geometry) -> Snapshot {
    let version = random.pick(&[OLD, NOW, NOW]);
    let mut at = if random.once_in(4) { drawn(random, geometry) } else { history(random, geometry, 3, version) };
    damage(random, geometry, &mut at);
    at
}

/// Cards of one geometry: in their histories, then damaged.
fn part(desk: &mut Desk, seed: u64, geometry: Geometry, cards: u64, damaged: u64) -> Result<(), String> {
    let mut random = Random(seed ^ geometry.slots << 32 ^ geometry.disk_blocks);
    desk.formats(geometry).map_err(|error| format!("{geometry:?}: format: {error}"))?;
    for turn in 0..cards {
        // few blocks mostly, so that every cut of the list can be tried
        let most = if random.once_in(4) { geometry.data_blocks / 2 } else { 3 };
        let version = if turn % 3 == 2 { OLD } else { NOW };
        let at = history(&mut random, geometry, most, version);
        desk.card(&mut random, &at).map_err(|error| format!("{geometry:?}, card {turn}: {error}"))?;
    }
    for turn in 0..damaged {
        let at = some_damaged(&mut random, geometry);
        desk.damaged(&at).map_err(|error| format!("{geometry:?}, damaged card {turn}: {error}"))?;
    }
    let at = history(&mut random, geometry, 3, NOW);
    desk.too_long(&mut random, &at).map_err(|error| format!("{geometry:?}, too long: {error}"))
}

fn right(desk: &mut Desk, seed: u64) -> Result<(), String> {
    for (k, slots, data_blocks, disk_blocks, cards, damaged) in [
        (9, 8, 4, 16, 100, 400),
        (9, 8, 4, 3, 50, 200),
        (10, 16, 8, 20, 50, 100),
        (11, 24, 12, 40, 40, 50),
        (12, 8, 4, 5, 30, 50),
        (9, 64, 128, 1000, 30, 50),
        (12, 256, 128, 300, 40, 50),
    ] {
        part(desk, seed, geometry(k, slots, data_blocks, disk_blocks), cards, damaged)?;
    }
    desk.tally.complete()
}

/// What a wrong program's run of a command might look like. Where a run has nothing of the kind, it stays as it is.
const TAMPERS: [Tamper; 60] = [
    ("recover", "a store is not made durable", |ran| ran.log.retain(|line| !line.starts_with("fdatasync"))),
    ("recover", "a store is made twice", |ran| ran.log.extend(ran.log.first().cloned())),
    ("recover", "stores change places", |ran| ran.log.reverse()),
    ("recover", "the last store is not made", |ran| ran.log.truncate(ran.log.len().saturating_sub(2))),
    ("recover", "a store in part is not made again", |ran| with_second_store(ran, |log, at| drop(log.remove(at)))),
    ("recover", "a store in part is made durable", |ran| {
        with_second_store(ran, |log, at| log.insert(at, "fdatasync card.img 0".to_string()))
    }),
    ("recover", "half a store is left", |ran| with_second_store(ran, |log, at| log.truncate(at))),
    ("recover", "another byte is changed", |ran| change(&mut ran.file)),
    ("recover", "another store is listed", |ran| ran.out = ran.out.replacen("  72  ", "  64  ", 1)),
    ("recover", "an entry's bytes run together", |ran| ran.out = ran.out.replace("0000 0000", "00000000")),
    ("recover", "an empty list is not told", |ran| ran.out = ran.out.replace("  none\n", "")),
    ("recover", "stores are miscounted", |ran| ran.out = ran.out.replacen(" stores made", "0 stores made", 1)),
    ("recover", "a cut is not told", |ran| ran.out = ran.out.replace("made: cut", "made: done")),
    ("recover", "a refused card is written to", |ran| {
        push_if(ran, "refused with", "pwrite card.img 72 0000000000000000 8")
    }),
    ("recover", "a file too long is written to", |ran| {
        push_if(ran, "longer than the largest", "pwrite card.img 72 0000000000000000 8")
    }),
    ("recover", "another refusal is told", |ran| ran.err = ran.err.replace("refused with 4", "refused with 5")),
    ("recover", "a refusal has no name", |ran| ran.err = ran.err.replace("card.img: refused", "refused")),
    ("recover", "stores after a failure", |ran| push_if(ran, NOT_WRITTEN, "pwrite card.img 72 0000000000000000 8")),
    ("recover", "a failure is not told", |ran| ran.err = ran.err.replace(NOT_WRITTEN, "")),
    ("recover", "a failure is told by its number", |ran| {
        ran.err = ran.err.replace(NOT_WRITTEN, "card.img: Input/output error\n")
    }),
    ("recover", "a failure is called a cut", |ran| ran.out = ran.out.replace("made: failed", "made: cut")),
    ("recover", "an old card is told to be in order", |ran| {
        ran.out = ran.out.replace("version 1, settled: to be upgraded", "settled, entries in use 1, modified 1")
    }),
    ("upgrade", "the store is not made durable", |ran| ran.log.retain(|line| !line.starts_with("fdatasync"))),
    ("upgrade", "the store is made twice", |ran| ran.log.extend(ran.log.first().cloned())),
    ("upgrade", "the store is not made", |ran| ran.log.clear()),
    ("upgrade", "another byte is changed", |ran| change(&mut ran.file)),
    ("upgrade", "another store is listed", |ran| ran.out = ran.out.replacen("    0  00000040", "    4  00000040", 1)),
    ("upgrade", "the word of before is listed", |ran| ran.out = ran.out.replacen("  0000004002", "  0000004001", 1)),
    ("upgrade", "the list has recovery's title", |ran| ran.out = ran.out.replace("upgrade stores", "recovery stores")),
    ("upgrade", "a cut is not told", |ran| ran.out = ran.out.replace("made: cut", "made: done")),
    ("upgrade", "a refused card is written to", |ran| {
        push_if(ran, "refused with", "pwrite card.img 0 0000004002090008 8")
    }),
    ("upgrade", "a card that is not settled is another's fault", |ran| {
        ran.err = ran.err.replace("refused with 7", "refused with 1")
    }),
    ("upgrade", "a failure is not told", |ran| ran.err = ran.err.replace(NOT_WRITTEN, "")),
    ("show", "another number is shown", |ran| ran.out = ran.out.replace("version         2", "version         1")),
    ("show", "P is not shown", |ran| ran.out = ran.out.replace("  V P M", "  V - M")),
    ("show", "an old card need not be recovered", |ran| {
        ran.out = ran.out.replace("not settled: to be recovered, then upgraded", "settled: to be upgraded")
    }),
    ("show", "a shown card is changed", |ran| change(&mut ran.file)),
    ("show", "columns of a damaged card touch", |ran| {
        if ran.out.contains("refused with") {
            ran.out = ran.out.replace("     FRESH", "FRESH")
        }
    }),
    ("show", "dashes are left out", |ran| ran.out = ran.out.replace("         -         -\n", "\n")),
    ("show", "a file too long is measured", |ran| ran.out = ran.out.replace(": more than 528,512", ": 528,513")),
    ("show", "a file too long is not told", |ran| clear_if(&mut ran.err, "longer than the largest")),
    ("show", "the length asked for is not told", |ran| clear_if(&mut ran.err, "its header asks for")),
    ("block", "other bytes are listed", |ran| ran.out = with_second_line_as_first(&ran.out)),
    ("block", "another holder is named", |ran| ran.out = ran.out.replacen("by the disk", "by the card", 1)),
    ("block", "the disk's refusal has the card's name", |ran| {
        ran.err = ran.err.replace("disk.img: refused", "card.img: refused")
    }),
    ("block", "a file too long is refused", |ran| {
        ran.err = ran.err.replace("longer than the largest card, which has", "refused with 2: longer than")
    }),
    ("preview", "data block and entry change places", |ran| in_rows(ran, |row| row.swap(1, 2))),
    ("preview", "a block that is replaced is not told", |ran| in_rows(ran, |row| row[3] = "none".to_string())),
    ("preview", "a new block replaces one", |ran| ran.out = ran.out.replace("none", "0")),
    ("preview", "a block is left out", |ran| in_lines(ran, |lines| drop(lines.remove(2)))),
    ("preview", "blocks change places", |ran| in_lines(ran, |lines| lines[2..].reverse())),
    ("preview", "blocks are miscounted", |ran| ran.out = ran.out.replacen("save of ", "save of 1", 1)),
    ("preview", "stores are miscounted", |ran| ran.out = ran.out.replace("stores ", "stores 1")),
    ("preview", "another refusal is told", |ran| ran.err = ran.err.replace("refused with 14", "refused with 8")),
    ("preview", "the save is made", |ran| ran.log.push("pwrite card.img 72 0000000000000000 8".to_string())),
    ("preview", "a card is changed", |ran| change(&mut ran.file)),
    ("format", "a new card is another one", |ran| change(&mut ran.file)),
    ("format", "a new card is not durable", |ran| drop(ran.log.pop())),
    ("format", "a broken file is left", |ran| ran.file = ran.file.take().or(Some(Vec::new()))),
    ("format", "a refusal has no name", |ran| ran.err = ran.err.replace("card.img: refused", "refused")),
];

/// Changes the log at the second of two stores that follow each other, as where the first went in part.
fn with_second_store(ran: &mut Ran, change: fn(&mut Vec<String>, usize)) {
    let is_store = |line: &String| line.starts_with("pwrite");
    if let Some(at) = ran.log.windows(2).position(|pair| pair.iter().all(is_store)) {
        change(&mut ran.log, at + 1);
    }
}

fn clear_if(text: &mut String, said: &str) {
    if text.contains(said) {
        text.clear();
    }
}

fn change(file: &mut Option<Vec<u8>>) {
    file.iter_mut().flatten().take(1).for_each(|byte| *byte ^= 1);
}

/// A listing whose second line has the bytes of its first.
fn with_second_line_as_first(listing: &str) -> String {
    let mut lines: Vec<String> = listing.lines().map(|line| format!("{line}\n")).collect();
    if lines.len() > 2 {
        lines[2] = lines[1].replacen("0000", "0010", 1);
    }
    lines.concat()
}

/// Changes the lines of a save that is foreseen: its title, the names of its columns and its rows.
fn in_lines(ran: &mut Ran, change: fn(&mut Vec<String>)) {
    let mut lines: Vec<String> = ran.out.lines().map(|line| format!("{line}\n")).collect();
    if let Some(stores) = lines.pop() {
        change(&mut lines);
        ran.out = lines.concat() + &stores;
    }
}

/// Changes the words of each row of a save that is foreseen.
fn in_rows(ran: &mut Ran, change: fn(&mut Vec<String>)) {
    let lines: Vec<&str> = ran.out.lines().collect();
    let last = lines.len().saturating_sub(1);
    let changed = lines.iter().enumerate().map(|(at, line)| {
        let mut words: Vec<String> = line.split_whitespace().map(|word| word.to_string()).collect();
        if (2..last).contains(&at) {
            change(&mut words);
        }
        format!("{}\n", words.join(" "))
    });
    ran.out = changed.collect();
}

fn push_if(ran: &mut Ran, said: &str, line: &str) {
    if ran.err.contains(said) {
        ran.log.push(line.to_string());
    }
}

/// Slips of a recovery, of an upgrade, of a state or of a save: the program differs from such a model.
const WRONG_MODELS: [Slip; 17] = [
    Slip::CleanUndo,
    Slip::ModifiedUndo,
    Slip::UndoDropsP,
    Slip::OldUndoneAsNew,
    Slip::OldTaken(Call::Look),
    Slip::OldTaken(Call::Commit),
    Slip::FormatsOld,
    Slip::NewUpgraded,
    Slip::UpgradeUnsettled,
    Slip::UpgradeClearsSlots,
    Slip::FreshAtUndo,
    Slip::WindowAlone,
    Slip::UnchangedCounted,
    Slip::CountsEveryEntry,
    Slip::RepeatsLetBy,
    Slip::SearchFromZero,
    Slip::OldBlockGivenOut,
];

fn reported(desk: &mut Desk, name: &str, seed: u64) -> Result<(), String> {
    match part(desk, seed, geometry(9, 8, 4, 16), 40, 100) {
        Err(error) => {
            println!("{name}: {}", error.chars().take(160).collect::<String>());
            Ok(())
        }
        Ok(()) => Err(format!("{name}: not reported")),
    }
}

fn wrong(desk: &mut Desk, seed: u64) -> Result<(), String> {
    for slip in WRONG_MODELS {
        desk.model = Model::wrong(slip);
        reported(desk, &format!("{slip:?}"), seed)?;
    }
    desk.model = Model::default();
    for tamper in TAMPERS {
        desk.tamper = Some(tamper);
        reported(desk, &format!("{}: {}", tamper.0, tamper.1), seed)?;
    }
    desk.tamper = None;
    desk.put("left", &[])?;
    reported(desk, "a file is left behind", seed)?;
    desk.program = PathBuf::from("false");
    reported(desk, "the program ends with 1", seed)
}

fn desk(program: &str, shim: &str) -> Result<Desk, String> {
    let whole = |path: &str| Path::new(path).canonicalize().map_err(|error| format!("{path}: {error}"));
    let folder = Folder::new("tinca-desk")?;
    let (program, shim) = (whole(program)?, whole(shim)?);
    Ok(Desk { program, shim, folder, model: Model::default(), tamper: None, tally: Tally::default() })
}

fn run() -> Result<String, String> {
    let words: Vec<String> = std::env::args().collect();
    let [_, program, shim, ..] = &words[..] else {
        return Err("usage: desk PROGRAM SHIM [--seed S] [--wrong]".to_string());
    };
    let (start, seed) = (Instant::now(), option("--seed", 1));
    let mut desk = desk(program, shim)?;
    if words.iter().any(|word| word == "--wrong") {
        wrong(&mut desk, seed)?;
        return Ok(format!("{} wrong models and wrong runs are reported", WRONG_MODELS.len() + TAMPERS.len() + 2));
    }
    right(&mut desk, seed)?;
    Ok(format!("{} ({:.1} s)", desk.tally.line(), start.elapsed().as_secs_f64()))
}

fn main() {
    match run() {
        Ok(line) => println!("{line}"),
        Err(error) => {
            println!("DIFFERENCE: {error}");
            std::process::exit(1);
        }
    }
}

#[cfg(test)]
mod tests {
    use super::*;

    #[test]
    fn an_incomplete_tally_is_reported() {
        assert!(Tally::default().complete().is_err());
    }

    #[test]
    fn files_are_compared_byte_by_byte() {
        assert!(same_file(&Some(vec![1, 2]), &[1, 2]).is_ok());
        for wrong in [None, Some(vec![1]), Some(vec![1, 2, 0]), Some(vec![1, 3])] {
            assert!(same_file(&wrong, &[1, 2]).is_err());
        }
    }

    /// Half of a unit is left only where it was not made again whole.
    #[test]
    fn a_stop_leaves_its_bytes() {
        let list = [Store::Entry(0, [1; 16]), Store::Word(16, [2; 8])];
        let (whole, half) = ([vec![1; 16], vec![2; 8]].concat(), [vec![1; 8], vec![0; 16]].concat());
        assert_eq!(left_by(&[0; 24], &list, Stop::Short(1)), whole);
        assert_eq!(left_by(&[0; 24], &list, Stop::ShortTwice(1)), half);
        assert_eq!(left_by(&[0; 24], &list, Stop::ShortFailed(1)), half);
        assert_eq!(left_by(&[0; 24], &list, Stop::FailedStore(1)), [0; 24]);
        assert_eq!(left_by(&[0; 24], &list, Stop::FailedSync(2)), whole);
    }
}
