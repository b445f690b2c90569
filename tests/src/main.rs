//! Drives library and model side by side. One line for each part; the first difference ends the run with status 1.

use std::time::Instant;
use tinca_tests::bounded::Recoveries;
use tinca_tests::drive::{arguments, damaged, drill, every_cut, every_preview, random_history, script, Reckoning, Tally, DRILL};
use tinca_tests::ffi::Library;
use tinca_tests::model::{Model, NOW, OLD};
use tinca_tests::pending::{full_windows, odd_cards, pending_history, pending_script, wide_pending_script};
use tinca_tests::room::{crowded, every_room, room_script, wide_room_script};
use tinca_tests::series::history_of_series;
use tinca_tests::versions::{across, every_upgrade};
use tinca_tests::{Calls, Geometry};

fn geometry(k: u64, slots: u64, data_blocks: u64, disk_blocks: u64) -> Geometry {
    Geometry { k, slots, data_blocks, disk_blocks }
}

/// The parts that were run, added up, and the recoveries of random histories alone.
#[derive(Default)]
struct Parts {
    total: Tally,
    recoveries: Recoveries,
}

type Part<'p> = &'p dyn Fn(&dyn Calls, &dyn Calls) -> Result<Tally, String>;

/// A part that a seed decides.
type History<'p> = &'p dyn Fn(&dyn Calls, &dyn Calls, u64) -> Result<Tally, String>;

impl Parts {
    fn made(&mut self, name: &str, part: Part) -> Result<Tally, String> {
        let start = Instant::now();
        let tally = part(&Library, &Model::NOW).map_err(|difference| format!("{name}: {difference}"))?;
        println!("{name}: {} ({:.1} s)", tally.line(), start.elapsed().as_secs_f64());
        self.total.add(&tally);
        Ok(tally)
    }

    fn run(&mut self, name: &str, part: Part) -> Result<(), String> {
        self.made(name, part).map(drop)
    }

    /// So many histories on cards of the geometry, as one part.
    fn run_seeds(&mut self, name: &str, geometry: Geometry, histories: u64, history: History) -> Result<(), String> {
        let first = 1000 * geometry.k + 100 * geometry.slots;
        let tally = self.made(name, &|library, model| {
            let mut tally = Tally::default();
            (first..first + histories).try_for_each(|seed| history(library, model, seed).map(|more| tally.add(&more)))?;
            Ok(tally)
        })?;
        self.recoveries.add(&tally.recoveries);
        Ok(())
    }

    fn cuts(&mut self) -> Result<(), String> {
        self.run("a every cut, k 9", &|library, model| every_cut(library, model, geometry(9, 8, 4, 16), &script(), 6, 1))?;
        self.run("a every cut, k 12", &|library, model| every_cut(library, model, geometry(12, 8, 4, 6), &script(), 6, 1))?;
        for (name, geometry, script, blocks, stride) in [
            ("N 4", geometry(9, 8, 4, 16), room_script(), 6, 1),
            ("N 8", geometry(9, 8, 8, 16), wide_room_script(), 10, 8),
            ("k 12", geometry(12, 8, 4, 6), room_script(), 6, 127),
        ] {
            let name = format!("a every cut making room, {name}");
            self.run(&name, &|library, model| every_cut(library, model, geometry, &script, blocks, stride))?;
        }
        Ok(())
    }

    fn histories(&mut self) -> Result<(), String> {
        for (k, slots, data_blocks, disk_blocks, histories, calls) in [
            (9, 8, 4, 16, 60, 4000),
            (9, 8, 4, 1, 10, 1000),
            (9, 8, 4, 3, 20, 2000),
            (10, 16, 8, 20, 10, 2000),
            (11, 24, 12, 40, 10, 1000),
            (12, 8, 4, 5, 10, 1000),
            (9, 256, 60, 150, 2, 2000),
            (9, 256, 64, 150, 2, 2000),
            (9, 256, 68, 150, 2, 2000),
            (9, 8, 128, 300, 2, 3000),
            (9, 256, 128, 300, 2, 3000),
            (9, 64, 32, 65_536, 1, 4000),
            (12, 256, 128, 65_536, 1, 3000),
        ] {
            let name = format!("b histories, k {k} S {slots} N {data_blocks} D {disk_blocks}");
            let geometry = geometry(k, slots, data_blocks, disk_blocks);
            self.run_seeds(&name, geometry, histories, &|library, model, seed| random_history(library, model, geometry, calls, seed))?;
        }
        Ok(())
    }

    fn cards(&mut self) -> Result<(), String> {
        for (k, slots, data_blocks, disk_blocks, cards) in
            [(9, 8, 4, 16, 30_000), (9, 8, 4, 3, 20_000), (10, 16, 8, 5, 5_000), (12, 256, 128, 200, 300)]
        {
            let name = format!("c damaged cards, k {k} S {slots} N {data_blocks} D {disk_blocks}");
            let geometry = geometry(k, slots, data_blocks, disk_blocks);
            self.run(&name, &|library, model| damaged(library, model, geometry, cards, 77 + k))?;
        }
        self.run("d arguments", &|library, model| arguments(library, model, 5))
    }

    fn lists(&mut self) -> Result<(), String> {
        self.run("e previews, k 9", &|library, model| every_preview(library, model, geometry(9, 8, 4, 6), 3))?;
        self.run("e previews, k 12", &|library, model| every_preview(library, model, geometry(12, 8, 8, 6), 2))?;
        self.run("f every room, N 4", &|library, model| every_room(library, model, geometry(9, 8, 4, 6), &room_script(), 3))?;
        self.run("f every room, N 8", &|library, model| every_room(library, model, geometry(9, 8, 8, 10), &wide_room_script(), 2))
    }

    fn old_cards(&mut self) -> Result<(), String> {
        for (name, geometry, script, blocks, stride) in [
            ("k 9", geometry(9, 8, 4, 16), script(), 6, 8),
            ("making room", geometry(9, 8, 4, 16), room_script(), 6, 8),
            ("making room, N 8", geometry(9, 8, 8, 16), wide_room_script(), 10, 64),
            ("k 12", geometry(12, 8, 4, 6), script(), 6, 127),
        ] {
            let name = format!("h old cards upgraded, {name}");
            self.run(&name, &|library, model| every_upgrade(library, model, geometry, &script, blocks, stride))?;
        }
        for (k, slots, data_blocks, disk_blocks, histories, calls) in
            [(9, 8, 4, 16, 150, 100), (9, 8, 4, 3, 100, 100), (10, 16, 8, 20, 30, 100), (12, 8, 12, 30, 10, 60), (9, 256, 128, 150, 3, 60)]
        {
            let name = format!("i histories across an upgrade, k {k} S {slots} N {data_blocks} D {disk_blocks}");
            let geometry = geometry(k, slots, data_blocks, disk_blocks);
            self.run_seeds(&name, geometry, histories, &|library, model, seed| across(library, model, geometry, calls, seed))?;
        }
        Ok(())
    }

    fn pending_saves(&mut self) -> Result<(), String> {
        for (name, geometry, script, blocks, stride) in [
            ("k 9", geometry(9, 8, 4, 16), pending_script(), 6, 4),
            ("N 8", geometry(9, 8, 8, 16), wide_pending_script(), 8, 16),
            ("k 12", geometry(12, 8, 4, 6), pending_script(), 6, 127),
        ] {
            let cuts = format!("j every cut of a pending save, {name}");
            self.run(&cuts, &|library, model| every_cut(library, model, geometry, &script, blocks, stride))?;
            let old = format!("j old cards with a pending save, {name}");
            self.run(&old, &|library, model| every_upgrade(library, model, geometry, &script, blocks, stride))?;
        }
        self.pending_histories()?;
        self.run("l full windows", &|library, model| full_windows(library, model, geometry(9, 8, 16, 16)))?;
        for (k, slots, data_blocks, disk_blocks, cards) in
            [(9, 8, 4, 16, 10_000), (9, 8, 8, 20, 10_000), (9, 8, 128, 200, 500), (12, 256, 128, 200, 200)]
        {
            let name = format!("m odd cards, k {k} S {slots} N {data_blocks} D {disk_blocks}");
            let geometry = geometry(k, slots, data_blocks, disk_blocks);
            self.run(&name, &|library, model| odd_cards(library, model, geometry, cards, 55 + k))?;
        }
        Ok(())
    }

    fn pending_histories(&mut self) -> Result<(), String> {
        for (k, slots, data_blocks, disk_blocks, histories, calls) in [
            (9, 8, 4, 16, 60, 300),
            (9, 8, 4, 3, 40, 300),
            (9, 8, 16, 12, 40, 300),
            (10, 16, 8, 20, 20, 200),
            (12, 8, 12, 30, 6, 100),
            (9, 256, 128, 150, 2, 100),
        ] {
            let name = format!("k histories of pending saves, k {k} S {slots} N {data_blocks} D {disk_blocks}");
            let geometry = geometry(k, slots, data_blocks, disk_blocks);
            let history = |library: &dyn Calls, model: &dyn Calls, seed| {
                pending_history(library, model, geometry, calls, seed, Reckoning::Right)
            };
            self.run_seeds(&name, geometry, histories, &history)?;
        }
        Ok(())
    }

    fn series_of_recoveries(&mut self) -> Result<(), String> {
        for (k, slots, data_blocks, disk_blocks, histories, series) in [
            (9, 8, 4, 16, 20, 140),
            (9, 8, 4, 3, 10, 140),
            (9, 8, 16, 12, 20, 140),
            (10, 16, 8, 20, 10, 140),
            (12, 8, 12, 30, 4, 70),
            (9, 256, 128, 150, 2, 70),
        ] {
            let geometry = geometry(k, slots, data_blocks, disk_blocks);
            for (version, cards) in [(NOW, ""), (OLD, " of old cards")] {
                let name = format!("n series of recoveries{cards}, k {k} S {slots} N {data_blocks} D {disk_blocks}");
                let history =
                    |library: &dyn Calls, model: &dyn Calls, seed| history_of_series(library, model, geometry, version, series, seed);
                self.run_seeds(&name, geometry, histories, &history)?;
            }
        }
        Ok(())
    }

    fn crowded_cards(&mut self) -> Result<(), String> {
        for (k, slots, data_blocks, disk_blocks, calls) in [
            (9, 8, 4, 16, 15_000),
            (9, 16, 8, 20, 8_000),
            (9, 8, 128, 300, 1_000),
            (9, 256, 60, 150, 1_000),
            (9, 256, 64, 150, 1_000),
            (9, 256, 68, 150, 1_000),
            (9, 256, 128, 300, 1_000),
            (11, 24, 12, 40, 1_000),
            (12, 256, 128, 200, 300),
        ] {
            let name = format!("g crowded cards, k {k} S {slots} N {data_blocks} D {disk_blocks}");
            let geometry = geometry(k, slots, data_blocks, disk_blocks);
            self.run(&name, &|library, model| crowded(library, model, geometry, calls, 91 + k + data_blocks))?;
        }
        Ok(())
    }
}

fn run() -> Result<Parts, String> {
    if drill(&Library) != DRILL {
        return Err(format!("drill: the library prints\n{}", drill(&Library)));
    }
    let mut parts = Parts::default();
    parts.cuts()?;
    parts.histories()?;
    parts.cards()?;
    parts.lists()?;
    parts.crowded_cards()?;
    parts.old_cards()?;
    parts.pending_saves()?;
    parts.series_of_recoveries()?;
    parts.total.complete()?;
    parts.recoveries.at_least(1000)?;
    Ok(parts)
}

fn main() {
    let start = Instant::now();
    match run() {
        Ok(Parts { total, recoveries }) => {
            let seconds = start.elapsed().as_secs_f64();
            println!("all: {}", total.line());
            println!("recoveries: {}", total.recoveries.line());
            println!("recoveries of random histories: {}", recoveries.line());
            println!("library and model agree in {} calls, {seconds:.1} s", total.calls());
            if total.calls() < 1_000_000 {
                println!("fewer than 1,000,000 calls");
                std::process::exit(1);
            }
        }
        Err(difference) => {
            println!("DIFFERENCE: {difference}");
            std::process::exit(1);
        }
    }
}
