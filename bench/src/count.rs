//! Instructions of each call, what it calls among them, under callgrind: `--count` runs this program again as `--count ROW ROUNDS`, with
//! some rounds and with twice as many. The difference is the rounds' own, so what the set-up calls drops out.

use super::*;
use std::process::Command;

/// A whole turn of Head round N 128 in commits of one block: what a call costs depends on where its search begins.
const ROUNDS: usize = 128;
const UNCACHED: u64 = 1000;

/// A card with half its entries in use, each saved by a commit of its own, the disk behind it and what is saved.
struct Station {
    k: u64,
    pair: Pair,
    numbers: Vec<u64>,
    data: Vec<u8>,
    turn: usize,
    at: usize,
}

impl Station {
    fn new(k: u64, data_blocks: u64, numbers: Vec<u64>) -> Station {
        let card = formatted(k, 256, data_blocks, 65_536);
        let map = map_of(&card).unwrap();
        let mut station = Station { k, pair: Pair::new(k, card, map), numbers, data: vec![7; 16 << k], turn: 0, at: 0 };
        (0..station.numbers.len()).for_each(|_| station.commit(1));
        station.turn = 0;
        station
    }

    /// The next n of the numbers in use, in turn.
    fn next(&mut self, n: usize) -> Vec<u64> {
        let from = self.turn * n;
        self.turn += 1;
        (from..from + n).map(|i| self.numbers[i % self.numbers.len()]).collect()
    }

    fn commit_of(&mut self, numbers: &[u64], allowance: u64) -> Answer {
        let data = &self.data[..numbers.len() << self.k];
        commit(&mut self.pair.card, &mut self.pair.map, numbers, data, zeros(self.k), allowance)
    }

    fn commit(&mut self, n: usize) {
        let numbers = self.next(n);
        assert!(matches!(self.commit_of(&numbers, ALL), Answer::Done(_)));
    }

    fn unproved_commit(&mut self, n: usize) {
        let numbers = self.next(n);
        let data = &self.data[..n << self.k];
        let answer = unproved::commit(&mut self.pair.card, &mut self.pair.map, &numbers, data, zeros(self.k), ALL);
        assert!(matches!(answer, Answer::Done(_)));
    }

    fn preview(&mut self, n: usize) {
        let (numbers, mut blocks) = (self.next(n), vec![0; n]);
        let (card, map, data) = (&self.pair.card, &self.pair.map, &self.data[..n << self.k]);
        done(unsafe {
            tinca_preview(
                card.as_ptr(),
                card.len(),
                map.as_ptr(),
                2,
                numbers.as_ptr(),
                n,
                data.as_ptr(),
                data.len(),
                blocks.as_mut_ptr(),
                n,
            )
        });
        black_box(blocks);
    }

    /// Open, n puts and finish.
    fn in_parts(&mut self, n: usize) {
        let numbers = self.next(n);
        let data = &self.data[..n << self.k];
        save_in_parts(&mut self.pair.card, &mut self.pair.map, &numbers, data, zeros(self.k));
    }

    /// The room-making commit.
    fn save(&mut self, numbers: &[u64]) {
        self.pair.save(numbers, &self.data[..numbers.len() << self.k]);
    }

    /// The next n of 256 numbers in turn: on a card that holds the 128 before them none is cached.
    fn following(&mut self, n: usize) -> Vec<u64> {
        let from = self.at;
        self.at += n;
        (from..from + n).map(|i| 2000 + i as u64 % 256).collect()
    }

    /// A full card: 128 blocks saved, or loaded.
    fn fill(&mut self, modified: bool) {
        self.numbers.iter().for_each(|number| self.pair.evict(*number));
        for _ in 0..128 {
            let numbers = self.following(1);
            if modified {
                self.save(&numbers);
            } else {
                self.pair.load(numbers[0]);
            }
        }
    }

    /// A save that evicts as many modified blocks as it has.
    fn save_over(&mut self, n: usize) {
        let numbers = self.following(n);
        self.save(&numbers);
    }

    /// A save that evicts as many clean blocks; then its own go, and clean ones come in their stead.
    fn save_clean(&mut self, n: usize) {
        let own: Vec<u64> = (0..n as u64).map(|i| UNCACHED + i).collect();
        self.save(&own);
        own.iter().for_each(|block| self.pair.evict(*block));
        self.following(n).iter().for_each(|block| self.pair.load(*block));
    }

    /// Whether the disk, and not the card, had the block.
    fn read(&mut self, block: u64) -> bool {
        let (card, disk, mut out) = (&self.pair.card, &self.pair.disk, vec![0; 1 << self.k]);
        let (from, to, table) = ((card.as_ptr(), card.len()), (out.as_mut_ptr(), out.len()), self.pair.table.as_mut_ptr());
        let place = unsafe { tinca_read(from.0, from.1, disk.as_ptr(), disk.len(), table, 128, block, to.0, to.1) };
        assert_eq!(place.refusal, 0);
        black_box(out);
        place.kind == 1
    }

    fn recover(&mut self) {
        let (card, map) = (&mut self.pair.card, &mut self.pair.map);
        done(unsafe { tinca_recover(card.as_mut_ptr(), card.len(), map.as_mut_ptr(), 2, ALL) });
    }

    /// A commit of four of the numbers in use, without its last store.
    fn cut(&mut self) {
        let numbers = self.next(4);
        assert_eq!(self.commit_of(&numbers, 4 * ((1 << self.k) / 8 + 4)), Answer::Cut);
        self.pair.map = map_of(&self.pair.card).unwrap();
    }
}

type Round = Box<dyn Fn(&mut Station)>;

/// What a round does, what is done once before, and of which function in the rounds the instructions count.
struct Row {
    symbol: &'static str,
    k: u64,
    data_blocks: u64,
    random: bool,
    before: Round,
    round: Round,
}

impl Row {
    fn numbers(&self) -> Vec<u64> {
        let (count, mut state) = (self.data_blocks as usize / 2, 5);
        if !self.random {
            return (0..count as u64).collect();
        }
        let mut numbers = Vec::new();
        while numbers.len() < count {
            let number = next(&mut state) % 65_536;
            if !numbers.contains(&number) {
                numbers.push(number);
            }
        }
        numbers
    }

    fn run(&self, rounds: usize) {
        let mut station = Station::new(self.k, self.data_blocks, self.numbers());
        (self.before)(&mut station);
        (0..rounds).for_each(|_| (self.round)(&mut station));
    }
}

/// The rows of commit: their names, and each of the library and unproved.
fn commits() -> Vec<(String, [Row; 2])> {
    let row = |name: &str, k: u64, data_blocks: u64, n: usize, random: bool| {
        let of = |symbol, round| Row { symbol, k, data_blocks, random, before: Box::new(|_| {}), round };
        let library = of("tinca_commit", Box::new(move |station: &mut Station| station.commit(n)) as Round);
        let unproved =
            of("unproved_commit", Box::new(move |station: &mut Station| station.unproved_commit(n)) as Round);
        (format!("{n} x {}{name}", 1 << k), [library, unproved])
    };
    let mut rows = Vec::new();
    for k in [9, 12] {
        rows.extend([1, 4, 16].map(|n| row("", k, 128, n, false)));
    }
    rows.extend([4, 16, 64, 128].map(|data_blocks| row(&format!(", N {data_blocks}"), 9, data_blocks, 1, false)));
    rows.extend([1, 16].map(|n| row(", random numbers", 9, 128, n, true)));
    rows
}

/// The rows of the other calls, each at both sizes of a block.
fn others() -> Vec<(String, [Row; 2])> {
    let row = |name: &str, symbol, round: fn(&mut Station)| {
        let of = |k| Row { symbol, k, data_blocks: 128, random: false, before: Box::new(|_| {}), round: Box::new(round) };
        (name.to_string(), [of(9), of(12)])
    };
    let load_evict = |station: &mut Station| {
        station.pair.load(UNCACHED);
        station.pair.evict(UNCACHED);
    };
    vec![
        row("load", "tinca_load", load_evict),
        row("evict, clean", "tinca_evict", load_evict),
        row("evict, modified", "tinca_evict", |station| {
            assert!(matches!(station.commit_of(&[UNCACHED], ALL), Answer::Done(_)));
            station.pair.evict(UNCACHED);
        }),
        row("read from card", "tinca_read", |station| {
            let block = station.next(1)[0];
            assert!(!station.read(block));
        }),
        row("read from disk", "tinca_read", |station| assert!(station.read(UNCACHED))),
        row("state", "tinca_state_of", |station| {
            let state = unsafe { tinca_state_of(station.pair.card.as_ptr(), station.pair.card.len()) };
            assert_eq!((state.kind, state.counts[0]), (0, 64));
        }),
        row("make map", "tinca_make_map", |station| assert_eq!(map_of(&station.pair.card), Some(station.pair.map))),
        row("recover, settled", "tinca_recover", Station::recover),
        row("recover, 4 to undo", "tinca_recover", |station| {
            station.cut();
            station.recover();
        }),
        row("preview, 4 blocks", "tinca_preview", |station| station.preview(4)),
        row("open, 1 put and finish", "save_in_parts", |station| station.in_parts(1)),
        row("open, 4 puts and finish", "save_in_parts", |station| station.in_parts(4)),
        row("open, 16 puts and finish", "save_in_parts", |station| station.in_parts(16)),
    ]
}

/// The rows of the room-making commit, each at both sizes of a block.
fn rooms() -> Vec<(String, [Row; 2])> {
    let row = |n: usize, modified: bool| {
        let of = |k| {
            let round: Round =
                if modified { Box::new(move |station| station.save_over(n)) } else { Box::new(move |station| station.save_clean(n)) };
            let before = Box::new(move |station: &mut Station| station.fill(modified));
            Row { symbol: "tinca_commit_making_room", k, data_blocks: 128, random: false, before, round }
        };
        (format!("save of {n}, evicts {n} {}", if modified { "modified" } else { "clean" }), [of(9), of(12)])
    };
    [1, 4, 16].into_iter().flat_map(|n| [row(n, false), row(n, true)]).collect()
}

fn rows() -> Vec<(String, [Row; 2])> {
    commits().into_iter().chain(others()).chain(rooms()).collect()
}

/// Instructions of the row's function in that many rounds and the set-up.
fn collected(row: usize, symbol: &str, rounds: usize) -> u64 {
    let file = std::env::temp_dir().join(format!("bench_count_{}", std::process::id()));
    let output = Command::new("valgrind")
        .args(["--tool=callgrind", &format!("--toggle-collect={symbol}")])
        .arg(format!("--callgrind-out-file={}", file.display()))
        .arg(std::env::current_exe().unwrap())
        .args(["--count", &row.to_string(), &rounds.to_string()])
        .output()
        .unwrap();
    assert!(output.status.success(), "{}", String::from_utf8_lossy(&output.stderr));
    let text = std::fs::read_to_string(&file).unwrap();
    std::fs::remove_file(&file).unwrap();
    let total = text.lines().find_map(|line| line.strip_prefix("totals: ")).expect("callgrind gives no total");
    total.trim().parse().unwrap()
}

fn counted(row: usize, symbol: &str) -> u64 {
    let (once, twice) = (collected(row, symbol, ROUNDS), collected(row, symbol, 2 * ROUNDS));
    assert!(twice > once, "callgrind does not find {symbol}");
    (twice - once + ROUNDS as u64 / 2) / ROUNDS as u64
}

pub fn run(words: &[String]) {
    if let [row, rounds] = words {
        let row: usize = row.parse().unwrap();
        return rows()[row / 2].1[row % 2].run(rounds.parse().unwrap());
    }
    if Command::new("valgrind").arg("--version").output().is_err() {
        println!("valgrind is not installed: no instructions are counted.");
        return;
    }
    println!("Instructions of a commit of n blocks; S 256, N 128 or as said, D 65,536, N / 2 entries in use. Numbers in turn or random.\n");
    println!("| commit of | library | unproved |\n|---|---|---|");
    for (index, (name, pair)) in rows().iter().enumerate() {
        if index == commits().len() {
            println!("\nInstructions of the other calls; S 256, N 128, D 65,536, 64 entries in use.\n");
            println!("| call | B 512 | B 4096 |\n|---|---|---|");
        }
        let [one, other] = [0, 1].map(|column| counted(2 * index + column, pair[column].symbol));
        println!("| {name} | {one} | {other} |");
    }
}
