//! What a run of cases has reached: maps, spots, pixels with both polarities, spots at sigma 0, each gate's rejections, each radius of a level, each return
//! without a statistic or a size, each pair of answers that an edge parts.

use crate::desks::Desks;
use crate::judged::Judge;
use crate::partners::Partners;
use crate::search::{Kind, kind};
use crate::stores::Stores;
use cases::causes::STATISTIC;
use cases::levels::TAPS;
use cases::records::{OLD, OLD_SIZED, PRESENT, SPOT, cut};
use cases::scenes::{ONCE, RECORD};
use cases::{Case, Scene, Start};
use judge::{Logs, levels};
use std::collections::BTreeMap;
use subject::{Fed, Lent, Reply, Subject, Tiling, made_of};

/// Counts over a run.
#[derive(Default)]
pub struct Tally {
    cases: BTreeMap<String, usize>,
    refusals: BTreeMap<String, usize>,
    maps: usize,
    with_spot: usize,
    spots: usize,
    both: usize,
    at_sigma_zero: usize,
    radii: [usize; TAPS],
    returns: Vec<(&'static str, u64)>,
    kinds: BTreeMap<(&'static str, Kind), usize>,
    pairs: BTreeMap<(&'static str, [Kind; 2]), usize>,
    side: Option<Kind>,
    joins: BTreeMap<(bool, &'static str), usize>,
    pub feeds: BTreeMap<String, Fedness>,
    pub scenes: Scenes,
    pub desks: Desks,
    pub stores: Stores,
    pub partners: Partners,
}

/// What scenes answered, by its number: of 6 how many after so many tiles; the records of scenes that were taken, the most tiles that had some, and the tiles
/// that are detected twice for their number.
#[derive(Default)]
pub struct Scenes {
    answers: [usize; 11],
    short: BTreeMap<u64, usize>,
    records: usize,
    tiles: usize,
    twice: usize,
}

/// The judge's scenes, counted.
impl Subject for Scenes {
    fn name(&self) -> String {
        Judge::sound().name()
    }

    fn scene(&mut self, given: &Start, levels: [&[f32]; 4], lent: Tiling<'_>) -> Option<Fed> {
        let Tiling { slices, out } = lent;
        let written = Tiling {
            slices,
            out: &mut *out,
        };
        let fed = Judge::sound().scene(given, levels, written)?;
        self.answers[fed.number as usize] += 1;
        if fed.number == 6 {
            *self.short.entry(fed.value).or_default() += 1;
        }
        if fed.number == 0 {
            self.add(&out[..RECORD * fed.value as usize]);
        }
        Some(fed)
    }
}

impl Scenes {
    /// Counts the records of a scene, tile by tile.
    fn add(&mut self, records: &[u8]) {
        let records: Vec<&[u8]> = records.chunks_exact(RECORD).collect();
        let tiles: Vec<_> = records
            .chunk_by(|one, next| one[..4] == next[..4])
            .collect();
        self.records += records.len();
        self.tiles = self.tiles.max(tiles.len());
        self.twice += tiles.iter().filter(|tile| tile.len() > ONCE).count();
    }

    /// The answers that no scene has.
    pub fn not_reached(&self) -> Vec<&'static str> {
        let of_number = |number: usize| self.answers[number] > 0;
        let all = [
            ("0", of_number(0)),
            ("2", of_number(2)),
            ("3", of_number(3)),
            ("4", of_number(4)),
            ("8", of_number(8)),
            ("10", of_number(10)),
            ("6 after no tile", self.short.contains_key(&0)),
            ("6 after some", self.short.len() > 1),
            ("more spots than are listed at once", self.twice > 0),
        ];
        all.iter().filter(|one| !one.1).map(|one| one.0).collect()
    }
}

/// What the feeds of a family answered: starts and columns by their number, and the columns that listed records, with how many.
#[derive(Default)]
pub struct Fedness {
    starts: [usize; 10],
    columns: [usize; 10],
    listing: usize,
    records: usize,
    both: usize,
}

/// The judge's feed, counted.
impl Subject for Fedness {
    fn name(&self) -> String {
        Judge::sound().name()
    }

    fn feed_start(
        &mut self,
        start: &Start,
        ring: [&[f32]; 4],
        state: &mut [u8],
    ) -> Option<Result<(), u32>> {
        let answer = Judge::sound().feed_start(start, ring, state)?;
        self.starts[answer.err().unwrap_or(0) as usize] += 1;
        Some(answer)
    }

    fn feed_column(&mut self, columns: [&[f32]; 4], lent: Lent<'_>) -> Option<Fed> {
        let Lent { state, ring, out } = lent;
        let written = Lent {
            state,
            ring,
            out: &mut *out,
        };
        let fed = Judge::sound().feed_column(columns, written)?;
        self.columns[fed.number as usize] += 1;
        let records = &out[..SPOT * fed.value as usize];
        let keys: Vec<&[u8]> = records.chunks_exact(SPOT).map(|one| &one[32..36]).collect();
        self.listing += usize::from(!keys.is_empty());
        self.records += keys.len();
        self.both += keys.windows(2).filter(|pair| pair[0] == pair[1]).count();
        Some(fed)
    }
}

/// The returns that no input takes: crates/unreached has the proof.
const UNREACHED: [&str; 5] = [
    "statistic, roots",
    "statistic, largest root",
    "statistic, scaled roots",
    "statistic, energies",
    "statistic, last quotient",
];

/// What a join answers.
const JOINS: [&str; 7] = [
    "0",
    "1",
    "4",
    "5 for the length",
    "5 for a record",
    DISPLACEMENT,
    "6",
];
const DISPLACEMENT: &str = "5 for a displacement alone";

/// A join's answer, told by its words and its list.
fn join_answer(old: bool, list: &[u8], case: &Case, text: &str) -> &'static str {
    let form = if old { OLD } else { PRESENT };
    let words = text.split(':').next().unwrap_or_default();
    match words.strip_prefix("refused ") {
        None => "0",
        Some("1") => "1",
        Some("4") => "4",
        Some("6") => "6",
        Some(_) if !list.len().is_multiple_of(form.spot) => "5 for the length",
        Some(words) => {
            let index = words
                .strip_prefix("5 at ")
                .and_then(|word| word.parse().ok());
            let record = index.and_then(|index: usize| list.chunks_exact(form.spot).nth(index));
            match record.is_some_and(|record| !old && taken_as_old(case, record)) {
                true => DISPLACEMENT,
                false => "5 for a record",
            }
        }
    }
}

/// Whether the old lists' join takes a record's first bytes.
fn taken_as_old(case: &Case, record: &[u8]) -> bool {
    let Case::Join {
        set, rows, cols, ..
    } = case
    else {
        return false;
    };
    let mut out = [0; OLD_SIZED];
    let reply = Judge::sound().join_old(set, *rows, *cols, &cut(record), &mut out);
    reply == Some(Reply::Done(1))
}

/// The families at whose edges the kind of an answer turns.
const EDGES: [&str; 3] = ["size-edge", "cause-edge", "statistic-edge"];

impl Tally {
    /// Counts the returns that the judge took in one case.
    pub fn add_returns(&mut self, returns: &[(&'static str, u64)]) {
        if self.returns.is_empty() {
            return self.returns.extend_from_slice(returns);
        }
        for (sum, one) in self.returns.iter_mut().zip(returns) {
            sum.1 += one.1;
        }
    }

    /// Counts what is answered to a correction or a statistic, and what an edge parts: its two sides come one after the other.
    pub fn add_kind(&mut self, family: &'static str, case: &Case) {
        if !matches!(
            case,
            Case::Correct { .. }
                | Case::Inner {
                    function: STATISTIC,
                    ..
                }
        ) {
            return;
        }
        let here = kind(case);
        *self.kinds.entry((family, here)).or_default() += 1;
        if !EDGES.contains(&family) {
            return;
        }
        self.side = match self.side {
            None => Some(here),
            Some(there) => {
                let pair = [here.min(there), here.max(there)];
                *self.pairs.entry((family, pair)).or_default() += 1;
                None
            }
        };
    }

    /// The returns that were taken, of those that no input takes; and those that were not, of the others.
    pub fn odd_returns(&self) -> [Vec<&'static str>; 2] {
        [true, false].map(|unreached| {
            let odd = |(place, count): &&(&str, u64)| {
                UNREACHED.contains(place) == unreached && (*count > 0) == unreached
            };
            self.returns.iter().filter(odd).map(|one| one.0).collect()
        })
    }

    /// The pairs of kinds that no edge parts: of a correction, and of a statistic.
    pub fn pairs_not_reached(&self) -> Vec<(&'static str, [Kind; 2])> {
        let kinds = [Kind::Number, Kind::Cause(1), Kind::Cause(2), Kind::Cause(3)];
        let mut all = Vec::new();
        for (family, kinds) in [("cause-edge", &kinds[..3]), ("statistic-edge", &kinds[..])] {
            for (place, &one) in kinds.iter().enumerate() {
                all.extend(
                    kinds[place + 1..]
                        .iter()
                        .map(|&other| (family, [one, other])),
                );
            }
        }
        all.retain(|pair| !self.pairs.contains_key(pair));
        all
    }

    /// The answers, of a start and of a column, that no feed has.
    pub fn answers_not_reached(&self) -> Vec<String> {
        let mut all = Vec::new();
        for (of, numbers) in [
            ("start", &[0, 1, 3, 4, 6, 8][..]),
            ("column", &[0, 2, 6, 9][..]),
        ] {
            for &number in numbers {
                let count = |fed: &Fedness| match of {
                    "start" => fed.starts[number],
                    _ => fed.columns[number],
                };
                if self.feeds.values().map(count).sum::<usize>() == 0 {
                    all.push(format!("{of} {number}"));
                }
            }
        }
        all
    }

    /// The answers that none of the two joins has.
    pub fn joins_not_reached(&self) -> Vec<(bool, &'static str)> {
        let both = |answer| [(false, answer), (true, answer)];
        let mut all: Vec<_> = JOINS.iter().copied().flat_map(both).collect();
        all.retain(|one| *one != (true, DISPLACEMENT) && !self.joins.contains_key(one));
        all
    }

    /// The radii, 1 to 16, that no level was made with.
    pub fn radii_not_reached(&self) -> Vec<usize> {
        (1..TAPS)
            .filter(|&radius| self.radii[radius] == 0)
            .collect()
    }

    /// Counts a case and the judge's answer to it.
    pub fn add(&mut self, family: &str, case: &Case, answer: &[u8]) {
        *self.cases.entry(family.to_string()).or_default() += 1;
        let text = String::from_utf8_lossy(&answer[..answer.len().min(24)]).into_owned();
        if let Case::Join { old, list, .. } = case {
            let answer = join_answer(*old, list, case, &text);
            *self.joins.entry((*old, answer)).or_default() += 1;
        }
        if text.starts_with("refused") && !matches!(case, Case::Desks { .. } | Case::Stores { .. })
        {
            let number: String = text
                .split([' ', ':', '\n'])
                .take(2)
                .collect::<Vec<_>>()
                .join(" ");
            *self
                .refusals
                .entry(format!("{family} {number}"))
                .or_default() += 1;
            return;
        }
        match case {
            Case::List { .. } => self.add_list(answer),
            Case::Detect { scene, .. } | Case::Sized { scene } | Case::OldSized { scene } => {
                self.add_scene(scene)
            }
            Case::FromRaw { scene, pixels } => {
                if let Some(Ok(scene)) = made_of(&mut Judge::sound(), scene, pixels) {
                    self.add_scene(&scene);
                }
            }
            Case::Levels { record, raw, .. } => self.add_radii(record, raw.octave),
            _ => {}
        }
    }

    fn add_radii(&mut self, record: &[u8], octave: usize) {
        let set = judge::Set::from_record(record).unwrap_or_else(judge::Set::t);
        for kernel in levels::kernels(Logs::Steps, &set, octave) {
            self.radii[kernel.radius] += 1;
        }
    }

    fn add_list(&mut self, answer: &[u8]) {
        let text = String::from_utf8_lossy(answer);
        let lines: Vec<&str> = text.lines().collect();
        let count = lines.last().and_then(|line| line.strip_prefix("found "));
        let Some(count) = count.and_then(|count| count.parse().ok()) else {
            return;
        };
        let word =
            |line: &str, from: usize| u32::from_str_radix(&line[from..from + 8], 16).unwrap_or(0);
        let records: Vec<(u32, u32)> = lines[..lines.len() - 1]
            .iter()
            .map(|line| (word(line, 64), word(line, 16)))
            .collect();
        self.add_records(count, &records);
    }

    fn add_scene(&mut self, scene: &Scene) {
        let mut out = vec![0u8; 2 * SPOT * scene.rows * scene.cols];
        let reply = subject::Subject::detect(&mut Judge::sound(), scene, &mut out);
        if let Some(subject::Reply::Done(count)) = reply {
            let word = |record: &[u8], from: usize| {
                u32::from_be_bytes(core::array::from_fn(|place| record[from + place]))
            };
            let records: Vec<(u32, u32)> = out[..SPOT * count]
                .chunks_exact(SPOT)
                .map(|record| (word(record, 32), word(record, 8)))
                .collect();
            self.add_records(count, &records);
        }
    }

    /// Records by their key and sigma, both as they stand in the bytes.
    fn add_records(&mut self, count: usize, records: &[(u32, u32)]) {
        self.maps += 1;
        self.with_spot += usize::from(count > 0);
        self.spots += count;
        self.both += records
            .windows(2)
            .filter(|pair| pair[0].0 == pair[1].0)
            .count();
        self.at_sigma_zero += records.iter().filter(|record| record.1 == 0).count();
    }

    /// Prints the counts and the judge's gates.
    pub fn print(&self) {
        for (family, count) in &self.cases {
            println!("cases {family}: {count}");
        }
        for (name, count) in &self.refusals {
            println!("{name}: {count}");
        }
        println!("maps: {}", self.maps);
        println!("maps with a spot: {}", self.with_spot);
        println!("spots: {}", self.spots);
        println!("pixels with both: {}", self.both);
        println!("spots at sigma 0: {}", self.at_sigma_zero);
        println!("levels by their radius, 0 to 16: {:?}", self.radii);
        for (gate, count) in judge::counts() {
            println!("rejected, {gate}: {count}");
        }
        for (family, fed) in &self.feeds {
            let told = |answers: &[usize; 10]| {
                let all = answers.iter().enumerate().filter(|answer| *answer.1 > 0);
                let all: Vec<String> = all
                    .map(|(number, count)| format!("{number}: {count}"))
                    .collect();
                all.join(", ")
            };
            println!("{family}, starts by their answer: {}", told(&fed.starts));
            println!(
                "{family}, columns by their answer: {}; {} list {} records, {} pixels with both",
                told(&fed.columns),
                fed.listing,
                fed.records,
                fed.both
            );
        }
        let Scenes {
            answers,
            short,
            records,
            tiles,
            twice,
        } = &self.scenes;
        println!("scenes by their answer, 0 to 10: {answers:?}; 6 after so many tiles: {short:?}");
        println!(
            "scenes list {records} records, in {tiles} tiles at most; {twice} tiles are detected twice"
        );
        println!("desks, {}", self.desks.told());
        self.desks.print_pairs();
        println!("stores, {}", self.stores.told());
        self.stores.print();
        println!("partners, {}", self.partners.told());
        self.partners.print();
        for ((old, answer), count) in &self.joins {
            let of = if *old { "old lists" } else { "lists" };
            println!("joins of {of}, {answer}: {count}");
        }
        for (place, count) in &self.returns {
            println!("returns, {place}: {count}");
        }
        for ((family, kind), count) in &self.kinds {
            println!("answers, {family}, {kind:?}: {count}");
        }
        for ((family, pair), count) in &self.pairs {
            println!("edges, {family}, {pair:?}: {count}");
        }
    }
}
