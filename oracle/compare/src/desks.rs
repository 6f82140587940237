//! What calls on a table of sets are refused for, counted; and two desks apart: histories that differ in one desk's calls alone.

use crate::own::told;
use cases::desks::{COUNTS, Kind, OWNERS, Pool, SLOTS, TABLE};
use cases::random::Random;
use cases::sets::RECORD;
use cases::{Ask, Asked, Scene};
use judge::Set;
use std::time::Instant;
use subject::{Fed, Subject, ask, output};

/// Apart from the families' own sources.
const SOURCE: u64 = 1 << 36;

/// The calls' names.
const CALLS: [&str; 4] = ["claim", "write", "release", "run"];

/// What a call may be refused for, in the order in which it is asked, and the number of each.
const CAUSES: [(&str, u32); 10] = [
    ("length", 11),
    ("desk", 11),
    ("slot", 11),
    ("owner", 11),
    ("count", 12),
    ("size", 1),
    ("level", 2),
    ("octave", 3),
    ("thresholds", 8),
    ("set", 4),
];
const LENGTH: usize = 0;
const DESK: usize = 1;
const SLOT: usize = 2;
const OWNER: usize = 3;
const COUNT: usize = 4;
const SIZE: usize = 5;
const LEVEL: usize = 6;
const OCTAVE: usize = 7;
const THRESHOLDS: usize = 8;
const SET: usize = 9;

/// The causes that each call can have.
const OF_CALL: [&[usize]; 4] = [
    &[LENGTH, DESK, SLOT, OWNER, COUNT],
    &[LENGTH, DESK, SLOT, OWNER, COUNT, SET],
    &[LENGTH, DESK, SLOT, OWNER],
    &[LENGTH, SLOT, OWNER, SIZE, LEVEL, OCTAVE, THRESHOLDS, SET],
];

/// Which causes a call has.
type Causes = [bool; CAUSES.len()];

/// A call's place among their names.
fn place(ask: &Ask) -> usize {
    match ask {
        Ask::Claim { .. } => 0,
        Ask::Write { .. } => 1,
        Ask::Release { .. } => 2,
        Ask::Run { .. } => 3,
    }
}

/// A call in words, without its record or its map.
pub fn in_words(call: &Asked) -> String {
    let by = call
        .ask
        .desk()
        .map_or(String::new(), |desk| format!(" by desk {desk}"));
    let name = CALLS[place(&call.ask)];
    format!("{name}{by} at slot {}, {} bytes lent", call.slot, call.lent)
}

/// Whether sides, levels, octave and thresholds of a map are refused.
fn of_map(scene: &Scene) -> [bool; 4] {
    let size = scene.rows.checked_mul(scene.cols);
    let wrong = |level: &Vec<f32>| Some(level.len()) != size;
    [
        scene.rows > 4096 || scene.cols > 4096,
        scene.levels.iter().any(wrong),
        scene.octave > 5,
        scene.thresholds.iter().any(|threshold| threshold.is_nan()),
    ]
}

/// All causes that a call has, whichever is answered: those of an owner, of a count and of a slot's set where the table has such a slot.
pub fn causes(table: &[u8], call: &Asked) -> Causes {
    let mut causes = [false; CAUSES.len()];
    let desk = call.ask.desk();
    causes[LENGTH] = table.len() != TABLE;
    causes[DESK] = desk.is_some_and(|desk| desk != 1 && desk != 2);
    causes[SLOT] = call.slot > 7;
    if let Ask::Write { record, .. } = &call.ask {
        causes[SET] = Set::from_record(record).is_none();
    }
    if let Ask::Run { scene, .. } = &call.ask {
        causes[SIZE..SET].copy_from_slice(&of_map(scene));
    }
    if causes[LENGTH] || causes[SLOT] {
        return causes;
    }
    let owner = usize::from(table[OWNERS + call.slot]);
    let full = table[COUNTS + 4 * call.slot..][..4] == [255; 4];
    causes[OWNER] = match &call.ask {
        Ask::Claim { .. } => owner != 0,
        Ask::Write { desk, .. } | Ask::Release { desk } => owner != *desk,
        Ask::Run { .. } => owner != 1 && owner != 2,
    };
    causes[COUNT] = full && matches!(call.ask, Ask::Claim { .. } | Ask::Write { .. });
    if let Ask::Run { .. } = call.ask {
        causes[SET] = Set::from_record(set_of(table, call.slot)).is_none();
    }
    causes
}

/// The record that a slot holds.
fn set_of(table: &[u8], slot: usize) -> &[u8] {
    &table[RECORD * slot..][..RECORD]
}

/// What calls were answered, the pairs of causes that they had, releases done at the largest count, runs that list spots, and the first call that is not
/// answered by the first of its causes.
#[derive(Default)]
pub struct Desks {
    calls: usize,
    answers: [[usize; 13]; 4],
    pairs: [[[usize; CAUSES.len()]; CAUSES.len()]; 4],
    released: usize,
    listing: usize,
    records: usize,
    odd: Option<String>,
}

impl Desks {
    /// Counts a call on a table as it was before, and its answer.
    pub fn add(&mut self, table: &[u8], call: &Asked, fed: Fed) {
        let (causes, of) = (causes(table, call), place(&call.ask));
        self.calls += 1;
        self.answers[of][fed.number.min(12) as usize] += 1;
        if fed.number == 0 {
            self.listing += usize::from(fed.value > 0);
            self.records += fed.value as usize;
        }
        for (one, held) in causes.iter().enumerate() {
            for (other, both) in causes.iter().enumerate().skip(one + 1) {
                self.pairs[of][one][other] += usize::from(*held && *both);
            }
        }
        if of == 2 && fed.number == 0 && table[COUNTS + 4 * call.slot..][..4] == [255; 4] {
            self.released += 1;
        }
        let first = causes.iter().position(|&held| held);
        let due = first.map_or(0, |first| CAUSES[first].1);
        if fed.number != due || due != 0 && fed.value != 0 {
            let words = || format!("{}: {fed:?}, by its causes {due}", in_words(call));
            self.odd.get_or_insert_with(words);
        }
    }

    /// Counts a history by a subject's answers.
    pub fn add_history(&mut self, subject: &mut dyn Subject, table: &[u8], calls: &[Asked]) {
        let mut table = table.to_vec();
        for call in calls {
            let before = table[..call.lent].to_vec();
            if let Some(fed) = ask(subject, &mut table, call, &mut output(call)) {
                self.add(&before, call, fed);
            }
        }
    }

    /// The first call that is not answered by the first of its causes.
    pub fn odd(&self) -> Option<String> {
        self.odd.clone()
    }

    /// The answers and the pairs of causes that no call has. Of a table of another length, or of a slot above 7, no owner, count or set is told.
    pub fn not_reached(&self) -> Vec<String> {
        let mut all = Vec::new();
        for (of, causes) in OF_CALL.iter().enumerate() {
            let numbers = causes.iter().map(|&cause| CAUSES[cause].1);
            for number in numbers.chain([0]) {
                if self.answers[of][number as usize] == 0 {
                    all.push(format!("{} {number}", CALLS[of]));
                }
            }
            for (place, &one) in causes.iter().enumerate() {
                for &other in &causes[place + 1..] {
                    let untold = [LENGTH, SLOT].contains(&one)
                        && ([OWNER, COUNT].contains(&other) || of == 3 && other == SET);
                    if !untold && self.pairs[of][one][other] == 0 {
                        let (one, other) = (CAUSES[one].0, CAUSES[other].0);
                        all.push(format!("{} with {one} and {other}", CALLS[of]));
                    }
                }
            }
        }
        if self.released == 0 {
            all.push("a release at the largest count".into());
        }
        if self.listing == 0 {
            all.push("a run that lists a spot".into());
        }
        all.dedup();
        all
    }

    /// How often each call was done.
    #[cfg(feature = "archive")]
    pub fn done(&self) -> [usize; 4] {
        self.answers.map(|answers| answers[0])
    }

    /// How often each answer was given, and how often each pair of causes was met at least.
    pub fn told(&self) -> String {
        let mut all = Vec::new();
        for (name, answers) in CALLS.iter().zip(&self.answers) {
            let given = answers.iter().enumerate().filter(|answer| *answer.1 > 0);
            let given: Vec<String> = given
                .map(|(number, count)| format!("{count} with {number}"))
                .collect();
            all.push(format!("{name} {}", given.join(", ")));
        }
        let pairs: Vec<usize> = (0..CALLS.len())
            .flat_map(|of| self.pairs_of(of).map(|pair| pair.2))
            .collect();
        format!(
            "{} calls: {}; {} runs list {} records, {} releases at the largest count; {} pairs of causes, each at least {} times",
            self.calls,
            all.join("; "),
            self.listing,
            self.records,
            self.released,
            pairs.len(),
            pairs.iter().min().unwrap_or(&0)
        )
    }

    /// The pairs of causes that calls of a name had, with how many had them.
    fn pairs_of(&self, of: usize) -> impl Iterator<Item = (&'static str, &'static str, usize)> {
        let pairs = self.pairs[of].iter().enumerate();
        let all = pairs.flat_map(|(one, others)| {
            let named =
                move |(other, &count): (usize, &usize)| (CAUSES[one].0, CAUSES[other].0, count);
            others.iter().enumerate().map(named)
        });
        all.filter(|pair| pair.2 > 0)
    }

    /// The same in lines, one for each call.
    pub fn print_pairs(&self) {
        for (of, name) in CALLS.iter().enumerate() {
            let pairs = self.pairs_of(of);
            let pairs: Vec<String> = pairs
                .map(|(one, other, count)| format!("{one} and {other} {count}"))
                .collect();
            println!("desks, two causes of a {name}: {}", pairs.join(", "));
        }
    }
}

/// What two histories that part by the other desk's calls have shown.
#[derive(Default)]
struct Apart {
    histories: usize,
    compared: [usize; 13],
    listing: usize,
    others: [usize; 2],
    at_own: usize,
    unlike: usize,
    claims: usize,
    runs: usize,
}

/// A slot's set, owner and count.
fn held(table: &[u8], slot: usize) -> (&[u8], u8, &[u8]) {
    let count = &table[COUNTS + 4 * slot..][..4];
    (set_of(table, slot), table[OWNERS + slot], count)
}

/// Both tables, and what is the desk's own in them.
struct Worlds<'a> {
    subject: &'a mut dyn Subject,
    pool: &'a Pool,
    desk: usize,
    tables: [Vec<u8>; 2],
    own: Vec<usize>,
}

impl Worlds<'_> {
    /// One call on one of the tables: its answer and its output.
    fn asked(&mut self, world: usize, call: &Asked) -> (Fed, Vec<u8>) {
        let mut out = output(call);
        let fed = ask(self.subject, &mut self.tables[world], call, &mut out);
        (fed.expect("both offer it"), out)
    }

    /// Calls that are not the desk's, on one table alone; at its own slots half of the time.
    fn disturb(&mut self, random: &mut Random, world: usize, seen: &mut Apart) {
        for _ in 0..random.below(5) {
            let owners = &self.tables[world][OWNERS..COUNTS];
            let all = [0, 1, 2, 3, 4, 5, 6, 7];
            let mut call = self.pool.call(random, &all, owners, 8);
            if call.ask.desk() == Some(self.desk) {
                call.ask = call.ask.by(3 - self.desk);
            }
            if random.once_in(2) {
                call.slot = random.pick(&self.own);
            }
            let (fed, _) = self.asked(world, &call);
            seen.others[usize::from(fed.number > 0)] += 1;
            seen.at_own += usize::from(self.own.contains(&call.slot));
        }
    }

    /// One call of the desk's on both tables: at its own slots both answer and leave the same, elsewhere they need not.
    fn step(&mut self, random: &mut Random, seen: &mut Apart) -> Result<(), String> {
        let owners = &self.tables[0][OWNERS..COUNTS];
        let mut call = self.pool.call(random, &self.own, owners, 3);
        call.ask = call.ask.by(self.desk);
        if matches!(call.ask, Ask::Release { .. }) && !random.once_in(4) {
            return Ok(());
        }
        let [one, other] = [0, 1].map(|world| self.asked(world, &call));
        if !self.own.contains(&call.slot) {
            seen.claims += usize::from(place(&call.ask) == 0 && one != other);
            let runs = place(&call.ask) == 3 && self.both_the_others(call.slot);
            seen.runs += usize::from(runs && one != other);
            return Ok(());
        }
        seen.compared[one.0.number.min(12) as usize] += 1;
        seen.listing += usize::from(one.0.value > 0);
        if one != other {
            let words = in_words(&call);
            return Err(format!("{words}: {:?} and {:?}", one.0, other.0));
        }
        self.same()?;
        if matches!(call.ask, Ask::Release { .. }) && one.0.number == 0 {
            self.own.retain(|&slot| slot != call.slot);
        }
        seen.unlike += usize::from(self.tables[0] != self.tables[1]);
        Ok(())
    }

    /// Whether a slot is the other desk's in both.
    fn both_the_others(&self, slot: usize) -> bool {
        let others = |table: &Vec<u8>| usize::from(table[OWNERS + slot]) == 3 - self.desk;
        slot < SLOTS && self.tables.iter().all(others)
    }

    /// Whether the desk's own slots hold the same in both.
    fn same(&self) -> Result<(), String> {
        let [one, other] = &self.tables;
        let parted = |slot: &&usize| held(one, **slot) != held(other, **slot);
        match self.own.iter().find(parted) {
            None => Ok(()),
            Some(slot) => Err(format!("slot {slot} holds another set, owner or count")),
        }
    }
}

/// How many calls of its own a desk makes in a history.
const STEPS: usize = 40;

/// One history up to where a desk has claimed slots, then two that part by the other desk's calls.
fn parted(
    seed: u64,
    number: usize,
    pool: &Pool,
    subject: &mut dyn Subject,
    seen: &mut Apart,
) -> Result<(), String> {
    let random = &mut Random::new(seed, SOURCE, number as u64);
    let kinds = [Kind::New, Kind::Held, Kind::Ends, Kind::Borders];
    let (kind, desk) = (random.pick(&kinds), 1 + number % 2);
    let mut table = pool.table(random, kind);
    for slot in 0..SLOTS {
        if random.once_in(2) {
            let ask = Ask::Claim { desk };
            let lent = TABLE;
            let call = Asked { lent, slot, ask };
            subject::ask(subject, &mut table, &call, &mut []);
        }
    }
    let own = |slot: &usize| usize::from(table[OWNERS + slot]) == desk;
    let own: Vec<usize> = (0..SLOTS).filter(own).collect();
    let mut worlds = Worlds {
        subject,
        pool,
        desk,
        tables: [table.clone(), table],
        own,
    };
    seen.histories += 1;
    for _ in 0..STEPS {
        if worlds.own.is_empty() {
            break;
        }
        for world in [0, 1] {
            worlds.disturb(random, world, seen);
        }
        worlds.step(random, seen)?;
    }
    worlds.same()
}

/// Histories of a subject that part by the other desk's calls, or by those of no desk: a desk's own slots answer and hold the same until it gives them back.
pub fn apart(name: &str, seed: u64, histories: usize, subject: &mut dyn Subject) -> bool {
    let begun = Instant::now();
    let pool = Pool::new(&mut Random::new(seed, SOURCE, u64::MAX), 24);
    let (mut seen, mut first) = (Apart::default(), None);
    for number in 0..histories {
        if let Err(words) = parted(seed, number, &pool, subject, &mut seen) {
            first.get_or_insert_with(|| format!("seed {seed}, history {number}: {words}"));
        }
    }
    let Apart {
        histories,
        compared,
        listing,
        others: [done, refused],
        at_own,
        unlike,
        claims,
        runs,
    } = seen;
    let all: usize = compared.iter().sum();
    let [sound, four, eleven, twelve] = [0, 4, 11, 12].map(|number| compared[number]);
    let seconds = begun.elapsed().as_secs_f64();
    let told_so = format!(
        "{histories} pairs of histories, {all} calls at own slots alike: {sound} done, {listing} of them runs that list spots, refused {four} with 4, {eleven} \
         with 11, {twelve} with 12; beside them {done} calls of others done and {refused} refused, {at_own} of them at own slots; the tables part {unlike} \
         times; elsewhere {claims} claims and {runs} runs from the other's slots part, {seconds:.1} s"
    );
    let reached = [
        sound, listing, four, eleven, twelve, done, refused, at_own, unlike, claims, runs,
    ];
    let hollow = (histories >= 200 && reached.contains(&0))
        .then(|| "something that none of them shows".to_string());
    told(name, first.or(hollow), &told_so)
}
