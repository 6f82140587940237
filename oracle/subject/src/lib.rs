//! What is under test, behind one trait, and its answers as plain bytes.

use cases::maps::Levels;
use cases::partners::{Offer, offers};
use cases::records::{OLD, PRESENT, SIZED, SPOT, cut};
use cases::{Ask, Asked, Case, Feed, Given, Keep, Keeping, Raw, Scene, Set, Start};
use std::borrow::Cow;

#[cfg(feature = "archive")]
pub mod archive;
#[cfg(feature = "archive")]
pub mod desks;
#[cfg(feature = "archive")]
pub mod guarded;
#[cfg(feature = "archive")]
pub mod partners;
pub mod piped;
#[cfg(feature = "probe")]
pub mod probe;
pub mod process;
#[cfg(feature = "archive")]
mod scene;
pub mod stored;
#[cfg(feature = "archive")]
pub mod stores;

/// An answer of detection or the join: a count, or a refusal with its number and index.
#[derive(Clone, Copy, Debug, PartialEq, Eq)]
pub enum Reply {
    Done(usize),
    Refused { number: u32, index: usize },
}

/// An answer of the correction: a size or a refusal's number, and beside it the cause, 0 where there is none.
#[derive(Clone, Copy, Debug, PartialEq)]
pub struct Correction {
    pub size: Result<f32, u32>,
    pub cause: u8,
}

/// An answer of a feed's column, of a whole scene, of a run from a table's slot or of a store: 0 or a refusal's number, and the value beside it.
#[derive(Clone, Copy, Debug, PartialEq, Eq)]
pub struct Fed {
    pub number: u32,
    pub value: u64,
}

impl Fed {
    fn told(self) -> String {
        match self {
            Fed { number: 0, value } => format!("done {value}:"),
            Fed { number, value: 0 } => format!("refused {number}:"),
            Fed { number, value } => format!("refused {number} with {value}:"),
        }
    }
}

/// An answer of the reader of a partner's list: 0 or a refusal's number, the finding's number, 0 beside a refusal, and the value beside both.
#[derive(Clone, Copy, Debug, PartialEq, Eq)]
pub struct Reading {
    pub number: u32,
    pub finding: u32,
    pub value: u64,
}

impl Reading {
    fn told(self) -> String {
        let Reading {
            number,
            finding,
            value,
        } = self;
        format!("{number} finding {finding} at {value}:")
    }
}

/// What a feed's column is lent, to be written.
pub struct Lent<'a> {
    pub state: &'a mut [u8],
    pub ring: [&'a mut [f32]; 4],
    pub out: &'a mut [u8],
}

/// What a whole scene is lent, to be written.
pub struct Tiling<'a> {
    pub slices: [&'a mut [f32]; 4],
    pub out: &'a mut [u8],
}

/// What a desk asks of a slot.
#[derive(Clone, Copy, Debug)]
pub enum Call<'a> {
    Claim,
    Write(&'a [u8]),
    Release,
}

/// One implementation; a function it does not offer answers None.
pub trait Subject {
    /// What the reports call it.
    fn name(&self) -> String;

    /// The list program: standard input to standard output.
    fn list_program(&mut self, _input: &[u8]) -> Option<Vec<u8>> {
        None
    }

    /// Detection into a lent buffer.
    fn detect(&mut self, _scene: &Scene, _out: &mut [u8]) -> Option<Reply> {
        None
    }

    /// The join of a list of spot records into a lent buffer.
    fn join(
        &mut self,
        _set: &Set,
        _rows: usize,
        _cols: usize,
        _list: &[u8],
        _out: &mut [u8],
    ) -> Option<Reply> {
        None
    }

    /// The join of an old list of spot records into a lent buffer.
    fn join_old(
        &mut self,
        _set: &Set,
        _rows: usize,
        _cols: usize,
        _list: &[u8],
        _out: &mut [u8],
    ) -> Option<Reply> {
        None
    }

    /// The correction: a corrected sigma or a refusal number, with the cause.
    fn correct(
        &mut self,
        _set: &Set,
        _samples: [f32; 4],
        _sigma: f32,
        _is_max: bool,
    ) -> Option<Correction> {
        None
    }

    /// The number of octaves.
    fn octave_count(&mut self, _rows: usize, _cols: usize) -> Option<usize> {
        None
    }

    /// Half the rows and cols into a lent buffer.
    fn downsample(
        &mut self,
        _rows: usize,
        _cols: usize,
        _level: &[f32],
        _out: &mut [f32],
    ) -> Option<Result<(usize, usize), u32>> {
        None
    }

    /// The set reader: accepted, or a refusal number.
    fn read_set(&mut self, _bytes: &[u8]) -> Option<Result<(), u32>> {
        None
    }

    /// The four levels of a raw map into lent buffers, under a set's record: done, or a refusal number.
    fn levels(
        &mut self,
        _record: &[u8],
        _raw: &Raw,
        _out: &mut [Vec<f32>; 4],
    ) -> Option<Result<(), u32>> {
        None
    }

    /// A feed's start on a ring, which it never writes, and a lent state: done, or a refusal number.
    fn feed_start(
        &mut self,
        _start: &Start,
        _ring: [&[f32]; 4],
        _state: &mut [u8],
    ) -> Option<Result<(), u32>> {
        None
    }

    /// A feed's column.
    fn feed_column(&mut self, _columns: [&[f32]; 4], _lent: Lent<'_>) -> Option<Fed> {
        None
    }

    /// A whole scene by tiles.
    fn scene(&mut self, _given: &Start, _levels: [&[f32]; 4], _lent: Tiling<'_>) -> Option<Fed> {
        None
    }

    /// A desk's call on a slot of a lent table: 0, or a refusal's number.
    fn desk_call(
        &mut self,
        _table: &mut [u8],
        _desk: usize,
        _slot: usize,
        _call: Call<'_>,
    ) -> Option<u32> {
        None
    }

    /// Detection under a slot's set, not the scene's own, into a lent buffer.
    fn desk_run(
        &mut self,
        _table: &[u8],
        _slot: usize,
        _scene: &Scene,
        _out: &mut [u8],
    ) -> Option<Fed> {
        None
    }

    /// A call on a lent store.
    fn store_call(&mut self, _store: &mut [u8], _keep: &Keep) -> Option<Fed> {
        None
    }

    /// Whether a partner's list is the one that detection gives.
    fn accept(&mut self, _given: &Start, _levels: [&[f32]; 4], _list: &[u8]) -> Option<Reading> {
        None
    }

    /// An inner function on words: a bool is 1.0 or 0.0, an absent number is no word, an absent statistic minus the number of its cause.
    fn inner(&mut self, _function: &str, _set: &Set, _words: &[f32]) -> Option<Vec<f32>> {
        None
    }
}

/// A subject's whole answer to a case as bytes: the reply, then each lent buffer after the call.
pub fn answer(subject: &mut dyn Subject, case: &Case) -> Option<Vec<u8>> {
    match case {
        Case::List { input } => subject.list_program(input),
        Case::Detect { scene, room, fill } => {
            let mut out = vec![*fill; *room];
            let reply = subject.detect(scene, &mut out)?;
            Some(with_reply(reply, &out))
        }
        Case::Join { .. } => joined(subject, case),
        Case::Sized { scene } => sized(subject, scene, false),
        Case::OldSized { scene } => sized(subject, scene, true),
        Case::Correct { .. } => corrected(subject, case),
        Case::Octaves { rows, cols } => {
            let count = subject.octave_count(*rows, *cols)?;
            Some((count as u64).to_le_bytes().to_vec())
        }
        Case::Downsample { .. } => halved(subject, case),
        Case::Reader { bytes } => Some(match subject.read_set(bytes)? {
            Ok(()) => vec![0],
            Err(number) => vec![number as u8],
        }),
        Case::Levels { .. } => levelled(subject, case),
        Case::FromRaw { scene, pixels } => from_raw(subject, scene, pixels),
        Case::Fed { feeds, given } => fed(subject, feeds, given),
        Case::Tiled { .. } => tiled(subject, case),
        Case::Desks { table, calls } => asked(subject, table, calls),
        Case::Stores { .. } => kept(subject, case),
        Case::Partners { .. } => offered(subject, case),
        Case::Inner {
            function,
            set,
            words,
        } => {
            let words = subject.inner(function, set, words)?;
            Some(word_bytes(&words, *function == "fit_spatial_quadratic"))
        }
    }
}

fn joined(subject: &mut dyn Subject, case: &Case) -> Option<Vec<u8>> {
    let Case::Join {
        old,
        set,
        rows,
        cols,
        list,
        room,
        fill,
    } = case
    else {
        return None;
    };
    let mut out = vec![*fill; *room];
    let reply = match old {
        true => subject.join_old(set, *rows, *cols, list, &mut out),
        false => subject.join(set, *rows, *cols, list, &mut out),
    };
    Some(with_reply(reply?, &out))
}

fn corrected(subject: &mut dyn Subject, case: &Case) -> Option<Vec<u8>> {
    let Case::Correct {
        set,
        samples,
        sigma,
        is_max,
    } = case
    else {
        return None;
    };
    let Correction { size, cause } = subject.correct(set, *samples, *sigma, *is_max)?;
    let mut bytes = match size {
        Ok(size) => [&[0u8][..], &size.to_le_bytes()].concat(),
        Err(number) => [&[1u8][..], &number.to_le_bytes()].concat(),
    };
    // A cause of 0 adds nothing.
    bytes.extend(Some(cause).filter(|&cause| cause != 0));
    Some(bytes)
}

fn halved(subject: &mut dyn Subject, case: &Case) -> Option<Vec<u8>> {
    let Case::Downsample {
        rows,
        cols,
        level,
        room,
        fill,
    } = case
    else {
        return None;
    };
    let mut out = vec![*fill; *room];
    let mut bytes = match subject.downsample(*rows, *cols, level, &mut out)? {
        Ok((rows, cols)) => format!("{rows} by {cols}:").into_bytes(),
        Err(number) => format!("refused {number}:").into_bytes(),
    };
    bytes.extend(word_bytes(&out, false));
    Some(bytes)
}

fn levelled(subject: &mut dyn Subject, case: &Case) -> Option<Vec<u8>> {
    let Case::Levels {
        record,
        raw,
        rooms,
        fill,
    } = case
    else {
        return None;
    };
    let mut out = core::array::from_fn(|level| vec![*fill + level as f32; rooms[level]]);
    let mut bytes = match subject.levels(record, raw, &mut out)? {
        Ok(()) => b"done:".to_vec(),
        Err(number) => format!("refused {number}:").into_bytes(),
    };
    bytes.extend(out.iter().flat_map(|level| word_bytes(level, false)));
    Some(bytes)
}

/// Feeds started, then columns given to them: of each start the reply and the state, of each call the reply, the state, the ring and the output.
fn fed(subject: &mut dyn Subject, feeds: &[Feed], given: &[Given]) -> Option<Vec<u8>> {
    let mut feeds = feeds.to_vec();
    let mut bytes = Vec::new();
    for feed in &mut feeds {
        if let Some(start) = &feed.start {
            let ring = feed.ring.each_ref().map(Vec::as_slice);
            bytes.extend(match subject.feed_start(start, ring, &mut feed.state)? {
                Ok(()) => b"done:".to_vec(),
                Err(number) => format!("refused {number}:").into_bytes(),
            });
            bytes.extend(&feed.state);
        }
    }
    for one in given {
        give(subject, &mut feeds[one.feed], one, &mut bytes)?;
    }
    Some(bytes)
}

/// A column, again with the next room while it is refused for its room.
fn give(
    subject: &mut dyn Subject,
    feed: &mut Feed,
    given: &Given,
    bytes: &mut Vec<u8>,
) -> Option<()> {
    for &room in &given.rooms {
        let mut out = vec![given.fill; room];
        let fed = take_column(subject, feed, given, &mut out)?;
        bytes.extend(fed.told().into_bytes());
        bytes.extend(&feed.state);
        let pixels = feed.ring.iter().flatten();
        bytes.extend(pixels.flat_map(|pixel| pixel.to_le_bytes()));
        bytes.extend(&out);
        if fed.number != 6 {
            break;
        }
    }
    Some(())
}

/// One call on as much of the feed's state and ring as it is lent.
pub fn take_column(
    subject: &mut dyn Subject,
    feed: &mut Feed,
    given: &Given,
    out: &mut [u8],
) -> Option<Fed> {
    let mut lengths = given.ring.iter();
    let lent = Lent {
        state: &mut feed.state[..given.state],
        ring: feed.ring.each_mut().map(|slice| {
            let length = lengths.next().map_or(0, |&length| length);
            &mut slice[..length]
        }),
        out,
    };
    subject.feed_column(given.columns.each_ref().map(Vec::as_slice), lent)
}

/// A whole scene: of each call the reply, the output and the slices.
fn tiled(subject: &mut dyn Subject, case: &Case) -> Option<Vec<u8>> {
    let Case::Tiled {
        given,
        levels,
        slices,
        rooms,
        fill,
    } = case
    else {
        return None;
    };
    let filled = |level: usize| pattern(fill.wrapping_add(level as u32), slices[level]);
    let mut slices: [Vec<f32>; 4] = core::array::from_fn(filled);
    let mut bytes = Vec::new();
    for &room in rooms {
        let mut out = vec![*fill as u8; room];
        let lent = Tiling {
            slices: slices.each_mut().map(Vec::as_mut_slice),
            out: &mut out,
        };
        let fed = subject.scene(given, levels.each_ref().map(Vec::as_slice), lent)?;
        bytes.extend(fed.told().into_bytes());
        bytes.extend(&out);
        bytes.extend(slices.iter().flat_map(|slice| shortened(slice)));
        if fed.number != 6 {
            break;
        }
    }
    Some(bytes)
}

/// Calls on a table: of each the reply, a run's output, and the whole room that the table stands in.
fn asked(subject: &mut dyn Subject, table: &[u8], calls: &[Asked]) -> Option<Vec<u8>> {
    let mut table = table.to_vec();
    let mut bytes = Vec::new();
    for call in calls {
        let mut out = output(call);
        let fed = ask(subject, &mut table, call, &mut out)?;
        bytes.extend(fed.told().into_bytes());
        bytes.extend(out);
        bytes.extend(&table);
    }
    Some(bytes)
}

/// The buffer that a call is lent, which only a run writes.
pub fn output(call: &Asked) -> Vec<u8> {
    match call.ask {
        Ask::Run { room, fill, .. } => vec![fill; room],
        _ => Vec::new(),
    }
}

/// One call on as much of the table as it is lent.
pub fn ask(
    subject: &mut dyn Subject,
    table: &mut [u8],
    call: &Asked,
    out: &mut [u8],
) -> Option<Fed> {
    let (slot, lent) = (call.slot, &mut table[..call.lent]);
    let (desk, asked) = match &call.ask {
        Ask::Claim { desk } => (*desk, Call::Claim),
        Ask::Write { desk, record } => (*desk, Call::Write(record)),
        Ask::Release { desk } => (*desk, Call::Release),
        Ask::Run { scene, .. } => return subject.desk_run(lent, slot, scene, out),
    };
    let number = subject.desk_call(lent, desk, slot, asked)?;
    Some(Fed { number, value: 0 })
}

/// Calls on a store: of each the reply, and the whole room that the store stands in. With a scene what detection lists of it is added first, and what the last
/// call has closed up is joined.
fn kept(subject: &mut dyn Subject, case: &Case) -> Option<Vec<u8>> {
    let Case::Stores {
        scene,
        store,
        calls,
    } = case
    else {
        return None;
    };
    let (mut store, mut bytes) = (store.to_vec(), Vec::new());
    let Some(scene) = scene else {
        keep_all(subject, &mut store, calls, &mut bytes)?;
        return Some(bytes);
    };
    let found = found(subject, scene, calls.last().map_or(0, |call| call.lent))?;
    let last = keep_all(
        subject,
        &mut store,
        &[&found, &calls[..]].concat(),
        &mut bytes,
    )?;
    let live = match last {
        Fed { number: 0, value } => value as usize,
        _ => 0,
    };
    let (set, list) = (&scene.set, &store[..SPOT * live]);
    let mut out = vec![0x5au8; SIZED * live];
    let reply = subject.join(set, scene.rows, scene.cols, list, &mut out)?;
    bytes.extend(with_reply(reply, &out));
    Some(bytes)
}

/// What detection lists of a scene; nothing where it refuses.
pub fn listed(subject: &mut dyn Subject, scene: &Scene) -> Option<Vec<u8>> {
    let mut list = vec![0u8; 2 * SPOT * scene.rows * scene.cols];
    match subject.detect(scene, &mut list)? {
        Reply::Done(count) => list.truncate(SPOT * count),
        Reply::Refused { .. } => list.clear(),
    }
    Some(list)
}

/// Lists made of the one that detection gives: that one and those of the related maps, then what is answered of each.
fn offered(subject: &mut dyn Subject, case: &Case) -> Option<Vec<u8>> {
    let Case::Partners {
        scene,
        related,
        kind,
        seed,
    } = case
    else {
        return None;
    };
    let maps = [scene].into_iter().chain(related);
    let lists: Option<Vec<Vec<u8>>> = maps.map(|map| listed(subject, map)).collect();
    let lists = lists?;
    let mut bytes = lists.concat();
    for offer in offers(*seed, *kind, scene, &lists) {
        bytes.extend(offer_one(subject, scene, &offer)?.told().into_bytes());
    }
    Some(bytes)
}

/// One list, with the levels of its map as they are given.
pub fn offer_one(subject: &mut dyn Subject, scene: &Scene, offer: &Offer) -> Option<Reading> {
    let levels = given_levels(scene, offer);
    subject.accept(
        &offer.given,
        levels.each_ref().map(Vec::as_slice),
        &offer.list,
    )
}

/// The levels of a map as they are given with a list.
pub fn given_levels<'a>(scene: &'a Scene, offer: &Offer) -> Cow<'a, Levels> {
    match scene.levels.each_ref().map(Vec::len) == offer.lengths {
        true => Cow::Borrowed(&scene.levels),
        false => Cow::Owned(offer.levels(scene)),
    }
}

/// The calls that add what detection lists of a scene to a store of so many bytes.
fn found(subject: &mut dyn Subject, scene: &Scene, lent: usize) -> Option<Vec<Keeping>> {
    let sides = (scene.rows, scene.cols);
    let list = listed(subject, scene)?;
    let add = |record: &[u8]| {
        let (spot, spoilt) = (record.to_vec(), None);
        let keep = Keep::Add { sides, spot };
        Keeping { lent, spoilt, keep }
    };
    Some(list.chunks_exact(SPOT).map(add).collect())
}

/// Calls on a store one after another: the last one's answer.
fn keep_all(
    subject: &mut dyn Subject,
    store: &mut [u8],
    calls: &[Keeping],
    bytes: &mut Vec<u8>,
) -> Option<Fed> {
    let mut last = Fed {
        number: 0,
        value: 0,
    };
    for call in calls {
        turn(store, call);
        last = subject.store_call(&mut store[..call.lent], &call.keep)?;
        bytes.extend(last.told().into_bytes());
        bytes.extend(&*store);
        turn_back(store, call, last);
    }
    Some(last)
}

/// Turns the bits that a call finds turned.
pub fn turn(store: &mut [u8], call: &Keeping) {
    if let Some((place, bits)) = call.spoilt {
        store[place] ^= bits;
    }
}

/// Turns them back after a refusal.
pub fn turn_back(store: &mut [u8], call: &Keeping, fed: Fed) {
    if fed.number != 0 {
        turn(store, call);
    }
}

/// Floats of any bits, another at each place.
fn pattern(fill: u32, length: usize) -> Vec<f32> {
    let bits = |place: usize| (place as u32 ^ fill).wrapping_mul(0x9e37_79b1);
    (0..length)
        .map(|place| f32::from_bits(bits(place)))
        .collect()
}

/// The floats a slice may have to be kept whole in an answer.
const SLICE: usize = 16;

/// A slice's bytes, or its length and a hash of its floats' bits.
fn shortened(slice: &[f32]) -> Vec<u8> {
    if slice.len() <= SLICE {
        return slice.iter().flat_map(|pixel| pixel.to_le_bytes()).collect();
    }
    let words = slice.iter().map(|pixel| u64::from(pixel.to_bits()));
    let parts = [slice.len() as u64, stored::hash(words)];
    parts.iter().flat_map(|part| part.to_le_bytes()).collect()
}

/// Levels made of a raw map, then detection on them and the join.
fn from_raw(subject: &mut dyn Subject, scene: &Scene, pixels: &[f32]) -> Option<Vec<u8>> {
    match made_of(subject, scene, pixels)? {
        Ok(scene) => sized(subject, &scene, false),
        Err(number) => Some(format!("refused {number}:").into_bytes()),
    }
}

/// The scene with its levels made of raw pixels, or a refusal number.
pub fn made_of(
    subject: &mut dyn Subject,
    scene: &Scene,
    pixels: &[f32],
) -> Option<Result<Scene, u32>> {
    let raw = Raw {
        rows: scene.rows,
        cols: scene.cols,
        octave: scene.octave,
        pixels: pixels.to_vec(),
    };
    let mut scene = scene.clone();
    scene.levels = core::array::from_fn(|_| vec![0.0; pixels.len()]);
    let made = subject.levels(&scene.set.record(), &raw, &mut scene.levels)?;
    Some(made.map(|()| scene))
}

/// Detection into enough room, then the join of its list, or the old lists' join of its records cut short.
fn sized(subject: &mut dyn Subject, scene: &Scene, old: bool) -> Option<Vec<u8>> {
    let mut list = vec![0u8; 2 * SPOT * scene.rows * scene.cols];
    let reply = subject.detect(scene, &mut list)?;
    let Reply::Done(count) = reply else {
        return Some(with_reply(reply, &list));
    };
    let (set, rows, cols) = (&scene.set, scene.rows, scene.cols);
    let list = &list[..SPOT * count];
    let form = if old { OLD } else { PRESENT };
    let mut out = vec![0x5au8; form.sized * count];
    let reply = match old {
        true => subject.join_old(set, rows, cols, &cut(list), &mut out),
        false => subject.join(set, rows, cols, list, &mut out),
    };
    Some(with_reply(reply?, &out))
}

fn with_reply(reply: Reply, out: &[u8]) -> Vec<u8> {
    let mut bytes = match reply {
        Reply::Done(count) => format!("done {count}:"),
        Reply::Refused { number: 5, index } => format!("refused 5 at {index}:"),
        Reply::Refused { number, .. } => format!("refused {number}:"),
    }
    .into_bytes();
    bytes.extend_from_slice(out);
    bytes
}

/// Words as bytes, any NaN as one NaN. A library sum leaves a zero's sign open: then any zero as +0.
fn word_bytes(words: &[f32], zero_sign_open: bool) -> Vec<u8> {
    let plain = |&word: &f32| match word {
        word if word.is_nan() => f32::NAN.to_le_bytes(),
        word if zero_sign_open && word == 0.0 => 0.0f32.to_le_bytes(),
        word => word.to_le_bytes(),
    };
    words.iter().flat_map(plain).collect()
}

/// Where two answers part, for a reader.
pub fn difference(sound: &[u8], given: &[u8]) -> String {
    let same = sound
        .iter()
        .zip(given)
        .take_while(|(one, other)| one == other)
        .count();
    let from = same.saturating_sub(8);
    let show = |bytes: &[u8]| -> String {
        let part = &bytes[from.min(bytes.len())..bytes.len().min(same + 24)];
        let hex: String = part.iter().map(|byte| format!("{byte:02x}")).collect();
        format!("{hex} ({})", String::from_utf8_lossy(part).escape_debug())
    };
    format!(
        "byte {same} of {} and {}; from byte {from}:\n  expected {}\n  given    {}",
        sound.len(),
        given.len(),
        show(sound),
        show(given)
    )
}
