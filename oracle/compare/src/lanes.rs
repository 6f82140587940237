//! Feeds of the archive in the midst of their maps, on guarded buffers, with refused calls between.

use crate::judged::Judge;
use crate::own::whole;
use crate::runs::in_order;
use cases::families::lively;
use cases::feeds::{POSITION, RING, STATE, column_of, start_of, worst};
use cases::random::Random;
use cases::records::SPOT;
use cases::{Scene, Start};
use subject::Subject;
use subject::archive::lend_four;
use subject::guarded::{Room, Side};
use uramsheg::{Refusal, feed_column, feed_start};

/// Apart from the families' own sources.
const SOURCE: u64 = 1 << 33;

/// What a feed is lent, beside an untouchable page.
#[derive(Default)]
struct Rooms {
    state: Room,
    ring: [Room; 4],
    columns: [Room; 4],
    out: Room,
}

/// The rooms of a feed and of one beside it.
#[derive(Default)]
pub struct Lanes {
    rooms: [Rooms; 2],
}

/// A feed in the midst of its map.
struct Lane<'a> {
    scene: &'a Scene,
    side: Side,
    state: &'a mut [u8],
    ring: [&'a mut [f32]; 4],
    columns: &'a mut [Room; 4],
    out: &'a mut [u8],
    next: usize,
    stop: usize,
    records: Vec<u8>,
}

/// What the output holds before a call.
const FILL: u8 = 0xa5;

/// The archive's start.
fn begun(start: &Start, ring: [&[f32]; 4], state: &mut [u8]) -> Result<(), u32> {
    let [peak, sigma, ratio, low, high] = start.thresholds;
    let thresholds = uramsheg::Thresholds {
        peak,
        sigma,
        ratio,
        low,
        high,
    };
    let (rows, cols, octave) = (start.rows, start.cols, start.octave);
    let answer = feed_start(&start.record, thresholds, rows, cols, octave, ring, state);
    answer.map_err(Refusal::number)
}

impl<'a> Lane<'a> {
    /// A feed of a scene, its ring filled first, started as the judge's is; none where both refuse.
    fn started(
        rooms: &'a mut Rooms,
        scene: &'a Scene,
        random: &mut Random,
    ) -> Result<Option<Self>, String> {
        let side = random.pick(&[Side::Before, Side::Behind]);
        let start = start_of(scene);
        let held = start.rows.min(4096);
        let (fill, longer) = (random.any(), random.pick(&[0, 0, 1, held]));
        let filled = vec![fill; RING * held + longer];
        let ring = lend_four(&mut rooms.ring, side, [&filled; 4]);
        let state = rooms.state.lend(side, &[FILL; STATE]);
        let slices = ring.each_ref().map(|slice| &**slice);
        let answer = begun(&start, slices, state);
        let mut due = [FILL; STATE];
        let sound = Judge::sound().feed_start(&start, slices, &mut due);
        if sound != Some(answer) || *state != due {
            return Err(format!("the start: {answer:?}, by the judge {sound:?}"));
        }
        let same = |slice: &&mut [f32]| slice.iter().all(|pixel| pixel.to_bits() == fill.to_bits());
        if !ring.iter().all(same) {
            return Err("the start wrote the ring".into());
        }
        if answer.is_err() {
            return Ok(None);
        }
        let stop = match random.below(8) {
            0 => random.below(scene.cols + 1),
            _ => scene.cols,
        };
        Ok(Some(Lane {
            scene,
            side,
            state,
            ring,
            columns: &mut rooms.columns,
            out: rooms.out.lend(side, &vec![FILL; worst(held)]),
            next: 0,
            stop,
            records: Vec::new(),
        }))
    }

    /// One call, with so many floats in one level's column and so much output and ring.
    fn call(
        &mut self,
        (level, length): (usize, usize),
        room: usize,
        ring: usize,
    ) -> Result<usize, u32> {
        let mut given = column_of(self.scene, self.next);
        given[level].resize(length, 0.0);
        let lent = lend_four(self.columns, self.side, given.each_ref().map(Vec::as_slice));
        let columns = lent.each_ref().map(|column| &**column);
        let slices = self.ring.each_mut().map(|slice| {
            let length = ring.min(slice.len());
            &mut slice[..length]
        });
        feed_column(self.state, columns, slices, &mut self.out[..room]).map_err(Refusal::number)
    }

    /// A call that must be refused with this number.
    fn refused(
        &mut self,
        number: u32,
        column: (usize, usize),
        room: usize,
        ring: usize,
    ) -> Result<(), String> {
        let before = self.held();
        let answer = self.call(column, room, ring);
        if answer != Err(number) {
            return Err(self.told(&format!("{answer:?} where {number} is due")));
        }
        match self.held() == before {
            true => Ok(()),
            false => Err(self.told(&format!("refused with {number}, and something changed"))),
        }
    }

    /// Everything that a call may write.
    fn held(&self) -> (Vec<u8>, Vec<u32>, Vec<u8>) {
        let bits = self
            .ring
            .iter()
            .flat_map(|slice| slice.iter().map(|pixel| pixel.to_bits()));
        (self.state.to_vec(), bits.collect(), self.out.to_vec())
    }

    /// Refused calls, now and then: a wrong length, a short slice of the ring, both.
    fn disturbed(&mut self, random: &mut Random) -> Result<(), String> {
        let rows = self.scene.rows;
        let level = random.below(4);
        let wrong = random.pick(&[rows + 1, 2 * rows + 1, rows.max(1) - 1]);
        let short = RING * rows - 1;
        let room = self.out.len();
        match random.below(24) {
            0 if wrong != rows => self.refused(2, (level, wrong), room, usize::MAX),
            1 => self.refused(6, (level, rows), room, short),
            2 if wrong != rows => self.refused(2, (level, wrong), 0, short),
            _ => Ok(()),
        }
    }

    /// The next column, after refused calls now and then; a short room first now and then.
    fn step(&mut self, random: &mut Random) -> Result<(), String> {
        let rows = self.scene.rows;
        if rows > 0 {
            self.disturbed(random)?;
        }
        let room = self.out.len();
        let mut answer = Err(6);
        if random.once_in(8) {
            let before = self.held();
            answer = self.call(
                (0, rows),
                random.pick(&[0, SPOT - 1, SPOT]).min(room),
                usize::MAX,
            );
            if answer == Err(6) && self.held() != before {
                return Err(self.told("refused for its room, and something changed"));
            }
        }
        if answer == Err(6) {
            answer = self.call((0, rows), room, usize::MAX);
        }
        match answer {
            Ok(count) => self.take(count),
            Err(number) => Err(self.told(&format!("refused with {number}"))),
        }
    }

    /// Keeps what was listed, and looks at its order, at what is past it and at the position.
    fn take(&mut self, count: usize) -> Result<(), String> {
        let (listed, past) = self.out.split_at_mut(SPOT * count);
        let ordered = in_order(listed) == listed;
        let kept = past.iter().all(|&byte| byte == FILL);
        self.records.extend(&*listed);
        listed.fill(FILL);
        let position = self.state[POSITION..][..4] == (self.next as u32 + 1).to_le_bytes();
        if !(ordered && kept && position) {
            return Err(self.told("the records' order, the output past them, or the position"));
        }
        self.next += 1;
        Ok(())
    }

    /// A fault, with the column that was given.
    fn told(&self, fault: &str) -> String {
        format!("column {}: {fault}", self.next)
    }

    /// Calls after the last column.
    fn ended(&mut self, random: &mut Random) -> Result<(), String> {
        if self.next < self.scene.cols {
            return Ok(());
        }
        let rows = self.scene.rows;
        let wrong = random.pick(&[rows, rows + 1, 0]);
        self.refused(
            9,
            (random.below(4), wrong),
            0,
            random.pick(&[usize::MAX, 0]),
        )
    }

    /// What was listed, in order.
    fn listed(&self) -> Vec<u8> {
        in_order(&self.records)
    }

    /// Of a whole list the records that are due: those of the judged columns.
    fn due(&self, list: &[u8]) -> Vec<u8> {
        let col = |record: &[u8]| {
            let key = u32::from_le_bytes(core::array::from_fn(|k| record[32 + k]));
            key as usize % self.scene.cols
        };
        let judged = |record: &&[u8]| col(record) + 2 < self.next;
        let records: Vec<&[u8]> = list.chunks_exact(SPOT).filter(judged).collect();
        records.concat()
    }
}

/// What a feed of a scene listed by the columns that it judged, and what was due of a list; None where its start is refused.
type Listed = Option<(Vec<u8>, Vec<u8>)>;

impl Lanes {
    /// Feeds a scene, another beside it now and then, and compares with the scene's whole list; `number` chooses what comes between.
    pub fn feed(
        &mut self,
        seed: u64,
        number: u64,
        scene: &Scene,
        list: &[u8],
    ) -> Result<Listed, String> {
        let random = &mut Random::new(seed, SOURCE, number);
        let beside = random.once_in(8).then(|| lively(random));
        let [first, second] = &mut self.rooms;
        let mut lanes = Vec::new();
        lanes.extend(Lane::started(first, scene, random)?);
        if lanes.is_empty() {
            return Ok(None);
        }
        if let Some(other) = &beside {
            lanes.extend(Lane::started(second, other, random)?);
        }
        while let Some(turn) = turn(random, &lanes) {
            lanes[turn].step(random)?;
        }
        for lane in &mut lanes {
            lane.ended(random)?;
        }
        if let Some(lane) = lanes.get(1) {
            let whole = whole(Judge::sound(), lane.scene).1;
            if lane.listed() != lane.due(&whole) {
                return Err("the feed beside it parts from its list".into());
            }
        }
        Ok(Some((lanes[0].listed(), lanes[0].due(list))))
    }
}

/// A feed that has columns left.
fn turn(random: &mut Random, lanes: &[Lane]) -> Option<usize> {
    let left: Vec<usize> = (0..lanes.len())
        .filter(|&k| lanes[k].next < lanes[k].stop)
        .collect();
    (!left.is_empty()).then(|| random.pick(&left))
}
