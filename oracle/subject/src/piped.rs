//! The detector's archive of another processor: `answerer` linked with it, run as a process that answers call by call over a pipe.

use crate::{Call, Correction, Fed, Lent, Reading, Reply, Subject, Tiling};
use cases::{Keep, Raw, Scene, Set, Start};
use std::io::{BufReader, BufWriter, Read, Write};
use std::process::{Child, ChildStdin, ChildStdout, Command, Stdio};

/// The process and both ends of its pipes.
pub struct Piped {
    name: String,
    child: Child,
    asked: BufWriter<ChildStdin>,
    answered: BufReader<ChildStdout>,
}

impl Piped {
    /// Starts a program with its arguments.
    pub fn new(command: &[String]) -> Piped {
        let name = command.join(" ");
        let mut child = Command::new(&command[0])
            .args(&command[1..])
            .stdin(Stdio::piped())
            .stdout(Stdio::piped())
            .spawn()
            .unwrap_or_else(|error| panic!("{name}: {error}"));
        let pipes = child.stdin.take().zip(child.stdout.take());
        let (asked, answered) = pipes.expect("both are piped");
        Piped {
            name,
            child,
            asked: BufWriter::new(asked),
            answered: BufReader::new(answered),
        }
    }

    fn send(&mut self, bytes: &[u8]) {
        let sent = self.asked.write_all(bytes);
        sent.unwrap_or_else(|error| panic!("{}: {error}", self.name));
    }

    fn numbers(&mut self, numbers: &[usize]) {
        for &number in numbers {
            self.send(&(number as u64).to_le_bytes());
        }
    }

    fn patterns(&mut self, values: &[f32]) {
        for value in values {
            self.numbers(&[value.to_bits() as usize]);
        }
    }

    fn bytes(&mut self, bytes: &[u8]) {
        self.numbers(&[bytes.len()]);
        self.send(bytes);
    }

    fn floats(&mut self, values: &[f32]) {
        let bytes: Vec<u8> = values
            .iter()
            .flat_map(|value| value.to_le_bytes())
            .collect();
        self.numbers(&[values.len()]);
        self.send(&bytes);
    }

    fn read(&mut self, bytes: &mut [u8]) {
        let read = self.answered.read_exact(bytes);
        read.unwrap_or_else(|error| panic!("{}: {error}", self.name));
    }

    /// The next number of the answer.
    fn next(&mut self) -> usize {
        let flushed = self.asked.flush();
        flushed.unwrap_or_else(|error| panic!("{}: {error}", self.name));
        let mut bytes = [0; 8];
        self.read(&mut bytes);
        u64::from_le_bytes(bytes) as usize
    }

    /// A refusal's number, its value, and the buffer.
    fn reply(&mut self, out: &mut [u8]) -> Reply {
        let (number, value) = (self.next() as u32, self.next());
        self.read(out);
        match number {
            0 => Reply::Done(value),
            _ => Reply::Refused {
                number,
                index: value,
            },
        }
    }

    /// One of the two joins, by its letter.
    fn joined(
        &mut self,
        letter: u8,
        set: &Set,
        (rows, cols): (usize, usize),
        list: &[u8],
        out: &mut [u8],
    ) -> Reply {
        self.send(&[letter]);
        self.bytes(&set.record());
        self.numbers(&[rows, cols]);
        self.bytes(list);
        self.bytes(out);
        self.reply(out)
    }

    /// The floats of a buffer that was written.
    fn written(&mut self, out: &mut [f32]) {
        let mut bytes = vec![0; 4 * out.len()];
        self.read(&mut bytes);
        for (value, pattern) in out.iter_mut().zip(bytes.as_chunks().0) {
            *value = f32::from_le_bytes(*pattern);
        }
    }

    /// The answer, or the refusal's number that comes before it.
    fn answer<T>(&mut self, answer: impl FnOnce(&mut Piped) -> T) -> Result<T, u32> {
        let number = self.next() as u32;
        let answer = answer(self);
        if number == 0 { Ok(answer) } else { Err(number) }
    }
}

impl Drop for Piped {
    fn drop(&mut self) {
        let _ = self.child.kill();
        let _ = self.child.wait();
    }
}

impl Subject for Piped {
    fn name(&self) -> String {
        self.name.clone()
    }

    fn detect(&mut self, scene: &Scene, out: &mut [u8]) -> Option<Reply> {
        self.send(b"d");
        self.bytes(&scene.set.record());
        self.patterns(&scene.thresholds);
        self.numbers(&[scene.rows, scene.cols, scene.octave]);
        scene.levels.iter().for_each(|level| self.floats(level));
        self.bytes(out);
        Some(self.reply(out))
    }

    fn join(
        &mut self,
        set: &Set,
        rows: usize,
        cols: usize,
        list: &[u8],
        out: &mut [u8],
    ) -> Option<Reply> {
        Some(self.joined(b'j', set, (rows, cols), list, out))
    }

    fn join_old(
        &mut self,
        set: &Set,
        rows: usize,
        cols: usize,
        list: &[u8],
        out: &mut [u8],
    ) -> Option<Reply> {
        Some(self.joined(b'k', set, (rows, cols), list, out))
    }

    fn correct(
        &mut self,
        set: &Set,
        samples: [f32; 4],
        sigma: f32,
        is_max: bool,
    ) -> Option<Correction> {
        self.send(b"c");
        self.bytes(&set.record());
        self.patterns(&samples);
        self.patterns(&[sigma]);
        self.numbers(&[usize::from(is_max)]);
        let size = self.answer(|piped| f32::from_bits(piped.next() as u32));
        let cause = u8::try_from(self.next()).unwrap_or(u8::MAX);
        Some(Correction { size, cause })
    }

    fn octave_count(&mut self, rows: usize, cols: usize) -> Option<usize> {
        self.send(b"o");
        self.numbers(&[rows, cols]);
        Some(self.next())
    }

    fn downsample(
        &mut self,
        rows: usize,
        cols: usize,
        level: &[f32],
        out: &mut [f32],
    ) -> Option<Result<(usize, usize), u32>> {
        self.send(b"h");
        self.numbers(&[rows, cols]);
        self.floats(level);
        self.floats(out);
        Some(self.answer(|piped| {
            let half = (piped.next(), piped.next());
            piped.written(out);
            half
        }))
    }

    fn read_set(&mut self, bytes: &[u8]) -> Option<Result<(), u32>> {
        self.send(b"s");
        self.bytes(bytes);
        Some(self.answer(|_| ()))
    }

    fn levels(
        &mut self,
        record: &[u8],
        raw: &Raw,
        out: &mut [Vec<f32>; 4],
    ) -> Option<Result<(), u32>> {
        self.send(b"l");
        self.bytes(record);
        self.numbers(&[raw.rows, raw.cols, raw.octave]);
        self.floats(&raw.pixels);
        out.iter().for_each(|level| self.floats(level));
        Some(self.answer(|piped| out.iter_mut().for_each(|level| piped.written(level))))
    }

    fn feed_start(
        &mut self,
        start: &Start,
        ring: [&[f32]; 4],
        state: &mut [u8],
    ) -> Option<Result<(), u32>> {
        self.send(b"f");
        self.bytes(&start.record);
        self.patterns(&start.thresholds);
        self.numbers(&[start.rows, start.cols, start.octave]);
        ring.iter().for_each(|slice| self.floats(slice));
        self.bytes(state);
        Some(self.answer(|piped| piped.read(state)))
    }

    fn feed_column(&mut self, columns: [&[f32]; 4], lent: Lent<'_>) -> Option<Fed> {
        self.send(b"g");
        self.bytes(lent.state);
        columns.iter().for_each(|column| self.floats(column));
        lent.ring.iter().for_each(|slice| self.floats(slice));
        self.bytes(lent.out);
        let number = self.next() as u32;
        let value = self.next() as u64;
        self.read(lent.state);
        lent.ring.into_iter().for_each(|slice| self.written(slice));
        self.read(lent.out);
        Some(Fed { number, value })
    }

    fn scene(&mut self, given: &Start, levels: [&[f32]; 4], lent: Tiling<'_>) -> Option<Fed> {
        self.send(b"t");
        self.bytes(&given.record);
        self.patterns(&given.thresholds);
        self.numbers(&[given.rows, given.cols, given.octave]);
        levels.iter().for_each(|level| self.floats(level));
        lent.slices.iter().for_each(|slice| self.floats(slice));
        self.bytes(lent.out);
        let number = self.next() as u32;
        let value = self.next() as u64;
        lent.slices
            .into_iter()
            .for_each(|slice| self.written(slice));
        self.read(lent.out);
        Some(Fed { number, value })
    }

    fn desk_call(
        &mut self,
        table: &mut [u8],
        desk: usize,
        slot: usize,
        call: Call<'_>,
    ) -> Option<u32> {
        self.send(match call {
            Call::Claim => b"a",
            Call::Write(_) => b"w",
            Call::Release => b"b",
        });
        self.bytes(table);
        self.numbers(&[desk, slot]);
        if let Call::Write(record) = call {
            self.bytes(record);
        }
        let number = self.next() as u32;
        self.read(table);
        Some(number)
    }

    fn desk_run(
        &mut self,
        table: &[u8],
        slot: usize,
        scene: &Scene,
        out: &mut [u8],
    ) -> Option<Fed> {
        self.send(b"r");
        self.bytes(table);
        self.numbers(&[slot]);
        self.patterns(&scene.thresholds);
        self.numbers(&[scene.rows, scene.cols, scene.octave]);
        scene.levels.iter().for_each(|level| self.floats(level));
        self.bytes(out);
        let number = self.next() as u32;
        let value = self.next() as u64;
        self.read(out);
        Some(Fed { number, value })
    }

    fn store_call(&mut self, store: &mut [u8], keep: &Keep) -> Option<Fed> {
        let (letter, sides) = match *keep {
            Keep::Clear => (b"e", None),
            Keep::Add { sides, .. } => (b"p", Some(sides)),
            Keep::Strike { sides, .. } => (b"x", Some(sides)),
            Keep::CloseUp { sides } => (b"u", Some(sides)),
        };
        self.send(letter);
        self.bytes(store);
        if let Some((rows, cols)) = sides {
            self.numbers(&[rows, cols]);
        }
        match keep {
            Keep::Add { spot, .. } => self.bytes(spot),
            Keep::Strike { slot, .. } => self.numbers(&[*slot]),
            _ => {}
        }
        let number = self.next() as u32;
        let value = self.next() as u64;
        self.read(store);
        Some(Fed { number, value })
    }

    fn accept(&mut self, given: &Start, levels: [&[f32]; 4], list: &[u8]) -> Option<Reading> {
        self.send(b"y");
        self.bytes(&given.record);
        self.patterns(&given.thresholds);
        self.numbers(&[given.rows, given.cols, given.octave]);
        levels.iter().for_each(|level| self.floats(level));
        self.bytes(list);
        let (number, finding) = (self.next() as u32, self.next() as u32);
        let value = self.next() as u64;
        Some(Reading {
            number,
            finding,
            value,
        })
    }
}
