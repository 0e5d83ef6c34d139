//! The load of the program `pipebench` in plain Rust, without proofs: what its speed is compared with.
//! It follows docs/PROTOCOL.md, for readings and the bench coin, and prints the same bytes.

use std::env;
use std::fmt::{self, Write};
use std::num::NonZeroU64;
use std::process::ExitCode;

const USAGE: &str = "usage: pipebench N W EPOCHS";
const ROOM: usize = 65536;
const EPOCHS: u16 = 256;
const ROUNDS: usize = 16;
const EXCHANGES: u32 = 1 << 20;

/// Why a call declines.
#[derive(Clone, Copy, Debug, PartialEq, Eq)]
enum Refusal {
    Boxes = 1,
    Own = 2,
    Slots = 3,
    Place = 5,
    Letter = 6,
    Short = 7,
    Sender = 8,
    Long = 9,
    Range = 10,
    Entry = 11,
    Past = 12,
    Future = 13,
    Held = 14,
    Other = 15,
    Full = 16,
    Booked = 17,
    Over = 18,
    Begun = 19,
    Number = 20,
    Room = 21,
    File = 23,
}

use Refusal::*;

/// A reading: its eight bytes as one number, which is never 0, since no house has the number 0.
#[derive(Clone, Copy, PartialEq, Eq)]
struct Reading(NonZeroU64);

impl Reading {
    fn read(bytes: [u8; 8]) -> Option<Reading> {
        let [h1, h0, week, quantity, ..] = bytes;
        let house = u16::from_be_bytes([h1, h0]);
        let is_one = (1..=999).contains(&house)
            && (1..=53).contains(&week)
            && (1..=3).contains(&quantity);
        if is_one {
            NonZeroU64::new(u64::from_be_bytes(bytes)).map(Reading)
        } else {
            None
        }
    }

    fn bytes(self) -> [u8; 8] {
        self.0.get().to_be_bytes()
    }
}

impl fmt::Display for Reading {
    fn fmt(&self, f: &mut fmt::Formatter) -> fmt::Result {
        let n = self.0.get();
        let (house, week, quantity, amount) = (n >> 48, n >> 40 & 255, n >> 32 & 255, n as u32);
        write!(f, "{house};{week};{quantity};{amount}")
    }
}

/// The senders that have marked bit 0, and those that have marked bit 1.
#[derive(Clone, Copy, Default)]
struct Marks {
    zero: u16,
    one: u16,
}

impl Marks {
    fn of(self, bit: bool) -> u16 {
        if bit { self.one } else { self.zero }
    }

    /// Which bits a sender has marked, as the number of a set: 0 is none.
    fn set(self, sender: usize) -> u8 {
        (self.zero >> sender & 1 | (self.one >> sender & 1) << 1) as u8
    }

    fn bit(self, sender: usize) -> Option<bool> {
        match self.set(sender) {
            0 => None,
            set => Some(set == 2),
        }
    }

    fn mark(&mut self, set: u8, sender: usize) {
        self.zero |= u16::from(set & 1) << sender;
        self.one |= u16::from(set >> 1) << sender;
    }

    /// The senders with a set that lies within another.
    fn within(self, set: u8) -> u16 {
        let zero = if set & 1 == 0 { self.zero } else { 0 };
        let one = if set & 2 == 0 { self.one } else { 0 };
        (self.zero | self.one) & !(zero | one)
    }

    /// The bits that at least so many have marked.
    fn reached(self, least: u32) -> u8 {
        u8::from(self.zero.count_ones() >= least) | u8::from(self.one.count_ones() >= least) << 1
    }
}

/// The lowest bit of a set.
fn lowest(set: u8) -> Option<bool> {
    match set {
        0 => None,
        set => Some(set & 1 == 0),
    }
}

fn set_of(bit: bool) -> u8 {
    1 << u8::from(bit)
}

#[derive(Clone, Copy, Default)]
struct Round {
    values: Marks,
    seens: Marks,
    confirms: Marks,
}

#[derive(Clone, Copy)]
enum Stage {
    Unopened,
    Open { round: usize, closed: bool },
    Awaiting,
}

struct Page {
    epoch: u16,
    queue: usize,
    slot: usize,
    item: Reading,
}

type Cells = Vec<Option<Reading>>;

struct Replica {
    n: usize,
    w: usize,
    f: usize,
    q: usize,
    me: usize,
    epoch: u16,
    stage: Stage,
    rounds: [Round; ROUNDS],
    finish: Marks,
    past: [Option<bool>; EPOCHS as usize],
    heads: [usize; 16],
    /// By sender and slot.
    sends: Cells,
    /// These three by queue, slot and sender.
    echoes: Cells,
    readies: Cells,
    haves: Cells,
    pages: Vec<Page>,
}

fn numbers(n: usize, me: usize, w: usize) -> Result<(usize, usize), Refusal> {
    if !(4..=16).contains(&n) {
        return Err(Boxes);
    }
    if me >= n {
        return Err(Own);
    }
    if !(1..=16).contains(&w) {
        return Err(Slots);
    }
    let f = (n - 1) / 3;
    Ok((f, (n + f) / 2 + 1))
}

/// The bytes, if there are so many.
fn exactly<const N: usize>(bytes: &[u8]) -> Result<&[u8; N], Refusal> {
    bytes
        .try_into()
        .map_err(|_| if bytes.len() < N { Short } else { Long })
}

/// How long a statement is that begins with the letter.
fn length(letter: u8) -> Result<usize, Refusal> {
    match letter {
        b'S' => Ok(10),
        b'E' | b'R' | b'H' => Ok(11),
        b'V' | b'A' | b'C' => Ok(4),
        b'F' => Ok(3),
        _ => Err(Letter),
    }
}

/// The next statement of a frame, or none at its end.
fn next(frame: &[u8], place: usize) -> Result<Option<&[u8]>, Refusal> {
    let rest = frame.get(place..).ok_or(Place)?;
    let Some(&letter) = rest.first() else {
        return Ok(None);
    };
    rest.get(..length(letter)?).map(Some).ok_or(Short)
}

/// Fills a cell, if it is free.
fn fill(cell: &mut Option<Reading>, item: Reading) -> Result<(), Refusal> {
    match *cell {
        None => {
            *cell = Some(item);
            Ok(())
        }
        Some(old) if old == item => Err(Held),
        Some(_) => Err(Other),
    }
}

/// Fills a cell with a bit or a set, if it is free.
fn vote(cell: &mut Marks, set: u8, sender: usize) -> Result<(), Refusal> {
    match cell.set(sender) {
        0 => {
            cell.mark(set, sender);
            Ok(())
        }
        old if old == set => Err(Held),
        _ => Err(Other),
    }
}

/// In a row of cells, the entry of the lowest sender whose entry at least so many hold.
fn backed(row: &[Option<Reading>], least: usize) -> Option<Reading> {
    row.iter()
        .filter(|cell| cell.is_some())
        .find(|&cell| row.iter().filter(|&other| other == cell).count() >= least)
        .copied()?
}

impl Replica {
    fn make(n: usize, me: usize, w: usize) -> Result<Replica, Refusal> {
        let (f, q) = numbers(n, me, w)?;
        Ok(Replica {
            n,
            w,
            f,
            q,
            me,
            epoch: 0,
            stage: Stage::Unopened,
            rounds: Default::default(),
            finish: Marks::default(),
            past: [None; EPOCHS as usize],
            heads: [0; 16],
            sends: vec![None; n * w],
            echoes: vec![None; n * w * n],
            readies: vec![None; n * w * n],
            haves: vec![None; n * w * n],
            pages: Vec::with_capacity(n * w),
        })
    }

    fn is_booked(&self, item: Reading) -> bool {
        self.pages.iter().any(|page| page.item == item)
    }

    fn submit(&mut self, bytes: &[u8]) -> Result<(), Refusal> {
        let item = Reading::read(*exactly(bytes)?).ok_or(Entry)?;
        let own = self.me * self.w..(self.me + 1) * self.w;
        let free = self.sends[own.clone()].iter().position(Option::is_none);
        let slot = free.ok_or(Full)?;
        if self.is_booked(item) {
            return Err(Booked);
        }
        self.sends[own.start + slot] = Some(item);
        Ok(())
    }

    fn hear(&mut self, sender: usize, bytes: &[u8]) -> Result<(), Refusal> {
        if sender >= self.n || sender == self.me {
            return Err(Sender);
        }
        let (&letter, rest) = bytes.split_first().ok_or(Short)?;
        match letter {
            b'S' => {
                let &[slot, ref item @ ..] = exactly::<9>(rest)?;
                self.hear_send(sender, slot.into(), item)
            }
            b'E' | b'R' | b'H' => {
                let &[queue, slot, ref item @ ..] = exactly::<10>(rest)?;
                self.hear_entry(letter, queue.into(), slot.into(), sender, item)
            }
            b'V' | b'A' | b'C' => {
                let &[epoch, round, operand] = exactly(rest)?;
                self.hear_vote(letter, epoch.into(), round.into(), sender, operand)
            }
            b'F' => {
                let &[epoch, bit] = exactly(rest)?;
                if bit > 1 {
                    return Err(Range);
                }
                self.timely(epoch.into())?;
                vote(&mut self.finish, set_of(bit == 1), sender)
            }
            _ => Err(Letter),
        }
    }

    fn hear_send(&mut self, sender: usize, slot: usize, item: &[u8; 8]) -> Result<(), Refusal> {
        if slot >= self.w {
            return Err(Range);
        }
        let item = Reading::read(*item).ok_or(Entry)?;
        fill(&mut self.sends[sender * self.w + slot], item)
    }

    fn hear_entry(
        &mut self,
        letter: u8,
        queue: usize,
        slot: usize,
        sender: usize,
        item: &[u8; 8],
    ) -> Result<(), Refusal> {
        if queue >= self.n || slot >= self.w {
            return Err(Range);
        }
        let item = Reading::read(*item).ok_or(Entry)?;
        let cells = match letter {
            b'E' => &mut self.echoes,
            b'R' => &mut self.readies,
            _ => &mut self.haves,
        };
        fill(&mut cells[(queue * self.w + slot) * self.n + sender], item)
    }

    fn hear_vote(
        &mut self,
        letter: u8,
        epoch: u16,
        round: usize,
        sender: usize,
        operand: u8,
    ) -> Result<(), Refusal> {
        let is_in_range = match letter {
            b'C' => (1..=3).contains(&operand),
            _ => operand <= 1,
        };
        if round >= ROUNDS || !is_in_range {
            return Err(Range);
        }
        self.timely(epoch)?;
        let votes = &mut self.rounds[round];
        match letter {
            b'V' => {
                let set = set_of(operand == 1);
                if votes.values.set(sender) & set != 0 {
                    return Err(Held);
                }
                votes.values.mark(set, sender);
                Ok(())
            }
            b'A' => vote(&mut votes.seens, set_of(operand == 1), sender),
            _ => vote(&mut votes.confirms, operand, sender),
        }
    }

    fn timely(&self, epoch: u16) -> Result<(), Refusal> {
        if epoch < self.epoch {
            Err(Past)
        } else if epoch > self.epoch {
            Err(Future)
        } else {
            Ok(())
        }
    }

    fn open(&mut self) -> Result<(), Refusal> {
        if self.epoch >= EPOCHS {
            return Err(Over);
        }
        let Stage::Unopened = self.stage else {
            return Err(Begun);
        };
        let bit = self.candidate().is_some();
        self.stage = Stage::Open {
            round: 0,
            closed: false,
        };
        self.rounds[0].values.mark(set_of(bit), self.me);
        Ok(())
    }

    /// The slot and the entry of the next page.
    fn candidate(&self) -> Option<(usize, Reading)> {
        let queue = usize::from(self.epoch) % self.n;
        for slot in self.heads[queue]..self.w {
            let item = self.haves[(queue * self.w + slot) * self.n + self.me]?;
            if !self.is_booked(item) {
                return Some((slot, item));
            }
        }
        None
    }

    /// The first of the ten turns that applies; 0 if none does.
    fn turn(&mut self) -> u8 {
        let by_entries = self.turn_by_entries();
        if by_entries > 0 || self.epoch >= EPOCHS {
            return by_entries;
        }
        if self.finish.set(self.me) == 0 {
            if let Some(bit) = lowest(self.finish.reached(self.f as u32 + 1)) {
                self.finish.mark(set_of(bit), self.me);
                return 4;
            }
        }
        if let Stage::Awaiting = self.stage {
            return self.write();
        }
        if let Some(bit) = lowest(self.finish.reached(2 * self.f as u32 + 1)) {
            if bit {
                self.stage = Stage::Awaiting;
            } else {
                self.leave();
            }
            return 5;
        }
        match self.stage {
            Stage::Open { round, closed } => self.turn_by_rounds(round, closed),
            _ => 0,
        }
    }

    /// Turns 1 to 3.
    fn turn_by_entries(&mut self) -> u8 {
        let (n, me) = (self.n, self.me);
        for (i, send) in self.sends.iter().enumerate() {
            let own = &mut self.echoes[i * n + me];
            if own.is_none() && send.is_some() {
                *own = *send;
                return 1;
            }
        }
        if vouch(&mut self.readies, &self.echoes, self.q, self.f, n, me) {
            return 2;
        }
        if vouch(&mut self.haves, &self.readies, 2 * self.f + 1, self.f, n, me) {
            return 3;
        }
        0
    }

    /// Turn 6.
    fn write(&mut self) -> u8 {
        let Some((slot, item)) = self.candidate() else {
            return 0;
        };
        let epoch = self.epoch;
        let queue = usize::from(epoch) % self.n;
        self.pages.push(Page {
            epoch,
            queue,
            slot,
            item,
        });
        self.heads[queue] = slot + 1;
        self.leave();
        6
    }

    fn leave(&mut self) {
        self.past[usize::from(self.epoch)] = self.finish.bit(self.me);
        self.rounds = Default::default();
        self.finish = Marks::default();
        self.stage = Stage::Unopened;
        self.epoch += 1;
    }

    /// Turns 7 to 10.
    fn turn_by_rounds(&mut self, round: usize, closed: bool) -> u8 {
        let me = self.me;
        let (some, most) = (self.f as u32 + 1, 2 * self.f as u32 + 1);
        let all = (self.n - self.f) as u32;
        for votes in &mut self.rounds[..=round] {
            let values = &mut votes.values;
            if let Some(bit) = lowest(values.reached(some) & !values.set(me)) {
                values.mark(set_of(bit), me);
                return 7;
            }
        }
        let votes = &mut self.rounds[round];
        let values = votes.values.reached(most);
        if votes.seens.set(me) == 0 {
            if let Some(bit) = lowest(values) {
                votes.seens.mark(set_of(bit), me);
                return 8;
            }
            return 0;
        }
        if votes.confirms.set(me) == 0 {
            if votes.seens.within(values).count_ones() >= all {
                votes.confirms.mark(values, me);
                return 9;
            }
            return 0;
        }
        let confirmed = votes.confirms.within(values);
        if closed || confirmed.count_ones() < all {
            return 0;
        }
        let zero = confirmed & votes.confirms.of(false) != 0;
        let one = confirmed & votes.confirms.of(true) != 0;
        self.close(round, zero, one);
        10
    }

    fn close(&mut self, round: usize, zero: bool, one: bool) {
        let toss = (usize::from(self.epoch) + round) % 2 == 1;
        let bit = if zero && one { toss } else { one };
        if zero != one && bit == toss && self.finish.set(self.me) == 0 {
            self.finish.mark(set_of(bit), self.me);
        }
        if round + 1 < ROUNDS {
            self.stage = Stage::Open {
                round: round + 1,
                closed: false,
            };
            self.rounds[round + 1].values.mark(set_of(bit), self.me);
        } else {
            self.stage = Stage::Open {
                round,
                closed: true,
            };
        }
    }

    /// Writes the board from a number on, while statements fit; answers the bytes written and the next number.
    fn show(&self, number: usize, out: &mut [u8]) -> Result<(usize, usize), Refusal> {
        let mut board = Board {
            out,
            bytes: 0,
            first: number,
            next: 0,
        };
        let has_room = self.state(&mut board).is_some();
        if board.next < number {
            return Err(Number);
        }
        if !has_room && board.next == number {
            return Err(Room);
        }
        Ok((board.bytes, board.next))
    }

    /// All statements of the board, until one does not fit.
    fn state(&self, board: &mut Board) -> Option<()> {
        for (slot, cell) in self.sends[self.me * self.w..][..self.w].iter().enumerate() {
            if let Some(item) = cell {
                board.put_entry(&[b'S', slot as u8], *item)?;
            }
        }
        for (letter, cells) in [
            (b'E', &self.echoes),
            (b'R', &self.readies),
            (b'H', &self.haves),
        ] {
            self.state_entries(board, letter, cells)?;
        }
        for (epoch, bit) in self.past[..usize::from(self.epoch)].iter().enumerate() {
            if let Some(bit) = *bit {
                board.put(&[b'F', epoch as u8, bit.into()])?;
            }
        }
        if self.epoch < EPOCHS {
            self.state_votes(board)?;
        }
        Some(())
    }

    fn state_entries(&self, board: &mut Board, letter: u8, cells: &Cells) -> Option<()> {
        let rows = cells.chunks_exact(self.n);
        let (mut queue, mut slot) = (0, 0);
        for row in rows {
            if let Some(item) = row[self.me] {
                board.put_entry(&[letter, queue, slot], item)?;
            }
            slot += 1;
            if usize::from(slot) == self.w {
                (queue, slot) = (queue + 1, 0);
            }
        }
        Some(())
    }

    fn state_votes(&self, board: &mut Board) -> Option<()> {
        let (me, epoch) = (self.me, self.epoch as u8);
        if let Some(bit) = self.finish.bit(me) {
            board.put(&[b'F', epoch, bit.into()])?;
        }
        for (round, votes) in self.rounds.iter().enumerate() {
            let round = round as u8;
            let values = votes.values.set(me);
            if values & 1 != 0 {
                board.put(&[b'V', epoch, round, 0])?;
            }
            if values & 2 != 0 {
                board.put(&[b'V', epoch, round, 1])?;
            }
            if let Some(bit) = votes.seens.bit(me) {
                board.put(&[b'A', epoch, round, bit.into()])?;
            }
            let set = votes.confirms.set(me);
            if set != 0 {
                board.put(&[b'C', epoch, round, set])?;
            }
        }
        Some(())
    }

    /// Writes the file of the book; answers its length.
    fn print(&self, out: &mut [u8]) -> Result<usize, Refusal> {
        let mut text = String::new();
        self.tell(&mut text).expect("a string takes all");
        let out = out.get_mut(..text.len()).ok_or(File)?;
        out.copy_from_slice(text.as_bytes());
        Ok(text.len())
    }

    fn tell(&self, text: &mut String) -> fmt::Result {
        writeln!(text, "book;{};{}", self.n, self.pages.len())?;
        writeln!(text, "epoch;box;slot;house;week;quantity;amount")?;
        for page in &self.pages {
            let (epoch, queue, slot, item) = (page.epoch, page.queue, page.slot, page.item);
            writeln!(text, "{epoch};{queue};{slot};{item}")?;
        }
        Ok(())
    }
}

/// States the first entry that is due: one that enough have in another table, or else some honest one has in this.
fn vouch(
    stated: &mut [Option<Reading>],
    heard: &[Option<Reading>],
    enough: usize,
    f: usize,
    n: usize,
    me: usize,
) -> bool {
    for (row, other) in stated.chunks_exact_mut(n).zip(heard.chunks_exact(n)) {
        if row[me].is_none() {
            if let Some(item) = backed(other, enough).or_else(|| backed(row, f + 1)) {
                row[me] = Some(item);
                return true;
            }
        }
    }
    false
}

/// The statements of a board as they are written, from a number on.
struct Board<'a> {
    out: &'a mut [u8],
    bytes: usize,
    first: usize,
    next: usize,
}

impl Board<'_> {
    /// Writes a statement, if its number is reached and it fits.
    fn put(&mut self, statement: &[u8]) -> Option<()> {
        if self.next >= self.first {
            let end = self.bytes + statement.len();
            self.out
                .get_mut(self.bytes..end)?
                .copy_from_slice(statement);
            self.bytes = end;
        }
        self.next += 1;
        Some(())
    }

    fn put_entry<const N: usize>(&mut self, head: &[u8; N], item: Reading) -> Option<()> {
        if self.next >= self.first {
            let end = self.bytes + N + 8;
            let (front, back) = self.out.get_mut(self.bytes..end)?.split_at_mut(N);
            front.copy_from_slice(head);
            back.copy_from_slice(&item.bytes());
            self.bytes = end;
        }
        self.next += 1;
        Some(())
    }
}

#[derive(Default)]
struct Counts {
    exchanges: u64,
    submits: u64,
    opens: u64,
    hears: u64,
    turns: u64,
    shows: u64,
    nexts: u64,
    prints: u64,
    accepted: u64,
    moves: u64,
}

struct Load {
    replicas: Vec<Replica>,
    counts: Counts,
}

impl Load {
    fn new(n: usize, w: usize) -> Result<Load, Refusal> {
        numbers(n, 0, w)?;
        let replicas = (0..n).map(|me| Replica::make(n, me, w));
        Ok(Load {
            replicas: replicas.collect::<Result<_, _>>()?,
            counts: Counts::default(),
        })
    }

    fn run(&mut self, epochs: u16, buffer: &mut [u8]) {
        self.submit_all();
        for _ in 0..EXCHANGES {
            if self.replicas.iter().all(|it| it.epoch >= epochs) {
                return;
            }
            for replica in &mut self.replicas {
                self.counts.opens += 1;
                let _ = replica.open();
            }
            self.exchange(buffer);
            for replica in &mut self.replicas {
                self.counts.turns += 1;
                while replica.turn() > 0 {
                    self.counts.moves += 1;
                    self.counts.turns += 1;
                }
            }
        }
    }

    fn submit_all(&mut self) {
        for (me, replica) in self.replicas.iter_mut().enumerate() {
            for slot in 0..replica.w {
                let [h1, h0] = (16 * me as u16 + slot as u16 + 1).to_be_bytes();
                let (me, slot) = (me as u8, slot as u8);
                self.counts.submits += 1;
                let _ = replica.submit(&[h1, h0, 7, 1 + slot % 3, 0, 0, me, slot]);
            }
        }
    }

    fn exchange(&mut self, buffer: &mut [u8]) {
        self.counts.exchanges += 1;
        for sender in 0..self.replicas.len() {
            let mut number = 0;
            loop {
                self.counts.shows += 1;
                let Ok((bytes, next)) = self.replicas[sender].show(number, buffer) else {
                    break;
                };
                if next == number {
                    break;
                }
                self.tell(sender, &buffer[..bytes]);
                number = next;
            }
        }
    }

    /// The others hear the statements of a frame.
    fn tell(&mut self, sender: usize, frame: &[u8]) {
        let mut place = 0;
        loop {
            self.counts.nexts += 1;
            let Ok(Some(statement)) = next(frame, place) else {
                return;
            };
            place += statement.len();
            for (at, replica) in self.replicas.iter_mut().enumerate() {
                if at == sender {
                    continue;
                }
                self.counts.hears += 1;
                if replica.hear(sender, statement).is_ok() {
                    self.counts.accepted += 1;
                }
            }
        }
    }

    fn digest(&mut self, buffer: &mut [u8]) -> u64 {
        let mut digest = 0xcbf2_9ce4_8422_2325;
        for replica in &self.replicas {
            self.counts.prints += 1;
            if let Ok(length) = replica.print(buffer) {
                for byte in &buffer[..length] {
                    digest = (digest ^ u64::from(*byte)).wrapping_mul(0x0100_0000_01b3);
                }
            }
        }
        digest
    }
}

fn options() -> Option<(u8, u8, u16)> {
    let mut args = env::args().skip(1);
    let boxes = args.next()?.parse().ok()?;
    let slots = args.next()?.parse().ok()?;
    let epochs = args.next()?.parse().ok()?;
    (args.next().is_none() && epochs <= EPOCHS).then_some((boxes, slots, epochs))
}

fn main() -> ExitCode {
    let Some((boxes, slots, epochs)) = options() else {
        eprintln!("{USAGE}");
        return ExitCode::FAILURE;
    };
    let mut load = match Load::new(boxes.into(), slots.into()) {
        Ok(load) => load,
        Err(refusal) => {
            println!("refused;{}", refusal as u8);
            return ExitCode::SUCCESS;
        }
    };
    let mut buffer = vec![0; ROOM];
    load.run(epochs, &mut buffer);
    let digest = load.digest(&mut buffer);
    let counts = &load.counts;
    println!("pages;{}", load.replicas[0].pages.len());
    println!("exchanges;{}", counts.exchanges);
    println!("submit;{}", counts.submits);
    println!("open;{}", counts.opens);
    println!("hear;{}", counts.hears);
    println!("turn;{}", counts.turns);
    println!("show;{}", counts.shows);
    println!("next;{}", counts.nexts);
    println!("print;{}", counts.prints);
    println!("accepted;{}", counts.accepted);
    println!("moves;{}", counts.moves);
    println!("digest;{digest:016x}");
    ExitCode::SUCCESS
}
