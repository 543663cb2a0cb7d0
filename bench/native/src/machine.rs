//! The machine: native structures, masks of what may step, and no test of soundness, since nobody else writes its state.

use crate::decoded::{Branch, Instruction, decoded};

/// At most 16 values, the top or newest last.
#[derive(Clone, Copy, Default)]
struct Values {
    count: usize,
    cells: [i32; 16],
}

impl Values {
    #[inline(always)]
    fn push(&mut self, value: i32) {
        self.cells[self.count & 15] = value;
        self.count += 1;
    }

    #[inline(always)]
    fn pop(&mut self) -> i32 {
        self.count -= 1;
        self.cells[self.count & 15]
    }

    fn is_full(&self) -> bool {
        self.count == 16
    }
}

#[derive(Clone, Copy)]
struct Record {
    place: u16,
    /// The set of the slots that hold an end; the others are zero.
    held: u8,
    slots: [u8; 8],
    stack: Values,
    environment: Values,
}

impl Record {
    /// The end in a slot; none if it is empty or over 7.
    #[inline(always)]
    fn end(&self, slot: u8) -> Option<usize> {
        (u32::from(self.held) >> (slot & 31) & 1 != 0 && slot < 8).then(|| usize::from(self.slots[usize::from(slot & 7)]))
    }

    fn set(&mut self, slot: u8, end: u8) {
        self.held |= 1 << slot;
        self.slots[usize::from(slot)] = end;
    }

    fn empty(&mut self, slot: u8) {
        self.held &= !(1 << slot);
        self.slots[usize::from(slot)] = 0;
    }
}

#[derive(Clone, Copy)]
enum Item {
    Value(i32),
    Handle(u8),
    Split(u8, u8),
    Close,
    Wait(u8),
}

/// An end, its queue a ring of eight cells.
#[derive(Clone, Copy)]
struct End {
    partner: u8,
    head: u8,
    count: u8,
    items: [Item; 8],
}

const NEW_END: End = End { partner: 0, head: 0, count: 0, items: [Item::Close; 8] };
const NEW_RECORD: Record = Record {
    place: 0,
    held: 0,
    slots: [0; 8],
    stack: Values { count: 0, cells: [0; 16] },
    environment: Values { count: 0, cells: [0; 16] },
};

/// How a run came out: verdict, steps, next position.
pub struct Outcome {
    /// `spent`, `finished` or `stuck`.
    pub verdict: &'static str,
    /// The steps made.
    pub steps: u32,
    /// The next position.
    pub next: u32,
}

/// The machine with a code.
#[derive(Clone)]
pub struct Machine {
    code: Vec<u8>,
    instructions: Vec<(Instruction, u16)>,
    records: [Record; 32],
    ends: [End; 64],
    /// Records in use, records that run, free ends, ends whose pair has two queues that are not empty.
    used: u32,
    running: u32,
    free: u64,
    meeting: u64,
}

impl Machine {
    /// The start state with a code.
    pub fn new(code: Vec<u8>) -> Self {
        let instructions = decoded(&code);
        Machine {
            code,
            instructions,
            records: [NEW_RECORD; 32],
            ends: [NEW_END; 64],
            used: 1,
            running: 1,
            free: u64::MAX,
            meeting: 0,
        }
    }

    /// A run; each position taken is shown to `watch`.
    pub fn run(&mut self, budget: u32, start: u32, mut watch: impl FnMut(u32)) -> Outcome {
        let (mut steps, mut next) = (0, start);
        while steps < budget {
            let Some(position) = self.step_from(next) else { break };
            watch(position);
            steps += 1;
            next = if position == 95 { 0 } else { position + 1 };
        }
        let verdict = match (self.clone().step_from(next), self.used, self.free) {
            (Some(_), _, _) => "spent",
            (None, 0, u64::MAX) => "finished",
            (None, _, _) => "stuck",
        };
        Outcome { verdict, steps, next }
    }

    /// Steps at the first position that can, from a position upward and around.
    #[inline(always)]
    fn step_from(&mut self, from: u32) -> Option<u32> {
        let position = first(self.running, self.meeting, from)?;
        if self.step(position).is_some() { Some(position) } else { self.step_without(position, from) }
    }

    /// The same where this position is refused.
    #[cold]
    fn step_without(&mut self, refused: u32, from: u32) -> Option<u32> {
        let (mut records, mut ends, mut refused) = (self.running, self.meeting, refused);
        loop {
            match refused.checked_sub(32) {
                None => records &= !(1 << refused),
                Some(end) => ends &= !(1 << end),
            }
            let position = first(records, ends, from)?;
            if self.step(position).is_some() {
                return Some(position);
            }
            refused = position;
        }
    }

    #[inline(always)]
    fn step(&mut self, position: u32) -> Option<()> {
        if position < 32 { self.step_record(position as usize) } else { self.step_end(position as usize - 32) }
    }

    /// A step of a record; none if it is refused, and nothing is changed.
    #[inline(always)]
    fn step_record(&mut self, r: usize) -> Option<()> {
        let record = &mut self.records[r & 31];
        let (instruction, next) = self.instructions.get(usize::from(record.place))?;
        let next = *next;
        let stack = &mut record.stack;
        match *instruction {
            Instruction::Nothing => return None,
            Instruction::Cst(value) => {
                (!stack.is_full()).then(|| stack.push(value))?;
            }
            Instruction::Access(n) => {
                let place = record.environment.count.checked_sub(1 + usize::from(n)).filter(|_| !stack.is_full())?;
                stack.push(record.environment.cells[place & 15]);
            }
            Instruction::Store => {
                (stack.count > 0 && !record.environment.is_full()).then(|| record.environment.push(stack.pop()))?;
            }
            Instruction::Add => two(stack, |top, below| top.checked_add(below))?,
            Instruction::Mul => two(stack, |top, below| top.checked_mul(below))?,
            Instruction::Leq => two(stack, |top, below| Some(i32::from(top <= below)))?,
            Instruction::Put(c) => {
                let x = record.end(c).filter(|&x| record.stack.count > 0 && self.ends[x & 63].count < 8)?;
                let value = record.stack.pop();
                record.place = next;
                return self.append(x, Item::Value(value));
            }
            Instruction::HPut(c, n) => {
                let x = record.end(c).filter(|&x| self.ends[x & 63].count < 8)?;
                record.place = next;
                return self.append(x, Item::Handle(n));
            }
            Instruction::Get(c) => {
                let x = record.end(c).filter(|_| !record.stack.is_full())?;
                return self.wait(r, x);
            }
            Instruction::HCase { c, .. } => {
                let x = record.end(c)?;
                return self.wait(r, x);
            }
            Instruction::Fork(c, first, second) => {
                let x = record.end(c)?;
                branches(first, second, record.held & !(1 << c)).filter(|()| record.stack.count == 0)?;
                return self.wait(r, x);
            }
            Instruction::Run { place, values, slots, at } => {
                self.call(r, usize::from(values), usize::from(slots), usize::from(at))?;
                self.records[r & 31].place = place;
                return Some(());
            }
            other => return self.rare(r, other, next),
        }
        record.place = next;
        Some(())
    }

    /// The instructions that make and give up ends.
    #[inline(never)]
    fn rare(&mut self, r: usize, instruction: Instruction, next: u16) -> Option<()> {
        let record = &mut self.records[r & 31];
        let (held, no_values) = (record.held, record.stack.count == 0);
        match instruction {
            Instruction::Close(c) => {
                let x = record.end(c).filter(|&x| self.ends[x].count < 8)?;
                record.empty(c);
                record.place = next;
                self.append(x, Item::Close)
            }
            Instruction::Halt(c) => {
                let x = record.end(c).filter(|&x| held == 1 << c && no_values && self.ends[x].count < 8)?;
                self.free_record(r);
                self.append(x, Item::Close)
            }
            Instruction::Split(c, a, b) => {
                let x = record.end(c)?;
                let open = |slot: u8| slot < 8 && (slot == c || held & 1 << slot == 0);
                let right = open(a) && open(b) && a != b && no_values && self.ends[x].count < 8 && self.free.count_ones() >= 4;
                right.then_some(())?;
                record.empty(c);
                record.place = next;
                let (p, q) = self.pair();
                let (s, t) = self.pair();
                let record = &mut self.records[r];
                record.set(a, p);
                record.set(b, s);
                self.append(x, Item::Split(q, t))
            }
            Instruction::Plug(first, second) => {
                branches(first, second, held).filter(|()| no_values && self.free.count_ones() >= 2 && self.used != u32::MAX)?;
                let (p, q) = self.pair();
                self.branch(r, (first, p), (second, q));
                Some(())
            }
            Instruction::Same(c, d) => {
                let (x, y) = (record.end(c)?, record.end(d)?);
                let (g, h) = (self.ends[x].partner, self.ends[y].partner);
                let right = held == 1 << c | 1 << d && no_values && c != d && usize::from(g) != y;
                (right && self.ends[x].count == 0 && self.ends[y].count == 0).then_some(())?;
                self.free_record(r);
                self.free_end(x);
                self.free_end(y);
                self.ends[usize::from(g)].partner = h;
                self.ends[usize::from(h)].partner = g;
                self.mark(usize::from(g));
                Some(())
            }
            _ => None,
        }
    }

    /// A step at an end; none if it is refused, and nothing is changed.
    #[inline(always)]
    fn step_end(&mut self, e: usize) -> Option<()> {
        let own = &self.ends[e & 63];
        let f = usize::from(own.partner);
        let other = &self.ends[f & 63];
        let heads = (own.items[usize::from(own.head & 7)], other.items[usize::from(other.head & 7)]);
        let (datum, r) = match heads {
            (Item::Wait(r), datum) | (datum, Item::Wait(r)) => (datum, usize::from(r)),
            (Item::Close, Item::Close) => {
                self.free_end(e);
                self.free_end(f);
                return Some(());
            }
            _ => return None,
        };
        let record = &mut self.records[r & 31];
        let (instruction, next) = self.instructions.get(usize::from(record.place))?;
        match (datum, *instruction) {
            (Item::Value(value), Instruction::Get(_)) => {
                record.stack.push(value);
                record.place = *next;
            }
            (Item::Handle(n), Instruction::HCase { places, at, .. }) if n < places => {
                let at = usize::from(at) + 2 * usize::from(n);
                record.place = u16::from_be_bytes([self.code[at], self.code[at + 1]]);
            }
            (Item::Split(q, s), Instruction::Fork(_, first, second)) if self.used != u32::MAX => {
                self.branch(r, (first, q), (second, s));
                self.free_end(e);
                self.free_end(f);
                return Some(());
            }
            _ => return None,
        }
        self.running |= 1 << r;
        for x in [e, f] {
            let end = &mut self.ends[x & 63];
            end.head = (end.head + 1) & 7;
            end.count -= 1;
        }
        self.mark(e);
        Some(())
    }

    /// run: the values become the environment, the listed slots the callee's.
    fn call(&mut self, r: usize, values: usize, slots: usize, at: usize) -> Option<()> {
        let record = &mut self.records[r & 31];
        let (mut callee, mut set) = ([0; 8], 0u8);
        for (i, &slot) in self.code[at..at + slots].iter().enumerate() {
            let end = record.end(slot).filter(|_| set & 1 << slot == 0)?;
            callee[i & 7] = end as u8;
            set |= 1 << slot;
        }
        (set == record.held && record.stack.count >= values).then_some(())?;
        record.slots = callee;
        record.held = u8::MAX.checked_shr(8 - slots as u32).unwrap_or(0);
        record.environment.count = 0;
        for _ in 0..values {
            record.environment.push(record.stack.pop());
        }
        Some(())
    }

    #[inline(always)]
    fn append(&mut self, x: usize, item: Item) -> Option<()> {
        let end = &mut self.ends[x & 63];
        end.items[usize::from((end.head + end.count) & 7)] = item;
        end.count += 1;
        self.mark(x);
        Some(())
    }

    #[inline(always)]
    fn wait(&mut self, r: usize, x: usize) -> Option<()> {
        (self.ends[x & 63].count < 8).then_some(())?;
        self.running &= !(1 << r);
        self.append(x, Item::Wait(r as u8))
    }

    /// Brings the mask of meeting ends up to date for a pair.
    #[inline(always)]
    fn mark(&mut self, x: usize) {
        let y = usize::from(self.ends[x & 63].partner);
        let pair = 1u64 << x | 1 << y;
        if self.ends[x & 63].count > 0 && self.ends[y & 63].count > 0 {
            self.meeting |= pair;
        } else {
            self.meeting &= !pair;
        }
    }

    /// The two lowest free ends, made partners.
    fn pair(&mut self) -> (u8, u8) {
        let mut next = || {
            let end = self.free.trailing_zeros() as u8;
            self.free &= self.free - 1;
            end
        };
        let (p, q) = (next(), next());
        self.ends[usize::from(p)] = End { partner: q, ..NEW_END };
        self.ends[usize::from(q)] = End { partner: p, ..NEW_END };
        (p, q)
    }

    fn free_end(&mut self, x: usize) {
        self.free |= 1 << x;
        self.meeting &= !(1 << x);
        self.ends[x] = NEW_END;
    }

    fn free_record(&mut self, r: usize) {
        self.used &= !(1 << r);
        self.running &= !(1 << r);
        self.records[r] = NEW_RECORD;
    }

    /// The two branches of a plug or fork, the second in the lowest free record.
    fn branch(&mut self, r: usize, first: (Branch, u8), second: (Branch, u8)) {
        let other = (!self.used).trailing_zeros() as usize;
        let Record { slots, environment, .. } = self.records[r];
        for (number, (branch, end)) in [(r, first), (other, second)] {
            let mut record = Record { place: branch.place, environment, ..NEW_RECORD };
            for slot in (0..8).filter(|slot| branch.keeps & 1 << slot != 0) {
                record.set(slot, slots[usize::from(slot)]);
            }
            record.set(branch.slot, end);
            self.records[number] = record;
            self.used |= 1 << number;
            self.running |= 1 << number;
        }
    }
}

/// The first position of the masks, from a position upward and around.
#[inline(always)]
fn first(records: u32, ends: u64, from: u32) -> Option<u32> {
    let record = |records: u32| (records != 0).then(|| records.trailing_zeros());
    let end = |ends: u64| (ends != 0).then(|| 32 + ends.trailing_zeros());
    if from < 32 {
        record(records >> from << from).or_else(|| end(ends)).or_else(|| record(records))
    } else {
        end(ends >> (from - 32) << (from - 32)).or_else(|| record(records)).or_else(|| end(ends))
    }
}

/// Pops two values and pushes one.
#[inline(always)]
fn two(stack: &mut Values, compute: impl Fn(i32, i32) -> Option<i32>) -> Option<()> {
    let below = stack.count.checked_sub(2)?;
    let value = compute(stack.cells[(below + 1) & 15], stack.cells[below & 15])?;
    stack.cells[below & 15] = value;
    stack.count -= 1;
    Some(())
}

/// May these branches share out these slots?
fn branches(first: Branch, second: Branch, all: u8) -> Option<()> {
    let right = |branch: Branch| branch.slot < 8 && branch.keeps & 1 << branch.slot == 0;
    let shared = first.keeps & second.keeps == 0 && first.keeps | second.keeps == all;
    (right(first) && right(second) && shared).then_some(())
}
