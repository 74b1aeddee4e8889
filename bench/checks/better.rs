// A better plain program of the same answers as answer.rs, on one thread and without proofs: each entry has a set of its own, in
// open addressing, whose keys are whole path edges: the point in the low bits of a word, and the valuation above it. The words
// have 64 bits where both fit into them for every procedure of the program, and else 128. bench/checks/run puts this behind the
// reader of bench/summaries/plain.rs.
//
// A point is one more than in the reader: 1 is the exit. So no key is 0, which stands for a free slot and for the target of an
// assume that does not hold. Behind the points of a procedure come names that are no points: two for its pairs, by the value that
// is given, and one for each assignment of three or more `?`, for what of a valuation has been treated there. No message is kept:
// a call knows the entry that it makes, and an entry the calls that made it, so messages are counted at the end.

use std::ops::{BitAnd, BitOr, BitXor, Not, Sub};

trait Word:
    Copy
    + Eq
    + BitAnd<Output = Self>
    + BitOr<Output = Self>
    + BitXor<Output = Self>
    + Not<Output = Self>
    + Sub<Output = Self>
{
    const ZERO: Self;
    const ONE: Self;
    const BITS: u32;
    fn low(n: usize) -> Self;
    fn shifted(self, by: u32) -> Self;
    /// The lowest 64 bits above the first `by`.
    fn above(self, by: u32) -> u64;
    /// A hash in the highest bits.
    fn mixed(self) -> u64;
}

const FIRST: u64 = 0x9E37_79B9_7F4A_7C15;
const SECOND: u64 = 0xD6E8_FEB8_6659_FD93;

macro_rules! word {
    ($word:ty, $mixed:expr) => {
        impl Word for $word {
            const ZERO: $word = 0;
            const ONE: $word = 1;
            const BITS: u32 = <$word>::BITS;
            #[inline(always)]
            fn low(n: usize) -> $word {
                n as $word
            }
            #[inline(always)]
            fn shifted(self, by: u32) -> $word {
                self << by
            }
            #[inline(always)]
            fn above(self, by: u32) -> u64 {
                (self >> by) as u64
            }
            #[inline(always)]
            fn mixed(self) -> u64 {
                $mixed(self)
            }
        }
    };
}
word!(u64, |n: u64| n.wrapping_mul(FIRST));
word!(u128, |n: u128| (n as u64)
    .wrapping_mul(FIRST)
    .wrapping_add((n >> 64) as u64)
    .wrapping_mul(SECOND));

// ---- flows

/// What some expressions over at most `MOST` bits give together, by the row of those bits. Bits that are neighbours move together.
struct Rows<W> {
    shifts: [u8; 4],
    masks: [u32; 4],
    more: Vec<(u8, u32)>,
    rows: Vec<W>,
}

const MOST: usize = 12;

impl<W: Word> Rows<W> {
    /// Each expression, and what it gives where it holds.
    fn new(low: u32, writes: &[(&Expr, W)], always: W) -> Self {
        let mut bits = Vec::new();
        for (e, _) in writes {
            inputs(e, &mut bits);
        }
        bits.sort_unstable();
        let mut moves: Vec<(u8, u32)> = Vec::new();
        for (n, bit) in bits.iter().enumerate() {
            let shift = bit + low as u8 - n as u8;
            match moves.last_mut() {
                Some((last, mask)) if *last == shift => *mask |= 1 << n,
                _ => moves.push((shift, 1 << n)),
            }
        }
        let mut rows = vec![always; 1 << bits.len()];
        for (e, gives) in writes {
            let holds = truths(e, &bits);
            for (n, row) in rows.iter_mut().enumerate() {
                if holds[n / 64] >> (n % 64) & 1 == 1 {
                    *row = *row | *gives;
                }
            }
        }
        let (mut shifts, mut masks) = ([0; 4], [0; 4]);
        for (n, (shift, mask)) in moves.iter().take(4).enumerate() {
            (shifts[n], masks[n]) = (*shift, *mask);
        }
        let more = moves.into_iter().skip(4).collect();
        Rows {
            shifts,
            masks,
            more,
            rows,
        }
    }

    #[inline(always)]
    fn at(&self, key: W) -> W {
        let part = |n: usize| key.above(u32::from(self.shifts[n])) as u32 & self.masks[n];
        let mut row = (part(0) | part(1)) | (part(2) | part(3));
        for (shift, mask) in &self.more {
            row |= key.above(u32::from(*shift)) as u32 & mask;
        }
        self.rows[row as usize]
    }
}

/// Whether an expression holds, in each row of the bits.
fn truths(e: &Expr, bits: &[u8]) -> Vec<u64> {
    let words = ((1usize << bits.len()) + 63) / 64;
    match e {
        Expr::Const(b) => vec![if *b { !0 } else { 0 }; words],
        Expr::Bit(b) => {
            let n = bits.iter().position(|it| it == b).unwrap();
            let row = |row: usize| (row >> n & 1) as u64;
            let word = |at: usize| (0..64).map(|low| row(64 * at + low) << low).sum();
            (0..words).map(word).collect()
        }
        Expr::Not(a) => truths(a, bits).into_iter().map(|a| !a).collect(),
        Expr::Two(op, a, b) => {
            let both = truths(a, bits).into_iter().zip(truths(b, bits));
            both.map(|(a, b)| match op {
                b'>' => !a | b,
                b'|' => a | b,
                b'^' => a ^ b,
                b'&' => a & b,
                _ => !(a ^ b),
            })
            .collect()
        }
    }
}

fn holds<W: Word>(e: &Expr, low: u32, key: W) -> bool {
    match e {
        Expr::Const(b) => *b,
        Expr::Bit(b) => key.above(u32::from(*b) + low) & 1 == 1,
        Expr::Not(a) => !holds(a, low, key),
        Expr::Two(op, a, b) => {
            let (a, b) = (holds(a, low, key), holds(b, low, key));
            match op {
                b'>' => !a | b,
                b'|' => a | b,
                b'^' => a ^ b,
                b'&' => a & b,
                _ => a == b,
            }
        }
    }
}

/// Expressions over any number of bits: in tables together as far as they fit, and trees for those that fit into none.
struct Sum<W> {
    low: u32,
    tables: Vec<Rows<W>>,
    trees: Vec<(Expr, W)>,
}

impl<W: Word> Sum<W> {
    fn new(low: u32, writes: &[(&Expr, W)], always: W) -> Self {
        let mut sum = Sum {
            low,
            tables: Vec::new(),
            trees: Vec::new(),
        };
        let (mut bits, mut from, mut always) = (Vec::new(), 0, always);
        let mut fit: Vec<(&Expr, W)> = Vec::new();
        for (e, gives) in writes {
            let mut own = Vec::new();
            inputs(e, &mut own);
            if own.len() > MOST {
                sum.trees.push(((*e).clone(), *gives));
                continue;
            }
            inputs(e, &mut bits);
            if bits.len() > MOST {
                sum.tables.push(Rows::new(low, &fit[from..], always));
                (bits, from, always) = (own, fit.len(), W::ZERO);
            }
            fit.push((e, *gives));
        }
        sum.tables.push(Rows::new(low, &fit[from..], always));
        sum
    }

    fn at(&self, key: W) -> W {
        let tables = self.tables.iter().fold(W::ZERO, |all, it| all | it.at(key));
        let trees = self.trees.iter().filter(|(e, _)| holds(e, self.low, key));
        trees.fold(tables, |all, (_, gives)| all | *gives)
    }
}

/// What follows on a path edge, whose point is among what is not kept and is given anew.
enum Follow<W> {
    /// A skip, a test, an assume or an assignment without `?`: what is kept, and what is given.
    Step(W, Rows<W>),
    /// A test of `?`, by what changes of the key.
    Either(W, W),
    /// An assignment: what is kept, what is given, the bits of the `?`, and the name of what has been treated.
    Draw(W, Sum<W>, W, Option<W>),
    /// Who is called, the arguments, and which call of the program it is.
    Call(usize, Sum<W>, u32),
    Exit,
}

/// How a caller goes on: what it keeps of its own, what of the pair, where it goes on, and the bit of the value.
struct Back<W> {
    own: W,
    pair: W,
    next: W,
    value: W,
}

struct Plan<W> {
    follows: Vec<Follow<W>>,
    start: W,
    /// The name of its pairs, and the bit of its value in a key.
    pairs: W,
    result: Option<u32>,
    /// How many valuations of names for `?` were treated: they are in the sets, and are no path edges.
    treated: u64,
    /// How many slots the next entry begins with.
    slots: usize,
}

/// One less than the number of names that the points and what is no point of a procedure take.
fn most_names(stmts: &[Stmt], points: usize) -> usize {
    fn draws(stmts: &[Stmt]) -> usize {
        let each = stmts.iter().map(|s| match &s.core {
            Core::If(_, yes, no) => draws(yes) + draws(no),
            Core::While(_, body) => draws(body),
            Core::Assign(_, sides) => {
                usize::from(sides.iter().filter(|it| it.is_none()).count() > 2)
            }
            _ => 0,
        });
        each.sum()
    }
    points + 4 + draws(stmts)
}

struct Planner<'p, W> {
    low: u32,
    points: W,
    globals: W,
    procedures: &'p HashMap<String, usize>,
    formals: u32,
    labels: HashMap<&'p str, usize>,
    follows: Vec<Follow<W>>,
    names: usize,
    backs: &'p mut Vec<Back<W>>,
}

impl<'p, W: Word> Planner<'p, W> {
    fn label(&mut self, stmts: &'p [Stmt]) {
        for s in stmts {
            if let Some(l) = &s.label {
                self.labels.insert(l, s.point + 1);
            }
            match &s.core {
                Core::If(_, yes, no) => {
                    self.label(yes);
                    self.label(no);
                }
                Core::While(_, body) => self.label(body),
                _ => {}
            }
        }
    }

    fn block(&mut self, stmts: &'p [Stmt], after: usize) -> usize {
        for (n, s) in stmts.iter().enumerate() {
            let next = stmts.get(n + 1).map_or(after, |s| s.point + 1);
            self.follows[s.point + 1] = self.follow(s, next);
        }
        stmts.first().map_or(after, |s| s.point + 1)
    }

    fn bit(&self, bit: u8) -> W {
        W::ONE.shifted(u32::from(bit) + self.low)
    }

    fn step(&self, keep: W, writes: &[(&Expr, W)], always: W) -> Follow<W> {
        let mut sum = Sum::new(self.low, writes, always);
        if sum.trees.is_empty() && sum.tables.len() == 1 {
            return Follow::Step(keep, sum.tables.pop().unwrap());
        }
        Follow::Draw(keep, sum, W::ZERO, None)
    }

    fn test(&self, at: usize, test: &Option<Expr>, yes: usize, no: usize) -> Follow<W> {
        let Some(e) = test else {
            return Follow::Either(W::low(at ^ yes), W::low(at ^ no));
        };
        let not = Expr::Not(Box::new(e.clone()));
        self.step(
            !self.points,
            &[(e, W::low(yes)), (&not, W::low(no))],
            W::ZERO,
        )
    }

    fn assign(&mut self, targets: &[u8], sides: &[Option<Expr>], next: usize) -> Follow<W> {
        let (mut writes, mut written, mut any, mut draws) = (Vec::new(), W::ZERO, W::ZERO, 0);
        for (target, side) in targets.iter().zip(sides) {
            let bit = self.bit(*target);
            written = written | bit;
            match side {
                Some(e) => writes.push((e, bit)),
                None => (any, draws) = (any | bit, draws + 1),
            }
        }
        let keep = !(written | self.points);
        if draws == 0 {
            return self.step(keep, &writes, W::low(next));
        }
        let name = (draws > 2).then(|| W::low(self.names));
        self.names += usize::from(draws > 2);
        Follow::Draw(keep, Sum::new(self.low, &writes, W::low(next)), any, name)
    }

    fn call(
        &mut self,
        name: &str,
        arguments: &[Expr],
        target: Option<u8>,
        next: usize,
    ) -> Follow<W> {
        let formal = |n| W::ONE.shifted(self.formals + n as u32 + self.low);
        let writes: Vec<_> = arguments
            .iter()
            .enumerate()
            .map(|(n, e)| (e, formal(n)))
            .collect();
        let value = target.map_or(W::ZERO, |it| self.bit(it));
        self.backs.push(Back {
            own: !(self.globals | self.points | value),
            pair: self.globals & !value,
            next: W::low(next),
            value,
        });
        let sum = Sum::new(self.low, &writes, W::ZERO);
        Follow::Call(self.procedures[name], sum, self.backs.len() as u32 - 1)
    }

    fn follow(&mut self, s: &'p Stmt, next: usize) -> Follow<W> {
        match &s.core {
            Core::Skip | Core::Assume(None) => self.step(!self.points, &[], W::low(next)),
            Core::Return => self.step(!self.points, &[], W::ONE),
            Core::Goto(l) => self.step(!self.points, &[], W::low(self.labels[l.as_str()])),
            Core::Assume(Some(e)) => self.step(!self.points, &[(e, W::low(next))], W::ZERO),
            Core::If(test, yes, no) => {
                let (yes, no) = (self.block(yes, next), self.block(no, next));
                self.test(s.point + 1, test, yes, no)
            }
            Core::While(test, body) => {
                let body = self.block(body, s.point + 1);
                self.test(s.point + 1, test, body, next)
            }
            Core::Give(bit, e) => {
                let bit = self.bit(*bit);
                self.step(!(self.points | bit), &[(e, bit)], W::ONE)
            }
            Core::Call(name, arguments, target) => self.call(name, arguments, *target, next),
            Core::Assign(targets, sides) => self.assign(targets, sides, next),
        }
    }
}

// ---- sets of path edges

/// Tables that are not used: by the logarithm of their size, with free slots only.
struct Spare<W>(Vec<Vec<Vec<W>>>);

impl<W: Word> Spare<W> {
    fn take(&mut self, slots: usize) -> Vec<W> {
        let some = self.0[slots.trailing_zeros() as usize].pop();
        some.unwrap_or_else(|| vec![W::ZERO; slots])
    }

    fn keep(&mut self, mut slots: Vec<W>) {
        slots.fill(W::ZERO);
        self.0[slots.len().trailing_zeros() as usize].push(slots);
    }
}

struct Keys<W> {
    slots: Vec<W>,
    shift: u32,
    used: usize,
}

impl<W: Word> Keys<W> {
    fn new(slots: Vec<W>) -> Self {
        Keys {
            shift: 64 - slots.len().trailing_zeros(),
            slots,
            used: 0,
        }
    }

    /// Where a key is, or else the free slot for it.
    #[inline(always)]
    fn find(&self, key: W) -> (usize, bool) {
        let most = self.slots.len() - 1;
        let mut at = (key.mixed() >> self.shift) as usize & most;
        loop {
            let slot = self.slots[at];
            if slot == key {
                return (at, true);
            }
            if slot == W::ZERO {
                return (at, false);
            }
            at = (at + 1) & most;
        }
    }

    /// Answers whether the key is new.
    #[inline(always)]
    fn insert(&mut self, key: W, spare: &mut Spare<W>) -> bool {
        let (at, known) = self.find(key);
        if known {
            return false;
        }
        self.slots[at] = key;
        self.used += 1;
        if self.used * 8 > self.slots.len() * 7 {
            self.grow(spare);
        }
        true
    }

    #[cold]
    #[inline(never)]
    fn grow(&mut self, spare: &mut Spare<W>) {
        let new = spare.take(self.slots.len() * 2);
        let old = std::mem::replace(&mut self.slots, new);
        self.shift -= 1;
        for key in &old {
            if *key != W::ZERO {
                let (at, _) = self.find(*key);
                self.slots[at] = *key;
            }
        }
        spare.keep(old);
    }
}

/// The entries of a procedure by their keys at its start.
struct Numbers<W> {
    slots: Vec<(W, u32)>,
    shift: u32,
    used: usize,
}

impl<W: Word> Numbers<W> {
    /// The number of an entry, which is `next` where it is new.
    fn number(&mut self, key: W, next: u32) -> u32 {
        if self.used * 2 >= self.slots.len() {
            self.grow();
        }
        let at = self.find(key);
        if self.slots[at].0 == W::ZERO {
            self.slots[at] = (key, next);
            self.used += 1;
        }
        self.slots[at].1
    }

    fn find(&self, key: W) -> usize {
        let most = self.slots.len() - 1;
        let mut at = (key.mixed() >> self.shift) as usize;
        while self.slots[at].0 != W::ZERO && self.slots[at].0 != key {
            at = (at + 1) & most;
        }
        at
    }

    fn grow(&mut self) {
        let new = vec![(W::ZERO, 0); self.slots.len() * 2];
        let old = std::mem::replace(&mut self.slots, new);
        self.shift -= 1;
        for slot in old.into_iter().filter(|it| it.0 != W::ZERO) {
            let at = self.find(slot.0);
            self.slots[at] = slot;
        }
    }
}

// ---- tabulating

struct Site<W> {
    own: W,
    entry: u32,
    call: u32,
}

/// What others see of an entry. Bit p of `callers` is for procedure p.
struct Face<W> {
    procedure: usize,
    callers: u64,
    exits: Vec<W>,
    sites: Vec<Site<W>>,
}

struct Work<W> {
    edges: Keys<W>,
    pending: Vec<W>,
}

impl<W: Word> Work<W> {
    #[inline(always)]
    fn reach(&mut self, key: W, spare: &mut Spare<W>) {
        if self.edges.insert(key, spare) {
            self.pending.push(key);
        }
    }
}

struct Whole<W> {
    plans: Vec<Plan<W>>,
    backs: Vec<Back<W>>,
    points: W,
    globals: W,
    numbers: Vec<Numbers<W>>,
    faces: Vec<Face<W>>,
    bodies: Vec<Work<W>>,
    /// The entries whose worklist is not empty, but for the one that works.
    awake: Vec<u32>,
    spare: Spare<W>,
}

#[inline(always)]
fn back_to<W: Word>(back: &Back<W>, own: W, pair: W) -> W {
    let value = if pair & W::ONE == W::ONE {
        back.value
    } else {
        W::ZERO
    };
    own | pair & back.pair | value
}

impl<W: Word> Whole<W> {
    fn enter(&mut self, procedure: usize, values: W) -> usize {
        let key = values | self.plans[procedure].start;
        let next = self.faces.len() as u32;
        let number = self.numbers[procedure].number(key, next);
        if number == next {
            self.faces.push(Face {
                procedure,
                callers: 0,
                exits: Vec::new(),
                sites: Vec::new(),
            });
            let edges = Keys::new(self.spare.take(self.plans[procedure].slots));
            let mut body = Work {
                edges,
                pending: Vec::new(),
            };
            body.reach(key, &mut self.spare);
            self.bodies.push(body);
            self.awake.push(next);
        }
        number as usize
    }

    fn call(
        &mut self,
        entry: u32,
        key: W,
        callee: usize,
        values: W,
        call: u32,
        body: &mut Work<W>,
    ) {
        let caller = self.faces[entry as usize].procedure;
        let number = self.enter(callee, key & self.globals | values);
        let back = &self.backs[call as usize];
        let own = key & back.own | back.next;
        let face = &mut self.faces[number];
        face.callers |= 1 << caller;
        face.sites.push(Site { own, entry, call });
        for pair in &face.exits {
            body.reach(back_to(back, own, *pair), &mut self.spare);
        }
    }

    fn exit(&mut self, entry: u32, pair: W, body: &mut Work<W>) {
        let face = &mut self.faces[entry as usize];
        face.exits.push(pair);
        for site in &face.sites {
            let key = back_to(&self.backs[site.call as usize], site.own, pair);
            if site.entry == entry {
                body.reach(key, &mut self.spare);
                continue;
            }
            let caller = &mut self.bodies[site.entry as usize];
            let slept = caller.pending.is_empty();
            caller.reach(key, &mut self.spare);
            if slept && !caller.pending.is_empty() {
                self.awake.push(site.entry);
            }
        }
    }

    /// Works off what is pending at an entry, which the worklist leads from edge to edge.
    fn explore(&mut self, entry: u32, plan: &Plan<W>, body: &mut Work<W>) -> u64 {
        let (points, globals) = (self.points, self.globals);
        let mut treated = 0;
        while let Some(mut key) = body.pending.pop() {
            loop {
                let next = match &plan.follows[(key & points).above(0) as usize] {
                    Follow::Step(keep, rows) => {
                        let next = key & *keep | rows.at(key);
                        if next & points == W::ZERO {
                            break;
                        }
                        next
                    }
                    Follow::Either(yes, no) => {
                        body.reach(key ^ *no, &mut self.spare);
                        key ^ *yes
                    }
                    Follow::Draw(keep, sum, any, name) => {
                        let first = key & *keep | sum.at(key);
                        if first & points == W::ZERO {
                            break;
                        }
                        if let Some(name) = name {
                            if !body.edges.insert(first & !points | *name, &mut self.spare) {
                                break;
                            }
                            treated += 1;
                        }
                        let mut draw = *any;
                        while draw != W::ZERO {
                            body.reach(first | draw, &mut self.spare);
                            draw = (draw - W::ONE) & *any;
                        }
                        first
                    }
                    Follow::Call(callee, sum, call) => {
                        self.call(entry, key, *callee, sum.at(key), *call, body);
                        break;
                    }
                    Follow::Exit => {
                        let value = plan.result.map_or(0, |bit| key.above(bit) as usize & 1);
                        let pair = key & globals | plan.pairs | W::low(value);
                        if body.edges.insert(pair, &mut self.spare) {
                            self.exit(entry, pair, body);
                        }
                        break;
                    }
                };
                if !body.edges.insert(next, &mut self.spare) {
                    break;
                }
                key = next;
            }
        }
        treated
    }

    fn tabulate(&mut self) {
        self.enter(0, W::ZERO);
        let mut stack = Vec::new();
        let mut plans = std::mem::take(&mut self.plans);
        for plan in &plans {
            self.plans.push(Plan {
                follows: Vec::new(),
                result: None,
                ..*plan
            });
        }
        while let Some(entry) = self.awake.pop() {
            let plan = &mut plans[self.faces[entry as usize].procedure];
            let nothing = Work {
                edges: Keys {
                    slots: Vec::new(),
                    shift: 0,
                    used: 0,
                },
                pending: Vec::new(),
            };
            let mut body = std::mem::replace(&mut self.bodies[entry as usize], nothing);
            stack.append(&mut body.pending);
            body.pending = stack;
            plan.treated += self.explore(entry, plan, &mut body);
            stack = std::mem::take(&mut body.pending);
            let slots = &mut self.plans[self.faces[entry as usize].procedure].slots;
            *slots = (body.edges.slots.len() / 2).clamp(16, (*slots * 2).min(256));
            self.bodies[entry as usize] = body;
        }
        self.plans = plans;
    }

    fn print(&self, bad: u32) {
        let count = self.plans.len();
        let (mut entries, mut pairs, mut taken) = (vec![0; count], vec![0; count], vec![0; count]);
        let mut edges: Vec<u64> = self
            .plans
            .iter()
            .map(|it| 0u64.wrapping_sub(it.treated))
            .collect();
        taken[0] = 1;
        for (face, body) in self.faces.iter().zip(&self.bodies) {
            let (p, exits) = (face.procedure, face.exits.len());
            entries[p] += 1;
            pairs[p] += exits;
            taken[p] += face.callers.count_ones() as usize;
            edges[p] = edges[p].wrapping_add((body.edges.used - exits) as u64);
            for caller in (0..count).filter(|it| face.callers >> it & 1 == 1) {
                taken[caller] += exits;
            }
        }
        let failed = self.faces[0].exits.iter().any(|it| it.above(bad) & 1 == 1);
        println!("{}", if failed { "unsafe" } else { "safe" });
        for p in 0..count {
            println!(
                "entries {} pairs {} taken {}",
                entries[p], pairs[p], taken[p]
            );
        }
        println!(
            "edges {} most {}",
            edges.iter().sum::<u64>(),
            edges.iter().max().unwrap()
        );
    }
}

fn answer<W: Word>(
    globals: &[String],
    procedures: &HashMap<String, usize>,
    bodies: &[Body],
    low: u32,
) {
    let points = W::ONE.shifted(low) - W::ONE;
    let first = globals.len() as u32;
    let shared = (W::ONE.shifted(first) - W::ONE).shifted(low);
    let (mut plans, mut backs) = (Vec::new(), Vec::new());
    for (body, count, result, _) in bodies {
        let pairs = (count + 2).next_multiple_of(2);
        let mut planner = Planner {
            low,
            points,
            globals: shared,
            procedures,
            formals: first,
            labels: HashMap::new(),
            follows: (0..count + 2).map(|_| Follow::Exit).collect(),
            names: pairs + 2,
            backs: &mut backs,
        };
        planner.label(body);
        let start = W::low(planner.block(body, 1));
        plans.push(Plan {
            follows: planner.follows,
            start,
            pairs: W::low(pairs),
            result: result.map(|bit| u32::from(bit) + low),
            treated: 0,
            slots: 16,
        });
    }
    let none = || Numbers {
        slots: vec![(W::ZERO, 0); 64],
        shift: 64 - 6,
        used: 0,
    };
    let mut whole = Whole {
        numbers: plans.iter().map(|_| none()).collect(),
        plans,
        backs,
        points,
        globals: shared,
        faces: Vec::new(),
        bodies: Vec::new(),
        awake: Vec::new(),
        spare: Spare((0..64).map(|_| Vec::new()).collect()),
    };
    whole.tabulate();
    let bad = globals.iter().position(|n| n == "bad__").unwrap();
    whole.print(bad as u32 + low);
}

fn main() {
    let text = std::fs::read_to_string(std::env::args().nth(1).unwrap()).unwrap();
    let mut reader = Reader::new(&text);
    while reader.takes("decl") {
        let names = reader.names();
        reader.globals.extend(names);
        reader.want(";");
    }
    let (names, bodies) = procedures(&mut reader);
    let most = bodies
        .iter()
        .map(|(body, points, ..)| most_names(body, *points))
        .max()
        .unwrap();
    let low = usize::BITS - most.leading_zeros();
    let width = low as usize + bodies.iter().map(|it| it.3).max().unwrap();
    match width {
        ..=64 => answer::<u64>(&reader.globals, &names, &bodies, low),
        ..=128 => answer::<u128>(&reader.globals, &names, &bodies, low),
        _ => panic!("a valuation and a point take {width} bits"),
    }
}
