//! A plain tabulation of rewritten programs, written for speed and without proofs: `plain FILE [masks|trees]` reads what
//! `bebopk sequential` prints and says how many path edges all procedures have, the nanoseconds that tabulating took, the kilobytes
//! that the process held at most before and after, and whether an assertion fails. Path edges are kept as `masks`, a word of 64 points
//! for each entry, valuation and block in an open table, or as `trees`, an ordered set of valuations for each entry and point.
//! It reads programs without values: no `x := p();` and no `return e;`.

use std::collections::{BTreeSet, HashMap};
use std::hash::{BuildHasherDefault, Hasher};
use std::time::Instant;

#[derive(Default)]
struct Mix(u64);

impl Hasher for Mix {
    fn finish(&self) -> u64 {
        self.0
    }
    fn write(&mut self, bytes: &[u8]) {
        for byte in bytes {
            self.write_u64(u64::from(*byte));
        }
    }
    fn write_u8(&mut self, n: u8) {
        self.write_u64(u64::from(n));
    }
    fn write_u32(&mut self, n: u32) {
        self.write_u64(u64::from(n));
    }
    fn write_u64(&mut self, n: u64) {
        self.0 = mixed(self.0, n);
    }
}

/// The two halves of a product, folded.
fn mixed(state: u64, n: u64) -> u64 {
    let product = u128::from(state ^ n ^ 0x9E37_79B9_7F4A_7C15) * 0xD6E8_FEB8_6659_FD93;
    product as u64 ^ (product >> 64) as u64
}

type Map<K, V> = HashMap<K, V, BuildHasherDefault<Mix>>;

// ---- reading

/// The name of the place behind the temporaries in which a procedure keeps its value.
const RESULT: &str = "result of the procedure";

#[derive(Clone, Debug)]
enum Expr {
    Const(bool),
    Bit(u8),
    Not(Box<Expr>),
    Two(u8, Box<Expr>, Box<Expr>),
}

enum Core {
    Skip,
    Assign(Vec<u8>, Vec<Option<Expr>>),
    If(Option<Expr>, Vec<Stmt>, Vec<Stmt>),
    While(Option<Expr>, Vec<Stmt>),
    Assume(Option<Expr>),
    Goto(String),
    Return,
    /// The value of a procedure, and the bit that keeps it.
    Give(u8, Expr),
    /// Who is called, the arguments, and the bit that the value is for.
    Call(String, Vec<Expr>, Option<u8>),
}

struct Stmt {
    point: usize,
    label: Option<String>,
    core: Core,
}

struct Reader<'t> {
    words: Vec<&'t str>,
    at: usize,
    globals: Vec<String>,
    locals: Vec<String>,
    points: usize,
}

impl<'t> Reader<'t> {
    fn new(text: &'t str) -> Self {
        let bytes = text.as_bytes();
        let (mut words, mut at) = (Vec::new(), 0);
        let is_word = |b: u8| b.is_ascii_alphanumeric() || b == b'_';
        while at < bytes.len() {
            let start = at;
            if bytes[at].is_ascii_whitespace() {
                at += 1;
                continue;
            }
            if is_word(bytes[at]) {
                while at < bytes.len() && is_word(bytes[at]) {
                    at += 1;
                }
            } else {
                let two = text.get(at..at + 2).unwrap_or("");
                at += if matches!(two, ":=" | "=>" | "!=") {
                    2
                } else {
                    1
                };
            }
            words.push(&text[start..at]);
        }
        Reader {
            words,
            at: 0,
            globals: Vec::new(),
            locals: Vec::new(),
            points: 0,
        }
    }

    fn peek(&self) -> &'t str {
        self.words.get(self.at).copied().unwrap_or("")
    }

    fn next(&mut self) -> &'t str {
        self.at += 1;
        self.words[self.at - 1]
    }

    fn takes(&mut self, word: &str) -> bool {
        let there = self.peek() == word;
        self.at += usize::from(there);
        there
    }

    fn want(&mut self, word: &str) {
        assert!(self.takes(word), "{word} wanted, {} found", self.peek());
    }

    fn names(&mut self) -> Vec<String> {
        let mut names = vec![self.next().to_string()];
        while self.takes(",") {
            names.push(self.next().to_string());
        }
        names
    }

    fn bit(&self, name: &str) -> u8 {
        let local = self
            .locals
            .iter()
            .position(|n| n == name)
            .map(|n| n + self.globals.len());
        local
            .or_else(|| self.globals.iter().position(|n| n == name))
            .expect(name) as u8
    }

    /// Operators of a level and above: `=>` 0, `|` 1, `^` 2, `&` 3, `=` and `!=` 4.
    fn expr(&mut self, level: usize) -> Expr {
        if level == 5 {
            let word = self.next();
            return match word {
                "!" => Expr::Not(Box::new(self.expr(5))),
                "(" => {
                    let inner = self.expr(0);
                    self.want(")");
                    inner
                }
                "0" => Expr::Const(false),
                "1" => Expr::Const(true),
                name => Expr::Bit(self.bit(name)),
            };
        }
        let mut left = self.expr(level + 1);
        loop {
            let op = match (level, self.peek()) {
                (0, "=>") => b'>',
                (1, "|") => b'|',
                (2, "^") => b'^',
                (3, "&") => b'&',
                (4, "=") => b'=',
                (4, "!=") => b'^',
                _ => return left,
            };
            self.at += 1;
            let right = self.expr(if level == 0 { 0 } else { level + 1 });
            left = Expr::Two(op, Box::new(left), Box::new(right));
        }
    }

    fn rhs(&mut self) -> Option<Expr> {
        if self.takes("?") {
            None
        } else {
            Some(self.expr(0))
        }
    }

    fn test(&mut self) -> Option<Expr> {
        self.want("(");
        let rhs = self.rhs();
        self.want(")");
        rhs
    }

    fn stmts(&mut self) -> Vec<Stmt> {
        let mut all = Vec::new();
        while !matches!(self.peek(), "end" | "else" | "fi" | "od") {
            all.push(self.stmt());
        }
        all
    }

    fn call(&mut self, target: Option<u8>) -> Core {
        let name = self.next().to_string();
        self.at += 1;
        let mut arguments = Vec::new();
        while self.peek() != ")" {
            arguments.push(self.expr(0));
            self.takes(",");
        }
        self.want(")");
        Core::Call(name, arguments, target)
    }

    /// Whether the procedure whose body comes next returns a value.
    fn gives(&self) -> bool {
        let body = self.words[self.at..].split(|w| *w == "end").next().unwrap();
        body.windows(2).any(|w| w[0] == "return" && w[1] != ";")
    }

    fn stmt(&mut self) -> Stmt {
        self.points += 1;
        let point = self.points;
        let mut label = None;
        if self.words[self.at + 1] == ":" {
            label = Some(self.next().to_string());
            self.at += 1;
        }
        let core = match self.peek() {
            "skip" => {
                self.at += 1;
                Core::Skip
            }
            "if" => {
                self.at += 1;
                let test = self.test();
                self.want("then");
                let yes = self.stmts();
                self.want("else");
                let no = self.stmts();
                self.want("fi");
                return Stmt {
                    point,
                    label,
                    core: Core::If(test, yes, no),
                };
            }
            "while" => {
                self.at += 1;
                let test = self.test();
                self.want("do");
                let body = self.stmts();
                self.want("od");
                return Stmt {
                    point,
                    label,
                    core: Core::While(test, body),
                };
            }
            "assume" => {
                self.at += 1;
                Core::Assume(self.test())
            }
            "goto" => {
                self.at += 1;
                Core::Goto(self.next().to_string())
            }
            "return" => {
                self.at += 1;
                if self.peek() == ";" {
                    Core::Return
                } else {
                    Core::Give(self.bit(RESULT), self.expr(0))
                }
            }
            _ if self.words[self.at + 1] == "(" => self.call(None),
            _ if self.words[self.at + 1] == ":="
                && self.words[self.at + 3] == "("
                && !matches!(self.words[self.at + 2], "(" | "!") =>
            {
                let name = self.next();
                let target = self.bit(name);
                self.at += 1;
                self.call(Some(target))
            }
            _ => {
                let targets = self.names().iter().map(|n| self.bit(n)).collect();
                self.want(":=");
                let mut sides = vec![self.rhs()];
                while self.takes(",") {
                    sides.push(self.rhs());
                }
                Core::Assign(targets, sides)
            }
        };
        self.want(";");
        Stmt { point, label, core }
    }
}

// ---- graphs

/// An expression: a table over at most twelve bits, else its tree.
enum Eval {
    Table(Vec<u8>, Vec<u64>),
    Tree(Expr),
}

fn inputs(e: &Expr, into: &mut Vec<u8>) {
    match e {
        Expr::Const(_) => {}
        Expr::Bit(b) => {
            if !into.contains(b) {
                into.push(*b);
            }
        }
        Expr::Not(a) => inputs(a, into),
        Expr::Two(_, a, b) => {
            inputs(a, into);
            inputs(b, into);
        }
    }
}

fn value(e: &Expr, values: u64) -> bool {
    match e {
        Expr::Const(b) => *b,
        Expr::Bit(b) => values >> b & 1 == 1,
        Expr::Not(a) => !value(a, values),
        Expr::Two(op, a, b) => {
            let (a, b) = (value(a, values), value(b, values));
            match op {
                b'>' => !a | b,
                b'|' => a | b,
                b'^' => a ^ b,
                b'&' => a & b,
                _ => a == b,
            }
        }
    }
}

fn spread(row: usize, bits: &[u8]) -> u64 {
    bits.iter()
        .enumerate()
        .map(|(n, b)| (row as u64 >> n & 1) << b)
        .sum()
}

fn gathered(values: u64, bits: &[u8]) -> usize {
    let mut row = 0;
    for (n, bit) in bits.iter().enumerate() {
        row |= (values >> bit & 1) << n;
    }
    row as usize
}

impl Eval {
    fn new(e: &Expr) -> Eval {
        let mut bits = Vec::new();
        inputs(e, &mut bits);
        if bits.len() > 12 {
            return Eval::Tree(e.clone());
        }
        let mut rows = vec![0u64; ((1 << bits.len()) + 63) / 64];
        for row in 0..1 << bits.len() {
            rows[row / 64] |= u64::from(value(e, spread(row, &bits))) << (row % 64);
        }
        Eval::Table(bits, rows)
    }

    fn value(&self, values: u64) -> bool {
        match self {
            Eval::Table(bits, rows) => {
                let row = gathered(values, bits);
                rows[row / 64] >> (row % 64) & 1 == 1
            }
            Eval::Tree(e) => value(e, values),
        }
    }
}

enum Flow {
    To(usize),
    /// One row for all targets: `mask` is what is written but for the `?`, `any` the bits of those.
    Row {
        bits: Vec<u8>,
        rows: Vec<u64>,
        mask: u64,
        any: Vec<u64>,
        next: usize,
    },
    Each {
        writes: Vec<(u64, Eval)>,
        mask: u64,
        any: Vec<u64>,
        next: usize,
    },
    Any(usize, usize),
    Test(Eval, usize, usize),
    Assume(Eval, usize),
    Call {
        callee: usize,
        arguments: Vec<Eval>,
        target: Option<u8>,
        next: usize,
    },
}

struct Graph {
    flows: Vec<Flow>,
    start: usize,
    result: Option<u8>,
}

struct Lower<'p> {
    labels: HashMap<String, usize>,
    procedures: &'p HashMap<String, usize>,
    flows: Vec<Flow>,
}

impl Lower<'_> {
    fn label(&mut self, stmts: &[Stmt]) {
        for s in stmts {
            if let Some(l) = &s.label {
                self.labels.insert(l.clone(), s.point);
            }
            match &s.core {
                Core::If(_, yes, no) => {
                    self.label(yes);
                    self.label(no);
                }
                Core::While(_, body) => self.label(body),
                _ => {}
            }
        }
    }

    fn block(&mut self, stmts: &[Stmt], after: usize) -> usize {
        for (n, s) in stmts.iter().enumerate() {
            let next = stmts.get(n + 1).map_or(after, |s| s.point);
            self.flows[s.point] = self.flow(s, next);
        }
        stmts.first().map_or(after, |s| s.point)
    }

    fn flow(&mut self, s: &Stmt, next: usize) -> Flow {
        match &s.core {
            Core::Skip => Flow::To(next),
            Core::Return => Flow::To(0),
            Core::Goto(l) => Flow::To(self.labels[l]),
            Core::Assume(None) => Flow::To(next),
            Core::Assume(Some(e)) => Flow::Assume(Eval::new(e), next),
            Core::If(test, yes, no) => {
                let (yes, no) = (self.block(yes, next), self.block(no, next));
                match test {
                    None => Flow::Any(yes, no),
                    Some(e) => Flow::Test(Eval::new(e), yes, no),
                }
            }
            Core::While(test, body) => {
                let body = self.block(body, s.point);
                match test {
                    None => Flow::Any(body, next),
                    Some(e) => Flow::Test(Eval::new(e), body, next),
                }
            }
            Core::Give(bit, e) => Flow::Each {
                writes: vec![(1 << bit, Eval::new(e))],
                mask: 1 << bit,
                any: Vec::new(),
                next: 0,
            },
            Core::Call(name, arguments, target) => Flow::Call {
                callee: self.procedures[name],
                arguments: arguments.iter().map(Eval::new).collect(),
                target: *target,
                next,
            },
            Core::Assign(targets, sides) => {
                let (mut bits, mut writes, mut any, mut mask) =
                    (Vec::new(), Vec::new(), Vec::new(), 0);
                for (t, side) in targets.iter().zip(sides) {
                    match side {
                        None => any.push(1 << t),
                        Some(e) => {
                            inputs(e, &mut bits);
                            writes.push((1u64 << t, e));
                        }
                    }
                    mask |= 1 << t;
                }
                if bits.len() > 10 {
                    let writes = writes.into_iter().map(|(m, e)| (m, Eval::new(e))).collect();
                    return Flow::Each {
                        writes,
                        mask,
                        any,
                        next,
                    };
                }
                let row = |n| {
                    writes
                        .iter()
                        .filter(|(_, e)| value(e, spread(n, &bits)))
                        .map(|(m, _)| m)
                        .sum()
                };
                let rows = (0..1 << bits.len()).map(row).collect();
                Flow::Row {
                    bits,
                    rows,
                    mask,
                    any,
                    next,
                }
            }
        }
    }
}

struct Program {
    globals: Vec<String>,
    graphs: Vec<Graph>,
}

/// A procedure: its body, how many points it has, the bit of its value, and how many bits its valuations have.
type Body = (Vec<Stmt>, usize, Option<u8>, usize);

/// The names of the procedures, and the procedures.
fn procedures(reader: &mut Reader) -> (HashMap<String, usize>, Vec<Body>) {
    let (mut names, mut bodies) = (HashMap::new(), Vec::new());
    while reader.peek() != "thread" {
        names.insert(reader.next().to_string(), bodies.len());
        reader.want("(");
        reader.locals = if reader.peek() == ")" {
            Vec::new()
        } else {
            reader.names()
        };
        reader.want(")");
        reader.want("begin");
        while reader.takes("decl") {
            let names = reader.names();
            reader.locals.extend(names);
            reader.want(";");
        }
        reader.points = 0;
        let result = reader
            .gives()
            .then(|| (reader.globals.len() + reader.locals.len()) as u8);
        if result.is_some() {
            reader.locals.push(RESULT.to_string());
        }
        let width = reader.globals.len() + reader.locals.len();
        bodies.push((reader.stmts(), reader.points, result, width));
        reader.want("end");
    }
    (names, bodies)
}

fn graph_of(
    names: &HashMap<String, usize>,
    body: &[Stmt],
    points: usize,
    result: Option<u8>,
) -> Graph {
    let mut lower = Lower {
        labels: HashMap::new(),
        procedures: names,
        flows: (0..=points).map(|_| Flow::To(0)).collect(),
    };
    lower.label(body);
    let start = lower.block(body, 0);
    Graph {
        flows: lower.flows,
        start,
        result,
    }
}

fn program_of(text: &str) -> Program {
    let mut reader = Reader::new(text);
    while reader.takes("decl") {
        let names = reader.names();
        reader.globals.extend(names);
        reader.want(";");
    }
    let (names, bodies) = procedures(&mut reader);
    let graphs = bodies
        .iter()
        .map(|(body, points, result, _)| graph_of(&names, body, *points, *result))
        .collect();
    Program {
        globals: reader.globals,
        graphs,
    }
}

// ---- sets of path edges

/// The path edges of one procedure, whose entries have numbers.
trait EdgeSet {
    fn new() -> Self;
    /// Answers whether the path edge is new.
    fn insert(&mut self, entry: u32, point: usize, values: u64) -> bool;
    fn len(&self) -> u64;
}

#[derive(Clone, Copy, Default)]
struct Slot {
    key: u64,
    values: u64,
    mask: u64,
}

/// The points of each entry and valuation.
struct Masks {
    slots: Vec<Slot>,
    used: usize,
    last: usize,
    len: u64,
}

impl Masks {
    fn find(&self, key: u64, values: u64) -> usize {
        let most = self.slots.len() - 1;
        let mut at = mixed(key, values) as usize & most;
        while self.slots[at].mask != 0
            && (self.slots[at].key, self.slots[at].values) != (key, values)
        {
            at = (at + 1) & most;
        }
        at
    }

    fn grow(&mut self) {
        let old = std::mem::take(&mut self.slots);
        self.slots = vec![Slot::default(); old.len() * 2];
        for slot in old.into_iter().filter(|s| s.mask != 0) {
            let at = self.find(slot.key, slot.values);
            self.slots[at] = slot;
        }
        self.last = 0;
    }
}

impl EdgeSet for Masks {
    fn new() -> Self {
        Masks {
            slots: vec![Slot::default(); 64],
            used: 0,
            last: 0,
            len: 0,
        }
    }

    fn insert(&mut self, entry: u32, point: usize, values: u64) -> bool {
        let (key, bit) = (
            u64::from(entry) << 16 | (point / 64) as u64,
            1 << (point % 64),
        );
        let last = &self.slots[self.last];
        if last.mask == 0 || (last.key, last.values) != (key, values) {
            self.last = self.find(key, values);
        }
        let slot = &mut self.slots[self.last];
        if slot.mask & bit != 0 {
            return false;
        }
        self.len += 1;
        if slot.mask != 0 {
            slot.mask |= bit;
            return true;
        }
        *slot = Slot {
            key,
            values,
            mask: bit,
        };
        self.used += 1;
        if self.used * 4 > self.slots.len() * 3 {
            self.grow();
        }
        true
    }

    fn len(&self) -> u64 {
        self.len
    }
}

/// The valuations of each point and entry: what a tabulation without masks or diagrams would keep, for the comparison.
struct Trees {
    points: Vec<Vec<BTreeSet<u64>>>,
    len: u64,
}

impl EdgeSet for Trees {
    fn new() -> Self {
        Trees {
            points: Vec::new(),
            len: 0,
        }
    }

    fn insert(&mut self, entry: u32, point: usize, values: u64) -> bool {
        if self.points.len() <= point {
            self.points.resize_with(point + 1, Vec::new);
        }
        let entries = &mut self.points[point];
        if entries.len() <= entry as usize {
            entries.resize_with(entry as usize + 1, BTreeSet::new);
        }
        let added = entries[entry as usize].insert(values);
        self.len += u64::from(added);
        added
    }

    fn len(&self) -> u64 {
        self.len
    }
}

// ---- tabulating

#[derive(Clone, Copy)]
struct Edge {
    entry: u32,
    point: u32,
    values: u64,
}

struct Entry {
    values: u64,
    callers: u64,
    exits: Vec<u64>,
}

#[derive(Default)]
struct Key {
    sites: Vec<Edge>,
    summaries: Vec<u64>,
}

struct Table<S> {
    edges: S,
    pending: Vec<Edge>,
    numbers: Map<u64, u32>,
    entries: Vec<Entry>,
    exits: Map<(u32, u64), ()>,
    calls: Map<(u8, u64), u32>,
    keys: Vec<Key>,
}

enum Mail {
    Entry(usize, u64),
    Summary(usize, u64, u64),
}

impl<S: EdgeSet> Table<S> {
    fn new() -> Self {
        Table {
            edges: S::new(),
            pending: Vec::new(),
            numbers: Map::default(),
            entries: Vec::new(),
            exits: Map::default(),
            calls: Map::default(),
            keys: Vec::new(),
        }
    }

    fn reach(&mut self, edge: Edge) {
        if self
            .edges
            .insert(edge.entry, edge.point as usize, edge.values)
        {
            self.pending.push(edge);
        }
    }

    fn take(
        &mut self,
        q: usize,
        graph: &Graph,
        globals: u64,
        mail: Mail,
        out: &mut Vec<(usize, Mail)>,
    ) {
        match mail {
            Mail::Entry(from, a) => {
                let next = self.entries.len() as u32;
                let number = *self.numbers.entry(a).or_insert(next);
                if number == next {
                    self.entries.push(Entry {
                        values: a,
                        callers: 0,
                        exits: Vec::new(),
                    });
                    self.reach(Edge {
                        entry: number,
                        point: graph.start as u32,
                        values: a,
                    });
                }
                let entry = &mut self.entries[number as usize];
                if entry.callers >> from & 1 == 0 {
                    entry.callers |= 1 << from;
                    if from != 63 {
                        out.extend(entry.exits.iter().map(|b| (from, Mail::Summary(q, a, *b))));
                    }
                }
            }
            Mail::Summary(p, a, b) => {
                let key = self.calls[&(p as u8, a)] as usize;
                self.keys[key].summaries.push(b);
                for n in 0..self.keys[key].sites.len() {
                    let site = self.keys[key].sites[n];
                    self.back(graph, globals, site, b);
                }
            }
        }
    }

    fn back(&mut self, graph: &Graph, globals: u64, site: Edge, b: u64) {
        if let Flow::Call { next, target, .. } = &graph.flows[site.point as usize] {
            let mut values = site.values & !globals | b & globals;
            if let Some(bit) = target {
                values = values & !(1 << bit) | b >> 63 << bit;
            }
            self.reach(Edge {
                entry: site.entry,
                point: *next as u32,
                values,
            });
        }
    }

    fn spread(&mut self, edge: Edge, next: usize, values: u64, any: &[u64]) {
        for choice in 0..1u64 << any.len() {
            let more: u64 = any
                .iter()
                .enumerate()
                .filter(|(n, _)| choice >> n & 1 == 1)
                .map(|(_, m)| m)
                .sum();
            self.reach(Edge {
                point: next as u32,
                values: values | more,
                ..edge
            });
        }
    }

    fn work(
        &mut self,
        q: usize,
        graph: &Graph,
        globals: u64,
        first: u32,
        edge: Edge,
        out: &mut Vec<(usize, Mail)>,
    ) {
        if edge.point == 0 {
            // A value is in bit 63 of what is left; no program here has as many globals.
            let b = edge.values & globals | graph.result.map_or(0, |bit| edge.values >> bit << 63);
            if self.exits.insert((edge.entry, b), ()).is_none() {
                let entry = &mut self.entries[edge.entry as usize];
                entry.exits.push(b);
                out.extend(
                    (0..63)
                        .filter(|c| entry.callers >> c & 1 == 1)
                        .map(|c| (c, Mail::Summary(q, entry.values, b))),
                );
            }
            return;
        }
        let v = edge.values;
        match &graph.flows[edge.point as usize] {
            Flow::To(n) => self.reach(Edge {
                point: *n as u32,
                ..edge
            }),
            Flow::Any(a, b) => {
                self.reach(Edge {
                    point: *a as u32,
                    ..edge
                });
                self.reach(Edge {
                    point: *b as u32,
                    ..edge
                });
            }
            Flow::Test(e, yes, no) => self.reach(Edge {
                point: if e.value(v) { *yes } else { *no } as u32,
                ..edge
            }),
            Flow::Assume(e, n) => {
                if e.value(v) {
                    self.reach(Edge {
                        point: *n as u32,
                        ..edge
                    });
                }
            }
            Flow::Row {
                bits,
                rows,
                mask,
                any,
                next,
            } => self.spread(edge, *next, v & !mask | rows[gathered(v, bits)], any),
            Flow::Each {
                writes,
                mask,
                any,
                next,
            } => {
                let new: u64 = writes
                    .iter()
                    .filter(|(_, e)| e.value(v))
                    .map(|(m, _)| m)
                    .sum();
                self.spread(edge, *next, v & !mask | new, any);
            }
            Flow::Call {
                callee, arguments, ..
            } => {
                let formals: u64 = arguments
                    .iter()
                    .enumerate()
                    .map(|(n, e)| u64::from(e.value(v)) << n)
                    .sum();
                let a = v & globals | formals << first;
                let next = self.keys.len() as u32;
                let key = *self.calls.entry((*callee as u8, a)).or_insert(next) as usize;
                if key == next as usize {
                    self.keys.push(Key::default());
                    out.push((*callee, Mail::Entry(q, a)));
                }
                self.keys[key].sites.push(edge);
                for n in 0..self.keys[key].summaries.len() {
                    let b = self.keys[key].summaries[n];
                    self.back(graph, globals, edge, b);
                }
            }
        }
    }
}

fn held() -> u64 {
    let report = std::fs::read_to_string("/proc/self/status").unwrap();
    let line = report
        .lines()
        .find_map(|l| l.strip_prefix("VmHWM:"))
        .unwrap();
    line.trim().trim_end_matches(" kB").parse().unwrap()
}

/// The path edges of all procedures from the first one's entry, and the exits of that entry.
fn tabulate<S: EdgeSet>(program: &Program) -> (u64, Vec<u64>) {
    let first = program.globals.len() as u32;
    let globals = (1u64 << first) - 1;
    let mut tables: Vec<Table<S>> = program.graphs.iter().map(|_| Table::new()).collect();
    let mut mails = vec![(0, Mail::Entry(63, 0))];
    loop {
        while let Some((to, mail)) = mails.pop() {
            tables[to].take(to, &program.graphs[to], globals, mail, &mut mails);
        }
        let Some(q) = tables.iter().position(|t| !t.pending.is_empty()) else {
            break;
        };
        while let Some(edge) = tables[q].pending.pop() {
            tables[q].work(q, &program.graphs[q], globals, first, edge, &mut mails);
        }
    }
    let edges = tables.iter().map(|t| t.edges.len()).sum();
    (edges, tables[0].entries[0].exits.clone())
}

/// Tabulates a program and prints the figures.
fn measure<S: EdgeSet>(program: &Program) {
    let before = held();
    let start = Instant::now();
    let (edges, exits) = tabulate::<S>(program);
    let nanos = start.elapsed().as_nanos();
    let bad = program.globals.iter().position(|n| n == "bad__").unwrap();
    let failed = exits.iter().any(|b| b >> bad & 1 == 1);
    println!("{edges} {nanos} {before} {} {failed}", held());
}

fn main() {
    let mut words = std::env::args().skip(1);
    let text = std::fs::read_to_string(words.next().unwrap()).unwrap();
    let program = program_of(&text);
    match words.next().as_deref() {
        None | Some("masks") => measure::<Masks>(&program),
        Some("trees") => measure::<Trees>(&program),
        Some(other) => panic!("masks or trees wanted, {} found", other),
    }
}
