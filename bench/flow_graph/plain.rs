// The same loops over flows of the same representation, as one writes them in Rust, for comparison with the proved crate:
// truth tables whose row is gathered bit by bit, one for each row of three picked bits, postfix code, and writes with a
// mask each.
use std::hint::black_box;
use std::time::Instant;

struct Table {
    inputs: Vec<u8>,
    outputs: Vec<u64>,
}

fn row(bits: &[u8], values: u64) -> usize {
    let mut row = 0;
    for (slot, bit) in bits.iter().enumerate() {
        row |= (values >> bit & 1) << slot;
    }
    row as usize
}

impl Table {
    fn new(inputs: &[u8], expression: impl Fn(&[bool]) -> bool) -> Table {
        let mut outputs = vec![0; (1usize << inputs.len()).div_ceil(64)];
        for row in 0..1usize << inputs.len() {
            let bits: Vec<bool> = (0..inputs.len()).map(|slot| row >> slot & 1 == 1).collect();
            outputs[row / 64] |= (expression(&bits) as u64) << (row % 64);
        }
        Table { inputs: inputs.to_vec(), outputs }
    }

    fn value(&self, values: u64) -> bool {
        let row = row(&self.inputs, values);
        self.outputs[row / 64] >> (row % 64) & 1 == 1
    }
}

#[derive(Clone, Copy)]
enum Step {
    Read(u8),
    Not,
    Xor,
}

enum Formula {
    Table(Table),
    Cases([u8; 3], Vec<Table>),
    Code(Vec<Step>),
}

impl Formula {
    fn value(&self, values: u64) -> bool {
        match self {
            Formula::Table(table) => table.value(values),
            Formula::Cases(bits, cases) => cases[row(bits, values)].value(values),
            Formula::Code(steps) => {
                let mut stack = 0u64;
                for step in steps {
                    stack = match step {
                        Step::Read(bit) => stack << 1 | (values >> bit & 1),
                        Step::Not => stack ^ 1,
                        Step::Xor => stack >> 1 ^ (stack & 1),
                    };
                }
                stack & 1 == 1
            }
        }
    }
}

enum Side {
    Any,
    Value(Formula),
}

impl Side {
    fn value(&self, values: u64, choice: u64) -> bool {
        match self {
            Side::Any => choice & 1 == 1,
            Side::Value(formula) => formula.value(values),
        }
    }
}

struct Write {
    mask: u64,
    side: Side,
}

enum Flow {
    Assign(Vec<Write>, usize),
    Test(Side, usize, usize),
    Assume(Side, usize),
    Return,
}

impl Flow {
    fn next(&self, values: u64, choice: u64) -> Option<(usize, u64)> {
        match self {
            Flow::Assign(writes, to) => {
                let mut next = values;
                let mut left = choice;
                for write in writes {
                    if write.side.value(values, left) {
                        next |= write.mask;
                    } else {
                        next &= !write.mask;
                    }
                    if let Side::Any = write.side {
                        left >>= 1;
                    }
                }
                Some((*to, next))
            }
            Flow::Test(side, yes, no) => {
                Some((if side.value(values, choice) { *yes } else { *no }, values))
            }
            Flow::Assume(side, to) => side.value(values, 1).then_some((*to, values)),
            Flow::Return => None,
        }
    }
}

fn sum(flow: &Flow, steps: u64) -> u64 {
    let mut sum = 0u64;
    for number in 0..steps {
        let values = number.wrapping_mul(0x9e37_79b9_7f4a_7c15);
        if let Some((point, next)) = flow.next(values, 0) {
            sum = sum.wrapping_add(next).wrapping_add(point as u64);
        }
    }
    sum
}

fn main() {
    let steps: u64 = std::env::args().nth(1).unwrap().parse().unwrap();
    let write = |bit: u8, formula: Formula| Write { mask: 1 << bit, side: Side::Value(formula) };
    fn table(inputs: &[u8], expression: impl Fn(&[bool]) -> bool) -> Formula {
        Formula::Table(Table::new(inputs, expression))
    }
    // Behind the globals rh__, rl__, stop__ and bad__ the locals a to f are the bits 4 to 9.
    let one = Flow::Assign(
        vec![write(4, table(&[4, 5, 6, 7, 8, 9], |b| {
            ((b[0] & b[1]) | !b[2]) ^ (!(b[3] & b[4]) | (b[5] == (b[0] | b[2])))
        }))],
        0,
    );
    let four = Flow::Assign(
        vec![
            write(4, table(&[5, 6, 7], |b| b[0] ^ (b[1] & b[2]))),
            write(5, table(&[4, 7, 8], |b| b[0] | (!b[1] | b[2]))),
            write(6, table(&[8, 9, 4], |b| (b[0] == b[1]) & b[2])),
            write(7, table(&[5, 9], |b| !b[0] ^ b[1])),
        ],
        0,
    );
    let test = Flow::Test(
        Side::Value(table(&[4, 5, 6, 7], |b| (b[0] ^ b[1]) & (b[2] | !b[3]))),
        11,
        21,
    );
    let even = |b: &[bool]| b.iter().filter(|b| **b).count() % 2 == 0;
    let seven = Flow::Test(Side::Value(table(&[4, 5, 6, 7, 8, 9, 10], even)), 11, 21);
    let mut parity = vec![Step::Read(4)];
    for bit in 5..=17 {
        parity.extend([Step::Read(bit), Step::Xor]);
    }
    parity.push(Step::Not);
    let fourteen = Flow::Test(Side::Value(Formula::Code(parity)), 11, 12);
    let odd = |b: &[bool]| b.iter().filter(|b| **b).count() % 2 == 1;
    let halves = (0..8u32).map(|row| {
        let inputs = [7, 8, 9, 10, 11, 12, 13, 14];
        if row.count_ones() % 2 == 0 { Table::new(&inputs, even) } else { Table::new(&inputs, odd) }
    });
    let eleven = Flow::Test(Side::Value(Formula::Cases([4, 5, 6], halves.collect())), 11, 12);
    // The picked bits are a number with the high bit first, and a row with the low bit first.
    let copies = (0..8u8).map(|row| {
        let copy = (row & 1) << 2 | row & 2 | row >> 2;
        Table::new(&[7 + copy], |b| b[0])
    });
    let eight = Flow::Test(Side::Value(Formula::Cases([4, 5, 6], copies.collect())), 11, 12);
    let others = [Flow::Assume(Side::Any, 0), Flow::Return];
    black_box(&others);
    for (name, flow) in [
        ("one target", &one),
        ("four targets", &four),
        ("test", &test),
        ("seven bits", &seven),
        ("eleven bits", &eleven),
        ("eight copies", &eight),
        ("fourteen bits", &fourteen),
    ] {
        let start = Instant::now();
        let sum = sum(black_box(flow), steps);
        println!("{name}: {} {sum}", start.elapsed().as_nanos());
    }
}
