//! A second yardstick for reals: the machine's own floats.
//!
//! Some millions of patterns go through the library's C calls, through the
//! independent converter and through the machine's conversions. All three must
//! give the same number, the same exceptions and the same kinds. What they
//! became is then compared with what they were: all three must find the same ones
//! different.
//!
//! `machine` runs a fixed seed, `machine N` another one.

mod numbers;
// `differential` uses more of it.
#[allow(dead_code)]
#[path = "../differential/random.rs"]
mod random;
mod sheets;

use independent::compare;
use independent::datatype::Atomic;
use independent::number;
use independent::real;
use numbers::{int, pattern};
use random::Random;
use sheets::{int_line, layout, order, real_layout, real_line};

const SEED: u64 = 20_260_301;

/// Records of one call, and how many calls there are for each path. Of each
/// call so many records are converted by themselves too, which gives the kind.
const RECORDS: usize = 16_384;
const CALLS: u64 = 100;
const SINGLE: usize = 200;

#[rustfmt::skip]
unsafe extern "C" {
    fn yirvagul_convert_copying(
        source_sheet: *const u8, source_sheet_len: usize,
        destination_sheet: *const u8, destination_sheet_len: usize, count: u64, handling: u32,
        source: *const u8, source_len: usize, destination: *mut u8, destination_len: usize,
        table: *mut u32, table_len: usize, answer: *mut [u64; 8]) -> u32;
    fn yirvagul_compare(
        first_sheet: *const u8, first_sheet_len: usize,
        second_sheet: *const u8, second_sheet_len: usize, count: u64,
        first: *const u8, first_len: usize, second: *const u8, second_len: usize,
        list: *mut u8, list_len: usize,
        table: *mut u32, table_len: usize, answer: *mut [u64; 8]) -> u32;
}

/// What becomes of a number: the number to be stored, and the kind of exception.
type Became = (i128, Option<u64>);

fn main() {
    let seed = std::env::args()
        .nth(1)
        .map_or(Ok(SEED), |word| word.parse());
    let Ok(seed) = seed else {
        eprintln!("usage: machine [SEED]");
        std::process::exit(2);
    };
    match run(seed) {
        Ok(said) => println!("{said}"),
        Err(fault) => {
            println!("seed {seed} differs: {fault}");
            std::process::exit(1);
        }
    }
}

fn run(seed: u64) -> Result<String, String> {
    let mut kinds = [0_u64; 7];
    for call in 0..CALLS {
        let random = &mut Random::new(seed, call);
        ints_to_reals(random, &mut kinds)?;
        reals_to_ints(random, &mut kinds)?;
        reals_to_reals(random, &mut kinds)?;
    }
    let all: u64 = kinds.iter().sum();
    if [0, 1, 2, 4, 5, 6].iter().any(|&kind| kinds[kind] < 1000) {
        return Err(format!("too few of some kind: {kinds:?}"));
    }
    Ok(format!(
        "{all} numbers of seed {seed} are as the machine's floats have them \
         (kinds 1, 2, 4, 5, 6: {}, {}, {}, {}, {})",
        kinds[1], kinds[2], kinds[4], kinds[5], kinds[6]
    ))
}

// ---- the machine's own conversions

/// The nearest double, as the machine rounds.
fn machine_from_int(number: i128) -> Became {
    let float = match u64::try_from(number) {
        Ok(natural) => natural as f64,
        Err(_) => number as i64 as f64,
    };
    // No whole number of 65 bits is lost on the way back.
    let kind = (float as i128 != number).then_some(6);
    (i128::from(float.to_bits()), kind)
}

fn machine_to_int(layout: &Atomic, pattern: u64) -> Became {
    let float = f64::from_bits(pattern);
    if float.is_nan() {
        return (0, Some(4));
    }
    let (smallest, largest) = number::range(layout);
    // 128 bits hold every whole number near a range, and larger ones as an end.
    let number = float.trunc() as i128;
    if number > largest {
        (largest, Some(1))
    } else if number < smallest {
        (smallest, Some(2))
    } else {
        let is_lost = float.fract() != 0.0 || (float == 0.0 && float.is_sign_negative());
        (number, is_lost.then_some(5))
    }
}

/// Whether a real is worth just a whole number.
fn machine_is_worth(pattern: u64, number: i128) -> bool {
    let float = f64::from_bits(pattern);
    float.is_finite() && float.fract() == 0.0 && float as i128 == number
}

// ---- the paths

fn ints_to_reals(random: &mut Random, kinds: &mut [u64; 7]) -> Result<(), String> {
    let (layout, order) = (layout(random), order(random));
    let numbers: Vec<i128> = (0..RECORDS).map(|_| int(random, &layout)).collect();
    let expected: Vec<Became> = numbers.iter().map(|&n| machine_from_int(n)).collect();
    for (number, machine) in numbers.iter().zip(&expected) {
        let (pattern, kind) = real::from_int(*number);
        same(
            "the independent converter",
            number,
            (i128::from(pattern), kind),
            *machine,
        )?;
    }
    let path = Path {
        from: (int_line(&layout), layout),
        to: (real_line(order), real_layout(order)),
    };
    path.check(&numbers, &expected, kinds)
}

fn reals_to_ints(random: &mut Random, kinds: &mut [u64; 7]) -> Result<(), String> {
    let (layout, order) = (layout(random), order(random));
    let patterns: Vec<u64> = (0..RECORDS).map(|_| pattern(random, &layout)).collect();
    let expected: Vec<Became> = patterns
        .iter()
        .map(|&pattern| machine_to_int(&layout, pattern))
        .collect();
    for (pattern, machine) in patterns.iter().zip(&expected) {
        let own = real::to_int(&layout, *pattern);
        same("the independent converter", pattern, own, *machine)?;
    }
    let path = Path {
        from: (real_line(order), real_layout(order)),
        to: (int_line(&layout), layout),
    };
    let numbers: Vec<i128> = patterns.into_iter().map(i128::from).collect();
    path.check(&numbers, &expected, kinds)
}

fn reals_to_reals(random: &mut Random, kinds: &mut [u64; 7]) -> Result<(), String> {
    let (own, other) = (order(random), order(random));
    let any = real_layout(own);
    let numbers: Vec<i128> = (0..RECORDS)
        .map(|_| i128::from(pattern(random, &any)))
        .collect();
    let expected: Vec<Became> = numbers.iter().map(|&number| (number, None)).collect();
    let path = Path {
        from: (real_line(own), any),
        to: (real_line(other), real_layout(other)),
    };
    path.check(&numbers, &expected, kinds)
}

fn same<T: std::fmt::Display>(
    who: &str,
    number: T,
    seen: Became,
    machine: Became,
) -> Result<(), String> {
    if seen == machine {
        return Ok(());
    }
    Err(format!(
        "{number}: {who} has {seen:?}, the machine {machine:?}"
    ))
}

/// Two sheets of one line with their layouts.
struct Path {
    from: (String, Atomic),
    to: (String, Atomic),
}

impl Path {
    /// Holds the library against what is expected: all numbers at once, and
    /// some by themselves.
    fn check(
        &self,
        numbers: &[i128],
        expected: &[Became],
        kinds: &mut [u64; 7],
    ) -> Result<(), String> {
        let (from, to) = (&self.from.1, &self.to.1);
        let mut source = vec![0; numbers.len() * from.size as usize];
        for (record, &number) in source.chunks_mut(from.size as usize).zip(numbers) {
            number::write(from, number, record);
        }
        let (answer, records) = self.call(&source, numbers.len(), 0);
        let raised = expected.iter().filter(|became| became.1.is_some()).count();
        if answer[..2] != [0, raised as u64] {
            return Err(format!(
                "answer {answer:?}, {raised} exceptions expected: {self}"
            ));
        }
        for (i, record) in records.chunks(to.size as usize).enumerate() {
            let mut wanted = vec![BACKGROUND; to.size as usize];
            number::write(to, expected[i].0, &mut wanted);
            if record != wanted {
                let number = numbers[i];
                return Err(format!(
                    "{number} gave {record:X?}, not {wanted:X?}: {self}"
                ));
            }
            kinds[expected[i].1.unwrap_or(0) as usize] += 1;
        }
        for (i, record) in source.chunks(from.size as usize).take(SINGLE).enumerate() {
            let (answer, _) = self.call(record, 1, 1);
            let wanted = match expected[i].1 {
                None => [0; 8],
                Some(kind) => {
                    let (given, magnitude) = self.given(numbers[i]);
                    [8, 0, 0, 0, 0, kind, given, magnitude]
                }
            };
            if answer != wanted {
                return Err(format!("{} answers {answer:?}: {self}", numbers[i]));
            }
        }
        self.compare(&source, &records, numbers, expected)
    }

    /// Whether a number and what it became are the same, as the machine has it.
    fn is_same(&self, number: i128, became: i128) -> Result<bool, String> {
        let is_real = |sheet: &str| sheet.starts_with("real");
        let (pattern, whole) = match (is_real(&self.from.0), is_real(&self.to.0)) {
            (true, false) => (number as u64, became),
            (false, true) => (became as u64, number),
            _ => return Ok(number == became),
        };
        let machine = machine_is_worth(pattern, whole);
        if compare::is_worth(pattern, whole) != machine {
            return Err(format!(
                "{pattern:#X} beside {whole}: the machine says {machine}"
            ));
        }
        Ok(machine)
    }

    /// Holds the library's list of what differs against the machine.
    fn compare(
        &self,
        source: &[u8],
        records: &[u8],
        numbers: &[i128],
        expected: &[Became],
    ) -> Result<(), String> {
        let mut wanted = String::from("record\tat\tfirst\tsecond\n");
        for (i, (number, (became, _))) in numbers.iter().zip(expected).enumerate() {
            if !self.is_same(*number, *became)? {
                wanted.push_str(&format!("{i}\t0\t{number}\t{became}\n"));
            }
        }
        let (from, to) = (&self.from.0, &self.to.0);
        let mut list = vec![0; wanted.len()];
        let mut table = vec![0_u32; 8192];
        let mut answer = [0; 8];
        #[rustfmt::skip]
        unsafe {
            yirvagul_compare(
                from.as_ptr(), from.len(), to.as_ptr(), to.len(), numbers.len() as u64,
                source.as_ptr(), source.len(), records.as_ptr(), records.len(),
                list.as_mut_ptr(), list.len(),
                table.as_mut_ptr(), table.len(), &mut answer)
        };
        if answer[..2] != [0, wanted.len() as u64] || list != wanted.as_bytes() {
            return Err(format!(
                "answer {answer:?}, another list than expected: {self}"
            ));
        }
        Ok(())
    }

    /// The words of STOP for a number of the source: a real's are its 64 bits.
    fn given(&self, number: i128) -> (u64, u64) {
        if self.from.0.starts_with("real") {
            (2, number as u64)
        } else {
            (u64::from(number < 0), number.unsigned_abs() as u64)
        }
    }

    fn call(&self, source: &[u8], count: usize, handling: u32) -> ([u64; 8], Vec<u8>) {
        let (from, to) = (&self.from.0, &self.to.0);
        let mut destination = vec![BACKGROUND; count * self.to.1.size as usize];
        let mut table = vec![0_u32; 8192];
        let mut answer = [0; 8];
        #[rustfmt::skip]
        unsafe {
            yirvagul_convert_copying(
                from.as_ptr(), from.len(), to.as_ptr(), to.len(), count as u64, handling,
                source.as_ptr(), source.len(), destination.as_mut_ptr(), destination.len(),
                table.as_mut_ptr(), table.len(), &mut answer)
        };
        (answer, destination)
    }
}

impl std::fmt::Display for Path {
    fn fmt(&self, f: &mut std::fmt::Formatter) -> std::fmt::Result {
        write!(f, "from {:?} to {:?}", self.from.0, self.to.0)
    }
}

const BACKGROUND: u8 = 0xA5;
