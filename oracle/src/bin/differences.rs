//! Runs the smallest input of each difference between document 01 and the source, on both, and
//! prints what each gives. docs/DIFFERENCES.md quotes it.

use oracle::format::{Call, Operation, SETS, Storage};
use oracle::rules::Rules;
use oracle::rules::adaptive_index_set::AdaptiveIndexSetRules;
use oracle::rules::bitset::BitSetRules;
use oracle::rules::sorted_vec_set::SortedVecSetRules;
use oracle::session::Session;
use oracle::source::{AdaptiveIndexSets, Source};
use pecos_core::IndexSet;
use pecos_core::adaptive_index_set::AdaptiveIndexSet;
use pecos_core::bitset::BitSet;
use pecos_core::sorted_vec_set::SortedVecSet;
use std::panic;
use std::process::Command;

type Adaptive = Session<AdaptiveIndexSetRules, AdaptiveIndexSets>;

const LONGEST: [(u64, u64); SETS] = [(8192, 16_384); SETS];
/// Has this program, started again, grow a BitSet without end.
const GROW: &str = "grow";

fn insert(set: usize, index: u64) -> Call {
    Call::new(Operation::Insert, set).with_number(index)
}

fn shown(storage: Storage) -> String {
    match storage {
        Storage::Adaptive(mode, span) => format!("{}, span {span}", mode.name()),
        Storage::Words(span) => format!("span {span}"),
        Storage::Elements => String::new(),
    }
}

/// Lets `flip` walk the keys of a sparse set 1, inserted in this order, into set 0.
fn walk(target: &str, build: impl Fn(&mut Adaptive), flip: Call, keys: [u64; 2]) {
    let mut session = Session::begin(LONGEST);
    build(&mut session);
    session.offer(insert(1, 5000));
    session.offer(Call::new(Operation::Remove, 1).with_number(5000));
    for key in keys {
        session.offer(insert(1, key));
    }
    session.offer(flip);
    println!(
        "  {target} {} sparse {{{}, {}}}: document 01 {}; the source {}",
        flip.operation.name(),
        keys[0],
        keys[1],
        shown(session.rules.storage(0)),
        shown(session.source.storage(0))
    );
}

fn walks() {
    println!("walk rule (keys in the order of their insertion; fused with itself, or with an empty set)");
    let xor = Call::new(Operation::Xor, 0).with_operands(1, 0);
    let narrow = |session: &mut Adaptive| {
        session.offer_run(insert(0, 0), 15);
    };
    for keys in [[15, 2048], [16, 2048], [2048, 16]] {
        walk("{0..14}", narrow, xor, keys);
    }
    let fused = Call::new(Operation::XorIntersectionInto, 0).with_operands(1, 1);
    walk("{0..14}", narrow, fused, [15, 2048]);
    let fused = Call::new(Operation::XorSymmetricDifferenceInto, 0).with_operands(1, 2);
    walk("{0..14}", narrow, fused, [15, 2048]);
    let wide = |session: &mut Adaptive| {
        session.offer_run(insert(0, 0), 16);
        session.offer(insert(0, 2048));
        session.offer_run(Call::new(Operation::Remove, 0), 8);
    };
    for keys in [[8, 2048], [2048, 8]] {
        walk("wide {8..15, 2048}", wide, xor, keys);
    }
    let wide = |session: &mut Adaptive| {
        session.offer_run(insert(0, 0), 15);
        session.offer(insert(0, 64));
        session.offer(insert(0, 2048));
        session.offer_run(Call::new(Operation::Remove, 0), 8);
    };
    for keys in [[64, 2048], [2048, 64]] {
        walk("wide {8..14, 64, 2048}", wide, xor, keys);
    }
}

/// What a call on the source says when it panics.
fn said<T>(call: impl FnOnce() -> T + panic::UnwindSafe) -> String {
    match panic::catch_unwind(call) {
        Ok(_) => "no panic".to_string(),
        Err(message) => match message.downcast::<String>() {
            Ok(message) => format!("panics: {message}"),
            Err(_) => "panics".to_string(),
        },
    }
}

fn index_too_large() {
    println!("index above 4294967295 (document 01: number 3)");
    let index = 4_294_967_296;
    let narrow = AdaptiveIndexSet::new;
    let wide = || (0..16).chain([2048]).collect::<AdaptiveIndexSet>();
    let sparse = || [5000].into_iter().collect::<AdaptiveIndexSet>();
    let makers: [(&str, &(dyn Fn() -> AdaptiveIndexSet + panic::RefUnwindSafe)); 3] =
        [("narrow", &narrow), ("wide", &wide), ("sparse", &sparse)];
    for (mode, make) in makers {
        let answers = [
            ("insert", said(|| make().insert(index))),
            ("remove", said(|| make().remove(index))),
            ("toggle", said(|| make().toggle(index))),
            ("contains", said(|| make().contains(index))),
        ];
        for (call, answer) in answers {
            println!("  {call} {index}, {mode}: the source {answer}");
        }
    }
}

fn stored_count() {
    println!("stored count of a narrow set (document 01: 0)");
    let mut set: AdaptiveIndexSet = [5000].into_iter().collect();
    set.remove(5000);
    set.insert(0);
    set.xor_assign(&[1].into_iter().collect());
    let reading = set.storage_reading();
    println!(
        "  sparse {{0}} XOR {{1}}: the source is narrow with {} members, len() {}, stored count {}",
        set.iter().count(),
        set.len(),
        reading.stored_count
    );
}

/// What the rules give for the last of some calls.
fn number<R: Rules>(calls: &[Call]) -> u8 {
    let mut rules = R::default();
    let mut number = 0;
    for call in calls {
        number = rules.attempt(call).err().unwrap_or(0);
    }
    number
}

fn fixed_room() {
    println!("fixed room");
    let mut bits = BitSet::new();
    let inserted = bits.insert(64);
    let refused = number::<BitSetRules>(&[Call::prepare(0, 1, 0), insert(0, 64)]);
    println!(
        "  BitSet, W = 1, insert 64: document 01 number {refused}; the source {inserted}, span {}",
        bits.words().len()
    );
    let mut bits = BitSet::new();
    bits.xor_assign_slice(&[64, 64]);
    let push = Call::new(Operation::Push, 0).with_number(64);
    let flip = Call::new(Operation::XorAssignSlice, 0);
    let refused = number::<BitSetRules>(&[Call::prepare(0, 1, 0), push, push, flip]);
    println!(
        "  BitSet, W = 1, xor_assign_slice [64, 64]: document 01 number {refused}; the source span {}, {} members",
        bits.words().len(),
        bits.len()
    );
    let mut elements = SortedVecSet::new();
    elements.insert(5);
    let inserted = elements.insert(6);
    let refused = number::<SortedVecSetRules>(&[Call::prepare(0, 0, 1), insert(0, 5), insert(0, 6)]);
    println!(
        "  SortedVecSet, room 1, {{5}} insert 6: document 01 number {refused}; the source {inserted}, {} members",
        elements.len()
    );
    let filled = [elements.take_clearing(), elements];
    println!(
        "  SortedVecSet, take_clearing {{5, 6}}: the source returns a set of {} and leaves {}; document 01 fills a lent second set",
        filled[0].len(),
        filled[1].len()
    );
    for (words, keys, lows) in [(32, 0, 16), (32, 0, 15)] {
        let mut calls = vec![Call::prepare(0, words, keys)];
        calls.extend((0..lows).map(|index| insert(0, index)));
        calls.push(insert(0, 2048));
        let refused = number::<AdaptiveIndexSetRules>(&calls);
        let mut source = AdaptiveIndexSets::default();
        for call in &calls {
            source.serve(call);
        }
        println!(
            "  adaptive, W = {words}, K = {keys}, {{0..{}}} insert 2048: document 01 number {refused}; the source {}",
            lows - 1,
            shown(source.storage(0))
        );
    }
}

/// The source asks for 2 to the power 58 words: the allocation fails and ends the process.
fn endless_growth() {
    println!("BitSet, insert 18446744073709551615 (document 01: number 4)");
    let output = std::env::current_exe().and_then(|program| Command::new(program).arg(GROW).output());
    match output {
        Ok(output) => {
            let said = String::from_utf8_lossy(&output.stderr);
            let first = said.lines().find(|line| !line.is_empty()).unwrap_or("nothing");
            println!("  the source ends the process ({}): {first}", output.status);
        }
        Err(error) => println!("  not run: {error}"),
    }
}

fn main() {
    if std::env::args().nth(1).as_deref() == Some(GROW) {
        BitSet::new().insert(usize::MAX);
        return;
    }
    panic::set_hook(Box::new(|_| {}));
    walks();
    index_too_large();
    stored_count();
    fixed_room();
    endless_growth();
}
