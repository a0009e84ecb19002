// The functions of `words` beside the same loops in Rust, on equal input, one after the other in each repeat: medians of many.
// Before it measures, each pair is held to the same answer.
use std::hint::black_box;
use std::time::Instant;

#[rustfmt::skip]
extern "C" {
    fn words_xor_in(words: *mut u64, n: usize, a: *const u64, m: usize);
    fn words_xor_in_and(words: *mut u64, n: usize, a: *const u64, m: usize, b: *const u64, k: usize);
    fn words_xor_in_xor(words: *mut u64, n: usize, a: *const u64, m: usize, b: *const u64, k: usize);
    fn words_all_zero(words: *const u64, n: usize) -> bool;
    fn words_count_all(words: *const u64, n: usize) -> usize;
    fn words_exact_span(words: *const u64, n: usize) -> usize;
    fn words_and_count(a: *const u64, n: usize, b: *const u64, m: usize) -> usize;
    fn words_xor_count(a: *const u64, n: usize, b: *const u64, m: usize) -> usize;
    fn words_xor_span(a: *const u64, n: usize, b: *const u64, m: usize) -> usize;
}

const REPEATS: usize = 401;
const TURNS: usize = 64;

// Nanoseconds of one call: the median over the repeats, each the mean of some turns.
fn median(mut times: Vec<f64>) -> f64 {
    times.sort_by(|x, y| x.partial_cmp(y).unwrap());
    times[times.len() / 2]
}

fn timed(work: &mut dyn FnMut()) -> f64 {
    let start = Instant::now();
    for _ in 0..TURNS {
        work();
    }
    start.elapsed().as_nanos() as f64 / TURNS as f64
}

fn side_by_side(name: &str, words: usize, ours: &mut dyn FnMut(), rust: &mut dyn FnMut()) {
    let (mut a, mut b) = (Vec::new(), Vec::new());
    for _ in 0..REPEATS {
        a.push(timed(ours));
        b.push(timed(rust));
    }
    let (a, b) = (median(a), median(b));
    println!("{name:<28} {words:>6} words   ours {a:>9.1} ns   rust {b:>9.1} ns   ratio {:.2}", a / b);
}

// A row of words from a small generator, the same in every run.
fn row(n: usize, mut seed: u64) -> Vec<u64> {
    (0..n)
        .map(|_| {
            seed ^= seed << 13;
            seed ^= seed >> 7;
            seed ^= seed << 17;
            seed
        })
        .collect()
}

fn main() {
    for n in [32, 8192] {
        let (a, b) = (row(n, 88172645463325252), row(n, 1234567890123456789));
        let zeros = vec![0u64; n];
        let (mut x, mut y) = (row(n, 42), row(n, 42));

        unsafe { words_xor_in(x.as_mut_ptr(), n, a.as_ptr(), n) };
        y.iter_mut().zip(&a).for_each(|(w, v)| *w ^= v);
        assert_eq!(x, y);
        side_by_side(
            "xor_in",
            n,
            &mut || unsafe { words_xor_in(black_box(&mut x).as_mut_ptr(), n, black_box(&a).as_ptr(), n) },
            &mut || black_box(&mut y).iter_mut().zip(black_box(&a)).for_each(|(w, v)| *w ^= v),
        );

        let (mut x, mut y) = (row(n, 42), row(n, 42));
        unsafe { words_xor_in_and(x.as_mut_ptr(), n, a.as_ptr(), n, b.as_ptr(), n) };
        y.iter_mut().zip(a.iter().zip(&b)).for_each(|(w, (u, v))| *w ^= u & v);
        assert_eq!(x, y);
        side_by_side(
            "xor_in_and",
            n,
            &mut || unsafe { words_xor_in_and(black_box(&mut x).as_mut_ptr(), n, black_box(&a).as_ptr(), n, black_box(&b).as_ptr(), n) },
            &mut || black_box(&mut y).iter_mut().zip(black_box(&a).iter().zip(black_box(&b))).for_each(|(w, (u, v))| *w ^= u & v),
        );

        let (mut x, mut y) = (row(n, 42), row(n, 42));
        unsafe { words_xor_in_xor(x.as_mut_ptr(), n, a.as_ptr(), n, b.as_ptr(), n) };
        y.iter_mut().zip(a.iter().zip(&b)).for_each(|(w, (u, v))| *w ^= u ^ v);
        assert_eq!(x, y);
        side_by_side(
            "xor_in_xor",
            n,
            &mut || unsafe { words_xor_in_xor(black_box(&mut x).as_mut_ptr(), n, black_box(&a).as_ptr(), n, black_box(&b).as_ptr(), n) },
            &mut || black_box(&mut y).iter_mut().zip(black_box(&a).iter().zip(black_box(&b))).for_each(|(w, (u, v))| *w ^= u ^ v),
        );

        assert!(unsafe { words_all_zero(zeros.as_ptr(), n) } && !unsafe { words_all_zero(a.as_ptr(), n) });
        side_by_side(
            "zero_from, all 0",
            n,
            &mut || {
                black_box(unsafe { words_all_zero(black_box(&zeros).as_ptr(), n) });
            },
            &mut || {
                black_box(black_box(&zeros).iter().all(|&w| w == 0));
            },
        );

        let total = |r: &[u64]| r.iter().map(|w| w.count_ones() as usize).sum::<usize>();
        assert_eq!(unsafe { words_count_all(a.as_ptr(), n) }, total(&a));
        side_by_side(
            "count_all",
            n,
            &mut || {
                black_box(unsafe { words_count_all(black_box(&a).as_ptr(), n) });
            },
            &mut || {
                black_box(total(black_box(&a)));
            },
        );

        let span = |r: &[u64]| r.iter().rposition(|&w| w != 0).map_or(0, |p| p + 1);
        assert_eq!(unsafe { words_exact_span(zeros.as_ptr(), n) }, span(&zeros));
        side_by_side(
            "exact_span, all 0",
            n,
            &mut || {
                black_box(unsafe { words_exact_span(black_box(&zeros).as_ptr(), n) });
            },
            &mut || {
                black_box(span(black_box(&zeros)));
            },
        );

        let common = |p: &[u64], q: &[u64]| p.iter().zip(q).map(|(u, v)| (u & v).count_ones() as usize).sum::<usize>();
        assert_eq!(unsafe { words_and_count(a.as_ptr(), n, b.as_ptr(), n) }, common(&a, &b));
        side_by_side(
            "and_count",
            n,
            &mut || {
                black_box(unsafe { words_and_count(black_box(&a).as_ptr(), n, black_box(&b).as_ptr(), n) });
            },
            &mut || {
                black_box(common(black_box(&a), black_box(&b)));
            },
        );

        let apart = |p: &[u64], q: &[u64]| p.iter().zip(q).map(|(u, v)| (u ^ v).count_ones() as usize).sum::<usize>();
        assert_eq!(unsafe { words_xor_count(a.as_ptr(), n, b.as_ptr(), n) }, apart(&a, &b));
        side_by_side(
            "xor_count",
            n,
            &mut || {
                black_box(unsafe { words_xor_count(black_box(&a).as_ptr(), n, black_box(&b).as_ptr(), n) });
            },
            &mut || {
                black_box(apart(black_box(&a), black_box(&b)));
            },
        );

        let top = |p: &[u64], q: &[u64]| (0..n).rev().find(|&i| p[i] != q[i]).map_or(0, |i| i + 1);
        assert_eq!(unsafe { words_xor_span(a.as_ptr(), n, a.as_ptr(), n) }, top(&a, &a));
        side_by_side(
            "xor_span, equal rows",
            n,
            &mut || {
                black_box(unsafe { words_xor_span(black_box(&a).as_ptr(), n, black_box(&a).as_ptr(), n) });
            },
            &mut || {
                black_box(top(black_box(&a), black_box(&a)));
            },
        );
    }
}
