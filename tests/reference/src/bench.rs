//! The bench: one call of an operation on the same figures, by the product and by the model, which is plain Rust of the same algorithms.
//! `tests/bench/run` has the instructions of both counted, and prints the table.

use crate::aimed::tables::EIGHT_LARGE;
use crate::generate::linked;
use crate::model::answer::Answer;
use crate::model::equality::{announced, equality, Equality};
use crate::model::modular::value_at;
use crate::model::record::{self, Record, ADDED, KEY, LINE, OPENING, SHARE, SIZE};
use crate::model::round::{Figures, Round};
use crate::model::share::added;
use crate::model::sharing::{self, powers_at};
use crate::model::{board, chain, dealing, draw, group, plots, sha256, share, table};
use crate::operations::ALL;
use crate::posting::Members;
use crate::source::{filled, group_of, Source};
use std::error::Error;
use std::hint::black_box;
use std::time::Instant;

const LARGEST: Figures = Figures::of(3, 31, 16);
/// The dealer and the member of the cases.
const LAST: u32 = 31;
/// What the draw value of a board comes from.
const OPENED: (&str, u32) = ("opened", OPENING);
const RECOVERED: (&str, u32) = ("recovered", SHARE);
const SUMMED: (&str, u32) = ("added", ADDED);
/// A time is the median of so many samples, each of at least so many microseconds.
const SAMPLES: usize = 15;
const SAMPLE: f64 = 20_000.0;

type Call = Box<dyn FnMut()>;

/// One call of the product, and the same of the model.
struct Row {
    name: String,
    calls: [Call; 2],
}

/// Both have to answer the same, to leave the same in a copy of `out`, and to refuse nothing.
fn row<B: Clone + PartialEq + 'static, A: PartialEq + 'static>(
    name: impl Into<String>,
    out: B,
    product: impl Fn(&mut B) -> Answer<A> + 'static,
    model: impl Fn(&mut B) -> Answer<A> + 'static,
) -> Row {
    let name = name.into();
    // So the compiler knows none of the figures that they hold.
    let (product, model) = black_box((product, model));
    let (mut ours, mut theirs) = (out.clone(), out);
    let answer = product(&mut ours);
    assert!(answer.is_ok(), "{name}: refused");
    assert!(
        answer == model(&mut theirs) && ours == theirs,
        "{name}: two answers"
    );
    let product = move || drop(black_box(product(black_box(&mut ours))));
    let model = move || drop(black_box(model(black_box(&mut theirs))));
    Row {
        name,
        calls: [Box::new(product), Box::new(model)],
    }
}

/// A row's name, with the buffer if there is one; the product's call; the model's.
macro_rules! row {
    ($name:expr; $product:expr; $model:expr) => {
        row($name, (), move |()| $product, move |()| $model)
    };
    ($name:expr, $out:ident; $product:expr; $model:expr) => {
        row($name, $out, move |$out| $product, move |$out| $model)
    };
}

/// The table, the round as the product takes it and as the model does, and numbers, the same for each row.
fn setting(figures: Figures) -> (&'static [u8], tadlovimpe::Round, Round, Source) {
    let ours = tadlovimpe::Round {
        group: figures.number,
        n: figures.n,
        t: figures.t,
        round: figures.round,
        first_new_round: figures.first,
    };
    let round = figures.round().expect("a proper round");
    (figures.table, ours, round, Source::new("bench", 0, 0))
}

/// The calls of a row hold their figures to the program's end.
fn kept<T>(figures: Vec<T>) -> &'static [T] {
    figures.leak()
}

/// A table of groups near 2^32.
fn large(moduli: &[(u32, u32)]) -> &'static [u8] {
    let groups: Vec<_> = moduli.iter().copied().map(group_of).collect();
    kept(table::bytes(&groups))
}

/// The largest round in which challenges come from the whole digest.
fn whole() -> Figures {
    LARGEST.with_round(1).with_first(1)
}

/// The records of some kinds, of a board on which everything is posted.
fn posted(figures: Figures, kinds: &[u32]) -> Vec<Record> {
    let (_, _, round, mut source) = setting(figures);
    let (n, q) = (round.n, round.group.q);
    let members = Members::new(round, &source.secret_keys(&round));
    let (mut records, mut all) = (members.key_records(), Vec::new());
    for dealer in 1..=n {
        let f = source.list(round.t as usize, q);
        let exponents: Vec<u32> = (1..=n).map(|i| value_at(&f, i, q)).collect();
        let lines = members.lines(dealer, &exponents, &source.list(n as usize, q));
        records.extend(lines.iter().map(|l| members.share(l, source.below(q))));
        records.push(members.opening(dealer, f[0]));
        all.extend(lines);
    }
    let products = (1..).zip(members.products(&all));
    records.extend(products.map(|(i, y)| members.added(i, y, source.below(q))));
    records.extend(all);
    records.retain(|record| kinds.contains(&record[0]));
    records.sort();
    records
}

/// A board on which everyone has dealt, with records of one kind that its draw value comes from: what it is, and its bytes.
fn drawn(figures: Figures, (source, kind): (&str, u32)) -> (String, &'static [u8]) {
    let Figures { number, n, t, .. } = figures;
    let records = posted(figures, &[KEY, LINE, kind]);
    let what = format!("group {number}, n = {n}, t = {t}, all {source}");
    (what, kept(record::bytes(records)))
}

fn text(figures: Figures, source: (&str, u32), tail: &str) -> Row {
    let (table, (what, board)) = (figures.table, drawn(figures, source));
    let set = kept(record::bytes([draw::set_record(figures)]));
    let text = draw::text(table, set, board);
    assert!(!text.contains("refused"), "{what}{tail}: {text}");
    row!(format!("draw_text, {what}{tail}"); Ok(tadlovimpe::draw_text(table, set, board));
        Ok(draw::text(table, set, board)))
}

/// The verdicts are compared in the text of the same board.
fn judged(figures: Figures, source: (&str, u32), tail: &str) -> Row {
    let ((table, at, ..), (what, board)) = (setting(figures), drawn(figures, source));
    row!(format!("judge_board, {what}{tail}"); tadlovimpe::judge_board(table, at, board).draw;
        board::judge_board(figures, board).and_then(|judged| judged.draw))
}

fn boards() -> Vec<Row> {
    let (table, eight) = (large(&EIGHT_LARGE), ", a table of 8 groups");
    let both = [OPENED, RECOVERED];
    let of_table = |t| Figures::of(8, 31, t).with_table(table);
    let few = [1, 2, 4, 8, 16].map(|n: u32| Figures::of(3, n, n.div_ceil(2)));
    let mut rows = Vec::new();
    for source in both {
        rows.extend([1, 16, 31].map(|t| text(Figures::of(3, 31, t), source, "")));
    }
    rows.push(text(LARGEST, SUMMED, ""));
    rows.push(text(LARGEST.with_round(1), RECOVERED, ", round 1"));
    rows.extend(both.map(|source| text(whole(), source, ", round 1, whole digest")));
    rows.extend(few.map(|figures| text(figures, RECOVERED, "")));
    for source in both {
        rows.extend([1, 16, 31].map(|t| text(of_table(t), source, eight)));
    }
    rows.extend([OPENED, RECOVERED, SUMMED].map(|source| judged(LARGEST, source, "")));
    rows.push(judged(of_table(16), RECOVERED, eight));
    rows
}

/// The lines of the last dealer on a board of everything: all of them, and the last alone.
fn lines() -> Vec<Row> {
    let (figures, (table, at, ..), dealer) = (LARGEST, setting(LARGEST), LAST);
    let mut records = posted(figures, &[KEY, LINE, OPENING, SHARE, ADDED]);
    let all = kept(record::bytes(records.iter().copied()));
    records.retain(|r| r[..2] != [LINE, LAST] || r[2] == LAST);
    let one = kept(record::bytes(records));
    let part = |name, board| {
        row!(name; tadlovimpe::dealer_lines(table, at, dealer, board);
            Ok(board::dealer_lines(figures, dealer, board)))
    };
    vec![
        row!("lines_check, everything posted"; tadlovimpe::lines_check(table, at, dealer, all);
            board::lines_check(figures, dealer, all)),
        part("dealer_lines, 31 lines", all),
        part("dealer_lines, one line", one),
    ]
}

/// The largest exponent, in the last group of a table.
fn power(what: &str, number: u32, table: &'static [u8]) -> Row {
    let of = group::group(table, number).expect("a group");
    let (base, exponent) = (of.h, of.q - 1);
    row!(format!("power, {what}"); tadlovimpe::power(table, number, base, exponent);
        group::power(table, number, base, exponent))
}

#[rustfmt::skip]
fn proof() -> Row {
    let (table, _, Round { number, group, .. }, mut source) = setting(LARGEST);
    let [e, c, r] = [(); 3].map(|()| source.below(group.q));
    let [b1, b2] = [group.g, source.element(&group)];
    let [x1, x2] = [b1, b2].map(|base| group.power(base, e));
    let [a1, a2] = [(b1, x1), (b2, x2)].map(|(b, x)| announced(&group, b, x, c, r));
    let ours = tadlovimpe::Proof { b1, x1, b2, x2, a1, a2, c, r };
    let theirs = Equality { bases: [b1, b2], elements: [x1, x2], announcements: [a1, a2], challenge: c, response: r };
    row!("equality_check"; tadlovimpe::equality_check(table, number, ours); equality(table, number, &theirs))
}

/// The degree check, the opening, and recovery from the fewest members and from all.
fn sharings() -> Vec<Row> {
    let (figures, (table, at, round, mut source)) = (LARGEST, setting(LARGEST));
    let (n, t, group) = (round.n as usize, round.t as usize, round.group);
    let f = source.list(t, group.q);
    let s = f[0];
    let [v, all] = [group.g, group.h].map(|base| kept(powers_at(&round, base, &f)));
    let d = kept(source.list(n - t, group.q));
    let recovery = |count: usize| {
        let members = kept((1..=round.n).skip(n - count).collect());
        let (name, shares) = (format!("recovery, {count} members"), &all[n - count..]);
        row!(name; tadlovimpe::recovery(table, at, members, shares); sharing::recovery(figures, members, shares))
    };
    vec![
        row!("degree_check, 15 coefficients"; tadlovimpe::degree_check(table, at, v, d); sharing::degree_check(figures, v, d)),
        row!("opening"; tadlovimpe::opening(table, at, v, s); sharing::opening(figures, v, s)),
        recovery(t),
        recovery(n),
    ]
}

/// What hashes: a dealing, and a share of it and an added one of the last member, written and judged.
fn hashing(figures: Figures, tail: &str) -> Vec<Row> {
    let (table, at, round, mut source) = setting(figures);
    let (n, q, dealer, member) = (round.n as usize, round.group.q, LAST, LAST);
    let members = Members::new(round, &source.secret_keys(&round));
    let keys = kept(members.keys.clone());
    let (x, key) = (members.secret_keys[n - 1], keys[n - 1]);
    let [f, ws] = [round.t as usize, n].map(|count| kept(source.list(count, q)));
    let (out, one, two) = (filled(SIZE * n), filled(SIZE), filled(SIZE));
    let mut lines = out.clone();
    dealing::write_dealing(figures, dealer, keys, f, ws, &mut lines).expect("proper figures");
    let lines = kept(lines);
    let line = record::read(&lines[SIZE * (n - 1)..]);
    let (y, w) = (line[4], source.below(q));
    let posted = [members.share(&line, w), members.added(member, y, w)];
    let [opened, sum] = posted.map(|record| kept(record::bytes([record])));
    vec![
        row!(format!("write_dealing{tail}"), out; tadlovimpe::write_dealing(table, at, dealer, keys, f, ws, out);
            dealing::write_dealing(figures, dealer, keys, f, ws, out)),
        row!(format!("judge_dealing{tail}"); tadlovimpe::judge_dealing(table, at, dealer, keys, lines);
            dealing::judge_dealing(figures, dealer, keys, lines)),
        row!(format!("write_share{tail}"), one; tadlovimpe::write_share(table, at, dealer, member, y, x, w, one);
            share::write_share(figures, dealer, member, y, x, w, one)),
        row!(format!("judge_share{tail}"); tadlovimpe::judge_share(table, at, dealer, member, key, y, opened);
            share::judge_share(figures, dealer, member, key, y, opened)),
        row!(format!("write_added{tail}"), two; tadlovimpe::write_added(table, at, member, y, x, w, two);
            added::write_added(figures, member, y, x, w, two)),
        row!(format!("judge_added{tail}"); tadlovimpe::judge_added(table, at, member, key, y, sum);
            added::judge_added(figures, member, key, y, sum)),
    ]
}

fn picked(what: &str, count: u32) -> Row {
    let (table, _, Round { number, group, .. }, mut source) = setting(LARGEST);
    let (value, radius, total, out) = (source.element(&group), 15, 4096, vec![0; count as usize]);
    row!(format!("pick_plots, {what}"), out; tadlovimpe::pick_plots(table, number, value, radius, total, count, out);
        plots::pick_plots(table, number, value, radius, total, count, out))
}

/// The longest chain that can be extended.
fn chains() -> [Row; 2] {
    let (table, _, Round { number, group, .. }, mut source) = setting(LARGEST);
    let links = (1..chain::MOST).map(|_| [number, source.element(&group)]);
    let (links, value) = (kept(linked(links)), group.h);
    let out = filled(chain::LINK);
    [
        row!("judge_chain, 1,023 links"; tadlovimpe::judge_chain(table, links); chain::judge_chain(table, links)),
        row!("extend_chain, 1,023 links", out; tadlovimpe::extend_chain(table, links, number, value, out);
            chain::extend_chain(table, links, number, value, out)),
    ]
}

fn digest() -> Row {
    let (message, out) = (kept(filled(65_536)), [0; 32]);
    row!("digest, 65,536 bytes", out; tadlovimpe::digest(message, out);
        sha256::digest(message).map(|digest| *out = digest))
}

fn rows() -> Vec<Row> {
    let mut rows = boards();
    rows.push(digest());
    rows.push(power("exponent q - 1", 3, &[]));
    let (eight, one) = (large(&EIGHT_LARGE), large(&EIGHT_LARGE[7..]));
    rows.push(power("a table of 8 groups", 8, eight));
    rows.push(power("a table of one group", 1, one));
    rows.push(proof());
    rows.extend(sharings());
    rows.extend(hashing(LARGEST, ""));
    rows.extend(hashing(whole(), ", whole digest"));
    rows.extend(lines());
    rows.push(picked("N = k = 4,096", 4096));
    rows.push(picked("N = 4,096, k = 40", 40));
    rows.extend(chains());
    for operation in &ALL {
        let is_of = |row: &Row| row.name.split(',').next() == Some(operation.name);
        assert!(rows.iter().any(is_of), "no row of {}", operation.name);
    }
    rows
}

/// What is counted: callgrind knows this function by its name, and counts nothing outside of it.
#[inline(never)]
#[no_mangle]
fn measured(call: &mut Call, count: u32) {
    for _ in 0..count {
        call();
    }
}

/// The microseconds of so many calls.
fn timed(call: &mut Call, count: u32) -> f64 {
    let start = Instant::now();
    measured(call, count);
    1e6 * start.elapsed().as_secs_f64()
}

/// The microseconds of one call of the product and of the model, by samples in turn.
fn times(calls: &mut [Call; 2]) -> [f64; 2] {
    let mut count = 1;
    while timed(&mut calls[0], count) < SAMPLE {
        count *= 2;
    }
    let mut samples = [Vec::new(), Vec::new()];
    for _ in 0..SAMPLES {
        for (call, samples) in calls.iter_mut().zip(&mut samples) {
            samples.push(timed(call, count) / f64::from(count));
        }
    }
    samples.map(|mut samples| {
        samples.sort_by(f64::total_cmp);
        samples[SAMPLES / 2]
    })
}

/// `count` calls the product and then the model once for each row. `time` prints names and microseconds.
pub fn run(words: &[&str]) -> Result<(), Box<dyn Error>> {
    match *words {
        ["count"] => {
            let mut calls: Vec<Call> = rows().into_iter().flat_map(|row| row.calls).collect();
            calls.iter_mut().for_each(|call| measured(call, 1));
        }
        ["time"] => {
            for mut row in rows() {
                let [product, model] = times(&mut row.calls);
                println!("{}|{product:.2}|{model:.2}", row.name);
            }
        }
        _ => return Err("usage: reference bench count|time".into()),
    }
    Ok(())
}
