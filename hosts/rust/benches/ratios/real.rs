//! Tables as shows have them: what some transformations of 4 to 6 positions generate, made with a fixed seed. Medians and
//! ninth deciles over many tables, of the library's times and of their ratios to plain Rust in the same run.

use crate::families::{closure, composed, part, shuffled, Numbers};
use crate::tables::{left_zero, null, table, Table};
use crate::{plain, sample};
use std::hint::black_box;
use std::time::Duration;

/// How many tables of each band of orders, and how many searches of each kind.
const MANY: usize = 40;
const SAMPLES: usize = 7;

/// Of some times or ratios, the median and the ninth decile.
struct Spread {
    median: f64,
    ninth: f64,
}

impl Spread {
    fn of(mut values: Vec<f64>) -> Spread {
        values.sort_by(f64::total_cmp);
        Spread { median: values[values.len() / 2], ninth: values[values.len() * 9 / 10] }
    }
}

/// The least time of some calls of each, which take turns, in microseconds.
fn least<T>(proved: &mut impl FnMut() -> T, plain: &mut impl FnMut() -> T) -> (f64, f64) {
    let calls = 3;
    let (mut first, mut second) = (Duration::MAX, Duration::MAX);
    for _ in 0..SAMPLES {
        first = first.min(sample(calls, proved));
        second = second.min(sample(calls, plain));
    }
    let micros = |time: Duration| time.as_secs_f64() * 1e6 / f64::from(calls);
    (micros(first), micros(second))
}

/// A row: the library's times, plain Rust's beside them where it is timed, and the ratios, each as median and ninth decile.
fn print(name: &str, proved: &[f64], plain: Option<&[f64]>) {
    let pair = |values: Vec<f64>| {
        let Spread { median, ninth } = Spread::of(values);
        format!("{median:>8.2} | {ninth:>8.2}")
    };
    let beside = plain.map_or_else(
        || format!("{:>8} | {:>8} | {:>8} | {:>8}", "", "", "", ""),
        |plain| {
            let ratios = proved.iter().zip(plain).map(|(proved, plain)| proved / plain).collect();
            format!("{} | {}", pair(plain.to_vec()), pair(ratios))
        },
    );
    println!("| {name:<60} | {:>3} | {} | {beside} |", proved.len(), pair(proved.to_vec()));
}

/// What two to four random transformations of 4 to 6 positions generate, with so many elements, numbered at random.
fn show(orders: &std::ops::RangeInclusive<usize>, numbers: &mut Numbers) -> Table {
    loop {
        let (points, generators) = (4 + numbers.below(3), 2 + numbers.below(3));
        let first: Vec<Vec<usize>> =
            (0..generators).map(|_| (0..points).map(|_| numbers.below(points)).collect()).collect();
        let all = closure(&first);
        if orders.contains(&all.len()) {
            let place = |f: &Vec<usize>| all.iter().position(|g| g == f).expect("it is closed");
            return shuffled(&table(all.len(), |i, j| place(&composed(&all[i], &all[j]))), numbers);
        }
    }
}

pub fn time() {
    println!(
        "\n| {:<60} |  of |  µs, med. |  µs, 9th | plain    |      9th |    ratio |      9th |",
        "shows: medians and ninth deciles"
    );
    println!("|:{:-<60}-|----:|---------:|---------:|---------:|---------:|---------:|---------:|", "");
    let mut numbers = Numbers::new(7);
    for orders in [20..=59, 60..=120] {
        let shows: Vec<Table> = (0..MANY).map(|_| show(&orders, &mut numbers)).collect();
        let (from, to) = (orders.start(), orders.end());
        check(&format!("order {from} to {to}"), &shows);
        embeddings(&format!("order {from} to {to}"), &shows, &mut numbers);
    }
    check("null tables and left zeros, order 60 to 120", &[null(60), null(120), left_zero(60), left_zero(120)]);
}

type Check = fn(&[u8], usize) -> Result<(), tickdrizzle::Refusal>;

/// The check beside plain Rust of the same method, and beside loops over every triple.
fn check(name: &str, shows: &[Table]) {
    let beside = |plain: Check| -> Vec<(f64, f64)> {
        let time = |Table { cells, order }: &Table| {
            assert_eq!(tickdrizzle::check_table(cells, *order), Ok(()));
            least(&mut || tickdrizzle::check_table(black_box(cells), *order), &mut || plain(black_box(cells), *order))
        };
        shows.iter().map(time).collect()
    };
    for (method, plain) in [("", plain::check_table as Check), (", every triple beside it", plain::check_all_triples)] {
        let (proved, plain): (Vec<f64>, Vec<f64>) = beside(plain).into_iter().unzip();
        print(&format!("check_table, {name}{method}"), &proved, Some(&plain));
    }
}

/// A part of a show in the show, which is found; and each show in the next one, where there is none for most. By the library
/// alone: the paper's search does not end in many of them.
fn embeddings(name: &str, shows: &[Table], numbers: &mut Numbers) {
    let (mut found, mut none) = (Vec::new(), Vec::new());
    for (place, show) in shows.iter().enumerate() {
        let chosen: Vec<usize> = (0..3).map(|_| numbers.below(show.order)).collect();
        let some = shuffled(&part(show, &chosen), numbers);
        let next = &shows[(place + 1) % shows.len()];
        for (source, target) in [(&some, show), (show, next)] {
            let (said, micros) = embedding(source, target);
            let kind = if said == tickdrizzle::Search::Found { &mut found } else { &mut none };
            kind.push(micros);
        }
    }
    print(&format!("first_embedding, {name}, found"), &found, None);
    print(&format!("first_embedding, {name}, none"), &none, None);
}

/// What the search answers, and its least time of some calls in microseconds.
fn embedding(source: &Table, target: &Table) -> (tickdrizzle::Search, f64) {
    let (m, n) = (source.order, target.order);
    let (mut map, mut scratch) = (vec![0; m], vec![0; tickdrizzle::scratch_size(m, n)]);
    let mut search =
        || tickdrizzle::first_embedding(black_box(&source.cells), m, &target.cells, n, &mut map, &mut scratch);
    let said = search().expect("the tables are accepted");
    let least = (0..SAMPLES).map(|_| sample(1, &mut search)).min().unwrap_or(Duration::MAX);
    (said, least.as_secs_f64() * 1e6)
}
