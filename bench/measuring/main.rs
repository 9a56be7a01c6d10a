// Roubles, the worth and the low of a line and the six figures of a portfolio: the proved functions beside a Rust program's
// own. It ends at the first difference, with status 1.
use std::fmt::Debug;
use std::hint::black_box;
use std::time::Instant;

mod inputs;
mod proved;
mod random;
mod rules;

use inputs::{
    a_portfolio, a_rate, a_risk, an_amount, an_fx, an_order, edge_amounts, edge_cash, edge_orders, edge_rates,
    edge_units, orders, some_units,
};
use random::Random;
use rules::{Cash, DOLLAR, FIRST, ROUBLE, Rate, Request, Units};

// How many were compared, and how many of them had an answer.
#[derive(Default)]
struct Compared {
    count: u64,
    known: u64,
}

impl Compared {
    fn same<T: PartialEq + Debug>(&mut self, what: &str, input: impl Debug, proved: Option<T>, rust: Option<T>) {
        self.count += 1;
        self.known += u64::from(rust.is_some());
        if proved != rust {
            eprintln!("{what} of {input:?}\nproved: {proved:?}\nRust: {rust:?}");
            std::process::exit(1);
        }
    }

    fn told(&self, what: &str) {
        println!("{what}: {} compared, {} of them with an answer", self.count, self.known);
    }
}

fn compare_roubles(random: &mut Random, inputs: u32) {
    let mut compared = Compared::default();
    let mut compare = |amount: i64, fx: u32| {
        let (proved, rust) = (proved::roubles(amount, fx), rules::roubles(amount, fx));
        compared.same("roubles", (amount, fx), Some(proved), Some(rust));
    };
    for (amount, fx) in edge_amounts() {
        compare(amount, fx);
    }
    for _ in 0..inputs {
        compare(an_amount(random), an_fx(random));
    }
    compared.told("roubles");
}

fn compare_worths(random: &mut Random, inputs: u32) {
    let mut compared = Compared::default();
    let mut compare = |rate: Rate, code: u16, units: Units| {
        compared.same("worth", (rate, code, units), proved::worth(rate, code, units), rules::worth(rate, code, units));
    };
    for rate in edge_rates() {
        for units in edge_units() {
            for code in [0, 1, 642, 643, 644, 999, 1_000, 65_535] {
                compare(rate, code, units);
            }
        }
    }
    for _ in 0..inputs {
        let code = random.near(1_000, 65_535, 0, 65_535) as u16;
        compare(a_rate(random), code, some_units(random));
    }
    compared.told("worth");
}

fn compare_lows(random: &mut Random, inputs: u32) {
    let mut compared = Compared::default();
    let mut compare = |rate: Rate, units: Units, orders: &[Request]| {
        let (proved, rust) = (proved::low(rate, FIRST, units, orders), rules::low(rate, FIRST, units, orders));
        compared.same("low", (rate, units, orders), proved, rust);
    };
    for rate in edge_rates() {
        for units in edge_units() {
            for orders in edge_orders(units.price) {
                compare(rate, units, &orders);
            }
        }
    }
    for _ in 0..inputs {
        let (rate, units) = (a_rate(random), some_units(random));
        compare(rate, units, &orders(random, &[FIRST, FIRST, FIRST, FIRST + 1], units.price));
    }
    compared.told("low");
}

// Small quantities, so that every filling of the orders can be tried.
fn compare_fillings(random: &mut Random, inputs: u32) {
    let mut compared = Compared::default();
    let mut fillings = 0;
    for _ in 0..inputs {
        let rate = a_rate(random);
        let most = random.of(&[10, 1_000, 1_000_000_000]);
        let units = Units {
            planned: random.between(-12, 12) as i64,
            price: random.between(0, most) as u32,
            ..some_units(random)
        };
        let mut orders = [(); 4].map(|_| an_order(random, &[FIRST, FIRST, FIRST, FIRST + 1], units.price));
        for order in &mut orders {
            order.left = random.between(0, 5) as u32;
        }
        let own = orders.iter().filter(|o| o.code == FIRST);
        fillings += own.map(|o| u64::from(o.left) + 1).product::<u64>();
        let (proved, rust) =
            (proved::low(rate, FIRST, units, &orders), rules::low_by_fillings(rate, FIRST, units, &orders));
        compared.same("low by fillings", (rate, units, orders), proved, rust);
    }
    compared.told("low by every filling");
    println!("fillings: {fillings}");
}

fn compare_figures(random: &mut Random, inputs: u32) {
    let mut compared = Compared::default();
    let mut compare = |plus: u16, minus: u16, cash: Cash, lines: &[Units], orders: &[Request]| {
        let (proved, rust) =
            (proved::figures(plus, minus, cash, lines, orders), rules::figures(plus, minus, cash, lines, orders));
        compared.same("figures", (plus, minus, cash, lines, orders), proved, rust);
    };
    for units in edge_units() {
        let lines = [ROUBLE, DOLLAR].repeat(4).into_iter().map(|currency| Units { currency, ..units });
        let lines: Vec<Units> = lines.collect();
        for orders in edge_orders(units.price) {
            for cash in edge_cash() {
                compare(0, 10_000, cash, &lines, &orders);
                compare(10_000, 0, cash, &lines, &orders);
            }
        }
    }
    for _ in 0..inputs {
        let (cash, lines, orders) = a_portfolio(random);
        compare(a_risk(random), a_risk(random), cash, &lines, &orders);
    }
    compared.told("six figures");
}

const VALUATIONS: u32 = 1_000_000;

type Valuing = fn(u16, u16, Cash, &[Units], &[Request]) -> Option<rules::Figures>;

// One portfolio of which a number changes each time.
fn timed(name: &str, value: Valuing) -> i128 {
    let unit = |k: i64| Units {
        planned: 40_000 * (k - 3),
        price: 1_000 * k as u32 + 17,
        currency: if k % 2 == 0 { ROUBLE } else { DOLLAR },
        off_list: k == 5,
    };
    let mut lines: Vec<Units> = (1..=8).map(unit).collect();
    let orders = [1, 3, 4, 7].map(|k| Request {
        left: 500 * k,
        price: 1_000 * k + 17,
        code: FIRST + k as u16 - 1,
        sells: k > 3,
    });
    let cash = Cash { roubles: 5_000_000, dollars: -20_000, fx: 905_000 };
    let start = Instant::now();
    let mut sum = 0;
    for n in 0..VALUATIONS {
        lines[0].planned = i64::from(n);
        let figures = value(black_box(1_500), 2_500, cash, black_box(&lines), black_box(&orders));
        sum += figures.unwrap().iter().sum::<i128>();
    }
    let seconds = start.elapsed().as_secs_f64();
    let each = seconds / f64::from(VALUATIONS);
    println!("{name}: {:.0} valuations a second, {:.0} ns each", 1.0 / each, 1e9 * each);
    sum
}

fn main() {
    let random = &mut Random(2_023);
    compare_roubles(random, 1_000_000);
    compare_worths(random, 1_000_000);
    compare_lows(random, 1_000_000);
    compare_fillings(random, 1_000_000);
    compare_figures(random, 1_000_000);
    for _ in 0..3 {
        let (proved, rust) = (timed("proved", proved::figures), timed("Rust", rules::figures));
        assert!(proved == rust, "the two disagree");
    }
}
