// Inputs at random, and at every edge of the ranges.
use super::random::Random;
use super::rules::{Cash, DOLLAR, FIRST, MOST_UNITS, ROUBLE, Rate, Request, Units};

const MOST: i128 = 4_294_967_295;
const LEAST_AMOUNT: i128 = -(1 << 63);
const MOST_AMOUNT: i128 = (1 << 63) - 1;

// Steps that rise and steps that do not, and limits likewise.
const STEPS: [[u16; 3]; 8] = [
    [0, 0, 0],
    [0, 0, 10_000],
    [0, 10_000, 10_000],
    [10_000; 3],
    [1, 2, 3],
    [9_999, 10_000, 10_001],
    [1, 0, 2],
    [0, 2, 1],
];
const LIMITS: [[u32; 2]; 7] =
    [[0, 0], [0, 1], [1, 0], [0, u32::MAX], [u32::MAX - 1, u32::MAX], [u32::MAX, u32::MAX], [u32::MAX, u32::MAX - 1]];

pub fn an_amount(random: &mut Random) -> i64 {
    random.near(-MOST_UNITS, MOST_UNITS, LEAST_AMOUNT, MOST_AMOUNT) as i64
}

pub fn an_fx(random: &mut Random) -> u32 {
    random.near(1, 10_000_000, 0, MOST) as u32
}

// A price or a quantity.
fn a_count(random: &mut Random) -> u32 {
    random.near(1, 1_000_000_000, 0, MOST) as u32
}

pub fn a_risk(random: &mut Random) -> u16 {
    random.near(0, 10_000, 0, 65_535) as u16
}

pub fn a_rate(random: &mut Random) -> Rate {
    if random.one_in(2) {
        return Rate::Posted { plus: a_risk(random), minus: a_risk(random) };
    }
    let mut s = [a_risk(random), a_risk(random), a_risk(random)];
    let mut k = [random.near(0, MOST, 0, MOST) as u32, random.near(0, 1_000, 0, MOST) as u32];
    if !random.one_in(8) {
        s.sort();
        k.sort();
    }
    Rate::Stepped { s, k }
}

pub fn some_units(random: &mut Random) -> Units {
    Units {
        planned: an_amount(random),
        price: a_count(random),
        currency: random.of(&[ROUBLE, ROUBLE, DOLLAR, DOLLAR, 978]),
        off_list: random.one_in(3),
    }
}

// An order with a price near the sheet's, in one of the codes.
pub fn an_order(random: &mut Random, codes: &[u16], price: u32) -> Request {
    let near = random.between(i128::from(price) / 2, 2 * i128::from(price) + 2).min(MOST) as u32;
    Request {
        left: a_count(random),
        price: if random.one_in(4) { a_count(random) } else { near },
        code: random.of(codes),
        sells: random.one_in(2),
    }
}

pub fn orders(random: &mut Random, codes: &[u16], price: u32) -> Vec<Request> {
    let len = if random.one_in(50) { random.between(0, 6) } else { 4 };
    (0..len).map(|_| an_order(random, codes, price)).collect()
}

pub fn a_portfolio(random: &mut Random) -> (Cash, Vec<Units>, Vec<Request>) {
    let cash = Cash { roubles: an_amount(random), dollars: an_amount(random), fx: an_fx(random) };
    let len = if random.one_in(50) { random.between(0, 10) } else { 8 };
    let mut lines: Vec<Units> = (0..len).map(|_| some_units(random)).collect();
    if !random.one_in(4) {
        for units in &mut lines {
            units.planned = units.planned.clamp(-(MOST_UNITS as i64), MOST_UNITS as i64);
        }
    }
    let price = lines.first().map_or(1, |u| u.price);
    let codes: Vec<u16> = (FIRST..FIRST + 9).collect();
    (cash, lines, orders(random, &codes, price))
}

// Each edge with its neighbours, as far as the type has them.
fn edges(list: &[i128], type_low: i128, type_high: i128) -> Vec<i128> {
    let near = list.iter().flat_map(|edge| [edge - 1, *edge, edge + 1]);
    let mut all: Vec<i128> = near.filter(|n| (type_low..=type_high).contains(n)).collect();
    all.sort();
    all.dedup();
    all
}

pub fn edge_amounts() -> Vec<(i64, u32)> {
    let amounts = [LEAST_AMOUNT, -MOST_UNITS, -10_000, 0, 10_000, MOST_UNITS, MOST_AMOUNT];
    let amounts = edges(&amounts, LEAST_AMOUNT, MOST_AMOUNT);
    let rates = edges(&[0, 10_000, 10_000_000, MOST], 0, MOST);
    amounts.iter().flat_map(|amount| rates.iter().map(|fx| (*amount as i64, *fx as u32))).collect()
}

pub fn edge_rates() -> Vec<Rate> {
    let risks: Vec<u16> = edges(&[0, 5_000, 10_000, 65_535], 0, 65_535).iter().map(|r| *r as u16).collect();
    let mut rates = Vec::new();
    for plus in &risks {
        rates.extend(risks.iter().map(|minus| Rate::Posted { plus: *plus, minus: *minus }));
    }
    for s in STEPS {
        rates.extend(LIMITS.map(|k| Rate::Stepped { s, k }));
    }
    rates
}

pub fn edge_units() -> Vec<Units> {
    let quantities = [LEAST_AMOUNT, -MOST_UNITS, 0, MOST_UNITS, MOST_AMOUNT];
    let quantities = edges(&quantities, LEAST_AMOUNT, MOST_AMOUNT);
    let mut all = Vec::new();
    for planned in quantities {
        for price in edges(&[0, 1_000_000_000, MOST], 0, MOST) {
            for off_list in [false, true] {
                all.push(Units { planned: planned as i64, price: price as u32, currency: ROUBLE, off_list });
            }
        }
    }
    all
}

// Four orders alike but for their sides: at the edges of their quantities and prices.
pub fn edge_orders(price: u32) -> Vec<[Request; 4]> {
    let mut all = Vec::new();
    for left in [0, 1, 1_000_000_000, u32::MAX] {
        for own in [0, price.saturating_sub(1), price, price.saturating_add(1), u32::MAX] {
            for sides in [[false; 4], [true; 4], [false, true, false, true]] {
                all.push(sides.map(|sells| Request { left, price: own, code: FIRST, sells }));
            }
        }
    }
    all
}

// Cash at its edges.
pub fn edge_cash() -> [Cash; 4] {
    let (least, most) = (i64::MIN, i64::MAX);
    [(least, least, u32::MAX), (most, most, u32::MAX), (least, most, 1), (0, 0, 0)].map(|(roubles, dollars, fx)| Cash {
        roubles,
        dollars,
        fx,
    })
}
