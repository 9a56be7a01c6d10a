// The rules in Rust, written from their definitions with no part of the proved code. Money is in hundredths, weights and
// rates in ten-thousandths.

#[derive(Clone, Copy, Debug)]
#[repr(C)]
pub struct Units {
    pub planned: i64,
    pub price: u32,
    pub currency: u16,
    pub off_list: bool,
}

#[derive(Clone, Copy, Debug)]
#[repr(C)]
pub struct Request {
    pub left: u32,
    pub price: u32,
    pub code: u16,
    pub sells: bool,
}

#[derive(Clone, Copy, Debug)]
#[repr(C)]
pub struct Cash {
    pub roubles: i64,
    pub dollars: i64,
    pub fx: u32,
}

#[derive(Clone, Copy, Debug)]
pub enum Rate {
    Posted { plus: u16, minus: u16 },
    Stepped { s: [u16; 3], k: [u32; 2] },
}

// A weight and an allowance.
type Piece = (i128, i128);

pub const FIRST: u16 = 1_000;
pub const DOLLAR: u16 = 840;
pub const ROUBLE: u16 = 643;
pub const MOST_UNITS: i128 = 200_000_000_000;

// z / n toward minus infinity.
fn down(z: i128, n: i128) -> i128 {
    let cut = z / n;
    if cut * n > z { cut - 1 } else { cut }
}

fn in_roubles(amount: i128, fx: u32) -> i128 {
    down(amount * i128::from(fx), 10_000)
}

impl Rate {
    // The pieces of a code, none where a number is out of its range.
    fn pieces(&self, code: u16) -> Option<Vec<Piece>> {
        if code == 0 || code == ROUBLE {
            return None;
        }
        match *self {
            Rate::Posted { plus, minus } => {
                let (below, above) = (i128::from(plus), i128::from(minus));
                (below <= 10_000 && above <= 10_000).then(|| vec![(10_000 - below, 0), (10_000 + above, 0)])
            }
            Rate::Stepped { s, k } => {
                if s[0] > s[1] || s[1] > s[2] || s[2] > 10_000 || k[0] > k[1] {
                    return None;
                }
                let s = s.map(i128::from);
                let second = i128::from(k[0]) * (s[1] - s[0]);
                let steps = [(s[0], 0), (s[1], second), (s[2], second + i128::from(k[1]) * (s[2] - s[1]))];
                let below = steps.iter().map(|(rate, a)| (10_000 - rate, *a));
                let above = steps.iter().map(|(rate, a)| (10_000 + rate, *a));
                Some(below.chain(above).collect())
            }
        }
    }
}

// Off the liquid list the piece that counts nothing joins.
fn joined(off_list: bool, pieces: &[Piece]) -> impl Iterator<Item = Piece> {
    off_list.then_some((0, 0)).into_iter().chain(pieces.iter().copied())
}

// The worth of q units: the least over the pieces, each rounded down.
fn worth_on(pieces: &[Piece], off_list: bool, price: i128, q: i128) -> i128 {
    joined(off_list, pieces).map(|(weight, allowance)| down(price * (weight * q + allowance), 10_000)).min().unwrap()
}

// A buy counts at the greater of its own price and the sheet's, a sell at the lesser.
fn counted_price(price: u32, order: &Request) -> i128 {
    i128::from(if order.sells { order.price.min(price) } else { order.price.max(price) })
}

// The least that a line can come to, by the formula: on each piece every order that loses there is filled whole.
fn low_on(pieces: &[Piece], code: u16, units: &Units, orders: &[Request]) -> i128 {
    let price = i128::from(units.price);
    let on = |(weight, allowance): Piece| {
        let line = price * (weight * i128::from(units.planned) + allowance);
        let drag = orders.iter().filter(|o| o.code == code).map(|o| {
            let gain = price * weight - 10_000 * counted_price(units.price, o);
            i128::from(o.left) * (if o.sells { -gain } else { gain }).min(0)
        });
        down(line + drag.sum::<i128>(), 10_000)
    };
    joined(units.off_list, pieces).map(on).min().unwrap()
}

// The same by every filling: the least of the worth of the filled line with the cash that the filling moved.
fn low_by_fillings_on(pieces: &[Piece], code: u16, units: &Units, orders: &[Request]) -> i128 {
    fn fill(pieces: &[Piece], units: &Units, q: i128, cash: i128, orders: &[Request]) -> i128 {
        let Some((order, rest)) = orders.split_first() else {
            return worth_on(pieces, units.off_list, i128::from(units.price), q) + cash;
        };
        let side = if order.sells { -1 } else { 1 };
        let price = counted_price(units.price, order);
        let filled = |n: i128| fill(pieces, units, q + side * n, cash - side * n * price, rest);
        (0..=i128::from(order.left)).map(filled).min().unwrap()
    }
    let own: Vec<Request> = orders.iter().filter(|o| o.code == code).copied().collect();
    fill(pieces, units, i128::from(units.planned), 0, &own)
}

// Value, initial and minimum margin, first and second ratio, worst case.
pub type Figures = [i128; 6];

// The six figures of lines in the codes from 1,000 on, all codes but the rouble at one rate.
fn figures_on(pieces: &[Piece], cash: &Cash, lines: &[Units], orders: &[Request]) -> Figures {
    let (mut value, mut first, mut worst) = (0, 0, 0);
    for (currency, cash, fx) in [(ROUBLE, cash.roubles, 10_000), (DOLLAR, cash.dollars, cash.fx)] {
        let shocked = |e: i128| if currency == ROUBLE { e } else { worth_on(pieces, false, 1, e) };
        let (mut net, mut equity, mut least) = (i128::from(cash), i128::from(cash), i128::from(cash));
        for (place, units) in lines.iter().enumerate().filter(|(_, u)| u.currency == currency) {
            let (price, q) = (i128::from(units.price), i128::from(units.planned));
            net += price * if units.off_list { q.min(0) } else { q };
            equity += worth_on(pieces, units.off_list, price, q);
            least += low_on(pieces, FIRST + place as u16, units, orders);
        }
        value += in_roubles(net, fx);
        first += in_roubles(shocked(equity), fx);
        worst += in_roubles(shocked(least), fx);
    }
    let initial = value - first;
    let minimum = -down(-initial, 2);
    [value, initial, minimum, first, value - minimum, worst]
}

// ---- where every number is in its range

impl Units {
    fn few(&self) -> bool {
        i128::from(self.planned).abs() <= MOST_UNITS
    }
}

pub fn roubles(amount: i64, fx: u32) -> i128 {
    in_roubles(i128::from(amount), fx)
}

pub fn worth(rate: Rate, code: u16, units: Units) -> Option<i128> {
    let pieces = rate.pieces(code).filter(|_| units.few())?;
    Some(worth_on(&pieces, units.off_list, i128::from(units.price), i128::from(units.planned)))
}

pub fn low(rate: Rate, code: u16, units: Units, orders: &[Request]) -> Option<i128> {
    let pieces = rate.pieces(code).filter(|_| units.few() && orders.len() == 4)?;
    Some(low_on(&pieces, code, &units, orders))
}

pub fn low_by_fillings(rate: Rate, code: u16, units: Units, orders: &[Request]) -> Option<i128> {
    let pieces = rate.pieces(code).filter(|_| units.few() && orders.len() == 4)?;
    Some(low_by_fillings_on(&pieces, code, &units, orders))
}

pub fn figures(plus: u16, minus: u16, cash: Cash, lines: &[Units], orders: &[Request]) -> Option<Figures> {
    let pieces = Rate::Posted { plus, minus }.pieces(DOLLAR)?;
    let within = lines.iter().all(Units::few) && lines.len() == 8 && orders.len() == 4;
    within.then(|| figures_on(&pieces, &cash, lines, orders))
}
