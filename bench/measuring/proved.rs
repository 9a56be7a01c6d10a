// The proved functions, which the static library has under these names, in Rust's terms.
use super::rules::{Cash, Figures, Rate, Request, Units};

#[derive(Clone, Copy)]
#[repr(C)]
struct Wide {
    high: i64,
    low: u64,
}

impl Wide {
    fn number(self) -> i128 {
        i128::from(self.high) << 64 | i128::from(self.low)
    }
}

#[derive(Clone, Copy)]
#[repr(C)]
struct Answer {
    known: bool,
    number: Wide,
}

#[derive(Clone, Copy)]
#[repr(C)]
struct Told {
    known: bool,
    figures: [Wide; 6],
}

unsafe extern "C" {
    #[link_name = "roubles"]
    safe fn roubles_of(amount: i64, fx: u32) -> Wide;
    safe fn worth_posted(code: u16, plus: u16, minus: u16, units: Units) -> Answer;
    safe fn worth_stepped(code: u16, s1: u16, s2: u16, s3: u16, k1: u32, k2: u32, units: Units) -> Answer;
    fn low_posted(code: u16, plus: u16, minus: u16, units: Units, requests: *const Request, len: usize) -> Answer;
    fn low_stepped(
        code: u16,
        s1: u16,
        s2: u16,
        s3: u16,
        k1: u32,
        k2: u32,
        units: Units,
        requests: *const Request,
        len: usize,
    ) -> Answer;
    fn figures_posted(
        plus: u16,
        minus: u16,
        cash: Cash,
        units: *const Units,
        units_len: usize,
        requests: *const Request,
        len: usize,
    ) -> Told;
}

impl Answer {
    // None where it is not known; then its number has to be 0.
    fn found(self) -> Option<i128> {
        assert!(self.known || self.number.number() == 0, "a number that is not known is not 0");
        self.known.then(|| self.number.number())
    }
}

pub fn roubles(amount: i64, fx: u32) -> i128 {
    roubles_of(amount, fx).number()
}

pub fn worth(rate: Rate, code: u16, units: Units) -> Option<i128> {
    match rate {
        Rate::Posted { plus, minus } => worth_posted(code, plus, minus, units),
        Rate::Stepped { s, k } => worth_stepped(code, s[0], s[1], s[2], k[0], k[1], units),
    }
    .found()
}

pub fn low(rate: Rate, code: u16, units: Units, orders: &[Request]) -> Option<i128> {
    let (at, len) = (orders.as_ptr(), orders.len());
    match rate {
        Rate::Posted { plus, minus } => unsafe { low_posted(code, plus, minus, units, at, len) },
        Rate::Stepped { s, k } => unsafe { low_stepped(code, s[0], s[1], s[2], k[0], k[1], units, at, len) },
    }
    .found()
}

pub fn figures(plus: u16, minus: u16, cash: Cash, lines: &[Units], orders: &[Request]) -> Option<Figures> {
    let told = unsafe { figures_posted(plus, minus, cash, lines.as_ptr(), lines.len(), orders.as_ptr(), orders.len()) };
    let figures = told.figures.map(Wide::number);
    assert!(told.known || figures == [0; 6], "figures that are not known are not 0");
    told.known.then_some(figures)
}
