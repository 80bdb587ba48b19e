//! Files that pass refusals 1 to 5 and keep to no other rule: each number that has a list is drawn from it, and each
//! other one from all numbers, the small ones first of all.

use second::generate::Random;
use second::numbers;
use second::shape::DEEPEST;
use second::tree::FIRST_WITH_PARSER;

/// How many numbers a program has at most, roughly.
const LARGEST: usize = 400;

pub fn wild_file(seed: u64, version: u64) -> Vec<u8> {
    let mut random = Random::new(seed);
    let ends = random.choose(&[2, 20, 40]);
    let mut wild = Wild { random, numbers: vec![version], ends, has_parser: version >= FIRST_WITH_PARSER };
    wild.list(0, 3, |wild| wild.list(1, 3, Wild::width));
    wild.list(0, 4, Wild::global);
    wild.list(0, 4, Wild::callable);
    wild.list(0, 3, Wild::table);
    if wild.has_parser {
        wild.list(1, 4, Wild::state);
    }
    wild.statement(1);
    for _ in 0..wild.random.between(0, 20) {
        wild.any();
    }
    numbers::write(&wild.numbers)
}

struct Wild {
    random: Random,
    numbers: Vec<u64>,
    /// How often, of a hundred, a construct holds nothing that could be left out: the fewer, the deeper.
    ends: u64,
    has_parser: bool,
}

impl Wild {
    fn draw(&mut self, least: u64, most: u64) -> u64 {
        let number = self.random.between(least, most);
        self.numbers.push(number);
        number
    }

    /// A number that no list limits.
    fn any(&mut self) {
        let most = self.random.choose(&[0, 1, 2, 2, 4, 4, 20, 300, u64::MAX]);
        self.draw(0, most);
    }

    fn list(&mut self, least: u64, most: u64, mut member: impl FnMut(&mut Self)) {
        for _ in 0..self.draw(least, most) {
            member(self);
        }
    }

    fn width(&mut self) {
        self.draw(1, 64);
    }

    fn plain_type(&mut self) {
        let most = self.random.choose(&[0, 8, 64]);
        self.draw(0, most);
    }

    fn global(&mut self) {
        if self.random.chance(50) {
            self.draw(128, 135);
        } else {
            self.plain_type();
        }
    }

    fn callable(&mut self) {
        if self.draw(0, 1) == 1 {
            self.plain_type();
        }
        self.list(0, 3, |wild| {
            wild.draw(0, 3);
            wild.plain_type();
        });
        self.list(0, 2, Wild::plain_type);
        self.statement(1);
    }

    fn table(&mut self) {
        self.list(1, 4, |wild| {
            wild.draw(0, 2);
            wild.expression(1, 0, 13);
        });
        self.list(1, 4, Wild::any);
        self.any();
        self.list(0, 3, Wild::any);
    }

    fn state(&mut self) {
        self.statement(1);
        match self.draw(0, 4) {
            2 => self.error(),
            3 => self.any(),
            4 => {
                self.expression(1, 0, 13);
                self.list(0, 4, |wild| {
                    wild.any();
                    wild.any();
                });
            }
            _ => {}
        }
    }

    fn error(&mut self) {
        self.draw(0, 255);
    }

    /// Whether what stands at this depth can hold something.
    fn is_last(&mut self, depth: usize) -> bool {
        depth == DEEPEST || self.numbers.len() > LARGEST || self.random.chance(self.ends)
    }

    /// An expression with a tag from a list.
    fn expression(&mut self, depth: usize, least: u64, most: u64) {
        let most = if self.is_last(depth) { most.min(6) } else { most };
        match self.draw(least, most) {
            0 | 2 | 3 | 4 | 6 => self.any(),
            1 => {
                self.width();
                self.any();
            }
            5 => {
                self.any();
                self.any();
            }
            7 | 8 => self.operands(1, depth),
            9 => {
                self.draw(0, 13);
                self.operands(2, depth);
            }
            10 => {
                self.width();
                self.operands(1, depth);
            }
            11 => {
                self.draw(0, 63);
                self.draw(0, 63);
                self.operands(1, depth);
            }
            12 => self.operands(2, depth),
            _ => self.call(depth),
        }
    }

    fn operands(&mut self, count: usize, holder: usize) {
        for _ in 0..count {
            self.expression(holder + 1, 0, 13);
        }
    }

    fn call(&mut self, depth: usize) {
        self.any();
        let most = if depth == DEEPEST { 0 } else { 3 };
        self.list(0, most, |wild| wild.expression(depth + 1, 0, 13));
    }

    fn statement(&mut self, depth: usize) {
        let last = self.is_last(depth);
        let holding_nothing: &[u64] =
            if self.has_parser { &[0, 4, 5, 7, 8, 9, 10, 11] } else { &[0, 4, 5, 7, 8, 9, 10] };
        let most = if self.has_parser { 12 } else { 10 };
        let tag = if last { self.random.choose(holding_nothing) } else { self.random.between(0, most) };
        self.numbers.push(tag);
        match tag {
            1 => {
                self.expression(depth + 1, 2, 5);
                self.expression(depth + 1, 0, 13);
            }
            2 => {
                self.expression(depth + 1, 0, 13);
                self.statement(depth + 1);
                self.statement(depth + 1);
            }
            3 => self.list(0, 4, |wild| wild.statement(depth + 1)),
            4 => self.call(depth),
            5 | 9 | 10 | 11 => self.any(),
            6 => self.expression(depth + 1, 0, 13),
            12 => {
                self.expression(depth + 1, 0, 13);
                self.error();
            }
            _ => {}
        }
    }
}
