//! Fields, settings and the transmission as documents 01 and 02 define them.

/// A row of the table of settings.
pub struct Setting {
    pub number: u64,
    pub q: u8,
    pub n: usize,
    pub k: usize,
    pub m: usize,
    pub d: usize,
    pub t: usize,
}

/// The table of settings.
pub static SETTINGS: [Setting; 5] = [
    Setting { number: 1, q: 5, n: 4, k: 1, m: 2, d: 8, t: 4 },
    Setting { number: 2, q: 8, n: 7, k: 2, m: 2, d: 11, t: 5 },
    Setting { number: 3, q: 8, n: 7, k: 3, m: 1, d: 6, t: 3 },
    Setting { number: 4, q: 16, n: 15, k: 3, m: 3, d: 33, t: 16 },
    Setting { number: 5, q: 16, n: 15, k: 5, m: 2, d: 17, t: 8 },
];

impl Setting {
    /// The setting with a number, if there is one.
    pub fn of(number: u64) -> Option<&'static Setting> {
        SETTINGS.iter().find(|setting| setting.number == number)
    }

    /// Symbols in a message of T blocks.
    pub fn message_length(&self, blocks: usize) -> usize {
        blocks * self.k
    }

    /// Symbols in the transmission of a message of T blocks.
    pub fn transmission_length(&self, blocks: usize) -> usize {
        (blocks + self.m) * self.n
    }

    /// Symbols in a window.
    pub fn window_length(&self) -> usize {
        (self.m + 1) * self.n
    }

    /// a + b: modulo 5, or exclusive or.
    pub fn add(&self, a: u8, b: u8) -> u8 {
        if self.q == 5 {
            (a + b) % 5
        } else {
            a ^ b
        }
    }

    /// a × b: modulo 5, or as polynomials in α with α³ = α + 1 (q = 8) or α⁴ = α + 1 (q = 16).
    fn multiply(&self, a: u8, b: u8) -> u8 {
        if self.q == 5 {
            return a * b % 5;
        }
        let degree = self.q.ilog2();
        let mut product = (0..degree).filter(|i| b >> i & 1 == 1).fold(0, |sum, i| sum ^ a << i);
        for power in (degree..2 * degree - 1).rev() {
            if product >> power & 1 == 1 {
                product ^= (self.q + 0b11) << (power - degree);
            }
        }
        product
    }

    /// α^i, with α = 2 in every field.
    fn power(&self, i: usize) -> u8 {
        (0..i).fold(1, |power, _| self.multiply(power, 2))
    }

    /// The element that gives 0 when added to a.
    fn negative(&self, a: u8) -> u8 {
        (0..self.q).find(|&b| self.add(a, b) == 0).unwrap()
    }

    /// f, the product of x − α^i for i from 0 to n−k−1, lowest power first.
    fn f(&self) -> Vec<u8> {
        (0..self.n - self.k).fold(vec![1], |product, i| {
            let mut next = vec![0; product.len() + 1];
            for (power, &coefficient) in product.iter().enumerate() {
                let constant = self.multiply(coefficient, self.negative(self.power(i)));
                next[power] = self.add(next[power], constant);
                next[power + 1] = self.add(next[power + 1], coefficient);
            }
            next
        })
    }

    /// Row r of G_j: x^r f, the coefficient of x^i multiplied by α^(jki).
    fn row(&self, j: usize, r: usize) -> Vec<u8> {
        let mut shifted = vec![0; r];
        shifted.extend(self.f());
        shifted.resize(self.n, 0);
        let twist = |(i, &c): (usize, &u8)| self.multiply(c, self.power(j * self.k * i));
        shifted.iter().enumerate().map(twist).collect()
    }

    /// Every symbol's multiple of row r of G_j.
    pub fn multiples(&self, j: usize, r: usize) -> Vec<Vec<u8>> {
        let row = self.row(j, r);
        let multiple = |factor| row.iter().map(|&symbol| self.multiply(factor, symbol)).collect();
        (0..self.q).map(multiple).collect()
    }
}
