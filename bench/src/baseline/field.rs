//! The fields of documents 01 and 02: symbols as bytes, products as a table.

/// The largest field size of a setting. One that is too small does not compile.
pub const MAX_Q: usize = 16;

/// α, the element whose powers are all the nonzero ones, in either kind of field.
const ALPHA: usize = 2;

/// How the elements of a field are multiplied.
#[derive(Clone, Copy)]
pub enum Kind {
    /// Numbers modulo the prime q.
    Prime,
    /// Polynomials in α over {0, 1}, bit i for α^i, modulo this one.
    Binary(usize),
}

/// A field with q elements, each a byte below q.
pub struct Field {
    q: usize,
    /// The least number of ones whose sum is 0: q itself, or 2.
    characteristic: usize,
    products: [[u8; MAX_Q]; MAX_Q],
    inverses: [u8; MAX_Q],
    /// α^0 to α^(q−2).
    powers: [u8; MAX_Q],
    /// The sums of no, one, .. ones.
    integers: [u8; MAX_Q],
}

impl Field {
    pub const fn new(q: usize, kind: Kind) -> Field {
        let characteristic = match kind {
            Kind::Prime => q,
            Kind::Binary(_) => 2,
        };
        let mut products = [[0; MAX_Q]; MAX_Q];
        let mut inverses = [0; MAX_Q];
        let mut integers = [0; MAX_Q];
        let mut a = 0;
        while a < q {
            integers[a] = (a % characteristic) as u8;
            let mut b = 0;
            while b < q {
                products[a][b] = kind.product(q, a, b) as u8;
                if products[a][b] == 1 {
                    inverses[a] = b as u8;
                }
                b += 1;
            }
            a += 1;
        }
        let mut powers = [1; MAX_Q];
        let mut i = 1;
        while i < q - 1 {
            powers[i] = products[powers[i - 1] as usize][ALPHA];
            i += 1;
        }
        Field { q, characteristic, products, inverses, powers, integers }
    }

    pub const fn q(&self) -> usize {
        self.q
    }

    #[inline(always)]
    pub const fn add(&self, a: u8, b: u8) -> u8 {
        if self.characteristic == 2 {
            a ^ b
        } else {
            // The smaller of the two, as the difference wraps; so the compiler needs no branch.
            let sum = a + b;
            let less = sum.wrapping_sub(self.q as u8);
            if less < sum {
                less
            } else {
                sum
            }
        }
    }

    #[inline(always)]
    pub const fn negate(&self, a: u8) -> u8 {
        if self.characteristic == 2 || a == 0 {
            a
        } else {
            self.q as u8 - a
        }
    }

    #[inline(always)]
    pub const fn subtract(&self, a: u8, b: u8) -> u8 {
        self.add(a, self.negate(b))
    }

    #[inline(always)]
    pub const fn multiply(&self, a: u8, b: u8) -> u8 {
        self.products[a as usize][b as usize]
    }

    /// a / b for a nonzero b.
    pub const fn divide(&self, a: u8, b: u8) -> u8 {
        self.multiply(a, self.inverses[b as usize])
    }

    /// α^i.
    pub const fn power(&self, i: usize) -> u8 {
        self.powers[i % (self.q - 1)]
    }

    /// 1 + .. + 1, `count` times, for a count below q.
    pub const fn integer(&self, count: usize) -> u8 {
        self.integers[count]
    }

    /// Adds factor × row to `sum`, symbol by symbol.
    #[inline(always)]
    pub fn add_multiple(&self, sum: &mut [u8], factor: u8, row: &[u8]) {
        let products = &self.products[factor as usize];
        for (total, &symbol) in sum.iter_mut().zip(row) {
            *total = self.add(*total, products[symbol as usize]);
        }
    }

    /// The sum of the products of two rows, symbol by symbol.
    #[inline(always)]
    pub fn dot(&self, a: &[u8], b: &[u8]) -> u8 {
        let products = a.iter().zip(b).map(|(&a, &b)| self.multiply(a, b));
        products.fold(0, |sum, product| self.add(sum, product))
    }

    /// The value at `point` of a polynomial written lowest power first.
    pub fn value(&self, polynomial: &[u8], point: u8) -> u8 {
        let rest = |value, &coefficient| self.add(coefficient, self.multiply(point, value));
        polynomial.iter().rev().fold(0, rest)
    }
}

impl Kind {
    const fn product(self, q: usize, a: usize, b: usize) -> usize {
        match self {
            Kind::Prime => a * b % q,
            Kind::Binary(modulus) => binary_product(q, modulus, a, b),
        }
    }
}

/// The product of two polynomials over {0, 1}, kept below q by taking the modulus away.
const fn binary_product(q: usize, modulus: usize, a: usize, b: usize) -> usize {
    let mut product = 0;
    let mut shifted = a;
    let mut rest = b;
    while rest > 0 {
        if rest & 1 == 1 {
            product ^= shifted;
        }
        shifted <<= 1;
        if shifted >= q {
            shifted ^= modulus;
        }
        rest >>= 1;
    }
    product
}
