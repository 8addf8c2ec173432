//! The settings of documents 01 and 02 with their tables, all made from q, k and m at compile time.

use super::field::{Field, Kind, MAX_Q};

/// The largest block length, information length and window length of a setting. One that is too
/// small does not compile.
pub const MAX_N: usize = MAX_Q - 1;
pub const MAX_K: usize = 5;
pub const MAX_WINDOW: usize = 4;

/// The most information blocks in a message, and the most symbols in a transmission.
pub const MAX_T: usize = 4096;
pub const MAX_SYMBOLS: usize = (MAX_T + MAX_WINDOW - 1) * MAX_N;

/// One block of n symbols, and room after it: as many bytes as are copied in one step.
pub type Block = [u8; MAX_Q];

/// The information symbols behind one codeword of a level, block after block: (l+1)k, at most n.
pub type Information = Block;

/// A doubly cyclic code (000, Theorem 3.1) with what the calls need at hand.
pub struct Code {
    pub field: Field,
    /// Symbols in a block.
    pub n: usize,
    /// Symbols in an information block.
    pub k: usize,
    /// The memory: closing blocks after the message.
    pub m: usize,
    /// The distances d_0 to d_m of the levels' block codes.
    distances: [usize; MAX_WINDOW],
    /// For each level, the most damage over blocks 0 to l of a window.
    window_limits: [usize; MAX_WINDOW],
    /// G_0 to G_m, each of k rows.
    generator: [[Block; MAX_K]; MAX_WINDOW],
    /// Rows of α^(ji): the values of a block at α^j are its products with row j.
    points: [Block; MAX_N],
    /// For each level, the matrix from the first (l+1)k symbols of a codeword to its information.
    solvers: [[Information; MAX_Q]; MAX_WINDOW],
}

const FIVE: Field = Field::new(5, Kind::Prime);

/// α³ = α + 1.
const EIGHT: Field = Field::new(8, Kind::Binary(0b1011));

/// α⁴ = α + 1.
const SIXTEEN: Field = Field::new(16, Kind::Binary(0b10011));

/// Settings 1, 2, ..: field, k and m.
static CODES: &[Code] = &[
    Code::new(FIVE, 1, 2),
    Code::new(EIGHT, 2, 2),
    Code::new(EIGHT, 3, 1),
    Code::new(SIXTEEN, 3, 3),
    Code::new(SIXTEEN, 5, 2),
];

impl Code {
    /// The code of a setting, if there is such a setting.
    pub fn of(setting: u64) -> Option<&'static Code> {
        CODES.get(usize::try_from(setting).ok()?.checked_sub(1)?)
    }

    const fn new(field: Field, k: usize, m: usize) -> Code {
        let n = field.q() - 1;
        let distances = distances(n, k, m);
        let window_limits = window_limits(&distances, m);
        let generator = generator(&field, n, k, m);
        let points = points(&field, n);
        let solvers = solvers(&field, k, m, &generator);
        Code { field, n, k, m, distances, window_limits, generator, points, solvers }
    }

    /// Row r of G_j.
    #[inline(always)]
    pub fn row(&self, j: usize, r: usize) -> &[u8] {
        &self.generator[j][r][..self.n]
    }

    /// A copy of n symbols as a block.
    #[inline(always)]
    pub fn block(&self, symbols: &[u8]) -> Block {
        let mut block = Block::default();
        block[..self.n].copy_from_slice(symbols);
        block
    }

    /// Symbols in a window.
    pub fn window_length(&self) -> usize {
        (self.m + 1) * self.n
    }

    /// The places of a block as powers of α, by which a locator names them.
    pub fn places(&self) -> &[u8] {
        &self.points[1][..self.n]
    }

    /// How many syndromes a block has at level l: d_l − 1, which is also the most damage that a
    /// repair undoes.
    pub fn syndrome_count(&self, l: usize) -> usize {
        self.distances[l] - 1
    }

    /// The most damage in a window: d. Damage is twice the altered symbols plus the unknown ones.
    pub fn limit(&self) -> usize {
        self.window_limits[self.m]
    }

    /// The most damage over blocks 0 to l of a window: d_0 + .. + d_l − 1.
    pub fn window_limit(&self, l: usize) -> usize {
        self.window_limits[l]
    }

    /// The value of a block at α^i: zero for all i below d_l − 1 exactly on level l's codewords.
    pub fn syndrome(&self, block: &[u8], i: usize) -> u8 {
        self.field.dot(&self.points[i][..self.n], block)
    }

    /// The l+1 information blocks of a level-l codeword; its first (l+1)k symbols decide them.
    pub fn information(&self, l: usize, codeword: &Block) -> Information {
        let dimension = (l + 1) * self.k;
        let mut information = Information::default();
        for (&symbol, row) in codeword[..dimension].iter().zip(&self.solvers[l]) {
            self.field.add_multiple(&mut information[..dimension], symbol, &row[..dimension]);
        }
        information
    }
}

const fn distances(n: usize, k: usize, m: usize) -> [usize; MAX_WINDOW] {
    let mut distances = [0; MAX_WINDOW];
    let mut l = 0;
    while l <= m {
        distances[l] = n - (l + 1) * k + 1;
        l += 1;
    }
    distances
}

/// d_0 + .. + d_l − 1.
const fn window_limits(distances: &[usize; MAX_WINDOW], m: usize) -> [usize; MAX_WINDOW] {
    let mut limits = [0; MAX_WINDOW];
    let mut sum = 0;
    let mut l = 0;
    while l <= m {
        sum += distances[l];
        limits[l] = sum - 1;
        l += 1;
    }
    limits
}

/// G_j, row r: x^r f with the coefficient of x^i multiplied by α^(jki).
const fn generator(field: &Field, n: usize, k: usize, m: usize) -> [[Block; MAX_K]; MAX_WINDOW] {
    let f = product_of_roots(field, n - k);
    let mut generator = [[[0; MAX_Q]; MAX_K]; MAX_WINDOW];
    let mut j = 0;
    while j <= m {
        let mut r = 0;
        while r < k {
            let mut i = r;
            while i < n {
                generator[j][r][i] = field.multiply(f[i - r], field.power(j * k * i));
                i += 1;
            }
            r += 1;
        }
        j += 1;
    }
    generator
}

/// The product of x − α^i for i below `count`, lowest power first.
const fn product_of_roots(field: &Field, count: usize) -> Block {
    let mut product = [0; MAX_Q];
    product[0] = 1;
    let mut root = 0;
    while root < count {
        let minus_root = field.negate(field.power(root));
        let mut i = root + 1;
        while i > 0 {
            product[i] = field.add(product[i - 1], field.multiply(minus_root, product[i]));
            i -= 1;
        }
        product[0] = field.multiply(minus_root, product[0]);
        root += 1;
    }
    product
}

const fn points(field: &Field, n: usize) -> [Block; MAX_N] {
    let mut points = [[0; MAX_Q]; MAX_N];
    let mut j = 0;
    while j < n {
        let mut i = 0;
        while i < n {
            points[j][i] = field.power(j * i);
            i += 1;
        }
        j += 1;
    }
    points
}

const fn solvers(
    field: &Field,
    k: usize,
    m: usize,
    generator: &[[Block; MAX_K]; MAX_WINDOW],
) -> [[Information; MAX_Q]; MAX_WINDOW] {
    let mut solvers = [[[0; MAX_Q]; MAX_Q]; MAX_WINDOW];
    let mut l = 0;
    while l <= m {
        solvers[l] = inverse(field, stacked(generator, k, l), (l + 1) * k);
        l += 1;
    }
    solvers
}

/// G_l over .. over G_0, cut after as many columns as rows (000, (3.1)).
const fn stacked(
    generator: &[[Block; MAX_K]; MAX_WINDOW],
    k: usize,
    l: usize,
) -> [Information; MAX_Q] {
    let mut matrix = [[0; MAX_Q]; MAX_Q];
    let mut row = 0;
    while row < (l + 1) * k {
        let mut column = 0;
        while column < (l + 1) * k {
            matrix[row][column] = generator[l - row / k][row % k][column];
            column += 1;
        }
        row += 1;
    }
    matrix
}

/// The inverse of the top left square of a matrix, by Gauss and Jordan's elimination.
const fn inverse(
    field: &Field,
    mut matrix: [Information; MAX_Q],
    size: usize,
) -> [Information; MAX_Q] {
    let mut inverse = [[0; MAX_Q]; MAX_Q];
    let mut i = 0;
    while i < size {
        inverse[i][i] = 1;
        i += 1;
    }
    let mut pivot = 0;
    while pivot < size {
        let mut row = pivot;
        while matrix[row][pivot] == 0 {
            row += 1;
        }
        (matrix[pivot], matrix[row]) = (matrix[row], matrix[pivot]);
        (inverse[pivot], inverse[row]) = (inverse[row], inverse[pivot]);
        let scale = field.divide(1, matrix[pivot][pivot]);
        matrix[pivot] = combination(field, &[0; MAX_Q], scale, &matrix[pivot]);
        inverse[pivot] = combination(field, &[0; MAX_Q], scale, &inverse[pivot]);
        let mut other = 0;
        while other < size {
            if other != pivot {
                let factor = field.negate(matrix[other][pivot]);
                matrix[other] = combination(field, &matrix[other], factor, &matrix[pivot]);
                inverse[other] = combination(field, &inverse[other], factor, &inverse[pivot]);
            }
            other += 1;
        }
        pivot += 1;
    }
    inverse
}

/// a + factor × b.
const fn combination(field: &Field, a: &Information, factor: u8, b: &Information) -> Information {
    let mut sum = *a;
    let mut i = 0;
    while i < MAX_Q {
        sum[i] = field.add(sum[i], field.multiply(factor, b[i]));
        i += 1;
    }
    sum
}
