//! Where the numbers of a job stand, by document 01's section "The job", and those of a search's
//! record, by rust/oracle/README.md: walks over the bytes that share nothing with the oracle's
//! readers. Bytes that end early have the fields that are there whole.

/// What a number of a job is.
#[derive(Clone, Copy, Debug, Eq, PartialEq)]
pub enum Kind {
    Option,
    Coordinate,
    Size,
    Offset,
}

pub const KINDS: [Kind; 4] = [Kind::Option, Kind::Coordinate, Kind::Size, Kind::Offset];

/// The eight bytes of a number.
#[derive(Clone, Copy, Debug, Eq, PartialEq)]
pub struct Field {
    pub kind: Kind,
    /// The place of its first byte.
    pub at: usize,
}

impl Field {
    /// The bits of the number.
    pub fn bits(self, bytes: &[u8]) -> u64 {
        let number = bytes[self.at..self.at + 8].try_into();
        u64::from_be_bytes(number.expect("eight bytes"))
    }
}

pub const MINUS_ZERO: [u8; 8] = [0x80, 0, 0, 0, 0, 0, 0, 0];

struct Walk<'a> {
    bytes: &'a [u8],
    at: usize,
    fields: Vec<Field>,
}

impl Walk<'_> {
    fn skip(&mut self, count: usize) {
        self.at += count;
    }

    /// A count; 0 where the bytes end before it does.
    fn count(&mut self) -> usize {
        let from = self.at;
        self.skip(2);
        match self.bytes.get(from..self.at) {
            Some(&[high, low]) => usize::from(u16::from_be_bytes([high, low])),
            _ => 0,
        }
    }

    fn number(&mut self, kind: Kind) {
        let at = self.at;
        self.skip(8);
        if self.at <= self.bytes.len() {
            self.fields.push(Field { kind, at });
        }
    }

    fn numbers(&mut self, kind: Kind, count: usize) {
        for _ in 0..count {
            self.number(kind);
        }
    }

    /// A count of points, and the points.
    fn points(&mut self) {
        let count = self.count();
        self.numbers(Kind::Coordinate, 2 * count);
    }
}

/// The number fields of a job, by place.
pub fn fields(job: &[u8]) -> Vec<Field> {
    let mut walk = Walk {
        bytes: job,
        at: 0,
        fields: Vec::new(),
    };
    walk.skip(4 + 1 + 1); // length, version, flags
    walk.numbers(Kind::Option, 5);
    walk.skip(4 + 4); // the grants
    let (nodes, ports, edges) = (walk.count(), walk.count(), walk.count());
    walk.skip(2); // the count of bundles
    for _ in 0..nodes {
        walk.skip(4); // id
        walk.numbers(Kind::Coordinate, 2);
        walk.numbers(Kind::Size, 2);
    }
    for _ in 0..ports {
        walk.skip(4 + 4 + 1); // node, id, side
        walk.number(Kind::Offset);
    }
    for _ in 0..edges {
        walk.skip(5 * 4); // id, source node and port, target node and port
        walk.points();
    }
    // Bundles have no numbers.
    walk.fields
}

/// The number fields of a record of operation 20, 21 or 22, by place.
pub fn search_fields(record: &[u8]) -> Vec<Field> {
    let promotion = record.first() == Some(&oracle::calls::op::PROMOTION);
    let mut walk = Walk {
        bytes: record,
        at: 0,
        fields: Vec::new(),
    };
    walk.skip(1 + 1); // operation, role
    walk.number(Kind::Option); // pitch
    walk.skip(usize::from(promotion)); // whether there are bounds
    walk.numbers(Kind::Coordinate, 3);
    walk.skip(4); // the grant
    for _ in 0..walk.count() {
        walk.points();
    }
    walk.fields
}

/// The same bytes, plus zero for minus zero in these fields (document 02, F-1).
pub fn with_plus_zeros(bytes: &[u8], fields: &[Field]) -> Vec<u8> {
    let mut same = bytes.to_vec();
    for field in minus_zeros(bytes, fields) {
        same[field.at..field.at + 8].fill(0);
    }
    same
}

/// Those of the fields that hold minus zero.
pub fn minus_zeros<'a>(
    bytes: &'a [u8],
    fields: &'a [Field],
) -> impl Iterator<Item = &'a Field> + 'a {
    fields
        .iter()
        .filter(|field| bytes[field.at..field.at + 8] == MINUS_ZERO)
}

pub fn has_minus_zero(bytes: &[u8], fields: &[Field]) -> bool {
    minus_zeros(bytes, fields).next().is_some()
}

/// Whether bits are those of a multiple of 1/64 with magnitude at most 2^20 (document 02, F-2): in whole
/// numbers, by exponent and mantissa.
pub fn is_on_grid(bits: u64) -> bool {
    const LIMIT: u64 = (1023 + 20) << 52; // 2^20
    let magnitude = bits & !(1 << 63);
    let mantissa = magnitude & ((1 << 52) - 1) | 1 << 52;
    // The number is the mantissa by 2 to the power of (exponent - 1075); subnormals are far below 1/64.
    let exponent = (magnitude >> 52) as i64;
    let is_multiple = i64::from(mantissa.trailing_zeros()) + exponent - 1075 >= -6;
    magnitude == 0 || magnitude <= LIMIT && is_multiple
}

/// Whether 7 lets a number pass in a field of this kind.
fn is_in_range(kind: Kind, value: f64) -> bool {
    let (low, high) = match kind {
        Kind::Option => (0.0, 1_048_576.0),
        Kind::Size => (0.0, 1_073_741_824.0),
        Kind::Coordinate | Kind::Offset => (-1_073_741_824.0, 1_073_741_824.0),
    };
    low <= value && value <= high
}

/// The first number, by place, that 7 lets pass and that is off the drafting grid.
pub fn first_off_grid(bytes: &[u8]) -> Option<Field> {
    fields(bytes).into_iter().find(|field| {
        let bits = field.bits(bytes);
        is_in_range(field.kind, f64::from_bits(bits)) && !is_on_grid(bits)
    })
}
