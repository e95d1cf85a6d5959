//! Big-endian bytes: a reading place and the writing of numbers.

/// The bytes ended before a field did.
#[derive(Clone, Copy, Debug, Eq, PartialEq)]
pub struct Short;

pub struct Reader<'a> {
    bytes: &'a [u8],
    at: usize,
}

impl<'a> Reader<'a> {
    pub fn new(bytes: &'a [u8]) -> Self {
        Reader { bytes, at: 0 }
    }

    pub fn take(&mut self, count: usize) -> Result<&'a [u8], Short> {
        let end = self.at.checked_add(count).ok_or(Short)?;
        let part = self.bytes.get(self.at..end).ok_or(Short)?;
        self.at = end;
        Ok(part)
    }

    fn array<const N: usize>(&mut self) -> Result<[u8; N], Short> {
        let part = self.take(N)?;
        Ok(part.try_into().expect("N bytes were taken"))
    }

    pub fn u8(&mut self) -> Result<u8, Short> {
        Ok(self.array::<1>()?[0])
    }

    pub fn u16(&mut self) -> Result<u16, Short> {
        Ok(u16::from_be_bytes(self.array()?))
    }

    pub fn u32(&mut self) -> Result<u32, Short> {
        Ok(u32::from_be_bytes(self.array()?))
    }

    pub fn f64(&mut self) -> Result<f64, Short> {
        Ok(f64::from_bits(u64::from_be_bytes(self.array()?)))
    }

    pub fn left(&self) -> usize {
        self.bytes.len() - self.at
    }

    pub fn rest(&mut self) -> &'a [u8] {
        let rest = &self.bytes[self.at..];
        self.at = self.bytes.len();
        rest
    }
}

#[derive(Clone, Debug, Default)]
pub struct Writer {
    pub bytes: Vec<u8>,
}

impl Writer {
    pub fn new() -> Self {
        Writer::default()
    }

    pub fn u8(&mut self, value: u8) {
        self.bytes.push(value);
    }

    pub fn u16(&mut self, value: u16) {
        self.bytes.extend_from_slice(&value.to_be_bytes());
    }

    pub fn u32(&mut self, value: u32) {
        self.bytes.extend_from_slice(&value.to_be_bytes());
    }

    pub fn u64(&mut self, value: u64) {
        self.bytes.extend_from_slice(&value.to_be_bytes());
    }

    pub fn f64(&mut self, value: f64) {
        self.u64(value.to_bits());
    }

    pub fn raw(&mut self, bytes: &[u8]) {
        self.bytes.extend_from_slice(bytes);
    }

    /// A count that the format has as u16.
    pub fn count(&mut self, count: usize) {
        self.u16(u16::try_from(count).expect("a count fits 16 bits"));
    }

    /// A record with its length before it.
    pub fn record(&mut self, bytes: &[u8]) {
        self.u32(u32::try_from(bytes.len()).expect("a record's length fits 32 bits"));
        self.raw(bytes);
    }

    /// Sets the first four bytes to the count of those that follow them.
    pub fn set_length(&mut self) {
        let length = u32::try_from(self.bytes.len() - 4).expect("the length fits 32 bits");
        self.bytes[..4].copy_from_slice(&length.to_be_bytes());
    }
}
