//! Bit fields, most significant bit first.

/// The field of `width` bits (at most 57) that begins at bit `at`; bits past the end are zero.
#[inline]
pub fn field(bytes: &[u8], at: usize, width: usize) -> u64 {
    let first = at / 8;
    let word = match bytes.get(first..first + 8) {
        Some(eight) => u64::from_be_bytes(eight.try_into().unwrap()),
        None => near_the_end(bytes, first),
    };
    (word << (at % 8)) >> (64 - width)
}

fn near_the_end(bytes: &[u8], first: usize) -> u64 {
    let rest = bytes.get(first..).unwrap_or(&[]);
    let mut eight = [0; 8];
    eight[..rest.len()].copy_from_slice(rest);
    u64::from_be_bytes(eight)
}

/// Takes one field after the other.
pub struct Fields<'a> {
    bytes: &'a [u8],
    pub at: usize,
}

impl<'a> Fields<'a> {
    pub fn new(bytes: &'a [u8], at: usize) -> Self {
        Fields { bytes, at }
    }

    pub fn take(&mut self, width: usize) -> u64 {
        let value = field(self.bytes, self.at, width);
        self.at += width;
        value
    }

    /// The fields of one record.
    pub fn take_record<const N: usize>(&mut self, widths: &[usize; N]) -> [u64; N] {
        widths.map(|width| self.take(width))
    }

    /// The fields of so many records, one after the other.
    pub fn take_records(&mut self, records: usize, widths: &[usize]) -> Vec<u32> {
        (0..records).flat_map(|_| widths).map(|&width| self.take(width) as u32).collect()
    }
}

/// The fields of a record that is one number, its lowest bits the last of them.
pub fn split<const N: usize>(record: u64, widths: &[usize; N]) -> [u64; N] {
    let mut rest = record;
    let mut fields = [0; N];
    for (field, width) in fields.iter_mut().zip(widths).rev() {
        *field = rest & ((1 << width) - 1);
        rest >>= width;
    }
    fields
}

/// The record of these fields as one number.
pub fn join<const N: usize>(fields: [u64; N], widths: &[usize; N]) -> u64 {
    fields.iter().zip(widths).fold(0, |record, (field, width)| record << width | field)
}

/// Puts one field after the other.
#[derive(Default)]
pub struct Packer {
    bytes: Vec<u8>,
    /// Bits that don't fill a byte yet, under eight.
    waiting: u64,
    width: usize,
}

impl Packer {
    /// Puts the low bits of a number, at most 32.
    fn put(&mut self, number: u32, width: usize) {
        let low = u64::from(number) & ((1 << width) - 1);
        self.waiting = self.waiting << width | low;
        self.width += width;
        while self.width >= 8 {
            self.width -= 8;
            self.bytes.push((self.waiting >> self.width) as u8);
        }
    }

    /// Puts numbers in fields of these widths, which come again and again.
    pub fn put_all(&mut self, numbers: &[u32], widths: &[usize]) {
        for (&number, &width) in numbers.iter().zip(widths.iter().cycle()) {
            self.put(number, width);
        }
    }

    /// The bytes, the last one filled with zero bits.
    pub fn finish(mut self) -> Vec<u8> {
        if self.width > 0 {
            self.put(0, 8 - self.width);
        }
        self.bytes
    }
}

#[cfg(test)]
mod tests {
    use super::*;

    fn one_by_one(bytes: &[u8], at: usize, width: usize) -> u64 {
        (at..at + width).fold(0, |sum, i| {
            let bit = bytes.get(i / 8).map_or(0, |byte| byte >> (7 - i % 8) & 1);
            sum * 2 + u64::from(bit)
        })
    }

    #[test]
    fn a_field_is_its_bits() {
        let bytes: Vec<u8> = (0..23u32).map(|i| (i * 89 + 41) as u8).collect();
        for at in 0..8 * bytes.len() {
            for width in 1..=48 {
                assert_eq!(field(&bytes, at, width), one_by_one(&bytes, at, width));
            }
        }
    }

    #[test]
    fn a_record_is_its_fields() {
        let widths = [7, 3, 24, 8, 5, 1];
        let fields = [100, 5, 0x80_0001, 255, 0, 1];
        let record = join(fields, &widths);
        assert_eq!(record, 100 << 41 | 5 << 38 | 0x80_0001 << 14 | 255 << 6 | 1);
        assert_eq!(split(record, &widths), fields);
        let bytes = (record << 16).to_be_bytes();
        assert_eq!(Fields::new(&bytes, 0).take_record(&widths), fields);
    }

    #[test]
    fn what_is_put_is_taken() {
        let widths: Vec<usize> = (1..=32).collect();
        let numbers: Vec<u32> = (0..100).map(|i: u32| i.wrapping_mul(2_654_435_761)).collect();
        let mut bits = Packer::default();
        bits.put_all(&numbers, &widths);
        let bytes = bits.finish();
        let mut fields = Fields::new(&bytes, 0);
        for (&number, &width) in numbers.iter().zip(widths.iter().cycle()) {
            assert_eq!(fields.take(width), u64::from(number) & ((1 << width) - 1));
        }
        let fill = 8 * bytes.len() - fields.at;
        assert!(fill < 8 && (fill == 0 || fields.take(fill) == 0));
    }
}
