//! One lent buffer, between guard bytes that no call may change.

use crate::draw::random::Random;

const GUARD: usize = 64;
const FILLING: usize = 1 << 17;

/// Drawn bytes to fill buffers and guards with: whatever a call does not write stays recognisable.
pub struct Filling {
    bytes: Vec<u8>,
}

impl Filling {
    pub fn new() -> Filling {
        Filling { bytes: Random::new(0).bytes(FILLING) }
    }

    /// The same bytes again and again where more are wanted than there are.
    pub fn take(&self, random: &mut Random, length: usize) -> Vec<u8> {
        if length >= FILLING {
            let mut repeated = self.bytes.repeat(length / FILLING + 1);
            repeated.truncate(length);
            return repeated;
        }
        let start = random.index(FILLING - length);
        self.bytes[start..start + length].to_vec()
    }
}

#[derive(Clone, PartialEq)]
pub struct Lent {
    pub name: &'static str,
    /// How many of the first bytes are given for reading; a report shows these.
    pub given: usize,
    memory: Vec<u8>,
    start: usize,
    length: usize,
}

impl Lent {
    /// `length` bytes: the content as far as it goes, then filling. Behind the end come the bytes
    /// of `behind` first: what a call sees there if it reads on.
    pub fn new(
        name: &'static str,
        content: &[u8],
        length: usize,
        behind: &[u8],
        filling: &Filling,
        random: &mut Random,
    ) -> Lent {
        let start = GUARD + random.index(8);
        let memory = filling.take(random, start + length + GUARD);
        let mut lent = Lent { name, given: content.len().min(length), memory, start, length };
        lent.memory[start..start + lent.given].copy_from_slice(&content[..lent.given]);
        let seen = behind.len().min(GUARD);
        lent.memory[start + length..start + length + seen].copy_from_slice(&behind[..seen]);
        lent
    }

    /// A buffer of numbers in the machine's own byte order, where numbers may stand: not always
    /// where something wider may.
    pub fn of_numbers(
        name: &'static str,
        numbers: &[u32],
        given: usize,
        random: &mut Random,
    ) -> Lent {
        let bytes: Vec<u8> = numbers.iter().flat_map(|number| number.to_ne_bytes()).collect();
        Lent::aligned(name, &bytes, 4 * given, align_of::<u32>(), random)
    }

    /// The same of numbers twice as wide, none of them given for reading.
    pub fn of_wide_numbers(name: &'static str, numbers: &[u64], random: &mut Random) -> Lent {
        let bytes: Vec<u8> = numbers.iter().flat_map(|number| number.to_ne_bytes()).collect();
        Lent::aligned(name, &bytes, 0, align_of::<u64>(), random)
    }

    fn aligned(
        name: &'static str,
        bytes: &[u8],
        given: usize,
        alignment: usize,
        random: &mut Random,
    ) -> Lent {
        let before = GUARD + alignment * random.index(4);
        let mut memory = vec![0xa5; before + bytes.len() + GUARD + alignment];
        let start = before + memory.as_ptr().wrapping_add(before).align_offset(alignment);
        memory[start..start + bytes.len()].copy_from_slice(bytes);
        Lent { name, given, memory, start, length: bytes.len() }
    }

    pub fn bytes(&self) -> &[u8] {
        &self.memory[self.start..self.start + self.length]
    }

    pub fn bytes_mut(&mut self) -> &mut [u8] {
        &mut self.memory[self.start..self.start + self.length]
    }

    pub fn numbers(&self) -> Vec<u32> {
        let number = |bytes: &[u8]| u32::from_ne_bytes([bytes[0], bytes[1], bytes[2], bytes[3]]);
        self.bytes().chunks(4).map(number).collect()
    }

    pub fn set_numbers(&mut self, numbers: &[u32]) {
        let bytes: Vec<u8> = numbers.iter().flat_map(|number| number.to_ne_bytes()).collect();
        self.bytes_mut().copy_from_slice(&bytes);
    }

    pub fn wide_numbers(&self) -> Vec<u64> {
        let number = |bytes: &[u8]| u64::from_ne_bytes(bytes.try_into().expect("eight bytes"));
        self.bytes().chunks(8).map(number).collect()
    }

    pub fn set_wide_numbers(&mut self, numbers: &[u64]) {
        let bytes: Vec<u8> = numbers.iter().flat_map(|number| number.to_ne_bytes()).collect();
        self.bytes_mut().copy_from_slice(&bytes);
    }

    pub fn pointer(&mut self) -> *mut u8 {
        self.memory[self.start..].as_mut_ptr()
    }

    pub fn length(&self) -> usize {
        self.length
    }

    /// The first byte in which the two differ, counted from the buffer's start (guards before it
    /// are below 0), with both values.
    pub fn first_difference(&self, other: &Lent) -> Option<(isize, u8, u8)> {
        let mut both = self.memory.iter().zip(&other.memory);
        let place = both.position(|(mine, theirs)| mine != theirs)?;
        let offset = place as isize - self.start as isize;
        Some((offset, self.memory[place], other.memory[place]))
    }
}
