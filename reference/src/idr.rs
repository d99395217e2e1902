//! Reads and writes the medium band record (Intermediate Data Record) of source document 001. Request 04.

pub const RECORD: usize = 5_056;
pub const HEADER_WORDS: usize = 28;
pub const SAMPLES: usize = 5_000;
pub const HEADER: usize = 2 * HEADER_WORDS;
/// What the length word says: how many words of 16 bits the record has.
pub const LENGTH_WORD: u16 = 2_528;

/// Playback and sampling rates in samples per second, each with its code, as words 10 and 11 list them. The first
/// three are playback rates.
pub const RATES: [(u16, u32); 15] = [
    (0b10000, 50_000),
    (0b01000, 62_500),
    (0b00000, 75_000),
    (0b10001, 100_000),
    (0b01001, 125_000),
    (0b00001, 150_000),
    (0b10010, 200_000),
    (0b01010, 250_000),
    (0b00010, 300_000),
    (0b10011, 400_000),
    (0b01011, 500_000),
    (0b00011, 600_000),
    (0b10100, 800_000),
    (0b01100, 1_000_000),
    (0b00100, 1_200_000),
];
pub const PLAYBACK_RATES: usize = 3;

/// The rate of each code; 0 if the code is not listed.
const fn by_code(listed: usize) -> [u32; 32] {
    let mut rates = [0; 32];
    let mut i = 0;
    while i < listed {
        rates[RATES[i].0 as usize] = RATES[i].1;
        i += 1;
    }
    rates
}

static PLAYBACK: [u32; 32] = by_code(PLAYBACK_RATES);
static SAMPLING: [u32; 32] = by_code(RATES.len());

/// An accepted record: its parts, which point into the lent record, and the fields if the time tag is valid.
#[derive(Debug, PartialEq)]
pub struct Idr<'a> {
    pub header: Header<'a>,
    pub fields: Option<Fields>,
    /// Of the two samples in a word, the earlier comes first.
    pub samples: &'a [u8],
}

/// The fields that document 001 defines, by word.
#[derive(Clone, Copy, Debug, PartialEq)]
pub struct Fields {
    // Words 1 to 5.
    pub first_of_run: bool,
    pub source_error: bool,
    /// 0 for a medium band reduction tape.
    pub tape_type: u8,
    pub tape_number: u8,
    pub record_number: u16,
    pub spacecraft: u8,
    pub station: u8,
    pub dra_tape_number: u16,
    // Words 6 to 9.
    pub time: Time,
    pub input: u8,
    pub pps_absent: bool,
    pub clock_out_of_sync: bool,
    pub recorder_b: bool,
    pub microseconds_abnormal: bool,
    pub time_track_in_sync: bool,
    // Words 10 to 13.
    pub playback_rate: u32,
    pub sampling_rate: u32,
    pub bypass: bool,
    pub decimation: u8,
    pub pps_track: u8,
    pub time_track: u8,
    pub channel: u8,
    pub block_size: u32,
    // Words 23 to 28.
    pub reduction_day: u16,
    pub reduction_second: u32,
    pub overflow: bool,
    pub pps_out_of_sync: bool,
    pub bit_slip: bool,
    pub decimation_counter: u8,
    pub sample_count: Option<u32>,
}

#[derive(Clone, Copy, Debug, PartialEq)]
pub struct Time {
    pub day: u16,
    pub hour: u8,
    pub minute: u8,
    pub second: u8,
    pub microseconds: u32,
}

/// The 56 bytes of the 28 header words. Words count from 1, and bit 1 is the highest of 16, as in the document.
#[derive(Clone, Copy, Debug, PartialEq)]
pub struct Header<'a>(&'a [u8; HEADER]);

impl<'a> Header<'a> {
    pub fn word(self, n: usize) -> u16 {
        u16::from_be_bytes([self.0[2 * n - 2], self.0[2 * n - 1]])
    }

    pub fn words(self) -> impl Iterator<Item = u16> + 'a {
        (1..=HEADER_WORDS).map(move |n| self.word(n))
    }

    pub fn bits(self, n: usize, first: u32, last: u32) -> u16 {
        self.word(n) << (first - 1) >> (15 - (last - first))
    }

    fn bit(self, n: usize, bit: u32) -> bool {
        self.bits(n, bit, bit) == 1
    }

    pub fn is_tagged(self) -> bool {
        self.bit(1, 1)
    }

    /// Decimal digits of four bits each, and 20 bits of microseconds.
    fn time(self) -> Option<Time> {
        // The day in hundreds, tens and units; hours, minutes and seconds in tens and units.
        let digits = (self.word(6) as u64) << 20 | (self.word(7) as u64) << 4 | self.bits(8, 1, 4) as u64;
        let digit = |place: u32| (digits >> (4 * place) & 0xF) as u8;
        let pair = |place: u32| 10 * digit(place + 1) + digit(place);
        let time = Time {
            day: 100 * digit(8) as u16 + pair(6) as u16,
            hour: pair(4),
            minute: pair(2),
            second: pair(0),
            microseconds: (self.bits(8, 5, 16) as u32) << 8 | self.bits(9, 1, 8) as u32,
        };
        // A digit over nine has its highest bit set, and one of the middle two.
        let decimal = digits & (digits << 1 | digits << 2) & 0x8_8888_8888 == 0;
        let in_range = (1..=366).contains(&time.day)
            && time.hour <= 23
            && time.minute <= 59
            && time.second <= 59
            && time.microseconds <= 999_999;
        (decimal && in_range).then_some(time)
    }

    /// The size that a negative 24-bit number in two's complement stands for.
    fn block_size(self) -> Option<u32> {
        let stored = (self.bits(12, 9, 16) as u32) << 16 | self.word(13) as u32;
        (stored >= 1 << 23).then(|| (1 << 24) - stored)
    }

    /// Tests refusals 51 to 54. The fields if the time tag is valid, else none.
    fn read(self) -> Result<Option<Fields>, u32> {
        if self.word(3) != LENGTH_WORD {
            return Err(51);
        }
        if !self.is_tagged() {
            return Ok(None);
        }
        let time = self.time().ok_or(52u32)?;
        let playback_rate = PLAYBACK[self.bits(10, 12, 16) as usize];
        let sampling_rate = SAMPLING[self.bits(11, 12, 16) as usize];
        if playback_rate == 0 || sampling_rate == 0 {
            return Err(53);
        }
        let block_size = self.block_size().ok_or(54u32)?;
        Ok(Some(Fields {
            first_of_run: self.bit(1, 2),
            source_error: self.bit(1, 3),
            tape_type: self.bits(1, 5, 8) as u8,
            tape_number: self.bits(1, 9, 16) as u8,
            record_number: self.word(2),
            spacecraft: self.bits(4, 1, 8) as u8,
            station: self.bits(4, 9, 16) as u8,
            dra_tape_number: self.word(5),
            time,
            input: self.bits(9, 9, 11) as u8,
            pps_absent: self.bit(9, 12),
            clock_out_of_sync: self.bit(9, 13),
            recorder_b: self.bit(9, 14),
            microseconds_abnormal: self.bit(9, 15),
            time_track_in_sync: self.bit(9, 16),
            playback_rate,
            sampling_rate,
            bypass: self.bit(12, 1),
            decimation: 8 - self.bits(12, 2, 4) as u8,
            pps_track: self.bits(12, 5, 5) as u8,
            time_track: self.bits(12, 6, 6) as u8,
            channel: 1 + self.bits(12, 7, 8) as u8,
            block_size,
            reduction_day: self.bits(23, 1, 9),
            reduction_second: (self.bits(23, 16, 16) as u32) << 16 | self.word(24) as u32,
            overflow: self.bit(26, 9),
            pps_out_of_sync: self.bit(26, 10),
            bit_slip: self.bit(26, 11),
            decimation_counter: 8 - self.bits(26, 14, 16) as u8,
            sample_count: self.bit(1, 4).then(|| (self.word(27) as u32) << 16 | self.word(28) as u32),
        }))
    }
}

pub fn read(s: &[u8]) -> Result<Idr<'_>, u32> {
    let s: &[u8; RECORD] = s.try_into().map_err(|_| 50u32)?;
    let (header, samples) = s.split_first_chunk().expect("longer than a header");
    let header = Header(header);
    Ok(Idr { header, fields: header.read()?, samples })
}

/// Writes the record over the whole of `out`, with the reader's tests.
pub fn write(words: &[u16], samples: &[u8], out: &mut [u8]) -> Result<(), u32> {
    if out.len() != RECORD || words.len() != HEADER_WORDS || samples.len() != SAMPLES {
        return Err(50);
    }
    let mut header = [0; HEADER];
    for (bytes, word) in header.chunks_exact_mut(2).zip(words) {
        bytes.copy_from_slice(&word.to_be_bytes());
    }
    Header(&header).read()?;
    out[..HEADER].copy_from_slice(&header);
    out[HEADER..].copy_from_slice(samples);
    Ok(())
}
