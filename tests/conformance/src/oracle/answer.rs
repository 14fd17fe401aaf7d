//! "Each hands it one 64-bit number: refusal number in 63..56, position in 55..40, length in 39..24, count in 23..0."

/// A row of the table "Where each check is made" that fits.
#[derive(Clone, Copy, Debug, PartialEq, Eq)]
pub struct Refusal {
    pub number: usize,
    pub position: usize,
}

pub fn refuse<T>(number: usize, position: usize) -> Result<T, Refusal> {
    Err(Refusal { number, position })
}

#[derive(Clone, Copy, Debug, PartialEq, Eq)]
pub struct Answer {
    pub number: usize,
    pub position: usize,
    pub length: usize,
    pub count: usize,
}

impl Answer {
    /// "A success gives number 0 and position 0"
    pub fn success(length: usize, count: usize) -> Answer {
        Answer { number: 0, position: 0, length, count }
    }

    /// "A refusal gives length 0 and count 0, but 13 gives the true count"
    pub fn refused(refusal: Refusal) -> Answer {
        Answer { number: refusal.number, position: refusal.position, length: 0, count: 0 }
    }

    pub fn pack(self) -> u64 {
        assert!(self.number < 1 << 8 && self.position < 1 << 16);
        assert!(self.length < 1 << 16 && self.count < 1 << 24);
        (self.number as u64) << 56 | (self.position as u64) << 40 | (self.length as u64) << 24 | self.count as u64
    }

    pub fn unpack(packed: u64) -> Answer {
        Answer {
            number: (packed >> 56) as usize,
            position: (packed >> 40 & 0xffff) as usize,
            length: (packed >> 24 & 0xffff) as usize,
            count: (packed & 0xff_ffff) as usize,
        }
    }
}

#[cfg(test)]
mod tests {
    use super::*;

    #[test]
    fn each_part_has_its_place() {
        let answer = Answer { number: 0x12, position: 0x3456, length: 0x789a, count: 0xbcdef0 };
        assert_eq!(answer.pack(), 0x1234_5678_9abc_def0);
        assert_eq!(Answer::unpack(0x1234_5678_9abc_def0), answer);
    }

    #[test]
    fn a_refusal_has_no_length_and_no_count() {
        let answer = Answer::refused(Refusal { number: 13, position: 0 });
        assert_eq!(answer.pack(), 13 << 56);
    }
}
