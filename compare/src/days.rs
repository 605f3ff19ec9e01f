//! The days on which a grant is in force.

#[derive(Clone, Copy, PartialEq, Debug)]
pub struct Days {
    pub first: u16,
    /// Included, as the first is.
    pub last: u16,
}

impl Days {
    /// All there are: so every grant is in force before version 4.
    pub const ALL: Days = Days { first: 0, last: u16::MAX };

    pub fn has(&self, day: u16) -> bool {
        self.first <= day && day <= self.last
    }

    /// Whether some day is among both.
    pub fn meet(&self, other: &Days) -> bool {
        self.first.max(other.first) <= self.last.min(other.last)
    }

    /// Of these around a day, those that stay if others without that day are taken.
    pub fn beside(&self, others: &Days, day: u16) -> Days {
        if others.last < day {
            Days { first: self.first.max(others.last + 1), ..*self }
        } else {
            Days { last: self.last.min(others.first - 1), ..*self }
        }
    }
}
