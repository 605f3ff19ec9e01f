//! Both sides called beside each other, and how often they gave each refusal.

use std::fmt::Debug;

use crate::ordinary::Refusal;
use crate::records::Values;
use crate::sides::{Lent, Library, Ordinary, Rooms, Side};
use crate::timing::{CALLS, Call};

/// So often each refusal that a call can give must have come up in it, or else nobody
/// would see that the ordinary planner forgets it or gives it at another place.
const FLOOR: usize = 100;

/// What both answered, nothing where both refused alike; or in which way they differ.
type Alike<T> = Result<Option<T>, String>;

/// How often each refusal came up, by call and number.
pub struct Held([[usize; 256]; CALLS.len()]);

/// The numbers that a call can refuse with.
fn numbers(call: Call) -> impl Iterator<Item = u8> {
    let (first, more): (u8, &[u8]) = match call {
        Call::Check | Call::Candidates => (1, &[]),
        Call::Why => (1, &[16]),
        Call::Cheapest => (1, &[12, 13, 15, 17]),
        Call::Offered => (1, &[14, 15, 17]),
        Call::Write => (2, &[15]),
    };
    (first..=11).chain(more.iter().copied())
}

impl Held {
    pub fn new() -> Held {
        Held([[0; 256]; CALLS.len()])
    }

    fn alike<T: PartialEq + Debug>(
        &mut self,
        call: Call,
        asked: &[u64],
        ordinary: Result<T, Refusal>,
        library: Result<T, Refusal>,
    ) -> Alike<T> {
        if ordinary != library {
            let name = call.name();
            return Err(format!("{name} {asked:?}: ordinary {ordinary:?}, library {library:?}"));
        }
        if let Err((number, _)) = ordinary {
            self.0[call as usize][number as usize] += 1;
        }
        Ok(ordinary.ok())
    }

    /// Of a call that has rooms: both leave the same in all of them, beyond what is lent
    /// too, and a refusal leaves them as they were.
    fn alike_in_rooms<T: PartialEq + Debug>(
        &mut self,
        call: Call,
        lent: Lent,
        ordinary: impl Fn(&mut Rooms) -> Result<T, Refusal>,
        library: impl Fn(&mut Rooms) -> Result<T, Refusal>,
    ) -> Alike<(T, Box<Rooms>)> {
        let (mut one, mut two) = (Rooms::lending(lent), Rooms::lending(lent));
        let asked = [lent.choice, lent.plan, lent.keys, lent.file].map(|length| length as u64);
        let answer = self.alike(call, &asked, ordinary(&mut one), library(&mut two))?;
        if one != two {
            return Err(format!("{} {asked:?}: not the same in the rooms", call.name()));
        }
        if answer.is_none() && one != Rooms::lending(lent) {
            return Err(format!("{} {asked:?}: refused, but rooms are written", call.name()));
        }
        Ok(answer.map(|answer| (answer, one)))
    }

    pub fn check(&mut self, file: &[u8]) -> Alike<()> {
        self.alike(Call::Check, &[], Ordinary::check(file), Library::check(file))
    }

    pub fn candidates(&mut self, file: &[u8], node: usize) -> Alike<u16> {
        let (ordinary, library) =
            (Ordinary::candidates(file, node), Library::candidates(file, node));
        self.alike(Call::Candidates, &[node as u64], ordinary, library)
    }

    pub fn why(&mut self, file: &[u8], node: u32, subject: u32) -> Alike<(u8, u8, u64)> {
        let asked = [node, subject].map(u64::from);
        let ordinary = Ordinary::why(file, node, subject);
        self.alike(Call::Why, &asked, ordinary, Library::why(file, node, subject))
    }

    /// The steps and the cheapest choice.
    pub fn cheapest(&mut self, file: &[u8], lent: Lent) -> Alike<(u32, Vec<u8>)> {
        let answer = self.alike_in_rooms(
            Call::Cheapest,
            lent,
            |rooms| Ordinary::cheapest(file, rooms),
            |rooms| Library::cheapest(file, rooms),
        )?;
        Ok(answer.map(|((_, steps), rooms)| (steps, rooms.choice[..lent.choice].to_vec())))
    }

    pub fn offered(&mut self, file: &[u8], offer: &[u8], lent: Lent) -> Alike<u64> {
        let answer = self.alike_in_rooms(
            Call::Offered,
            lent,
            |rooms| Ordinary::offered(file, offer, rooms),
            |rooms| Library::offered(file, offer, rooms),
        );
        let answer = answer.map_err(|what| format!("{what}, offer {offer:?}"))?;
        Ok(answer.map(|(total, _)| total))
    }

    /// The file that is written.
    pub fn write(&mut self, values: &Values, room: usize) -> Alike<Vec<u8>> {
        let answer = self.alike_in_rooms(
            Call::Write,
            Lent { file: room, ..Lent::NONE },
            |rooms| Ordinary::write(values, rooms),
            |rooms| Library::write(values, rooms),
        )?;
        Ok(answer.map(|(length, rooms)| rooms.file[..length].to_vec()))
    }

    /// Of each call the refusal that came up least often, unless one did too seldom.
    pub fn rarest(&self) -> Result<String, String> {
        let mut told = Vec::new();
        for call in CALLS {
            let count = |number: &u8| self.0[call as usize][*number as usize];
            let Some(rarest) = numbers(call).min_by_key(count) else { continue };
            let (name, times) = (call.name(), count(&rarest));
            if times < FLOOR {
                return Err(format!("{name} was refused with {rarest} only {times} times"));
            }
            told.push(format!("{name} {rarest} x{times}"));
        }
        Ok(told.join(", "))
    }
}
