//! A sound table beside a plain one, through the archives.

use super::*;
use crate::calls::{Clean, Interrupt, Lower, Raise, SendAnswer, SendMessage, Start, Stop, Tick};
use crate::calls::{WaitAnswer, WaitEvent, WaitInterrupt};
use crate::{Buffer, Device, Edition, List, Listed, Message, Semaphore};
use core::fmt::Debug;

const LIST: List = List::new()
    .process("A", 5, 2)
    .process("B", 3, 1)
    .process("C", 3, 1);
const STATION: Builder<'_> = Table::builder(&LIST)
    .counters(&[1])
    .edition(Edition::Second);
type Words = [u16; STATION.table_words()];

struct Both {
    plain: Table<Words>,
    sound: SoundTable<Words>,
    refused: usize,
}

impl Both {
    fn laid_out() -> Both {
        let words = [7; STATION.table_words()];
        Both {
            plain: STATION.lay_out_in(words).unwrap(),
            sound: SoundTable::lay_out_in(words, STATION).unwrap(),
            refused: 0,
        }
    }

    /// The call on both, which must agree in the answer and in every word.
    fn call<C: Call + Copy>(&mut self, call: C)
    where
        C::Gives: PartialEq + Debug,
    {
        let answer = self.plain.call(call);
        assert_eq!(self.sound.call(call), answer);
        assert_eq!(*self.sound, self.plain);
        self.refused += usize::from(answer.is_err());
    }

    /// Call `number`, with a part.
    fn draw(&mut self, number: u16, a: u16) {
        let (to, words) = (Process(a), Message([a; 4]));
        match number {
            0 => self.call(Start(Process(a))),
            1 => self.call(SendMessage { to, words }),
            2 => self.call(WaitAnswer { buffer: Buffer(a) }),
            3 => self.call(WaitEvent { delay: a }),
            4 => self.call(SendAnswer {
                buffer: Buffer(a),
                words,
            }),
            5 => self.call(WaitInterrupt {
                device: Device(63 + a % 2),
                delay: a,
            }),
            6 => self.call(Stop(Process(a))),
            7 => self.call(Clean(Process(a))),
            8 => self.call(Tick),
            9 => self.call(Interrupt { device: Device(63) }),
            10 => self.call(Lower {
                semaphore: Semaphore(a),
            }),
            _ => self.call(Raise {
                semaphore: Semaphore(a),
            }),
        }
    }
}

#[test]
fn every_call_does_what_it_does_on_a_plain_table() {
    let mut both = Both::laid_out();
    let mut state: u32 = 1;
    for _ in 0..5_000 {
        state = state.wrapping_mul(1_664_525).wrapping_add(1_013_904_223);
        both.draw((state >> 16) as u16 % 12, (state >> 24) as u16 % 5);
        let list = both.plain.list(Process(2));
        assert_eq!(both.sound.list(Process(2)), list);
        let (one, other) = (&mut [0; Listed::WORDS], &mut [0; Listed::WORDS]);
        let rows = both.plain.list_in(Process(1), one).map(|rows| rows.len());
        assert_eq!(
            both.sound.list_in(Process(1), other).map(|rows| rows.len()),
            rows
        );
        assert_eq!(one, other);
    }
    assert!(both.refused > 500 && both.refused < 4_500);
    assert!(both.plain.is_sound() && both.sound.into_table().is_sound());
}

#[test]
fn words_that_are_not_sound_are_given_back() {
    let sound = STATION.lay_out_in([7; STATION.table_words()]).unwrap();
    let mut words = sound.clone().into_words();
    assert!(sound.check().is_ok());
    words[4] = 2; // no edition
    let refused = Table::over(words).check();
    assert_eq!(refused.map(SoundTable::into_table), Err(Table::over(words)));
    assert!(Table::over([0; 0]).check().is_err());
}

#[test]
fn lent_words_are_given_back_with_what_the_calls_left() {
    let mut words = [7; STATION.table_words() + 3];
    let mut table = SoundTable::lay_out_in(&mut words[..], STATION).unwrap();
    table.call(Start(Process(2))).unwrap();
    assert_eq!(table.words().len(), STATION.table_words() + 3);
    let _ = table.into_table();
    assert_eq!((words[2], words[STATION.table_words()]), (2, 7));
    let short = &mut words[..STATION.table_words() - 1];
    assert!(SoundTable::lay_out_in(short, STATION).is_err());
}

#[cfg(feature = "alloc")]
#[test]
fn a_table_on_the_heap_can_be_one() {
    let table = STATION.lay_out().unwrap();
    let boxed = Table::over(table.words().to_vec().into_boxed_slice());
    let (mut one, mut other) = (table.check().unwrap(), boxed.check().unwrap());
    assert_eq!(one.call(Start(Process(1))), other.call(Start(Process(1))));
    assert_eq!(one.words(), other.words());
}
