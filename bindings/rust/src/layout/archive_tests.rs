//! Both editions through the archive.

use super::*;
use crate::calls::{Clean, Interrupt, Start, Stop, Tick, WaitInterrupt};
use crate::{Device, InterruptWait, Interrupted, List, Process, Reason, Refusal, Table};

const DEVICE: Device = Device(63);
const INTERRUPT: Interrupt = Interrupt { device: DEVICE };
const WAIT: WaitInterrupt = WaitInterrupt {
    device: DEVICE,
    delay: 1,
};

const LIST: List = List::new().process("A", 5, 0).process("B", 5, 0);
type Words = [u16; LIST.table_words()];

/// Two processes of one priority, both running.
fn station(edition: Edition) -> Table<Words> {
    let builder = Table::builder(&LIST).edition(edition);
    let mut table = builder.lay_out_in([7; LIST.table_words()]).unwrap();
    for process in [1, 2] {
        table.call(Start(Process(process))).unwrap();
    }
    table
}

fn woken(woken: Option<u16>) -> Interrupted {
    let woken = woken.map(Process);
    Interrupted { woken }
}

#[test]
fn a_table_names_its_edition() {
    for edition in [Edition::First, Edition::Second] {
        assert_eq!(station(edition).edition(), Some(edition));
    }
    let mut words = [7; 200];
    let first = Table::lay_out_in(&mut words[..], &LIST).unwrap();
    assert_eq!(first.edition(), Some(Edition::First));
    assert_eq!(words[LIST.table_words()..], [7; 200 - LIST.table_words()]);
}

#[cfg(feature = "alloc")]
#[test]
fn a_table_on_the_heap_has_just_the_words_it_needs() {
    let table = Table::lay_out(&LIST).unwrap();
    assert_eq!(table.words().len(), LIST.table_words());
    let array = Table::lay_out_in([7; LIST.table_words()], &LIST).unwrap();
    assert_eq!(table.words(), array.words());
    let none = Table::lay_out(&List::new()).map(|_| ());
    assert_eq!(none.map_err(Refusal::from), Err(Refusal::WrongList));
}

#[test]
fn a_list_or_a_table_that_will_not_do_is_refused_with_its_cause() {
    let mut words = [7; LIST.table_words()];
    let many = LIST.process("C", 1, 129);
    let cause = Table::lay_out_in(&mut words[..], &many).unwrap_err();
    assert_eq!(
        std::string::ToString::to_string(&cause),
        "entry 3 of the list: with its buffers there are more than 128"
    );
    assert_eq!(Refusal::from(cause), Refusal::WrongList);
    let cause = Table::lay_out_in(&mut words[1..], &LIST).unwrap_err();
    let (lent, needed) = (LIST.table_words() - 1, LIST.table_words());
    assert_eq!(cause, NotLaidOut::TooShort { lent, needed });
    assert_eq!(cause.refusal(), Refusal::TableTooShort);
    assert_eq!(words, [7; LIST.table_words()]);
}

/// What the crate judges before the layout, the archive judges alike.
#[test]
fn the_archive_refuses_what_the_crate_refuses() {
    for words in [
        &[][..],
        &[1; 4],
        &[0, 0, 0x4100, 0, 0],
        &[256, 0, 0x4100, 0, 0],
        &[1, 129, 0x4100, 0, 0],
        &[1, 0, 0x4100, 0x4200, 0],
        &[1, 0, 0x4100, 0, 1],
        &[1, 0, 0x4100, 0, 0, 2, 0, 0x4100, 0, 0],
    ] {
        assert!(List::from_words(words).is_err());
        let number = crate::registers::layout(words, 0, &[], &mut [0; 2000]);
        assert_eq!(Refusal::from_number(number), Some(Refusal::WrongList));
    }
}

#[test]
fn an_interrupt_before_the_wait_is_lost_in_the_first_edition() {
    let table = &mut station(Edition::First);
    let before = table.clone();
    assert_eq!(table.call(INTERRUPT).unwrap(), woken(None));
    assert_eq!(*table, before);
    assert_eq!(table.call(WAIT).unwrap(), InterruptWait::Waits);
    assert_eq!(table.current(), Some(Process(2)));
}

#[test]
fn an_interrupt_before_the_wait_is_kept_in_the_second_edition() {
    let table = &mut station(Edition::Second);
    let before = table.clone();
    for _ in 0..2 {
        assert_eq!(table.call(INTERRUPT).unwrap(), woken(None));
        assert_eq!((table.kept(DEVICE), table.waiter(DEVICE)), (true, None));
    }
    assert_eq!(table.call(WAIT), Ok(InterruptWait::Kept));
    assert_eq!(table.current(), Some(Process(1)));
    assert_eq!(*table, before);
    assert_eq!(table.call(WAIT).unwrap(), InterruptWait::Waits);
    assert_eq!(table.current(), Some(Process(2)));
    assert_eq!(table.call(WAIT), Err(Refusal::DeviceTaken));
    assert_eq!(table.call(INTERRUPT).unwrap(), woken(Some(1)));
    assert_eq!(
        (table.reason(Process(1)), table.kept(DEVICE)),
        (Reason::Interrupt, false)
    );
}

#[test]
fn a_kept_interrupt_outlives_stops_cleans_and_ticks() {
    let table = &mut station(Edition::Second);
    let _ = table.call(INTERRUPT).unwrap();
    table.call(Stop(Process(1))).unwrap();
    table.call(Clean(Process(2))).unwrap();
    table.call(Tick).unwrap();
    table.call(Start(Process(2))).unwrap();
    assert!(table.kept(DEVICE));
    assert_eq!(table.call(WAIT).unwrap(), InterruptWait::Kept);
}

#[test]
fn a_kept_interrupt_in_the_first_edition_and_another_edition_are_not_sound() {
    let mut kept = station(Edition::Second);
    let _ = kept.call(INTERRUPT).unwrap();
    for edition in [0, 2, 0xFFFF] {
        let mut words = kept.clone().into_words();
        words[4] = edition;
        let mut table = Table::over(words);
        assert_eq!(table.call(Tick), Err(Refusal::TableNotSound));
        assert_eq!(table.edition(), Edition::from_number(edition));
    }
}
