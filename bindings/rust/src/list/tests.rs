//! Lists, and what is wrong with each.

use super::*;
use std::string::ToString;

fn cause(list: List) -> Option<(u16, Cause)> {
    list.fault().map(|fault| (fault.entry, fault.cause))
}

const ONE: List = List::new().process("A", 5, 1);

#[test]
fn names_are_packed_left_byte_first() {
    assert_eq!(name_words("A"), Ok([0x4100, 0, 0]));
    assert_eq!(name_words("ABCDE"), Ok([0x4142, 0x4344, 0x4500]));
}

#[test]
fn bad_names_have_a_cause() {
    assert_eq!(name_words(""), Err(Cause::NameEmpty));
    assert_eq!(name_words("ABCDEF"), Err(Cause::NameTooLong));
    assert_eq!(name_words("A\0B"), Err(Cause::NameHasZero));
}

#[test]
fn the_worked_runs_list() {
    let list = ONE.process("B", 3, 0);
    assert_eq!(list.words(), [5, 1, 0x4100, 0, 0, 3, 0, 0x4200, 0, 0]);
    assert_eq!((list.processes(), list.buffers()), (2, 1));
    assert_eq!((list.fault(), list.table_words()), (None, 114));
    assert_eq!(List::from_words(list.words()), Ok(list));
}

#[test]
fn each_fault_names_its_entry() {
    assert_eq!(cause(List::new()), Some((1, Cause::Empty)));
    assert_eq!(cause(ONE.process("", 1, 0)), Some((2, Cause::NameEmpty)));
    assert_eq!(cause(ONE.process("B", 0, 0)), Some((2, Cause::Priority(0))));
    assert_eq!(
        cause(ONE.process("B", 256, 0)),
        Some((2, Cause::Priority(256)))
    );
    assert_eq!(
        cause(ONE.process("B", 1, 0).process("A", 1, 0)),
        Some((3, Cause::NameRepeated(1)))
    );
    assert_eq!(cause(ONE.process("B", 255, 127)), None);
    for buffers in [128, u16::MAX] {
        assert_eq!(
            cause(ONE.process("B", 1, buffers)),
            Some((2, Cause::TooManyBuffers))
        );
    }
}

#[test]
fn the_first_fault_is_kept_and_says_what_it_is() {
    let list = ONE.process("SPELLER", 3, 2).process("", 0, 999);
    let fault = list.checked().unwrap_err();
    assert_eq!((fault.entry, fault.cause), (2, Cause::NameTooLong));
    assert_eq!(
        fault.to_string(),
        "entry 2 of the list: its name has more than 5 bytes"
    );
}

#[test]
fn there_are_32_processes_and_no_more() {
    let names = (1..=32u8).map(|i| [b'A' + i / 10, b'A' + i % 10]);
    let full = names.fold(List::new(), |list, name| {
        list.process(core::str::from_utf8(&name).unwrap(), 1, 4)
    });
    assert_eq!((full.fault(), full.table_words()), (None, 1864));
    assert_eq!(List::from_words(full.words()), Ok(full));
    assert_eq!(
        cause(full.process("Z", 1, 0)),
        Some((33, Cause::TooManyProcesses))
    );
}

#[test]
fn words_that_are_no_list() {
    let fault = |entry, cause| Err(Fault { entry, cause });
    assert_eq!(List::from_words(&[]), fault(1, Cause::Empty));
    assert_eq!(List::from_words(&[1; 4]), fault(1, Cause::CutOff));
    let of =
        |name: [u16; 3]| List::from_words(&[1, 0, 0x4100, 0, 0, 2, 0, name[0], name[1], name[2]]);
    assert_eq!(of([0; 3]), fault(2, Cause::NameEmpty));
    assert_eq!(of([0x4142, 0x4344, 0x4546]), fault(2, Cause::NameTooLong));
    for name in [[0x4100, 0x4200, 0], [0x0041, 0, 0], [0x4100, 0, 1]] {
        assert_eq!(of(name), fault(2, Cause::NameHasZero));
    }
    assert_eq!(of([0x4100, 0, 0]), fault(2, Cause::NameRepeated(1)));
    assert!(of([0x4142, 0x4344, 0x4500]).is_ok());
}
