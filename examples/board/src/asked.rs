//! Everything that the crate can be asked for beside the conversation, each with parts that the optimiser can't know, so
//! that no path of it is left out.

use core::fmt::Write;
use core::hint::black_box;

use elvomike_monitor::calls::{Clean, Interrupt, Lower, Raise, Start, Stop, Tick, WaitInterrupt};
use elvomike_monitor::{
    counter_fault, name_words, Buffer, Device, Edition, List, Listed, Process, Refusal, Semaphore,
    Standing, State, Table,
};

use crate::{refused, told, Out};

pub(crate) type Lent<'a> = Table<&'a mut [u16]>;

pub(crate) fn everything(table: &mut Lent<'_>, out: &mut Out) {
    calls(table, out);
    listings(table, out);
    told::log(table, out);
    words(table, out);
    told::station(table, out);
    lists(out);
    semaphores(out);
    #[cfg(feature = "walks")]
    let _ = writeln!(
        out,
        "walked: {:?}",
        table.call_walked(Start(Process(black_box(2)))).1
    );
    #[cfg(feature = "quick")]
    quick(table, out);
    #[cfg(feature = "why")]
    why(table, out);
    #[cfg(feature = "screen")]
    screen(table, out);
    #[cfg(feature = "compare")]
    compare(out);
    #[cfg(feature = "tape")]
    tape(out);
    #[cfg(feature = "delays")]
    delays(out);
}

fn calls(table: &mut Lent<'_>, out: &mut Out) {
    let (process, device) = (Process(black_box(2)), Device(black_box(63)));
    let wait = WaitInterrupt { device, delay: 1 };
    let numbers = [
        refused(table, Start(process)),
        refused(table, Stop(process)),
        refused(table, Clean(process)),
        refused(table, wait),
        refused(table, wait),
        refused(table, Tick),
        refused(table, Interrupt { device }),
    ];
    let _ = writeln!(out, "calls: {numbers:?}");
}

fn listings(table: &mut Lent<'_>, out: &mut Out) {
    let process = Process(black_box(1));
    let mut room = [0; Listed::WORDS];
    let rows = table.list_in(process, &mut room).map(|rows| rows.len());
    let _ = writeln!(out, "rows: {rows:?}");
    if let Ok(listing) = table.list(process) {
        for row in &listing {
            let _ = writeln!(out, "row: {row:?}");
        }
        let first = listing.get(black_box(0));
        let _ = writeln!(out, "first: {first:?}, none: {}", listing.is_empty());
    }
    let _ = match table.stuck(process) {
        Ok(stuck) => writeln!(out, "stuck: {} {}", stuck.processes().count(), stuck.ring()),
        Err(refusal) => writeln!(out, "stuck: {refusal}"),
    };
    if let Ok(rings) = table.rings() {
        let _ = writeln!(out, "rings: {} {}", rings.len(), rings.is_empty());
        for process in rings.iter().flatten() {
            let _ = writeln!(out, "in a ring: {process}");
        }
    }
}

fn words(table: &Lent<'_>, out: &mut Out) {
    let number = black_box(1);
    let (process, buffer, device) = (Process(number), Buffer(number), Device(number));
    let of_process = (
        table.state(process),
        table.reason(process),
        table.delay(process),
    );
    let of_buffer = (table.standing(buffer), table.age(buffer));
    let of_device = (table.waiter(device), table.kept(device), table.edition());
    let _ = writeln!(out, "words: {of_process:?} {of_buffer:?} {of_device:?}");
    let _ = writeln!(out, "sound: {}", table.is_sound());
    let named = (
        State::from_number(number),
        Standing::from_number(number),
        Edition::from_number(number),
    );
    let _ = writeln!(out, "named: {named:?} {:?}", Refusal::from_number(number));
}

fn semaphores(out: &mut Out) {
    let list = List::new().process("A", 2, 0).process("B", 1, 0);
    let counters = black_box([0, 32767, 40000]);
    let semaphore = Semaphore(black_box(1));
    for counters in [&counters[..], counters.get(..black_box(2)).unwrap_or(&[])] {
        let _ = writeln!(out, "counters: {:?}", counter_fault(counters));
        let builder = Table::builder(&list).counters(counters);
        let room = &mut black_box([0; 200])[..];
        match builder.lay_out_in(room) {
            Ok(table) => lowered(table, semaphore, out),
            Err(cause) => drop(writeln!(out, "not laid out: {cause}")),
        }
    }
}

fn lowered(mut table: Lent<'_>, semaphore: Semaphore, out: &mut Out) {
    let numbers = [
        refused(&mut table, Start(Process(1))),
        refused(&mut table, Lower { semaphore }),
        refused(&mut table, Start(Process(2))),
    ];
    let lowered = table.call(Lower { semaphore });
    let _ = writeln!(out, "lowered: {numbers:?} {lowered:?}");
    let told = (
        table.semaphores().count(),
        table.counter(semaphore),
        table.current(),
    );
    let waits = table.awaited_semaphore(Process(black_box(1)));
    let _ = writeln!(out, "semaphore: {told:?} {waits:?}");
    for process in table.waiters(semaphore) {
        let _ = writeln!(out, "waits: {process}");
    }
    let raised = refused(&mut table, Raise { semaphore });
    let _ = writeln!(out, "raised: {raised}");
}

fn lists(out: &mut Out) {
    let (name, number) = (black_box("SPELLER"), black_box(300));
    let list = List::new()
        .process(black_box("A"), 1, 1)
        .process(name, number, number);
    let room = &mut black_box([0; 200])[..];
    let _ = match Table::builder(&list)
        .edition(Edition::Second)
        .lay_out_in(room)
    {
        Ok(table) => writeln!(out, "laid out: {}", table.into_words().len()),
        Err(cause) => writeln!(out, "not laid out: {cause}, {}", cause.refusal().number()),
    };
    let words = black_box([1, 0, 0x4100, 0, 0, 1, 0, 0x4100, 0, 0, 7]);
    let told = List::from_words(words.get(..black_box(11)).unwrap_or(&[]));
    let _ = match told.and_then(List::checked) {
        Ok(list) => {
            let counts = (list.processes(), list.buffers(), list.table_words());
            writeln!(out, "list: {:?} {counts:?}", list.words())
        }
        Err(fault) => writeln!(out, "no list: {fault}"),
    };
    let _ = writeln!(out, "name: {:?}", name_words(name));
}

#[cfg(feature = "quick")]
fn quick(table: &Lent<'_>, out: &mut Out) {
    use elvomike_monitor::SoundTable;
    let mut words = [0; 200];
    for (to, &word) in words.iter_mut().zip(table.words()) {
        *to = word;
    }
    let _ = match Table::over(words).check() {
        Ok(mut sound) => {
            let numbers = (
                sound.call(Tick).is_ok(),
                sound.list(Process(black_box(1))).is_ok(),
            );
            let rows = sound
                .list_in(Process(black_box(2)), &mut [0; Listed::WORDS])
                .is_ok();
            let current = sound.into_table().current();
            writeln!(out, "quick: {numbers:?} {rows} {current:?}")
        }
        Err(table) => writeln!(out, "not sound: {:?}", table.current()),
    };
    let list = List::new().process(black_box("A"), 1, 1);
    let laid = SoundTable::lay_out_in(black_box([0; 200]), Table::builder(&list));
    let _ = writeln!(out, "laid: {:?}", laid.map(|table| table.current()));
}

#[cfg(feature = "why")]
fn why(table: &Lent<'_>, out: &mut Out) {
    let _ = writeln!(out, "why: {:?}", table.why());
    if let Some(fault) = elvomike_monitor::why::why(&black_box([1; 80])[..]) {
        let _ = writeln!(out, "fault: {fault} {:?} {}", fault.of(), fault.text());
    }
}

#[cfg(feature = "screen")]
fn screen(table: &Lent<'_>, out: &mut Out) {
    use elvomike_monitor::screen::{fill, Summary};
    let list = &mut [Summary::default(); 1];
    let _ = writeln!(out, "filled: {:?}", fill(table.words(), list));
    if let Ok(screen) = table.screen() {
        for one in screen.summaries() {
            let (process, state, queue, sent) = (one.process(), one.state(), one.queue, one.sent);
            let _ = writeln!(out, "process {process}: {state:?} {queue} {sent}");
        }
    }
}

#[cfg(feature = "compare")]
fn compare(out: &mut Out) {
    use elvomike_monitor::compare::{after, differences, front, lines, rest};
    let (one, two) = (black_box(&b"A\nB\n"[..]), black_box(&b"A\nC\nD"[..]));
    let _ = writeln!(out, "differ: {:?}", differences(one, two, &mut [0; 3]));
    let _ = writeln!(
        out,
        "rest: {:?} {:?} {}",
        rest(one, two),
        front(one, two),
        lines(two)
    );
    let _ = writeln!(out, "after: {:?}", after(two, black_box(1)));
}

#[cfg(feature = "tape")]
fn tape(out: &mut Out) {
    use elvomike_monitor::tape::{read, Entry};
    let table = black_box([Entry::Normal(65).word(), Entry::Skip.word()]);
    let taken = read(black_box(9), black_box(&[0, 0x81]), &table, 0, &mut [0; 4]);
    let _ = match taken {
        Ok(taken) => writeln!(out, "tape: {taken:?}"),
        Err(refusal) => writeln!(out, "tape: {refusal}"),
    };
}

#[cfg(feature = "delays")]
fn delays(out: &mut Out) {
    use elvomike_monitor::delays::{leave, left, make, queue_words, shown, tick, wait};
    let (queue, room) = (&mut black_box([0; queue_words(3)]), &mut [0; 3]);
    let (process, delay) = (black_box(2), black_box(1));
    let made = (
        make(queue, 3),
        wait(queue, process, delay),
        wait(queue, 1, delay),
        leave(queue, 1),
    );
    let _ = writeln!(
        out,
        "delays: {made:?} {:?} {}",
        left(queue, process),
        shown(queue)
    );
    let _ = match tick(queue, room) {
        Ok(woken) => writeln!(out, "woken: {woken:?}"),
        Err(refusal) => writeln!(out, "woken: {refusal}"),
    };
}
