//! What the crate tells without an archive: the lines of a log, and a table's station.

use core::fmt::Write;
use core::hint::black_box;

use elvomike_monitor::calls::Start;
use elvomike_monitor::log::{Line, BYTES_MOST};
use elvomike_monitor::{List, Message, Process, Standing};

use crate::asked::Lent;
use crate::Out;

/// Lines of a log, written, read and written into a lent array.
pub(crate) fn log(table: &mut Lent<'_>, out: &mut Out) {
    let list = List::new().process(black_box("A"), 1, 1);
    let process = Process(black_box(1));
    for entry in list.entries() {
        let _ = writeln!(out, "entry: {entry:?} {:?}", Standing::Held.number());
    }
    for line in Line::layout(&list) {
        let _ = writeln!(out, "{line}");
    }
    let (call, mut room) = (Start(process), black_box([b'0'; BYTES_MOST]));
    let answer = table.call(call);
    let _ = writeln!(out, "{}", Line::call(call));
    let _ = writeln!(out, "{}", Line::answer(&answer, table.current()));
    let listed = table.list(process);
    let _ = writeln!(out, "{}", Line::list(process));
    let _ = writeln!(out, "{}", Line::answer(&listed, table.current()));
    for row in listed.iter().flatten() {
        let _ = writeln!(out, "{}", Line::row(&row));
    }
    let told = Line::read(room.get(..black_box(26)).unwrap_or(&[]));
    let written = Line::NoCall.write(&mut room);
    let _ = writeln!(out, "log: {told:?} {written:?}");
}

/// What C has as macros, and the table as its `Debug` tells it.
pub(crate) fn station(table: &Lent<'_>, out: &mut Out) {
    for process in table.processes().chain(table.running()) {
        let of_process = (table.name(process), table.priority(process));
        let awaited = (table.awaited_buffer(process), table.awaited_device(process));
        let (own, events) = (table.own_buffers(process), table.events(process));
        let counts = (own.count(), events.count());
        let _ = writeln!(out, "{process}: {of_process:?} {awaited:?} {counts:?}");
    }
    for buffer in table.buffers().chain(table.open()) {
        let ends = (table.owner(buffer), table.receiver(buffer));
        let text = table.message(buffer).and_then(|message| message.as_text());
        let _ = writeln!(out, "{}: {ends:?} {text:?}", buffer.number());
    }
    let kept = table.kept_interrupts().count();
    let _ = writeln!(out, "kept: {kept} {:?}", Message::text(black_box("page 7")));
    let _ = writeln!(out, "{table:?}");
}
