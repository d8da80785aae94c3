//! A small station: a reader, a speller, a screen and a printer pass words to one another through the monitor, and
//! say what they do. Each process is a function that makes its next call whenever it is current; the world around
//! them (keys, the printer's paper, the clock, an operator) acts when none is. With --log FILE it writes what was called and answered as a log, which
//! `./explain` tells. Assumes the archive.
//!
//!     cargo run --manifest-path bindings/rust/Cargo.toml --example station

#[cfg(not(archive))]
fn main() {
    println!("The crate was built without the archive.");
}

#[cfg(archive)]
fn main() -> Result<(), elvomike_monitor::Refusal> {
    station::run()
}

#[cfg(archive)]
mod logfile;

#[cfg(archive)]
mod station {
    use super::logfile::LogFile;
    use elvomike_monitor::calls::{
        self, SendAnswer, SendMessage, WaitAnswer, WaitEvent, WaitInterrupt,
    };
    use elvomike_monitor::{AnswerWait, Buffer, Call, Device, Edition, EventWait, InterruptWait};
    use elvomike_monitor::{List, Message, Process, Reason, Refusal, Table};

    const READER: Process = Process(1);
    const SPELLER: Process = Process(2);
    const SCREEN: Process = Process(3);
    const PRINTER: Process = Process(4);
    const KEYBOARD: Device = Device(0);
    const PAPER: Device = Device(1);
    const PATIENCE: u16 = 3;
    const LIST: List = List::new()
        .process("READ", 4, 1)
        .process("SPEL", 3, 2)
        .process("SCRN", 2, 0)
        .process("PRIN", 1, 0);
    const TYPED: [&str; 3] = ["teh", "cat", "recieves"];

    /// A word of up to eight letters goes in a message.
    fn packed(letters: &str) -> Message {
        Message::text(letters).unwrap_or_default()
    }

    fn letters(words: Message) -> String {
        words.as_text().as_deref().unwrap_or("").to_string()
    }

    fn put_right(word: &str) -> &str {
        match word {
            "teh" => "the",
            "recieves" => "receives",
            right => right,
        }
    }

    enum Reading {
        Listens,
        Reads,
        Asks(Buffer),
    }

    enum Printing {
        Idle,
        Prints(Buffer),
        Moved(Buffer),
    }

    /// What the speller holds, whether it changed the word, and how many answers it waits for.
    struct Spelling {
        held: Buffer,
        changed: bool,
        answers_due: u16,
    }

    struct Station {
        table: Table<[u16; LIST.table_words()]>,
        log: LogFile,
        words_typed: usize,
        reading: Reading,
        spelling: Option<Spelling>,
        printing: Printing,
    }

    impl Station {
        /// Does a call, logs it, and gives what it gives.
        fn call<C: Call + Copy>(&mut self, call: C) -> Result<C::Gives, Refusal> {
            let answer = self.table.call(call);
            self.log.called(call, &answer, self.table.current());
            answer
        }

        fn send(&mut self, to: Process, letters: &str) -> Result<Buffer, Refusal> {
            let words = packed(letters);
            Ok(self.call(SendMessage { to, words })?.buffer)
        }

        /// Waits for a device. No interrupt is kept in the first edition, so the caller does wait.
        fn wait_interrupt(&mut self, device: Device, delay: u16) -> Result<(), Refusal> {
            let wait = self.call(WaitInterrupt { device, delay })?;
            assert_eq!(wait, InterruptWait::Waits);
            Ok(())
        }

        /// The reader: waits for a key, sends the word to the speller, and waits for what it says.
        fn reader(&mut self) -> Result<(), Refusal> {
            match self.reading {
                Reading::Listens => {
                    println!("The reader waits for a key.");
                    self.wait_interrupt(KEYBOARD, 0)?;
                    self.reading = Reading::Reads;
                }
                Reading::Reads => {
                    let word = TYPED[self.words_typed];
                    self.words_typed += 1;
                    let sent = self.send(SPELLER, word)?;
                    println!("The reader sends \"{word}\" to the speller in buffer {sent}.");
                    self.reading = Reading::Asks(sent);
                }
                Reading::Asks(buffer) => {
                    let answer = self.call(WaitAnswer { buffer })?;
                    if let AnswerWait::Answer { words, .. } = answer {
                        let verdict = if words[0] == 0 { "right" } else { "put right" };
                        println!("The reader hears back: the word was {verdict}.");
                        self.reading = Reading::Listens;
                    }
                }
            }
            Ok(())
        }

        /// The speller: puts a word right, sends it to screen and printer, and answers when both have.
        fn speller(&mut self) -> Result<(), Refusal> {
            match self.call(WaitEvent { delay: 0 })? {
                EventWait::Message { buffer, words } => {
                    let word = letters(words);
                    let right = put_right(&word);
                    println!("The speller reads \"{word}\" as \"{right}\" and passes it on.");
                    self.send(SCREEN, right)?;
                    self.send(PRINTER, right)?;
                    self.spelling = Some(Spelling {
                        held: buffer,
                        changed: right != word,
                        answers_due: 2,
                    });
                }
                EventWait::Answer { words, .. } => {
                    if words == Message::CLEANED {
                        println!("The speller is told that its listener was cleaned.");
                    }
                    self.hear()?;
                }
                EventWait::Waits => {}
            }
            Ok(())
        }

        /// An answer came; behind the last one due the reader gets its own.
        fn hear(&mut self) -> Result<(), Refusal> {
            if let Some(spelling) = &mut self.spelling {
                spelling.answers_due -= 1;
                if spelling.answers_due == 0 {
                    let buffer = spelling.held;
                    let words = Message([u16::from(spelling.changed), 0, 0, 0]);
                    self.call(SendAnswer { buffer, words })?;
                    println!("The speller answers the reader.");
                }
            }
            Ok(())
        }

        fn screen(&mut self) -> Result<(), Refusal> {
            if let EventWait::Message { buffer, words } = self.call(WaitEvent { delay: 0 })? {
                println!("The screen shows \"{}\".", letters(words));
                let words = Message::EMPTY;
                self.call(SendAnswer { buffer, words })?;
            }
            Ok(())
        }

        /// The printer: takes a word, then waits for its paper, but not for ever.
        fn printer(&mut self) -> Result<(), Refusal> {
            match self.printing {
                Printing::Idle => {
                    let event = self.call(WaitEvent { delay: 0 })?;
                    if let EventWait::Message { buffer, words } = event {
                        let word = letters(words);
                        println!("The printer prints \"{word}\" and waits for its paper to move.");
                        self.printing = Printing::Prints(buffer);
                    }
                }
                Printing::Prints(held) => {
                    self.wait_interrupt(PAPER, PATIENCE)?;
                    self.printing = Printing::Moved(held);
                }
                Printing::Moved(held) => {
                    let age = self.table.age(held);
                    match self.table.reason(PRINTER) {
                        Reason::Interrupt => println!("The printer is done."),
                        _ => println!("The printer gave up waiting: no paper moved, and the word is {age} ticks old."),
                    }
                    let (buffer, words) = (held, Message::EMPTY);
                    self.call(SendAnswer { buffer, words })?;
                    self.printing = Printing::Idle;
                }
            }
            Ok(())
        }

        /// What the world does when no process runs: the paper moves once, sticks once, and then an operator cleans
        /// the printer. False when there is nothing left to do.
        fn world(&mut self) -> Result<bool, Refusal> {
            let printing = self.table.waiter(PAPER) == Some(PRINTER);
            match (printing, self.words_typed) {
                (false, typed) if typed == TYPED.len() => return Ok(false),
                (false, typed) => {
                    println!("  (Someone types \"{}\".)", TYPED[typed]);
                    self.call(calls::Interrupt { device: KEYBOARD })?;
                }
                (true, 1) => {
                    println!("  (The paper moves.)");
                    self.call(calls::Interrupt { device: PAPER })?;
                }
                (true, 2) => {
                    println!("  (The clock ticks.)");
                    self.call(calls::Tick)?;
                }
                (true, _) => {
                    let changed = self.call(calls::Clean(PRINTER))?.changed;
                    println!("  (An operator cleans the printer: {changed} buffer changes its standing.)");
                }
            }
            Ok(true)
        }

        fn step(&mut self, current: Process) -> Result<(), Refusal> {
            match current {
                READER => self.reader(),
                SPELLER => self.speller(),
                SCREEN => self.screen(),
                _ => self.printer(),
            }
        }
    }

    /// Lays out the station, starts everyone, and goes on while anything happens.
    pub fn run() -> Result<(), Refusal> {
        let builder = Table::builder(&LIST).edition(Edition::First);
        let mut station = Station {
            table: builder.lay_out_in([0; LIST.table_words()])?,
            log: LogFile::begin(),
            words_typed: 0,
            reading: Reading::Listens,
            spelling: None,
            printing: Printing::Idle,
        };
        station.log.laid_out(&LIST);
        for process in [READER, SPELLER, SCREEN, PRINTER] {
            station.call(calls::Start(process))?;
        }
        let mut happens = true;
        while happens {
            match station.table.current() {
                Some(process) => station.step(process)?,
                None => happens = station.world()?,
            }
        }
        let listed = station.table.list(SPELLER);
        let current = station.table.current();
        station.log.listed(SPELLER, &listed, current);
        station.log.end();
        let open = listed?.len();
        println!("At the end {open} of the speller's buffers are in use.");
        Ok(())
    }
}
