//! A station whose two spellers share one dictionary: a semaphore lets one of them in at a time, and the other waits its
//! turn. A reader sends them words and hears back. Each process is a function that makes its next call whenever it is
//! current; the world around them (the dictionary's pages, an operator) acts when none is. It ends by a panic if two ever
//! had the dictionary at once, or if the semaphore is not open again at the end. With --log FILE it writes what was
//! called and answered as a log, which `./explain --semaphores 1` tells. Assumes the archive.
//!
//!     cargo run --manifest-path bindings/rust/Cargo.toml --example dictionary

#[cfg(not(archive))]
fn main() {
    println!("The crate was built without the archive.");
}

#[cfg(archive)]
fn main() -> Result<(), elvomike_monitor::Refusal> {
    dictionary::run()
}

#[cfg(archive)]
mod logfile;

#[cfg(archive)]
mod dictionary {
    use super::logfile::LogFile;
    use elvomike_monitor::calls::{
        self, Lower, Raise, SendAnswer, SendMessage, WaitEvent, WaitInterrupt,
    };
    use elvomike_monitor::{
        Buffer, Builder, Call, Device, EventWait, InterruptWait, List, Message,
    };
    use elvomike_monitor::{Process, Reason, Refusal, Semaphore, SemaphoreWait, Table};

    const READER: Process = Process(1);
    const ANN: Process = Process(2);
    const BEN: Process = Process(3);
    const NAME: [&str; 4] = ["Nobody", "The reader", "Ann", "Ben"];
    /// The semaphore that guards the dictionary, and the device that turns its pages.
    const DICTIONARY: Semaphore = Semaphore(1);
    const PAGES: Device = Device(0);
    const BUFFERS: u16 = 4;
    const WORDS: [&str; BUFFERS as usize] = ["teh", "recieves", "cat", "adress"];
    const RIGHT: [&str; BUFFERS as usize] = ["the", "receives", "cat", "address"];

    const LIST: List = List::new()
        .process("READ", 3, BUFFERS)
        .process("ANN", 2, 0)
        .process("BEN", 2, 0);
    /// By the counter one speller may go in.
    const LAID_OUT: Builder<'_> = Table::builder(&LIST).counters(&[1]);
    const _: () = assert!(LAID_OUT.fault().is_none());

    fn name(process: Process) -> &'static str {
        NAME[usize::from(process.number())]
    }

    /// A speller's place among the spellers.
    fn place(speller: Process) -> usize {
        usize::from(speller.number() - ANN.number())
    }

    /// What a speller does next; a word goes by its place in the list.
    #[derive(Clone, Copy)]
    enum Step {
        Listens,
        Wants,
        Queues,
        Opens,
        Reads,
        Answers,
    }

    /// A speller: its next step, the buffer it holds, and the word in it.
    #[derive(Clone, Copy)]
    struct Speller {
        step: Step,
        held: Option<Buffer>,
        word: u16,
    }

    struct Station {
        table: Table<[u16; LAID_OUT.table_words()]>,
        log: LogFile,
        sent: u16,
        heard: usize,
        spellers: [Speller; 2],
        holder: Option<Process>,
        stopped: bool,
    }

    impl Station {
        /// Does a call, logs it, and gives what it gives.
        fn call<C: Call + Copy>(&mut self, call: C) -> Result<C::Gives, Refusal> {
            let answer = self.table.call(call);
            self.log.called(call, &answer, self.table.current());
            answer
        }

        fn counter(&self) -> i16 {
            self.table.counter(DICTIONARY).unwrap_or(0)
        }

        /// The reader: sends a word to each speller in turn, and then hears what they make of them.
        fn reader(&mut self) -> Result<(), Refusal> {
            if let Some(word) = WORDS.get(usize::from(self.sent)) {
                let to = if self.sent % 2 == 0 { ANN } else { BEN };
                println!("{} sends \"{word}\" to {}.", name(READER), name(to));
                let words = Message([self.sent, 0, 0, 0]);
                self.sent += 1;
                self.call(SendMessage { to, words })?;
            } else if let EventWait::Answer { words, .. } = self.call(WaitEvent { delay: 0 })? {
                self.heard += 1;
                let right = RIGHT[usize::from(words[0])];
                println!("{} hears back: \"{right}\".", name(READER));
            }
            Ok(())
        }

        fn open_dictionary(&mut self, me: Process) -> Result<(), Refusal> {
            assert_eq!(self.holder, None, "Two have the dictionary at once.");
            self.holder = Some(me);
            println!("{} opens the dictionary and waits for the page.", name(me));
            let (device, delay) = (PAGES, 0);
            let wait = self.call(WaitInterrupt { device, delay })?;
            assert_eq!(wait, InterruptWait::Waits);
            Ok(())
        }

        fn close_dictionary(&mut self, me: Process) -> Result<(), Refusal> {
            println!("{} finds it and closes the dictionary.", name(me));
            self.holder = None;
            let semaphore = DICTIONARY;
            self.call(Raise { semaphore })
        }

        /// Asks for the dictionary: the speller has it at once, or queues for it.
        fn want(&mut self, me: Process, word: u16) -> Result<Step, Refusal> {
            let word = WORDS[usize::from(word)];
            println!("{} wants to look up \"{word}\".", name(me));
            let semaphore = DICTIONARY;
            Ok(match self.call(Lower { semaphore })? {
                SemaphoreWait::Taken => Step::Opens,
                SemaphoreWait::Waits => Step::Queues,
            })
        }

        /// A speller: takes a word, looks it up when the dictionary is free, and answers.
        fn speller(&mut self, me: Process) -> Result<(), Refusal> {
            let mut speller = self.spellers[place(me)];
            speller.step = match speller.step {
                Step::Listens => match self.call(WaitEvent { delay: 0 })? {
                    EventWait::Message { buffer, words } => {
                        (speller.held, speller.word) = (Some(buffer), words[0]);
                        Step::Wants
                    }
                    _ => Step::Listens,
                },
                Step::Wants => self.want(me, speller.word)?,
                // woken by a raise it has the dictionary, and does not ask again; started anew it has to
                Step::Queues => match self.table.reason(me) {
                    Reason::Raise => Step::Opens,
                    _ => Step::Wants,
                },
                Step::Opens => {
                    self.open_dictionary(me)?;
                    Step::Reads
                }
                Step::Reads => {
                    self.close_dictionary(me)?;
                    Step::Answers
                }
                Step::Answers => {
                    let words = Message([speller.word, 0, 0, 0]);
                    if let Some(buffer) = speller.held.take() {
                        self.call(SendAnswer { buffer, words })?;
                    }
                    Step::Listens
                }
            };
            self.spellers[place(me)] = speller;
            Ok(())
        }

        /// What the world does when no process runs: a page is turned; but the first time somebody waits for the dictionary
        /// an operator stops the waiter, which gives the semaphore its one back, and starts it again. False when there is
        /// nothing left to do.
        fn world(&mut self) -> Result<bool, Refusal> {
            let waiter = self.table.waiters(DICTIONARY).next();
            match waiter.filter(|_| !self.stopped) {
                Some(waiter) => {
                    self.stopped = true;
                    let (name, counter) = (name(waiter), self.counter());
                    print!("  ({name} waits for the dictionary: its counter is {counter}.");
                    self.call(calls::Stop(waiter))?;
                    println!(" An operator stops {name}: it is {}.)", self.counter());
                    self.call(calls::Start(waiter))?;
                }
                None if self.table.waiter(PAGES).is_none() => return Ok(false),
                None => {
                    println!("  (The page is turned.)");
                    self.call(calls::Interrupt { device: PAGES })?;
                }
            }
            Ok(true)
        }
    }

    /// Lays out the station, starts everyone, and goes on while anything happens.
    pub fn run() -> Result<(), Refusal> {
        let speller = Speller {
            step: Step::Listens,
            held: None,
            word: 0,
        };
        let mut station = Station {
            table: LAID_OUT.lay_out_in([0; LAID_OUT.table_words()])?,
            log: LogFile::begin(),
            sent: 0,
            heard: 0,
            spellers: [speller; 2],
            holder: None,
            stopped: false,
        };
        station.log.laid_out(&LIST);
        for process in [READER, ANN, BEN] {
            station.call(calls::Start(process))?;
        }
        let mut happens = true;
        while happens {
            match station.table.current() {
                Some(READER) => station.reader()?,
                Some(speller) => station.speller(speller)?,
                None => happens = station.world()?,
            }
        }
        station.log.end();
        let end = (station.heard, station.holder, station.counter());
        let free = (WORDS.len(), None, 1);
        assert_eq!(end, free, "The dictionary is not free again.");
        let heard = station.heard;
        println!("At the end {heard} words are looked up, and the dictionary is free.");
        Ok(())
    }
}
