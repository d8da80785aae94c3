//! The log of an example station, where its command line has --log FILE: the layout, each call, and behind it the answer.
//! `./explain` tells it, and `./compare --to-monitor` holds the station to it.

use std::fs::File;
use std::io::{BufWriter, Write};
use std::process::exit;

use elvomike_monitor::log::Line;
use elvomike_monitor::{Call, List, Listing, Process, Refusal};

/// The file, none where there is no --log.
pub struct LogFile {
    file: Option<(String, BufWriter<File>)>,
}

impl LogFile {
    /// Reads the command line, and begins the log that it names.
    pub fn begin() -> LogFile {
        let words: Vec<String> = std::env::args().skip(1).collect();
        let name = match &words[..] {
            [] => return LogFile { file: None },
            [option, name] if option == "--log" => name.clone(),
            _ => {
                eprintln!("usage: [--log FILE]");
                exit(2);
            }
        };
        match File::create(&name) {
            Ok(file) => LogFile {
                file: Some((name, BufWriter::new(file))),
            },
            Err(error) => trouble(&name, &error),
        }
    }

    /// A line for each process of the list that was laid out.
    pub fn laid_out(&mut self, list: &List) {
        for line in Line::layout(list) {
            self.put(line);
        }
    }

    /// A call that is done or refused, its answer, and who is current after it.
    pub fn called<C: Call>(
        &mut self,
        call: C,
        answer: &Result<C::Gives, Refusal>,
        current: Option<Process>,
    ) {
        self.put(Line::call(call));
        self.put(Line::answer(answer, current));
    }

    /// A listing of that process's buffers, which not every example asks for.
    #[allow(dead_code)]
    pub fn listed(
        &mut self,
        process: Process,
        answer: &Result<Listing, Refusal>,
        current: Option<Process>,
    ) {
        self.put(Line::list(process));
        self.put(Line::answer(answer, current));
        for row in answer.iter().flatten() {
            self.put(Line::row(&row));
        }
    }

    /// The log is whole, or its file couldn't be written.
    pub fn end(&mut self) {
        if let Some((name, file)) = &mut self.file {
            if let Err(error) = file.flush() {
                trouble(name, &error);
            }
        }
    }

    fn put(&mut self, line: Line) {
        if let Some((name, file)) = &mut self.file {
            if let Err(error) = writeln!(file, "{line}") {
                trouble(name, &error);
            }
        }
    }
}

fn trouble(name: &str, error: &std::io::Error) -> ! {
    eprintln!("The log '{name}' can't be written: {error}.");
    exit(2);
}
