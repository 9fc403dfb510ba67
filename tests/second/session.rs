//! The whole of `station` on lines: settings first, then the lines of one controller.

use crate::controller::Controller;
use crate::line::{read, write_refusal, Message, Settings, CLOSED, SETTINGS, UNENDED};
use crate::vote::Decide;

pub struct Station {
    pub settings: Settings,
    /// How many lines of the settings were read.
    settled: u32,
    pub controller: Option<Controller>,
    /// Settings were refused: number of the line and reason.
    pub refused: Option<(u32, u8)>,
    decide: Decide,
}

impl Station {
    pub fn new(decide: Decide) -> Station {
        Station { settings: Settings::default(), settled: 0, controller: None, refused: None, decide }
    }

    /// Whether all settings were read. Their number is known once the first line was.
    pub fn is_set(&self) -> bool {
        self.settled > 0 && self.settled == self.settings.lines()
    }

    /// Takes a line, its line feed included where there is one, and writes the answers.
    pub fn take(&mut self, line: &[u8], out: &mut Vec<u8>) {
        if self.refused.is_some() {
            return;
        }
        if !self.is_set() {
            return self.take_setting(line, out);
        }
        if let Err(number) = self.answer(line, out) {
            write_refusal(number, out);
        }
    }

    /// Takes the end of input, with the bytes after the last line feed.
    pub fn end(&mut self, rest: &[u8], out: &mut Vec<u8>) {
        if !rest.is_empty() {
            self.take(rest, out);
        }
        if !self.is_set() && self.refused.is_none() {
            self.refuse_settings(UNENDED, out);
        }
    }

    fn take_setting(&mut self, line: &[u8], out: &mut Vec<u8>) {
        match self.settings.read(self.settled + 1, line) {
            Ok(()) => self.settled += 1,
            Err(reason) => self.refuse_settings(reason, out),
        }
    }

    fn refuse_settings(&mut self, reason: u8, out: &mut Vec<u8>) {
        self.refused = Some((self.settled + 1, reason));
        write_refusal(SETTINGS, out);
    }

    fn answer(&mut self, line: &[u8], out: &mut Vec<u8>) -> Result<(), u8> {
        let message = read(&self.settings, line)?;
        if let Message::B { own, floor } = message {
            self.controller = Some(Controller::start(&self.settings, self.decide, own, floor));
            return Ok(());
        }
        match &mut self.controller {
            Some(controller) => controller.step(&self.settings, &message, out),
            None => Err(CLOSED),
        }
    }
}
