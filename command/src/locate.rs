//! `fuavelino where`: reads both files frame by frame, and tells where they differ.

use crate::args::Where;
use crate::difference::{differences, Difference};
use crate::frames::{together, Frame, Source};
use crate::input::Stored;
use crate::opened::{names, output, progress, Count, Opened, Subject};
use crate::output::Output;
use crate::picture;
use crate::places::{places, End, Places};
use crate::progress::{say, Progress};
use crate::stop::{Fault, Stop, DIFFERS, FAULT, PASSED};
use std::io;

/// Tells where the files differ, and gives the status that the command ends with.
pub fn locate(asked: &Where) -> Result<u8, Stop> {
    let mut out = output(&asked.common, || unfinished(asked))?;
    let report = report(asked);
    let progress = progress(&asked.common);
    let mut walk = Walk { asked, report, out: &mut out, progress, frames: 0, differing: 0 };
    let walked = walk.whole();
    let status = walk.end(walked)?;
    out.close()?;
    Ok(status)
}

fn report(asked: &Where) -> Box<dyn Places> {
    places(asked.common.form, asked.map.is_some())
}

/// What stands in the report's file until the run has ended.
fn unfinished(asked: &Where) -> io::Result<Vec<u8>> {
    let mut text = Vec::new();
    let mut report = report(asked);
    report.begin(&mut text, &Subject::unknown(&asked.common))?;
    report.end(&mut text, &End { frames: 0, differing: 0, fault: Some(&Fault::unfinished()), status: FAULT })?;
    Ok(text)
}

/// The walk over all frames.
struct Walk<'a> {
    asked: &'a Where,
    report: Box<dyn Places>,
    out: &'a mut Output,
    progress: Progress,
    frames: u64,
    differing: u64,
}

impl Walk<'_> {
    /// Begins the report, and walks where there is something to walk over.
    fn whole(&mut self) -> Result<(), Stop> {
        let (report, common) = (&mut self.report, &self.asked.common);
        let opened = Opened::new(common, |_| Ok(()));
        self.out.write(|to| report.begin(to, &opened.subject(common)))?;
        let sources = opened.sources(common)?;
        self.asked.map.as_deref().map_or(Ok(()), picture::prepare)?;
        let walked = if sources[0].format.wide() { self.walk::<u16>(sources) } else { self.walk::<u8>(sources) };
        self.progress.clear();
        walked
    }

    /// Closes the report, whatever ended the walk, unless it could not be written.
    fn end(&mut self, walked: Result<(), Stop>) -> Result<u8, Stop> {
        let fault = match walked {
            Ok(()) => None,
            Err(Stop::Fault(fault)) => Some(fault),
            Err(stop) => return Err(stop),
        };
        let status = match (&fault, self.differing) {
            (Some(_), _) => FAULT,
            (None, 0) => PASSED,
            (None, _) => DIFFERS,
        };
        if let Some(fault) = &fault {
            say(&fault.message);
        }
        let end = End { frames: self.frames, differing: self.differing, fault: fault.as_ref(), status };
        let report = &mut self.report;
        self.out.write(|to| report.end(to, &end))?;
        Ok(status)
    }

    fn walk<T: Stored>(&mut self, mut sources: Vec<Source>) -> Result<(), Stop> {
        let format = sources[0].format;
        let shapes = format.shapes();
        let names = names(&sources);
        let count = Count::new(&self.asked.common, &names);
        let mut pair = [Frame::<T>::new(&format), Frame::new(&format)];
        while together(&mut sources, &mut pair)? {
            count.another(self.frames)?;
            let found = differences(&pair, &shapes);
            self.tell(&found.map_err(|refused| refused.of_files(self.frames, &names, &format))?)?;
        }
        Ok(count.end(self.frames)?)
    }

    /// Reports a frame where it differs, and only then makes its pictures: what is found is told, whatever becomes of them.
    fn tell(&mut self, found: &[Difference]) -> Result<(), Stop> {
        let frame = self.frames;
        self.frames += 1;
        if !found.is_empty() {
            self.differing += 1;
            let report = &mut self.report;
            self.out.write(|to| report.frame(to, frame, found))?;
            if let Some(folder) = &self.asked.map {
                found.iter().try_for_each(|difference| picture::write(folder, frame, difference))?;
            }
        }
        self.progress.at(self.frames);
        Ok(())
    }
}
