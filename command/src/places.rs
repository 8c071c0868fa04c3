//! The report of where two videos differ: a table for people, or one JSON object.

use crate::args::Form;
use crate::difference::Difference;
use crate::json;
use crate::opened::Subject;
use crate::picture;
use crate::stop::{Fault, PASSED};
use crate::table;
use crate::writer::Writer;
use fuavelino::TILE_SIDE;
use std::io::{self, Write};

/// How it ended.
pub struct End<'a> {
    /// How many frames were compared, and how many of them differ.
    pub frames: u64,
    pub differing: u64,
    pub fault: Option<&'a Fault>,
    pub status: u8,
}

pub trait Places {
    fn begin(&mut self, out: &mut dyn Write, subject: &Subject<'_>) -> io::Result<()>;
    /// A frame that differs.
    fn frame(&mut self, out: &mut dyn Write, number: u64, found: &[Difference]) -> io::Result<()>;
    fn end(&mut self, out: &mut dyn Write, end: &End<'_>) -> io::Result<()>;
}

/// A report in its form; `pictures` tells whether there are pictures to be named.
pub fn places(form: Form, pictures: bool) -> Box<dyn Places> {
    match form {
        Form::Json => Box::new(Json { pictures, json: Writer::default() }),
        _ => Box::new(Table { begun: false }),
    }
}

struct Table {
    /// Whether the columns have their heads.
    begun: bool,
}

impl Places for Table {
    fn begin(&mut self, out: &mut dyn Write, subject: &Subject<'_>) -> io::Result<()> {
        table::head(out, subject, None)
    }

    fn frame(&mut self, out: &mut dyn Write, number: u64, found: &[Difference]) -> io::Result<()> {
        if !self.begun {
            self.begun = true;
            heads(out)?;
        }
        found.iter().try_for_each(|difference| writeln!(out, "{}", row(&cells(number, difference))))
    }

    fn end(&mut self, out: &mut dyn Write, end: &End<'_>) -> io::Result<()> {
        if self.begun {
            writeln!(
                out,
                "\nFrames, rows and columns are counted from 0. A tile has {0} by {0} samples, fewer at the edges.",
                TILE_SIDE
            )?;
        }
        let frames = if end.frames == 1 { "frame" } else { "frames" };
        let differ = match end.differing {
            0 => "none differs".to_string(),
            1 => "1 differs".to_string(),
            more => format!("{} differ", more),
        };
        let counts = format!("{} {} compared, {}", end.frames, frames, differ);
        match end.fault {
            Some(fault) => writeln!(out, "NOT ENDED: {}; {}", counts, fault.message),
            None if end.status == PASSED => writeln!(out, "identical: {}", counts),
            None => writeln!(out, "DIFFERENT: {}", counts),
        }
    }
}

/// The columns' heads; what stands above them is as wide as they are together.
fn heads(out: &mut dyn Write) -> io::Result<()> {
    writeln!(out, "{:>43}{:>17}{:>14}{:>14}", "first difference", "tiles", "worst tile", "from sample")?;
    let heads = "frame plane row column original decoded differ of row column row column sq_err";
    writeln!(out, "{}", row(&heads.split(' ').map(String::from).collect::<Vec<_>>()))
}

fn cells(frame: u64, found: &Difference) -> Vec<String> {
    let (first, [original, decoded], worst) = (found.first, found.samples, found.worst);
    let mut cells = vec![frame.to_string(), found.plane.to_string()];
    cells.extend([first.row, first.column].map(|at| at.to_string()));
    cells.extend([original, decoded].map(|sample| sample.to_string()));
    cells.extend([found.tiles(), found.map.errors().len()].map(|count| count.to_string()));
    cells.extend([worst.row, worst.column].map(|at| at.to_string()));
    cells.extend([worst.row, worst.column].map(|at| (at * TILE_SIDE).to_string()));
    cells.push(worst.error.to_string());
    cells
}

fn row(cells: &[String]) -> String {
    const WIDTHS: [usize; 13] = [6, 6, 7, 7, 9, 8, 9, 8, 7, 7, 7, 7, 11];
    cells.iter().zip(WIDTHS).map(|(cell, width)| format!("{:>width$}", cell, width = width)).collect()
}

struct Json {
    pictures: bool,
    json: Writer,
}

impl Places for Json {
    fn begin(&mut self, out: &mut dyn Write, subject: &Subject<'_>) -> io::Result<()> {
        json::head(&mut self.json, subject);
        json::notes(&mut self.json, subject);
        self.json.name("frames").list().lines();
        self.out(out)
    }

    fn frame(&mut self, out: &mut dyn Write, number: u64, found: &[Difference]) -> io::Result<()> {
        self.json.object().field("frame", number).name("planes").list();
        for difference in found {
            let picture = Some(picture::name(number, difference.plane)).filter(|_| self.pictures);
            plane(&mut self.json, difference, picture.as_deref());
        }
        self.json.close().close();
        self.out(out)
    }

    fn end(&mut self, out: &mut dyn Write, end: &End<'_>) -> io::Result<()> {
        let json = self.json.close();
        json.field("compared", end.frames).field("differing", end.differing);
        json::error(json, end.fault);
        json.field("status", u64::from(end.status)).field("identical", end.status == PASSED).close();
        self.out(out)?;
        writeln!(out)
    }
}

impl Json {
    /// Lets out what was written.
    fn out(&mut self, out: &mut dyn Write) -> io::Result<()> {
        out.write_all(self.json.take().as_bytes())
    }
}

fn plane(json: &mut Writer, found: &Difference, picture: Option<&str>) {
    let (first, worst) = (found.first, found.worst);
    json.object().field("plane", found.plane);
    json.name("first").object().field("row", first.row as u64).field("column", first.column as u64);
    json.field("original", u64::from(found.samples[0])).field("decoded", u64::from(found.samples[1])).close();
    json.name("tiles").object().field("differ", found.tiles() as u64);
    json.field("of", found.map.errors().len() as u64).close();
    json.name("worst").object().field("tile_row", worst.row as u64).field("tile_column", worst.column as u64);
    json.field("row", (worst.row * TILE_SIDE) as u64).field("column", (worst.column * TILE_SIDE) as u64);
    json.field("sq_err", worst.error).close();
    json.field("picture", picture).close();
}
