//! One run of a script: the card, what is set for the calls that follow, and the answer to each line.

use crate::asked::{self, Settings};
use crate::card::{Card, LIMITS};
use crate::stand_ins::{Paint, Stage};
use crate::trouble::Trouble;
use crate::words::Words;
use svgtypes::Reading;

type Answer = Result<String, Trouble>;

pub struct Session {
    card: Option<Card>,
    sizes: [usize; 4],
    settings: Settings,
    stage: Stage,
    paint: Paint,
    room: [usize; 4],
    calls: usize,
}

impl Session {
    pub fn new() -> Self {
        Self {
            card: None,
            sizes: LIMITS,
            settings: Settings { dpi: 96.0, size: 12.0, width: 100.0, height: 100.0, diagonal: 100.0 },
            stage: Stage::All,
            paint: Paint::Table(Vec::new()),
            room: [usize::MAX; 4],
            calls: 0,
        }
    }

    /// Runs one line, and answers what it prints.
    pub fn answer(&mut self, line: &[u8]) -> String {
        match self.call(line) {
            Ok(said) => {
                self.calls += 1;
                said
            }
            Err(trouble) => trouble.said().to_string(),
        }
    }

    /// The last line: usvg refuses nothing.
    pub fn last(&self) -> String {
        format!("{0} calls, {0} accepted, 0 refused", self.calls)
    }

    fn call(&mut self, line: &[u8]) -> Answer {
        let words = &mut Words::of(line)?;
        match words.bare()?.as_str() {
            "tables" => self.tables(words),
            "begin" => self.begin(words),
            "open" => self.open(words),
            "give" => self.give(words),
            "write" => self.write(words),
            "close" => self.close(words),
            "seal" => self.seal(words),
            "reopen" => self.reopen(words),
            "settings" => self.set(words),
            "stage" => self.set_stage(words),
            "paint" => self.set_paint(words),
            "room" => self.set_room(words),
            "collect" => self.collect(words),
            "rotations" => self.rotations(words),
            "style" => self.style(words),
            "texts" => self.texts(words),
            "mode" => self.mode(words),
            "admit" | "poke" => Err(Trouble::Unsupported),
            _ => Err(Trouble::Unreadable),
        }
    }

    fn draft(&mut self) -> Result<&mut Card, Trouble> {
        self.card.as_mut().filter(|card| !card.sealed).ok_or(Trouble::NotNow)
    }

    fn sealed(&self) -> Result<&Card, Trouble> {
        self.card.as_ref().filter(|card| card.sealed).ok_or(Trouble::NotNow)
    }

    // Each of these reads the rest of its line, and only then looks at the card.

    fn tables(&mut self, words: &mut Words) -> Answer {
        let lent = [words.number()?, words.number()?, words.number()?, words.number()?];
        words.end()?;
        self.sizes = std::array::from_fn(|table| lent[table].min(LIMITS[table]));
        self.card = None;
        Ok("tables".to_string())
    }

    fn begin(&mut self, words: &mut Words) -> Answer {
        words.end()?;
        self.card = Some(Card::begin(self.sizes)?);
        Ok("begun".to_string())
    }

    fn open(&mut self, words: &mut Words) -> Answer {
        let tag = words.tag()?;
        words.end()?;
        Ok(format!("opened {}", self.draft()?.open(tag)?))
    }

    fn give(&mut self, words: &mut Words) -> Answer {
        let (name, value, (single, plain)) = (words.name()?, words.text()?, words.marks()?);
        let reading = Reading { lengths: words.lengths()?, single, plain, place: (0, 0) };
        Ok(format!("given {}", self.draft()?.give(name, value, reading)?))
    }

    fn write(&mut self, words: &mut Words) -> Answer {
        let text = words.text()?;
        words.end()?;
        Ok(format!("wrote {}", self.draft()?.write(text)?))
    }

    fn close(&mut self, words: &mut Words) -> Answer {
        words.end()?;
        Ok(format!("closed, open {}", self.draft()?.close()?))
    }

    fn seal(&mut self, words: &mut Words) -> Answer {
        words.end()?;
        self.draft()?.seal()?;
        Ok("sealed".to_string())
    }

    fn reopen(&mut self, words: &mut Words) -> Answer {
        words.end()?;
        self.sealed()?;
        self.card.as_mut().unwrap().sealed = false;
        Ok("reopened".to_string())
    }

    fn set(&mut self, words: &mut Words) -> Answer {
        let settings = Settings {
            dpi: words.float()?,
            size: words.float()?,
            width: words.float()?,
            height: words.float()?,
            diagonal: words.float()?,
        };
        words.end()?;
        self.settings = settings;
        Ok("settings".to_string())
    }

    fn set_stage(&mut self, words: &mut Words) -> Answer {
        let stage = match words.bare()?.as_str() {
            "all" => Stage::All,
            "table" => {
                let table = words.text()?;
                words.end()?;
                Stage::table(&table)?
            }
            "language" => Stage::Language(words.text()?),
            _ => return Err(Trouble::Unreadable),
        };
        words.end()?;
        self.stage = stage;
        Ok("stage".to_string())
    }

    fn set_paint(&mut self, words: &mut Words) -> Answer {
        let paint = match words.bare()?.as_str() {
            "none" => Paint::Table(Vec::new()),
            "table" => {
                let table = words.text()?;
                words.end()?;
                Paint::table(&table)?
            }
            "clip" => Paint::Clip,
            _ => return Err(Trouble::Unreadable),
        };
        words.end()?;
        self.paint = paint;
        Ok("paint".to_string())
    }

    fn set_room(&mut self, words: &mut Words) -> Answer {
        let room = [words.number()?, words.number()?, words.number()?, words.number()?];
        words.end()?;
        self.room = room;
        Ok("room".to_string())
    }

    fn collect(&mut self, words: &mut Words) -> Answer {
        let number = words.number()?;
        words.end()?;
        let collected = asked::collect(self.sealed()?, number, &self.settings, &self.stage)?;
        let mut fits = collected.needs().into_iter().zip(self.room);
        if fits.any(|(need, room)| need > room) {
            return Err(Trouble::Unsupported);
        }
        Ok(collected.said())
    }

    fn rotations(&mut self, words: &mut Words) -> Answer {
        let (number, room) = (words.number()?, words.number()?);
        words.end()?;
        let angles = asked::rotations(self.sealed()?, number, &self.settings)?;
        listed("rotations", angles, room)
    }

    fn style(&mut self, words: &mut Words) -> Answer {
        let (number, room) = (words.number()?, words.number()?);
        words.end()?;
        let span = asked::style(self.sealed()?, number, &self.settings, &self.paint)?;
        if span.baseline_shift.len() > room {
            return Err(Trouble::Unsupported);
        }
        Ok(asked::said_style(number, &span, &self.paint))
    }

    /// Not a call of the script: usvg's writing mode of an element, for comparisons with the model.
    fn mode(&mut self, words: &mut Words) -> Answer {
        let number = words.number()?;
        words.end()?;
        Ok(format!("mode {}", asked::mode(self.sealed()?, number, &self.settings)?))
    }

    fn texts(&mut self, words: &mut Words) -> Answer {
        let room = words.number()?;
        words.end()?;
        listed("texts", asked::texts(self.sealed()?), room)
    }
}

fn listed<T: std::fmt::Display>(word: &str, entries: Vec<T>, room: usize) -> Answer {
    if entries.len() > room {
        return Err(Trouble::Unsupported);
    }
    Ok(entries.iter().fold(word.to_string(), |said, entry| format!("{said} {entry}")))
}
