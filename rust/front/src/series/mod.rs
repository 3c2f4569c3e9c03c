//! `wurgalm series`: the first terms of the sequences of a system, which of them are free, and partial sums as a
//! picture.

mod asked;
pub mod clock;
pub mod floats;
pub mod fractions;
pub mod integers;
mod limbs;
pub mod model;
pub mod plot;
pub mod range;
pub mod solver;
mod text;

use crate::command::{is_differential, last, named, Arguments, End, FileName, Outcome};
use crate::run::{consequence, counted, refused, system_of};
use crate::{files, output};
use asked::{column, Asked, Start};
use clock::{Clock, Late};
use fractions::Fraction;
use model::{Kind, Lacking, Model, Unrun};
use plot::Picture;
use range::{Range, Value};
use text::{Sink, Writer};
use wurgalm::{Refusal, System};

pub fn series(mut arguments: Arguments) -> Outcome {
    let is_differential = is_differential(&mut arguments, last);
    let asked = Asked::new(&mut arguments, is_differential)?;
    let file = arguments.files(1, 1)?.remove(0);
    if let Some(plot) = &asked.plot {
        files::target(plot, &[&file])?;
    }
    let input = system_of(&file, is_differential)?;
    let clock = Clock::new(asked.limit);
    Answer::new(&asked, input, &file, &clock)?.write(&mut output::write)?;
    Ok(Vec::new())
}

/// What the command writes with such arguments before the file, for the bytes of a sheet.
pub fn of_sheet(words: &[String], sheet: &[u8]) -> Outcome {
    let mut arguments = Arguments::new(words.to_vec());
    let asked = Asked::new(&mut arguments, false)?;
    arguments.files(0, 0)?;
    let (clock, mut text) = (Clock::quiet(asked.limit), Vec::new());
    Answer::new(&asked, System::from_sheet(sheet)?, &FileName::from("-"), &clock)?.write(&mut |piece| {
        text.extend_from_slice(piece);
        Ok(())
    })?;
    Ok(text)
}

fn not_run(unrun: Unrun, file: &str) -> End {
    match unrun {
        Unrun::Trailing(refusal) if refusal != Refusal(10) => {
            let told = format!("the trailing run, which two-sided sequences need, is {refusal}");
            End::Refused(format!("{}: {told}; --first K asks for those from an index on", named(file)))
        }
        Unrun::Leading(refusal) | Unrun::Trailing(refusal) => refused(refusal, file),
    }
}

/// All that is asked of a model, the starting values put in.
struct Answer<'a> {
    asked: &'a Asked,
    file: &'a FileName,
    clock: &'a Clock,
    model: Model,
    names: &'a [String],
    indices: (i64, i64),
    range: Range,
    starts: Vec<(String, Range)>,
    /// The column that is drawn.
    drawn: Option<usize>,
}

/// What is written of a range.
#[derive(Clone, Copy, PartialEq)]
enum Form {
    Table,
    Verdicts,
    Nothing,
}

impl<'a> Answer<'a> {
    fn new(asked: &'a Asked, input: System, file: &'a FileName, clock: &'a Clock) -> Result<Answer<'a>, End> {
        let names = &asked.names[..input.sizes().m];
        let model = Model::new(input, asked.kind).map_err(|unrun| not_run(unrun, file))?;
        let begin = model.begin(asked.kind);
        let first = asked.from.unwrap_or(begin);
        if first < begin && asked.kind != Kind::TwoSided {
            return Err(End::Misused(format!("--from is {begin} at least here")));
        }
        let indices = (first, first + asked.terms - 1);
        let start = |text: &String| Start::new(text, names, indices);
        let starts: Vec<Start> = asked.starts.iter().map(start).collect::<Result<_, _>>()?;
        let of = asked.of.as_ref().map_or(Ok(1), |name| column(name, names))?;
        let drawn = asked.plot.is_some().then_some(of);
        let until = starts.iter().flat_map(|start| &start.values).map(|(index, ..)| *index).max().unwrap_or(first);
        let range = Range::new(&model, asked.kind, indices, until, clock);
        let range = range.map_err(|lacking| told(lacking, asked, file, "before the first term is settled"))?;
        let mut answer = Answer { asked, file, clock, model, names, indices, range, starts: Vec::new(), drawn };
        for start in starts {
            let range = answer.started(&start)?;
            answer.starts.push((start.text, range));
        }
        Ok(answer)
    }

    fn late(&self, _: Late) -> End {
        told(Lacking::Late, self.asked, self.file, "before the first term is settled")
    }

    /// The range with starting values put in; the first one that cannot be is told.
    fn started(&self, start: &Start) -> Result<Range, End> {
        let mut range = self.range.clone();
        for (index, column, value) in &start.values {
            if range.set(*index, *column, value, self.clock).map_err(|late| self.late(late))? {
                continue;
            }
            let is = match range.value(*index, *column) {
                Value::Given(number, _) => number.to_string(),
                Value::Free => "free".into(),
            };
            let (file, place) = (named(self.file), format!("{}({index})", self.names[column - 1]));
            let told = format!("{file}: {place} = {value} cannot be: {place} is {is} by what stands before it");
            return Err(End::Refused(told));
        }
        Ok(range)
    }

    /// How many constants are free, and what they are.
    fn count(&self) -> Result<String, End> {
        let (sizes, free) = (self.model.input.sizes(), self.range.free(&self.model, self.clock));
        let free = free.map_err(|late| self.late(late))?;
        let naive = (sizes.l - sizes.t) as usize * sizes.m;
        let place = |(index, column): &(i64, usize)| format!("{}({index})", self.names[column - 1]);
        let listed: Vec<String> = free.iter().map(place).collect();
        let listed = if listed.is_empty() { String::new() } else { format!(": {}", listed.join(", ")) };
        let vectors = counted((sizes.l - sizes.t) as usize, "vector");
        let mut text = format!(
            "{} free{listed}\nthe naive recurrence takes {naive}, {vectors} of {}\n",
            counted(free.len(), "constant"),
            counted(sizes.m, "value")
        );
        match (self.model.is_settled(self.asked.kind), self.range.elsewhere) {
            (true, 0) => {}
            (true, more) => text += &format!("{} more, on which no value shown depends\n", counted(more, "constant")),
            (false, _) => text += "the count is that of the indices shown\n",
        }
        Ok(text)
    }

    /// Writes everything; the picture comes last.
    fn write(mut self, sink: Sink) -> Result<(), End> {
        let (mut writer, mut curves) = (Writer::new(sink, self.clock), Vec::new());
        writer.text(&self.count()?)?;
        let starts = std::mem::take(&mut self.starts);
        let form = match (self.asked.is_free, starts.is_empty()) {
            (true, _) => Form::Verdicts,
            (false, true) => Form::Table,
            (false, false) => Form::Nothing,
        };
        match form {
            Form::Verdicts => writer.text("\n")?,
            Form::Table => {
                let model = &self.model;
                writer.text(&format!("{}\n\n", consequence(&model.leading, &model.report, false, self.names)))?;
            }
            Form::Nothing => {}
        }
        let drawn = self.drawn.filter(|_| starts.is_empty());
        let values = self.walk(self.range.clone(), form, drawn, &mut writer)?;
        if let Some(of) = drawn {
            curves.push((self.names[of - 1].clone(), self.points(&values)?));
        }
        for (text, range) in starts {
            let form = if self.asked.is_free { Form::Nothing } else { Form::Table };
            if form == Form::Table {
                writer.text(&format!("\nwith {text}\n"))?;
            }
            let values = self.walk(range, form, self.drawn, &mut writer)?;
            if self.drawn.is_some() {
                curves.push((text.replace('=', " = ").replace(',', ", "), self.points(&values)?));
            }
        }
        writer.finish()?;
        self.draw(curves)
    }

    /// Writes what is asked of a range, index by index, and gives the values of the column that is drawn.
    fn walk(
        &self,
        mut range: Range,
        form: Form,
        drawn: Option<usize>,
        writer: &mut Writer,
    ) -> Result<Vec<Fraction>, End> {
        let (mut values, (first, last)) = (Vec::new(), self.indices);
        if form == Form::Nothing && drawn.is_none() {
            return Ok(values);
        }
        if form == Form::Table {
            writer.line(text::heading(self.names))?;
        }
        for index in first..=last {
            self.clock.tell(|| format!("term {index} of {first} to {last}"));
            let worked = range.go_on(&self.model, index, self.clock);
            let looked = worked.and_then(|()| self.clock.look().map_err(Lacking::from));
            if let Err(lacking) = looked {
                writer.finish()?;
                return Err(told(lacking, self.asked, self.file, &format!("at index {index}")));
            }
            match form {
                Form::Table => writer.line(text::line(&range, index, self.names))?,
                Form::Verdicts => writer.text(&text::verdicts(&range, index, self.names))?,
                Form::Nothing => {}
            }
            if let Some(of) = drawn {
                values.push(self.number(&range, index, of)?);
            }
            range.forget(index);
        }
        Ok(values)
    }

    /// A value that is drawn.
    fn number(&self, range: &Range, index: i64, of: usize) -> Result<Fraction, End> {
        match range.value(index, of) {
            Value::Given(number, others) if others.is_empty() => Ok(number),
            _ => {
                let name = &self.names[of - 1];
                let told = format!("{name}({index}) is not settled: --start has to give the free constants");
                Err(End::Misused(told))
            }
        }
    }

    /// The points of a curve: the partial sum of one unknown.
    fn points(&self, values: &[Fraction]) -> Result<Vec<(f64, f64)>, End> {
        plot::points(self.indices.0, values, &self.asked.over).map_err(|why| End::Misused(why.into()))
    }

    /// Writes the picture.
    fn draw(&self, curves: Vec<(String, Vec<(f64, f64)>)>) -> Result<(), End> {
        let (Some(plot), Some(of)) = (&self.asked.plot, self.drawn) else { return Ok(()) };
        let variable = if self.names.iter().any(|name| name == "x") { "s" } else { "x" };
        let (name, (first, last)) = (&self.names[of - 1], self.indices);
        let title = format!("Sum of {name}(n) {variable}ⁿ, n from {first} to {last}");
        let picture = Picture { title, horizontal: variable.into(), vertical: name.clone(), curves };
        files::write(plot, picture.svg().as_bytes(), &[self.file])
    }
}

/// Why there is no answer, or no more of it.
fn told(lacking: Lacking, asked: &Asked, file: &str, place: &str) -> End {
    let file = named(file);
    End::Refused(match lacking {
        Lacking::None(told) | Lacking::Far(told) => format!("{file}: {told}"),
        Lacking::Late => {
            let limit = asked.limit.unwrap_or_default();
            format!("{file}: the limit of {limit:?} is over {place}; --limit gives more time, --terms asks for less")
        }
    })
}
