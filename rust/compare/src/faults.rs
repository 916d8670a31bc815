//! Faults whose number is known by their make: several in one text, of which
//! the first in the order of the rules counts.

use crate::jobs::{Job, MAX_DELAY, MAX_EDGES, MAX_FAILURES, MAX_PROCESSORS, MAX_RUN_TIME};
use crate::jobs::{MAX_TASKS, MAX_VOLUME};
use crate::plans::Plan;
use crate::rng::Rng;
use crate::stops::Stop;

const MAX_TEXT: usize = 65_536;
const MAX_TICK: u64 = u32::MAX as u64;

/// A text line by line, and the faults made in it.
pub struct Sheet {
    rows: Vec<Row>,
    left_over: Vec<u8>,
    /// The stop list may have any number of lines.
    open_ended: bool,
    faults: Vec<Fault>,
}

/// One line.
struct Row {
    opening: String,
    fields: Vec<String>,
    ranges: Vec<(u64, u64)>,
    /// The first field is the line's turn.
    turn: bool,
    end: &'static str,
}

/// From and to of an edge line.
type Pair = (u64, u64);

/// Where a fault is found, what is tried before it there, and its number.
type Fault = (usize, usize, u64);

const FORM: usize = 0;
const RANGE: usize = 1;
const RULE: usize = 2;
const LAST_RULE: usize = 3;

impl Row {
    fn new(opening: &str, turn: bool, fields: &[(u64, (u64, u64))]) -> Row {
        Row {
            opening: opening.into(),
            fields: fields.iter().map(|(value, _)| value.to_string()).collect(),
            ranges: fields.iter().map(|&(_, range)| range).collect(),
            turn,
            end: "\n",
        }
    }

    fn number(&self, field: usize) -> u64 {
        self.fields[field].parse().unwrap_or(0)
    }

    fn set(&mut self, field: usize, value: u64) {
        self.fields[field] = value.to_string();
    }

    /// Of an edge line.
    fn pair(&self) -> Pair {
        (self.number(0), self.number(1))
    }
}

/// A pair of different tasks that is less than the last one and not among
/// the earlier; none if it is not soon found.
fn smaller_pair(rng: &mut Rng, earlier: &[Pair], last_task: u64) -> Option<Pair> {
    let &last = earlier.last()?;
    let (from, to) = last;
    for _ in 0..20 {
        let by_from = (rng.within(0..=from), rng.within(0..=last_task));
        let by_to = (from, rng.within(0..=to));
        let pair = rng.pick(&[by_from, by_to]);
        if pair < last && pair.0 != pair.1 && !earlier.contains(&pair) {
            return Some(pair);
        }
    }
    None
}

impl Sheet {
    /// The number of the first fault.
    pub fn number(&self) -> Option<u64> {
        self.faults.iter().min().map(|fault| fault.2)
    }

    pub fn to_text(&self) -> Vec<u8> {
        let mut text = String::new();
        for row in &self.rows {
            text += &row.opening;
            text += &row.fields.join(",");
            text += row.end;
        }
        let mut text = text.into_bytes();
        text.extend_from_slice(&self.left_over);
        text
    }

    /// Makes up to three faults; those in one line are tried most.
    pub fn spoil(&mut self, rng: &mut Rng) {
        if self.rows.is_empty() {
            self.leave_over(rng);
            return;
        }
        let row = match rng.below(4) {
            0 => 0,
            _ => rng.below(self.rows.len()),
        };
        let mut places = vec![(row, rng.below(3))];
        for _ in 0..rng.pick(&[0, 1, 1, 2]) {
            let row = if rng.one_in(3) {
                rng.below(self.rows.len())
            } else {
                row
            };
            places.push((row, rng.below(3)));
        }
        // What is tried first is done last, so that nothing undoes it.
        places.sort_by_key(|&(row, order)| (row, RULE - order));
        places.dedup();
        for (row, order) in places {
            match order {
                FORM => self.spoil_form(rng, row),
                RANGE => self.spoil_range(rng, row),
                _ => self.spoil_rule(rng, row),
            }
        }
        match rng.below(10) {
            0 | 1 => self.leave_over(rng),
            2 => self.cut(rng),
            _ => {}
        }
        if rng.one_in(60) {
            self.lengthen(rng);
        }
    }

    /// Number 2: the form of a line.
    fn spoil_form(&mut self, rng: &mut Rng, place: usize) {
        const BAD: [&str; 16] = [
            "",
            "00",
            "01",
            "-1",
            "+1",
            " 1",
            "1 ",
            "x",
            "1x",
            "0x1",
            "1.0",
            "-",
            "12345678901",
            "00000000001",
            "10000000000",
            "99999999999",
        ];
        let row = &mut self.rows[place];
        let field = rng.below(row.fields.len());
        let mut found = place;
        match rng.below(10) {
            0..=2 => row.fields[field] = rng.pick(&BAD).into(),
            3 => row.fields.extend(["0".into()]),
            4 => {
                row.fields.remove(field);
            }
            5 => {
                let opening = &row.opening;
                row.opening = rng.pick(&[
                    opening.to_lowercase(),
                    opening.replace(',', ""),
                    format!(" {opening}"),
                    format!("{opening},"),
                    "X,".into(),
                    String::new(),
                ]);
            }
            6 => row.end = rng.pick(&["", "\r\n", ",\n", " \n", "\r", "\0\n", ";\n"]),
            // An empty line behind it.
            7 => {
                row.end = "\n\n";
                found += 1;
            }
            _ if row.turn => {
                let turn = row.number(0);
                let other = rng.pick(&[turn + 1, turn + 1, 16, 255, 256, 300, 9_999_999_999]);
                row.set(0, if other == turn { turn + 1 } else { other });
            }
            _ => row.fields[field] = rng.pick(&BAD).into(),
        }
        self.faults.push((found, FORM, 2));
    }

    /// Number 3: a field is out of its range.
    fn spoil_range(&mut self, rng: &mut Rng, place: usize) {
        let row = &mut self.rows[place];
        let field = rng.size(usize::from(row.turn)..=row.fields.len() - 1);
        let (least, most) = row.ranges[field];
        let value = match rng.below(4) {
            0 if least > 0 => least - 1,
            0 | 1 => most + 1,
            2 => most + 1 + rng.within(0..=300),
            _ => rng.within(most + 1..=9_999_999_999),
        };
        row.set(field, value);
        self.faults.push((place, RANGE, 3));
    }

    /// The line's own rule.
    fn spoil_rule(&mut self, rng: &mut Rng, place: usize) {
        let (before, rows) = self.rows.split_at_mut(place);
        let row = &mut rows[0];
        match row.opening.as_str() {
            "JOB," => {
                let processors = row.number(1);
                if processors <= MAX_FAILURES as u64 {
                    row.set(3, rng.within(processors..=MAX_FAILURES as u64));
                    self.faults.push((place, RULE, 4));
                }
            }
            "D," => {
                let own = 1 + row.number(0) as usize;
                row.set(own, rng.within(1..=MAX_DELAY));
                self.faults.push((place, RULE, 5));
            }
            "E," => {
                let earlier = before.iter().filter(|row| row.opening == "E,");
                let earlier: Vec<Pair> = earlier.map(Row::pair).collect();
                let (_, last_task) = row.ranges[0];
                let smaller = smaller_pair(rng, &earlier, last_task);
                let (pair, order, number) = match (rng.below(4), smaller) {
                    (0 | 1, Some(pair)) => (pair, LAST_RULE, 16),
                    (2, _) if !earlier.is_empty() => (rng.pick(&earlier), RULE, 6),
                    _ => {
                        let task = rng.within(0..=last_task);
                        ((task, task), RULE, 6)
                    }
                };
                row.set(0, pair.0);
                row.set(1, pair.1);
                self.faults.push((place, order, number));
            }
            "PLAN," => {
                let field = rng.below(3);
                let (least, most) = row.ranges[field];
                let value = row.number(field);
                let other = rng.within(least..=most);
                let other = if other == value {
                    least + u64::from(value == least)
                } else {
                    other
                };
                row.set(field, other);
                self.faults.push((place, RULE, 9));
            }
            "T," => {
                let last = row.fields.len() - 3;
                if rng.one_in(2) && row.number(1) < row.number(last) {
                    for field in 0..3 {
                        row.fields.swap(1 + field, last + field);
                    }
                    self.faults.push((place, RULE, 11));
                }
                if place > 1 && rng.one_in(2) {
                    let earlier = &before[rng.size(1..=place - 1)];
                    row.fields[0] = earlier.fields[0].clone();
                    self.faults.push((place, LAST_RULE, 10));
                }
            }
            "S," => {
                if let Some(previous) = before.last() {
                    let most = previous.number(0).min(MAX_PROCESSORS as u64);
                    let processor = if rng.one_in(2) {
                        most
                    } else {
                        rng.within(0..=most)
                    };
                    row.set(0, processor);
                    self.faults.push((place, RULE, 15));
                }
            }
            // A C line has no rule of its own.
            _ => {}
        }
    }

    /// Number 2: something is left over.
    fn leave_over(&mut self, rng: &mut Rng) {
        let again = |row: &Row| format!("{}{}\n", row.opening, row.fields.join(","));
        let again = self.rows.last().filter(|_| !self.open_ended).map(again);
        let rest = match rng.below(5) {
            0 if self.is_closed() => "\n".into(),
            0 | 1 => "x".into(),
            2 => "X,0,0\n".into(),
            3 => "\0".into(),
            _ => again.unwrap_or("S\n".into()),
        };
        self.left_over.extend_from_slice(rest.as_bytes());
        self.faults.push((self.rows.len(), FORM, 2));
    }

    /// Number 2: the text ends within a line, or before it where lines are due.
    fn cut(&mut self, rng: &mut Rng) {
        let place = rng.below(self.rows.len());
        let row = &self.rows[place];
        let line = format!("{}{}", row.opening, row.fields.join(","));
        let least = usize::from(self.open_ended);
        if line.len() < least {
            return;
        }
        let kept = rng.size(least..=line.len());
        self.left_over = line.as_bytes()[..kept].to_vec();
        self.rows.truncate(place);
        self.faults.retain(|fault| fault.0 < place);
        self.faults.push((place, FORM, 2));
    }

    /// An LF behind the text would not end a line that lacks one.
    fn is_closed(&self) -> bool {
        self.left_over.is_empty() && self.rows.last().is_none_or(|row| !row.end.is_empty())
    }

    /// Number 1, or as many bytes as may be.
    fn lengthen(&mut self, rng: &mut Rng) {
        let length = MAX_TEXT + rng.pick(&[0, 0, 1, 2, 3_000]);
        let filler = if self.is_closed() {
            rng.pick(b"\nx0,")
        } else {
            b'x'
        };
        let rest = length.saturating_sub(self.to_text().len());
        self.left_over.extend(vec![filler; rest]);
        let place = self.rows.len();
        if rest > 0 {
            self.faults.push((place, FORM, 2));
        }
        if self.to_text().len() > MAX_TEXT {
            // Before anything in any line.
            self.faults = vec![(0, FORM, 1)];
        }
    }
}

pub fn job(job: &Job) -> Sheet {
    let (tasks, processors) = (job.tasks() as u64, job.processors() as u64);
    let mut rows = vec![Row::new(
        "JOB,",
        false,
        &[
            (tasks, (1, MAX_TASKS as u64)),
            (processors, (1, MAX_PROCESSORS as u64)),
            (job.edges.len() as u64, (0, MAX_EDGES as u64)),
            (job.failures as u64, (0, MAX_FAILURES as u64)),
        ],
    )];
    let mut table = |opening, table: &[Vec<u64>], range| {
        for (turn, values) in table.iter().enumerate() {
            let mut fields = vec![(turn as u64, (0, 0))];
            fields.extend(values.iter().map(|&value| (value, range)));
            rows.push(Row::new(opening, true, &fields));
        }
    };
    table("C,", &job.run_times, (1, MAX_RUN_TIME));
    table("D,", &job.delays, (0, MAX_DELAY));
    for edge in &job.edges {
        let task = (0, tasks - 1);
        let fields = [
            (edge.from as u64, task),
            (edge.to as u64, task),
            (edge.volume, (0, MAX_VOLUME)),
        ];
        rows.push(Row::new("E,", false, &fields));
    }
    sheet(rows, false)
}

pub fn plan(plan: &Plan) -> Sheet {
    let (tasks, processors) = (plan.tasks as u64, plan.processors as u64);
    let tick = (0, MAX_TICK);
    let mut rows = vec![Row::new(
        "PLAN,",
        false,
        &[
            (tasks, (1, MAX_TASKS as u64)),
            (processors, (1, MAX_PROCESSORS as u64)),
            (plan.failures as u64, (0, MAX_FAILURES as u64)),
            (plan.lower, tick),
            (plan.upper, tick),
        ],
    )];
    for line in &plan.lines {
        let mut fields = vec![(line.task as u64, (0, tasks - 1))];
        for replica in &line.replicas {
            fields.push((replica.processor as u64, (0, processors - 1)));
            fields.push((replica.early, tick));
            fields.push((replica.late, tick));
        }
        rows.push(Row::new("T,", false, &fields));
    }
    sheet(rows, false)
}

pub fn stops(stops: &[Stop], processors: usize) -> Sheet {
    let row = |stop: &Stop| {
        let processor = (stop.processor as u64, (0, processors as u64 - 1));
        Row::new("S,", false, &[processor, (stop.tick, (0, MAX_TICK))])
    };
    sheet(stops.iter().map(row).collect(), true)
}

fn sheet(rows: Vec<Row>, open_ended: bool) -> Sheet {
    Sheet {
        rows,
        left_over: Vec::new(),
        open_ended,
        faults: Vec::new(),
    }
}
