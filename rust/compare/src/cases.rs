//! One random case: texts, and all that is held against each other on them.

use crate::damage::Damage;
use crate::edges::EDGE_FAULTS;
use crate::faults;
use crate::jobs::{self, Edge, Job, MAX_FAILURES, MAX_PROCESSORS, Size};
use crate::own::OWN_FAULTS;
use crate::plans::{self, Plan};
use crate::rng::Rng;
use crate::stops::{self, Stop};
use crate::tally::{Group, HEAVY, HEAVY_DOUBLED, LIMITS, LOWER, Tally};
use crate::tally::{OWN_M, OWN_TICKS, OWN_TWICE};
use crate::tools::{Second, Tool};
use second::Verdict;
use std::fmt::Write;

/// Bytes before and behind the lent output.
const GUARD: usize = 48;
/// What a number behind a pointer is before the call.
const UNTOUCHED: u64 = 0x5EED_0000_0000_BEEF;
/// Room for every answer.
const ROOM: usize = 65_536;

/// What differs, in full.
pub struct Difference(pub String);

type Outcome<T = ()> = Result<T, Difference>;

/// What is known of an answer because of how its texts were made.
#[derive(Clone, Debug, PartialEq, Eq)]
enum Known {
    Nothing,
    Good,
    Refused(u64),
    Doubled(Vec<usize>),
}

/// The texts of a call.
#[derive(Clone, Copy, Default)]
struct Texts<'a> {
    job: &'a [u8],
    plan: Option<&'a [u8]>,
    stops: Option<&'a [u8]>,
}

/// How many output lengths are tried.
#[derive(Clone, Copy, PartialEq, Eq)]
enum Lengths {
    One,
    All,
}

pub struct Cases<'a> {
    tool: &'a dyn Tool,
    tally: &'a mut Tally,
    rng: Rng,
    room: Vec<u8>,
    calls: u64,
}

/// A kind of case, how often it comes, and its name.
const KINDS: [(Kind, usize, &str); 11] = [
    (Kind::PlannersPlan, 20, "planner's plan"),
    (Kind::OtherPlan, 20, "other plan"),
    (Kind::DoubledPlan, 12, "doubled plan"),
    (Kind::WrongTick, 6, "wrong tick"),
    (Kind::WrongMakespan, 3, "wrong makespan"),
    (Kind::AllCopies, 8, "ticks of all copies"),
    (Kind::WrongOrder, 4, "wrong order"),
    (Kind::WrongEdges, 15, "wrong edges"),
    (Kind::FaultsInOrder, 45, "faults in order"),
    (Kind::Damaged, 30, "damaged texts"),
    (Kind::Heaviest, 1, "largest numbers"),
];

#[derive(Clone, Copy)]
enum Kind {
    PlannersPlan,
    OtherPlan,
    DoubledPlan,
    WrongTick,
    WrongMakespan,
    AllCopies,
    WrongOrder,
    WrongEdges,
    FaultsInOrder,
    Damaged,
    Heaviest,
}

/// Runs the case of `seed` and returns how many calls it made.
pub fn run(seed: u64, tool: &dyn Tool, tally: &mut Tally) -> Outcome<u64> {
    let mut cases = Cases {
        tool,
        tally,
        rng: Rng::new(seed),
        room: vec![0; ROOM],
        calls: 0,
    };
    let all = KINDS.iter().map(|kind| kind.1).sum();
    let mut place = cases.rng.below(all);
    let mut kinds = KINDS.into_iter();
    let (kind, name) = loop {
        let (kind, weight, name) = kinds.next().expect("the place is below the sum");
        if place < weight {
            break (kind, name);
        }
        place -= weight;
    };
    cases.tally.count(Group::Case, name);
    match kind {
        Kind::PlannersPlan => cases.planners_plan(),
        Kind::OtherPlan => cases.other_plan(),
        Kind::DoubledPlan => cases.doubled_plan(),
        Kind::WrongTick => cases.wrong_tick(),
        Kind::WrongMakespan => cases.wrong_makespan(),
        Kind::AllCopies => cases.all_copies(),
        Kind::WrongOrder => cases.wrong_order(),
        Kind::WrongEdges => cases.wrong_edges(),
        Kind::FaultsInOrder => cases.faults_in_order(),
        Kind::Damaged => cases.damaged(),
        Kind::Heaviest => cases.heaviest(),
    }?;
    Ok(cases.calls)
}

/// The kinds of cases.
impl Cases<'_> {
    fn planners_plan(&mut self) -> Outcome {
        let (job, text) = self.job();
        let plan = self.compare_plan(&text, &Known::Good)?;
        let plan = plan.unwrap_or_default();
        self.compare_check(&text, &plan, &Known::Good)?;
        match Plan::parse(&plan) {
            Some(parsed) => {
                self.count_own(&job, &parsed);
                self.bears_losses(&job, &text, &parsed, &plan)
            }
            None => Err(Difference(format!("no plan: {}", shown(&plan)))),
        }
    }

    fn other_plan(&mut self) -> Outcome {
        let (job, text) = self.job();
        let plan = plans::random(&mut self.rng, &job);
        let plan_text = plan.to_text();
        self.compare_check(&text, &plan_text, &Known::Good)?;
        self.count_own(&job, &plan);
        self.bears_losses(&job, &text, &plan, &plan_text)
    }

    fn doubled_plan(&mut self) -> Outcome {
        let job = self.job_with_losses();
        let Some(plan) = plans::random_doubled(&mut self.rng, &job) else {
            return self.one_processor(&job);
        };
        let (text, plan_text) = (job.to_text(), plan.to_text());
        let doubled = plan.doubled();
        let named = self.compare_check(&text, &plan_text, &Known::Doubled(doubled.clone()))?;
        let other = self.rng.pick(&doubled);
        for task in [named, Some(other)].into_iter().flatten() {
            self.left_undone(&text, &plan, &plan_text, task)?;
        }
        for count in 0..3 {
            let count = count.min(job.processors());
            let processors = self.rng.subset(job.processors(), count);
            let stops = stops::random(&mut self.rng, &plan, &processors);
            self.compare_stopped(&text, &plan_text, &stops, Lengths::One)?;
        }
        self.stopped_where_twice(&job, &text, &plan, &plan_text)?;
        self.sharpened(&job, &text, &plan, &plan_text, 2)
    }

    fn wrong_tick(&mut self) -> Outcome {
        let (job, text) = self.job();
        let sound = self.sound_plan(&job);
        let mut plan = sound.clone();
        let line = self.rng.below(plan.lines.len());
        let replica = self.rng.below(job.replicas());
        let replica = &mut plan.lines[line].replicas[replica];
        let largest = u64::from(u32::MAX);
        let other = [
            replica.early,
            replica.late,
            0,
            largest,
            self.rng.within(0..=largest),
        ];
        let early = self.rng.one_in(2);
        let tick = if early {
            &mut replica.early
        } else {
            &mut replica.late
        };
        let near = [*tick - 1, *tick + 1];
        let new = if self.rng.one_in(3) {
            self.rng.pick(&other)
        } else {
            self.rng.pick(&near)
        };
        *tick = if new == *tick { near[1] } else { new };
        let plan_text = plan.to_text();
        self.compare_check(&text, &plan_text, &Known::Refused(13))?;
        let stops = self.some_stops(&job, &sound);
        self.same_replay(&text, &sound.to_text(), &plan_text, &stops)
    }

    fn wrong_makespan(&mut self) -> Outcome {
        let (job, text) = self.job();
        let mut plan = self.sound_plan(&job);
        let lower = self.rng.one_in(2);
        let other = if lower { plan.upper } else { plan.lower };
        let bound = if lower {
            &mut plan.lower
        } else {
            &mut plan.upper
        };
        let choices = [*bound - 1, *bound + 1, other, 0, u64::from(u32::MAX)];
        let new = self.rng.pick(&choices);
        *bound = if new == *bound { choices[1] } else { new };
        let plan_text = plan.to_text();
        self.compare_check(&text, &plan_text, &Known::Refused(14))?;
        let stops = self.some_stops(&job, &plan);
        self.compare_replay(&text, &plan_text, &stops, &Known::Good, Lengths::One)?;
        Ok(())
    }

    /// Ticks or M as if a processor with its own copy of a predecessor waited
    /// for the others too.
    fn all_copies(&mut self) -> Outcome {
        let job = self.job_with_losses();
        let sound = self.sound_plan(&job);
        let mut plan = sound.clone();
        let (fault, name) = self.rng.pick(&OWN_FAULTS);
        let number = fault.apply(&mut self.rng, &job, &mut plan);
        self.tally
            .count_number(Group::Own, name, number.unwrap_or(0));
        let known = number.map_or(Known::Good, Known::Refused);
        let (text, plan_text) = (job.to_text(), plan.to_text());
        self.compare_check(&text, &plan_text, &known)?;
        let stops = self.some_stops(&job, &sound);
        self.same_replay(&text, &sound.to_text(), &plan_text, &stops)
    }

    /// A task before one of its predecessors.
    fn wrong_order(&mut self) -> Outcome {
        let (job, text) = self.job();
        let mut plan = self.sound_plan(&job);
        let mut known = Known::Good;
        if !job.edges.is_empty() {
            let edge = self.rng.pick(&job.edges);
            let place_of = |task| plan.lines.iter().position(|line| line.task == task);
            if let (Some(from), Some(to)) = (place_of(edge.from), place_of(edge.to)) {
                if self.rng.one_in(2) {
                    plan.lines.swap(from, to);
                } else {
                    let line = plan.lines.remove(to);
                    plan.lines.insert(self.rng.size(0..=from), line);
                }
                known = Known::Refused(10);
            }
        }
        let plan = plan.to_text();
        self.compare_check(&text, &plan, &known)?;
        self.compare_replay(&text, &plan, b"", &known, Lengths::One)?;
        Ok(())
    }

    /// A fault in the edge lines, or several, and perhaps a circle, beside a
    /// plan and stops without faults.
    fn wrong_edges(&mut self) -> Outcome {
        let (mut job, _) = self.job();
        let plan = self.sound_plan(&job);
        let stops = self.some_stops(&job, &plan);
        let mut last = None;
        if self.rng.one_in(4) {
            last = self.close_circle(&mut job);
        }
        let number = self.spoil_edges(&mut job).or(last);
        let mut known = number.map_or(Known::Good, Known::Refused);
        while self.rng.one_in(3) {
            self.spoil_edges(&mut job);
            known = Known::Nothing;
        }
        let (text, plan) = (job.to_text(), plan.to_text());
        self.compare_plan(&text, &known)?;
        self.compare_check(&text, &plan, &known)?;
        self.compare_replay(&text, &plan, &stops, &known, Lengths::One)?;
        Ok(())
    }

    /// Several faults in one text or more; the first of them counts.
    fn faults_in_order(&mut self) -> Outcome {
        let (mut job, _) = self.job();
        let (plan, plan_last) = self.plan_with_last_fault(&job);
        let stops = {
            let count = self.rng.size(0..=job.processors());
            let processors = self.rng.subset(job.processors(), count);
            stops::random(&mut self.rng, &plan, &processors)
        };
        let hit_job = self.rng.one_in(3);
        let mut job_last = None;
        if hit_job && self.rng.one_in(3) {
            job_last = self.close_circle(&mut job);
        }
        let mut job_sheet = faults::job(&job);
        let mut plan_sheet = faults::plan(&plan);
        let mut stops_sheet = faults::stops(&stops, job.processors());
        if hit_job && (job_last.is_none() || self.rng.one_in(2)) {
            job_sheet.spoil(&mut self.rng);
        }
        if self.rng.one_in(2) {
            plan_sheet.spoil(&mut self.rng);
        }
        if self.rng.one_in(2) {
            stops_sheet.spoil(&mut self.rng);
        }
        let (text, plan, stops) = (
            job_sheet.to_text(),
            plan_sheet.to_text(),
            stops_sheet.to_text(),
        );
        let refused = |number: Option<u64>| number.map(Known::Refused);
        let in_job = refused(job_sheet.number().or(job_last));
        let in_plan = refused(plan_sheet.number());
        let in_stops = refused(stops_sheet.number());
        let planned = in_job.clone().unwrap_or(Known::Good);
        let checked = in_job.clone().or(in_plan.clone()).unwrap_or(plan_last);
        let replayed = in_job.or(in_plan).or(in_stops).unwrap_or(Known::Good);
        if hit_job {
            self.compare_plan(&text, &planned)?;
        }
        self.compare_check(&text, &plan, &checked)?;
        self.compare_replay(&text, &plan, &stops, &replayed, Lengths::One)?;
        Ok(())
    }

    fn damaged(&mut self) -> Outcome {
        let (mut job, mut text) = self.job();
        let doubled = self.rng.one_in(6);
        let plan = match doubled {
            true => plans::random_doubled(&mut self.rng, &job),
            false => None,
        };
        let plan = plan.unwrap_or_else(|| self.sound_plan(&job));
        let mut stops = self.some_stops(&job, &plan);
        let mut plan = plan.to_text();
        let choice = self.rng.below(8);
        let (hit_job, hit_plan, hit_stops) = match choice {
            0 | 1 => (true, false, false),
            2..=4 => (false, true, false),
            5 => (false, false, true),
            6 => (false, true, true),
            _ => (true, true, true),
        };
        if hit_job && self.rng.one_in(2) {
            self.spoil_edges(&mut job);
            text = job.to_text();
        }
        for (hit, text) in [
            (hit_job, &mut text),
            (hit_plan, &mut plan),
            (hit_stops, &mut stops),
        ] {
            if hit {
                self.damage(text);
            }
        }
        if hit_job || choice == 7 {
            self.compare_plan(&text, &Known::Nothing)?;
        }
        self.compare_check(&text, &plan, &Known::Nothing)?;
        let lengths = if self.rng.one_in(4) {
            Lengths::All
        } else {
            Lengths::One
        };
        self.compare_replay(&text, &plan, &stops, &Known::Nothing, lengths)?;
        Ok(())
    }

    /// As many ticks as may be, in a sound plan and in a doubled one.
    fn heaviest(&mut self) -> Outcome {
        let job = jobs::heaviest(&mut self.rng);
        let text = job.to_text();
        self.compare_plan(&text, &Known::Good)?;
        // Every message goes from one half of the boxes to the other.
        let half = MAX_PROCESSORS / 2;
        let halves = |place| (0..half).map(|p| place % 2 * half + p).collect();
        let plan = plans::with_processors(&mut self.rng, &job, halves);
        let plan_text = plan.to_text();
        self.compare_check(&text, &plan_text, &Known::Good)?;
        if plan.upper > 520_000_000 {
            self.tally.count(Group::Limit, HEAVY);
        }
        let set = self.rng.subset(MAX_PROCESSORS, job.failures);
        let stops = stops::random(&mut self.rng, &plan, &set);
        self.held(&job, &text, &plan, &plan_text, &stops, Lengths::One)?;
        self.sharpened(&job, &text, &plan, &plan_text, 2)?;
        // All copies of all tasks on one box.
        let one = self.rng.below(MAX_PROCESSORS);
        let plan = plans::with_processors(&mut self.rng, &job, |_| vec![one; half]);
        let plan_text = plan.to_text();
        self.compare_check(&text, &plan_text, &Known::Doubled(plan.doubled()))?;
        let answer = self.compare_stopped(&text, &plan_text, &[], Lengths::All)?;
        if end(&answer) > Some(2_000_000_000) {
            self.tally.count(Group::Limit, HEAVY_DOUBLED);
        }
        self.sharpened(&job, &text, &plan, &plan_text, 2)
    }
}

/// Texts.
impl Cases<'_> {
    fn job(&mut self) -> (Job, Vec<u8>) {
        let size = Size::random(&mut self.rng);
        let (job, shape) = jobs::random(&mut self.rng, size);
        self.tally.count(Group::Shape, shape);
        let largest = |rows: &[Vec<u64>], value| rows.iter().flatten().any(|&v| v == value);
        let at_limits = [
            job.tasks() == 1,
            job.tasks() == jobs::MAX_TASKS,
            job.processors() == 1,
            job.processors() == MAX_PROCESSORS,
            job.failures == 0,
            job.failures == MAX_FAILURES,
            job.edges.is_empty(),
            job.edges.len() == jobs::MAX_EDGES,
            largest(&job.run_times, jobs::MAX_RUN_TIME),
            job.edges.iter().any(|e| e.volume == jobs::MAX_VOLUME),
            largest(&job.delays, jobs::MAX_DELAY),
        ];
        for (limit, _) in LIMITS.into_iter().zip(at_limits).filter(|l| l.1) {
            self.tally.count(Group::Limit, limit);
        }
        if job.edges.iter().any(|edge| edge.to < edge.from) {
            self.tally.count(Group::Edge, LOWER);
        }
        let text = job.to_text();
        (job, text)
    }

    /// A job whose tasks have two copies or more, if it has two processors.
    fn job_with_losses(&mut self) -> Job {
        let (mut job, _) = self.job();
        if job.processors() > 1 {
            job.failures = job.failures.max(1);
        }
        job
    }

    /// The planner's plan, or another one.
    fn sound_plan(&mut self, job: &Job) -> Plan {
        if self.rng.one_in(2) {
            let mut written = 0;
            Second.plan(&job.to_text(), &mut self.room, &mut written);
            let plan = Plan::parse(&self.room[..written as usize]);
            if let Some(plan) = plan {
                return plan;
            }
        }
        plans::random(&mut self.rng, job)
    }

    /// A plan that may have a fault that is found after its last line, and
    /// what the checker says of it.
    fn plan_with_last_fault(&mut self, job: &Job) -> (Plan, Known) {
        if self.rng.one_in(4)
            && let Some(plan) = plans::random_doubled(&mut self.rng, job)
        {
            let doubled = plan.doubled();
            return (plan, Known::Doubled(doubled));
        }
        let mut plan = self.sound_plan(job);
        let mut known = Known::Good;
        if self.rng.one_in(4) {
            plan.upper += 1;
            known = Known::Refused(14);
        }
        if self.rng.one_in(4) {
            let line = self.rng.below(plan.lines.len());
            plan.lines[line].replicas[0].early += 1;
            known = Known::Refused(13);
        }
        (plan, known)
    }

    /// Counts a sound plan whose ticks own copies change.
    fn count_own(&mut self, job: &Job, plan: &Plan) {
        let all = plan.waiting_for_all(job);
        if all.lines != plan.lines {
            self.tally.count(Group::Own, OWN_TICKS);
        }
        if all.upper != plan.upper {
            self.tally.count(Group::Own, OWN_M);
        }
    }

    fn some_stops(&mut self, job: &Job, plan: &Plan) -> Vec<u8> {
        let count = self.rng.size(0..=job.processors());
        let processors = self.rng.subset(job.processors(), count);
        stops::to_text(&stops::random(&mut self.rng, plan, &processors))
    }

    fn damage(&mut self, text: &mut Vec<u8>) {
        let times = self.rng.pick(&[1, 1, 1, 2, 3]);
        for _ in 0..times {
            let (damage, name) = Damage::random(&mut self.rng);
            damage.apply(&mut self.rng, text);
            self.tally.count(Group::Damage, name);
        }
    }

    /// Makes one fault in the edge lines, if it can be done; its number.
    fn spoil_edges(&mut self, job: &mut Job) -> Option<u64> {
        let (fault, name) = self.rng.pick(&EDGE_FAULTS);
        let number = fault.apply(&mut self.rng, job)?;
        self.tally.count(Group::Edge, name);
        Some(number)
    }

    /// Puts in an edge that closes a circle, if there is room; its number.
    fn close_circle(&mut self, job: &mut Job) -> Option<u64> {
        if job.edges.is_empty() || job.edges.len() == jobs::MAX_EDGES {
            return None;
        }
        let edge = self.circle(job);
        job.insert(edge);
        Some(7)
    }

    /// An edge back to the start of some way along edges.
    fn circle(&mut self, job: &Job) -> Edge {
        let Edge {
            from,
            mut to,
            volume,
        } = self.rng.pick(&job.edges);
        loop {
            let next: Vec<usize> = job
                .edges
                .iter()
                .filter(|edge| edge.from == to)
                .map(|edge| edge.to)
                .collect();
            if next.is_empty() || self.rng.one_in(3) {
                return Edge {
                    from: to,
                    to: from,
                    volume,
                };
            }
            to = self.rng.pick(&next);
        }
    }
}

/// The guarantee: an accepted plan bears its losses, a doubled one does not.
impl Cases<'_> {
    fn bears_losses(&mut self, job: &Job, text: &[u8], plan: &Plan, plan_text: &[u8]) -> Outcome {
        self.held(job, text, plan, plan_text, &[], Lengths::All)?;
        let processors = job.processors();
        if processors <= 4 && job.tasks() <= 20 {
            for set in 1..1usize << processors {
                if set.count_ones() as usize > job.failures {
                    continue;
                }
                let set: Vec<usize> = (0..processors).filter(|p| set >> p & 1 == 1).collect();
                let stops = stops::random(&mut self.rng, plan, &set);
                self.held(job, text, plan, plan_text, &stops, Lengths::One)?;
            }
            self.tally.count(Group::Demand3, "every set of a plan");
        } else if job.failures > 0 {
            for _ in 0..3 {
                let count = self.rng.size(1..=job.failures);
                let set = self.rng.subset(processors, count);
                let stops = stops::random(&mut self.rng, plan, &set);
                self.held(job, text, plan, plan_text, &stops, Lengths::One)?;
            }
        }
        self.sharpened(job, text, plan, plan_text, 2)?;
        // More than it bears.
        if processors > job.failures {
            let count = self.rng.size(job.failures + 1..=processors);
            let set = self.rng.subset(processors, count);
            let stops = stops::random(&mut self.rng, plan, &set);
            self.compare_stopped(text, plan_text, &stops, Lengths::All)?;
            self.tally.count(Group::Stop, "beyond");
        }
        Ok(())
    }

    /// Stops at, just before and just after finishes that a replay has.
    fn sharpened(
        &mut self,
        job: &Job,
        text: &[u8],
        plan: &Plan,
        plan_text: &[u8],
        times: usize,
    ) -> Outcome {
        let doubled = !plan.doubled().is_empty();
        let mut stops: Vec<Stop> = Vec::new();
        let mut answer = self.compare_stopped(text, plan_text, &stops, Lengths::One)?;
        for _ in 0..times {
            let finishes: Vec<(usize, u64)> = finishes(&answer).into_iter().flatten().collect();
            if finishes.is_empty() {
                break;
            }
            let (processor, finish) = self.rng.pick(&finishes);
            let (tick, kind) = stops::near(&mut self.rng, finish);
            self.tally.count(Group::Stop, kind);
            stops.retain(|stop| stop.processor != processor);
            stops.push(Stop { processor, tick });
            stops.sort_by_key(|stop| stop.processor);
            answer = if !doubled && stops.len() <= job.failures {
                self.held(job, text, plan, plan_text, &stops, Lengths::One)?
            } else {
                self.compare_stopped(text, plan_text, &stops, Lengths::One)?
            };
        }
        Ok(())
    }

    /// At most as many stops as the job bears: every task finishes, and the
    /// round ends between the plan's bounds.
    fn held(
        &mut self,
        job: &Job,
        text: &[u8],
        plan: &Plan,
        plan_text: &[u8],
        stops: &[Stop],
        lengths: Lengths,
    ) -> Outcome<Vec<u8>> {
        let answer = self.compare_stopped(text, plan_text, stops, lengths)?;
        let kind = if stops.is_empty() { "none" } else { "within" };
        self.tally.count(Group::Stop, kind);
        self.tally.count(Group::Demand3, "sets tried");
        let finishes = finishes(&answer);
        let all_done = finishes.len() == job.tasks() && finishes.iter().all(Option::is_some);
        let right_end = end(&answer).is_some_and(|end| {
            let least = plan.lower;
            let most = if stops.is_empty() {
                plan.lower
            } else {
                plan.upper
            };
            (least..=most).contains(&end)
        });
        if all_done && right_end {
            return Ok(answer);
        }
        let what = format!(
            "an accepted plan does not bear its losses:\n{}",
            shown(&answer)
        );
        let stops = stops::to_text(stops);
        Err(self.difference(&what, full(text, plan_text, &stops)))
    }

    /// With the boxes of a doubled task stopped at 0 it is undone.
    fn left_undone(&mut self, text: &[u8], plan: &Plan, plan_text: &[u8], task: usize) -> Outcome {
        let stop = |processor| Stop { processor, tick: 0 };
        let stops: Vec<Stop> = plan.processors_of(task).into_iter().map(stop).collect();
        let answer = self.compare_stopped(text, plan_text, &stops, Lengths::One)?;
        let few = stops.len() <= plan.failures;
        if few && finishes(&answer).get(task) == Some(&None) {
            self.tally.count(Group::Demand3, "doubled task undone");
            return Ok(());
        }
        let what = format!("task {task} is done without its boxes:\n{}", shown(&answer));
        let stops = stops::to_text(&stops);
        Err(self.difference(&what, full(text, plan_text, &stops)))
    }

    /// Stops a processor that has a task twice and a successor of it, near a
    /// finish of the two, and perhaps other processors.
    fn stopped_where_twice(
        &mut self,
        job: &Job,
        text: &[u8],
        plan: &Plan,
        plan_text: &[u8],
    ) -> Outcome {
        let places = received_twice(job, plan);
        if places.is_empty() {
            return Ok(());
        }
        for count in [0, 0, 1, 2] {
            let (processor, tasks) = self.rng.pick(&places);
            let mut others = self.rng.subset(job.processors(), count);
            others.retain(|&other| other != processor);
            let mut stops = stops::random(&mut self.rng, plan, &others);
            stops.push(stops::near_tasks(&mut self.rng, plan, processor, &tasks));
            stops.sort_by_key(|stop| stop.processor);
            self.compare_stopped(text, plan_text, &stops, Lengths::One)?;
            self.tally.count(Group::Own, OWN_TWICE);
        }
        Ok(())
    }

    /// A job of one processor has no doubled plan; its plan is the one there is.
    fn one_processor(&mut self, job: &Job) -> Outcome {
        let (text, plan) = (job.to_text(), plans::random(&mut self.rng, job));
        self.compare_check(&text, &plan.to_text(), &Known::Good)?;
        self.sharpened(job, &text, &plan, &plan.to_text(), 3)
    }
}

/// The processors that have a task twice and a successor of it, each with the
/// two tasks.
fn received_twice(job: &Job, plan: &Plan) -> Vec<(usize, [usize; 2])> {
    let mut places = Vec::new();
    for Edge { from, to, .. } in &job.edges {
        let receiving = plan.processors_of(*to);
        let twice = plan.twice(*from).into_iter();
        let both = twice.filter(|processor| receiving.contains(processor));
        places.extend(both.map(|processor| (processor, [*from, *to])));
    }
    places
}

/// The R lines of an answer: processor and tick, or none.
fn finishes(answer: &[u8]) -> Vec<Option<(usize, u64)>> {
    let text = String::from_utf8_lossy(answer);
    let lines = text.lines().filter(|line| line.starts_with("R,"));
    lines
        .map(|line| {
            let mut fields = line.split(',').skip(2);
            let processor = fields.next()?.parse().ok()?;
            Some((processor, fields.next()?.parse().ok()?))
        })
        .collect()
}

/// The tick of the L line.
fn end(answer: &[u8]) -> Option<u64> {
    let text = String::from_utf8_lossy(answer);
    text.lines().last()?.strip_prefix("L,")?.parse().ok()
}

/// The comparison of single calls.
impl Cases<'_> {
    /// Compares plans of `job` at several output lengths; the plan, if any.
    fn compare_plan(&mut self, job: &[u8], known: &Known) -> Outcome<Option<Vec<u8>>> {
        let mut written = 0;
        let number = Second.plan(job, &mut self.room, &mut written);
        let texts = Texts {
            job,
            ..Texts::default()
        };
        let answer = self.reference(number, written, known, texts)?;
        self.compare_lent(&answer, Lengths::All, texts, |tool, out, written| {
            tool.plan(job, out, written)
        })?;
        let kind = if number == 0 { "good" } else { "job" };
        self.tally.count_number(Group::Plan, kind, number);
        Ok(answer.ok())
    }

    fn compare_stopped(
        &mut self,
        job: &[u8],
        plan: &[u8],
        stops: &[Stop],
        lengths: Lengths,
    ) -> Outcome<Vec<u8>> {
        let stops = stops::to_text(stops);
        let answer = self.compare_replay(job, plan, &stops, &Known::Good, lengths)?;
        Ok(answer.unwrap_or_default())
    }

    fn compare_replay(
        &mut self,
        job: &[u8],
        plan: &[u8],
        stops: &[u8],
        known: &Known,
        lengths: Lengths,
    ) -> Outcome<Option<Vec<u8>>> {
        let mut written = 0;
        let number = Second.replay(job, plan, stops, &mut self.room, &mut written);
        let texts = full(job, plan, stops);
        let answer = self.reference(number, written, known, texts)?;
        self.compare_lent(&answer, lengths, texts, |tool, out, written| {
            tool.replay(job, plan, stops, out, written)
        })?;
        let kind = match &answer {
            Ok(answer) if finishes(answer).iter().all(Option::is_some) => "good, all done",
            Ok(_) => "good, some undone",
            Err(_) => self.blame(job, plan),
        };
        self.tally.count_number(Group::Replay, kind, number);
        Ok(answer.ok())
    }

    /// The replay does not read the ticks: it is the same for the sound plan
    /// and for one with others.
    fn same_replay(&mut self, job: &[u8], sound: &[u8], plan: &[u8], stops: &[u8]) -> Outcome {
        let right = self.compare_replay(job, sound, stops, &Known::Good, Lengths::One)?;
        let answer = self.compare_replay(job, plan, stops, &Known::Good, Lengths::One)?;
        if answer == right {
            return Ok(());
        }
        let (answer, right) = (answer.unwrap_or_default(), right.unwrap_or_default());
        let what = format!(
            "the plan's ticks change the replay\nto\n{}from\n{}",
            shown(&answer),
            shown(&right)
        );
        Err(self.difference(&what, full(job, plan, stops)))
    }

    /// Compares verdicts; the doubled task that was named, if any.
    fn compare_check(&mut self, job: &[u8], plan: &[u8], known: &Known) -> Outcome<Option<usize>> {
        let texts = Texts {
            job,
            plan: Some(plan),
            stops: None,
        };
        let verdict = second::check(job, plan);
        let as_known = match (&verdict, known) {
            (_, Known::Nothing) => true,
            (Verdict::Accepted, known) => *known == Known::Good,
            (Verdict::Refused(number), known) => *known == Known::Refused(u64::from(*number)),
            (Verdict::Doubled(tasks), known) => {
                let tasks = tasks.iter().map(|&task| usize::from(task)).collect();
                *known == Known::Doubled(tasks)
            }
        };
        if !as_known {
            let what = format!("known by its make: {known:?}\nsecond: {verdict:?}");
            return Err(self.difference(&what, texts));
        }
        let mut task = UNTOUCHED;
        let number = self.tool.check(job, plan, &mut task);
        self.calls += 1;
        let same = match &verdict {
            Verdict::Accepted => number == 0 && task == UNTOUCHED,
            Verdict::Refused(right) => number == u64::from(*right) && task == UNTOUCHED,
            Verdict::Doubled(tasks) => {
                number == 12 && tasks.iter().any(|&doubled| u64::from(doubled) == task)
            }
        };
        if !same {
            let task = seen(task);
            let what = format!("second: {verdict:?}\nfirst: {number}, task {task}");
            return Err(self.difference(&what, texts));
        }
        let kind = match &verdict {
            Verdict::Accepted => "accepted",
            Verdict::Doubled(_) => "doubled",
            Verdict::Refused(_) => match self.blame(job, plan) {
                "job" => "job",
                _ => "plan",
            },
        };
        self.tally.count_number(Group::Check, kind, number);
        Ok((number == 12).then_some(task as usize))
    }

    /// The second implementation's answer, held against what is known.
    fn reference(
        &mut self,
        number: u64,
        written: u64,
        known: &Known,
        texts: Texts,
    ) -> Outcome<Result<Vec<u8>, u64>> {
        let as_known = match known {
            Known::Nothing => true,
            Known::Refused(right) => number == *right,
            Known::Good | Known::Doubled(_) => number == 0,
        };
        if !as_known {
            let what = format!("known by its make: {known:?}\nsecond: {number}");
            return Err(self.difference(&what, texts));
        }
        Ok(match number {
            0 => Ok(self.room[..written as usize].to_vec()),
            number => Err(number),
        })
    }

    /// Calls both implementations with outputs of several lengths between
    /// guard bytes, and looks at every byte afterwards.
    fn compare_lent(
        &mut self,
        answer: &Result<Vec<u8>, u64>,
        lengths: Lengths,
        texts: Texts,
        call: impl Fn(&dyn Tool, &mut [u8], &mut u64) -> u64,
    ) -> Outcome {
        for (length, kind) in self.lengths(answer, lengths) {
            let (number, bytes): (u64, &[u8]) = match answer {
                Ok(answer) if answer.len() <= length => (0, answer),
                Ok(_) => (8, &[]),
                Err(number) => (*number, &[]),
            };
            let salt = self.rng.draw() as u8;
            let before: Vec<u8> = (0..length + 2 * GUARD)
                .map(|place| (place as u8).wrapping_mul(89) ^ salt)
                .collect();
            let mut expected = before.clone();
            expected[GUARD..GUARD + bytes.len()].copy_from_slice(bytes);
            let expected_written = if number == 0 {
                bytes.len() as u64
            } else {
                UNTOUCHED
            };
            for (name, tool) in [("first", self.tool), ("second", &Second)] {
                let mut lent = before.clone();
                let mut written = UNTOUCHED;
                let got = call(tool, &mut lent[GUARD..GUARD + length], &mut written);
                if (got, written, &lent) == (number, expected_written, &expected) {
                    continue;
                }
                let mut what = format!("output of {length} bytes lent ({kind})\n");
                for (name, number, written) in
                    [("right", number, expected_written), (name, got, written)]
                {
                    let _ = writeln!(what, "{name}: number {number}, length {}", seen(written));
                }
                let _ = writeln!(what, "right output:\n{}", shown(bytes));
                for (place, (right, byte)) in expected.iter().zip(&lent).enumerate() {
                    if right != byte {
                        let place = place as i64 - GUARD as i64;
                        let _ = writeln!(what, "first byte that differs: {place}");
                        break;
                    }
                }
                let end = GUARD + length.min(written as usize);
                let _ = writeln!(what, "{name}'s output:\n{}", shown(&lent[GUARD..end]));
                return Err(self.difference(&what, texts));
            }
            self.calls += 1;
            self.tally.count(Group::Length, kind);
            if number == 8 {
                let group = if texts.plan.is_some() {
                    Group::Replay
                } else {
                    Group::Plan
                };
                self.tally.count_number(group, "output", 8);
            }
        }
        Ok(())
    }

    /// The lengths to try.
    fn lengths(
        &mut self,
        answer: &Result<Vec<u8>, u64>,
        lengths: Lengths,
    ) -> Vec<(usize, &'static str)> {
        let more = self.rng.size(1..=40);
        match (answer, lengths) {
            (Ok(answer), Lengths::All) => vec![
                (answer.len(), "exact"),
                (answer.len() + more, "longer"),
                (answer.len() - 1, "one short"),
                (0, "zero"),
            ],
            (Ok(answer), Lengths::One) if self.rng.one_in(200) => {
                vec![(answer.len() + 100_000, "much longer")]
            }
            (Ok(answer), Lengths::One) => match self.rng.below(4) {
                0 => vec![(answer.len() + more, "longer")],
                1 => vec![
                    (answer.len(), "exact"),
                    (self.rng.below(answer.len()), "too short"),
                ],
                _ => vec![(answer.len(), "exact")],
            },
            (Err(_), _) => {
                let length = self.rng.pick(&[0, more, 1_000]);
                vec![(length, "refused before 8")]
            }
        }
    }

    /// Which text a refusal is for.
    fn blame(&mut self, job: &[u8], plan: &[u8]) -> &'static str {
        let mut written = 0;
        if Second.plan(job, &mut self.room, &mut written) != 0 {
            "job"
        } else if Second.replay(job, plan, b"", &mut self.room, &mut written) != 0 {
            "plan"
        } else {
            "stops"
        }
    }

    fn difference(&self, what: &str, texts: Texts) -> Difference {
        let mut report = format!("{what}\n");
        for (name, text) in [
            ("job", Some(texts.job)),
            ("plan", texts.plan),
            ("stops", texts.stops),
        ] {
            if let Some(text) = text {
                let _ = write!(report, "{name}, {} bytes:\n{}", text.len(), shown(text));
            }
        }
        Difference(report)
    }
}

fn full<'a>(job: &'a [u8], plan: &'a [u8], stops: &'a [u8]) -> Texts<'a> {
    Texts {
        job,
        plan: Some(plan),
        stops: Some(stops),
    }
}

/// What stands behind a pointer after the call.
fn seen(value: u64) -> String {
    match value {
        UNTOUCHED => "left as it was".into(),
        value => value.to_string(),
    }
}

/// A text with every byte to be seen, an indented line for each line.
fn shown(text: &[u8]) -> String {
    text.split_inclusive(|&byte| byte == b'\n')
        .map(|line| format!("    {}\n", line.escape_ascii()))
        .collect()
}
