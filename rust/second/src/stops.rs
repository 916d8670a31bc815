//! Stop lists.

use crate::job::{Job, MAX_PROCESSORS};
use crate::refusal::STOPS_OUT_OF_ORDER;
use crate::text::{Lines, within};
use crate::times::Ticks;

/// The last tick of each processor. No finish passes the largest tick, so
/// that stands for a processor that does not stop.
pub fn read(text: &[u8], job: &Job) -> Result<Ticks, u32> {
    let mut lines = Lines::new(text)?;
    let mut stops = [u32::MAX; MAX_PROCESSORS];
    let mut previous = None;
    while !lines.at_end() {
        let mut fields = [0; 2];
        lines.line(b"S,", &mut fields)?;
        let [processor, tick] = fields;
        within(processor, 0..=job.processors as u64 - 1)?;
        within(tick, 0..=u64::from(u32::MAX))?;
        if previous.is_some_and(|previous| processor <= previous) {
            return Err(STOPS_OUT_OF_ORDER);
        }
        previous = Some(processor);
        stops[processor as usize] = tick as u32;
    }
    Ok(stops)
}
