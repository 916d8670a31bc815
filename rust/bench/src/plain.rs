//! The planner once more, in plain Rust: lists of lists and 64-bit numbers, as one would write it
//! first. For sound jobs only.

use std::fmt::Write;

struct Job {
    v: usize,
    m: usize,
    eps: usize,
    run: Vec<Vec<u64>>,
    delay: Vec<Vec<u64>>,
    incoming: Vec<Vec<(usize, u64)>>,
    outgoing: Vec<Vec<(usize, u64)>>,
}

/// A box with its early and its late finish of a task.
type Placed = (usize, u64, u64);

fn read(text: &[u8]) -> Option<Job> {
    let s = std::str::from_utf8(text).ok()?;
    let mut lines = s.lines();
    let numbers = |line: &str| -> Option<Vec<u64>> {
        line.split(',').skip(1).map(|f| f.parse().ok()).collect()
    };
    let h = numbers(lines.next()?)?;
    let (v, m, e, eps) = (h[0] as usize, h[1] as usize, h[2] as usize, h[3] as usize);
    let mut run = Vec::with_capacity(v);
    for _ in 0..v {
        run.push(numbers(lines.next()?)?[1..].to_vec());
    }
    let mut delay = Vec::with_capacity(m);
    for _ in 0..m {
        delay.push(numbers(lines.next()?)?[1..].to_vec());
    }
    let mut incoming = vec![Vec::new(); v];
    let mut outgoing = vec![Vec::new(); v];
    for _ in 0..e {
        let n = numbers(lines.next()?)?;
        incoming[n[1] as usize].push((n[0] as usize, n[2]));
        outgoing[n[0] as usize].push((n[1] as usize, n[2]));
    }
    Some(Job {
        v,
        m,
        eps,
        run,
        delay,
        incoming,
        outgoing,
    })
}

/// The copies whose data counts on box p: its own alone, if it has one.
fn counting(copies: &[Placed], p: usize) -> &[Placed] {
    match copies.iter().position(|copy| copy.0 == p) {
        Some(own) => &copies[own..=own],
        None => copies,
    }
}

pub fn plan(text: &[u8]) -> Option<String> {
    let j = read(text)?;
    let (v, m, w) = (j.v, j.m, j.eps + 1);
    let scale = if m == 1 { 1 } else { (m * (m - 1)) as u64 };
    let scaled: Vec<u64> = j
        .run
        .iter()
        .map(|r| {
            if m == 1 {
                r[0]
            } else {
                (m as u64 - 1) * r.iter().sum::<u64>()
            }
        })
        .collect();
    let total: u64 = j.delay.iter().map(|r| r.iter().sum::<u64>()).sum();
    let far: Vec<u64> = j.delay.iter().map(|r| *r.iter().max().unwrap()).collect();
    // Bottom levels, in reverse topological order.
    let mut left: Vec<usize> = j.outgoing.iter().map(|o| o.len()).collect();
    let mut stack: Vec<usize> = (0..v).filter(|&t| left[t] == 0).collect();
    let mut bottom = vec![0u64; v];
    while let Some(t) = stack.pop() {
        bottom[t] = scaled[t]
            + j.outgoing[t]
                .iter()
                .map(|&(u, c)| c * total + bottom[u])
                .max()
                .unwrap_or(0);
        for &(u, _) in &j.incoming[t] {
            left[u] -= 1;
            if left[u] == 0 {
                stack.push(u);
            }
        }
    }
    let mut blocked: Vec<usize> = j.incoming.iter().map(|i| i.len()).collect();
    let mut priority: Vec<u64> = bottom.clone();
    let mut free: Vec<usize> = (0..v).filter(|&t| blocked[t] == 0).collect();
    let mut copies: Vec<Vec<Placed>> = vec![Vec::new(); v];
    let mut ready = vec![(0u64, 0u64); m];
    let mut order = Vec::with_capacity(v);
    for _ in 0..v {
        let (at, &t) = free
            .iter()
            .enumerate()
            .max_by(|a, b| priority[*a.1].cmp(&priority[*b.1]).then(b.1.cmp(a.1)))?;
        free.swap_remove(at);
        let mut finish: Vec<(u64, usize)> = (0..m)
            .map(|p| {
                let data = j.incoming[t]
                    .iter()
                    .map(|&(u, c)| {
                        counting(&copies[u], p)
                            .iter()
                            .map(|&(q, e, _)| e + c * j.delay[q][p])
                            .min()
                            .unwrap()
                    })
                    .max()
                    .unwrap_or(0);
                (j.run[t][p] + data.max(ready[p].0), p)
            })
            .collect();
        finish.sort();
        finish.truncate(w);
        finish.sort_by_key(|f| f.1);
        for &(e, p) in &finish {
            let data = j.incoming[t]
                .iter()
                .map(|&(u, c)| {
                    counting(&copies[u], p)
                        .iter()
                        .map(|&(q, _, l)| l + c * j.delay[q][p])
                        .max()
                        .unwrap()
                })
                .max()
                .unwrap_or(0);
            let l = j.run[t][p] + data.max(ready[p].1);
            copies[t].push((p, e, l));
            ready[p] = (e, l);
        }
        order.push(t);
        for &(u, _) in &j.outgoing[t] {
            blocked[u] -= 1;
            if blocked[u] == 0 {
                let top = j.incoming[u]
                    .iter()
                    .map(|&(x, c)| {
                        copies[x]
                            .iter()
                            .map(|&(q, e, _)| e + c * far[q])
                            .min()
                            .unwrap()
                    })
                    .max()
                    .unwrap_or(0);
                priority[u] = top * scale + bottom[u];
                free.push(u);
            }
        }
    }
    let exits: Vec<usize> = (0..v).filter(|&t| j.outgoing[t].is_empty()).collect();
    let best = exits
        .iter()
        .map(|&t| copies[t].iter().map(|c| c.1).min().unwrap())
        .max()?;
    let worst = exits
        .iter()
        .map(|&t| copies[t].iter().map(|c| c.2).max().unwrap())
        .max()?;
    let mut out = String::with_capacity(65536);
    writeln!(out, "PLAN,{},{},{},{},{}", v, m, j.eps, best, worst).ok()?;
    for t in order {
        write!(out, "T,{}", t).ok()?;
        for (p, e, l) in &copies[t] {
            write!(out, ",{},{},{}", p, e, l).ok()?;
        }
        out.push('\n');
    }
    Some(out)
}
