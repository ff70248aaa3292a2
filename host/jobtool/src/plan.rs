//! `jobtool plan`: what the planner makes of a job, in words. What a finished search says and what a stopped one says
//! have no line in common but that of the counts and, in front of it, those of the pairs and of a day that ends away;
//! and a stopped one calls no order cheapest and no search finished.

use gondamuy::{raw, read, Counts, Plan, Planned, Record, Refusal, Refused, Stopped, NO_BUDGET};
use jobtext::{number, Job};

use crate::{at_line, choices, flown, job_of, of_the_day, pairs, parsed, with_landings};

/// As many records as the pool of the program `plan` has.
const RECORDS: u64 = 2_000;

/// As many records as may be asked for: 240 MB.
const MOST_RECORDS: u64 = 10_000_000;

/// How a job is to be planned.
pub struct Asked {
    budget: u64,
    records: u64,
    /// The pair file, if one is named.
    pairs: Option<String>,
}

impl Asked {
    /// `budget` and `records`, each with its number, and `pairs` with its file, in any sequence; each may be left out.
    /// Or which word is wrong.
    pub fn of(words: &[&str]) -> Result<Asked, String> {
        let (mut budget, mut records, mut pairs) = (None, None, None);
        for two in words.chunks(2) {
            match *two {
                ["budget", word] => once(&mut budget, "budget", || up_to(u64::MAX, "budget", word)),
                ["records", word] => once(&mut records, "records", || up_to(MOST_RECORDS, "records", word)),
                ["pairs", path] => once(&mut pairs, "pairs", || Ok(path.to_string())),
                [name @ ("budget" | "records")] => Err(format!("`{name}` without its number")),
                ["pairs"] => Err("`pairs` without its file".to_string()),
                _ => Err(format!("`{}` in the place of `budget`, `records` or `pairs`", two[0])),
            }?;
        }
        Ok(Asked { budget: budget.unwrap_or(NO_BUDGET), records: records.unwrap_or(RECORDS), pairs })
    }

    /// The pairs of the file that is named, or none.
    fn pairs(&self) -> Result<Vec<u8>, String> {
        self.pairs.as_ref().map_or(Ok(Vec::new()), |path| pairs::read(path))
    }

    fn pool(&self) -> Result<Vec<Record>, String> {
        let (mut pool, records) = (Vec::new(), self.records as usize);
        pool.try_reserve_exact(records).map_err(|_| format!("no memory for {records} records"))?;
        pool.resize(records, Record::default());
        Ok(pool)
    }
}

/// Puts there what is asked for, if nothing was before.
fn once<T>(place: &mut Option<T>, name: &str, asked: impl FnOnce() -> Result<T, String>) -> Result<(), String> {
    if place.is_some() {
        return Err(format!("`{name}` twice"));
    }
    *place = Some(asked()?);
    Ok(())
}

/// A number in plain digits, from 0 to `most`.
fn up_to(most: u64, name: &str, word: &str) -> Result<u64, String> {
    let told = number(word).filter(|&number| number <= most);
    told.ok_or_else(|| format!("`{word}` behind `{name}` is no number from 0 to {most} in plain digits"))
}

/// A job file always holds a zero byte, the first of its trailer. So what holds none is a text; a text with one is not
/// told from a file.
pub fn planned(job: &[u8], asked: &Asked) -> Result<Vec<u8>, String> {
    let answer = match job.contains(&0) {
        true => of_file(job, asked),
        false => of_text(job, asked),
    };
    answer.map(|(job, planned)| in_words(&job, &planned).into_bytes())
}

fn of_file(file: &[u8], asked: &Asked) -> Result<(Job, Planned), String> {
    let taken = "the input was taken for a job file, since it holds a zero byte";
    let contents = read(file).map_err(|refusal| format!("{refusal}\n{taken}"))?;
    let job = job_of(&contents, asked.pairs()?);
    let planned = searched(&job, asked)?.map_err(|refused| refusal(&refused, asked))?;
    Ok((job, planned))
}

/// A text has its pairs itself, or a file has them; where both do, neither is taken.
fn of_text(text: &[u8], asked: &Asked) -> Result<(Job, Planned), String> {
    let mut parsed = parsed(text)?;
    match (&asked.pairs, parsed.line_of_pairs()) {
        (Some(path), Some(line)) => return Err(format!("line {line}: pairs here, and in the pair file {path} too")),
        (Some(_), None) => parsed.job.pairs = asked.pairs()?,
        (None, _) => {}
    }
    let planned = searched(&parsed.job, asked)?.map_err(|refused| match (refused.refusal, &asked.pairs) {
        (Refusal::Pool | Refusal::Full, _) | (Refusal::Pairs, Some(_)) => refusal(&refused, asked),
        (of_the_text, _) => at_line(parsed.line_of(of_the_text.number()), of_the_text),
    })?;
    Ok((parsed.job, planned))
}

fn searched(job: &Job, asked: &Asked) -> Result<Result<Planned, Refused>, String> {
    let pool = &mut asked.pool()?;
    Ok(raw::plan_records(choices(job), &job.table, &job.start, &job.pairs, asked.budget, pool).try_into())
}

/// A refusal that no line of a text is to blame for; that of a full pool with what was searched before.
fn refusal(refused: &Refused, asked: &Asked) -> String {
    match (refused.refusal, &asked.pairs) {
        (Refusal::Full, _) => format!("{refused}\n{}", counts(&refused.counts)),
        (refusal, Some(path)) => pairs::refusal(path, refusal),
        (refusal, None) => refusal.to_string(),
    }
}

fn in_words(job: &Job, planned: &Planned) -> String {
    match planned {
        Planned::Finished(plan) => finished(job, plan),
        Planned::Stopped(answer) => stopped(job, answer),
    }
}

fn finished(job: &Job, plan: &Plan) -> String {
    let Plan { cost, counts: done, .. } = plan;
    let (orders, cost, order) = (pairs::orders(job), with_landings(*cost, job), flown(plan.order()));
    format!("finished after {}\na cheapest {orders} costs {cost}:{order}\n{}", branchings(done), closing(job, done))
}

fn stopped(job: &Job, answer: &Stopped) -> String {
    let Stopped { floor, counts: done, .. } = answer;
    let orders = pairs::orders(job);
    let known = match (answer.known, answer.far_off()) {
        (Some(known), Some(off)) => format!(
            "the order known so far costs {}:{}\nanother {orders} saves {off} at most\n",
            with_landings(known.cost, job),
            flown(known.order())
        ),
        _ => "no order is known so far\n".to_string(),
    };
    format!(
        "stopped after {}: the budget is spent\nno {orders} costs less than {floor}\n{known}{}",
        branchings(done),
        closing(job, done)
    )
}

/// The last lines of every answer: what is said of the day, and the counts.
fn closing(job: &Job, done: &Counts) -> String {
    let day: String = of_the_day(job).iter().map(|line| format!("{line}\n")).collect();
    format!("{day}{}\n", counts(done))
}

fn branchings(counts: &Counts) -> String {
    match counts.branched {
        1 => "1 branching".to_string(),
        branched => format!("{branched} branchings"),
    }
}

fn counts(counts: &Counts) -> String {
    let Counts { branched, generated, eliminated, active, most } = counts;
    format!("branched {branched}, generated {generated}, eliminated {eliminated}, active {active}, most {most}")
}
