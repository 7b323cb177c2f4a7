//! The words after the program's name.

pub const USAGE: &str = "usage: hem JOB [--json] [--count N] [--seed N]\n";
const MOST_COUNT: u64 = 100_000;

#[derive(Clone, Copy, PartialEq, Eq)]
pub enum Job {
    Group,
    Walk,
    Emit,
    Play,
    Make,
}

/// A job, with the number of generated requests or of firings to play, and the seed.
#[derive(Clone, Copy)]
pub struct Asked {
    pub job: Job,
    pub count: Option<u32>,
    pub seed: u64,
}

/// The value of one to twenty digits.
fn number(text: &str) -> Option<u64> {
    if (1..=20).contains(&text.len()) && text.bytes().all(|byte| byte.is_ascii_digit()) { text.parse().ok() } else { None }
}

/// What the words ask for, where they are good and this program has the job.
pub fn read(words: &[&str]) -> Option<Asked> {
    let (mut jobs, mut count, mut seed) = (Vec::new(), None, None);
    let mut words = words.iter();
    while let Some(&word) = words.next() {
        if word == "--" {
            jobs.extend(words.by_ref());
            break;
        }
        let Some(option) = word.strip_prefix("--") else {
            jobs.push(word);
            continue;
        };
        let (name, value) = match option.split_once('=') {
            Some(pair) => pair,
            None => (option, *words.next()?),
        };
        let place = match name {
            "count" => &mut count,
            "seed" => &mut seed,
            _ => return None,
        };
        if place.replace(number(value)?).is_some() {
            return None;
        }
    }
    let [job] = jobs[..] else { return None };
    let job = match job {
        "group" if count.is_none() && seed.is_none() => Job::Group,
        "walk" => Job::Walk,
        // One thread in place of workers: what a run comes to, measured beside `hem run`.
        "run" if count.is_some() || seed.is_none() => Job::Walk,
        "emit" if count.is_none() && seed.is_none() => Job::Emit,
        "play" if seed.is_none() => Job::Play,
        "make" if count.is_some() => Job::Make,
        _ => return None,
    };
    if count.is_some_and(|count| !(1..=MOST_COUNT).contains(&count)) {
        return None;
    }
    Some(Asked { job, count: count.map(|count| count as u32), seed: seed.unwrap_or(1) })
}
