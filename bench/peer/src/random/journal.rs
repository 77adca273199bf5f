//! Whether a printed journal is one of legal and drained histories, as a run of these connections may leave.
use super::scripts::Shape;

/// The weight of each handler: its time by its penalty.
const WEIGHTS: [u64; 11] = [10, 10, 10, 20, 30, 80, 50, 50, 30, 30, 10];
const OPEN: usize = 3;
const CLOSE: usize = 8;
const LOG: usize = 10;
/// Colours below this number are never stolen.
const PINNED: usize = 1;
/// The colour of the first connection.
const FIRST: usize = 2;

#[derive(Default)]
struct Colour {
    /// The handlers of what was registered.
    registered: Vec<usize>,
    /// Their arguments.
    arguments: Vec<usize>,
    begun: usize,
    ended: usize,
    owner: usize,
    taken: Option<(usize, usize)>,
}

impl Colour {
    fn queued(&self) -> usize {
        self.registered.len() - self.begun
    }

    fn worth(&self) -> u64 {
        self.registered[self.begun..].iter().map(|handler| WEIGHTS[*handler]).sum()
    }
}

fn numbers<const N: usize>(words: &[&str]) -> Option<[usize; N]> {
    let read: Vec<usize> = words.iter().map(|word| word.parse().ok()).collect::<Option<_>>()?;
    read.try_into().ok()
}

/// Makes an entry on its colour, where it is allowed.
fn enter(colours: &mut [Colour], shape: &Shape, connections: usize, words: &[&str]) -> Option<()> {
    let (kind, rest) = words.split_first()?;
    let number: usize = rest.first()?.parse().ok()?;
    let colour = colours.get_mut(number)?;
    match *kind {
        "reg" => {
            let [_, handler, argument, by] = numbers(rest)?;
            let is_here = if number == connections + FIRST {
                handler == LOG && argument < connections
            } else {
                handler < LOG && (number < FIRST || argument + FIRST == number)
            };
            let fits = by <= shape.workers && is_here;
            fits.then(|| {
                colour.registered.push(handler);
                colour.arguments.push(argument);
            })
        }
        "take" => {
            let [_, core, count] = numbers(rest)?;
            let is_allowed = core == colour.owner
                && colour.taken.is_none()
                && count > 0
                && count == shape.batch.min(colour.queued());
            colour.begun += count;
            colour.taken = Some((core, count));
            is_allowed.then_some(())
        }
        "fin" => {
            let [_, core, count] = numbers(rest)?;
            colour.ended += count;
            (colour.taken.take() == Some((core, count))).then_some(())
        }
        "steal" => {
            let [_, from, to] = numbers(rest)?;
            let is_idle = colour.taken.is_none() && colour.queued() > 0;
            let is_allowed = number >= PINNED
                && from == colour.owner
                && to != from
                && to < shape.workers
                && is_idle
                && colour.worth() > shape.cost as u64;
            colour.owner = to;
            is_allowed.then_some(())
        }
        _ => None,
    }
}

/// What is wrong with the journal of a run of so many connections, if anything is. With a log its lines are of these
/// connections, in this order.
pub fn fault_of(journal: &str, shape: &Shape, connections: usize, logged: Option<&[usize]>) -> Option<String> {
    let count = connections + FIRST + usize::from(logged.is_some());
    let mut colours: Vec<Colour> =
        (0..count).map(|number| Colour { owner: number % shape.workers, ..Colour::default() }).collect();
    let mut lines = journal.lines();
    for shard in 0..shape.shards {
        let heading = lines.next()?;
        let count = heading.strip_prefix(&format!("shard {shard} ")).and_then(|count| count.parse().ok());
        let Some(count) = count else {
            return Some(format!("`{heading}` where shard {shard} begins"));
        };
        for line in lines.by_ref().take(count) {
            let words: Vec<&str> = line.split(' ').collect();
            let is_here = words
                .get(1)
                .and_then(|colour| colour.parse::<usize>().ok())
                .is_some_and(|colour| colour % shape.shards == shard);
            if !is_here || enter(&mut colours, shape, connections, &words).is_none() {
                return Some(format!("`{line}` in shard {shard}"));
            }
        }
    }
    if let Some(line) = lines.next() {
        return Some(format!("`{line}` behind the last shard"));
    }
    let is_drained = |colour: &Colour| colour.taken.is_none() && colour.queued() == 0 && colour.begun == colour.ended;
    if let Some(number) = colours.iter().position(|colour| !is_drained(colour)) {
        return Some(format!("colour {number} isn't drained"));
    }
    let is_whole =
        |colour: &Colour| colour.registered.first() == Some(&OPEN) && colour.registered.last() == Some(&CLOSE);
    if logged.is_some_and(|logged| colours[connections + FIRST].arguments != logged) {
        return Some("the log's colour has run for other connections than the lines are of".to_string());
    }
    let odd = colours[FIRST..connections + FIRST].iter().position(|colour| !is_whole(colour));
    odd.map(|number| format!("connection {number} isn't opened first or closed last"))
}
