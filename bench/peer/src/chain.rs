//! `chain CALL MARKS COUNT`: calls on the chain of a core in plain Rust, as a peer to measure it by.
//!
//! The chain and the classes of the stealing queue are lists by links in tables with a place a colour here too. It keeps no
//! numbers of enterings, and nothing is proved of it.
use std::env;

const COST: u128 = 20;

#[derive(Clone, Copy)]
struct Mark {
    colour: u16,
    started: u64,
    worth: u128,
}

fn class_of(worth: u128) -> u8 {
    match worth {
        worth if worth <= COST => 0,
        worth if worth <= 2 * COST => 1,
        worth if worth <= 4 * COST => 2,
        _ => 3,
    }
}

#[derive(Clone, Copy, Default)]
struct Link {
    list: u8,
    before: u16,
    after: u16,
}

#[derive(Clone, Copy, Default)]
struct Ends {
    first: u16,
    last: u16,
    len: u32,
}

fn push_back(links: &mut [Link], ends: &mut Ends, list: u8, colour: u16) {
    links[colour as usize] = Link { list, before: ends.last, after: colour };
    if ends.len == 0 {
        ends.first = colour;
    } else {
        links[ends.last as usize].after = colour;
    }
    ends.last = colour;
    ends.len += 1;
}

fn unlink(links: &mut [Link], ends: &mut Ends, colour: u16) {
    let link = links[colour as usize];
    if ends.first == colour {
        ends.first = link.after;
    } else {
        links[link.before as usize].after = link.after;
    }
    if ends.last == colour {
        ends.last = link.before;
    } else {
        links[link.after as usize].before = link.before;
    }
    links[colour as usize].list = 0;
    ends.len -= 1;
}

struct Chain {
    chain_links: Vec<Link>,
    chain: Ends,
    class_links: Vec<Link>,
    classes: [Ends; 3],
    started: Vec<u64>,
    worth: Vec<u128>,
}

impl Chain {
    fn new(colours: usize) -> Chain {
        Chain {
            chain_links: vec![Link::default(); colours],
            chain: Ends::default(),
            class_links: vec![Link::default(); colours],
            classes: [Ends::default(); 3],
            started: vec![0; colours],
            worth: vec![0; colours],
        }
    }

    fn mark(&self, colour: u16) -> Mark {
        Mark { colour, started: self.started[colour as usize], worth: self.worth[colour as usize] }
    }

    fn enter(&mut self, class: u8, colour: u16) {
        if class > 0 {
            push_back(&mut self.class_links, &mut self.classes[class as usize - 1], class, colour);
        }
    }

    fn leave(&mut self, colour: u16) {
        let class = self.class_links[colour as usize].list;
        if class > 0 {
            unlink(&mut self.class_links, &mut self.classes[class as usize - 1], colour);
        }
    }

    fn push(&mut self, mark: Mark) -> bool {
        if self.chain_links[mark.colour as usize].list != 0 {
            return false;
        }
        push_back(&mut self.chain_links, &mut self.chain, 1, mark.colour);
        self.started[mark.colour as usize] = mark.started;
        self.worth[mark.colour as usize] = mark.worth;
        self.enter(class_of(mark.worth), mark.colour);
        true
    }

    fn pop(&mut self) -> Option<Mark> {
        if self.chain.len == 0 {
            return None;
        }
        let mark = self.mark(self.chain.first);
        unlink(&mut self.chain_links, &mut self.chain, mark.colour);
        self.leave(mark.colour);
        Some(mark)
    }

    fn pick(&mut self) -> Option<Mark> {
        let ends = self.classes.iter().rev().find(|ends| ends.len > 0)?;
        let mark = self.mark(ends.first);
        self.leave(mark.colour);
        unlink(&mut self.chain_links, &mut self.chain, mark.colour);
        Some(mark)
    }

    fn retell(&mut self, colour: u16, started: u64, worth: u128) -> bool {
        let place = colour as usize;
        if self.chain_links[place].list == 0 || self.started[place] != started {
            return false;
        }
        self.worth[place] = self.worth[place].max(worth);
        let class = class_of(self.worth[place]);
        if class != self.class_links[place].list {
            self.leave(colour);
            self.enter(class, colour);
        }
        true
    }
}

fn main() {
    let words: Vec<String> = env::args().skip(1).collect();
    let marks: u32 = words[1].parse().expect("a number of marks");
    let count: u32 = words[2].parse().expect("a number of calls");
    let mut chain = Chain::new(marks as usize);
    for number in 0..marks {
        let colour = number as u16;
        chain.push(Mark { colour, started: 0, worth: u128::from(colour % 5) * 20 + 10 });
    }
    let mut made = 0u32;
    for number in 0..count {
        let found = match words[0].as_str() {
            "pop" => chain.pop().is_some_and(|mark| chain.push(mark)),
            "pick" => chain.pick().is_some_and(|mark| chain.push(mark)),
            _ => chain.retell((number % marks) as u16, 0, u128::from(number % 100)),
        };
        made += u32::from(found);
    }
    println!("{made}");
}
