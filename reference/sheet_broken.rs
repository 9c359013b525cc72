//! Sheets whose layout is broken, each in a way of its own: 40.
use crate::draw::Random;
use crate::rust_run::{EVENT, RESET};
use crate::sheet::{Bodies, FIRST, HEAD, WORDS};
use crate::sheet_draw::*;

pub struct Broken {
    pub name: &'static str,
    pub make: fn(&mut Random, Bodies) -> Vec<u8>,
}

const fn broken(name: &'static str, make: fn(&mut Random, Bodies) -> Vec<u8>) -> Broken {
    Broken { name, make }
}

/// The first word and the word count of body k, in the head.
const fn first(k: usize) -> usize {
    1 + 2 * k
}
const fn count(k: usize) -> usize {
    2 + 2 * k
}

/// With one of these in a word of some event.
fn with_event(
    random: &mut Random,
    mut bodies: Bodies,
    kind: Option<u64>,
    place: usize,
    words: &[u64],
) -> Vec<u8> {
    let at = some_event(random, &mut bodies, kind);
    bodies.events[at + place] = words[random.below(words.len())];
    bytes(&packed(&bodies))
}

pub const BROKEN: [Broken; 38] = [
    broken("no bytes", |_, _| vec![]),
    broken("fewer words than a head has", |random, bodies| {
        let words = packed(&bodies);
        bytes(&words[..random.below(HEAD)])
    }),
    broken("cut at a byte", |random, bodies| {
        let mut all = bytes(&packed(&bodies));
        all.truncate(random.below(all.len()));
        all
    }),
    broken("cut at a word", |random, bodies| {
        let words = packed(&bodies);
        bytes(&words[..random.below(words.len())])
    }),
    broken("cut at the end of a body", |random, bodies| {
        let words = packed(&bodies);
        let ends: Vec<usize> = (0..5)
            .map(|k| words[first(k)] as usize)
            .filter(|end| *end < words.len())
            .collect();
        bytes(&words[..ends[random.below(ends.len())]])
    }),
    broken("the last byte is missing", |_, bodies| {
        let mut all = bytes(&packed(&bodies));
        all.pop();
        all
    }),
    broken("bytes behind the end", |random, bodies| {
        let mut all = bytes(&packed(&bodies));
        for _ in 0..1 + random.below(7) {
            all.push(random.below(256) as u8);
        }
        all
    }),
    broken("words behind the end", |random, bodies| {
        let mut words = packed(&bodies);
        for _ in 0..1 + random.below(12) {
            words.push(pattern(random));
        }
        bytes(&words)
    }),
    broken("word 0 is not 5", |random, bodies| {
        let mut words = packed(&bodies);
        let others = [
            0,
            1,
            4,
            6,
            5 << 56,
            (1 << 32) + 5,
            5 + 256,
            0x8000_0000_0000_0005,
            u64::MAX,
        ];
        words[0] = others[random.below(others.len())];
        bytes(&words)
    }),
    broken("high bytes first", |_, bodies| {
        packed(&bodies)
            .iter()
            .flat_map(|word| word.to_be_bytes())
            .collect()
    }),
    broken("a gap ahead of a body", |random, bodies| {
        let mut words = packed(&bodies);
        let (k, gap) = (random.below(5), 1 + random.below(3));
        let at = words[first(k)] as usize;
        for _ in 0..gap {
            words.insert(at, pattern(random));
        }
        for later in k..5 {
            words[first(later)] += gap as u64;
        }
        bytes(&words)
    }),
    broken("a body over the one before", |random, bodies| {
        let mut words = packed(&bodies);
        let k = 1 + random.below(4);
        let less = 1 + random.below(3) as u64;
        words[first(k)] -= less;
        // Up to the same end, or as long as before.
        if random.chance(70) {
            words[count(k)] += less;
        }
        bytes(&words)
    }),
    broken("two bodies over the same words", |random, mut bodies| {
        // The samples are the amounts once more.
        bodies.samples.clear();
        let mut words = packed(&bodies);
        words[first(3)] = words[first(2)];
        words[count(3)] = words[count(2)];
        if random.chance(50) {
            words[first(4)] = words[first(2)] + words[count(2)];
        }
        bytes(&words)
    }),
    broken("the model starts inside the head", |random, bodies| {
        let mut words = packed(&bodies);
        let less = 1 + random.below(HEAD) as u64;
        words[first(0)] -= less;
        if random.chance(70) {
            words[count(0)] += less;
        }
        bytes(&words)
    }),
    broken("a first word one too large", |random, bodies| {
        let mut words = packed(&bodies);
        let k = random.below(5);
        words[first(k)] += 1;
        if random.chance(50) {
            words[count(k)] = words[count(k)].saturating_sub(1);
        }
        bytes(&words)
    }),
    broken("an empty body at another place", |random, mut bodies| {
        let k = 2 + random.below(3);
        [&mut bodies.amounts, &mut bodies.samples, &mut bodies.events][k - 2].clear();
        let mut words = packed(&bodies);
        let right = words[first(k)];
        let places = [0, 11, right - 1, right + 1, words.len() as u64, u64::MAX];
        let mut place = right;
        while place == right {
            place = places[random.below(places.len())];
        }
        words[first(k)] = place;
        bytes(&words)
    }),
    broken("a count one too small", |random, bodies| {
        let mut words = packed(&bodies);
        let found: Vec<usize> = (0..5).filter(|k| words[count(*k)] > 0).collect();
        words[count(found[random.below(found.len())])] -= 1;
        bytes(&words)
    }),
    broken("a count one too large", |random, bodies| {
        let mut words = packed(&bodies);
        words[count(random.below(5))] += 1;
        bytes(&words)
    }),
    broken("a huge first word", |random, bodies| {
        let mut words = packed(&bodies);
        let k = random.below(5);
        words[first(k)] = if random.chance(60) {
            wide(random, words[first(k)])
        } else {
            [u64::MAX, 1 << 63, u64::MAX - 7, random.next() | 1 << 40][random.below(4)]
        };
        bytes(&words)
    }),
    broken("a huge count", |random, bodies| {
        let mut words = packed(&bodies);
        let k = random.below(5);
        words[count(k)] = if random.chance(60) {
            wide(random, words[count(k)])
        } else {
            [u64::MAX, 1 << 63, u64::MAX - 7, random.next() | 1 << 40][random.below(4)]
        };
        bytes(&words)
    }),
    // Two neighbours meet outside of their words, so that one count is below 0 modulo 2^64.
    broken("a sum that wraps to the right place", |random, bodies| {
        let mut words = packed(&bodies);
        let k = random.below(4);
        let from = words[first(k)];
        let to = words[first(k + 1)] + words[count(k + 1)];
        let between = [0, from - 1, to + 1, 1 << 63, u64::MAX][random.below(5)];
        words[count(k)] = between.wrapping_sub(from);
        words[first(k + 1)] = between;
        words[count(k + 1)] = to.wrapping_sub(between);
        bytes(&words)
    }),
    broken("two pairs swapped", |random, bodies| {
        let mut words = packed(&bodies);
        let k = random.below(4);
        words.swap(first(k), first(k + 1));
        words.swap(count(k), count(k + 1));
        if words == packed(&bodies) {
            words[0] = 0;
        }
        bytes(&words)
    }),
    // Each pair names its body, which stands elsewhere in the file.
    broken("two bodies swapped in the file", |random, mut bodies| {
        bodies.samples = vec![bodies.window[START]];
        if bodies.events.is_empty() {
            some_event(random, &mut bodies, None);
        }
        let parts = [
            bodies.model.clone(),
            bodies.window.clone(),
            bodies.amounts.clone(),
            bodies.samples.clone(),
            bodies.events.clone(),
        ];
        let mut order = [0, 1, 2, 3, 4];
        let k = random.below(4);
        order.swap(k, k + 1 + random.below(4 - k));
        let mut words = vec![0; HEAD];
        words[0] = FIRST;
        for k in order {
            words[first(k)] = words.len() as u64;
            words[count(k)] = parts[k].len() as u64;
            words.extend(&parts[k]);
        }
        bytes(&words)
    }),
    broken("bodies in another order", |random, bodies| {
        // The pairs are those of the right order.
        let mut other = bodies.clone();
        match random.below(3) {
            0 => std::mem::swap(&mut other.model, &mut other.window),
            1 => std::mem::swap(&mut other.model, &mut other.events),
            _ => std::mem::swap(&mut other.window, &mut other.events),
        }
        bytes(&packed(&other))
    }),
    broken("depot neither 0 nor 1", |random, mut bodies| {
        let depot = bodies.model[DEPOT];
        let words = [2, 3, 256, u64::MAX, 1.0_f64.to_bits(), wide(random, depot)];
        bodies.model[DEPOT] = words[random.below(words.len())];
        bytes(&packed(&bodies))
    }),
    broken("no volume, or more than 3", |random, mut bodies| {
        let count = bodies.model[COUNT];
        let words = [0, 4, 5, u64::MAX, 2.0_f64.to_bits(), wide(random, count)];
        let word = words[random.below(words.len())];
        bodies.model[COUNT] = word;
        // As long as such a model would be.
        if word <= 5 && random.chance(70) {
            let length = (2 * word + 3) as usize;
            bodies.model.resize(length, 1.0_f64.to_bits());
        }
        bytes(&packed(&bodies))
    }),
    broken("a model of another length", |random, mut bodies| {
        let right = bodies.model.len();
        let mut length = right;
        while length == right {
            length =
                [right - 1, right + 1, right - 2, right + 2, random.below(12)][random.below(5)];
        }
        bodies.model.resize(length, 1.0_f64.to_bits());
        bytes(&packed(&bodies))
    }),
    broken("as many exchanges as volumes", |_, mut bodies| {
        bodies.model.push(0);
        bytes(&packed(&bodies))
    }),
    broken("a window of another length", |random, mut bodies| {
        let length = [0, 1, 7, 8, 10, 11, 18][random.below(7)];
        bodies.window.resize(length, 1.0_f64.to_bits());
        bytes(&packed(&bodies))
    }),
    broken("events of another length", |random, mut bodies| {
        let length = bodies.events.len() + 1 + random.below(5);
        bodies.events.resize(length, 0);
        bytes(&packed(&bodies))
    }),
    broken("a kind that there is not", |random, bodies| {
        let more = random.next() | 4;
        let words = [
            3,
            3,
            4,
            255,
            256,
            1 << 32,
            (1 << 32) + 1,
            1 << 63,
            u64::MAX,
            more,
        ];
        with_event(random, bodies, None, 0, &words)
    }),
    broken("an order above 65,535", |random, bodies| {
        let words = [65_536, 65_536, 65_537, 131_071, 1 << 32, 1 << 63, u64::MAX];
        with_event(random, bodies, Some(RESET), 4, &words)
    }),
    broken("stops neither 0 nor 1", |random, bodies| {
        let words = [2, 2, 3, 256, 257, 1 << 32, (1 << 32) + 1, 1 << 63, u64::MAX];
        with_event(random, bodies, Some(RESET), 5, &words)
    }),
    broken("8,193 words", |random, mut bodies| {
        let more = WORDS + 1 - packed(&bodies).len();
        grow(random, &mut bodies, more);
        bytes(&packed(&bodies))
    }),
    broken("far more than 8,192 words", |random, mut bodies| {
        let more = WORDS + 2 + random.below(3000) - packed(&bodies).len();
        grow(random, &mut bodies, more);
        bytes(&packed(&bodies))
    }),
    broken("bytes behind 8,192 words", |random, mut bodies| {
        let more = WORDS - packed(&bodies).len();
        grow(random, &mut bodies, more);
        let mut all = bytes(&packed(&bodies));
        all.resize(all.len() + 1 + random.below(7), 0);
        all
    }),
    broken(
        "over a limit, and the last event has a kind that there is not",
        |random, mut bodies| {
            over_limit(random, &mut bodies);
            let at = some_event(random, &mut bodies, None);
            let words = bodies.events[at..at + EVENT].to_vec();
            bodies.events.extend(words);
            let last = bodies.events.len() - EVENT;
            bodies.events[last] = 3;
            bytes(&packed(&bodies))
        },
    ),
    broken("everything else is unfit too", |random, mut bodies| {
        spoil(random, &mut bodies, 4);
        match random.below(3) {
            0 => bodies.model[COUNT] = 0,
            1 => bodies.window.push(0),
            _ => bodies.events.push(0),
        }
        bytes(&packed(&bodies))
    }),
];
