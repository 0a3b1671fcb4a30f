//! What is compared of an answer, and its form between processes.

/// Refusal 0, 30, 31 or 32; the furthest error's place under 30; the set of parses, and the printed value under 0.
#[derive(Clone, Debug, Default, PartialEq)]
pub struct Answer {
    pub refusal: u32,
    pub place: u32,
    pub parses: Vec<Parse>,
    pub value: String,
}

#[derive(Clone, Debug, PartialEq, Eq, PartialOrd, Ord)]
pub struct Parse {
    pub rest: u32,
    pub level: u32,
    pub associativity: u32,
    pub value: String,
}

impl Answer {
    /// With the parses in an order of their own: the two sides list a set in different orders.
    pub fn sorted(mut self) -> Answer {
        self.parses.sort();
        self
    }

    /// The depths of the declared variables in the parses' values. No other part of a value has a full stop.
    pub fn declared_depths(&self) -> impl Iterator<Item = u32> + '_ {
        let variables = self.parses.iter().flat_map(|parse| parse.value.split('$').skip(1));
        variables.filter_map(|variable| variable.split_once('.')).map(|(depth, _)| depth.parse().expect("a depth"))
    }

    pub fn bytes(&self) -> Vec<u8> {
        let mut bytes = Vec::new();
        put_numbers(&mut bytes, &[self.refusal, self.place, self.parses.len() as u32]);
        for parse in &self.parses {
            put_numbers(&mut bytes, &[parse.rest, parse.level, parse.associativity]);
            put_bytes(&mut bytes, parse.value.as_bytes());
        }
        put_bytes(&mut bytes, self.value.as_bytes());
        bytes
    }

    pub fn of(bytes: &[u8]) -> Answer {
        let mut rest = bytes;
        let (refusal, place, count) = (take_number(&mut rest), take_number(&mut rest), take_number(&mut rest));
        let parse = |rest: &mut &[u8]| Parse {
            rest: take_number(rest),
            level: take_number(rest),
            associativity: take_number(rest),
            value: take_string(rest),
        };
        let parses = (0..count).map(|_| parse(&mut rest)).collect();
        Answer { refusal, place, parses, value: take_string(&mut rest) }
    }
}

/// Numbers are four bytes, the low one first; bytes stand behind their length.
pub fn put_numbers(bytes: &mut Vec<u8>, numbers: &[u32]) {
    bytes.extend(numbers.iter().flat_map(|n| n.to_le_bytes()));
}

pub fn put_bytes(bytes: &mut Vec<u8>, more: &[u8]) {
    put_numbers(bytes, &[more.len() as u32]);
    bytes.extend(more);
}

pub fn take_number(rest: &mut &[u8]) -> u32 {
    let (number, after) = rest.split_first_chunk().expect("a number");
    *rest = after;
    u32::from_le_bytes(*number)
}

pub fn take_bytes<'a>(rest: &mut &'a [u8]) -> &'a [u8] {
    let length = take_number(rest) as usize;
    let (bytes, after) = rest.split_at(length);
    *rest = after;
    bytes
}

fn take_string(rest: &mut &[u8]) -> String {
    String::from_utf8(take_bytes(rest).to_vec()).expect("text")
}
