// Demand 3's pairs: a question with other names and literals, and the reply that must then come.
use crate::asked::Reply;
use crate::question::FIRST_FRESH;
use crate::rng::Rng;

/// A one-to-one map of the names below 1,000,000; fresh names stay.
struct Names {
    times: u64,
    plus: u64,
}

impl Names {
    /// `times` shares no factor with 1,000,000, so that no two names meet.
    fn new(rng: &mut Rng) -> Names {
        let any = 10 * u64::from(rng.below(100_000)) + rng.pick(&[1, 3, 7, 9]);
        let times = [1, u64::from(FIRST_FRESH) - 1, any][rng.index(3)];
        let most = rng.pick(&[12, FIRST_FRESH]);
        Names { times, plus: u64::from(rng.below(most)) }
    }

    fn of(&self, name: u32) -> u32 {
        if name >= FIRST_FRESH {
            return name;
        }
        ((self.times * u64::from(name) + self.plus) % u64::from(FIRST_FRESH)) as u32
    }
}

/// How a question's names are paired with its twin's.
pub struct Pairing {
    variables: Names,
    types: Names,
}

/// Takes words one after the other and puts them out, changed where the pairing says so.
struct Renaming<'a> {
    pairing: &'a Pairing,
    rest: &'a [u32],
    out: Vec<u32>,
    /// Literals get new values from here; a report has none.
    rng: Option<&'a mut Rng>,
}

impl<'a> Renaming<'a> {
    fn new(pairing: &'a Pairing, rest: &'a [u32], rng: Option<&'a mut Rng>) -> Self {
        Renaming { pairing, rest, out: Vec::new(), rng }
    }

    fn next(&mut self) -> u32 {
        let word = self.rest[0];
        self.rest = &self.rest[1..];
        word
    }

    fn same(&mut self) -> u32 {
        let word = self.next();
        self.out.push(word);
        word
    }

    fn renamed(&mut self, names: &Names) {
        let name = self.next();
        self.out.push(names.of(name));
    }

    fn literal(&mut self, bound: u32) {
        self.next();
        let rng = self.rng.as_mut().expect("a report has no literals");
        self.out.push(rng.below(bound));
    }

    /// A section after its count: the words of a code that are its own stand before its parts.
    fn section(&mut self) {
        let count = self.same() as usize;
        let end = self.rest.len() - count;
        while self.rest.len() > end {
            match self.same() {
                16 | 18 | 24 | 32 => self.renamed(&self.pairing.variables),
                3 | 4 | 6 | 20 | 33..=36 => self.renamed(&self.pairing.types),
                22 => (0..2).for_each(|_| self.literal(u32::MAX)),
                23 => self.literal(2),
                26 => self.heading(1),
                _ => (),
            }
        }
    }

    /// Words that are neither names nor literals.
    fn heading(&mut self, count: usize) {
        for _ in 0..count {
            self.same();
        }
    }

    fn tree(&mut self) {
        self.heading(1);
        while !self.rest.is_empty() {
            self.heading(3);
            (0..5).for_each(|_| self.section());
        }
    }
}

impl Pairing {
    pub fn new(rng: &mut Rng) -> Pairing {
        Pairing { variables: Names::new(rng), types: Names::new(rng) }
    }

    /// The twin of a question that can be read.
    pub fn question(&self, words: &[u32], rng: &mut Rng) -> Vec<u32> {
        let mut renaming = Renaming::new(self, words, Some(rng));
        renaming.heading(2);
        (0..4).for_each(|_| renaming.section());
        renaming.out
    }

    /// The reply that the twin must have.
    pub fn reply(&self, reply: &Reply) -> Reply {
        let mut renaming = Renaming::new(self, &reply.report, None);
        if !reply.report.is_empty() {
            (0..2).for_each(|_| renaming.section());
        }
        if reply.code == 0 {
            renaming.tree();
        }
        let report = renaming.out;
        let at = match reply.code {
            11 => self.variables.of(reply.at),
            14 => self.types.of(reply.at),
            _ => reply.at,
        };
        Reply { at, report, ..*reply }
    }
}
