// The chart of docs/NOTES.md, grown token by token: phrases and rules are numbered, facts are taken from an agenda, and hash maps find
// what joins.
use crate::grammar::{Grammar, Symbol};
use crate::hash::{Interner, QuickMap, QuickSet};
use std::hash::{Hash, Hasher};
use std::mem::take;

pub const MOST_TOKENS: usize = 64;

// A span, from one position to another.
pub type Span = (u8, u8);
pub const UNREAD: Span = (255, 255);

pub type PhraseId = u32;
pub type RuleId = u32;
const NONE: PhraseId = u32::MAX;

#[derive(Clone, Copy, PartialEq, Eq)]
pub struct Phrase {
    pub category: u8,
    pub spans: [Span; 3],
}

impl Hash for Phrase {
    fn hash<H: Hasher>(&self, state: &mut H) {
        let [(a, b), (c, d), (e, f)] = self.spans;
        state.write_u64(u64::from_le_bytes([self.category, a, b, c, d, e, f, 0]));
    }
}

impl Phrase {
    fn bare(category: u8) -> Phrase {
        Phrase { category, spans: [UNREAD; 3] }
    }

    pub fn is_bare(&self) -> bool {
        self.spans == [UNREAD; 3]
    }

    fn with(mut self, constituent: u8, span: Span) -> Phrase {
        self.spans[constituent as usize] = span;
        self
    }
}

#[derive(Clone, Copy, PartialEq, Eq)]
pub struct Rule {
    pub left: PhraseId,
    pub place: u16,
    pub arguments: [PhraseId; 3],
}

impl Hash for Rule {
    fn hash<H: Hasher>(&self, state: &mut H) {
        let [a, b, c] = self.arguments.map(u64::from);
        state.write_u64(u64::from(self.left) << 32 | u64::from(self.place));
        state.write_u64(a << 32 | b);
        state.write_u64(c);
    }
}

#[derive(Clone, Copy, PartialEq, Eq)]
struct Item {
    rule: RuleId,
    constituent: u8,
    start: u8,
    dot: u8,
    end: u8,
}

impl Hash for Item {
    fn hash<H: Hasher>(&self, state: &mut H) {
        let at = u32::from_le_bytes([self.constituent, self.start, self.dot, self.end]);
        state.write_u64(u64::from(self.rule) << 32 | u64::from(at));
    }
}

// A constituent of a phrase that is unread in it, at a position.
#[derive(Clone, Copy, PartialEq, Eq)]
struct Part {
    phrase: PhraseId,
    constituent: u8,
    start: u8,
}

impl Hash for Part {
    fn hash<H: Hasher>(&self, state: &mut H) {
        state.write_u64(u64::from(self.phrase) << 16 | u64::from(self.constituent) << 8 | u64::from(self.start));
    }
}

// The items that wait for a part, and the phrases with rules that have it read.
#[derive(Default)]
struct Meeting {
    waiting: Vec<Item>,
    read: Vec<PhraseId>,
}

// What is known of a phrase.
#[derive(Default)]
struct Known {
    // Its bare or made rules.
    rules: Vec<RuleId>,
    // The constituents that are awaited, with where.
    awaited: Vec<(u8, u8)>,
}

enum Fact {
    Item(Item),
    Made(RuleId),
}

pub enum Refusal {
    UnknownToken = 9,
    FullNote = 10,
    NoTree = 11,
}

pub struct Chart<'g> {
    pub grammar: &'g Grammar,
    tokens: Vec<u16>,
    pub phrases: Interner<Phrase>,
    known: Vec<Known>,
    pub rules: Interner<Rule>,
    is_made: Vec<bool>,
    made: usize,
    items: QuickSet<Item>,
    parts: QuickMap<Part, u32>,
    meetings: Vec<Meeting>,
    // The items that go on, if they do, when there are so many tokens.
    due: Vec<Vec<Item>>,
    agenda: Vec<Fact>,
}

impl<'g> Chart<'g> {
    // The chart of no tokens.
    pub fn open(grammar: &'g Grammar) -> Chart<'g> {
        let mut chart = Chart {
            grammar,
            tokens: Vec::new(),
            phrases: Interner::new(),
            known: Vec::new(),
            rules: Interner::new(),
            is_made: Vec::new(),
            made: 0,
            items: QuickSet::default(),
            parts: QuickMap::default(),
            meetings: Vec::new(),
            due: (0..=2 * MOST_TOKENS).map(|_| Vec::new()).collect(),
            agenda: Vec::new(),
        };
        let start = chart.phrase(Phrase::bare(grammar.start));
        chart.predict(start, 0, 0);
        chart.close();
        chart
    }

    // Feeds a token: the cells in use then.
    pub fn feed(&mut self, token: u32) -> Result<usize, Refusal> {
        if token >= u32::from(self.grammar.tokens) {
            return Err(Refusal::UnknownToken);
        }
        if self.tokens.len() >= MOST_TOKENS {
            return Err(Refusal::FullNote);
        }
        let token = token as u16;
        if !self.offers().any(|t| t == token) {
            return Err(Refusal::NoTree);
        }
        self.tokens.push(token);
        for item in take(&mut self.due[self.tokens.len()]) {
            self.take_item(item);
        }
        self.close();
        Ok(self.cells())
    }

    pub fn cells(&self) -> usize {
        self.grammar.cells + self.tokens.len() + self.items.len() + self.made
    }

    // The tokens that may follow, ascending.
    pub fn next_list(&self) -> Vec<u32> {
        let mut marks = vec![false; self.grammar.tokens as usize];
        for token in self.offers() {
            marks[token as usize] = true;
        }
        (0..).zip(marks).filter(|(_, mark)| *mark).map(|(t, _)| t).collect()
    }

    pub fn is_complete(&self) -> bool {
        self.whole().is_some()
    }

    // The start phrase read as the whole of the tokens, if it has a rule.
    pub fn whole(&self) -> Option<PhraseId> {
        let whole = Phrase::bare(self.grammar.start).with(0, (0, self.tokens.len() as u8));
        let id = self.phrases.find(&whole)?;
        (!self.known[id as usize].rules.is_empty()).then_some(id)
    }

    // The phrases that are not bare and have rules, and these rules.
    pub fn made_phrases(&self) -> impl Iterator<Item = (PhraseId, &[RuleId])> {
        let phrases = self.known.iter().enumerate().map(|(id, known)| (id as PhraseId, &known.rules[..]));
        phrases.filter(move |(id, rules)| !rules.is_empty() && !self.phrases.value(*id).is_bare())
    }

    // How many phrases made rules have on their left, and the categories.
    pub fn bound(&self) -> usize {
        self.grammar.dimensions.len() + self.made_phrases().count()
    }

    pub fn arguments(rule: Rule) -> impl Iterator<Item = PhraseId> {
        rule.arguments.into_iter().filter(|a| *a != NONE)
    }

    // The tokens that some item stands before.
    fn offers(&self) -> impl Iterator<Item = u16> + '_ {
        let n = self.tokens.len();
        self.due[n + 1..=(2 * n + 1).min(2 * MOST_TOKENS)].iter().flatten().filter_map(move |item| self.offered(*item))
    }

    fn offered(&self, item: Item) -> Option<u16> {
        let rule = self.rules.value(item.rule);
        match self.grammar.symbol(rule.place, item.constituent, item.dot)? {
            Symbol::Token(t) => Some(t),
            Symbol::Argument(d, s) => {
                let (a, _) = self.phrases.value(rule.arguments[d as usize]).spans[s as usize];
                let read = self.tokens.get(item.end as usize..)?;
                let copy = &self.tokens[a as usize..];
                copy.starts_with(read).then(|| copy.get(read.len()).copied())?
            }
        }
    }

    fn phrase(&mut self, phrase: Phrase) -> PhraseId {
        let (id, new) = self.phrases.number(phrase);
        if new {
            self.known.push(Known::default());
            if phrase.is_bare() {
                self.add_bare_rules(id, phrase.category);
            }
        }
        id
    }

    fn add_bare_rules(&mut self, left: PhraseId, category: u8) {
        let grammar = self.grammar;
        for place in &grammar.live[category as usize] {
            let mut arguments = [NONE; 3];
            for (d, argument) in grammar.place(*place).arguments.iter().enumerate() {
                arguments[d] = self.phrase(Phrase::bare(*argument));
            }
            let rule = self.rule(Rule { left, place: *place, arguments });
            self.known[left as usize].rules.push(rule);
        }
    }

    fn rule(&mut self, rule: Rule) -> RuleId {
        let (id, new) = self.rules.number(rule);
        if new {
            self.is_made.push(false);
        }
        id
    }

    fn meeting(&mut self, part: Part) -> usize {
        let next = self.meetings.len() as u32;
        let number = *self.parts.entry(part).or_insert(next);
        if number == next {
            self.meetings.push(Meeting::default());
        }
        number as usize
    }

    fn add(&mut self, item: Item) {
        if self.items.insert(item) {
            self.agenda.push(Fact::Item(item));
        }
    }

    // Each rule of the phrase starts to read the constituent.
    fn predict(&mut self, phrase: PhraseId, constituent: u8, k: u8) {
        self.known[phrase as usize].awaited.push((constituent, k));
        let rules = take(&mut self.known[phrase as usize].rules);
        for rule in &rules {
            self.add(Item { rule: *rule, constituent, start: k, dot: 0, end: k });
        }
        self.known[phrase as usize].rules = rules;
    }

    // Takes all facts of the agenda.
    fn close(&mut self) {
        while let Some(fact) = self.agenda.pop() {
            match fact {
                Fact::Item(item) => self.take_item(item),
                Fact::Made(rule) => self.take_made(rule),
            }
        }
    }

    fn take_item(&mut self, item: Item) {
        let rule = self.rules.value(item.rule);
        match self.grammar.symbol(rule.place, item.constituent, item.dot) {
            None => self.finish(item, rule),
            Some(Symbol::Token(t)) => match self.tokens.get(item.end as usize) {
                Some(next) if *next == t => self.add(Item { dot: item.dot + 1, end: item.end + 1, ..item }),
                Some(_) => {}
                None => self.due[item.end as usize + 1].push(item),
            },
            Some(Symbol::Argument(d, s)) => {
                let argument = rule.arguments[d as usize];
                match self.phrases.value(argument).spans[s as usize] {
                    UNREAD => self.wait(item, Part { phrase: argument, constituent: s, start: item.end }),
                    span => self.copy(item, span),
                }
            }
        }
    }

    fn copy(&mut self, item: Item, (a, b): Span) {
        let end = item.end + (b - a);
        match self.tokens.get(item.end as usize..end as usize) {
            Some(part) if *part == self.tokens[a as usize..b as usize] => self.add(Item { dot: item.dot + 1, end, ..item }),
            Some(_) => {}
            None => self.due[end as usize].push(item),
        }
    }

    fn finish(&mut self, item: Item, rule: Rule) {
        let left = self.phrases.value(rule.left).with(item.constituent, (item.start, item.end));
        let left = self.phrase(left);
        let made = self.rule(Rule { left, ..rule });
        if !self.is_made[made as usize] {
            self.is_made[made as usize] = true;
            self.made += 1;
            self.agenda.push(Fact::Made(made));
        }
    }

    // The item waits for the part.
    fn wait(&mut self, item: Item, part: Part) {
        let meeting = self.meeting(part);
        if self.meetings[meeting].waiting.is_empty() {
            self.predict(part.phrase, part.constituent, part.start);
        }
        self.meetings[meeting].waiting.push(item);
        let read = take(&mut self.meetings[meeting].read);
        for phrase in &read {
            self.combine(item, *phrase);
        }
        self.meetings[meeting].read = read;
    }

    fn take_made(&mut self, id: RuleId) {
        let left = self.rules.value(id).left;
        let known = &mut self.known[left as usize];
        let first = known.rules.is_empty();
        known.rules.push(id);
        for i in 0..known.awaited.len() {
            let (constituent, k) = self.known[left as usize].awaited[i];
            self.add(Item { rule: id, constituent, start: k, dot: 0, end: k });
        }
        if first {
            self.meet(left);
        }
    }

    // The phrase has its first rule: the items go on that wait for one of its parts.
    fn meet(&mut self, read: PhraseId) {
        let phrase = self.phrases.value(read);
        for constituent in 0..3 {
            let (start, _) = phrase.spans[constituent as usize];
            if phrase.spans[constituent as usize] == UNREAD {
                continue;
            }
            let awaited = self.phrase(phrase.with(constituent, UNREAD));
            let meeting = self.meeting(Part { phrase: awaited, constituent, start });
            self.meetings[meeting].read.push(read);
            let waiting = take(&mut self.meetings[meeting].waiting);
            for item in &waiting {
                self.combine(*item, read);
            }
            self.meetings[meeting].waiting = waiting;
        }
    }

    // The item goes on past its argument, which is now the phrase.
    fn combine(&mut self, item: Item, phrase: PhraseId) {
        let mut rule = self.rules.value(item.rule);
        if let Some(Symbol::Argument(d, s)) = self.grammar.symbol(rule.place, item.constituent, item.dot) {
            rule.arguments[d as usize] = phrase;
            let (_, end) = self.phrases.value(phrase).spans[s as usize];
            let rule = self.rule(rule);
            self.add(Item { rule, dot: item.dot + 1, end, ..item });
        }
    }
}
